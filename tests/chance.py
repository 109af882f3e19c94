"""Random decks, windows and calls that no file refusal stops."""

import pathlib
import struct
import sys

sys.dont_write_bytecode = True
sys.path.insert(0, str(pathlib.Path(__file__).resolve().parent.parent / "demo"))
import deck as writer

LIMIT = 1_000_000_000
MITO = 25
# What chromosome 25 reads otherwise than the others do, and its other M.
TELLING = [b"AGA", b"AGG", b"ATA", b"TGA", b"ATG"]
ODD = b"Nnacgt-/ \n\r\0\x7f\x80\xc5\xe5\xff"
# Where the links of each kind of record stand.
LINKS = {0: [2], 1: [2, 10, 12], 2: [12, 14], 3: [2], 4: [2], 5: [2]}


def transcript(rng, ident, chromosome, low):
    """A transcript that passes 1 to 13, from base `low` on."""
    minus, rising = rng.random() < 0.5, []
    for _ in range(rng.choice([1, 1, 2, 2, 3, 4, 7])):
        end = low + rng.choice([1, 2, 3, rng.randint(4, 20), rng.randint(4, 60)])
        rising.append((low, end))
        low = end + rng.choice([0, 1, 2, rng.randint(3, 13), rng.randint(14, 40), rng.randint(41, 200)])
    exons = rising[::-1] if minus else rising
    t = writer.Transcript(ident, chromosome, minus, rng.random() < 0.5, exons)
    if rng.random() < 0.75:
        bases = [p for start, end in rising for p in range(start, end)]
        first, last = sorted((rng.choice(bases), rng.choice(bases)))
        phase = 0 if t.complete else rng.randrange(3)
        t.cds = (first, last + 1)
        t.segments = writer.intersections(exons, t.cds, phase)
        coding = [p for p in bases if first <= p <= last]
        t.selenocysteine = [rng.choice(coding) for _ in range(rng.choice([0, 0, 0, 1, 2, 5]))]
    return t


def coding(t):
    """Coding bases from 5' to 3'."""
    return [p for _, _, start, end in t.segments
            for p in (reversed(range(start, end)) if t.minus else range(start, end))]


def telling(rng, t, first, bases):
    """The window's bases with half of the transcript's whole codons set to one of TELLING."""
    frame, bases = coding(t), bytearray(bases)
    for at in range(t.segments[0][0] if frame else 0, len(frame) - 2, 3):
        codon = rng.choice(TELLING).translate(bytes.maketrans(b"ACGT", b"TGCA") if t.minus else None)
        for p, base in zip(frame[at:at + 3], codon if rng.random() < 0.5 else b""):
            if first <= p < first + len(bases):
                bases[p - first] = base
    return bytes(bases)


def shuffled(rng, deck):
    """The same deck with its records, the head apart, in another order."""
    records = [bytearray(deck[at:at + 16]) for at in range(0, len(deck), 16)]
    places = list(range(1, len(records)))
    rng.shuffle(places)
    places.insert(0, 0)
    out = [b""] * len(records)
    for old, record in enumerate(records):
        for at in LINKS[record[0]]:
            link = struct.unpack_from("<H", record, at)[0]
            struct.pack_into("<H", record, at, places[link])
        out[places[old]] = bytes(record)
    return b"".join(out)


def malformed(rng, line):
    at = rng.randrange(len(line) + 1)
    return rng.choice([
        b"", b" ", b"0" + line, b" " + line, line + b" ", line + b"\r", line[:at], line[at:],
        line.replace(b" ", b"\t"), line.replace(b" ", b"  ", 1), line[:at] + bytes([rng.randrange(256)]) + line[at:],
        b"1000" + line[1:], line.replace(b" ", b" 12345678901234567890", 1), line.replace(b" ", b" -", 1),
    ])


def calls(rng, chromosome, first, bases, transcripts, count):
    """Lines about places near the transcripts, some of them refused."""
    lines = []
    exons = [exon for t in transcripts for exon in t.exons if exon[0] < exon[1]] or [(first, first + 1)]
    for _ in range(count):
        exon = rng.choice(exons)
        edge = rng.choice(exon)
        position = max(0, rng.choice([
            rng.randrange(*exon), rng.randrange(*exon), rng.randrange(*exon), edge + rng.randint(-4, 4),
            edge + rng.randint(-40, 40), edge + rng.choice([-1, 1]) * rng.randint(4990, 5100),
            first + rng.randrange(len(bases) + 1)]))
        inside = first <= position < first + len(bases)
        ref, alt, own = bases[position - first] if inside else 65, rng.choice(b"ACGT"), chromosome
        trick = rng.randrange(40)
        if trick == 0:
            ref = rng.randrange(256)
        elif trick == 1:
            alt = rng.randrange(256)
        elif trick == 2:
            own = rng.choice([0, 1, 2, 25, 26, 257, 999])
        elif trick == 3:
            position = rng.choice([LIMIT, LIMIT + 9_999, LIMIT + 10_000, 2**32 + position, 2**63, 10**19 - 1])
        if ref == alt and rng.random() < 0.9:
            alt = rng.choice([b for b in b"ACGT" if b != ref])
        line = b"%d %d %c %c" % (own, position, ref, alt)
        lines.append(malformed(rng, line) if trick == 4 else line)
    text = b"".join(line + b"\n" for line in lines)
    return text[:-1] if rng.random() < 0.03 else text


def good(rng, most_calls=30, change=None):
    """Deck, window file and calls; `change` is done to one of the transcripts."""
    chromosome = rng.choice([1, MITO, 7, 23, 24, MITO])
    low = rng.choice([0, rng.randrange(20_000), rng.randrange(20_000), LIMIT - 8_000])
    transcripts = []
    for _ in range(rng.choice([1, 1, 2, 3, 5])):
        own = chromosome if rng.random() < 0.9 else rng.randint(1, 25)
        transcripts.append(transcript(rng, rng.randrange(2**32), own, low + rng.randrange(300)))
    past = max(max(exon) for t in transcripts for exon in t.exons)
    first = max(0, low + rng.randint(-20, 60))
    length = rng.choice([0, rng.randrange(200), *[past - low + 60] * 4])
    bases = bytes(rng.choice(ODD) if rng.random() < 0.05 else rng.choice(b"ACGT") for _ in range(length))
    for t in transcripts if chromosome == MITO else []:
        bases = telling(rng, t, first, bases)
    if change:
        change(rng, rng.choice(transcripts))
    deck = shuffled(rng, writer.deck(transcripts))
    seen = chromosome if rng.random() < 0.97 else rng.randrange(65536)
    text = calls(rng, chromosome, first, bases, transcripts, rng.randrange(most_calls + 1))
    return deck, writer.window(seen, first, bases), text


def large(rng):
    """Many transcripts or many calls, and files as long as they may be, or one
    byte longer."""
    deck, window, lines = good(rng, 3)
    if rng.random() < 0.5:
        found, low = [], rng.randrange(3000)
        while len(writer.deck(found)) < rng.choice([8_000, 65_000]):
            found += [transcript(rng, len(found), 1, low + rng.randrange(2000)) for _ in range(20)]
        deck = shuffled(rng, writer.deck(found))
    over = rng.randrange(2)
    if rng.random() < 0.5:
        window = (window + rng.randbytes(65_536))[:65_536 + over]
    else:
        lines = (lines * 65_536 + b"1 5 A\n" * 11_000)[:65_535 + over] + b"\n"
        deck = good(rng)[0]
    return deck, window, lines
