"""Call lines: 26, refusals 14 to 19 and 21, and answered calls on both strands."""

import itertools
import random

import chance
from casebook import CALLS, EXAMPLE, PAIR, Case, bases, deck, reverse_complement, transcripts, turned, window, writer

LIMIT = 1_000_000_000
GOOD = b"1 111 T C\n"
MALFORMED = [
    b"", b" ", b"1", b"1 111", b"1 111 T", b"1 111 T ", b"1 111 T C ", b" 1 111 T C", b"1  111 T C",
    b"1 111  T C", b"1 111 T  C", b"1\t111\tT\tC", b"1 111 T C\r", b"01 111 T C", b"1 0111 T C", b"00 111 T C",
    b"1 00 T C", b"1000 111 T C", b"1 12345678901234567890 T C", b"1 00000000000000000111 T C",
    b"+1 111 T C", b"-1 111 T C", b"1 +111 T C", b"1 1e2 T C", b"1 111. T C", b"1 1,111 T C", b"X 111 T C",
    b"chr1 111 T C", b" 111 T C", b"1  T C", b"1 111 TT C", b"1 111 T CC", b"1 111  C", b"1 111 T C D",
    b"1 111 \xc3\x85 C", b"1 111 T C\0", b"\xef\xbb\xbf1 111 T C", b"1 /11 T C", b"1 :11 T C", b"#1 111 T C",
]
# 14 to 18 on PAIR, whose window holds [100, 300); each next to what it comes before.
REFUSED = [
    (b"1 1000010000 A C", "15"), (b"2 1000010000 A C", "15 before 14"), (b"1 9999999999999999999 A C", "15"),
    (b"1 4294967407 T C", "15, not 111 modulo 2^32"), (b"1 18446744073709551727 T C", "26: 20 digits"),
    (b"2 111 T C", "14"), (b"0 111 T C", "14"), (b"999 111 T C", "14"), (b"257 111 T C", "14, not 1 modulo 256"),
    (b"25 111 T N", "14 before 16"), (b"1 111 T T", "16"), (b"1 111 T N", "16"), (b"1 111 T c", "16"),
    (b"1 111 C C", "16 before 18"), (b"1 99 A A", "16 before 17"), (b"1 99 A C", "17"), (b"1 300 A C", "17"),
    (b"1 0 A C", "17"), (b"1 1000009999 A C", "17"), (b"1 111 A C", "18"), (b"1 111 t C", "18"),
    (b"1 111 \xff C", "18"), (b"1 111 T \xff", "16"), (b"1 111 T C", "answered"),
]


def every_base(t, first, data):
    """A call at each base of the window, alts in turn."""
    lines = b""
    for place, base in enumerate(data):
        alt = [b for b in b"ACGT" if b != base][place % 3]
        lines += b"%d %d %c %c\n" % (t.chromosome, first + place, base, alt)
    return lines


def strands():
    """The same gene on plus and, turned over, on minus; every base is called."""
    text = "transcript 1 3 plus {start}\nexons 30-60 73-90 110-111 112-140\ncds 40-{end} {phase}\nselenocysteine 48\n"
    rng = random.Random("strands")
    # Last codons of three, two and one base.
    for name, start, phase, end in (("complete", "complete", 0, 128), ("pad-1", "incomplete", 2, 129),
                                    ("pad-2", "incomplete", 1, 130)):
        t = transcripts(text.format(start=start, phase=phase, end=end))[0]
        data = bytearray(rng.choice(b"ACGT") for _ in range(170))
        codon = 48 - (8 + (3 - phase) % 3) % 3      # that of base 48
        data[40:43], data[codon:codon + 3], data[125:128] = b"ATG", b"TGA", b"TAA"
        data = bytes(data)
        yield Case(f"strand-plus-{name}", f"every base of a gene on plus, {start} start, first phase {phase}",
                   writer.deck([t]), writer.window(3, 0, data), every_base(t, 0, data))
        back, data = turned(t, 170, id=2), reverse_complement(data)
        yield Case(f"strand-minus-{name}", "the same gene turned over", writer.deck([back]),
                   writer.window(3, 0, data), every_base(back, 0, data))


def odd_bytes():
    """One gene for each byte that is no base: the byte stands in a padded, a
    whole and an unfinished codon, and the base beside it is called."""
    for strand, exons in (("plus", "10-16 40-47"), ("minus", "41-47 10-17")):
        for name, odd in (("blank", b" \n\r\t\0"), ("over-127", b"\x80\xa0\xc5\xe5\xff"), ("letters", b"acgtnNRZ/-")):
            rng, genes, data, calls = random.Random(f"odd {strand} {name}"), [], bytearray(), b""
            for place, byte in enumerate(odd):
                low = 100 * place
                t = transcripts(f"transcript {byte} 2 {strand} incomplete\nexons {exons}\ncds 10-47 2\n")[0]
                move = lambda interval: (interval[0] + low, interval[1] + low)
                t.exons, t.cds = [move(e) for e in t.exons], move(t.cds)
                t.segments = writer.intersections(t.exons, t.cds, 2)
                genes.append(t)
                data += bytes(rng.choice(b"ACGT") for _ in range(100))
                frame = chance.coding(t)       # 13 bases after one pad place: codons of 2, 3, 3, 3 and 2
                for at, beside in ((0, 1), (4, 3), (12, 11)):
                    data[frame[at]] = byte
                    base = data[frame[beside]]
                    calls += b"2 %d %c %c\n" % (frame[beside], base, [b for b in b"ACGT" if b != base][0])
                calls += b"2 %d %c A\n" % (frame[0], byte)
            yield Case(f"bytes-{name}-{strand}", f"window bytes that are no base ({name}) in padded, whole and unfinished codons",
                       writer.deck(genes), writer.window(2, 0, bytes(data)), calls)


def cases():
    shapes = b"".join(line + b"\n" for line in MALFORMED)
    yield Case("26-shapes", f"{len(MALFORMED)} malformed lines, then a good one", deck(PAIR), window(), shapes + GOOD, "1 0 26")
    yield Case("26-newline", "ref, then alt, is a newline: each makes two malformed lines", deck(PAIR), window(),
               b"1 111 \n C\n1 111 T \n" + GOOD, "1 0 26")
    yield Case("26-no-newline", "the last line has no newline", deck(PAIR), window(), GOOD + GOOD[:-1])
    yield Case("26-long", "one line of 65,536 bytes", deck(PAIR), window(), b"1" * 65535 + b"\n", "1 0 26")
    yield Case("calls-none", "an empty call file prints nothing", deck(PAIR), window(), b"")
    yield Case("calls-missing", "the same, without a call file", deck(PAIR), window(), None)
    yield Case("calls-refused", "14 to 18, each before those that follow it", deck(PAIR), window(),
               b"".join(line + b"\n" for line, _ in REFUSED), "1 7 15")
    yield Case("14-window", "the window is on another chromosome than the transcripts", deck(PAIR), window(2),
               CALLS + b"2 111 T C\n", "1 7 14")
    yield Case("14-window-chromosome", "a window on chromosome 40,000 is not judged by itself", deck(PAIR),
               window(40000), b"999 111 T C\n1 1000010000 A C\n" + CALLS, "1 7 14")
    two = EXAMPLE + "transcript 9 2 plus complete\nexons 100-190\n"
    yield Case("14-other-transcript", "two transcripts on two chromosomes", deck(two), window(), CALLS + b"2 111 T C\n")
    far = EXAMPLE + "transcript 9 1 minus complete\nexons 5189-5300\ntranscript 10 1 plus complete\nexons 5131-5300\n"
    yield Case("19-distance", "transcripts 5,000 and 5,001 bases away", deck(far), window(),
               b"".join(b"1 %d %c G\n" % (p, bases()[p - 100]) for p in (129, 130, 131, 188, 189)))
    cut = [(b"front", 111, bases()[11:]), (b"back", 100, bases()[:12])]
    for name, first, data in cut:
        yield Case(f"21-{name.decode()}", "the window ends inside codon 1", deck(EXAMPLE), window(1, first, data),
                   b"1 110 A C\n1 111 T C\n1 112 G C\n1 113 A C\n", )
    yield Case("21-split-codon", "a codon over two exons, the window holds the first alone", deck(EXAMPLE),
               window(1, 100, bases()[:40]), b"1 127 A C\n1 128 G C\n1 129 A C\n1 130 A C\n")
    high = f"transcript 4294967295 24 minus complete\nexons {LIMIT - 30}-{LIMIT} {LIMIT - 90}-{LIMIT - 50}\n"
    yield Case("limit", "a transcript up to the limit, the highest id, calls up to 1,000,009,999", deck(high),
               window(24, LIMIT - 20, b"ACGT" * 2505),
               b"".join(b"24 %d %c %c\n" % (p, b"ACGT"[(p - LIMIT) % 4], b"CGTA"[(p - LIMIT) % 4])
                        for p in (LIMIT - 20, LIMIT - 1, LIMIT, LIMIT + 4999, LIMIT + 5000, LIMIT + 9999, LIMIT + 10_000)))
    yield Case("window-high", "a window that begins at 2^64 - 1", deck(EXAMPLE), window(1, 2**64 - 1), CALLS, "1 7 17")
    yield from strands()
    yield from odd_bytes()
    inputs = (chance.good(random.Random(f"case {i}"), 60) for i in itertools.count())
    rich = (files for files in inputs if len(files[0]) > 300 and len(files[1]) > 300 and len(files[2]) > 300)
    for i, files in enumerate(itertools.islice(rich, 6), 1):
        yield Case(f"chance-{i}", "a random deck, its records in random order", *files)
