"""Document 01's lister read a second time, in Python, for comparison with the
Rust's. Deck, files and call lines are read here; refusals 1 to 13, places and
columns are those of oracle/model.py and oracle/call_model.py."""

import pathlib
import re
import struct
import sys

sys.dont_write_bytecode = True
sys.path.insert(0, str(pathlib.Path(__file__).resolve().parent.parent / "oracle"))
from call_model import RANK, call
from listfile import KINDS, Segment, Transcript
from model import Model, refusal

# For each kind the bytes that may be other than zero; t has two bits.
USED = ["k.nn............", "ktnnuuuuuuuuuu..", "k...uuuuuuuuuuuu", "k.nnuuuuuuuu....",
        "kunnuuuuuuuuuu..", "k.nnuuuu........"]
MASK = {".": 0, "t": 3}
LINE = re.compile(rb"(0|[1-9][0-9]{0,2}) (0|[1-9][0-9]{0,18}) ([^ \n]) ([^ \n])\n", re.DOTALL)
NAMES = {rank: name for name, rank in RANK.items()}
# The model lists bases one by one.
WIDE = 200_000


class Refused(Exception):
    """A record and a number."""


class Wide(Exception):
    """A transcript that is too long for the model; the deck was not refused."""


def misused(at, record):
    kind = record[0]
    if kind > 5 or (kind == 0) != (at == 0):
        return True
    return any(byte & ~MASK.get(use, 255) for use, byte in zip(USED[kind], record))


def transcripts(deck):
    """(record, transcript) in chain order."""
    if not 1 <= len(deck) <= 65536 or len(deck) % 16:
        raise Refused(0, 22)
    records = [deck[at:at + 16] for at in range(0, len(deck), 16)]
    for at, record in enumerate(records):
        if misused(at, record):
            raise Refused(at, 23)
    if records[0][2:4] == b"\0\0":
        raise Refused(0, 25)
    unreached = set(range(1, len(records)))

    def chain(at, field, kind):
        """Follows the link at `field` of record `at`, then next links."""
        while to := struct.unpack_from("<H", records[at], field)[0]:
            if to not in unreached or records[to][0] != kind:
                raise Refused(at, 24)
            unreached.remove(to)
            yield to
            at, field = to, 2

    def fields(form, places):
        return [struct.unpack_from(form, records[at], 4) for at in places]

    found = []
    for at in chain(0, 2, 1):
        ident, chromosome = struct.unpack_from("<IH", records[at], 4)
        exons = fields("<II", chain(at, 10, 3))
        bounds = list(chain(at, 12, 2))
        cds = fields("<II", bounds)
        parts = [list(chain(at, 12, 4)) for at in bounds]
        sec = [base for at in bounds for base, in fields("<I", chain(at, 14, 5))]
        segments = [Segment(records[p][1], exon, start, end)
                    for part in parts for p, (start, end, exon) in zip(part, fields("<IIH", part))]
        edges = [edge for exon in exons for edge in exon]
        found.append((at, Transcript(
            ident, chromosome, records[at][1] & 1 == 1, records[at][1] & 2 == 2, bool(cds), len(exons),
            min(edges, default=0), max(edges, default=0), *(cds[0] if cds else (0, 0)), exons, segments, sec)))
    if unreached:
        raise Refused(min(unreached), 24)
    for at, t in found:
        if number := refusal(t):
            raise Refused(at, number)
    return found


def answer(model, window, chromosome, position, ref, alt):
    """The number and columns of a call."""
    t, (own, first, data) = model.t, window
    place = position - first
    refusals = [
        (15, position + 1 > 1_000_010_000), (14, (chromosome, own) != (t.chromosome, t.chromosome)),
        (16, alt not in b"ACGT" or alt == ref), (17, not 0 <= place < len(data)),
        (18, 0 <= place < len(data) and data[place] != ref)]
    for number, cause in refusals:
        if cause:
            return b"%d" % number
    number, columns = call(model, window, position, alt, KINDS)
    if number:
        return b"%d" % number
    where, exon, intron, *numbers, codons, letters, bits = columns
    terms = ",".join(NAMES[rank] for rank in sorted(NAMES) if bits >> (rank - 1) & 1)
    words = ["0", KINDS[where.kind], *("%d/%d" % of if of[0] else "-" for of in (exon, intron)),
             *(str(n or "-") for n in numbers)]
    return b" ".join([" ".join(words).encode(), codons or b"-", letters or b"-", terms.encode()])


def listing(deck, window, calls):
    try:
        found = transcripts(deck)
    except Refused as refused:
        return b"0 %d %d\n" % refused.args
    if not 10 <= len(window) <= 65536 or len(calls) > 65536:
        return b"0 0 27\n"
    window = (*struct.unpack_from("<HQ", window), window[10:])
    if any(t.tx_end - t.tx_start > WIDE for _, t in found):
        raise Wide
    models, out = [Model(t) for _, t in found], b""
    for number, line in enumerate(re.findall(rb"[^\n]*\n|[^\n]+\Z", calls), 1):
        parts = LINE.fullmatch(line)
        if not parts:
            out += b"%d 0 26\n" % number
            continue
        chromosome, position, ref, alt = parts.groups()
        for model in models:
            columns = answer(model, window, int(chromosome), int(position), ref[0], alt[0])
            out += b"%d %d %s\n" % (number, model.t.id, columns)
    return out
