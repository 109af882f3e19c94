"""Reads the four lists. Every length and every byte that must be zero is checked."""

import collections
import struct

# Where the file of all lists stands, from the directory of the crates.
FILE = "replay/stdin"

# The lists in the order of the file; a block's kind is its list's place here.
LISTS = ["index", "places", "intervals", "calls"]

KINDS = ["Upstream", "Downstream", "Distal", "FivePrimeUtr", "CdsExon", "ThreePrimeUtr",
         "SpliceDonor", "SpliceAcceptor", "SpliceRegion", "Intron", "FrameshiftIntron",
         "NonCodingExon", "NonCodingIntron"]

Transcript = collections.namedtuple(
    "Transcript", "id chromosome minus start_complete has_cds exon_count tx_start tx_end "
    "cds_start cds_end exons segments sec")
Segment = collections.namedtuple("Segment", "phase exon start end")
Index = collections.namedtuple(
    "Index", "number pad short first_exon last_exon utr5 cumulative exon_segment sec_codons")
Place = collections.namedtuple("Place", "kind flag index segment in_codon number codon")
Interval = collections.namedtuple("Interval", "start end flank spill short distance")
Call = collections.namedtuple(
    "Call", "position ref alt number place exon intron cds cdna protein codons letters terms")

NONE = 65535


class Reader:
    """Takes numbers from bytes, in order, and insists on every zero."""

    def __init__(self, data):
        self.data, self.at = data, 0

    def take(self, form):
        values = struct.unpack_from("<" + form, self.data, self.at)
        self.at += struct.calcsize("<" + form)
        return values if len(values) > 1 else values[0]

    def bytes(self, count):
        part = self.data[self.at:self.at + count]
        assert len(part) == count, "the block ends too early"
        self.at += count
        return part

    def zeros(self, count):
        assert not any(self.bytes(count)), "a byte that is to be zero is not"

    def end(self):
        assert self.at == len(self.data), "the block goes on too long"


def read_transcript(r):
    ident, chromosome, strand, flags, exon_count, n, m, k = r.take("IHBBHHHH")
    tx_start, tx_end, cds_start, cds_end = r.take("IIII")
    assert strand <= 1 and flags <= 3
    has_cds = flags & 2 != 0
    assert has_cds or (cds_start, cds_end) == (0, 0)
    exons = [r.take("II") for _ in range(n)]
    segments = []
    for _ in range(m):
        phase, zero, exon, start, end = r.take("BBHII")
        assert zero == 0
        segments.append(Segment(phase, exon, start, end))
    sec = [r.take("I") for _ in range(k)]
    return Transcript(ident, chromosome, strand == 1, flags & 1 != 0, has_cds, exon_count,
                      tx_start, tx_end, cds_start, cds_end, exons, segments, sec)


def read_index(r, t):
    number = r.take("B")
    if number:
        r.zeros(3)
        return Index(number, *[None] * 8)
    pad, short = r.take("BB")
    r.zeros(1)
    first, last, utr5, c = r.take("HHIH")
    r.zeros(2)
    cumulative = [r.take("I") for _ in range(len(t.segments) + 1)]
    exon_segment = [r.take("H") for _ in range(len(t.exons))]
    return Index(0, pad, short, first, last, utr5, cumulative, exon_segment,
                 [r.take("I") for _ in range(c)])


def read_place(r):
    kind, flag, index, segment, in_codon = r.take("BBHHB")
    r.zeros(1)
    number, codon = r.take("iI")
    return Place(kind, flag, index, segment, in_codon, number, codon)


def read_text(r, room):
    length = r.take("B")
    assert length <= room
    text = r.bytes(length)
    r.zeros(room - length)
    return text


def read_call(r):
    position, ref, alt = r.take("IBB")
    r.zeros(2)
    number = r.take("B")
    r.zeros(3)
    if number:
        r.zeros(52)
        return Call(position, ref, alt, number, *[None] * 9)
    place = read_place(r)
    exon, intron = r.take("HH"), r.take("HH")
    cds, cdna, protein = r.take("III")
    codons, letters = read_text(r, 7), read_text(r, 3)
    return Call(position, ref, alt, 0, place, exon, intron, cds, cdna, protein,
                codons, letters, r.take("I"))


def read_block(name, data):
    """A transcript and its answers: a list of pairs for places, else of records.
    For calls a window stands between: (chromosome, first coordinate, bytes)."""
    r = Reader(data)
    t, window = read_transcript(r), None
    if name == "index":
        answers = [read_index(r, t)]
    else:
        if name == "calls":
            chromosome = r.take("H")
            r.zeros(2)
            first, length = r.take("II")
            window = (chromosome, first, r.bytes(length))
        count = r.take("I")
        assert count > 0, "a block without answers"
        if name == "places":
            answers = [(r.take("I"), read_place(r)) for _ in range(count)]
        elif name == "calls":
            answers = [read_call(r) for _ in range(count)]
        else:
            answers = [Interval(*r.take("IIBBHI")) for _ in range(count)]
    r.end()
    return t, window, answers


def split(path):
    """The blocks of each list, as they stand in the file."""
    lists = {name: [] for name in LISTS}
    data, at = path.read_bytes(), 0
    while at < len(data):
        assert at + 5 <= len(data), "the file ends before a kind"
        length, kind = struct.unpack_from("<IB", data, at)
        assert 1 <= length <= 65532, "a block is empty or too long"
        assert at + 4 + length <= len(data), "the file ends inside a block"
        assert kind < len(LISTS), "a block of an unknown kind"
        lists[LISTS[kind]].append(data[at:at + 4 + length])
        at += 4 + length
    return lists


def read_list(name, blocks):
    return (read_block(name, block[5:]) for block in blocks)
