"""What a case is, and the small deck that most cases change."""

import dataclasses
import struct

from chance import writer

EXAMPLE = """
transcript 7 1 plus complete
exons 100-130 160-190
cds 110-170 0
"""
# The two transcripts stand in these records.
#   0 head, 1 transcript, 2 and 3 exons, 4 bounds, 5 and 6 segments,
#   7 transcript, 8 and 9 exons, 10 bounds, 11 and 12 segments, 13 selenocysteine
PAIR = EXAMPLE + """
transcript 8 1 minus complete
exons 260-290 220-250
cds 225-285 0
selenocysteine 240
"""
CALLS = b"1 111 T C\n1 129 A C\n1 130 A G\n"


@dataclasses.dataclass
class Case:
    name: str
    what: str
    deck: bytes = None          # None: the file is left out
    window: bytes = None
    calls: bytes = b""
    first: str = None           # the first line that document 01 asks for, where it is worth saying


def transcripts(text):
    return writer.describe(text)[0]


def deck(text):
    return writer.deck(transcripts(text))


def patch(data, record, at, value):
    """Bytes put into a record at byte `at`; a number is a link of two bytes."""
    value = struct.pack("<H", value) if isinstance(value, int) else value
    place = 16 * record + at
    return data[:place] + value + data[place + len(value):]


def bases():
    """The 90 bases of document 01's example, and 110 more."""
    found = bytearray(b"A" * 90 + b"CGTTGCAAGTTC" * 9 + b"CG")
    for position, base in ((111, b"T"), (167, b"T"), (112, b"G"), (128, b"G")):
        found[position - 100] = base[0]
    return bytes(found)


def window(chromosome=1, first=100, data=None):
    return writer.window(chromosome, first, bases() if data is None else data)


def reverse_complement(data):
    return data[::-1].translate(bytes.maketrans(b"ACGT", b"TGCA"))


def turned(t, length, **fields):
    """The transcript on the other strand of a window of this length from 0, with some of its fields set."""
    turn = lambda start, end: (length - end, length - start)
    return dataclasses.replace(t, minus=not t.minus, exons=[turn(*e) for e in t.exons], cds=t.cds and turn(*t.cds),
                               segments=[(phase, exon, *turn(*span)) for phase, exon, *span in t.segments],
                               selenocysteine=[length - 1 - b for b in t.selenocysteine], **fields)
