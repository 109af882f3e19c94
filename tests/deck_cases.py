"""Refusals 22 to 25: the deck as records and links."""

from casebook import CALLS, PAIR, Case, deck, patch, window, writer

GOOD = deck(PAIR)
COUNT = len(GOOD) // 16


def lengths():
    yield "missing", "no deck file", None
    yield "empty", "a deck of length 0", b""
    yield "odd", "a length that is no multiple of 16", GOOD[:-3]
    yield "one-byte", "one byte", b"\0"
    yield "long", "65,552 bytes", GOOD + writer.record(3, 0, 0, "II", 1, 2) * (4097 - COUNT)


def unused():
    """23: name, what, the deck, the record."""
    yield "kind", "an unknown kind", patch(GOOD, 3, 0, b"\6"), 3
    yield "kind-255", "kind 255", patch(GOOD, 13, 0, b"\xff"), 13
    yield "second-head", "a head elsewhere than record 0", patch(GOOD, 2, 0, bytes(16)), 2
    yield "no-head", "record 0 is a transcript", GOOD[16:32] + GOOD[16:], 0
    yield "head-mark", "mark of the head", patch(GOOD, 0, 1, b"\1"), 0
    yield "head-first", "byte 4 of the head", patch(GOOD, 0, 4, b"\1"), 0
    yield "head-last", "byte 15 of the head", patch(GOOD, 0, 15, b"\x80"), 0
    yield "transcript-mark", "mark bit 2 of a transcript", patch(GOOD, 7, 1, b"\7"), 7
    yield "transcript-last", "byte 15 of a transcript", patch(GOOD, 7, 15, b"\1"), 7
    yield "bounds-mark", "mark of the bounds", patch(GOOD, 4, 1, b"\1"), 4
    yield "bounds-next", "next index of the bounds", patch(GOOD, 4, 2, 5), 4
    yield "exon-mark", "mark of an exon", patch(GOOD, 9, 1, b"\1"), 9
    yield "exon-12", "byte 12 of an exon", patch(GOOD, 9, 12, b"\1"), 9
    yield "segment-14", "byte 14 of a segment", patch(GOOD, 6, 14, b"\1"), 6
    yield "selenocysteine-mark", "mark of a selenocysteine base", patch(GOOD, 13, 1, b"\2"), 13
    yield "selenocysteine-8", "byte 8 of a selenocysteine base", patch(GOOD, 13, 8, b"\1"), 13
    yield "lowest", "two such records: the lower", patch(patch(GOOD, 9, 1, b"\1"), 3, 15, b"\1"), 3
    yield "unreached", "such a record that no link reaches", GOOD + b"\7" * 16, COUNT
    yield "before-25", "and the head links to zero", patch(patch(GOOD, 0, 2, 0), 5, 15, b"\1"), 5
    yield "before-24", "and a link before it is bad", patch(patch(GOOD, 1, 10, 99), 5, 15, b"\1"), 5


def links():
    """24: name, what, the deck, the record."""
    stray = GOOD + writer.record(3, 0, 0, "II", 1, 2)
    yield "outside", "one past the last record", patch(GOOD, 3, 2, COUNT), 3
    yield "far-outside", "index 65,535", patch(GOOD, 7, 12, 65535), 7
    yield "head-kind", "the head links to an exon", patch(GOOD, 0, 2, 2), 0
    yield "exon-kind", "a transcript's first exon is a segment", patch(GOOD, 1, 10, 5), 1
    yield "next-exon-kind", "an exon's next is a transcript", patch(GOOD, 3, 2, 7), 3
    yield "bounds-kind", "a transcript's bounds are an exon", patch(GOOD, 7, 12, 9), 7
    yield "segment-kind", "the first segment is a selenocysteine base", patch(GOOD, 10, 12, 13), 10
    yield "next-segment-kind", "a segment's next is the bounds", patch(GOOD, 12, 2, 10), 12
    yield "selenocysteine-kind", "the first selenocysteine base is a segment", patch(GOOD, 10, 14, 11), 10
    yield "next-selenocysteine", "a selenocysteine base links to itself", patch(GOOD, 13, 2, 13), 13
    yield "transcript-kind", "a transcript's next is an exon", patch(GOOD, 1, 2, 8), 1
    yield "shared-exons", "two transcripts with the same exons", patch(GOOD, 7, 10, 2), 7
    yield "shared-bounds", "two transcripts with the same bounds", patch(GOOD, 7, 12, 4), 7
    yield "exon-cycle", "an exon links back to the first", patch(GOOD, 9, 2, 8), 9
    yield "transcript-cycle", "the last transcript links to the first", patch(GOOD, 7, 2, 1), 7
    yield "unreached", "two records that no link reaches: the lower", stray + stray[-16:], COUNT
    yield "unreached-transcript", "the chain ends before the second transcript", patch(GOOD, 1, 2, 0), 7
    yield "link-first", "a bad link and an unreached record: the link", patch(stray, 13, 2, 2), 13
    yield "exons-first", "bad links in an exon, in the bounds and in the transcript: the exon's", \
        patch(patch(patch(GOOD, 3, 2, 77), 4, 12, 77), 1, 2, 77), 3
    yield "exons-before-bounds", "bad links in an exon and in the transcript's bounds: the exon's", \
        patch(patch(GOOD, 3, 2, 77), 1, 12, 77), 3
    yield "bounds-before-next", "bad links in the transcript, to its bounds and to the next, and in a later exon", \
        patch(patch(patch(GOOD, 1, 12, 3), 1, 2, 77), 9, 2, 77), 1
    yield "selenocysteine-first", "bad links in a selenocysteine base and in the transcript's next: the base's", \
        patch(patch(GOOD, 13, 2, 77), 7, 2, 77), 13
    yield "bounds-first", "bad links in a segment and in the transcript's next: the segment's", \
        patch(patch(GOOD, 6, 2, 77), 1, 2, 77), 6
    yield "segments-first", "both links of the bounds and a segment's: the segment's", \
        patch(patch(GOOD, 10, 14, 77), 12, 2, 77), 12
    yield "chain-first", "a bad link in the second transcript, an exon without bases in the first: the link", \
        patch(patch(GOOD, 9, 2, 77), 2, 4, b"\xff"), 9


def cases():
    for name, what, data in lengths():
        yield Case(f"22-{name}", what, data, window(), CALLS, "0 0 22")
    for name, what, data, record in unused():
        yield Case(f"23-{name}", what, data, window(), CALLS, f"0 {record} 23")
    for name, what, data, record in links():
        yield Case(f"24-{name}", what, data, window(), CALLS, f"0 {record} 24")
    yield Case("25-head-alone", "the head alone", bytes(16), window(), CALLS, "0 0 25")
    yield Case("25-before-24", "the head links to zero, the others are not reached",
               patch(GOOD, 0, 2, 0), window(), CALLS, "0 0 25")
