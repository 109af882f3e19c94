#!/usr/bin/env python3
"""deck.py TEXT DECK WINDOW: writes a deck and a window from a description.

One statement a line; lines that begin with # and empty lines are passed over.
    transcript ID CHROMOSOME plus|minus complete|incomplete
    exons START-END ...                     in strand order
    cds START-END PHASE                     PHASE is that of the first segment
    segments PHASE:EXON:START-END ...       instead of those that cds gives
    selenocysteine BASE ...
    window CHROMOSOME FIRST BASES
    bases BASES                             more bases of the window
Statements after `transcript` are about it. Coordinates are 0-based, half-open.
Nothing is judged here: what the lister refuses can be written too.
"""

import dataclasses
import struct
import sys

HEAD, TRANSCRIPT, BOUNDS, EXON, SEGMENT, SELENOCYSTEINE = range(6)


@dataclasses.dataclass
class Transcript:
    id: int
    chromosome: int
    minus: bool
    complete: bool
    exons: list                 # (start, end)
    cds: tuple = None           # (start, end)
    segments: list = dataclasses.field(default_factory=list)    # (phase, exon, start, end)
    selenocysteine: list = dataclasses.field(default_factory=list)


def intersections(exons, cds, phase):
    """The segments of a CDS, with phases that continue the frame of the first."""
    segments, padded = [], (3 - phase) % 3
    for i, (start, end) in enumerate(exons):
        start, end = max(start, cds[0]), min(end, cds[1])
        if start < end:
            segments.append(((3 - padded % 3) % 3, i, start, end))
            padded += end - start
    return segments


def record(kind, mark, link, form, *fields):
    """16 bytes; form describes those from byte 4 on."""
    return (struct.pack("<BBH", kind, mark, link) + struct.pack("<" + form, *fields)).ljust(16, b"\0")


def deck(transcripts):
    """The records in the order in which the deck is walked, head first."""
    records = [record(HEAD, 0, 1 if transcripts else 0, "")]
    for place, t in enumerate(transcripts, 1):
        first_exon = len(records) + 1
        bounds = first_exon + len(t.exons)
        first_segment = bounds + 1
        first_base = first_segment + len(t.segments)
        past = first_base + len(t.selenocysteine) if t.cds else bounds
        links = (first_exon if t.exons else 0, bounds if t.cds else 0)
        records.append(record(TRANSCRIPT, t.minus + 2 * t.complete,
                              past if place < len(transcripts) else 0,
                              "IHHH", t.id, t.chromosome, *links))
        records += chain(EXON, first_exon, [(0, "II", exon) for exon in t.exons])
        if t.cds:
            links = (first_segment if t.segments else 0, first_base if t.selenocysteine else 0)
            records.append(record(BOUNDS, 0, 0, "IIHH", *t.cds, *links))
            records += chain(SEGMENT, first_segment, [(phase, "IIH", (start, end, exon))
                                                      for phase, exon, start, end in t.segments])
            records += chain(SELENOCYSTEINE, first_base, [(0, "I", (b,)) for b in t.selenocysteine])
    return b"".join(records)


def chain(kind, first, items):
    """Neighbouring records, each linked to the one after it."""
    last = first + len(items) - 1
    return [record(kind, mark, 0 if at == last else at + 1, form, *fields)
            for at, (mark, form, fields) in enumerate(items, first)]


def window(chromosome, first, bases):
    return struct.pack("<HQ", chromosome, first) + bases


def span(word):
    start, end = word.split("-")
    return int(start), int(end)


def segment(word):
    phase, exon, bounds = word.split(":")
    return (int(phase), int(exon), *span(bounds))


def describe(text):
    """The transcripts and the window (chromosome, first, bases) of a description."""
    transcripts, place, bases = [], (0, 0), bytearray()
    for number, line in enumerate(text.splitlines(), 1):
        words = [] if line.startswith("#") else line.split()
        try:
            match words:
                case []:
                    pass
                case ["transcript", ident, chromosome, ("plus" | "minus") as strand,
                      ("complete" | "incomplete") as start]:
                    transcripts.append(Transcript(int(ident), int(chromosome), strand == "minus",
                                                  start == "complete", []))
                case ["exons", *exons]:
                    transcripts[-1].exons = [span(word) for word in exons]
                case ["cds", bounds, phase]:
                    t = transcripts[-1]
                    t.cds = span(bounds)
                    t.segments = intersections(t.exons, t.cds, int(phase))
                case ["segments", *segments]:
                    transcripts[-1].segments = [segment(word) for word in segments]
                case ["selenocysteine", *found]:
                    transcripts[-1].selenocysteine = [int(word) for word in found]
                case ["window", chromosome, first, more]:
                    place, bases = (int(chromosome), int(first)), bytearray(more.encode("latin-1"))
                case ["bases", more]:
                    bases += more.encode("latin-1")
                case _:
                    raise ValueError
        except (ValueError, IndexError):
            sys.exit(f"deck.py: line {number} is not understood: {line}")
    return transcripts, (*place, bytes(bases))


def main():
    if len(sys.argv) != 4:
        sys.exit(__doc__)
    with open(sys.argv[1], encoding="latin-1") as file:
        transcripts, place = describe(file.read())
    for path, data in zip(sys.argv[2:], (deck(transcripts), window(*place))):
        with open(path, "wb") as file:
            file.write(data)


if __name__ == "__main__":
    main()
