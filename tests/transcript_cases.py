"""Refusals 1 to 13 of the second transcript of a deck; the first is well."""

import dataclasses

from casebook import CALLS, EXAMPLE, Case, transcripts, window, writer

# The second transcript begins in this record.
RECORD = 7
PLUS = "transcript 8 1 plus complete\nexons 200-220 230-250 260-280\ncds 205-270 0\n"
MINUS = "transcript 8 1 minus complete\nexons 260-280 230-250 200-220\ncds 205-270 0\n"
LONG = [(1000 + 10 * i, 1005 + 10 * i) for i in range(513)]


def changed(text=PLUS, **fields):
    """The second transcript with some of its fields set."""
    return dataclasses.replace(transcripts(text)[0], **fields)


def segments(*parts):
    return changed(segments=list(parts))


def refused():
    """The number, a name, what it is, the second transcript."""
    parts = transcripts(PLUS)[0].segments
    turned = transcripts(MINUS)[0].segments
    yield 1, "no-exons", "no exons", changed(exons=[], cds=None, segments=[])
    yield 1, "513-exons", "513 exons", changed(exons=LONG, cds=None, segments=[])
    yield 1, "segments", "more segments than exons", segments(*parts, parts[2])
    yield 1, "65-selenocysteine", "65 selenocysteine bases", changed(selenocysteine=[210] * 65)
    yield 2, "empty-exon", "an exon with start equal to end", changed(exons=[(200, 220), (230, 230), (260, 280)])
    yield 2, "empty-segment", "a segment with start over end", segments((0, 0, 220, 205), *parts[1:])
    yield 2, "exon-over", "an exon that ends over the limit", \
        changed(exons=[(200, 220), (230, 1_000_000_001)], cds=None, segments=[])
    yield 2, "cds-over", "a CDS that ends over the limit", changed(cds=(205, 1_000_000_001))
    yield 2, "selenocysteine-over", "a selenocysteine base over the limit", \
        changed(selenocysteine=[210, 1_000_000_001])
    yield 2, "chromosome-0", "chromosome 0", changed(chromosome=0)
    yield 2, "chromosome-26", "chromosome 26", changed(chromosome=26)
    yield 3, "plus", "exons on plus from the highest to the lowest", changed(exons=transcripts(MINUS)[0].exons)
    yield 3, "minus", "exons on minus from the lowest to the highest", \
        changed(MINUS, exons=transcripts(PLUS)[0].exons)
    yield 3, "overlap", "exons that share one base", changed(exons=[(200, 220), (219, 250), (260, 280)])
    yield 5, "no-segments", "bounds without segments", changed(segments=[])
    yield 5, "start-at-end", "CDS start equal to its end", changed(cds=(205, 205))
    yield 6, "phase-3", "phase 3 in the last segment", segments(*parts[:2], (3, *parts[2][1:]))
    yield 6, "phase-255", "phase 255", segments((255, *parts[0][1:]), *parts[1:])
    yield 7, "pad", "first phase 1 and start complete", segments((1, *parts[0][1:]), *parts[1:])
    yield 8, "missing-exon", "a segment in exon 3 of 0 to 2", segments(*parts[:2], (0, 3, *parts[2][2:]))
    yield 8, "before-9", "a missing exon, then an exon used again: the first segment at fault", \
        segments(parts[0], (0, 9, 230, 250), (0, 0, 260, 270))
    yield 9, "twice", "two segments in one exon", segments(*parts[:2], (0, 1, 260, 270))
    yield 9, "before-8", "an exon used again, then a missing one", \
        segments(parts[0], (0, 0, 230, 250), (0, 9, 260, 270))
    yield 10, "plus", "first coding base between exons", changed(cds=(225, 270), segments=parts[1:])
    yield 10, "minus", "the same on minus, where it is the highest", \
        changed(MINUS, complete=False, cds=(205, 256), segments=turned[1:])
    yield 11, "plus", "last coding base between exons", changed(cds=(205, 256), segments=parts[:2])
    yield 11, "minus", "the same on minus, where it is the lowest", \
        changed(MINUS, cds=(225, 270), segments=turned[:2])
    yield 12, "short", "a segment one base short", segments((0, 0, 205, 219), *parts[1:])
    yield 12, "missing", "the middle segment is missing", segments(parts[0], parts[2])
    yield 12, "order", "segments in the wrong order", segments(parts[1], parts[0], parts[2])
    yield 12, "exon-index", "segments with each other's exon index", \
        segments((0, 1, 205, 220), (0, 0, 230, 250), parts[2])
    yield 12, "vast", "five segments of a thousand million bases each", changed(
        exons=[(10 * i, 10 * i + 5) for i in range(5)], cds=(0, 45),
        segments=[(0, i, 0, 1_000_000_000) for i in range(5)])
    yield 12, "before-13", "a segment one base short, a selenocysteine base in no segment", \
        changed(segments=[(0, 0, 205, 219), *parts[1:]], selenocysteine=[219])
    yield 13, "intron", "a selenocysteine base between exons", changed(selenocysteine=[210, 225])
    yield 13, "utr", "a selenocysteine base in the 3' UTR", changed(selenocysteine=[270])


def cases():
    first = transcripts(EXAMPLE)
    for number, name, what, second in refused():
        yield Case(f"{number:02}-{name}", what, writer.deck([*first, second]), window(), CALLS,
                   f"0 {RECORD} {number}")
    third = changed(chromosome=0)
    yield Case("07-first-in-chain", "three transcripts, the second refused by 7, the third by 2: the second decides",
               writer.deck([*first, changed(segments=[(1, *s[1:]) for s in changed().segments]), third]),
               window(), CALLS, f"0 {RECORD} 7")
    fine = [
        ("512-exons", "512 exons, all coding", changed(
            exons=LONG[:512], cds=(1000, 6115), segments=[(0, i, *e) for i, e in enumerate(LONG[:512])])),
        ("64-selenocysteine", "64 selenocysteine bases, one codon over and over", changed(selenocysteine=[210] * 64)),
        ("touching", "touching exons on minus", changed(MINUS, exons=[(250, 280), (230, 250), (200, 230)], segments=[
            (0, 0, 250, 270), (1, 1, 230, 250), (0, 2, 205, 230)])),
        ("phases", "phases that do not continue the frame: only the first counts", segments(
            *((2 * (s[1] > 0), *s[1:]) for s in changed().segments))),
        ("at-the-limit", "an exon that ends at 1,000,000,000", changed(
            exons=[(200, 220), (999_999_990, 1_000_000_000)], cds=None, segments=[])),
    ]
    for name, what, second in fine:
        calls = CALLS + b"1 199 C A\n1 210 G A\n1 220 A G\n1 233 T C\n1 249 T A\n1 250 C G\n1 269 T A\n"
        yield Case(f"admitted-{name}", what, writer.deck([*first, second]), window(), calls)
