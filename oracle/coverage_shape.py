"""The tags of a transcript by its shape, and those wanted in every list."""

STRANDS = ("plus", "minus")
LIMIT = 1_000_000_000


def strand(t):
    return STRANDS[t.minus]


def gap_sizes(t):
    pairs = zip(t.exons, t.exons[1:])
    return [a[0] - b[1] if t.minus else b[0] - a[1] for a, b in pairs]


def pad(t):
    return (3 - t.segments[0].phase) % 3 if t.segments else 0


def shape_tags(t):
    """Tags of a transcript, the same in every list."""
    n, m, s = len(t.exons), len(t.segments), strand(t)
    size = "1" if n == 1 else "2 to 8" if n <= 8 else "9 to 64" if n <= 64 else "65 to 511"
    yield f"{'512' if n == 512 else size} exons, {s}"
    if t.has_cds:
        yield f"first phase {t.segments[0].phase}, {s}"
        yield f"start {'complete' if t.start_complete else 'incomplete'}, {s}"
        yield f"CDS in {'1' if m == 1 else '2 to 4' if m <= 4 else '5 or more'} exons, {s}"
    else:
        yield f"no CDS, {s}"
    if any(e - b == 1 for b, e in t.exons):
        yield f"exon of one base, {s}"
    if t.tx_start == 0:
        yield "begins at 0"
    if t.tx_end == LIMIT:
        yield "ends at 1,000,000,000"
    elif t.tx_end > LIMIT - 20_000:
        yield "ends near 1,000,000,000"


COMMON = [f"{what}, {s}" for s in STRANDS for what in (
    "1 exons", "2 to 8 exons", "first phase 0", "first phase 1", "first phase 2",
    "start complete", "start incomplete", "CDS in 1 exons", "CDS in 2 to 4 exons", "no CDS",
    "exon of one base")] + ["begins at 0", "ends at 1,000,000,000", "ends near 1,000,000,000"]
