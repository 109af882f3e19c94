"""The situations that each list must hold: tags of a record, and the tags wanted."""

from coverage_calls import CALLS_WANTED, call_tags
from coverage_shape import COMMON, STRANDS, gap_sizes, pad, shape_tags, strand
from listfile import KINDS, NONE


def index_tags(t, _, answer):
    s = strand(t)
    yield f"number {answer.number}"
    yield f"number {answer.number}, {s}"
    if answer.number:
        return
    yield from shape_tags(t)
    for gap in set(gap_sizes(t)):
        if gap <= 20:
            yield f"gap {gap:2}, {s}"
    k, c = len(t.sec), len(answer.sec_codons)
    yield f"selenocysteine bases {k if k in (0, 1, 64) else '2 to 63'}"
    if c < len(set(t.sec)):
        yield "several selenocysteine bases in one codon"
    if t.sec != sorted(t.sec):
        yield "selenocysteine bases not ascending"


REFUSED = (6, 7, 8, 9, 10, 11, 13)
INDEX_WANTED = {tag: 5 for tag in COMMON} | {f"number {n}": 100 for n in REFUSED} | {
    f"number {n}, {s}": 20 for n in REFUSED + (0,) for s in STRANDS} | {
    f"gap {g:2}, {s}": 10 for g in range(21) for s in STRANDS} | {
    f"{size} exons, {s}": 1 for size in ("9 to 64", "65 to 511", "512") for s in STRANDS} | {
    f"CDS in 5 or more exons, {s}": 5 for s in STRANDS} | {
    f"selenocysteine bases {k}": 1 for k in ("0", "1", "2 to 63", "64")} | {
    "several selenocysteine bases in one codon": 20, "selenocysteine bases not ascending": 20}


def place_tags(t, _, answer):
    p, place = answer
    s, kind = strand(t), KINDS[place.kind]
    yield f"{kind}, {s}"
    if kind in ("FivePrimeUtr", "CdsExon", "ThreePrimeUtr", "NonCodingExon"):
        yield f"{kind} {'with' if place.flag else 'without'} splice mark, {s}"
    if kind == "CdsExon":
        yield f"CdsExon with pad {pad(t)}, {s}"
    if kind == "SpliceRegion":
        yield f"SpliceRegion on the {('donor', 'acceptor')[place.flag]} side, {s}"
    if not t.tx_start <= p < t.tx_end:
        distance = t.tx_start - p if p < t.tx_start else p - t.tx_end + 1
        side = "below" if p < t.tx_start else "above"
        if distance == 1 or 4998 <= distance <= 5002:
            yield f"distance {distance:4} {side}, {s}"
    elif kind not in ("FivePrimeUtr", "CdsExon", "ThreePrimeUtr", "NonCodingExon"):
        gap = gap_sizes(t)[place.index]
        if gap <= 44:
            yield f"base in a gap of {gap:2}, {s}"
    elif 0 in gap_sizes(t) and place.flag:
        yield f"splice mark in a transcript with touching exons, {s}"


PLACES_WANTED = {tag: 1 for tag in COMMON} | {f"{tag}, {s}": 20 for s in STRANDS for tag in (
    KINDS + [f"{k} {w} splice mark" for w in ("with", "without")
             for k in ("FivePrimeUtr", "CdsExon", "ThreePrimeUtr", "NonCodingExon")]
    + [f"CdsExon with pad {n}" for n in range(3)]
    + [f"SpliceRegion on the {side} side" for side in ("donor", "acceptor")]
    + [f"distance {d:4} {side}" for d in (1, 4998, 4999, 5000, 5001, 5002)
       for side in ("below", "above")]
    + ["splice mark in a transcript with touching exons"])} | {
    f"base in a gap of {g:2}, {s}": 4 for g in range(1, 45) for s in STRANDS} | {
    f"512 exons, {s}": 1 for s in STRANDS}


def interval_tags(t, _, a):
    s = strand(t)
    what = "insertion" if a.start == a.end else "interval"
    flank = ("Overlaps", "Upstream", "Downstream", "Far")[a.flank]
    yield f"{flank}, {what}, {s}"
    if flank in ("Upstream", "Downstream") and a.distance in (0, 1, 4998, 4999, 5000):
        yield f"{flank} {a.distance:4}, {what}, {s}"
    if a.spill:
        yield f"spill by {('', 'donor', 'acceptor', 'both')[a.spill]}, {what}, {s}"
    if a.spill and a.short != NONE:
        yield f"spill of one gap by an interval with an end in another, {s}"
    if a.short != NONE:
        yield f"short intron of {gap_sizes(t)[a.short]:2}, {what}, {s}"
    yield f"{what} of {a.end - a.start:2} bases" if a.end - a.start <= 30 else "longer interval"


INTERVALS_WANTED = {f"{tag}, {s}": 4 for s in STRANDS for tag in (
    [f"{flank}, {what}" for flank in ("Overlaps", "Upstream", "Downstream", "Far")
     for what in ("insertion", "interval")]
    + [f"{flank} {d:4}, {what}" for flank in ("Upstream", "Downstream")
       for what, distances in (("insertion", (0, 1, 4998, 4999)), ("interval", (1, 4998, 4999, 5000)))
       for d in distances]
    + [f"spill by {side}, {what}" for what in ("insertion", "interval")
       for side in ("donor", "acceptor")]
    + ["spill by both, interval", "spill of one gap by an interval with an end in another"]
    + [f"short intron of {g:2}, interval" for g in range(1, 14)]
    + [f"short intron of {g:2}, insertion" for g in range(2, 14)])} | {
    f"interval of {n:2} bases": 20 for n in range(1, 31)} | {"insertion of  0 bases": 1000} | {
    f"{what}, {s}": 1 for s in STRANDS for what in ("1 exons", "no CDS", "exon of one base")} | {
    "begins at 0": 1, "ends at 1,000,000,000": 1}

TAGS = {"index": index_tags, "places": place_tags, "calls": call_tags, "intervals": interval_tags}
WANTED = {"index": INDEX_WANTED, "places": PLACES_WANTED, "calls": CALLS_WANTED,
          "intervals": INTERVALS_WANTED}
