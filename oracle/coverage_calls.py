"""The situations that the calls must hold, each with both genetic codes. A
call's tags take the model of its transcript and the window besides."""

import coverage_mito
from call_model import MITOCHONDRIAL, RANK
from coverage_shape import STRANDS, pad, strand
from listfile import KINDS

# The chromosomes that share a genetic code.
CODES = NUCLEAR, MITO = "chromosomes 1 to 24", "chromosome 25"


def code(t):
    return CODES[t.chromosome == MITOCHONDRIAL]


def codon_bases(model, position):
    """The coding bases in the codon of a coding position."""
    start = model.offset[position] // 3 * 3 - model.pad
    return model.coding[max(start, 0):start + 3]


def codon_tags(t, model, a):
    """Tags of an answered call in a CDS exon."""
    s, total = strand(t), model.total
    missing = a.place.number - a.place.in_codon + 3 - total
    codon = a.codons[:len(a.codons) // 2]
    if missing > 0:
        yield f"unfinished codon of {3 - missing} bases, {s}"
        if a.protein == 1 and pad(t):
            yield f"unfinished codon that is also padded, {s}"
    elif a.protein == 1 and pad(t):
        yield f"codon 1 with pad {pad(t)}, {s}"
    elif not a.codons:
        yield f"X codon without columns, {s}"
        ref = a.ref
        yield "X codon by its own base" if ref not in b"ACGT" else "X codon by another base"
    for what, held in (("N", b"Nn"), ("lower case", b"acgt"), ("space", b" "), ("newline", b"\n"),
                       ("zero", b"\0"), ("a byte over 127", bytes(range(128, 256)))):
        if a.ref in held:
            yield f"{what} as ref"
        own = codon[a.place.in_codon:a.place.in_codon + 1] if codon else b""
        if what != "lower case" and any(b in held for b in codon.replace(own, b"", 1)) and (
                what != "N" or not pad(t)):
            yield f"{what} shown beside the changed base"
    letters = a.letters.decode()
    if letters.startswith("U"):
        yield f"U to {'stop' if letters == 'U/*' else 'other'}, {s}"
    if letters and codon.upper() == b"TGA":
        yield f"reference TGA read {letters[0]}, {s}"
    if a.codons[4:].upper() == b"TGA" and a.protein in model.sec_codons:
        yield f"altered TGA in a selenocysteine codon, {s}"
    if a.protein == 1 and letters.startswith("M/"):
        yield f"M in codon 1, start {'complete' if t.start_complete else 'incomplete'}, {s}"
    if code(t) == MITO and missing <= 0 and letters not in ("", "X"):
        yield from coverage_mito.tags(t, model, a)


def call_tags(t, extra, a):
    """The tags of a call with the genetic code that is read."""
    yield f"calls on {code(t)}, {strand(t)}"
    for tag in any_call_tags(t, extra, a):
        yield f"{code(t)}: {tag}"


def any_call_tags(t, extra, a):
    s = strand(t)
    model, (_, first, data) = extra
    yield f"number {a.number}, {s}"
    if a.position in model.offset:
        bases = codon_bases(model, a.position)
        split = max(bases) - min(bases) >= len(bases)
        if a.number == 0 and (first in bases or first + len(data) - 1 in bases):
            yield f"whole codon at an end of the window, {s}"
        for what, holds in (("a split", split), ("a padded", model.offset[bases[0]] % 3),
                            ("an unfinished", model.offset[bases[-1]] % 3 < 2)):
            if a.number == 21 and holds:
                yield f"number 21 in {what} codon, {s}"
    if a.number:
        return
    kind = KINDS[a.place.kind]
    yield f"{kind}, {s}"
    terms = {name for name, rank in RANK.items() if a.terms >> (rank - 1) & 1}
    for term in terms:
        yield f"{term}, {s}"
    if kind == "CdsExon":
        yield from codon_tags(t, model, a)
    spill = [side for side in ("donor", "acceptor") if f"splice_{side}_variant" in terms]
    if a.exon != (0, 0) and spill:
        yield f"spill on {kind} by {' and '.join(spill)}, {s}"
    if kind == "FrameshiftIntron":
        yield f"short gap {'with' if t.has_cds else 'without'} CDS, {s}"


def codon_change(t, a):
    """The genetic code with the strand, and the codons, where both codons are three bases."""
    if a.number == 0 and len(a.codons) == 7 and set(a.codons.upper()) <= set(b"ACGT/"):
        yield f"{code(t)}, {strand(t)}", a.codons


# Wanted with each genetic code.
ANY_CALL_WANTED = {f"{tag}, {s}": 4 for s in STRANDS for tag in (
    ["number 0", "number 19", "number 21", "whole codon at an end of the window"]
    + [f"number 21 in {what} codon" for what in ("a split", "a padded", "an unfinished")]
    + [k for k in KINDS if k != "Distal"]
    + [term for term in RANK if term != "start_retained_variant"]
    + ["unfinished codon of 1 bases", "unfinished codon of 2 bases",
       "unfinished codon that is also padded", "codon 1 with pad 1", "codon 1 with pad 2",
       "X codon without columns", "U to stop", "U to other", "reference TGA read U",
       "altered TGA in a selenocysteine codon",
       "M in codon 1, start complete", "M in codon 1, start incomplete",
       "short gap with CDS", "short gap without CDS"]
    + [f"spill on {k} by {side}" for side in ("donor", "acceptor")
       for k in ("FivePrimeUtr", "CdsExon", "ThreePrimeUtr", "NonCodingExon")]
    + ["spill on CdsExon by donor and acceptor"])} | {
    f"{what} {where}": 4 for where in ("as ref", "shown beside the changed base")
    for what in ("N", "space", "newline", "zero", "a byte over 127")} | {
    "lower case as ref": 4, "X codon by its own base": 4, "X codon by another base": 4}
# start_retained_variant needs two codons for M, which table 1 does not have.
CALLS_WANTED = {f"{own}: {tag}": least for own in CODES for tag, least in ANY_CALL_WANTED.items()} | {
    f"{NUCLEAR}: reference TGA read *, {s}": 4 for s in STRANDS} | {
    f"{MITO}: {tag}": least for tag, least in coverage_mito.WANTED.items()} | {
    f"different changes of a whole codon, {own}, {s}": 576 for own in CODES for s in STRANDS} | {
    f"calls on {MITO}, {s}": 12_500 for s in STRANDS} | {f"512 exons, {s}": 1 for s in STRANDS}
