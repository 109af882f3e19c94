"""The situations of calls on chromosome 25 in which its genetic code decides."""

from call_model import RANK
from coverage_shape import STRANDS, strand

DIFFERENT = {"AGA": "*", "AGG": "*", "ATA": "M", "TGA": "W"}
STOPS = [codon for codon, letter in DIFFERENT.items() if letter == "*"]


def held(a, term):
    return a.terms >> (RANK[term] - 1) & 1


def changes(model, a):
    """What happens to the letters of a call that shows whole codons."""
    reference, altered = a.codons.decode("latin-1").upper().split("/")
    first, last = a.letters.decode()[0], a.letters.decode()[-1]
    if reference in DIFFERENT:
        yield f"reference {reference} read {first}"
    if altered in DIFFERENT:
        yield f"altered {altered} read {last}"
        if a.protein in model.sec_codons:
            yield f"altered {altered} read {last} in a selenocysteine codon"
    for term, codon in (("stop_gained", altered), ("stop_lost", reference)):
        if held(a, term) and codon in STOPS:
            yield f"{term} by {codon}"
    if {reference, altered} == set(STOPS):
        yield f"{reference} to {altered}"
    if held(a, "start_retained_variant"):
        yield f"{reference} to {altered} retained as a start"
    elif held(a, "synonymous_variant") and {reference, altered} == {"ATA", "ATG"}:
        yield f"{reference} to {altered} in {'an incomplete start' if a.protein == 1 else 'a later codon'}"
    if first == "U":
        yield f"U to {last if last in '*W' else 'other'}"


def tags(t, model, a):
    for tag in changes(model, a):
        yield f"{tag}, {strand(t)}"


WANTED = {f"{tag}, {s}": 4 for s in STRANDS for tag in (
    [f"{which} {codon} read {letter}" for which in ("reference", "altered") for codon, letter in DIFFERENT.items()]
    + [f"{term} by {codon}" for term in ("stop_gained", "stop_lost") for codon in STOPS]
    + ["AGA to AGG", "AGG to AGA", "U to *", "U to W", "altered TGA read W in a selenocysteine codon",
       "start_retained_variant"]
    + [f"{change} {where}" for change in ("ATA to ATG", "ATG to ATA")
       for where in ("retained as a start", "in a later codon")])} | {
    f"{change} in an incomplete start, {s}": 1 for change in ("ATA to ATG", "ATG to ATA") for s in STRANDS}
