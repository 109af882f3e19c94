"""The part of the model that answers calls and intervals, from document 01,
and from 6/12 of document 02 the letters of chromosome 25."""

# NCBI genetic code tables 1 and 2 as published: amino acids for the codons in
# the order TTT, TTC, TTA, TTG, TCT, ... GGG.
NCBI_BASES = "TCAG"
NCBI_TABLES = {
    1: "FFLLSSSSYY**CC*WLLLLPPPPHHQQRRRRIIIMTTTTNNKKSSRRVVVVAAAADDEEGGGG",
    2: "FFLLSSSSYY**CCWWLLLLPPPPHHQQRRRRIIMMTTTTNNKKSS**VVVVAAAADDEEGGGG",
}
MITOCHONDRIAL = 25

# Severity ranks of the terms that a single base can have.
RANK = {
    "splice_acceptor_variant": 3, "splice_donor_variant": 4, "stop_gained": 5, "stop_lost": 7,
    "start_lost": 8, "missense_variant": 11, "splice_region_variant": 13,
    "start_retained_variant": 14, "stop_retained_variant": 15,
    "incomplete_terminal_codon_variant": 16, "synonymous_variant": 17,
    "coding_sequence_variant": 18, "5_prime_UTR_variant": 19, "3_prime_UTR_variant": 20,
    "non_coding_transcript_exon_variant": 21, "intron_variant": 22,
    "non_coding_transcript_variant": 23, "upstream_gene_variant": 24,
    "downstream_gene_variant": 25,
}

# The terms that a place alone gives.
PLACE_TERMS = {
    "Upstream": ["upstream_gene_variant"],
    "Downstream": ["downstream_gene_variant"],
    "FivePrimeUtr": ["5_prime_UTR_variant"],
    "ThreePrimeUtr": ["3_prime_UTR_variant"],
    "SpliceDonor": ["splice_donor_variant"],
    "SpliceAcceptor": ["splice_acceptor_variant"],
    "SpliceRegion": ["splice_region_variant", "intron_variant"],
    "Intron": ["intron_variant"],
    "NonCodingExon": ["non_coding_transcript_exon_variant"],
    "NonCodingIntron": ["intron_variant"],
}
EXON_KINDS = {"FivePrimeUtr", "CdsExon", "ThreePrimeUtr", "NonCodingExon"}
FLANK_KINDS = {"Upstream", "Downstream"}

COMPLEMENT = dict(zip(b"ACGT", b"TGCA"))


def letter(codon, chromosome):
    try:
        digits = [NCBI_BASES.index(chr(b)) for b in codon]
    except ValueError:
        return "X"
    table = NCBI_TABLES[2 if chromosome == MITOCHONDRIAL else 1]
    return table[digits[0] * 16 + digits[1] * 4 + digits[2]]


def shown(codon, at):
    """The changed byte as it stands, A to Z elsewhere in lower case."""
    return bytes(b if i == at else b + 32 if 65 <= b <= 90 else b for i, b in enumerate(codon))


def coding_terms(start_test, ref, alt):
    if ref == alt:
        if start_test and ref == "M":
            return "start_retained_variant"
        return "stop_retained_variant" if ref == "*" else "synonymous_variant"
    if alt == "*":
        return "stop_gained"
    if ref == "*":
        return "stop_lost"
    return "start_lost" if start_test and ref == "M" else "missense_variant"


def coding_columns(model, window, k, alt):
    """Number, codon number, codons, letters and terms for padded offset k; the
    number is 21 where a base of the codon is outside the window."""
    _, first, data = window
    codon_number, at = k // 3 + 1, k % 3
    start = k - at
    codon = []
    for j in range(start, min(start + 3, model.total)):
        if j < model.pad:
            codon.append(ord("N"))
            continue
        p = model.coding[j - model.pad]
        if not first <= p < first + len(data):
            return 21, None
        base = data[p - first]
        codon.append(COMPLEMENT.get(base, base) if model.t.minus else base)
    altered = list(codon)
    altered[at] = COMPLEMENT[alt] if model.t.minus else alt
    codons = shown(codon, at) + b"/" + shown(altered, at)
    if len(codon) < 3:
        terms = ["incomplete_terminal_codon_variant", "coding_sequence_variant"]
        return 0, (codon_number, codons, b"X", terms)
    ref_letter, alt_letter = (letter(c, model.t.chromosome) for c in (codon, altered))
    if bytes(codon) == b"TGA" and codon_number in model.sec_codons:
        ref_letter = "U"
    if "X" in (ref_letter, alt_letter):
        if codon_number == 1 and model.pad:
            return 0, (1, codons, b"X", ["coding_sequence_variant"])
        return 0, (0, b"", b"", ["coding_sequence_variant"])
    start_test = codon_number == 1 and model.t.start_complete and model.pad == 0
    letters = ref_letter if ref_letter == alt_letter else f"{ref_letter}/{alt_letter}"
    term = coding_terms(start_test, ref_letter, alt_letter)
    return 0, (codon_number, codons, letters.encode(), [term])


def call(model, window, position, alt, kinds):
    """The columns of a call from place to terms, or its refusal number."""
    t, place = model.t, model.place(position)
    kind = kinds[place.kind]
    if kind == "Distal":
        return 19, None
    cds, protein, codons, letters = 0, 0, b"", b""
    if kind == "CdsExon":
        number, columns = coding_columns(model, window, place.number, alt)
        if number:
            return number, None
        protein, codons, letters, terms = columns
        cds = place.number + 1
    elif kind == "FrameshiftIntron":
        terms = ["coding_sequence_variant" if t.has_cds else "non_coding_transcript_variant"]
    else:
        terms = PLACE_TERMS[kind]
    terms = set(terms)
    in_exon = kind in EXON_KINDS
    if in_exon and place.flag:
        terms.add("splice_region_variant")
    donor, acceptor = spill(model, position, position + 1)
    if donor or acceptor:
        terms.discard("splice_region_variant")
    if donor:
        terms.add("splice_donor_variant")
    if acceptor:
        terms.add("splice_acceptor_variant")
    n = len(t.exons)
    exon = (place.index + 1, n) if in_exon else (0, 0)
    intron = (0, 0) if in_exon or kind in FLANK_KINDS else (place.index + 1, n - 1)
    bits = sum(1 << (RANK[term] - 1) for term in terms)
    cdna = model.cdna[position] if in_exon else 0
    return 0, (place, exon, intron, cds, cdna, protein, codons, letters, bits)


def inside(start, end, low, high):
    """An interval shares a base with [low, high); an insertion stands inside it."""
    return start < high and low < end


def spill(model, start, end, short=13):
    """Whether the query hits a donor and an acceptor window of a short gap
    that it does not touch."""
    donor = acceptor = False
    for gap in model.gaps:
        if not 1 <= len(gap) <= short:
            continue
        low, high = min(gap), max(gap) + 1
        if inside(start, end, low, high):
            continue
        at_low, at_high = (inside(start, end, low, low + 2), inside(start, end, high - 2, high))
        donor |= at_high if model.t.minus else at_low
        acceptor |= at_low if model.t.minus else at_high
    return donor, acceptor


def flank(t, start, end, reach=5000):
    """Kind and distance: 0 Overlaps, 1 Upstream, 2 Downstream, 3 Far."""
    if inside(start, end, t.tx_start, t.tx_end):
        return 0, 0
    below = end <= t.tx_start
    between = t.tx_start - end if below else start - t.tx_end
    # An interval counts to its nearest base; an insertion counts the bases
    # between, and the limit is tested against the base beyond it.
    distance = between + 1 if start < end else between
    if between + 1 > reach:
        return 3, 0
    return (1 if below != t.minus else 2), distance


def short_intron(model, start, end, short=13):
    """The first short gap that holds the first or last base, or, for an
    insertion, both bases beside it."""
    for i, gap in enumerate(model.gaps):
        held = set(gap) if 1 <= len(gap) <= short else set()
        if start == end and {start - 1, start} <= held:
            return i
        if start < end and (start in held or end - 1 in held):
            return i
    return None
