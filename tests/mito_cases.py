"""Chromosome 25: calls are answered with its own genetic code, and 20 is never given."""

from casebook import EXAMPLE, Case, bases, deck, reverse_complement, transcripts, turned, window, writer

# Read otherwise than on the other chromosomes.
DIFFERENT = ["AGA", "AGG", "ATA", "TGA"]
MITO = EXAMPLE.replace("7 1 plus", "7 25 plus")
# Each refusal next to what it comes before. The window begins inside codon 1 of
# transcript 7; transcript 9 is 5,001 bases away from 188.
REFUSED = [
    (b"25 1000010000 A C", "15"), (b"1 1000010000 A N", "15 before 14"), (b"1 113 A C", "14"), (b"1 113 A N", "14 before 16"),
    (b"25 113 A N", "16"), (b"25 110 A A", "16 before 17"), (b"25 113 C C", "16 before 18"), (b"25 110 A C", "17"),
    (b"25 300 A C", "17"), (b"25 113 C A", "18"), (b"25 188 C A", "18 before 19"), (b"25 112 C A", "18 before 21"),
    (b"25 188 A C", "19 on transcript 9"), (b"25 111 T C", "21 on transcript 7"), (b"25 129 A C", "answered"),
    (b"25 130 A G", "answered"), (b"25 189 A G", "answered"),
]


def gene(ident, chromosome, low, codons, start="complete", phase=0, selenocysteine=""):
    """One exon, all of it coding, on plus."""
    span = f"{low}-{low + 3 * len(codons)}"
    return transcripts(f"transcript {ident} {chromosome} plus {start}\nexons {span}\ncds {span} {phase}\n"
                       f"selenocysteine {selenocysteine}\n")[0]


def changes(codons, low=0):
    """Every change of a base of these codons, as position and base."""
    for at, base in enumerate("".join(codons), low):
        yield from ((at, b) for b in b"ACGT" if b != ord(base))


def altered(codon):
    """The nine codons one base away, each with the change that makes it this one."""
    for place, base in enumerate(codon):
        for other in "ACGT":
            if other != base:
                yield codon[:place] + other + codon[place + 1:], place, ord(base)


def lines(chromosome, data, calls):
    return b"".join(b"%d %d %c %c\n" % (chromosome, p, data[p], alt) for p, alt in calls)


def both_strands(name, what, genes, data, calls):
    """The case with a window from 0, and turned over; of a call its position and alt."""
    chromosome, calls, back = genes[0].chromosome, list(calls), reverse_complement(data)
    yield Case(f"{name}-plus", what, writer.deck(genes), writer.window(chromosome, 0, data), lines(chromosome, data, calls))
    over = [(len(data) - 1 - p, reverse_complement(bytes([alt]))[0]) for p, alt in calls]
    yield Case(f"{name}-minus", "the same turned over", writer.deck([turned(t, len(data)) for t in genes]),
               writer.window(chromosome, 0, back), lines(chromosome, back, over))


def codons(chromosome):
    made = [(codon, *change) for codon in DIFFERENT for change in altered(codon)]
    row = ["ATG", *DIFFERENT, *(before for _, before, _, _ in made)]
    calls = [*changes(DIFFERENT, 3), *((15 + 3 * i + place, alt) for i, (_, _, place, alt) in enumerate(made))]
    yield from both_strands(f"codons-{chromosome}", f"{', '.join(DIFFERENT)} as reference and as altered codons on chromosome {chromosome}",
                            [gene(1, chromosome, 0, row)], "".join(row).encode(), calls)


def starts():
    kinds = [("ATG", "complete", 0), ("ATA", "complete", 0), ("ATT", "complete", 0), ("ATG", "incomplete", 0),
             ("ATA", "incomplete", 0), ("ATA", "incomplete", 2)]
    genes, data, calls = [], b"", []
    for i, (first, start, phase) in enumerate(kinds):
        genes.append(gene(1 + i, 25, len(data), [first, "ATA", "AGA"], start, phase))
        calls += changes([first], len(data))
        data += f"{first}ATAAGAC".encode()
    yield from both_strands("starts-25", "codon 1 is ATG, ATA or another, its start complete, incomplete or padded", genes, data, calls)


def cases():
    far = MITO + "transcript 9 25 minus complete\nexons 5189-5300\n"
    yield Case("chromosome-25", "answered calls, and 15, 14, 16, 17, 18, 19, 21, each before those that follow it", deck(far),
               window(25, 111, bases()[11:]), b"".join(line + b"\n" for line, _ in REFUSED), "1 7 15")
    row = ["ATG", *DIFFERENT]
    data, pair = "".join(row).encode(), [gene(chromosome, chromosome, 0, row) for chromosome in (1, 25)]
    calls = b"".join(lines(chromosome, data, changes(row)) for chromosome in (1, 25))
    for chromosome in (1, 25):
        yield Case(f"chromosomes-1-25-window-{chromosome}", f"one gene on chromosomes 1 and 25, the window on {chromosome}",
                   writer.deck(pair), writer.window(chromosome, 0, data), calls)
    for chromosome in (25, 1):
        yield from codons(chromosome)
    yield from starts()
    row = ["ATG", "TGA", "TGA", "TGG", "AGA", "ATA", "TAA"]
    yield from both_strands("selenocysteine-25", "TGA with a selenocysteine base and without, other codons with one",
                            [gene(1, 25, 0, row, selenocysteine="4 9 14 15")], "".join(row).encode(), changes(row[1:], 3))
