#!/usr/bin/env python3
"""A second reading of document 01, for comparison with the Rust's lists.

Written from document 01 and the requests that changed it alone: it lists the
bases of a transcript one by one and counts, where the Rust adds and searches. `model.py [CRATES]` compares it
with the lists and prints every difference, at most 20 of each list.
"""

import pathlib
import sys

sys.dont_write_bytecode = True
from call_model import call, flank, short_intron, spill
from listfile import FILE, KINDS, NONE, Index, Interval, Place, read_list, split

LIMIT = 1_000_000_000
REACH, DONOR, ACCEPTOR, SHORT = 5000, 8, 17, 13
KIND = {name: number for number, name in enumerate(KINDS)}


def pad_of(t):
    return (3 - t.segments[0].phase) % 3 if t.segments else 0


def strand_order(t, intervals):
    return sorted(intervals, reverse=t.minus)


def exon_of(t, base):
    """The index of the exon that holds a base, or None."""
    return next((i for i, (s, e) in enumerate(t.exons) if s <= base < e), None)


def refusal(t):
    """The first cause of 1 to 13, or 0."""
    edges = [c for pair in t.exons for c in pair] + [t.tx_start, t.tx_end] + t.sec
    edges += [c for g in t.segments for c in (g.start, g.end)]
    if t.has_cds:
        edges += [t.cds_start, t.cds_end]
    if not 1 <= len(t.exons) <= 512 or t.exon_count != len(t.exons) \
            or len(t.segments) > len(t.exons) or len(t.sec) > 64:
        return 1
    if any(s >= e for s, e in t.exons) or any(g.start >= g.end for g in t.segments) \
            or max(edges) > LIMIT or not 1 <= t.chromosome <= 25:
        return 2
    in_order = strand_order(t, t.exons) == t.exons
    rising = sorted(t.exons)
    if not in_order or any(a[1] > b[0] for a, b in zip(rising, rising[1:])):
        return 3
    if (t.tx_start, t.tx_end) != (rising[0][0], rising[-1][1]):
        return 4
    if t.has_cds != bool(t.segments) or t.has_cds and t.cds_start >= t.cds_end:
        return 5
    if any(g.phase > 2 for g in t.segments):
        return 6
    if pad_of(t) and t.start_complete:
        return 7
    used = set()
    for g in t.segments:
        if g.exon >= len(t.exons):
            return 8
        if g.exon in used:
            return 9
        used.add(g.exon)
    if t.segments:
        ends = [t.cds_start, t.cds_end - 1]
        first, last = reversed(ends) if t.minus else ends
        if exon_of(t, first) is None:
            return 10
        if exon_of(t, last) is None:
            return 11
    parts = [(i, max(s, t.cds_start), min(e, t.cds_end)) for i, (s, e) in enumerate(t.exons)]
    parts = [part for part in parts if part[1] < part[2]] if t.has_cds else []
    if [(g.exon, g.start, g.end) for g in t.segments] != parts:
        return 12
    if any(not any(g.start <= base < g.end for g in t.segments) for base in t.sec):
        return 13
    return 0


class Model:
    """An admitted transcript as lists of bases from 5' to 3'."""

    def __init__(self, t):
        self.t, self.pad = t, pad_of(t)
        self.exonic, self.gaps = [], []
        for i, (s, e) in enumerate(t.exons):
            self.exonic += [(p, i) for p in self.run(s, e)]
            if i + 1 < len(t.exons):
                s2, e2 = t.exons[i + 1]
                self.gaps.append(self.run(e2, s) if t.minus else self.run(e, s2))
        self.coding = [p for p, _ in self.exonic if t.has_cds and t.cds_start <= p < t.cds_end]
        self.exon = dict(self.exonic)
        self.cdna = {p: i + 1 for i, (p, _) in enumerate(self.exonic)}
        self.offset = {p: self.pad + i for i, p in enumerate(self.coding)}
        self.intron = {p: (i, d + 1, len(gap) - d)
                       for i, gap in enumerate(self.gaps) for d, p in enumerate(gap)}
        self.total = self.pad + len(self.coding)
        self.sec_codons = sorted({self.offset[base] // 3 + 1 for base in t.sec})

    def run(self, start, end):
        return list(range(start, end))[::-1 if self.t.minus else 1]

    def index(self):
        t, cumulative = self.t, [self.pad]
        for g in t.segments:
            cumulative.append(cumulative[-1] + g.end - g.start)
        exon_segment = [NONE] * len(t.exons)
        for i, g in enumerate(t.segments):
            exon_segment[g.exon] = i
        ends = (self.exon[self.coding[0]], self.exon[self.coding[-1]]) if self.coding else (NONE, NONE)
        utr5 = self.cdna[self.coding[0]] - 1 if self.coding else 0
        short = any(1 <= len(gap) <= SHORT for gap in self.gaps)
        return Index(0, self.pad, short, *ends, utr5, cumulative, exon_segment, self.sec_codons)

    def mark(self, p):
        """Within 3 bases of an end of its exon that has an exon beyond it."""
        i = self.exon[p]
        run = self.run(*self.t.exons[i])
        at = run.index(p)
        return i > 0 and at < 3 or i + 1 < len(self.t.exons) and len(run) - at <= 3

    def place(self, p):
        t = self.t
        if not t.tx_start <= p < t.tx_end:
            distance = t.tx_start - p if p < t.tx_start else p - t.tx_end + 1
            if distance > REACH:
                return Place(KIND["Distal"], 0, 0, 0, 0, 0, 0)
            upstream = (p < t.tx_start) != t.minus
            return Place(KIND["Upstream" if upstream else "Downstream"], 0, 0, 0, 0, distance, 0)
        if p in self.intron:
            return self.intronic(*self.intron[p])
        mark = int(self.mark(p))
        if not t.has_cds:
            return Place(KIND["NonCodingExon"], mark, self.exon[p], 0, 0, 0, 0)
        if p in self.offset:
            k = self.offset[p]
            segment = [g.exon for g in t.segments].index(self.exon[p])
            return Place(KIND["CdsExon"], mark, self.exon[p], segment, k % 3, k, k // 3 + 1)
        before = self.cdna[p] - self.cdna[self.coding[0]]
        after = self.cdna[p] - self.cdna[self.coding[-1]]
        if before < 0:
            return Place(KIND["FivePrimeUtr"], mark, self.exon[p], 0, 0, before, 0)
        return Place(KIND["ThreePrimeUtr"], mark, self.exon[p], 0, 0, after, 0)

    def intronic(self, i, d, a):
        """d and a count from 1 at the donor and the acceptor end."""
        signed = d if d <= a else -a
        if d + a - 1 <= SHORT:
            return Place(KIND["FrameshiftIntron"], 0, i, 0, 0, signed, 0)
        if d <= 2:
            return Place(KIND["SpliceDonor"], 0, i, 0, 0, d, 0)
        if a <= 2:
            return Place(KIND["SpliceAcceptor"], 0, i, 0, 0, a, 0)
        if d <= DONOR or a <= ACCEPTOR:
            if a > ACCEPTOR:
                signed = d
            elif d > DONOR:
                signed = -a
            return Place(KIND["SpliceRegion"], int(signed < 0), i, 0, 0, signed, 0)
        return Place(KIND["Intron" if self.t.has_cds else "NonCodingIntron"], 0, i, 0, 0, signed, 0)


def interval(model, start, end):
    kind, distance = flank(model.t, start, end)
    donor, acceptor = spill(model, start, end)
    short = short_intron(model, start, end)
    return Interval(start, end, kind, donor + 2 * acceptor, NONE if short is None else short, distance)


def differences(name, t, window, answers):
    """(question, the model's answer, the Rust's answer) wherever the two differ."""
    number = refusal(t)
    if name == "index":
        ours = Model(t).index() if number == 0 else Index(number, *[None] * 8)
        return [("index", ours, answers[0])] if ours != answers[0] else []
    if number:
        return [("admission", number, 0)]
    model = Model(t)
    if name == "places":
        pairs = [(p, model.place(p), place) for p, place in answers]
    elif name == "intervals":
        pairs = [((a.start, a.end), interval(model, a.start, a.end), a) for a in answers]
    else:
        pairs = []
        for a in answers:
            number, columns = call(model, window, a.position, a.alt, KINDS)
            theirs = tuple(a[4:]) if a.number == 0 else None
            pairs.append(((a.position, a.ref, a.alt), (number, columns), (a.number, theirs)))
    return [pair for pair in pairs if pair[1] != pair[2]]


def main():
    here = pathlib.Path(__file__).resolve().parent
    crates = pathlib.Path(sys.argv[1]) if len(sys.argv) > 1 else here.parent / "crates"
    total = 0
    for name, listed in split(crates / FILE).items():
        asked = found = 0
        for t, window, answers in read_list(name, listed):
            asked += len(answers)
            for question, ours, theirs in differences(name, t, window, answers):
                found += 1
                if found <= 20:
                    print(f"{name}, transcript {t.id}, {question}:\n  model {ours}\n  Rust  {theirs}")
        print(f"{name}: {asked} answers, {found} differences")
        total += found
    sys.exit(1 if total else 0)


if __name__ == "__main__":
    main()
