"""Refusal 27, files of the greatest length, decks of 4,096 records, and the demo."""

import pathlib
import random

from casebook import CALLS, PAIR, Case, bases, deck, patch, transcripts, window, writer

DEMO = pathlib.Path(__file__).resolve().parent.parent / "demo"
GOOD = deck(PAIR)
FULL = 65536


def refused():
    yield "window-missing", "no window file", GOOD, None, CALLS
    yield "window-empty", "an empty window file", GOOD, b"", CALLS
    yield "window-9", "a window file of 9 bytes", GOOD, window()[:9], CALLS
    yield "window-long", "a window file of 65,537 bytes", GOOD, window(data=b"A" * 65527), CALLS
    yield "calls-long", "a call file of 65,537 bytes", GOOD, window(), b"1 111 T C\n" * 6553 + b"1 111 T"
    yield "both", "window and calls are refused: one line", GOOD, b"", b"\n" * 65537
    yield "no-calls", "no window file and an empty call file", GOOD, None, b""


def full_calls():
    """65,536 bytes of calls; the last line fills up what is left and is malformed."""
    rng, out, data = random.Random("full calls"), b"", bases()
    while True:
        position = rng.randrange(100, 300)
        base = data[position - 100]
        line = b"1 %d %c %c\n" % (position, base, rng.choice([b for b in b"ACGT" if b != base]))
        if len(out) + len(line) > FULL:
            return out + b"." * (FULL - len(out) - 1) + b"\n"
        out += line


def many_transcripts():
    """2,047 transcripts and one exon more: 4,096 records."""
    rng, found = random.Random("many"), []
    for i in range(2047):
        start = 1000 + 3 * i
        found.append(writer.Transcript(i, 1, rng.random() < 0.5, False, [(start, start + 9)]))
    found[-1].exons = sorted([*found[-1].exons, (9000, 9009)], reverse=found[-1].minus)
    return found


def many_exons():
    """Eight transcripts of 501 exons, eight of them coding: 4,089 records."""
    rng, found = random.Random("exons"), []
    for i in range(8):
        rising, low = [], 50 + i
        for _ in range(501):
            rising.append((low, low + rng.randint(1, 12)))
            low = rising[-1][1] + rng.choice([0, 1, 2, 13, 14, rng.randint(3, 30)])
        first = rng.randrange(493)
        t = writer.Transcript(1000 + i, 1, i % 2 == 1, False, rising[::-1] if i % 2 else rising)
        t.cds = (rising[first][0], rising[first + 7][1])
        t.segments = writer.intersections(t.exons, t.cds, i % 3)
        found.append(t)
    return found


def one_long():
    """512 exons, all coding, and 64 selenocysteine bases, on minus."""
    rising = [(100 + 20 * i, 107 + 20 * i) for i in range(512)]
    t = writer.Transcript(512, 1, True, True, rising[::-1], (102, 10325))
    t.segments = writer.intersections(t.exons, t.cds, 0)
    t.selenocysteine = [103 + 160 * i for i in range(64)]
    return t


def sampled(rng, data, first, count, focus):
    lines = b""
    for _ in range(count):
        position = min(max(rng.choice(focus) + rng.randint(-3, 3), first), first + len(data) - 1)
        base = data[position - first]
        lines += b"1 %d %c %c\n" % (position, base, rng.choice([b for b in b"ACGT" if b != base]))
    return lines


def cases():
    for name, what, *files in refused():
        yield Case(f"27-{name}", what, *files, "0 0 27")
    yield Case("27-after-22", "deck and window are refused: the deck", GOOD[:-1], b"", CALLS, "0 0 22")
    yield Case("27-after-24", "a bad link, window and calls refused: the link", patch(GOOD, 3, 2, 77), None,
               b"\n" * 65537, "0 3 24")
    yield Case("27-after-7", "a refused transcript and no window: the transcript", patch(GOOD, 11, 1, b"\1"), None, CALLS, "0 7 7")
    yield Case("all-missing", "no files", None, None, None, "0 0 22")
    yield Case("window-10", "a window file of 10 bytes holds no base", GOOD, window(data=b""), CALLS, "1 7 17")
    rng = random.Random("full window")
    data = bytes(rng.choice(b"ACGT") for _ in range(65526))
    edges = writer.Transcript(1, 1, False, False, [(100, 400), (65000, 65626)], (150, 65620))
    edges.segments = writer.intersections(edges.exons, edges.cds, 0)
    calls = sampled(rng, data, 100, 40, [100, 150, 400, 65000, 65620, 65625]) + b"1 65626 A C\n1 99 A C\n"
    yield Case("full-window", "a window file of 65,536 bytes", writer.deck([edges]), writer.window(1, 100, data), calls)
    yield Case("full-calls", "a call file of 65,536 bytes", deck(PAIR.split("transcript 8")[0]), window(), full_calls())
    data = bytes(rng.choice(b"ACGT") for _ in range(9500))
    yield Case("full-deck-transcripts", "4,096 records: 2,047 transcripts", writer.deck(many_transcripts()),
               writer.window(1, 0, data), sampled(rng, data, 0, 4, [1500, 4000]))
    eight = many_exons()
    edges = [edge for t in eight for exon in t.exons for edge in exon]
    coding = [edge for t in eight for s in t.segments for edge in s[2:]]
    data = bytes(rng.choice(b"ACGT") for _ in range(max(edges) + 20))
    yield Case("full-deck-exons", "eight transcripts of 501 exons", writer.deck(eight), writer.window(1, 0, data),
               sampled(rng, data, 0, 60, edges) + sampled(rng, data, 0, 60, coding))
    long = one_long()
    data = bytearray(rng.choice(b"ACGT") for _ in range(10500))
    yield Case("long-transcript", "512 coding exons and 64 selenocysteine bases on minus", writer.deck([long]),
               writer.window(1, 0, bytes(data)),
               sampled(rng, data, 0, 150, [e for exon in long.exons for e in exon] + long.selenocysteine))
    for name in ("example", "panel", "mito"):
        files = [(DEMO / name / part).read_bytes() for part in ("deck.bin", "window.bin", "calls")]
        yield Case(f"demo-{name}", f"demo/{name}", *files)
