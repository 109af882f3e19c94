"""Damaged inputs: transcripts, decks and files that are refused, mostly."""

import struct

import chance
from chance import LIMIT, LINKS, writer

# Where the numbers of four bytes stand in each kind of record.
NUMBERS = {0: [], 1: [4], 2: [4, 8], 3: [4, 8], 4: [4, 8], 5: [4]}


def broken(rng, t):
    """Gives a transcript one cause of 1 to 13."""
    low, high = min(t.exons)[0], max(t.exons)[1]
    cause = rng.randrange(16)
    if cause == 0:
        t.exons = []
    elif cause == 1:
        t.chromosome = rng.choice([0, 26, 65535])
    elif cause == 2:
        t.exons.insert(rng.randrange(len(t.exons) + 1), rng.choice(t.exons))
    elif cause == 3:
        rng.shuffle(t.exons)
    elif cause == 4:
        t.exons[rng.randrange(len(t.exons))] = rng.choice([(5, 5), (9, 3), (LIMIT - 1, LIMIT + 1)])
    if cause < 5 or not t.segments:
        return
    at = rng.randrange(len(t.segments))
    phase, exon, start, end = t.segments[at]
    if cause == 5:
        t.selenocysteine = [start] * 65
    elif cause == 6:
        t.segments = []
    elif cause == 7:
        t.cds = rng.choice([(low, low), (high, low), (low, LIMIT + 1), t.cds[::-1]])
    elif cause == 8:
        t.segments[at] = (rng.choice([3, 255]), exon, start, end)
    elif cause == 9:
        t.complete, t.segments[0] = True, (rng.choice([1, 2]), *t.segments[0][1:])
    elif cause == 10:
        t.segments[at] = (phase, rng.choice([exon + 1, len(t.exons), 65535]), start, end)
    elif cause == 11:
        t.segments.insert(at, t.segments[at])
    elif cause == 12:
        t.cds = rng.choice([(low - 1 if low else 0, t.cds[1]), (t.cds[0], high + 1), (low, high)])
    elif cause == 13:
        t.segments[at] = (phase, exon, start, end + rng.choice([-1, 1, LIMIT - end]))
    elif cause == 14:
        t.segments = [(phase, exon, 0, LIMIT) for phase, exon, _, _ in t.segments]
    else:
        t.selenocysteine.append(rng.choice([low, high, t.cds[1], LIMIT, LIMIT + 1]))


def flipped(rng, data):
    """One to three bits turned over."""
    data = bytearray(data)
    for _ in range(rng.choice([1, 1, 1, 2, 3]) if data else 0):
        data[rng.randrange(len(data))] ^= 1 << rng.randrange(8)
    return bytes(data)


def bent(rng, deck):
    """One field of a record set to something near or far."""
    deck, at = bytearray(deck), 16 * rng.randrange(len(deck) // 16)
    kind, count = min(deck[at], 5), len(deck) // 16
    choice = rng.randrange(6)
    if choice < 2:
        link = rng.choice([0, rng.randrange(count), rng.randrange(count), count, rng.randrange(65536)])
        struct.pack_into("<H", deck, at + rng.choice(LINKS[kind]), link)
    elif choice < 4 and NUMBERS[kind]:
        place = at + rng.choice(NUMBERS[kind])
        old = struct.unpack_from("<I", deck, place)[0]
        new = rng.choice([old + 1, old - 1, old + rng.randint(-30, 30), LIMIT, LIMIT + 1, rng.randrange(2**32)])
        struct.pack_into("<I", deck, place, new % 2**32)
    elif choice == 4 and kind == 4:
        struct.pack_into("<H", deck, at + 12, rng.choice([0, 1, 2, rng.randrange(65536)]))
    elif kind in (1, 4):
        deck[at + 1] = rng.choice([0, 1, 2, 3, 4, rng.randrange(256)])
    elif choice == 5:
        deck[at] = rng.randrange(7)
    return bytes(deck)


def noise(rng, most):
    return rng.randbytes(rng.choice([0, 1, 9, 10, 15, 16, 32, rng.randrange(most), rng.randrange(most)]))


def noisy_deck(rng):
    """Records of random kinds with small random fields: often past 23."""
    count, out = rng.randint(1, 12), b""
    for at in range(count):
        kind = 0 if at == 0 else rng.choice([1, 1, 2, 3, 3, 4, 5])
        link = lambda: rng.choice([0, rng.randrange(count + 1)])
        number = lambda: rng.randrange(40)
        body = {0: lambda: ("",), 1: lambda: ("IHHH", number(), rng.randint(0, 26), link(), link()),
                2: lambda: ("IIHH", number(), number(), link(), link()),
                3: lambda: ("II", number(), number()),
                4: lambda: ("IIH", number(), number(), rng.randrange(3)), 5: lambda: ("I", number())}[kind]()
        mark = rng.randrange(4) if kind in (1, 4) else 0
        out += writer.record(kind, mark, 0 if kind == 2 else link(), *body)
    return out


def sample(rng):
    """A kind and an input of it: deck, window, calls."""
    kind = rng.choice(["good", "good", "broken", "noise", "noisy deck", "truncated", "bits", "fields"])
    if rng.random() < 0.004:
        return "large", chance.large(rng)
    change = broken if kind == "broken" else None
    deck, window, calls = chance.good(rng, change=change)
    if kind == "noise":
        which = rng.randrange(4)
        deck = noise(rng, 200) if which in (0, 3) else deck
        window = noise(rng, 400) if which in (1, 3) else window
        calls = noise(rng, 300) if which in (2, 3) else calls
    elif kind == "noisy deck":
        deck = noisy_deck(rng)
    elif kind == "truncated":
        which = rng.randrange(3)
        parts = [deck, window, calls]
        parts[which] = parts[which][:rng.randrange(len(parts[which]) + 1)]
        if which == 0 and rng.random() < 0.5:
            parts[0] = parts[0][:len(parts[0]) // 16 * 16]
        deck, window, calls = parts
    elif kind == "bits":
        parts = [deck, window, calls]
        which = rng.choice([0, 0, 1, 2])
        parts[which] = flipped(rng, parts[which])
        deck, window, calls = parts
    elif kind == "fields":
        for _ in range(rng.choice([1, 1, 2, 3])):
            deck = bent(rng, deck)
    return kind, (deck, window, calls)
