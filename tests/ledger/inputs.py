"""Random arguments of calls: pieces, closing bits, outputs, records and lists, whole and damaged, most of them about some limit."""
import rules
from driver import FAR
from ledger import Entry
from rules import BAY, CHUNK, EDITIONS, LONGEST

TOP = 2**64
OTHER_EDITIONS = (0, 7, 8, 224, 256, 1008, 1504, 2**16 + 2, 2**32 + 2, 2**63, 2**63 + 4, TOP - 1)
OTHER_BITS = (8, 9, 15, 16, 255, 256, 2**32, 2**32 + 1, 2**63, TOP - 8, TOP - 1)
# bay numbers for which 4 + 26 bay, modulo 2^64, is a place in a table
WRAPPING = tuple((TOP * k + BAY - 1) // BAY for k in range(1, 26, 4))
OTHER_BAYS = (64, 65, 100, 2**16, 2**32, 2**32 + 1, 2**63, TOP - 2, TOP - 1, *WRAPPING)
OTHER_COUNTS_OF_BAYS = (0, 65, 66, 2**32 + 1, 2**63, TOP - 1, WRAPPING[0])


def content(rng, n):
    kind = rng.randrange(20)
    return bytes(n) if kind == 0 else b"\xff" * n if kind == 1 else rng.randbytes(n)


def some_length(rng, block, count):
    """Lengths about whole blocks, lengths after which the tail is where padding changes, and a few long ones."""
    kind = rng.randrange(100)
    if kind < 8:
        return kind % 2
    if kind < 28:
        return block * rng.choice((1, 1, 1, 2)) + rng.randint(-1, 1)
    if kind < 50:
        edge = rng.choice((0, 1, block - block // 8 - 1, block - block // 8, block - 1))
        return (edge - count) % block
    if kind < 75:
        return rng.randint(1, block)
    if kind < 92:
        return rng.randint(1, 6 * block)
    return rng.randint(1, 5000 if kind >= 96 else 1500)


def some_piece(rng, held):
    block, count = (held.edition.block, held.count()) if isinstance(held, Entry) else (64, 0)
    if rng.randrange(100 if isinstance(held, Entry) else 10) == 0:
        return LONGEST + rng.choice((1, 2, rng.randrange(1, LONGEST)))
    left = LONGEST - count
    if left < 1000 and rng.randrange(2):
        return content(rng, max(0, left + rng.randint(-1, 2)))
    return content(rng, some_length(rng, block, count))


def some_message(rng, block):
    return LONGEST + rng.randrange(1, LONGEST) if rng.randrange(12) == 0 else content(rng, some_length(rng, block, 0))


def some_map(rng):
    kind = rng.randrange(100)
    if kind < 8:
        return FAR + rng.choice((1, LONGEST, rng.randrange(1, LONGEST)))
    if kind < 50:
        return content(rng, rng.randrange(6) * CHUNK + rng.choice((0, 1, 2, CHUNK - 1)))
    return content(rng, rng.randrange(rng.choice((100, 2000, 5000))))


def some_closing(rng):
    """A closing byte and its bits: mostly as they must be, else with a set bit below the closing bits, or too many bits."""
    kind = rng.randrange(100)
    if kind >= 94:
        return rng.choice((0, 0x80, 0xFF)), rng.choice(OTHER_BITS)
    bits = 0 if kind < 45 else rng.randrange(8)
    upper = rng.randrange(256) & 0xFF00 >> bits & 0xFF
    return upper | 1 << rng.randrange(8 - bits) if kind >= 84 else upper, bits


def some_output(rng, need):
    """A count of bytes about what is needed, and the first byte of the pattern that they hold."""
    kind = rng.randrange(100)
    if kind < 40:
        count = need
    elif kind < 60:
        count = need + rng.randint(1, 5)
    elif kind < 70:
        count = need - 1
    elif kind < 80:
        count = rng.randrange(need)
    elif kind < 85:
        count = 0
    else:
        count = need + rng.randrange(100)
    return count, rng.randrange(256)


def some_edition(rng):
    return rng.choice(OTHER_EDITIONS) if rng.randrange(12) == 0 else rng.randint(1, 6)


# ---- states and records


def some_state(rng):
    """Edition, bytes taken, chaining words and tail of a sound bay, one that calls may never have led to."""
    number = rng.randint(1, 6)
    width, block, _, start = EDITIONS[number]
    kind = rng.randrange(100)
    if kind < 25:
        count = rng.randrange(block)
    elif kind < 55:
        count = rng.randrange(block, 10 * block)
    elif kind < 72:
        count = LONGEST - rng.randrange(3 * block)
    elif kind < 85:
        count = LONGEST
    else:
        count = rng.randrange(LONGEST)
    chain = start if count < block else tuple(rng.getrandbits(width.bits) for _ in range(8))
    return number, count, chain, content(rng, count % block)


def with_field(data, at, length, value):
    return data[:at] + (value % 256**length).to_bytes(length, "big") + data[at + length :]


def field(data, at, length):
    return int.from_bytes(data[at : at + length], "big")


def damaged(rng, data):
    """Bytes with some damage. They may still be a record or a list."""
    kind = rng.randrange(8)
    if kind == 0 or not data:
        return data + (b"\0" if rng.randrange(2) else rng.randbytes(1))
    at = rng.randrange(len(data))
    if kind == 1:
        return data[:-1]
    if kind == 2:
        return data[:at]
    if kind == 3:
        return with_field(data, at, 1, rng.randrange(256))
    if kind < 6:
        return with_field(data, at, 1, data[at] ^ 1 << rng.randrange(8))
    return rng.randbytes(len(data)) if kind == 6 else bytes(len(data))


def other_field(rng, data):
    """A record with one field of its header changed, often so that no second rule is broken by it."""
    at, length = rng.choice(((0, 2), (2, 2), (4, 2), (6, 2), (8, 8), (8, 8), (16, 2), (18, 2), (20, 4)))
    was = field(data, at, length)
    if at == 0:
        return with_field(data, at, length, rng.choice((0, 7, 8, 1008, rng.randint(1, 6), was + 256)))
    if at == 8:
        blocks = 128 * rng.randrange(1, 2**20)
        return with_field(data, at, length, was + rng.choice((LONGEST + 128, blocks, 1, -1, TOP // 2, LONGEST - was + 1)))
    others = (was + 1, was - 1, was + 256, was ^ 1 << rng.randrange(8 * length), rng.randrange(65536))
    return with_field(data, at, length, rng.choice(others))


def damaged_record(rng, data):
    kind = rng.randrange(60)
    if kind == 0:
        return FAR + rng.choice((1, LONGEST, rng.randrange(1, LONGEST)))
    if kind < 30:
        return other_field(rng, data)
    if kind < 36:  # a byte of the chaining words, which must be the starting words in a record of less than a block
        return with_field(data, rng.randrange(24, 56), 1, rng.randrange(256))
    return damaged(rng, data)


# ---- lists

LETTERS = bytes(range(0x21, 0x7F))


def some_name(rng, longest):
    letters = rng.choice((b"ab", b"!~a", LETTERS))
    return bytes(rng.choices(letters, k=rng.randint(1, longest)))


def some_entries(rng, digest):
    """Pairs of a name and a digest as a list has them; many names begin alike. Seldom there is one entry too many."""
    count = rng.choice((0, 1, 1, 2, 2, 3, 4, 5, 8, 12)) if rng.randrange(100) else rng.choice((40, 255, 256, 257))
    longest = 64 if count > 12 else rng.choice((1, 3, 8, 64))
    names = set()
    for _ in range(20 * count):
        if len(names) < count:
            names.add(some_name(rng, longest))
    return [(name, rng.randbytes(digest)) for name in sorted(names)]


def wrong_entries(rng, entries):
    """Entries with one that stands twice, in the wrong order, or with a name that must not be."""
    i, kind = rng.randrange(len(entries)), rng.randrange(4)
    name, digest = entries[i]
    if kind == 0:
        return entries[:i] + [entries[i]] + entries[i:]
    if kind == 1:
        return entries[::-1]
    if kind == 2:
        return entries[:i] + [(rng.choice((b"", name + b"a" * 64, b"~" * 65)), digest)] + entries[i + 1 :]
    return entries[:i] + [(name[:-1] + bytes([rng.choice((0, 0x20, 0x7F, 0x80, 0xFF))]), digest)] + entries[i + 1 :]


def wrong_list(rng, number, entries):
    """Bytes that are hardly ever a list: written of wrong entries, with one field changed, or damaged anywhere."""
    kind = rng.randrange(12)
    if kind < 4 and entries:
        return rules.list_of(number, wrong_entries(rng, entries))
    data = rules.list_of(number, entries)
    if kind < 5 and entries:
        at, length = 16 + rng.randrange(len(entries)) * (8 + EDITIONS[number].digest) + rng.choice((0, 4)), 4
        return with_field(data, at, length, field(data, at, length) + rng.choice((-1, 1, 256, 2**31)))
    if kind < 8:
        at, length = rng.choice(((0, 2), (2, 2), (4, 4), (8, 4), (12, 4)))
        was = field(data, at, length)
        return with_field(data, at, length, rng.choice((0, was + 1, was - 1, was + 256, 7, 257)))
    return FAR + rng.randrange(1, LONGEST) if rng.randrange(60) == 0 else damaged(rng, data)


def some_question(rng, number, entries):
    """A list, a name that is listed or near to one that is, and the name's digest or another."""
    data = wrong_list(rng, number, entries) if rng.randrange(10) < 3 else rules.list_of(number, entries)
    name, digest = rng.choice(entries) if entries else (b"yard.map", rng.randbytes(EDITIONS[number].digest))
    kind = rng.randrange(20)
    if kind < 2:
        name = name[:-1]
    elif kind < 4:
        name += rng.choice((b"\0", b"!", b"a", b"~"))
    elif kind < 6:
        name = rng.choice((b"", some_name(rng, 8), rng.randbytes(rng.randrange(100))))
    elif kind < 9:
        digest = (digest[:-1], digest + b"\0", b"")[kind - 6]
    elif kind < 12:
        digest = with_field(digest, rng.randrange(len(digest)), 1, rng.randrange(256))
    return data, name, digest
