"""SPEC's digest list in Python, for the tests that hand lists to the calls: nothing here is taken from the code that is tested.

`write` makes a list of names and digests. `read` takes the fields out, writes the list again from them and compares. `some_entries` are
names and digests by chance.
"""
import struct

SIZES = {1: 28, 2: 32, 3: 48, 4: 64, 5: 28, 6: 32}
LETTERS = bytes(range(0x21, 0x7F))


def write(edition, entries):
    """SPEC, "Digest list", from pairs of a name and a digest, in this order."""
    d = SIZES[edition]
    names = 16 + len(entries) * (8 + d)
    rows, place = [], names
    for name, digest in entries:
        rows.append(struct.pack(">II", place, len(name)) + digest)
        place += len(name)
    return struct.pack(">HHIII", edition, len(entries), 16, names, place) + b"".join(rows + [name for name, _ in entries])


def allowed(name):
    return 1 <= len(name) <= 64 and not name.translate(None, LETTERS)


def read(data):
    """The pairs of a list, or None. Only a list is what its own pairs are written as."""
    if len(data) < 16:
        return None
    edition, n = struct.unpack(">HH", data[:4])
    if edition not in SIZES or n > 256:
        return None
    d = SIZES[edition]
    entries = []
    for i in range(n):
        row = data[16 + i * (8 + d) : 16 + (i + 1) * (8 + d)]
        if len(row) < 8 + d:
            return None
        place, count = struct.unpack(">II", row[:8])
        entries.append((data[place : place + count], row[8:]))
    names = [name for name, _ in entries]
    if not all(map(allowed, names)):
        return None
    if any(a >= b for a, b in zip(names, names[1:])):
        return None
    return entries if write(edition, entries) == data else None


def some_name(rng, longest=64):
    return bytes(rng.choices(LETTERS, k=rng.randint(1, longest)))


def some_entries(rng, edition, n, longest=64):
    """Pairs of n names, of so many bytes at most, and their digests, in order."""
    names = set()
    while len(names) < n:
        names.add(some_name(rng, longest))
        if names and len(names) < n and rng.random() < 0.3:  # one that another is the beginning of
            names.add((rng.choice(sorted(names)) + some_name(rng, 3))[:64])
    return [(name, rng.randbytes(SIZES[edition])) for name in sorted(names)]
