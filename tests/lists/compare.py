"""Digest lists through the C interface, against the rules of SPEC, "Digest list", in tests/driver/lists.py: tests/lists/run runs it.

Lists of every edition and of 0 to 256 entries, names and digests that are listed, near ones and others; one list of each edition with
every byte damaged to every other value, a longer one with every byte damaged once, and each cut short and made longer.
"""
import os
import random
import sys
from collections import Counter

from driver import ALIGNED, Call, compare
from lists import SIZES, read, some_entries, some_name, write

seed = int(os.environ.get("SEED") or random.SystemRandom().randrange(2**32))
rng = random.Random(seed)


def expected(data, name, digest):
    """The numbers of judge (12, 13, 14) and of lookup (12, 13), the first that applies; and where lookup says that the digest lies."""
    entries = read(data)
    if entries is None:
        return 12, 12, (0, 0)
    for i, (listed, its_digest) in enumerate(entries):
        if listed == name:
            d = len(its_digest)
            return (0 if its_digest == digest else 14), 0, (16 + i * (8 + d) + 8, d)
    return 13, 13, (0, 0)


def questions(data, entries):
    """A list that is held to a listed name, to names near it, and to digests near its own."""
    name, digest = rng.choice(entries) if entries else (b"fleet.cfg", bytes(32))
    yield data, name, digest
    yield data, name, digest[:-1]
    yield data, name, digest + b"\0"
    yield data, name, b""
    yield data, name, bytes([digest[0] ^ 1]) + digest[1:]
    yield data, name, digest[:-1] + bytes([digest[-1] ^ 0x80])
    yield data, name[:-1], digest
    yield data, name + b"!", digest
    yield data, some_name(rng), digest
    yield data, b"", b""
    for name, digest in entries[:1] + entries[-1:]:
        yield data, name, digest


def cases():
    for edition in SIZES:
        for n in (0, 1, 2, 3, 7, 16, 100, 255, 256):
            entries = some_entries(rng, edition, n, rng.choice((4, 20, 64)))
            yield from questions(write(edition, entries), entries)
        # the longest list of the edition
        entries = [(b"%03d" % i + bytes([0x7E]) * 61, rng.randbytes(SIZES[edition])) for i in range(256)]
        yield from questions(write(edition, entries), entries)
    # one entry too many, no such edition, names out of order, a name twice, a blank and a byte above 7e, no name and one of 65 bytes
    yield from questions(write(2, entries_257 := some_entries(rng, 2, 257, 20)), entries_257)
    for wrong in (b"\0\0", b"\0\x07", b"\x02\0"):
        yield wrong + write(2, [(b"a", bytes(32))])[2:], b"a", bytes(32)
    alone = ([b"a b"], [b"a\x7f"], [b"\x20"], [b""], [b"a" * 65])
    for names in ([b"b", b"a"], [b"a", b"a"], [b"ab", b"a"], [b"", b"a"], [b"a", b"b" * 65], *alone):
        yield write(2, [(name, bytes(32)) for name in names]), names[0], bytes(32)
    # every byte of a list of each edition, damaged to every other value
    for edition in SIZES:
        entries = some_entries(rng, edition, 2, 5)
        data = write(edition, entries)
        for i in range(len(data)):
            name, digest = rng.choice(entries)
            for value in range(256):
                if value != data[i]:
                    yield data[:i] + bytes([value]) + data[i + 1 :], name, digest
    entries = some_entries(rng, 2, 40, 30)
    data = write(2, entries)
    for i in range(len(data)):
        name, digest = rng.choice(entries)
        yield data[:i] + bytes([data[i] ^ 1 << rng.randrange(8)]) + data[i + 1 :], name, digest
        yield data[:i], name, digest
    for more in (b"\0", b"a", b"~", bytes(8)):
        yield data + more, name, digest
    # bytes that are no list at all
    for n in (0, 1, 15, 16, 17, 100, 35_000):
        yield rng.randbytes(n), b"a", bytes(32)
        yield bytes(n), b"a", bytes(32)


def calls(data, name, digest):
    """Judge and lookup of one case, each with the reply that is expected."""
    judged, found, place = expected(data, name, digest)
    numbers[judged] += 1
    judge = Call("judge", (data, name, digest), where.randrange(ALIGNED**3))
    lookup = Call("lookup", (data, name), where.randrange(ALIGNED**2))
    return (judge, judge.reply(judged)), (lookup, lookup.reply(found, place))


print(f"seed {seed} (SEED={seed} repeats this run)", flush=True)
numbers, where = Counter(), random.Random(f"{seed} places")
passed, failed = compare(calls(*case) for case in cases())
print("expected answers: " + ", ".join(f"{number} {count} times" for number, count in sorted(numbers.items())))
print(f"{passed} passed, {failed} failed")
sys.exit(0 if failed == 0 else 1)
