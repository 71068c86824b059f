"""Chunk trees through the C interface, against RFC 6962's splits written in rules.py beside this: tests/tree/run runs it.

Trees of every count of chunks to 40, of lengths about each power of two, of the longest map and past it, and every short output; the pair
of maps that had one root before request 03; and leaf, parent and level by themselves, in parts.py.
"""
import os
import random
import sys

from parts import Parts, vectors
from rules import old_tree, tree

from driver import ALIGNED, FAR, Call, compare
from trees import CHUNK, NODE

LIMIT = 1_048_576

seed = int(os.environ.get("SEED") or random.SystemRandom().randrange(2**32))
rng = random.Random(seed)


def expected(data, size):
    """Tree: 7, 9, the first that applies, and what is written; a refusal writes nothing."""
    n = data if isinstance(data, int) else len(data)
    number = 7 if n > LIMIT else 9 if size < NODE else 0
    return number, tree(data) if number == 0 else b""


def maps():
    lengths = [0, 1, 1023, 1024, 1025, 2048, 2049, 3072, 4096, 5000, 65536, 100_000, LIMIT - 1, LIMIT, LIMIT + 1]
    lengths += [CHUNK * n + d for n in range(1, 41) for d in (-1, 0, 1)]
    lengths += [CHUNK * 2**k + d for k in range(6, 10) for d in (-CHUNK, -1, 0, 1, CHUNK)]
    lengths += [LIMIT - CHUNK, LIMIT - CHUNK + 1, LIMIT + CHUNK, LIMIT + 2 * CHUNK]
    lengths += [rng.randrange(65_536) for _ in range(60)] + [rng.randrange(LIMIT) for _ in range(4)]
    for n in lengths:
        yield rng.randbytes(n), rng.choice((32, 32, 33, 64))
    yield three, 32
    yield four, 32
    for size in list(range(32)) + [40, 63]:
        yield rng.randbytes(rng.randrange(5000)), size
    for size in (0, 31, 32, 64):
        yield bytes(LIMIT + 1), size
    # more bytes than are sent: a number is lent as so many zeros
    for n in (FAR + 1, 2**32, 2**32 + CHUNK, 2**40, 2**40 + 1):
        for size in (0, 31, 32, 64):
            yield n, size


def calls(data, size):
    """One map, lent anywhere, with the reply that is expected."""
    number, root = expected(data, size)
    call = Call("tree", (data, (size, where.randrange(256))), where.randrange(ALIGNED**2))
    return ((call, call.reply(number, wrote=root)),)


def cases():
    yield from (calls(*case) for case in maps())
    nothing = Call("tree", (b"", (32, 0)), 0)
    yield ((nothing, nothing.reply(0, wrote=vectors()[1][0])),)
    parts = Parts(where)
    yield from parts.published()
    yield from parts.by_chance()


print(f"seed {seed} (SEED={seed} repeats this run)", flush=True)
where = random.Random(f"{seed} places")

# request 03's own case: 3,072 bytes, and the 4,096 that repeat their last chunk. Both are among the maps, so that what is expected of them
# is what the compiled call writes.
three = rng.randbytes(3 * CHUNK)
four = three + three[2 * CHUNK :]
apart = old_tree(three) == old_tree(four) and tree(three) != tree(four)
print(("ok" if apart else "not ok") + ": 3,072 bytes and the 4,096 that repeat their last chunk: two roots, and one by the old rule")

passed, failed = compare(cases())
print(f"{passed + apart} passed, {failed + (not apart)} failed")
sys.exit(0 if failed == 0 and apart else 1)
