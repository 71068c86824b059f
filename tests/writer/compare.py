"""Writing digest lists through the C interface, against the rules in rules.py beside this: tests/writer/run runs it.

Each kind of case is a function below, and is compared by itself. Whatever is lent to a call lies between guards, and every byte of it is
compared.

Of the refusals of put any two can hold at once, but for 15 and 16: a list has no name that no list may have. So can more than two, and each
set that can hold is tried, 48 of 64 with the empty one. Where there is no list, 14, 16, 17 and 9 are meant as its fields still say. The two
of start, 5 and 9, can hold at once too.
"""
import os
import random
import struct
import sys
from collections import Counter, defaultdict
from itertools import combinations, permutations

from driver import ALIGNED, BUFFER, FAR, Call, Far, Kept, compare
from lists import LETTERS, SIZES, allowed, some_entries, some_name, write
from rules import HEAD, HEADER, MOST, ORDER, put, started

NEVER = {15, 16}  # a listed name is an allowed one

seed = int(os.environ.get("SEED") or random.SystemRandom().randrange(2**32))
rng = random.Random(seed)
where = random.Random(f"{seed} places")
answers = {"list_start": Counter(), "list_put": Counter()}
sets = defaultdict(set)  # of refusals that were made to hold at once: in which editions


def expecting(name, args, outcome):
    number, left = outcome
    answers[name][number] += 1
    call = Call(name, args, where.randrange(ALIGNED**3))
    return call, call.reply(number, left=left)


def start_case(edition, buffer, lent=None):
    """A start on a buffer of these bytes, which is lent as they are or in another way."""
    return (expecting("list_start", (edition, lent or buffer), started(edition, buffer)),)


def put_case(buffer, name, digest, lent=None):
    return (expecting("list_put", (lent or buffer, name, digest), put(buffer, name, digest)),)


def need(name, digest):
    return HEAD + len(digest) + len(name)


def digest_for(edition):
    return rng.randbytes(SIZES[edition])


def other_name(entries, longest=64):
    """A name that is not listed; often one that is close to a listed one."""
    names = [name for name, _ in entries]
    while True:
        near = rng.choice(names) if names and rng.random() < 0.6 else some_name(rng, longest)
        name = rng.choice((near, near[:-1], (near + some_name(rng, 2))[:64], near[:-1] + some_name(rng, 1)))
        if allowed(name) and name not in names:
            return name


def forbidden_names(entries):
    listed = rng.choice(entries)[0] if entries else b"fleet.cfg"
    bad = bytes([rng.choice([b for b in range(256) if b not in LETTERS])])
    yield from (b"", b"a" * 65, listed[:63] + b" ", b"\x7f" + listed[:63], listed[:30] + bad + listed[30:63], bad * 65)


def starts():
    """Every edition and numbers that are none, in buffers of every length about a header's and of many others."""
    wrong = (0, 7, 8, 255, 256, 257, 258, 2**16 + 2, 2**32, 2**32 + 2, 2**63 + 4, 2**64 - 1)
    for edition in (*SIZES, *wrong, *(rng.randrange(7, 2**64) for _ in range(20))):
        for n in (*range(48), 100, 1000, 34_832, BUFFER):
            yield start_case(edition, rng.randbytes(n))
    # over a list of another edition, and over one of its own
    for edition in SIZES:
        for other in SIZES:
            entries = some_entries(rng, other, rng.randrange(5), 10)
            yield start_case(edition, write(other, entries) + rng.randbytes(rng.randrange(50)))


def sequence(edition, entries, spare, refused):
    """Start and puts on one buffer, which stays where it is: the pairs in this order, with some puts between them that are refused, and one
    more. The list that is left is the one that is written of all pairs at once, and is judged."""
    whole = write(edition, sorted(entries))
    size = len(whole) + spare
    buffer = rng.randbytes(size)
    calls, done = [*start_case(edition, buffer)], []
    buffer = started(edition, buffer)[1]

    def then(name, digest):
        nonlocal buffer
        outcome = put(buffer, name, digest)
        calls.append(expecting("list_put", (Kept(size), name, digest), outcome))
        buffer = outcome[1]

    for name, digest in entries:
        if rng.random() < refused:
            then(rng.choice([*forbidden_names(done)]), digest)
            then(name, digest[: rng.randrange(len(digest))])
        then(name, digest)
        done.append((name, digest))
        if rng.random() < refused:
            then(rng.choice(done)[0], digest_for(edition))
    if not buffer.startswith(whole):
        faults.append(f"edition {edition}, {len(entries)} entries: what is left is not the list of all pairs")
    then(other_name(entries), digest_for(edition))
    for name, digest in rng.sample(entries, min(3, len(entries))):
        judge = Call("judge", (whole, name, digest), where.randrange(ALIGNED**3))
        calls.append((judge, judge.reply(0)))
    return tuple(calls)


def orders():
    """Lists of every edition and of 0 to 256 entries, put together in ascending, descending and any order, in buffers that they fill and in
    longer ones: the same bytes each time."""
    for edition in SIZES:
        for n in (0, 1, 2, 3, 4, 7, 16, 40, 100, 255, 256):
            longest = 64 if n == 256 and edition == 4 else rng.choice((3, 9, 20)) if n > 100 else rng.choice((3, 20, 64))
            entries = some_entries(rng, edition, n, longest)
            mixed = [rng.sample(entries, n) for _ in range(1 if n > 20 else 5)]
            for pairs in mixed if n == 255 else (entries, entries[::-1], *mixed):
                yield sequence(edition, pairs, 0 if rng.random() < 0.5 else rng.randrange(1, 300), 0.02 if n > 20 else 0.2)
    # the longest list, and every order of four names that begin alike
    entries = [(b"%03d" % i + b"~" * 61, digest_for(4)) for i in range(MOST)]
    for pairs in (entries, entries[::-1], rng.sample(entries, MOST)):
        yield sequence(4, pairs, 0, 0)
    four = [(name, digest_for(6)) for name in (b"a", b"aa", b"ab", b"a!")]
    for pairs in permutations(four):
        yield sequence(6, pairs, rng.randrange(2), 0)


def places():
    """A pair at every place of lists that were not made by put, with any bytes behind them."""
    for edition in SIZES:
        for n in (0, 1, 2, 5, 12, 60, 255):
            entries = some_entries(rng, edition, n + 1, rng.choice((2, 8, 64)) if n < 100 else 12)
            for k in range(n + 1) if n < 100 else (0, 1, 2, 127, 253, 254, 255):
                name, digest = entries[k]
                data = write(edition, entries[:k] + entries[k + 1 :])
                yield put_case(data + rng.randbytes(need(name, digest) + rng.choice((0, 0, 1, 7, 300))), name, digest)
                # the same pair again, into what that left, and another into the full list
                data = write(edition, entries)
                yield put_case(data + rng.randbytes(rng.choice((0, 200))), name, rng.choice((digest, digest_for(edition))))
            yield put_case(data + rng.randbytes(rng.choice((0, 200))), other_name(entries), digest_for(edition))


def onward():
    """Several puts in turn on lists that start did not make, some refused: the list's own pairs and those taken are left."""
    for edition in SIZES:
        for n in (0, 1, 3, 20, 250):
            entries = some_entries(rng, edition, n + 6, 9)
            rng.shuffle(entries)
            old, new = sorted(entries[:n]), entries[n:]
            whole = write(edition, sorted(entries))
            size = len(whole) + rng.randrange(2) * rng.randrange(100)
            data = write(edition, old)
            buffer = data + rng.randbytes(size - len(data))
            lent, calls = buffer, []
            for name, digest in (*new, rng.choice(new), (rng.choice([*forbidden_names(old)]), new[0][1]), *old[:1]):
                outcome = put(buffer, name, digest)
                calls.append(expecting("list_put", (lent, name, digest), outcome))
                buffer, lent = outcome[1], Kept(size)
            if not buffer.startswith(whole):
                faults.append(f"edition {edition}, {n} entries and 6 more: what is left is not the list of all pairs")
            yield tuple(calls)


def lengths():
    """Buffers of every length from none to past the need."""
    for edition in SIZES:
        for n in (0, 1, 2, 5):
            entries = some_entries(rng, edition, n, 12)
            name, digest = other_name(entries), digest_for(edition)
            buffer = write(edition, entries) + rng.randbytes(200)
            for size in range(len(buffer) - 200 + need(name, digest) + 20):
                yield put_case(buffer[:size], name, digest)
        for n in (100, 255):
            entries = some_entries(rng, edition, n, 64 if n == 255 else 10)
            name, digest = other_name(entries), digest_for(edition)
            data = write(edition, entries)
            buffer = data + rng.randbytes(200)
            for size in (*range(0, 40), *range(len(data) - 10, len(data) + need(name, digest) + 10)):
                yield put_case(buffer[:size], name, digest)
    # every length of a name with every room about its need
    for edition in (1, 4):
        entries = some_entries(rng, edition, 3, 6)
        data, digest = write(edition, entries), digest_for(edition)
        for n in range(1, 65):
            name = b"~" * 7 + some_name(rng, 1) * 57
            name = name[:n] if name[:n] not in dict(entries) else b"!" * n
            for room in range(need(name, digest) - 3, need(name, digest) + 4):
                yield put_case(data + rng.randbytes(room), name, digest)


def damages(edition, entries, keep, full):
    """Ways to make a list no list that leave it its edition, its listed name `keep` and, where it is full, its 256 entries or more. The
    length field stays, or says a little more or less, or far too much."""
    data = write(edition, entries)
    whole = len(data)

    def with_field(at, value, size=4):
        return data[:at] + value.to_bytes(size, "big") + data[at + size :]

    for value in (0, 15, 17, HEADER + HEAD, 2**32 - 1):
        yield with_field(4, value)
    names = HEADER + len(entries) * (HEAD + SIZES[edition])
    for value in (names - 1, names + 1, 0, 2**32 - 1):
        yield with_field(8, value)
    for value in (0, 1, 15, whole - 1, whole + 1, 2**31, 2**32 - 1):
        yield with_field(12, value)
    yield with_field(2, len(entries) + 1, 2)
    others = [i for i, (name, _) in enumerate(entries) if name != keep]
    if others:
        row = HEADER + rng.choice(others) * (HEAD + SIZES[edition])
        place, length = struct.unpack(">II", data[row : row + HEAD])
        yield with_field(row, place - 1)
        yield with_field(row, place + 1)
        yield with_field(row + 4, length + 1)
        yield with_field(row + 4, 0)
        yield with_field(row + 4, 2**32 - 1)
        yield data[:place] + rng.choice((b" ", b"\x7f")) + data[place + 1 :]
    if len(entries) > 1:
        i = rng.randrange(len(entries) - 1)
        yield write(edition, entries[:i] + [entries[i + 1], entries[i]] + entries[i + 2 :])
        yield write(edition, entries[: i + 1] + entries[i:])
        yield write(edition, entries[::-1])
    if full:
        yield write(edition, sorted([*entries, (other_name(entries), digest_for(edition))]))


def refusals():
    """Every set of refusals that can hold at once, in every edition: the first is answered."""
    for edition in SIZES:
        for size in range(len(ORDER) + 1):
            for held in map(frozenset, combinations(ORDER, size)):
                if NEVER <= held:
                    continue
                for _ in range(1 if 17 in held else 3):
                    yield from holding(edition, held)


def holding(edition, held):
    """Cases in which these refusals hold, and no other."""
    n = MOST if 17 in held else rng.randrange(1 if 16 in held else 0, 8)
    entries = some_entries(rng, edition, n, 9)
    listed = rng.choice(entries)[0] if 16 in held else None
    names = [*forbidden_names(entries)] if 15 in held else [listed] if 16 in held else [other_name(entries)]
    sizes = {0, 1, SIZES[edition] - 1, SIZES[edition] + 1, *SIZES.values()} - {SIZES[edition]} if 14 in held else {SIZES[edition]}
    lists = [*damages(edition, entries, listed, 17 in held)] if 12 in held else [write(edition, entries)]
    # each of the ways at least once, side by side
    ways = max(len(names), len(sizes), len(lists), 3)
    for name, size, data in zip(*(turned([*way], ways) for way in (names, sizes, lists))):
        digest = rng.randbytes(size)
        room = need(name, digest)
        room = rng.choice((0, room - 1, rng.randrange(room))) if 9 in held else room + rng.choice((0, 1, rng.randrange(100)))
        buffer = data + rng.randbytes(room)
        outcome = put(buffer, name, digest)
        if outcome[0] != next((number for number in ORDER if number in held), 0):
            faults.append(f"edition {edition}, {sorted(held)} were to hold: {Call('list_put', (buffer, name, digest), 0)}")
        sets[held].add(edition)
        yield (expecting("list_put", (buffer, name, digest), outcome),)


def turned(way, times):
    rng.shuffle(way)
    return [way[i % len(way)] for i in range(times)]


def damaged():
    """Bytes at the front that are no list, or another one: what the judge here says of them decides."""
    for edition in SIZES:
        entries = some_entries(rng, edition, 2, 4)
        data = write(edition, entries)
        heads = [i for i in range(len(data)) if i < HEADER or i >= HEADER + 2 * (HEAD + SIZES[edition])]
        heads += [HEADER + k * (HEAD + SIZES[edition]) + i for k in range(2) for i in range(HEAD)]
        # every byte but a digest's changed to every other value, or to some; a digest's to some
        for i in range(len(data)):
            others = [value for value in range(256) if value != data[i]]
            others = others if i in heads and edition in (2, 3) else rng.sample(others, 20 if i in heads else 2)
            for value in others:
                yield about(edition, entries, data[:i] + bytes([value]) + data[i + 1 :])
        # cut short, and cut short with other bytes behind
        for i in range(len(data)):
            name, digest = other_name(entries), digest_for(edition)
            yield put_case(data[:i], name, digest)
            yield put_case(data[:i] + rng.randbytes(200), name, digest)
        # the length field says anything, among bytes that could be names
        for value in (*range(len(data) + 80), *(2**k + d for k in range(8, 32) for d in (-1, 0, len(data))), 2**32 - 1):
            changed = data[:12] + value.to_bytes(4, "big") + data[16:]
            yield about(edition, entries, changed, letters=True)
            yield put_case(changed, other_name(entries), digest_for(edition))
    yield from grown()
    yield from wild()


def about(edition, entries, data, letters=False):
    """A put of a name that is listed, or is not, with room about the need."""
    name = rng.choice(entries)[0] if entries and rng.random() < 0.2 else other_name(entries, 5)
    digest = digest_for(edition)
    room = rng.choice((need(name, digest) - 1, need(name, digest), need(name, digest) + rng.randrange(1, 90)))
    return put_case(data + (bytes(rng.choices(LETTERS, k=room)) if letters else rng.randbytes(room)), name, digest)


def grown():
    """The last name is made longer or shorter where it stands, with the length field and without; entries are forgotten; so all that is
    changed may be a list again, of other length."""
    for edition in SIZES:
        for n in (1, 3):
            entries = some_entries(rng, edition, n, 8)
            data = write(edition, entries)
            tail = bytes(rng.choices(LETTERS, k=150))
            at = HEADER + (n - 1) * (HEAD + SIZES[edition]) + 4
            last = len(entries[-1][0])
            for length in range(0, 70):
                for whole in {len(data) - last + length, len(data)}:
                    changed = data[:12] + struct.pack(">I", whole) + data[16:at] + struct.pack(">I", length) + data[at + 4 :]
                    yield put_case(changed + tail, other_name(entries), digest_for(edition))
            for count in range(n + 2):
                names = HEADER + count * (HEAD + SIZES[edition])
                for whole in (names, len(data)):
                    changed = struct.pack(">HHIII", edition, count, HEADER, names, whole) + data[16:]
                    yield put_case(changed + tail, other_name(entries), digest_for(edition))
            # as an edition with digests of the same size, of another, and as none
            for other in range(9):
                yield put_case(struct.pack(">H", other) + data[2:] + tail, other_name(entries), digest_for(other if other in SIZES else 2))


def wild():
    """Lists that break one rule, several fields changed at once, more entries than a list may have, and no list at all."""
    name, digest = b"fleet.cfg", bytes(32)
    alone = ([b"a b"], [b"a\x7f"], [b"\x20"], [b"\x80"], [b""], [b"a" * 65])
    for names in ([b"b", b"a"], [b"a", b"a"], [b"ab", b"a"], [b"", b"a"], [b"a", b"b" * 65], *alone):
        for n in (name, *names):
            yield put_case(write(2, [(listed, digest) for listed in names]) + rng.randbytes(200), n, digest)
    for n in (257, 258, 300, 511, 512, 513):
        entries = some_entries(rng, 2, n, 12)
        yield put_case(write(2, entries) + rng.randbytes(100), other_name(entries), digest)
        yield put_case(write(2, entries) + rng.randbytes(100), entries[0][0], digest)
    for _ in range(4000):
        edition = rng.choice([*SIZES])
        entries = some_entries(rng, edition, rng.randrange(5), 6)
        data = bytearray(write(edition, entries))
        for _ in range(rng.randrange(1, 4)):
            if rng.random() < 0.5:
                data[rng.randrange(len(data))] = rng.randrange(256)
            else:
                at = rng.choice([0, 2, 4, 8, 12] + [HEADER + k * (HEAD + SIZES[edition]) + i for k in range(len(entries)) for i in (0, 4)])
                data[at + 1 if at < 4 else at + 3] = (data[at + 1 if at < 4 else at + 3] + rng.choice((-1, 1, 2, -2, 64))) % 256
        yield about(edition, entries, bytes(data), letters=rng.random() < 0.5)
    for n in (*range(40), 100, 1000, BUFFER):
        yield put_case(bytes(n), name, digest)
        for _ in range(5):
            yield put_case(rng.randbytes(n), name, digest)


def named():
    """Every byte as a name and within names, names of every length, prefixes of each other, and names at the edges of what is allowed."""
    for edition in SIZES:
        entries = some_entries(rng, edition, 6, 3)
        data, digest = write(edition, entries), digest_for(edition)
        listed = rng.choice(entries)[0]
        for byte in map(bytes, zip(range(256))):
            around = (byte, byte + b"a", b"a" + byte, b"a" * 31 + byte + b"z" * 32, b"z" * 63 + byte, listed + byte, byte * 64)
            for name in around if edition in (2, 4) else (byte, rng.choice(around)):
                yield put_case(data + rng.randbytes(150), name, digest)
        for n in (*range(71), 127, 128, 129, 255, 256, 257, 256 + 5, 512 + 64, 2**16 + 1, 2**16 + 64):
            for name in (b"!" * n, b"~" * n, bytes(rng.choices(LETTERS, k=n)), listed + b"a" * (n - len(listed))):
                yield put_case(data + rng.randbytes(200), name, digest)
        # names that begin alike: each of them into lists of the others
        ends = (b"a", b"aa", b"!", b"~", b"!!", b"~~", b"!~", b"b")
        alike = sorted({b"a" * n + end for n in (0, 1, 2, 62) for end in ends})
        for name in alike:
            others = [(other, digest_for(edition)) for other in alike if other != name and rng.random() < 0.8]
            yield put_case(write(edition, others) + rng.randbytes(200), name, digest)
            yield put_case(write(edition, sorted([*others, (name, digest)])) + rng.randbytes(200), name, digest_for(edition))
        for n in (FAR + 1, 2**32, 2**32 + 9, 2**40 + 1):
            yield put_case(data + rng.randbytes(200), n, digest)
            yield put_case(data[:-1] + rng.randbytes(200), n, digest)


def digests():
    """Digests of every length, of every edition, and of bytes that are all alike."""
    for edition in SIZES:
        for n in (0, 3):
            entries = some_entries(rng, edition, n, 5)
            data, d = write(edition, entries), SIZES[edition]
            for size in (*range(71), 128, 255, 256, 256 + d, 2**16 + d, FAR):
                for name in (other_name(entries), *(rng.choice(entries)[:1] if entries else ())):
                    yield put_case(data + rng.randbytes(rng.choice((0, 60, 200))), name, rng.randbytes(size))
            for byte in (0, 0x21, 0x7E, 0xFF):
                yield put_case(data + rng.randbytes(200), other_name(entries), bytes([byte]) * d)
            for size in (FAR + 1, 2**32, 2**32 + d, 2**40 + d):
                yield put_case(data + rng.randbytes(200), other_name(entries), size)
                yield put_case(data + rng.randbytes(200), b"", size)


def far():
    """Buffers that are longer than any list, by far: their ends are never touched."""
    for n in (BUFFER + 1, FAR, 2**31, 2**32 - 1, 2**32, 2**32 + 1, 2**32 + 15, 2**32 + 16, 2**32 + 40, 2**33, 2**40 + 7):
        for edition in (*SIZES, 7):
            buffer = rng.randbytes(BUFFER)
            yield start_case(edition, buffer, Far(n, buffer))
        for edition in SIZES:
            entries = some_entries(rng, edition, rng.choice((0, 1, 5, 30)), 9)
            data = write(edition, entries)
            name, digest = other_name(entries), digest_for(edition)
            buffer = data + rng.randbytes(BUFFER - len(data))
            yield put_case(buffer, name, digest, Far(n, buffer))
        # the length field passes what is sent of the buffer, and not the buffer
        buffer = data[:12] + struct.pack(">I", rng.choice((BUFFER + 1, FAR - 1))) + buffer[16:]
        yield put_case(buffer, name, digest, Far(n, buffer))


print(f"seed {seed} (SEED={seed} repeats this run)", flush=True)
faults = []
passed = failed = 0
for kind in (starts, orders, places, onward, lengths, refusals, damaged, named, digests, far):
    right, wrong = compare(kind())
    print(f"{kind.__name__}: {right + wrong} cases" + (f", {wrong} failed, SEED={seed}" if wrong else ""), flush=True)
    passed, failed = passed + right, failed + wrong

# every answer has come up, and every set of refusals in every edition
every = {"list_start": (0, 5, 9), "list_put": (0, *ORDER)}
faults += [f"no dw_{name} answers {number}" for name in every for number in every[name] if not answers[name][number]]
possible = [held for size in range(7) for held in map(frozenset, combinations(ORDER, size)) if not NEVER <= held]
faults += [f"{sorted(held)} never hold at once in some edition" for held in possible if sets[held] != set(SIZES)]
for fault in faults[:10]:
    print(f"not ok: the test itself is at fault: {fault}, SEED={seed}")
passed, failed = passed + (not faults), failed + len(faults)
for name, counts in answers.items():
    print(f"dw_{name} is to answer: " + ", ".join(f"{number} {count} times" for number, count in sorted(counts.items())))
print(f"{passed} passed, {failed} failed")
sys.exit(0 if failed == 0 else 1)
