"""The tree over a stream through the C interface, against the rules in rules.py beside this: tests/stream/run runs it.

Each kind of case is a function below, and is compared by itself. A case is calls over one memory. The words that are lent lie between
others in it: after every call all of them are compared, and so are the output and the bytes about it and about the piece.
"""
import os
import random
import sys
from collections import Counter
from itertools import combinations, combinations_with_replacement

import rules
from driver import ALIGNED, FAR, GUARD_WORDS, Call, Memory, Word, changes, compare
from rules import LIMIT, MOST, ROOM, WORDS, Map
from trees import CHUNK, NODE

LONGEST_TREE = 1_048_576  # bytes, for the call that takes a whole map
LONGEST_RUN = 4096 - 2 * GUARD_WORDS  # the driver has room for 4,096 words

seed = int(os.environ.get("SEED") or random.SystemRandom().randrange(2**32))
rng = random.Random(seed)
where = random.Random(f"{seed} places")
# what has come up: answers, how many roots a chunk was joined with, and refusals that held at once; and where the test itself is wrong
answers = {name: Counter() for name in ("stream_begin", "stream_add", "stream_root")}
joins, sets, faults = set(), set(), []


class OnStream(Call):
    """A call that also says, when it is shown, what it was made on."""

    def __str__(self):
        return f"{super().__str__()} on {self.chunks:#x} chunks and {self.further:#x} bytes"


class Case(list):
    """Calls over one memory, each with the reply that is expected. All of the words are lent to each call, or so many."""

    def __init__(self, words, lent=None):
        about = some_words(2 * GUARD_WORDS)
        self.words, self.lent = tuple(words), len(words) if lent is None else lent
        self.append((Memory((*about[:GUARD_WORDS], *words, *about[GUARD_WORDS:])), b""))

    def set(self, place, value):
        """The caller writes a word himself."""
        self.append((Word(place, value), b""))
        self.words = self.words[:place] + (value,) + self.words[place + 1 :]

    def run(self):
        return self.words[: self.lent]

    def call(self, name, args, number, left=None, wrote=b""):
        """A call with the number that it must answer, and with the words that it leaves where it may write them."""
        call = OnStream(name, (self.lent, *args), where.randrange(ALIGNED**2))
        call.chunks, call.further = self.words[:2]
        answers[name][number] += 1
        left = self.run() if left is None else left
        self.append((call, call.reply(number, wrote=wrote, changes=changes(self.run(), left))))
        self.words = left + self.words[self.lent :]
        return number

    # calls on any words, whatever the rules say of them

    def begin(self):
        return self.call("stream_begin", (), *rules.begin(self.run()))

    def add(self, piece):
        return self.call("stream_add", (piece,), *rules.add(self.run(), piece))

    def root(self, size=NODE):
        number, wrote = rules.root(self.run(), size)
        return self.call("stream_root", (self.output(size),), number, wrote=wrote)

    # calls that are done, on a stream that has taken so many bytes of a map

    def take(self, this, n, end):
        joins.update(zeros_at_end(chunk + 1) for chunk in range(this.counts(n)[0], this.counts(end)[0]))
        self.call("stream_add", (this.data[n:end],), 0, this.words(end) + self.run()[WORDS:])

    def ask(self, this, n, size=NODE):
        self.call("stream_root", (self.output(size),), 0, wrote=this.root(n))

    def tree(self, this):
        """The call for a whole map, on the same bytes."""
        call = Call("tree", (this.data, self.output(NODE)), where.randrange(ALIGNED**2))
        fits = len(this.data) <= LONGEST_TREE
        self.append((call, call.reply(0, wrote=this.root(len(this.data))) if fits else call.reply(7)))

    def output(self, size):
        return size, where.randrange(256)


def some_words(n):
    return tuple(where.getrandbits(64) for _ in range(n))


def ones(n):
    return bin(n).count("1")


def zeros_at_end(n):
    return (n & -n).bit_length() - 1


def some_roots(chunks):
    return [rng.randbytes(NODE) for _ in range(ones(chunks))]


def made_up(chunks, further=0):
    """The words of a sound stream with any roots and bytes."""
    return Map(rng.randbytes(further), chunks, some_roots(chunks)).words(further)


def some_count():
    """A count of chunks below the limit: of every size, with every count of one bits at its end."""
    bits = rng.randrange(33)
    low = rng.randrange(bits + 1)
    return rng.getrandbits(bits) >> low << low | (1 << low) - 1


def some_ends(n, pieces):
    """Where so many pieces of n bytes end: some of them may be empty."""
    return sorted(rng.randrange(n + 1) for _ in range(pieces - 1)) + [n]


def fed(this, ends, asked=0.1, words=WORDS):
    """A stream begun over any words, and fed with the bytes of a map up to each of these ends; at some of them its root is asked, and twice
    at the last."""
    case, at = Case(some_words(words)), 0
    case.begin()
    for end in ends:
        case.take(this, at, end)
        if rng.random() < asked:
            case.ask(this, end)
        at = end
    case.ask(this, at)
    case.ask(this, at, rng.choice((NODE, NODE + 1, 64)))
    return case


# ---- streams that are begun and fed


def one_cut():
    """A map of more than three chunks, cut once, at every byte."""
    this = Map(rng.randbytes(3 * CHUNK + 30))
    for cut in range(len(this.data) + 1):
        yield fed(this, (cut, len(this.data)))


def edges():
    """Two cuts about the ends of chunks; and byte by byte, with empty pieces too, across the end of every chunk up to the 70th."""
    near = [CHUNK * k + d for k in (1, 2, 3) for d in range(-4, 5)]
    this = Map(rng.randbytes(3 * CHUNK + 9))
    for cuts in combinations_with_replacement(near, 2):
        yield fed(this, (*cuts, len(this.data)), 0.5)
    this = Map(rng.randbytes(70 * CHUNK + 9))
    for k in range(71):
        ends = sorted([*range(max(0, CHUNK * k - 5), CHUNK * k + 6), CHUNK * k, CHUNK * k + 1])
        yield fed(this, ends, 1)


def sizes():
    """Pieces of one size throughout, and empty ones before, between and after others."""
    for size, n in ((1, 3 * CHUNK + 9), (7, 9000), (63, 20_000), (64, 20_000), (1023, 100_000), (1025, 100_000)):
        yield fed(Map(rng.randbytes(n)), [*range(size, n, size), n], 1 if size == 1 else 0.5)
    for ends in ([0] * 5, [0, 1, 1, 1], [0, CHUNK, CHUNK, CHUNK], [CHUNK - 1, CHUNK - 1, CHUNK, CHUNK]):
        yield fed(Map(rng.randbytes(ends[-1])), ends, 1)


def lengths():
    """Maps of every length about many chunks' ends, and of any. Each is cut in two ways, which must lead to the same words, and is then
    handed to the call for a whole map."""
    near = [CHUNK * k + d for k in range(40) for d in range(-3, 4) if CHUNK * k + d >= 0]
    near += [CHUNK * 2**k + d for k in range(6, 10) for d in (-CHUNK, -1, 0, 1, CHUNK)]
    for n in near + [rng.randrange(5000) for _ in range(100)] + [rng.randrange(LONGEST_TREE) for _ in range(8)]:
        this = Map(rng.randbytes(n) if rng.random() < 0.9 else bytes([rng.choice((0, 255))]) * n)
        case = fed(this, some_ends(n, rng.randrange(1, 9)), 0.3, rng.choice((WORDS, WORDS + 1)))
        case.begin()
        case.take(this, 0, n)
        case.tree(this)
        yield case


def long():
    """Maps up to the longest that the call for a whole map takes, one byte longer, and of some MiB."""
    for n, sizes in (
        (LONGEST_TREE, (4096, 100_001)),
        (LONGEST_TREE + 1, (4096,)),
        (4 << 20, (65_536, FAR)),
        ((4 << 20) - 1, (4095, 1 << 20)),
        ((5 << 20) + 77, (1000, 4096, FAR)),
    ):
        this = Map(rng.randbytes(n))
        for size in sizes:
            yield fed(this, [*range(size, n, size), n])
        # a byte first, so that no chunk begins where a piece does; and sizes by chance
        yield fed(this, [*range(1, n, 4096), n])
        ends = [0]
        while ends[-1] < n:
            ends.append(min(n, ends[-1] + rng.randrange(rng.choice((3, 3000, 50_000, FAR)))))
        case = fed(this, ends)
        if n <= FAR:
            case.tree(this)
        yield case


# ---- streams that somebody else has kept


def carried():
    """Streams of any count of chunks, with roots and bytes that were made up: each goes on from there, and tells its root. Every count of
    roots that a chunk can be joined with comes up."""
    counts = [(1 << k) - 1 for k in range(33)] + [(1 << k) - 1 | 1 << high for k in range(32) for high in (k + 1, 31) if k < high < 32]
    for chunks in counts + [some_count() for _ in range(1000)]:
        further = rng.choice((0, 0, 1, CHUNK - 1, rng.randrange(CHUNK)))
        room = (MOST - chunks) * CHUNK - further
        # a part of the chunk that was begun, a chunk's worth, and more or nothing
        steps = rng.randrange(CHUNK - further), CHUNK, rng.choice((0, 1, CHUNK, rng.randrange(7 * CHUNK)))
        this = Map(rng.randbytes(further + min(room, sum(steps))), chunks, some_roots(chunks))
        case, at = Case(this.words(further) + some_words(rng.choice((0, 0, 1, 9)))), further
        case.ask(this, at)
        for step in steps:
            end = min(at + step, len(this.data))
            case.take(this, at, end)
            case.ask(this, end)
            at = end
        yield case
    # what roots and bytes are is not judged: they may be nothing but zeros, too
    for byte in (b"\x00", b"\xff"):
        for chunks in (0, 1, 2, 3, 255, MOST - 1, MOST):
            for further in (0, 1, 500, CHUNK - 1) if chunks < MOST else (0,):
                case = Case(Map(byte * further, chunks, [byte * NODE] * ones(chunks)).words(further))
                case.root()
                case.add(b"")
                case.add(rng.randbytes(min(rng.randrange(3000), (MOST - chunks) * CHUNK - further)))
                case.root()
                yield case


def limit():
    """The last chunks: pieces that end one byte before the limit, at it, and past it, among them ones of more bytes than there are at
    hand."""
    counts = [MOST - d for d in (0, 1, 2, 3, 4, 5, 1024, 1025, 2047, 2048)] + [3 << 30, 2**31 + 1, 2**31, 2**31 - 1, 1, 0]
    for chunks in counts:
        for further in (0, 1, 8, 511, 1016, 1023) if chunks < MOST else (0,):
            room = (MOST - chunks) * CHUNK - further
            near = [room + d for d in (-1, 0) if 0 <= room + d <= FAR] + [room + d for d in (1, 2, 8, CHUNK, 2**20, 2**32 - 1)]
            for n in [0, 1, *near]:
                case = Case(made_up(chunks, further))
                taken = case.add(rng.randbytes(n) if n <= FAR else n) == 0
                if taken != (n <= room):
                    faults.append(f"{chunks} chunks, {further} bytes and {n} more: the rules here are wrong about the limit")
                case.root()
                # from there to the limit, where only an empty piece is taken
                left = room - n if taken else room
                if left <= 4 * CHUNK:
                    case.add(rng.randbytes(left + 1))
                    case.add(rng.randbytes(left))
                    case.root()
                    case.add(b"")
                    case.add(b"\x00")
                    case.add(FAR + 1)
                    case.root()
                yield case
    # streams that were begun and fed: a refusal leaves them as they are
    for n in (0, 1, 5000):
        for more in (LIMIT - n + 1, LIMIT + 1, LIMIT + CHUNK, LIMIT + 2**32):
            this = Map(rng.randbytes(n))
            case = fed(this, (n,))
            case.add(more)
            case.ask(this, n)
            yield case


# ---- words that are no stream, and other refusals


def runs():
    """Too few words, which are the front of a stream or anything; and more words than a stream has: those behind it are never read or
    written."""
    for lent in range(WORDS):
        for words in ((0,) * WORDS, made_up(some_count(), rng.randrange(CHUNK)), some_words(WORDS), made_up(MOST)):
            case = Case(words, lent)
            case.begin()
            case.add(rng.choice((b"", rng.randbytes(rng.randrange(3000)))))
            case.root(rng.choice((0, NODE - 1, NODE, 64)))
            yield case
    for lent in (*range(WORDS, WORDS + 20), 300, 512, 1024, 2 * WORDS, 2 * WORDS + 1, LONGEST_RUN):
        this = Map(rng.randbytes(rng.randrange(9000)))
        case = fed(this, some_ends(len(this.data), 5), 0.5, lent)
        case.begin()
        yield case
        for behind in (some_words(lent - WORDS), (2**64 - 1,) * (lent - WORDS), (0,) * (lent - WORDS)):
            case = Case(made_up(some_count(), rng.randrange(CHUNK)) + behind)
            case.root()
            case.add(rng.randbytes(rng.randrange(3000)))
            case.root()
            case.begin()
            yield case


def laid_out(chunks, further, count):
    """Words with these numbers in front, as many roots as there are one bits and room, and so many bytes, whether that is sound or not."""
    roots = rng.randbytes(min(ROOM, NODE * ones(chunks)))
    return chunks, further, *rules.words_of(roots.ljust(ROOM, b"\x00") + rng.randbytes(count).ljust(CHUNK, b"\x00"))


def unused(chunks, further):
    """The bytes that are zero in a sound stream, counted from the first of the roots on."""
    return *range(NODE * ones(chunks), ROOM), *range(ROOM + further, ROOM + CHUNK)


def not_zero(at):
    """The word that such a byte lies in, and what it is then; some of the byte's bits are set, or one."""
    return 2 + at // 8, rng.choice((1, 0x80, rng.randrange(1, 256))) << 56 - at % 8 * 8


def refused(words):
    """Whatever is asked of words that are no stream, it is refused and changes nothing."""
    case = Case(words)
    pieces = b"", rng.randbytes(rng.choice((1, CHUNK, rng.randrange(3000))))
    if {*map(case.add, pieces), case.root(), case.root(NODE - 1)} != {6}:
        faults.append(f"{words[0]} chunks and {words[1]} bytes are a stream, and were to be none")
    return case


def damaged():
    """Words that are no stream, of every kind."""
    # each of the bytes that are zero, one after the other
    for chunks, further in ((0, 0), (1, 1), (MOST, 0), (MOST - 1, 1000), (0xAAAAAAAA, 511), (some_count(), rng.randrange(CHUNK))):
        case = Case(made_up(chunks, further))
        for at in unused(chunks, further):
            place, value = not_zero(at)
            was = case.words[place]
            case.set(place, was | value)
            if (case.add(rng.choice((b"", rng.randbytes(rng.randrange(1100))))), case.root(rng.choice((0, NODE)))) != (6, 6):
                faults.append(f"{chunks} chunks and {further} bytes with byte {at} not zero are a stream, and were to be none")
            case.set(place, was)
        case.add(b"")
        case.root()
        yield case
    # a root more than there are one bits, and a one bit less than there are roots
    for chunks in [0, 1, 2, 3, 2**31, MOST - 2, MOST, 0x55555555] + [some_count() for _ in range(60)]:
        words = made_up(chunks, 0 if chunks == MOST else rng.choice((0, rng.randrange(CHUNK))))
        behind = 2 + 4 * ones(chunks)
        if chunks != MOST - 1:
            yield refused(words[:behind] + some_words(4) + words[behind + 4 :])
        for bit in (1 << k for k in range(33) if chunks >> k & 1):
            yield refused((chunks ^ bit, *words[1:]))
    # too many chunks, and bytes after the last that there may be
    too_many = [MOST + 1, MOST + 2, MOST + 2**31, 2 * MOST - 1, 2 * MOST, 3 * MOST, 2**42, 2**54, 2**63, 2**63 + 1, 2**64 - MOST, 2**64 - 1]
    for chunks in too_many:
        for further in (0, 1, CHUNK - 1):
            yield refused(laid_out(chunks, further, further))
    for further in (1, 2, 8, 512, CHUNK - 1):
        yield refused(laid_out(MOST, further, further))
    # too many bytes, where their room is empty, and where it is full
    for chunks in (0, 1, MOST - 1, MOST, some_count()):
        for further in (CHUNK, CHUNK + 1, 2 * CHUNK, 2**16, 2**32, 2**32 + 5, 2**42, 2**54, 2**63, 2**64 - CHUNK, 2**64 - 1):
            for count in (0, 5, CHUNK - 1, CHUNK):
                yield refused(laid_out(chunks, further, count))
    for _ in range(50):
        yield refused(some_words(WORDS))


def flips():
    """One bit of a sound stream changed, anywhere: the rules here say what comes of it, which may be a stream again. Of the two numbers in
    front each bit is changed."""
    for bit in range(128):
        yield flipped(MOST, 0, bit)
        for _ in range(15):
            yield flipped(some_count(), rng.choice((0, rng.randrange(CHUNK))), bit)
    for _ in range(3000):
        yield flipped(rng.choice((some_count(), rng.randrange(5))), rng.randrange(CHUNK), rng.randrange(64 * WORDS))


def flipped(chunks, further, bit):
    case = Case(made_up(chunks, further))
    case.set(bit // 64, case.words[bit // 64] ^ 1 << bit % 64)
    case.root()
    case.add(rng.randbytes(rng.choice((0, 1, CHUNK - further, rng.randrange(2500)))))
    case.root()
    return case


def outputs():
    """Outputs of every length about a root's, and of some others."""
    for words in ((0,) * WORDS, made_up(some_count(), 5), made_up(some_count()), made_up(MOST), made_up(MOST - 1, 1)):
        for size in (*range(NODE + 8), 63, 64, 65, 256, 1024):
            case = Case(words)
            case.root(size)
            yield case


FEW, UNSOUND, LONG, SHORT = "too few words", "not sound", "too long", "output too short"
NUMBERS = {FEW: 6, UNSOUND: 6, LONG: 7, SHORT: 9}


def refusals():
    """Every set of refusals of an add and of a root, in many ways: the first is answered. Of words that are too few, what is not sound and
    what is too long are meant as if all were lent."""
    for last in (LONG, SHORT):
        for held in (set(some) for size in range(4) for some in combinations((FEW, UNSOUND, last), size)):
            for _ in range(100):
                yield holding(held, last)


def holding(held, last):
    """A case in which these refusals hold, and no other."""
    # often near the limit, where a short piece is too long
    chunks = rng.choice((MOST, MOST - 1, MOST - 2)) if rng.random() < 0.5 else some_count()
    further = 0 if chunks == MOST else rng.randrange(CHUNK)
    case = Case(made_up(chunks, further), rng.choice((WORDS - 1, rng.randrange(WORDS))) if FEW in held else None)
    if UNSOUND in held:
        place, value = not_zero(rng.choice(unused(chunks, further)))
        case.set(place, case.words[place] | value)
    room = LIMIT - chunks * CHUNK - further
    if last == LONG:
        n = room + rng.choice((1, 1, CHUNK, rng.randrange(1, FAR))) if LONG in held else min(room, rng.randrange(3000))
        number = case.add(rng.randbytes(n) if n <= FAR else n)
    else:
        number = case.root(rng.randrange(NODE) if SHORT in held else rng.choice((NODE, NODE + 1, 64)))
    if number != min((NUMBERS[what] for what in held), default=0):
        faults.append(f"{sorted(held)} were to hold: {case[-1][0]}")
    sets.add((last, *sorted(held)))
    return case


print(f"seed {seed} (SEED={seed} repeats this run)", flush=True)
passed = failed = 0
for kind in (one_cut, edges, sizes, lengths, long, carried, limit, runs, damaged, flips, outputs, refusals):
    right, wrong = compare(kind())
    print(f"{kind.__name__}: {right + wrong} cases" + (f", {wrong} failed, SEED={seed}" if wrong else ""), flush=True)
    passed, failed = passed + right, failed + wrong

# a run that was not cut short has seen every answer, every count of roots that a chunk can be joined with, and every set of refusals: eight
# of an add, and eight of a root
if failed == 0:
    every = {"stream_begin": (0, 9), "stream_add": (0, 6, 7), "stream_root": (0, 6, 9)}
    faults += [f"no dw_{name} answers {number}" for name in every for number in every[name] if not answers[name][number]]
    faults += [f"no chunk is joined with {count} roots" for count in range(33) if count not in joins]
    faults += ["a set of refusals never holds"] * (len(sets) != 16)
for fault in faults[:10]:
    print(f"not ok: the test itself is at fault: {fault}, SEED={seed}")
passed, failed = passed + (not faults), failed + len(faults)
for name, counts in answers.items():
    print(f"dw_{name} is to answer: " + ", ".join(f"{number} {count} times" for number, count in sorted(counts.items())))
print(f"{passed} passed, {failed} failed")
sys.exit(0 if failed == 0 else 1)
