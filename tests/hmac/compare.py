"""Keyed digests through the C interface, against the rules in rules.py beside this: tests/hmac/run runs it.

Each kind of case is a function below, and is compared by itself. A case is calls over one memory. The words that are lent lie between
others in it: after every call all of them are compared, and so are the output and the bytes about it and about the key, the message, the
piece and the tag. What a key makes of a message is asked of two programs that are not ours, Python's hmac and perl's Digest::SHA.
"""
import hashlib
import os
import random
import struct
import subprocess
import sys
import tempfile
from collections import Counter
from itertools import combinations
from pathlib import Path

import rules
from driver import ALIGNED, FAR, GUARD_WORDS, Call, Memory, Word, changes, compare, short_bytes
from rules import WORDS, Keyed, by_hmac
from sha2 import BAY, EDITIONS, LONGEST

VECTORS = Path(__file__).parent / "data/hmac.txt"
VECTORS_SHA256 = "46db2220ab6574516c65d350a59e83064fc0c9aa101cd9ea98584c84e03478dd"
# the lines of each source, and how many of all have the right tag, whole or cut
SOURCES = {"rfc4231": 24, "nistcavs17": 285, "nist": 35, "acvp": 93, "wycheproof": 1042}
RIGHT = 833

LAST = WORDS - 1
TOP = 2**64
LONGEST_TAG, LONGEST_ROOM = 64, 1024  # the driver has room for 1,024 bytes of an output
LONGEST_RUN = 4096 - 2 * GUARD_WORDS  # and for 4,096 words
UNKNOWN = (0, 7, 8, 9, 224, 256, 512, 1008, 1504, 2**16 + 2, 2**32 + 1, 2**32 + 2, 2**63, 2**63 + 4, TOP - 2, TOP - 1)

seed = int(os.environ.get("SEED") or random.SystemRandom().randrange(2**32))
rng = random.Random(seed)
where = random.Random(f"{seed} places")
# what has come up: answers, and refusals that held at once; and where the test itself is wrong
answers = {name: Counter() for name in ("tag", "check_tag", "keyed_start", "keyed_add", "keyed_tag", "keyed_check")}
sets, faults = set(), []


class Message:
    """A key and a message for an edition, and the tag by Digest::SHA, once that was asked."""

    def __init__(self, number, key, data):
        self.number, self.key, self.data, self.tag = number, key, data, None
        self.edition = EDITIONS[number]

    def packed(self):
        """As tags.pl reads it."""
        key, data = self.key, self.data
        return b"".join((bytes([self.number]), struct.pack(">I", len(key)), key, struct.pack(">I", len(data)), data))

    def by_hmac(self):
        return by_hmac(self.number, self.key, self.data)

    def keyed(self):
        return Keyed.begun(self.number, self.key, self.data)

    def __str__(self):
        return f"edition {self.number}, key {short_bytes(self.key)}, message {short_bytes(self.data)}"


class OnKeyed(Call):
    """A call that also says, when it is shown, what it was made on."""

    def __str__(self):
        return f"{super().__str__()} on words of edition {self.number:#x} with count {self.count:#x}"


class Case(list):
    """Calls over one memory, each with the reply that is expected. All of the words are lent to each call on a keyed hash, or so many."""

    def __init__(self, words=(), lent=None):
        about = some_words(2 * GUARD_WORDS)
        self.words, self.lent = tuple(words), len(words) if lent is None else lent
        self.append((Memory((*about[:GUARD_WORDS], *words, *about[GUARD_WORDS:])), b""))

    def set(self, place, value):
        """The caller writes a word himself."""
        self.append((Word(place, value), b""))
        self.words = self.words[:place] + (value,) + self.words[place + 1 :]

    def run(self):
        return self.words[: self.lent]

    def at_once(self, name, args, number, wrote=b""):
        """A call that is lent no words, with the number that it must answer."""
        call = Call(name, args, where.randrange(ALIGNED**3))
        answers[name][number] += 1
        self.append((call, call.reply(number, wrote=wrote)))
        return number

    def call(self, name, args, number, left=None, wrote=b""):
        """A call on the words, with the number that it must answer, and with the words that it leaves where it may write them."""
        call = OnKeyed(name, (self.lent, *args), where.randrange(ALIGNED**2))
        call.number, call.count = (*self.words, 0, 0)[:2]
        answers[name][number] += 1
        left = self.run() if left is None else left
        self.append((call, call.reply(number, wrote=wrote, changes=changes(self.run(), left))))
        self.words = left + self.words[self.lent :]
        return number

    # calls on anything, whatever the rules say of it

    def tag(self, number, key, message, room):
        return self.at_once("tag", (number, key, message, self.output(room)), *rules.tag(number, key, message, room))

    def check_tag(self, number, key, message, given):
        return self.at_once("check_tag", (number, key, message, given), rules.check_tag(number, key, message, given))

    def start(self, number, key):
        return self.call("keyed_start", (number, key), *rules.start(self.run(), number, key))

    def add(self, piece):
        return self.call("keyed_add", (piece,), *rules.add(self.run(), piece))

    def end(self, room):
        number, wrote = rules.end(self.run(), room)
        return self.call("keyed_tag", (self.output(room),), number, wrote=wrote)

    def check(self, given):
        return self.call("keyed_check", (given,), rules.check(self.run(), given))

    # calls that are done, on a keyed hash that has taken so many bytes of what it takes

    def begin(self, this, key):
        self.call("keyed_start", (this.number, key), 0, this.words(0) + self.run()[WORDS:])

    def take(self, this, n, end):
        self.call("keyed_add", (this.data[n:end],), 0, this.words(end) + self.run()[WORDS:])

    def ask(self, tag, room=None):
        self.call("keyed_tag", (self.output(len(tag) if room is None else room),), 0, wrote=tag)

    def hold(self, tag, number=0):
        self.call("keyed_check", (tag,), number)

    def output(self, room):
        return room, where.randrange(256)


def some_words(n):
    return tuple(where.getrandbits(64) for _ in range(n))


def content(n):
    kind = rng.randrange(20)
    return bytes(n) if kind == 0 else b"\xff" * n if kind == 1 else rng.randbytes(n)


def some_edition():
    return rng.choice(tuple(EDITIONS))


def some_room(number):
    """As many bytes as a tag has, or more."""
    need = EDITIONS[number].digest
    return need if rng.randrange(3) else need + rng.choice((1, 2, 8, LONGEST_TAG - need, LONGEST_TAG, 100))


def some_ends(n, pieces):
    """Where so many pieces of n bytes end: some of them may be empty."""
    return sorted(rng.randrange(n + 1) for _ in range(pieces - 1)) + [n]


def some_length(number):
    """Lengths about whole blocks, and about those where padding changes its count of blocks."""
    block = EDITIONS[number].block
    edge = rng.choice((0, 1, block - block // 8 - 1, block - block // 8, block - 1))
    return rng.choice((0, 1, block * rng.randrange(6) + edge, rng.randrange(6 * block)))


def wrong(tag):
    """Bytes that are not this tag: nearly it, of another length, or any."""
    at = rng.randrange(len(tag))
    flipped = tag[:at] + bytes([tag[at] ^ 1 << rng.randrange(8)]) + tag[at + 1 :]
    other = content(rng.randrange(99)) + b"x"
    return rng.choice((flipped, tag[:-1], tag[1:], tag + b"\x00", tag[:at], b"", bytes(len(tag)), tag[::-1], other))


def made_up(number, first, data, outer=None):
    """A sound keyed hash with any words."""
    w = EDITIONS[number].width.bits
    chain = [rng.getrandbits(w) for _ in range(8)]
    return Keyed(number, outer or [rng.getrandbits(w) for _ in range(8)], first, chain, data)


def some_sound(number=None):
    """The words of one, of any count, often near the limit."""
    number = number or some_edition()
    block = EDITIONS[number].block
    blocks = rng.choice((1, 2, rng.randrange(1, 2**20), LONGEST // block - 1, LONGEST // block - rng.randrange(1, 2**20)))
    taken = rng.choice((0, 1, block - 1, rng.randrange(block)))
    return made_up(number, block * blocks, rng.randbytes(taken)).words(taken)


def fed(this, key, ends, tag, words=WORDS, asked=0.2):
    """A keyed hash begun over any words, and fed up to each of these ends; at some of them its tag is asked for, and at the last it is
    compared too. The tag at the last end is the one given."""
    case, at = Case(some_words(words)), 0
    case.begin(this, key)
    for end in ends:
        case.take(this, at, end)
        if rng.random() < asked:
            so_far = by_hmac(this.number, key, this.data[:end])
            case.ask(so_far, some_room(this.number))
            case.hold(so_far)
        at = end
    case.ask(tag, some_room(this.number))
    case.hold(tag)
    case.hold(wrong(tag), 14)
    return case


# ---- published tags


def vectors():
    """The lines of the file: a message, the tag that is given for it, and whether that is the front of the right one."""
    data = VECTORS.read_bytes()
    if hashlib.sha256(data).hexdigest() != VECTORS_SHA256:
        faults.append(f"{VECTORS.name} is not the file that was published")
    lines, sources = [], Counter()
    for line in data.decode().splitlines():
        number, key, message, given, verdict, source = line.split()
        key, message, given = (bytes.fromhex(field.strip("-")) for field in (key, message, given))
        lines.append((Message(int(number), key, message), given, verdict == "1"))
        sources[source.split("-")[0]] += 1
    if sources != SOURCES or sum(right for _, _, right in lines) != RIGHT:
        faults.append(f"{VECTORS.name}: a line is missing, or one too many: {dict(sources)}")
    return lines


def published():
    """Every line, at once and in pieces. The tag made has the given one at its front where that is right, and another where it is not. It
    is compared whole, so that a right one that was cut differs."""
    for message, given, right in VECTOR_LINES:
        number, key, d = message.number, message.key, message.edition.digest
        front = message.tag[: len(given)] == given
        if front != right:
            faults.append(f"Digest::SHA and the given tag {given.hex()} {'differ' if right else 'agree'}: {message}")
        made = given + message.tag[len(given) :] if right else message.tag
        verdict = 0 if right and len(given) == d else 14
        ends = some_ends(len(message.data), rng.randrange(1, 5))
        case = fed(message.keyed(), key, ends, made, asked=0.1)
        case.hold(given, verdict)
        case.at_once("tag", (number, key, message.data, case.output(some_room(number))), 0, made)
        case.at_once("check_tag", (number, key, message.data, given), verdict)
        yield case


# ---- keys and messages by chance


def messages():
    """Keys and messages of every length about a block's, and of any, in every edition."""
    for number, edition in EDITIONS.items():
        block, d = edition.block, edition.digest
        keys = sorted({0, 1, 2, d - 1, d, d + 1, block - 1, block, block + 1, 2 * block - 1, 2 * block, 2 * block + 1, 3 * block})
        edges = sorted({0, 1, block - block // 8 - 2, block - block // 8 - 1, block - block // 8, block - 1, block, block + 1, 2 * block})
        for key in keys:
            for n in edges:
                yield Message(number, content(key), content(n))
        # every length of a key about a block's
        for key in range(2 * block + 3):
            yield Message(number, content(key), content(some_length(number)))
        for _ in range(60):
            yield Message(number, content(rng.randrange(rng.choice((block, 300, 5000)))), content(rng.randrange(rng.choice((300, 3000)))))


def at_once():
    """Each of them made and compared, with an output and bytes anywhere; and a wrong tag, and those of other messages and keys. A key that
    is shorter than a block means the same with a zero byte behind it."""
    for message in MESSAGES:
        number, key, data, tag = message.number, message.key, message.data, message.tag
        case = Case()
        case.at_once("tag", (number, key, data, case.output(some_room(number))), 0, tag)
        case.at_once("check_tag", (number, key, data, tag), 0)
        case.at_once("check_tag", (number, key, data, wrong(tag)), 14)
        case.at_once("check_tag", (number, key, data + b"\x00", tag), 14)
        case.at_once("check_tag", (number, key + b"\x01", data, tag), 14)
        case.at_once("check_tag", (number, key + b"\x00", data, tag), 0 if len(key) < message.edition.block else 14)
        yield case


def in_pieces():
    """Each of them in pieces, cut by chance: every word after every call."""
    for message in MESSAGES:
        ends = some_ends(len(message.data), rng.randrange(1, 6))
        yield fed(message.keyed(), message.key, ends, message.tag, rng.choice((WORDS, WORDS, WORDS + 1, WORDS + 7)))


def one_cut():
    """A message of more than two blocks, cut once, at every byte; and byte by byte, with empty pieces between."""
    for number, edition in EDITIONS.items():
        message = Message(number, content(20), rng.randbytes(2 * edition.block + 9))
        this, tag, n = message.keyed(), message.by_hmac(), len(message.data)
        for cut in range(n + 1):
            yield fed(this, message.key, (cut, n), tag)
        yield fed(this, message.key, sorted([*range(n + 1), *range(0, n, 5)]), tag, asked=1)


def long():
    """Long messages and keys: in pieces of one size and of any, and of some MiB at once."""
    for number in EDITIONS:
        message = Message(number, content(rng.randrange(40_000)), rng.randbytes(rng.randrange(20_000, 60_000)))
        this, tag, n = message.keyed(), message.by_hmac(), len(message.data)
        for size in (4096, 1000, 63, n):
            yield fed(this, message.key, [*range(size, n, size), n], tag, asked=0.02)
        yield fed(this, message.key, [*range(1, n, 4096), n], tag)
        case = Case(some_words(WORDS))
        for key, data in ((message.key, message.data), (rng.randbytes(FAR), b""), (rng.randbytes(99), rng.randbytes(FAR))):
            case.tag(number, key, data, some_room(number))
            case.check_tag(number, key, data, by_hmac(number, key, data))
        case.start(number, rng.randbytes(FAR - 1))
        yield case


# ---- states that somebody else has kept


def carried():
    """Words that were made up, and that no key need lead to: each goes on from there, and tells its tag. Outer words of every size."""
    for number, edition in EDITIONS.items():
        w, block = edition.width.bits, edition.block
        outers = [[0] * 8, [2**w - 1] * 8, list(edition.start)]
        outers += [[2**w - 1 if at == k else 0 for at in range(8)] for k in range(8)]
        outers += [[rng.getrandbits(rng.randrange(1, w + 1)) for _ in range(8)] for _ in range(60)]
        for outer in outers:
            first, taken = block * rng.choice((1, 1, 2, 7, rng.randrange(1, 2**30))), rng.choice((0, 0, 1, block - 1, rng.randrange(block)))
            steps = rng.choice((0, block - taken, rng.randrange(block))), rng.choice((0, 1, block, rng.randrange(3 * block)))
            this = made_up(number, first, rng.randbytes(taken + sum(steps)), outer)
            case, at = Case(this.words(taken) + some_words(rng.choice((0, 0, 1, 9)))), taken
            for step in (0, *steps):
                case.take(this, at, at + step)
                at += step
                tag = this.tag(at)
                case.ask(tag, some_room(number))
                case.hold(tag)
                case.hold(wrong(tag), 14)
            yield case


def stays():
    """The tag leaves the keyed hash as it is: it is asked for again, compared and refused, and more is taken. A start begins anew, over
    whatever was there, with another key and another edition too."""
    for number in EDITIONS:
        for _ in range(12):
            message = Message(number, content(rng.randrange(200)), content(rng.randrange(1, 500)))
            this, n = message.keyed(), len(message.data)
            case, at = Case(some_words(rng.choice((WORDS, WORDS + 3)))), 0
            case.begin(this, message.key)
            for end in some_ends(n, 3):
                case.take(this, at, end)
                at = end
                tag = by_hmac(number, message.key, message.data[:at])
                for _ in range(2):
                    case.ask(tag, some_room(number))
                    case.call("keyed_tag", (case.output(rng.randrange(len(tag))),), 9)
                    case.hold(wrong(tag), 14)
                    case.hold(tag)
                    case.call("keyed_add", (LONGEST,), 7)
                    case.take(this, at, at)
            case.start(some_edition(), content(rng.randrange(200)))
            case.end(LONGEST_TAG)
            case.begin(this, message.key)
            case.take(this, 0, n)
            case.ask(message.by_hmac())
            yield case


# ---- lengths


def limit():
    """The last bytes: pieces that end before the limit of 2^40, at it, and past it, among them ones of more bytes than there are at
    hand."""
    for number, edition in EDITIONS.items():
        block = edition.block
        for left in (0, 1, 2, 7, 8, block - 1, block, block + 1, 2 * block, 5000, FAR - 1, FAR, LONGEST // 2, LONGEST - block):
            taken = (LONGEST - left) % block
            this = made_up(number, LONGEST - left - taken, rng.randbytes(taken))
            for n in sorted({0, 1, left - 1, left, left + 1, left + 2, left + block, LONGEST - 1, LONGEST, LONGEST + 1, 2**42}):
                if n < 0 or 5000 < n <= left:  # nothing that takes long
                    continue
                case = Case(this.words(taken))
                done = case.add(n if n > FAR else rng.randbytes(n)) == 0
                if done != (n <= left):
                    faults.append(f"edition {number}, {left} bytes from the limit and {n} more: the rules here are wrong about the limit")
                room = left - n if done else left
                case.end(some_room(number))
                # from there to the limit, where only an empty piece is taken
                if room <= 300:
                    case.add(rng.randbytes(room + 1))
                    case.add(rng.randbytes(room))
                    case.add(b"")
                    case.add(b"\x00")
                    case.add(LONGEST)
                    case.end(some_room(number))
                    case.check(rules.end(case.run(), LONGEST_TAG)[1])
                yield case


def far():
    """Keys and messages that pass the limit, which no memory has: they are refused before a byte of them is read. So is a short output: the
    longest key and the longest message that are taken are told by the 9 that follows, since to hash them takes hours."""
    for number, edition in EDITIONS.items():
        block = edition.block
        keys = LONGEST + 1, LONGEST + 2, LONGEST + block, 2 * LONGEST, 2**44
        for n in (*(LONGEST - block + more for more in (1, 2, block - 1, block, block + 1, LONGEST)), 2**44):
            case = Case(some_words(WORDS))
            for key in (content(rng.choice((0, 5, block, block + 1, 300))), LONGEST, *keys):
                case.tag(number, key, n, rng.choice((0, edition.digest, LONGEST_ROOM)))
                case.check_tag(number, key, n, rng.randbytes(rng.choice((0, edition.digest))))
            yield case
        for key in keys:
            case = Case(some_words(WORDS), rng.choice((WORDS, LAST, 0)))
            for n in (0, 1, 300):
                case.tag(number, key, content(n), rng.choice((0, edition.digest, LONGEST_ROOM)))
                case.check_tag(number, key, content(n), rng.randbytes(rng.choice((0, edition.digest))))
            case.start(number, key)
            yield case
        for key in (b"", content(block + 1), LONGEST - 1, LONGEST):
            for message in (b"", content(300), LONGEST - block - 1, LONGEST - block):
                case = Case()
                case.at_once("tag", (number, key, message, case.output(rng.randrange(edition.digest))), 9)
                yield case


# ---- words that are no keyed hash, and other refusals


def runs():
    """Too few words, which are the front of a keyed hash or anything; and more words than it has: those behind it are never read or
    written."""
    for number, edition in EDITIONS.items():
        for lent in range(WORDS):
            for words in (some_sound(number), some_words(WORDS), (0,) * WORDS):
                case = Case(words, lent)
                case.end(rng.choice((0, edition.digest, LONGEST_TAG)))
                case.check(rng.randbytes(edition.digest))
                case.add(rng.choice((b"", rng.randbytes(rng.randrange(300)), LONGEST)))
                case.start(number, content(rng.randrange(200)))
                yield case
    for lent in (*range(WORDS, WORDS + 20), 60, 64, 2 * WORDS, 2 * WORDS + 1, 512, LONGEST_RUN):
        for behind in (some_words(lent - WORDS), (TOP - 1,) * (lent - WORDS), (0,) * (lent - WORDS)):
            message = Message(some_edition(), content(rng.randrange(200)), content(rng.randrange(500)))
            ends = some_ends(len(message.data), 3)
            yield fed(message.keyed(), message.key, ends, message.by_hmac(), lent)
            case = Case(some_sound() + behind)
            case.end(LONGEST_TAG)
            case.add(rng.randbytes(rng.randrange(300)))
            case.end(LONGEST_TAG)
            case.check(rules.end(case.run(), LONGEST_TAG)[1])
            case.start(some_edition(), b"key")
            yield case


def refused(words):
    """Whatever is asked of words that are no keyed hash, it is refused and changes nothing."""
    case = Case(words)
    told = {case.add(piece) for piece in (b"", rng.randbytes(rng.choice((1, 128, rng.randrange(1, 300)))), LONGEST)}
    told |= {case.end(room) for room in (0, 28, LONGEST_TAG)}
    told |= {case.check(given) for given in (b"", rng.randbytes(rng.choice((28, 32, 48, 64))))}
    if told != {6}:
        faults.append(f"{[hex(word) for word in words]} is a keyed hash, and was to be none")
    return case


def put(words, place, value):
    return (*words[:place], value, *words[place + 1 :])


def damaged():
    """Words that are no keyed hash, of every kind."""
    for number, edition in EDITIONS.items():
        block, w = edition.block, edition.width.bits
        for taken in (0, 1, 7, 8, block - 8, block - 1, rng.randrange(block)):
            words = made_up(number, block * rng.choice((1, 2, LONGEST // block - 1)), rng.randbytes(taken)).words(taken)
            # each byte behind those that are taken, up to the end of the tail
            for at in range(taken, 128):
                bits = rng.choice((1, 0x80, rng.randrange(1, 256))) << 56 - at % 8 * 8
                yield refused(put(words, 10 + at // 8, words[10 + at // 8] | bits))
            # a count that leaves one byte less in the tail, the last of which is there
            if taken:
                last = words[10 + (taken - 1) // 8] | 1 << 56 - (taken - 1) % 8 * 8
                yield refused(put(put(words, 10 + (taken - 1) // 8, last), 1, words[1] - 1))
        words = some_sound(number)
        for unknown in UNKNOWN:
            yield refused(put(words, 0, unknown))
        # chaining words and outer words of more than w bits
        if w == 32:
            for place in (*range(2, 10), *range(BAY, WORDS)):
                for bit in (32, 33, 63, rng.randrange(32, 64)):
                    yield refused(put(words, place, words[place] | 1 << bit))
                yield refused(put(words, place, 2**32))
        # fewer bytes than a block: sound for a bay where its words are the starting words, but nothing that a key leads to
        for count in (0, 1, 8, block // 2, block - 1):
            for chain in (edition.start, words[2:10]):
                front = (number, count, *chain, *rules.bay_words(number, count, chain, rng.randbytes(count))[10:BAY])
                yield refused((*front, *words[BAY:]))
        # more bytes than the limit
        for count in (LONGEST + 1, LONGEST + block, LONGEST + 2**32, 2 * LONGEST, 2**63, 2**63 + block, TOP - block, TOP - 1):
            taken = count % block
            yield refused((number, count, *rules.bay_words(number, count, words[2:10], rng.randbytes(taken))[2:BAY], *words[BAY:]))
    yield refused((0,) * WORDS)
    yield refused((TOP - 1,) * WORDS)
    for number in EDITIONS:
        yield refused((number, *(0,) * LAST))
        yield refused((0, *some_sound(number)[1:]))
    for _ in range(100):
        yield refused(some_words(WORDS))


def flips():
    """One bit of a sound keyed hash changed, anywhere: the rules here say what comes of it, which may be a keyed hash again. Of the two
    numbers in front each bit is changed, and of each other word some, the lowest and the highest of either half among them."""
    for number in EDITIONS:
        for place in range(WORDS):
            for bit in range(64) if place < 2 else {0, 31, 32, 63, rng.randrange(64)}:
                words = some_sound(number)
                case = Case(words)
                case.set(place, words[place] ^ 1 << bit)
                case.end(LONGEST_TAG)
                case.check(rules.end(words, LONGEST_TAG)[1])
                case.add(rng.randbytes(rng.choice((0, 1, rng.randrange(200)))))
                case.check(rules.end(case.run(), LONGEST_TAG)[1])
                yield case


def outputs():
    """Outputs of every length about a tag's, and of some others: what is behind the tag stays."""
    for number, edition in EDITIONS.items():
        for room in (*range(edition.digest + 9), 63, 64, 65, 96, 127, 128, 129, 512, LONGEST_ROOM):
            case = Case(some_sound(number))
            case.end(room)
            case.tag(number, content(rng.randrange(200)), content(rng.randrange(200)), room)
            yield case


def wrong_tags():
    """Tags that are not the right one: each of its bits changed, its front and its end of every length, more bytes behind it, bytes that
    are nearly a tag, and the tag of another edition."""
    for number, edition in EDITIONS.items():
        key, data = content(rng.randrange(1, 300)), content(rng.randrange(300))
        this, d = Keyed.begun(number, key, data), edition.digest
        tag = by_hmac(number, key, data)
        bits = [tag[:at] + bytes([tag[at] ^ 1 << bit]) + tag[at + 1 :] for at in range(d) for bit in range(8)]
        cut = [tag[:at] for at in range(d)] + [tag[at:] for at in range(1, d + 1)]
        longer = [tag + more for more in (b"\x00", b"\xff", bytes(4), bytes(LONGEST_TAG - d), tag, rng.randbytes(1), tag[:1], data)]
        longer += [more + tag for more in (b"\x00", tag)]
        # two bits that cancel out, two bytes that change places, and bytes that were never hashed
        near = [tag[:at] + bytes([tag[at] ^ 1, tag[at + 1] ^ 1]) + tag[at + 2 :] for at in range(0, d - 1, 3)]
        near += [tag[:at] + tag[at + 1 : at + 2] + tag[at : at + 1] + tag[at + 2 :] for at in range(0, d - 1, 3)]
        near += [bytes(d), b"\xff" * d, tag[::-1], key, data, bytes(byte ^ 255 for byte in tag), rules.by_hashlib(number, data)]
        others = [by_hmac(other, key, data) for other in EDITIONS if other != number]
        others += [other.ljust(d, b"\x00")[:d] for other in others]
        for given in [*bits, *cut, *longer, *near, *others]:
            if given == tag:
                continue
            case = Case(this.words(len(data)))
            case.hold(given, 14)
            case.at_once("check_tag", (number, key, data, given), 14)
            yield case
        # words of one edition with another's number in front: it is the tag of neither, but its own
        for other in EDITIONS:
            if EDITIONS[other].width == edition.width:
                case = Case(put(this.words(len(data)), 0, other))
                case.end(LONGEST_TAG)
                case.check(tag)
                yield case


EDITION, LONG_KEY, LONG, SHORT = "no such edition", "key too long", "too long", "output too short"
FEW, UNSOUND, DIFFERS = "too few words", "not sound", "tag differs"
# the refusals of each call in their order, with their numbers
ORDERS = {
    "tag": {EDITION: 5, LONG_KEY: 7, LONG: 7, SHORT: 9},
    "check_tag": {EDITION: 5, LONG_KEY: 7, LONG: 7, DIFFERS: 14},
    "keyed_start": {EDITION: 5, LONG_KEY: 7, FEW: 9},
    "keyed_add": {FEW: 6, UNSOUND: 6, LONG: 7},
    "keyed_tag": {FEW: 6, UNSOUND: 6, SHORT: 9},
    "keyed_check": {FEW: 6, UNSOUND: 6, DIFFERS: 14},
}


def refusals():
    """Every set of refusals of every call, in many ways: the first is answered."""
    for name, order in ORDERS.items():
        for held in (set(some) for size in range(len(order) + 1) for some in combinations(order, size)):
            for _ in range(40):
                case = Case(*some_run(held))
                number = at_once_holding(case, name, held) if name in ("tag", "check_tag") else holding(case, name, held)
                if number != next((order[what] for what in order if what in held), 0):
                    faults.append(f"{sorted(held)} were to hold: {case[-1][0]}")
                sets.add((name, *sorted(held)))
                yield case


def some_run(held):
    """Words for a case in which these refusals hold, and how many of them are lent. Of words that are too few, what is not sound and what
    is too long are meant as if all were lent."""
    words = some_sound()
    if UNSOUND in held:
        place = rng.choice((0, 1, 25))
        words = put(words, place, (rng.choice(UNKNOWN), rng.choice((0, LONGEST + 1, TOP - 1)))[place] if place < 2 else words[place] | 1)
    return words, rng.choice((LAST, rng.randrange(WORDS))) if FEW in held else None


def at_once_holding(case, name, held):
    number = rng.choice(UNKNOWN) if EDITION in held else some_edition()
    edition = EDITIONS.get(number, EDITIONS[4])
    key = LONGEST + rng.choice((1, 1, rng.randrange(2, LONGEST))) if LONG_KEY in held else content(some_length(2))
    message = LONGEST + rng.choice((1 - edition.block, 1, rng.randrange(2, LONGEST))) if LONG in held else content(some_length(2))
    if name == "tag":
        return case.tag(number, key, message, rng.randrange(28 if EDITION in held else edition.digest) if SHORT in held else LONGEST_TAG)
    tag = rng.randbytes(edition.digest) if held & {EDITION, LONG_KEY, LONG} else by_hmac(number, key, message)
    return case.check_tag(number, key, message, wrong(tag) if DIFFERS in held else tag)


def holding(case, name, held):
    if name == "keyed_start":
        key = LONGEST + rng.choice((1, 1, rng.randrange(2, LONGEST))) if LONG_KEY in held else content(some_length(2))
        return case.start(rng.choice(UNKNOWN) if EDITION in held else some_edition(), key)
    # what the words would be if nothing were wrong with them
    hash_in = rules.read(case.words)
    count, d = (case.words[1], hash_in.edition.digest) if hash_in else (LONGEST, 32)
    if name == "keyed_add":
        room = LONGEST - count
        n = room + rng.choice((1, 1, 128, rng.randrange(1, FAR))) if LONG in held else min(room, rng.randrange(300))
        return case.add(n if n > FAR else rng.randbytes(n))
    if name == "keyed_tag":
        return case.end(rng.randrange(min(28, d)) if SHORT in held else rng.choice((64, 65, 100)))
    tag = hash_in.tag(len(hash_in.data)) if hash_in else rng.randbytes(d)
    return case.check(wrong(tag) if DIFFERS in held else tag)


def editions():
    """Every number that names none, by itself and with all else that a call refuses."""
    for unknown in UNKNOWN:
        case = Case(some_words(WORDS))
        for key, message in ((b"", b""), (content(99), content(200)), (LONGEST + 1, LONGEST + 1)):
            for room in (0, LONGEST_TAG):
                case.tag(unknown, key, message, room)
                case.check_tag(unknown, key, message, rng.randbytes(room))
            case.start(unknown, key)
        yield case


def by_perl(these):
    """Asks Digest::SHA for the tag of each, and says where hmac's is another."""
    with tempfile.TemporaryFile() as data:
        data.writelines(message.packed() for message in these)
        data.seek(0)
        done = subprocess.run(["perl", Path(__file__).with_name("tags.pl")], stdin=data, stdout=subprocess.PIPE)
    tags = [bytes.fromhex(line) for line in done.stdout.decode().split()]
    if done.returncode != 0 or len(tags) != len(these):
        print(f"perl ended with status {done.returncode}, after {len(tags)} tags of {len(these)}\n0 passed, 1 failed")
        sys.exit(1)
    for message, tag in zip(these, tags):
        message.tag = tag
        if tag != message.by_hmac():
            faults.append(f"Digest::SHA and Python's hmac differ: {message}")


print(f"seed {seed} (SEED={seed} repeats this run)", flush=True)
VECTOR_LINES = vectors()
MESSAGES = list(messages())
by_perl([message for message, _, _ in VECTOR_LINES] + MESSAGES)
# the words by the rules, and the tags by them, are hmac's
for message in MESSAGES[::7]:
    if message.keyed().tag(len(message.data)) != message.tag:
        faults.append(f"the rules here make another tag than Digest::SHA: {message}")

passed = failed = 0
KINDS = (published, at_once, in_pieces, one_cut, long, carried, stays, limit, far, runs, damaged, flips, outputs, wrong_tags, refusals)
for kind in (*KINDS, editions):
    right, unlike = compare(kind())
    print(f"{kind.__name__}: {right + unlike} cases" + (f", {unlike} failed, SEED={seed}" if unlike else ""), flush=True)
    passed, failed = passed + right, failed + unlike

# a run that was not cut short has seen every answer of every call, and every set of refusals
if failed == 0:
    for name, order in ORDERS.items():
        faults += [f"no dw_{name} answers {number}" for number in {0, *order.values()} if not answers[name][number]]
        faults += [f"a set of refusals of dw_{name} never holds"] * (len([some for some in sets if some[0] == name]) != 2 ** len(order))
for fault in faults[:10]:
    print(f"not ok: the test itself is at fault: {fault}, SEED={seed}")
passed, failed = passed + (not faults), failed + len(faults)
for name, counts in answers.items():
    print(f"dw_{name} is to answer: " + ", ".join(f"{number} {count} times" for number, count in sorted(counts.items())))
print(f"{passed} passed, {failed} failed")
sys.exit(0 if failed == 0 else 1)
