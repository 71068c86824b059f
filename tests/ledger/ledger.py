"""SPEC, "The plain ledger": what a bay holds is kept as the bytes it was given, and every answer is worked out from them.

A call takes the arguments of its C function, a lent run as its count of words and an output as a pair that has its count of bytes first,
and hands back an Answer: the number; the numbers after it in SPEC's order whose conditions hold too; the two values of ask and lookup; the
bytes at the front of the output; and the words of the lent run that are set, as the place of the first and a list.
"""
from collections import namedtuple

import rules
from rules import BAY, EDITIONS, HEADER, LONGEST, Wrong

Answer = namedtuple("Answer", "number later values wrote sets")
UNSOUND = "unsound"


class Untold(Exception):
    """A step that the model says nothing of."""


def first(*conditions):
    """The first number whose condition holds, in the order given, or 0; and the others that hold."""
    held = [number for number, holds in conditions if holds]
    return (held[0], tuple(held[1:])) if held else (0, ())


def size(lent):
    """The count of bytes lent. A number stands for so many zeros, more than can be sent."""
    return lent if isinstance(lent, int) else len(lent)


def no_layout(words, bays):
    """Number 11."""
    return not 1 <= bays <= 64 or words < HEADER + BAY * bays


class Entry:
    """Edition, start words, bytes before the start, bytes since.

    The digest is worked out from the start words. The words after the whole blocks are asked for at every call, so they are remembered:
    `chain` is what they were after the first `done` bytes since the start; every 32nd time they are worked out from the start too. `head`
    is what the bytes before the start are, where that is known, so that hashlib can be asked for the digest; where there are none, a sound
    bay has begun as its edition begins. `second` counts how often hashlib was asked, `carried` how often that was for a message that had
    been saved and loaded.
    """

    folded = second = carried = 0

    def __init__(self, number, start, before, since):
        self.number, self.edition = number, EDITIONS[number]
        self.start, self.before, self.since = start, before, bytearray(since)
        self.done, self.chain = 0, start
        self.head, self.was_saved = b"" if before == 0 else None, False

    @classmethod
    def opened(cls, number):
        return cls(number, EDITIONS[number].start, 0, b"")

    @classmethod
    def loaded(cls, data):
        number, count, chain, tail = rules.read_record(data)
        return cls(number, chain, count - len(tail), tail)

    def count(self):
        return self.before + len(self.since)

    def whole(self):
        """How many bytes since the start are in whole blocks."""
        return len(self.since) - len(self.since) % self.edition.block

    def tail(self):
        return bytes(self.since[self.whole() :])

    def words(self):
        """The words after the whole blocks."""
        whole, width = self.whole(), self.edition.width
        if self.done != whole:
            self.chain = rules.blocks(width, self.chain, self.since[self.done : whole])
            self.done = whole
            Entry.folded += 1
            if Entry.folded % 32 == 0 and self.chain != rules.blocks(width, self.start, self.since[:whole]):
                raise Wrong("the words remembered are not those after all bytes since the start")
        return self.chain

    def add(self, piece):
        self.since += piece
        return self

    def digest(self, closing, bits):
        width = self.edition.width
        chain = rules.blocks(width, self.start, self.since + rules.padding(width, self.count(), closing, bits))
        found = rules.leftmost(self.edition, chain)
        if self.head is not None and bits == 0:
            Entry.second += 1
            Entry.carried += self.was_saved
            if found != rules.by_hashlib(self.number, self.head + self.since):
                raise Wrong("a digest is not hashlib's")
        return found

    def record(self):
        return rules.record(self.number, self.count(), self.words(), self.tail())

    def record_length(self):
        return 24 + self.edition.width.bits + len(self.tail())

    def bay(self):
        return rules.bay_words(self.number, self.count(), self.words(), self.tail())


class Calls:
    """Every call, by the first number that applies, over a way to find what a bay holds and a way to put something there.

    `find(words, bay)` tells whether there is such a bay, what it holds (None, UNSOUND or an entry) and the conditions of 1 and 2. `put`
    hands back the words that are set. A condition that speaks of what is not there (the edition of an empty bay) does not hold, except that
    an output too short for every edition is too short.
    """

    def lay_out(self, words, bays):
        answer, later = first((11, no_layout(words, bays)))
        return Answer(answer, later, None, b"", None if answer else self.anew(bays))

    def open(self, words, bay, number):
        _, held, table = self.find(words, bay)
        answer, later = first(*table, (5, number not in EDITIONS), (6, held is UNSOUND), (3, held))
        return Answer(answer, later, None, b"", None if answer else self.put(bay, Entry.opened(number)))

    def add(self, words, bay, piece):
        there, held, table = self.find(words, bay)
        count = held.count() if isinstance(held, Entry) else 0
        answer, later = first(*table, (6, held is UNSOUND), (4, there and not held), (7, count + size(piece) > LONGEST))
        return Answer(answer, later, None, b"", None if answer else self.put(bay, held.add(piece)))

    def close(self, words, bay, closing, bits, out):
        there, held, table = self.find(words, bay)
        need = held.edition.digest if isinstance(held, Entry) else rules.LEAST_DIGEST
        answer, later = first(
            *table, (6, held is UNSOUND), (4, there and not held), (8, rules.bad_closing(closing, bits)), (9, out[0] < need)
        )
        if answer:
            return Answer(answer, later, None, b"", None)
        return Answer(0, later, None, held.digest(closing, bits), self.put(bay, None))

    def save(self, words, bay, out):
        there, held, table = self.find(words, bay)
        need = held.record_length() if isinstance(held, Entry) else rules.LEAST_RECORD
        answer, later = first(*table, (6, held is UNSOUND), (4, there and not held), (9, out[0] < need))
        return Answer(answer, later, None, b"" if answer else self.saved(held), None)

    def load(self, words, bay, data):
        _, held, table = self.find(words, bay)
        broken = isinstance(data, int) or rules.record_faults(data)
        answer, later = first(*table, (10, broken), (6, held is UNSOUND), (3, held))
        return Answer(answer, later, None, b"", None if answer else self.put(bay, self.loaded(data)))

    def ask(self, words, bay):
        _, held, table = self.find(words, bay)
        answer, later = first(*table, (6, held is UNSOUND))
        return Answer(answer, later, (held.number, held.count()) if held and not answer else (0, 0), b"", None)

    def drop(self, words, bay):
        there, held, table = self.find(words, bay)
        answer, later = first(*table, (4, there and not held))
        return Answer(answer, later, None, b"", None if answer else self.put(bay, None))

    def hash(self, number, message, closing, bits, out):
        need = EDITIONS[number].digest if number in EDITIONS else rules.LEAST_DIGEST
        answer, later = first(
            (5, number not in EDITIONS), (7, size(message) > LONGEST), (8, rules.bad_closing(closing, bits)), (9, out[0] < need)
        )
        return Answer(answer, later, None, b"" if answer else rules.digest_at_once(number, message, closing, bits), None)

    def tree(self, data, out):
        answer, later = first((7, size(data) > rules.MAP_LIMIT), (9, out[0] < 32))
        return Answer(answer, later, None, b"" if answer else rules.tree(data), None)

    def judge(self, data, name, digest):
        places, length = listed(data)
        at = places.get(name) if places is not None else None
        answer, later = first((12, places is None), (13, places is not None and not at), (14, at and data[at : at + length] != digest))
        return Answer(answer, later, None, b"", None)

    def lookup(self, data, name):
        places, length = listed(data)
        at = places.get(name) if places is not None else None
        answer, later = first((12, places is None), (13, places is not None and not at))
        return Answer(answer, later, (0, 0) if answer else (at, length), b"", None)

    def anew(self, bays):
        """What a layout sets: the header, and N bays to zeros."""
        return 0, [bays, HEADER, BAY, 0] + [0] * (BAY * bays)

    def saved(self, entry):
        return entry.record()

    def loaded(self, data):
        return Entry.loaded(data)


def listed(data):
    """Where the digest of each name of a list lies, and its size. No list is as long as what is lent as a number."""
    found = None if isinstance(data, int) else rules.read_list(data)
    return found or (None, 0)


class Ledger(Calls):
    """N, and for each bay nothing or an entry. It never answers 6, and 1 only before the first layout, when there is no table yet."""

    def __init__(self, memory):
        self.length = len(memory)
        self.bays = []
        self.messages = {}  # record -> the message it is the record of, for hashlib

    def bays_in(self, _words):
        return len(self.bays)

    def look(self, bay):
        return self.bays[bay]

    def find(self, _words, bay):
        there = bay < len(self.bays)
        held = self.bays[bay] if there else None
        return there, held, ((1, not self.bays), (2, self.bays and not there))

    def put(self, bay, entry):
        self.bays[bay] = entry
        return HEADER + BAY * bay, entry.bay() if entry else [0] * BAY

    def anew(self, bays):
        self.bays = [None] * bays
        return super().anew(bays)

    def saved(self, entry):
        data = entry.record()
        if entry.head is not None:
            self.messages[data] = bytes(entry.head + entry.since)
        return data

    def loaded(self, data):
        """SPEC, "The plain ledger": entries with one record are alike, so what was loaded from the record of a message holds it."""
        entry = Entry.loaded(data)
        if data in self.messages:
            entry.head, entry.was_saved = self.messages[data][: entry.before], True
        return entry

    def overwrite(self, place, values):
        """The caller writes words: past the bays, which changes nothing here, or all of the run, which leaves no table."""
        if place == 0 and len(values) == self.length:
            self.bays = []
        elif self.bays and place < HEADER + BAY * len(self.bays):
            raise Untold("a damaged table")
