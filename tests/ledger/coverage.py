"""Counts what a run has seen, and says what of SPEC it has not."""
from collections import Counter

import rules
from rules import BAY, EDITIONS, HEADER

# "Calls and their numbers"; lookup's as the C interface has them
NUMBERS = {
    "lay_out": (11,),
    "open": (1, 2, 5, 6, 3),
    "add": (1, 2, 6, 4, 7),
    "close": (1, 2, 6, 4, 8, 9),
    "save": (1, 2, 6, 4, 9),
    "load": (1, 2, 10, 6, 3),
    "ask": (1, 2, 6),
    "drop": (1, 2, 4),
    "hash": (5, 7, 8, 9),
    "tree": (7, 9),
    "judge": (12, 13, 14),
    "lookup": (12, 13),
}
BYTES = ("piece", "record", "message", "map", "list", "name", "digest", "out")
# pairs that never hold together, or of which the second speaks of what the first says is not there
APART = {(1, 6), (1, 4), (1, 3), (2, 6), (2, 4), (2, 3), (6, 4), (12, 13), (12, 14), (13, 14)}
BAY_RULES = ("all zeros when empty", "edition", "count", "chaining words below 2^w", "zeros after the tail", "starting words")
RECORD_RULES = (
    "length",
    "edition",
    "word count",
    "offset of words",
    "offset of tail",
    "bytes taken",
    "tail length",
    "record length",
    "zero",
    "starting words",
)


def orders():
    """Which number of a call must come before which other, where both can hold."""
    for name, numbers in NUMBERS.items():
        for i, first in enumerate(numbers):
            yield from ((name, first, later) for later in numbers[i + 1 :] if (first, later) not in APART)


def rooms():
    """Outputs one byte too short, just long enough and one byte longer, for each size of digest, for records and for roots."""
    for room in (-1, 0, 1):
        yield from ((name, size, room) for name in ("hash", "close") for size in (28, 32, 48, 64))
        yield from (("save", "record", room), ("tree", 32, room))


def needed(name, args, model):
    """The bytes that a call refused with 9 would have written."""
    if name == "tree":
        return 32
    if name == "hash":
        return EDITIONS[args[0]].digest
    held = model.look(args[1])
    return held.record_length() if name == "save" else held.edition.digest


class Coverage:
    def __init__(self):
        self.wanted = {
            "numbers of calls": [(name, n) for name, numbers in NUMBERS.items() for n in (0, *numbers)],
            "orders of two numbers": list(orders()),
            "outputs about their limit": list(rooms()),
            "rules of a bay broken alone": BAY_RULES,
            "rules of a record broken alone": RECORD_RULES,
            "alignments": [(field, at) for field in BYTES for at in range(16)],
            "words damaged": [("header", i) for i in range(HEADER)] + [("bay", i) for i in range(BAY)],
        }
        self.seen = {kind: Counter() for kind in self.wanted}

    def call(self, name, args, answer, model):
        """Counts a call that the model has just answered; a refusal has left the model as it was."""
        number = answer.number
        self.seen["numbers of calls"][name, number] += 1
        for later in answer.later:
            self.seen["orders of two numbers"][name, number, later] += 1
        if number == 6:
            self.broken("rules of a bay broken alone", rules.bay_faults(model.bay(args[1])))
        elif number == 10 and not isinstance(args[2], int):
            self.broken("rules of a record broken alone", rules.record_faults(args[2]))
        elif number == 9 or number == 0 and answer.wrote:
            self.room(name, args, answer, model)

    def broken(self, kind, faults):
        if len(faults) == 1:
            self.seen[kind][faults[0]] += 1

    def room(self, name, args, answer, model):
        need = len(answer.wrote) or needed(name, args, model)
        self.seen["outputs about their limit"][name, "record" if name == "save" else need, args[-1][0] - need] += 1

    def places(self, alignments):
        """Counts how far past a multiple of 16 each field of bytes was lent."""
        self.seen["alignments"].update(alignments.items())

    def damage(self, place):
        where = ("header", place) if place < HEADER else ("bay", (place - HEADER) % BAY)
        self.seen["words damaged"][where] += 1

    def calls(self):
        return sum(self.seen["numbers of calls"].values())

    def missing(self):
        return [f"{kind}: {what}" for kind, wanted in self.wanted.items() for what in wanted if not self.seen[kind][what]]

    def summary(self):
        counts = ((sum(self.seen[kind][what] > 0 for what in wanted), len(wanted), kind) for kind, wanted in self.wanted.items())
        return "seen: " + ", ".join(f"{seen} of {wanted} {kind}" for seen, wanted, kind in counts)

    def table(self):
        """How often each call gave each number; a dot where SPEC has none."""
        yield "          " + "".join(f"{n:7}" for n in range(15))
        for name, numbers in NUMBERS.items():
            counts = (self.seen["numbers of calls"][name, n] if n == 0 or n in numbers else "." for n in range(15))
            yield f"dw_{name:7}" + "".join(f"{count:>7}" for count in counts)
