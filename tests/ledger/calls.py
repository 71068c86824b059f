"""Sequences of calls over one memory, with the answers that a model expects of the driver. driver.py sends the calls."""
import struct
from collections import namedtuple

from driver import ALIGNED, GUARD_WORDS, NOTHING, SIGNATURES, Answers, Call, number
from ledger import Ledger, Untold
from words import Words

MODELS = {"ledger": Ledger, "words": Words}


class Write(namedtuple("Write", "place values")):
    """The caller writes words of the run itself."""

    def packed(self):
        return b"".join(b"\x01" + struct.pack("<QQ", GUARD_WORDS + at, value) for at, value in enumerate(self.values, self.place))

    def __str__(self):
        words = " ".join(f"{value:x}" for value in self.values[:30])
        more = f" .. ({len(self.values)} words)" if len(self.values) > 30 else ""
        return f"words from {self.place} on set to {words}{more}"


class Script:
    """A sequence of steps over memory that begins as `start`: guard words, the run, guard words. Each step is taken by the model as it is
    added, which gives the answer that is expected of the driver. Where bytes lie is drawn from `rng`."""

    def __init__(self, kind, start, coverage=None, rng=None):
        self.kind, self.start, self.memory, self.coverage, self.rng = kind, start, list(start), coverage, rng
        self.words = len(start) - 2 * GUARD_WORDS
        self.model = MODELS[kind](start[GUARD_WORDS:-GUARD_WORDS])
        self.steps, self.replies = [], []

    def call(self, name, *args, shifts=None):
        if SIGNATURES[name][1][0] == "words" and args[0] > self.words:
            raise Untold("more words than there are")
        answer = getattr(self.model, name)(*args)
        call = Call(name, args, self.rng.randrange(ALIGNED**3) if shifts is None else shifts)
        self.steps.append(call)
        self.replies.append(call.reply(answer.number, answer.values, answer.wrote, self.changes(answer.sets)))
        if self.coverage:
            self.coverage.call(name, args, answer, self.model)
            self.coverage.places(call.alignments())
        return answer

    def write(self, place, values):
        if place + len(values) > self.words:
            raise Untold("words that are not there")
        self.model.overwrite(place, values)
        self.steps.append(Write(place, values))
        self.memory[GUARD_WORDS + place : GUARD_WORDS + place + len(values)] = values

    def changes(self, sets):
        """The words that become others, as the driver tells them."""
        if sets is None:
            return NOTHING
        place, values = GUARD_WORDS + sets[0], sets[1]
        was = self.memory[place : place + len(values)]
        changed = [struct.pack("<QQ", at, new) for at, old, new in zip(range(place, place + len(values)), was, values) if old != new]
        self.memory[place : place + len(values)] = values
        return number(len(changed)) + b"".join(changed)

    def calls(self):
        return [step for step in self.steps if isinstance(step, Call)]

    def batch(self):
        begin = b"\0" + number(len(self.start)) + pack_words(self.start)
        return begin + b"".join(step.packed() for step in self.steps) + b"\x02"

    def expected(self):
        return b"".join(self.replies) + pack_words(self.memory)


def replay(kind, start, steps):
    """The script of these steps, or None if the model says nothing of one."""
    script = Script(kind, start)
    try:
        for step in steps:
            script.call(step.name, *step.args, shifts=step.shifts) if isinstance(step, Call) else script.write(step.place, step.values)
    except Untold:
        return None
    return script


def pack_words(words):
    return struct.pack(f"<{len(words)}Q", *words)


def difference(script, got):
    """Which call was answered otherwise than expected, counted from 0, and in what; the count of calls stands for the words at the end."""
    calls, answers = script.calls(), Answers(got)
    for i, (call, wanted) in enumerate(zip(calls, script.replies)):
        what = answers.differ(call, wanted)
        if what:
            return i, what
    if answers.rest() != pack_words(script.memory):
        return len(calls), ["the words at the end are not those that were told call by call"]
    return None
