"""Random sequences of calls through the C interface, held answer for answer and byte for byte to the plain ledger of SPEC and, over
damaged tables, to its rules for the words. tests/ledger/run says how it is run."""
import os
import random
import sys
import time
import traceback

from calls import difference, replay
from coverage import Coverage
from driver import GUARD_WORDS, SHORT_PATIENCE, SIGNATURES, Call, Driver
from ledger import Entry
from rules import BAY, HEADER, Wrong
from sequences import ledger_sequence, samples, words_sequence

DEFAULT_CALLS = 300_000
MOST_FAILURES = 3  # sequences that are shrunk and shown before the run ends
SHRINKING = 90  # seconds


def differs(driver, script):
    """The call that was answered otherwise than expected, counted from 0 (None if there are no answers), and in what; or None."""
    got, fault = driver.run(script.batch())
    if fault:
        return None, [fault]
    return None if got == script.expected() else difference(script, got)


class Shrinker:
    """Takes away steps, and parts of arguments, as long as some difference remains."""

    def __init__(self, driver, script, found):
        self.driver, self.best, self.found = driver, script, found
        self.until = time.monotonic() + SHRINKING

    def attempt(self, start, steps):
        if time.monotonic() > self.until:
            return False
        script = replay(self.best.kind, start, steps)
        found = script and differs(self.driver, script)
        if found:
            self.best, self.found = script, found
        return bool(found)

    def leave_out(self, count):
        """Any `count` steps in a row, from the end on: what comes after the difference goes first."""
        less, end = False, len(self.best.steps)
        while end > 0:
            begin = max(0, end - count)
            steps = self.best.steps
            less |= self.attempt(self.best.start, steps[:begin] + steps[end:])
            end = begin
        return less

    def change(self, step, field, value):
        """The call with another argument."""
        fields = SIGNATURES[step.name][1]
        return step._replace(args=tuple(value if name == field else arg for name, arg in zip(fields, step.args)))

    def simplify(self, at):
        """The first simpler form of a step that will do."""
        step = self.best.steps[at]
        if not isinstance(step, Call):
            return False
        forms = [self.change(step, field, simple) for field, value in step.fields() for simple in simpler(field, value)]
        if step.shifts:
            forms.insert(0, step._replace(shifts=0))
        return any(self.attempt(self.best.start, self.best.steps[:at] + [form] + self.best.steps[at + 1 :]) for form in forms)

    def everywhere(self, field, old, new, start):
        """Another value in all calls that have this one."""
        steps = self.best.steps
        changed = [self.change(step, field, new) if isinstance(step, Call) and (field, old) in step.fields() else step for step in steps]
        return changed != steps and self.attempt(start, changed)

    def tidy(self):
        """Memory of zeros, no more words than are needed, and the first bays."""
        self.attempt([0] * len(self.best.start), self.best.steps)
        words = self.best.words
        for fewer in (HEADER + BAY * bays for bays in (1, 2, 3)):
            if fewer < words and self.everywhere("words", words, fewer, self.best.start[: fewer + 2 * GUARD_WORDS]):
                break
        for bay in range(1, 64):
            for new in range(min(bay, 3)):
                if self.everywhere("bay", bay, new, self.best.start):
                    break

    def shrink(self):
        count = len(self.best.steps) // 2
        while count > 1:
            self.leave_out(count)
            count //= 2
        for _ in range(2):
            while self.leave_out(1) or any(self.simplify(at) for at in range(len(self.best.steps))):
                pass
            self.tidy()


def simpler(field, value):
    if field in ("piece", "message", "map") and not isinstance(value, int) and value:
        yield from (value[: len(value) // 2], value[:-1])
        if any(value):
            yield bytes(len(value))
    if field in ("bay", "bays") and value > (field == "bays"):
        yield from (int(field == "bays"), value // 2)


def shown(shrinker):
    """The shortest sequence that was found, with the numbers that are expected, and what differs."""
    script, (where, what) = shrinker.best, shrinker.found
    run = script.start[GUARD_WORDS:-GUARD_WORDS]
    lines = [f"The shortest found, over {len(run)} words that are {'anything' if any(run) else 'zero'}:"]
    if any(run) and len(run) <= 64:
        lines.append("  " + " ".join(f"{word:x}" for word in run))
    replies = iter(enumerate(script.replies))
    for i, step in enumerate(script.steps, 1):
        answer = ""
        if isinstance(step, Call):
            at, reply = next(replies)
            answer = f" = {int.from_bytes(reply[:8], 'little')}" + ("  <- differs" if at == where else "")
        lines.append(f"  {i}. {step}{answer}")
    return "\n".join(lines + [f"    {line}" for line in what])


def sequences(seed, wanted, coverage):
    """Scripts, each from random numbers of its own, until there are so many calls."""
    yield "samples", samples(random.Random(f"{seed} samples"), coverage)
    i = 0
    while coverage.calls() < wanted:
        rng = random.Random(f"{seed} {i}")
        make = words_sequence if i % 5 in (1, 3) else ledger_sequence
        yield f"sequence {i}", make(rng, rng.choice((20, 60, 150, 300, 600)), coverage)
        i += 1


def check_models(script):
    """Over a table that nothing has happened to, the ledger and the rules for words must agree."""
    if script.kind == "ledger" and replay("words", script.start, script.steps).expected() != script.expected():
        raise Wrong("the ledger and the rules for words differ")


class Run:
    def __init__(self, seed, wanted):
        self.seed, self.wanted = seed, wanted
        self.coverage, self.driver = Coverage(), Driver()
        self.passed = self.failed = self.scripts = 0

    def fail(self, text):
        self.failed += 1
        print(f"not ok: {text}", flush=True)

    def compare(self, name, script):
        self.scripts += 1
        if self.scripts % 7 == 0:
            check_models(script)
        found = differs(self.driver, script)
        if found is None:
            self.passed += len(script.replies)
            return
        self.passed += found[0] or 0
        shrinker = Shrinker(self.driver, script, found)
        shrinker.shrink()
        self.fail(f"seed {self.seed}, {name}, of {len(script.steps)} steps. {shown(shrinker)}")

    def compare_all(self):
        for name, script in sequences(self.seed, self.wanted, self.coverage):
            self.compare(name, script)
            if self.failed == MOST_FAILURES or self.driver.patience == SHORT_PATIENCE:
                print("the run ends here")
                return

    def look_for_missing(self):
        missing = self.coverage.missing() + ["digest of a message that was saved and loaded"] * (Entry.carried == 0)
        for what in missing:
            self.fail(f"never seen: {what}")

    def all(self):
        print(f"seed {self.seed} (SEED={self.seed} repeats this run)", flush=True)
        try:
            self.compare_all()
        except Exception:
            self.fail(f"the test itself is at fault:\n{traceback.format_exc()}")
        self.driver.end()
        if self.failed == 0 and self.wanted >= DEFAULT_CALLS:
            self.look_for_missing()
        print("\n".join(self.coverage.table()))
        print(self.coverage.summary())
        print(f"{self.scripts} sequences; hashlib agreed on {Entry.second} digests, {Entry.carried} of messages once saved and loaded")
        print(f"{self.passed} passed, {self.failed} failed")
        return 0 if self.failed == 0 else 1


if __name__ == "__main__":
    some_seed = random.SystemRandom().randrange(2**32)
    sys.exit(Run(int(os.environ.get("SEED") or some_seed), int(os.environ.get("CALLS") or DEFAULT_CALLS)).all())
