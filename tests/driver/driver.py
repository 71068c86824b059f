"""Calls of the C interface through the driver: how they are sent, the answers that are expected and those that come, and what differs, in
readable form. driver.c says what is sent; tests/driver/start runs a Python file that imports this one.

A test hands its cases to `compare`; where calls are lent words, a case begins with their Memory. tests/ledger, whose cases are long, makes
batches of its own and takes the Answers apart. A call that is new in the header is a case in driver.c, and a line in CALLS; SIGNATURES has
the parts of a tree too, which are in no header.
"""
import select
import struct
import subprocess
import time
from collections import namedtuple
from pathlib import Path

ROOT = Path(__file__).resolve().parents[2]
GUARD, GUARD_WORDS = 64, 64  # bytes before and after an output, words before and after the run
FAR = 2 << 20  # more bytes than this are sent as their count
BUFFER = 36 << 10  # bytes of a buffer that are sent and answered
ALIGNED = 16  # bytes are lent up to so many past a multiple of it
BATCH = 4 << 20  # bytes of commands and replies after which a batch is sent; the driver has room for far more of either
PATTERN = bytes(range(256)) * 8
GUARDS = bytes((0xA7 + 29 * i) % 256 for i in range(2 * GUARD))  # what stands before and behind a buffer
PATIENCE, SHORT_PATIENCE = 60, 5  # seconds for a batch, and once one has taken longer
GAVE_UP = 3  # the driver's status when a command cannot be done
MOST_SHOWN, MOST_OF_ONE = 10, 3  # failures, and the calls of one that are shown

CALLS = {
    "lay_out": (10, ("words", "bays")),
    "open": (11, ("words", "bay", "edition")),
    "add": (12, ("words", "bay", "piece")),
    "close": (13, ("words", "bay", "closing", "bits", "out")),
    "save": (14, ("words", "bay", "out")),
    "load": (15, ("words", "bay", "record")),
    "ask": (16, ("words", "bay")),
    "drop": (17, ("words", "bay")),
    "hash": (20, ("edition", "message", "closing", "bits", "out")),
    "tree": (21, ("map", "out")),
    "judge": (22, ("list", "name", "digest")),
    "lookup": (23, ("list", "name")),
    "list_start": (24, ("edition", "buffer")),
    "list_put": (25, ("buffer", "name", "digest")),
    "tag": (26, ("edition", "key", "message", "out")),
    "check_tag": (27, ("edition", "key", "message", "tag")),
    "stream_begin": (40, ("words",)),
    "stream_add": (41, ("words", "piece")),
    "stream_root": (42, ("words", "out")),
    "keyed_start": (50, ("words", "edition", "key")),
    "keyed_add": (51, ("words", "piece")),
    "keyed_tag": (52, ("words", "out")),
    "keyed_check": (53, ("words", "tag")),
}
PARTS = dict(leaf=(30, ("bytes", "out")), parent=(31, ("left", "right", "out")), level=(32, ("buffer",)))
SIGNATURES = CALLS | PARTS
LENT = {"piece", "record", "message", "map", "list", "name", "digest", "bytes", "left", "right", "key", "tag"}
TELLING = {"ask": ("edition", "count"), "lookup": ("at", "len")}

number, two_numbers = struct.Struct("<Q").pack, struct.Struct("<QQ").pack
NOTHING = number(0)

# what a buffer may be instead of bytes: the one of n bytes that a call before in the same case had, as it was left; and one of n bytes,
# more than BUFFER, of which these BUFFER bytes are the front
Kept = namedtuple("Kept", "n")
Far = namedtuple("Far", "n front")
KEPT = 2**64 - 1


class Call(namedtuple("Call", "name args shifts")):
    """One call: an output is its count of bytes and the first byte of its pattern; a buffer is bytes, Kept or Far; what else is lent is
    bytes, or a count of zeros past FAR. How far the bytes and the output lie past a multiple of ALIGNED are the digits of `shifts`, the
    lowest first."""

    __slots__ = ()

    def fields(self):
        return zip(SIGNATURES[self.name][1], self.args)

    def alignments(self):
        """Each field of bytes and how far it lies past a multiple of ALIGNED."""
        lent = (field for field in SIGNATURES[self.name][1] if field in LENT or field in ("out", "buffer"))
        return {field: self.shifts // ALIGNED**i % ALIGNED for i, field in enumerate(lent)}

    def packed(self):
        command, fields = SIGNATURES[self.name]
        parts = [struct.pack("<BQ", command, self.shifts)]
        for field, value in zip(fields, self.args):
            if field in LENT and not isinstance(value, int):
                parts += (number(len(value)), value)
            elif field == "words":
                parts.append(two_numbers(GUARD_WORDS, value))
            elif field == "out":
                parts.append(two_numbers(*value))
            elif field == "buffer":
                parts += (number(KEPT),) if isinstance(value, Kept) else (number(buffer_size(value)), getattr(value, "front", value))
            else:
                parts.append(number(value))
        return b"".join(parts)

    def out(self):
        return self.args[-1] if SIGNATURES[self.name][1][-1] == "out" else None

    def room(self):
        """How many bytes of an output or a buffer are answered, without the guards; None where the call has neither."""
        fields = dict(self.fields())
        if "buffer" in fields:
            return min(buffer_size(fields["buffer"]), BUFFER)
        return fields["out"][0] if "out" in fields else None

    def reply(self, answer, values=(0, 0), wrote=b"", changes=NOTHING, left=b""):
        """What the driver must answer: the number, the values where the call tells some, the output with these bytes at its front and its
        guards, the buffer as it is left and its guards, no change of what was lent to be read, and the changes of words, none if the call
        is lent none."""
        parts = [number(answer)]
        if self.name in TELLING:
            parts.append(two_numbers(*values))
        out = self.out()
        if out is not None:
            count, fill = out
            room = PATTERN[fill : fill + GUARD + count + GUARD]
            parts.append(room[:GUARD] + wrote + room[GUARD + len(wrote) :])
        elif "buffer" in SIGNATURES[self.name][1]:
            parts += (GUARDS[:GUARD], left, GUARDS[GUARD:])
        parts += (NOTHING, changes)
        return b"".join(parts)

    def __str__(self):
        shown, alignments = [], self.alignments()
        for field, value in self.fields():
            if field == "out":
                shown.append(f"out {value[0]} bytes")
            elif field == "closing":
                shown.append(f"closing {value:#04x}")
            elif isinstance(value, Kept):
                shown.append(f"buffer of {value.n} bytes as it was left")
            elif isinstance(value, Far):
                shown.append(f"buffer of {short_number(value.n)} bytes, at its front {short_bytes(value.front)}")
            elif isinstance(value, int):
                shown.append(f"{field} {short_number(value)}" + (" zeros" if field in LENT else ""))
            else:
                shown.append(f"{field} {short_bytes(value)}")
            if alignments.get(field) and not isinstance(value, Kept):
                shown[-1] += f" at {alignments[field]} mod {ALIGNED}"
        return f"{'part' if self.name in PARTS else 'dw'}_{self.name}({', '.join(shown)})"


def buffer_size(buffer):
    return len(buffer) if isinstance(buffer, bytes) else buffer.n


# ---- the words that calls are lent; what sets them has no answer


class Memory(namedtuple("Memory", "words")):
    """All of it: GUARD_WORDS words, those that are lent, and GUARD_WORDS more."""

    __slots__ = ()

    def packed(self):
        return b"\x00" + number(len(self.words)) + struct.pack(f"<{len(self.words)}Q", *self.words)


class Word(namedtuple("Word", "place value")):
    """One of them, by its place among those that are lent."""

    __slots__ = ()

    def packed(self):
        return b"\x01" + two_numbers(GUARD_WORDS + self.place, self.value)


def changes(before, after):
    """Those of them that become others, as the driver tells them."""
    if before == after:
        return NOTHING
    told = [two_numbers(at, new) for at, (old, new) in enumerate(zip(before, after), GUARD_WORDS) if old != new]
    return number(len(told)) + b"".join(told)


# ---- the driver


class GaveUp(Exception):
    """The driver could not do a command: the test is at fault, not what it tests."""


class Driver:
    """The compiled calls. Nothing is kept from one batch to the next, so that a batch can be sent again, and to a new process too."""

    def __init__(self):
        self.process, self.patience = None, PATIENCE

    def start(self):
        command = [ROOT / "tests/kit/x86-64", ROOT / "target/driver/driver"]
        self.process = subprocess.Popen(command, stdin=subprocess.PIPE, stdout=subprocess.PIPE, bufsize=0)

    def end(self):
        if self.process:
            self.process.stdin.close()
            self.process.stdout.close()
            self.process.wait()
            self.process = None

    def send(self, data):
        rest = memoryview(data)
        while rest:
            rest = rest[self.process.stdin.write(rest) :]

    def read(self, count):
        data, until = bytearray(), time.monotonic() + self.patience
        while len(data) < count:
            if not select.select([self.process.stdout], [], [], max(0, until - time.monotonic()))[0]:
                raise TimeoutError
            part = self.process.stdout.read(count - len(data))
            if not part:
                raise BrokenPipeError
            data += part
        return bytes(data)

    def ask(self, batch):
        """Sends a batch of commands. Its answers must be read before the next one is sent."""
        if not self.process:
            self.start()
        try:
            self.send(number(len(batch)) + batch)
        except BrokenPipeError:
            pass  # the driver has ended, and `answers` says so

    def answers(self):
        """The answers to the batch that was sent, and why there are none."""
        try:
            return self.read(int.from_bytes(self.read(8), "little")), None
        except TimeoutError:
            self.process.kill()
            fault = f"no answer in {self.patience} seconds"
            self.patience = SHORT_PATIENCE
        except BrokenPipeError:
            fault = f"the driver ended with status {self.process.wait()}"
        gave_up = self.process.returncode == GAVE_UP
        self.end()
        if gave_up:
            raise GaveUp("the driver could not do a command")
        return b"", fault

    def run(self, batch):
        self.ask(batch)
        return self.answers()


# ---- reading answers, to say what differs

Reply = namedtuple("Reply", "number values out lent changed")


def read_reply(call, data, at):
    """The answer to a call that begins at this place, and where the next one does; struct.error if the data ends before it."""
    result, values, out = struct.unpack_from("<Q", data, at)[0], None, None
    at += 8
    if call.name in TELLING:
        values = struct.unpack_from("<QQ", data, at)
        at += 16
    if call.room() is not None:
        length = GUARD + call.room() + GUARD
        out = data[at : at + length]
        at += length
    lent, count = struct.unpack_from("<QQ", data, at)
    at += 16
    flat = struct.unpack_from(f"<{2 * count}Q", data, at)
    return Reply(result, values, out, lent, tuple(zip(flat[::2], flat[1::2]))), at + 16 * count


class Answers:
    """The driver's answers to a batch, taken one after the other."""

    def __init__(self, data):
        self.data, self.at = data, 0

    def differ(self, call, wanted):
        """In what the next answer, which is to this call, is not the reply that is wanted: lines of text, none where it is."""
        if self.data.startswith(wanted, self.at):
            self.at += len(wanted)
            return []
        try:
            got, self.at = read_reply(call, self.data, self.at)
        except struct.error:
            self.at = len(self.data)
            return ["the driver's answers end here"]
        return list(tell(read_reply(call, wanted, 0)[0], got))

    def rest(self):
        return self.data[self.at :]


def tell(wanted, got):
    if wanted.number != got.number:
        yield f"number: expected {wanted.number}, got {short_number(got.number)}"
    if wanted.values != got.values:
        yield f"values: expected {' and '.join(map(short_number, wanted.values))}, got {' and '.join(map(short_number, got.values))}"
    if wanted.out != got.out:
        places = [i for i, (a, b) in enumerate(zip(wanted.out, got.out)) if a != b]
        begin, end = places[0], places[-1] + 1
        yield f"the {len(wanted.out) - 2 * GUARD} bytes lent to write and their guards, bytes {begin - GUARD} to {end - GUARD - 1}:"
        yield f"  expected {short_bytes(wanted.out[begin:end])}"
        yield f"  got      {short_bytes(got.out[begin:end])}"
    if got.lent:
        yield f"{got.lent} bytes of what was lent to be read have changed"
    if wanted.changed != got.changed:
        yield "words changed:"
        yield f"  expected {short_words(wanted.changed)}"
        yield f"  got      {short_words(got.changed)}"


def short_number(value):
    return str(value) if value < 100_000 else f"{value:#x}"


def short_bytes(data):
    text = data.hex() if len(data) <= 220 else f"{data[:24].hex()}..{data[-8:].hex()}"
    return f"{len(data)} bytes {text}" if data else "0 bytes"


def short_words(changed):
    shown = ", ".join(f"{at - GUARD_WORDS}: {value:x}" for at, value in changed[:30])
    return (shown or "none") + (f" .. ({len(changed)} words)" if len(changed) > 30 else "")


# ---- cases: pairs of what is sent, mostly a call, and the reply that is expected; the words that a call is lent are the memory set before


def pack(case):
    return b"".join(call.packed() for call, _ in case)


def batches(cases):
    """The cases in their order, so many together as make a batch, and its commands."""
    group, commands, size = [], [], 0
    for case in cases:
        group.append(case)
        commands.append(pack(case))
        size += len(commands[-1]) + sum(len(reply) for _, reply in case)
        if size >= BATCH:
            yield group, b"".join(commands)
            group, commands, size = [], [], 0
    if group:
        yield group, b"".join(commands)


class Comparison:
    """Counts the cases whose every call is answered as expected, and the others, of which it shows the first."""

    def __init__(self):
        self.driver, self.passed, self.failed = Driver(), 0, 0

    def fail(self, *lines):
        self.failed += 1
        if self.failed <= MOST_SHOWN:
            print("not ok: " + "\n    ".join(lines), flush=True)

    def answered(self, cases):
        """The cases of each batch, with its answers and why there are none. While the driver is at work, the next batch is made."""
        asked = None
        for group, commands in batches(cases):
            if asked:
                yield asked, *self.driver.answers()
            self.driver.ask(commands)
            asked = group
        if asked:
            yield asked, *self.driver.answers()

    def check(self, cases, answers):
        for case in cases:
            faults = [(str(call), *what) for call, wanted in case if (what := answers.differ(call, wanted))]
            if faults:
                more = [f"and {len(faults) - MOST_OF_ONE} calls more"] if len(faults) > MOST_OF_ONE else []
                self.fail(*(line for fault in faults[:MOST_OF_ONE] for line in fault), *more)
            else:
                self.passed += 1
        if answers.rest():
            self.fail(f"the driver wrote {len(answers.rest())} bytes more than its answers")

    def blame(self, cases):
        """The first of these cases that the driver does not answer."""
        while len(cases) > 1:
            half = cases[: len(cases) // 2]
            _, fault = self.driver.run(b"".join(map(pack, half)))
            cases = half if fault else cases[len(half) :]
        return cases[0]

    def all(self, cases):
        for group, got, fault in self.answered(cases):
            if fault:
                self.fail(fault, *(str(call) for call, _ in self.blame(group)), "the run ends here")
                return
            self.check(group, Answers(got))


def compare(cases):
    """How many cases passed, and how many failed."""
    comparison = Comparison()
    try:
        comparison.all(cases)
    except GaveUp as why:
        comparison.fail(f"the test itself is at fault: {why}")
    comparison.driver.end()
    return comparison.passed, comparison.failed
