"""One yard: a temporary folder that the program checks, and what SPEC says of it (rules.py); and what yards are filled with."""
import os
import random
import shlex
import subprocess
import sys
import tempfile
from pathlib import Path

from rules import ALLOWED, report

root = Path(__file__).resolve().parents[2]
command = shlex.split(os.environ.get("YARDCHECK") or shlex.quote(str(root / "bin/yardcheck")))
seed = int(os.environ.get("SEED") or random.SystemRandom().randrange(2**32))
rng = random.Random(seed)
PLAIN = ALLOWED.replace(b"/", b"")
passed = failed = 0


def count(good, title, *more):
    global passed, failed
    passed, failed = passed + bool(good), failed + (not good)
    if not good and failed <= 20:
        print(f"not ok: {title}", *more, sep="\n    ")


def run(words, timeout=120, **how):
    """Standard output (nothing, where `how` has another file for it), exit status and standard error of a command; a status of None where
    it did not end."""
    how = {**({} if "input" in how else {"stdin": subprocess.DEVNULL}), "stdout": subprocess.PIPE, "stderr": subprocess.PIPE, **how}
    try:
        ran = subprocess.run(words, timeout=timeout, **how)
        return ran.stdout or b"", ran.returncode, ran.stderr or b""
    except subprocess.TimeoutExpired as late:
        return late.stdout or b"", None, late.stderr or b""


def run_unheard(words):
    """The same where standard output takes nothing: on a full disk, closed, and a pipe that nobody reads."""
    with open("/dev/full", "wb") as full:
        yield "a full disk", run(words, stdout=full)
    yield "closed", run(["sh", "-c", '"$@" >&-', "sh", *words])
    unread, pipe = os.pipe()
    os.close(unread)
    yield "a broken pipe", run(words, stdout=pipe)
    os.close(pipe)


def unprivileged():
    """The words before a command that take root's right to read and write everything from it, none for another user; None where that
    cannot be done."""
    words = ["setpriv", "--bounding-set=-dac_override,-dac_read_search"] if os.geteuid() == 0 else []
    with tempfile.NamedTemporaryFile() as shut:
        os.chmod(shut.name, 0)
        try:
            able = run([*words, "true"])[1] == 0 and run([*words, "cat", shut.name])[1] != 0
        except OSError:
            able = False
    return words if able else None


def compare(title, ran, expected):
    """Whether the output and the status are the expected ones."""
    out, status, said = ran
    if (out, status) == expected:
        count(True, title)
        return True
    got, want = out.split(b"\n"), expected[0].split(b"\n")
    at = next((i for i, pair in enumerate(zip(got, want)) if pair[0] != pair[1]), min(len(got), len(want)))
    count(
        False,
        title,
        f"status {status}, expected {expected[1]}",
        f"line {at + 1} is {got[at : at + 1]}, expected {want[at : at + 1]}",
        f"said {said[-300:]}",
    )
    return False


def put(folder, name, data):
    path = os.path.join(folder, name)
    if not os.path.lexists(path):
        os.makedirs(os.path.dirname(path), exist_ok=True)
        with open(path, "wb") as file:
            file.write(data)


def yard(title, data, reads, make=None, folder=b"yard", given=None, words=(), **how):
    """yard.man holds `data` (None: there is no such file) and each name opens what `reads` has for it: a file with that content, where
    `make`, which is called first with the folder, has not put something else there. The program is given the folder's whole path, or
    what `given` says, which it finds from the folder above. `words` stand before the command."""
    with tempfile.TemporaryDirectory() as above:
        path = os.path.join(os.fsencode(above), folder)
        os.mkdir(path)
        if make:
            make(path)
        if data is not None:
            put(path, b"yard.man", data)
        for name, content in reads.items():
            put(path, name, content)
        compare(title, run([*words, *command, given or path], cwd=above, **how), report(data, reads))


def some_name(longest=64):
    """A name that makes one file in the folder, whatever its bytes."""
    while True:
        name = bytes(rng.choices(PLAIN, k=rng.randint(1, longest)))
        if name not in (b".", b"..", b"yard.man"):
            return name


def some_files(n, longest_name=64, sizes=(0, 1, 3, 63, 64, 65, 200)):
    names = set()
    while len(names) < n:
        names.add(some_name(longest_name))
    return {name: rng.randbytes(rng.choice(sizes)) for name in sorted(names)}


def full_names(n):
    """n names of 64 bytes."""
    return [b"%03d" % i + bytes(rng.choices(PLAIN, k=61)) for i in range(n)]


def changed(data, at):
    return data[:at] + bytes([data[at] ^ 1 << rng.randrange(8)]) + data[at + 1 :]


def longer(data):
    return data + rng.randbytes(1)


def shorter(data):
    return data[:-1]


def spoilt(data):
    """A content that differs by a byte."""
    return rng.choice([longer, shorter, lambda d: changed(d, rng.randrange(len(d)))])(data) if data else longer(data)


def finish():
    print(f"{passed} passed, {failed} failed")
    sys.exit(0 if failed == 0 else 1)
