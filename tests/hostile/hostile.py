"""bin/yardcheck where nobody is friendly. Each yard here is one good file, a changed one and a missing one, so that no forged answer and no
failure can look right; what each run must write is SPEC's (rules.py)."""
import contextlib
import os
import pty
import resource
import shutil
import signal
import subprocess
import tempfile
import threading
import time
from pathlib import Path

from rules import list_of, report
from yard import command, compare, count, finish, put, root, run, unprivileged

FILES = {b"fleet.cfg": b"carriers 4\n", b"offsets.cfg": b"12 -7\n", b"yard.map": b"rows 3\n"}
READS = {b"fleet.cfg": b"carriers 4\n", b"offsets.cfg": b"12 -8\n"}
DATA = list_of(2, FILES)
FINE = report(DATA, READS)
FORGED = "OK fleet.cfg\nOK offsets.cfg\nOK yard.map\n3 listed, 3 ok, 0 bad, 0 missing\n"
SOON = 10
KIT = Path(run([root / "tests/kit/tools"])[0].decode().strip())


@contextlib.contextmanager
def a_yard(data=DATA, reads=READS):
    """A folder with the folder `yard` in it, and `temp`, an empty one for temporary files."""
    with tempfile.TemporaryDirectory() as above:
        above = Path(above).resolve()
        (above / "temp").mkdir()
        for name, content in {b"yard.man": data, **reads}.items():
            put(os.fsencode(above / "yard"), name, content)
        yield above


def script(path, text):
    path.parent.mkdir(parents=True, exist_ok=True)
    path.write_text("#!/bin/sh\n" + text)
    path.chmod(0o755)


def with_env(**more):
    return {**os.environ, **more}


def refused(title, ran, told):
    out, status, said = ran
    count(out == b"" and status == 3 and told in said, title, str(ran))


# ---- tools


def of_tools():
    """A yard with a tool of its own for each that could be looked up: none is run, and the answer is not theirs."""
    names = """rt id dirname basename readlink uname mktemp mkfifo rm mkdir chmod find touch env setsid setpriv sh bash cat tee tail head sed
        awk grep true pwd ls qemu-x86_64 clang kill wait printf test""".split()
    path = os.environ["PATH"]
    with a_yard() as above:
        yard, mark = above / "yard", above / "mark"
        for name in names:
            for place in (yard, yard / "bin"):
                script(place / name, f"echo {name} >> {mark}\nprintf '{FORGED}'\n")
        for cwd, words in ((above, ["yard"]), (yard, [])):
            for changed in (f":{path}", f".:{path}", f"./bin:{path}", f"bin:{path}", f"{path}:", f"{path}::{path}", f"../yard:yard:{path}"):
                title = f"PATH={changed.replace(path, '..')} in {cwd.name if cwd == yard else 'the folder above'}"
                compare(title, run([*command, *words], cwd=cwd, env=with_env(PATH=changed)), FINE)
                count(not mark.exists(), title + ": no tool of the yard is run", mark.exists() and mark.read_text())
                mark.unlink(missing_ok=True)
        out, status, said = run([*command, *["yard"]], cwd=above, env=with_env(PATH="bin"))
        count(out != FORGED.encode() and status not in (0, 2) and not mark.exists(), "a PATH of nothing but a relative part", str(said))

        # a kit of the yard's own
        kit = yard / "kit"
        tools = kit / "toolchain"
        for name in ("bin/clang", "bin/qemu-x86_64", "lib/ld-linux-x86-64.so.2"):
            script(tools / name, f"echo {name} >> {mark}\nprintf '{FORGED}'\n")
        for cwd, words, home in ((above, ["yard"], "kit"), (yard, [], "kit"), (above, ["yard"], "./kit"), (above, ["yard"], "yard/kit")):
            refused(f"RATTLE_HOME={home}", run([*command, *words], cwd=cwd, env=with_env(RATTLE_HOME=home)), b"RATTLE_HOME")
            count(not mark.exists(), f"RATTLE_HOME={home}: no kit of the yard's is run")
            mark.unlink(missing_ok=True)


def of_loaders():
    """A C library of the yard's own, where the loader is told to look for it."""
    with a_yard() as above:
        yard = above / "yard"
        kit_lib = yard / str(KIT / "lib").lstrip("/")
        for place in (yard, yard / "lib", kit_lib):
            place.mkdir(parents=True, exist_ok=True)
            for name in ("libc.so.6", "x.so", "ld-linux-x86-64.so.2"):
                (place / name).write_bytes(b"no library\n")
        for name, values in {
            "LD_LIBRARY_PATH": ("", ".", ":", "/usr/none:", ":/usr/none", "/usr/none;.", "lib", "/usr/none:lib", "./lib:"),
            "LD_PRELOAD": ("./x.so", "lib/x.so", "/none.so:./x.so", "none.so lib/x.so"),
            "LD_AUDIT": ("./x.so",),
            "QEMU_LD_PREFIX": (".", str(yard)),
        }.items():
            for value in values:
                ran = run([*command, "yard"], cwd=above, env=with_env(**{name: value}))
                compare(f"{name}={value}", ran, FINE)
                count(b"invalid ELF" not in ran[2] and b"too short" not in ran[2], f"{name}={value}: no library of the yard's", str(ran[2]))


# ---- input


def of_input():
    """A list that names what the caller reads."""
    names = [b"/dev/fd/7", b"/dev/stdin", b"/proc/self/fd/0"]
    reads = {b"/dev/stdin": b"", b"/proc/self/fd/0": b""}
    data = list_of(2, {name: b"" for name in names})
    with a_yard(data, {}) as above:
        first, second = os.pipe(), os.pipe()
        os.dup2(second[0], 7)
        for pipe in (first, second):
            os.write(pipe[1], b"the caller's\n")
            os.close(pipe[1])
        ran = run([*command, "yard"], cwd=above, stdin=first[0], pass_fds=(7,), timeout=SOON)
        compare("standard input is empty, and no other file is the caller's", ran, report(data, reads))
        count(os.read(first[0], 99) == b"the caller's\n", "the caller's standard input is not read")
        count(os.read(7, 99) == b"the caller's\n", "nor is another file")
        for fd in (first[0], second[0], 7):
            os.close(fd)
        ran = run(["sh", "-c", '"$@" <&-', "sh", *command, "yard"], cwd=above)
        compare("standard input is closed", ran, report(data, reads))

    # the caller's terminal
    data = list_of(2, {b"/dev/tty": b""})
    with a_yard(data, {}) as above:
        pid, terminal = pty.fork()
        if pid == 0:
            out = os.open(above / "out", os.O_WRONLY | os.O_CREAT)
            os.dup2(out, 1)
            os.execv(command[0], [*command, str(above / "yard")])
        late = time.monotonic() + SOON
        while (ended := os.waitpid(pid, os.WNOHANG))[0] == 0 and time.monotonic() < late:
            time.sleep(0.05)
        if ended[0] == 0:
            os.kill(pid, signal.SIGKILL)
            os.waitpid(pid, 0)
        os.close(terminal)
        status = os.waitstatus_to_exitcode(ended[1]) if ended[0] else None
        compare("the terminal is not read", ((above / "out").read_bytes(), status, b""), report(data, {}))

    # its own output: lines that are read away are no result
    data = list_of(2, {b"!": b"", b"/dev/stdout": b""})
    with a_yard(data, {}) as above:
        out, status, said = run([*command, "yard"], cwd=above, timeout=3)
        count(status in (None, 3) or (out, status) == report(data, {}), "a list that names standard output", str((out, status, said)))
        end_all(above)


# ---- signals


def inside(*folders):
    """The processes that are in one of the folders, or have it in their words."""
    found = []
    for pid in filter(str.isdigit, os.listdir("/proc")):
        try:
            words = Path(f"/proc/{pid}/cmdline").read_bytes()
            where = os.readlink(f"/proc/{pid}/cwd")
        except OSError:
            continue
        # a process that has ended and was not waited for has no words
        if words and int(pid) != os.getpid() and any(where == str(f) or os.fsencode(f) in words for f in folders):
            found.append(int(pid))
    return found


def gone(*folders):
    late = time.monotonic() + 2
    while inside(*folders) and time.monotonic() < late:
        time.sleep(0.02)
    return not inside(*folders)


def end_all(*folders):
    for pid in inside(*folders):
        with contextlib.suppress(OSError):
            os.kill(pid, signal.SIGKILL)


def as_a_shell_does():
    """What a shell at a terminal starts has these as they are by default, and a group of its own."""
    os.setpgid(0, 0)
    for number in (signal.SIGINT, signal.SIGQUIT, signal.SIGHUP, signal.SIGTERM, signal.SIGPIPE):
        signal.signal(number, signal.SIG_DFL)


def started(words, above, **how):
    how = {"stdin": subprocess.DEVNULL, "stdout": subprocess.PIPE, "stderr": subprocess.PIPE, "preexec_fn": as_a_shell_does, **how}
    return subprocess.Popen(words, cwd=above, env={**os.environ, "TMPDIR": str(above / "temp"), **how.pop("env", {})}, **how)


def ends(process):
    try:
        return process.wait(SOON)
    except subprocess.TimeoutExpired:
        return None


def of_signals():
    """The second file of the list is a pipe that nobody writes to."""
    data = list_of(2, {b"a": b"a", b"b": b"b"})
    dies_along = run(["setpriv", "--pdeathsig", "KILL", "true"])[1] == 0 if shutil.which("setpriv") else False
    with a_yard(data, {b"a": b"a"}) as above:
        yard = above / "yard"
        os.mkfifo(yard / "b")
        for name in ("HUP", "INT", "QUIT", "ALRM", "TERM", "USR1", "USR2", "KILL"):
            number = getattr(signal, "SIG" + name)
            process = started([*command, "yard"], above)
            count(process.stdout.readline() == b"OK a\n", f"{name}: the check is on")
            began = time.monotonic()
            process.send_signal(number)
            status = ends(process)
            count(status == -number, f"{name}: the script dies of it", f"status {status}")
            count(time.monotonic() - began < 2, f"{name}: at once")
            if name != "KILL" or dies_along:
                count(gone(yard), f"{name}: nothing is left running", str(inside(yard)))
            else:
                print("not run: what a killed script leaves running, since setpriv cannot do that here")
            count(not os.listdir(above / "temp"), f"{name}: nothing is left lying about", str(os.listdir(above / "temp")))
            process.kill()
            end_all(yard)
            process.communicate()

        words = ["bash", "-c", 'for i in 1 2 3; do "$@"; done; echo went on', "bash", *command, "yard"]
        process = started(words, above)
        process.stdout.readline()
        os.killpg(process.pid, signal.SIGINT)
        status = ends(process)
        end_all(yard)
        with contextlib.suppress(OSError):
            os.killpg(process.pid, signal.SIGKILL)
        rest = process.communicate()[0]
        count(status == -signal.SIGINT and rest == b"", "an interrupt ends a shell's loop", f"status {status}, then {rest}")


# ---- building


@contextlib.contextmanager
def a_checkout(rt):
    """A checkout in which the program is to be built, by a command `rt` that does as it is told. `rt` finds the program that is built
    already as $PROGRAM."""
    with a_yard() as above:
        checkout = above / "checkout"
        for part in ("bin/yardcheck", "bin/common.sh", "tests/kit/tools", "VERSION"):
            (checkout / part).parent.mkdir(parents=True, exist_ok=True)
            shutil.copy(root / part, checkout / part)
        (checkout / "crates").mkdir()
        (checkout / "crates.txt").write_text("")
        script(above / "tools/rt", rt)
        yield above


def building(above):
    path = f"{above / 'tools'}:{os.environ['PATH']}"
    return {"PATH": path, "RATTLE_HOME": str(KIT.parent), "PROGRAM": str(root / "crates/yardcheck/out/yardcheck")}


BUILDS = """
[ "$*" = "run -- 0" ] || exit 2
echo 'fn answers::number: proved'
echo 'crate answers: modules loaded=0 checked=33'
%s
cp "$PROGRAM" out/yardcheck && : > out/yardcheck.stamp
echo 'crate yardcheck: modules loaded=0 checked=12'
echo 'NOT A LIST'
"""


def of_building():
    words = ["checkout/bin/yardcheck", "yard"]
    with a_checkout(BUILDS % ("read go < " + '"$GO"')) as above:
        os.mkfifo(above / "go")
        process = started(words, above, env={**building(above), "GO": str(above / "go")})
        # where no line comes, rt goes on after a while all the same
        go = os.open(above / "go", os.O_RDWR)
        late = threading.Timer(SOON, os.write, (go, b"go\n"))
        late.start()
        told = [process.stderr.readline(), process.stderr.readline()]
        count(late.is_alive() and told[1] == b"crate answers: modules loaded=0 checked=33\n", "a crate is told as it is done", str(told))
        late.cancel()
        os.write(go, b"go\n")
        out, said = process.communicate(timeout=SOON)
        os.close(go)
        compare("the program is built and run", (out, process.returncode, said), FINE)
        count(said == b"crate yardcheck: modules loaded=0 checked=12\nyard.map: not there\n", "the last crate is told", str(said))
        count(not os.listdir(above / "temp"), "building leaves nothing lying about", str(os.listdir(above / "temp")))
        ran = run(words, cwd=above, env=with_env(**building(above)))
        compare("it is not built again", ran, FINE)
        count(b"crate" not in ran[2], "nor is it said", str(ran[2]))
        (above / "checkout/crates.txt").touch()
        ran = run(["checkout/bin/yardcheck", "--status", "yard"], cwd=above, env=with_env(**building(above), GO="/dev/null"))
        count(ran == (b"", 1, b""), "--status builds without a word", str(ran))

    with a_checkout("echo one; echo two; exit 1") as above:
        ran = run(words, cwd=above, env=with_env(**building(above)))
        refused("what is not proved is not run", ran, b"one\ntwo\nyardcheck: not proved")

    with a_checkout("echo 'crate answers: modules loaded=0 checked=33'; mktemp -d > /dev/null; sleep 1000 & sleep 1001") as above:
        for number in (signal.SIGINT, signal.SIGTERM):
            process = started(words, above, env=building(above))
            process.stderr.readline()
            process.stderr.readline()
            time.sleep(0.1)
            process.send_signal(number)
            status = ends(process)
            count(status == -number, f"{number.name} while building: the script dies of it", f"status {status}")
            count(gone(above / "checkout", "sleep\x001000"), f"{number.name} while building: nothing is left running")
            count(not os.listdir(above / "temp"), f"{number.name} while building: nothing is left lying about")
            process.kill()
            end_all(above / "checkout")
            process.communicate()

    limits = unprivileged()
    with a_checkout("exit 1") as above:
        (above / "checkout/crates").chmod(0o555)
        (above / "shut").mkdir(0o600)
        if limits is not None:
            ran = run([*limits, *words], cwd=above, env=with_env(**building(above)))
            refused("a checkout that cannot be written", ran, b"the checkout cannot be written: ")
            count(os.fsencode(above / "checkout/crates/yardcheck/out") in ran[2], "and it is named")
            refused("a folder that cannot be entered", run([*limits, *command, "shut"], cwd=above), b"the folder cannot be entered: shut")
        else:
            print("not run: what may not be written or entered, as root may do all and cannot be kept from it here")
        (above / "checkout/crates").chmod(0o755)


# ---- failures


def of_failures():
    with a_yard() as above:
        # with fewer than 11 a common shell does not come to the first line of a script
        for n in range(11, 24):
            few = lambda: resource.setrlimit(resource.RLIMIT_NOFILE, (n, n))
            ran = run([*command, "yard"], cwd=above, preexec_fn=few, env=with_env(TMPDIR=str(above / "temp")))
            good = ran[:2] == FINE or (ran[1] == 3 and ran[2])
            count(good, f"{n} files may be open: a failure looks like no answer", str(ran))
            count(not os.listdir(above / "temp"), f"{n} files may be open: nothing is left lying about")
        # root may have any number of processes, so as root the script is run as nobody
        words = ["setpriv", "--reuid=65534", "--regid=65534", "--clear-groups"] if os.geteuid() == 0 else []
        above.chmod(0o755)
        with contextlib.suppress(OSError):
            if run([*words, "test", "-r", command[0], "-a", "-r", above / "yard/yard.man"])[1] == 0:
                ran = run([*words, "bash", "-c", 'ulimit -u 0; exec "$@"', "bash", *command, "yard"], cwd=above)
                count(ran[1] == 3 and ran[2], "no process may be started: a failure looks like no answer", str(ran))
                words = []
        if words:
            print("not run: a shell that can start no process, since nobody cannot reach the script here")
        for mb in (30, 100):
            little = lambda: resource.setrlimit(resource.RLIMIT_AS, (mb << 20, mb << 20))
            ran = run([*command, "yard"], cwd=above, preexec_fn=little)
            count(ran[:2] == FINE or ran[1] == 3, f"{mb} MB of memory: a failure looks like no answer", str(ran))
        small = lambda: resource.setrlimit(resource.RLIMIT_FSIZE, (0, 0))
        compare("no file may be written", run([*command, "yard"], cwd=above, preexec_fn=small), FINE)

        refused("a missing folder", run([*command, "none"], cwd=above), b"no such folder: none\n")
        refused("a file for a folder", run([*command, "yard/yard.man"], cwd=above), b"not a folder: yard/yard.man\n")
        (above / "away").symlink_to("none")
        refused("a link to no folder", run([*command, "away"], cwd=above), b"no such folder: away\n")
        for place in ("none", "yard/yard.man"):
            ran = run([*command, "yard"], cwd=above, env=with_env(TMPDIR=place))
            refused(f"TMPDIR={place}", ran, b"yardcheck: no room for temporary files in " + place.encode())

        # a kit whose emulator says and does as it is told
        tools = above / "kit/toolchain"
        script(tools / "bin/clang", "")
        lines = FINE[0].decode()
        for title, text, status in (
            ("nothing", "", 0),
            ("nothing, and ends with 1", "", 1),
            ("nothing, and ends with 2", "", 2),
            ("all, and ends with 1", lines, 1),
            ("all, and ends with 2", lines, 2),
            ("NOT A LIST, and ends with 1", "NOT A LIST\n", 1),
            ("the last line alone", "3 listed, 3 ok, 0 bad, 0 missing\n", 0),
            ("a last line that counts others", "OK a\n2 listed, 2 ok, 0 bad, 0 missing\n", 0),
            ("all but the end of the last line", lines[:-1], 0),
            ("all but the last line", lines[: lines.rindex("3 ")], 0),
        ):
            script(tools / "bin/qemu-x86_64", f"cat <<'END'\n{text}END\nexit {status}\n" if text.endswith("\n") else f"printf '{text}'\nexit {status}\n")
            for options in ([], ["-q"], ["--status"]):
                ran = run([*command, *options, "yard"], cwd=above, env=with_env(RATTLE_HOME=str(above / "kit")))
                count(ran[1] == 3 and ran[2], f"an emulator that says {title} {options}", str(ran))
        script(tools / "bin/qemu-x86_64", "echo the emulator broke >&2; kill -SEGV $$")
        for options in ([], ["--status"]):
            ran = run([*command, *options, "yard"], cwd=above, env=with_env(RATTLE_HOME=str(above / "kit")))
            refused(f"an emulator that breaks {options}", ran, b"the emulator broke\n")


with tempfile.TemporaryDirectory() as first:  # this may build the program, which takes its time
    (Path(first) / "yard.man").write_bytes(list_of(2, {}))
    built = compare("a first yard", run([*command, first], timeout=3600), report(list_of(2, {}), {}))
if built:
    of_tools()
    of_loaders()
    of_input()
    of_signals()
    of_building()
    of_failures()
finish()
