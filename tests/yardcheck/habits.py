"""What people expect of a command: its options, the current folder, reasons on standard error, and lines that come as files are judged."""
import os
import signal
import subprocess
import tempfile
from pathlib import Path

from rules import list_of, report
from yard import command, compare, count, put, rng, root, run, run_unheard, some_files, spoilt, unprivileged

VERSION = (root / "VERSION").read_bytes().strip()


def made(above, data, reads):
    path = os.path.join(os.fsencode(above), b"yard")
    put(path, b"yard.man", data)
    for name, content in reads.items():
        put(path, name, content)
    return path


def quiet(lines):
    return b"".join(line for line in lines.splitlines(True) if not line.startswith(b"OK "))


def of_options():
    for options in (["--help"], ["-h"], ["--help", "none"], ["-q", "--help"]):
        out, status, said = run([*command, *options])
        told = all(word in out for word in (b"usage: yardcheck ", b"--quiet", b"--status", b"--version", b"NOT A LIST", b"yard.man"))
        count(told and status == 0 and said == b"", f"{options}", str((out, status, said)))
    ran = run([*command, "--version"])
    count(ran == (b"yardcheck (Dwombarine) " + VERSION + b"\n", 0, b""), "--version", str(ran))
    for options in (["--help"], ["--version"]):
        for kind, (out, status, said) in run_unheard([*command, *options]):
            count(status == 3 and said, f"{options}, standard output is {kind}", str((out, status, said)))
    for options in (["-x"], ["--quite"], ["-q", "-qq"], ["--status=no"], ["-", "-x"]):
        out, status, said = run([*command, *options])
        count((out, status) == (b"", 3) and os.fsencode(options[-1]) in said, f"no such option {options}", str((out, status, said)))

    for turn in range(8):
        files = some_files((0, 1, 2, 7, 20)[turn % 5], 64, (0, 1, 64, 5000))
        shares = ((1, 1), (0.7, 0.6), (0, 0), (0.5, 1))[turn % 4]
        reads = {name: content for name, content in files.items() if rng.random() < shares[0]}
        reads = {name: content if rng.random() < shares[1] else spoilt(content) for name, content in reads.items()}
        data = list_of(rng.randint(1, 6), files) if turn < 7 else b"no list"
        lines, status = report(data, reads)
        said = b"".join(name + b": not there\n" for name in files if name not in reads) if turn < 7 else b""
        with tempfile.TemporaryDirectory() as above:
            path = made(above, data, reads)
            for words, out, error in (
                ([], lines, said),
                (["-q"], quiet(lines), said),
                (["--quiet"], quiet(lines), said),
                (["--status"], b"", b""),
                (["-q", "--status"], b"", b""),
                (["--status", "-q"], b"", b""),
            ):
                for ways in (0, 1, 2) if turn == 1 else (turn % 3,):
                    given = ([*words, path], [path, *words], words)[ways]
                    ran = run([*command, *given], cwd=path if ways == 2 else above)
                    compare(f"{given}, turn {turn}", ran, (out, status))
                    count(ran[2] == error, f"{given}, turn {turn}: standard error", str(ran[2]), str(error))
            compare("-- and a folder", run([*command, "-q", "--", "yard"], cwd=above), (quiet(lines), status))
            ran = run(["sh", "-c", '"$@" >&-', "sh", *command, "--status", path])
            compare("--status needs no standard output", ran, (b"", status))
            for folder in ("-q", "--", "--help"):
                os.rename(path, os.path.join(above, folder))
                path = os.path.join(above, folder)
                compare(f"-- and the folder {folder}", run([*command, "--", folder], cwd=above), (lines, status))


def of_reasons():
    """A reason for each file that is MISSING, on standard error alone."""
    with tempfile.TemporaryDirectory() as above:
        listed = {name: b"content" for name in (b"file", b"none", b"file/x", b"loop", b"away", b"folder", b"socket", b"mem", b"z" * 64)}
        data = list_of(2, listed)
        path = made(above, data, {b"file": b"content"})
        os.mkdir(os.path.join(path, b"folder"))
        os.mknod(os.path.join(path, b"socket"), 0o140666)
        for name, target in ((b"loop", b"loop"), (b"away", b"nothing"), (b"mem", b"/proc/self/mem")):
            os.symlink(target, os.path.join(path, name))
        why = {name: b"not there" for name in listed} | {b"folder": b"a folder", b"socket": b"reading failed", b"mem": b"reading failed"}
        reasons = b"".join(b"%s: %s\n" % (name, why[name]) for name in sorted(listed) if name != b"file")
        expected = report(data, {b"file": b"content"})
        ran = run([*command, path])
        compare("reasons leave standard output as it is", ran, expected)
        count(ran[2] == reasons, "a reason for each that is MISSING", str(ran[2]), str(reasons))
        together = run([*command, path], stderr=subprocess.STDOUT)[0].splitlines(True)
        right = all(b"MISSING " + line.rpartition(b": ")[0] + b"\n" == before for before, line in zip(together, together[1:]) if b": " in line)
        count(right and len(together) == 2 * len(listed), "each behind its line", str(together))

        # nobody need hear them: neither the script nor the program by itself ends by that
        program = [str(root / "tests/kit/x86-64"), str(root / "crates/yardcheck/out/yardcheck")]
        for title, words, cwd in (("the script", command, path), ("the program", program, path)):
            with open("/dev/full", "wb") as full:
                out, status, said = run(words, cwd=cwd, stderr=full)
            count(out == expected[0], f"{title}, standard error is full", str(out))
            out, status, said = run(["sh", "-c", '"$@" 2>&-', "sh", *words], cwd=cwd)
            count(out == expected[0], f"{title}, standard error is closed", str(out))
        unread, pipe = os.pipe()
        os.close(unread)
        heard = run(command, cwd=path, stderr=pipe, preexec_fn=lambda: signal.signal(signal.SIGPIPE, signal.SIG_DFL))
        compare("standard error is a broken pipe", heard, expected)
        os.close(pipe)

    words = unprivileged()
    if words is None:
        print("not run: the reason of files that may not be read, as root reads them all and cannot be kept from it here")
        return
    with tempfile.TemporaryDirectory() as above:
        path = made(above, list_of(2, {b"shut": b"", b"sub/file": b""}), {b"shut": b"", b"sub/file": b""})
        for name in (b"shut", b"sub"):
            os.chmod(os.path.join(path, name), 0)
        out, status, said = run([*words, *command, path])
        os.chmod(os.path.join(path, b"sub"), 0o700)
        count(said == b"shut: no permission\nsub/file: no permission\n", "no permission is told", str(said))


def too_late(number, frame):
    raise TimeoutError


def of_waiting():
    """A line comes before the next file is read: that is a pipe, to which nothing is written until the line is here."""
    files = {b"a": b"1", b"b": b"2", b"c": b"3", b"d": b"4"}
    data = list_of(2, files)
    reads = {b"a": b"1", b"c": b"other"}
    for options in ([], ["-q"]):
        with tempfile.TemporaryDirectory() as above:
            path = made(above, data, reads)
            for name in (b"b", b"d"):
                os.mkfifo(os.path.join(path, name))
            lines = report(data, {**reads, b"b": b"2", b"d": b"no"})
            expected = quiet(lines[0]) if options else lines[0]
            process = subprocess.Popen([*command, *options, path], stdin=subprocess.DEVNULL, stdout=subprocess.PIPE, stderr=subprocess.DEVNULL)
            signal.signal(signal.SIGALRM, too_late)
            signal.alarm(20)
            try:
                first = b"" if options else process.stdout.readline()
                Path(os.fsdecode(path), "b").write_bytes(b"2")
                second = b"" if options else process.stdout.readline()
                third = process.stdout.readline()
                count(third == b"BAD c\n", f"{options}: the lines come as files are judged", str((first, second, third)))
                Path(os.fsdecode(path), "d").write_bytes(b"no")
                rest = process.communicate(timeout=60)[0]
                compare(f"{options}: the lines", (first + second + third + rest, process.returncode, b""), (expected, lines[1]))
            except TimeoutError:
                count(False, f"{options}: the lines come as files are judged", "none came in 20 s")
            finally:
                signal.alarm(0)
                process.terminate()
                process.wait()


def of_habits():
    of_options()
    of_reasons()
    of_waiting()
