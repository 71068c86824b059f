"""Folders, each listed by bin/yardlist and compared with what SPEC says: the list byte for byte, the line, the exit status, standard error,
and what else is in the folder afterwards. The lists to compare with are made by tests/yardcheck/rules.py with Python's hashlib.

Not tried: a file of over 2^40 bytes, which would have to be read that far (a sparse one too: hours).
"""
import os
import resource
import signal
import socket
import stat
import subprocess
import sys
import tempfile
import time
from pathlib import Path

sys.path.insert(0, str(Path(__file__).resolve().parents[1] / "yardcheck"))
from rules import ALLOWED, EDITIONS, list_of, report  # noqa: E402
from yard import PLAIN, count, finish, full_names, put, rng, root, run, run_unheard, seed, some_files, unprivileged  # noqa: E402

TITLES = {1: b"SHA-224", 2: b"SHA-256", 3: b"SHA-384", 4: b"SHA-512", 5: b"SHA-512/224", 6: b"SHA-512/256"}
LIST = b"yard.man"
lister, checker = str(root / "bin/yardlist"), str(root / "bin/yardcheck")
program = [str(root / "tests/kit/x86-64"), str(root / "crates/yardlist/out/yardlist")]
OLD = b"an old list"


def line_of(edition, files):
    return b"yard.man: %d bytes, %d listed, %s\n" % (len(list_of(edition, files)), len(files), TITLES[edition])


def state(path):
    """What is in a folder: of each name what it is, and a file's content and a link's target."""
    found = {}
    for entry in os.scandir(path):
        if entry.is_symlink():
            found[entry.name] = os.readlink(entry.path)
        elif entry.is_file():
            with open(entry.path, "rb") as file:
                found[entry.name] = file.read()
        else:
            found[entry.name] = stat.S_IFMT(entry.stat().st_mode)
    return found


class folder:
    """A temporary folder with these files, and an old list where there is to be one; `path` is its path."""

    def __init__(self, files, old=None, name=b"yard"):
        self.above = tempfile.TemporaryDirectory()
        self.path = os.path.join(os.fsencode(self.above.name), name)
        os.mkdir(self.path)
        for name, content in files.items():
            put(self.path, name, content)
        if old is not None:
            put(self.path, LIST, old)

    def __enter__(self):
        self.above.__enter__()
        return self

    def __exit__(self, *error):
        return self.above.__exit__(*error)


def made(title, edition, files, ran, path, before):
    """The list is made, and nothing else in the folder is changed."""
    count(ran == (line_of(edition, files), 0, b""), f"{title}: line and status", str(ran))
    after = state(path)
    got = after.pop(LIST, None)
    count(got == list_of(edition, files), f"{title}: the list", str(got)[:200])
    count(after == {name: what for name, what in before.items() if name != LIST}, f"{title}: the folder", str(sorted(after)))


def refused(title, status, ran, path, before, *told):
    """Nothing is made and nothing in the folder is changed; standard error says why, in whole lines with the command's name."""
    out, got, said = ran
    lines = said.splitlines(True)
    whole = lines and all(line.startswith(b"yardlist: ") and line.endswith(b"\n") for line in lines)
    count((out, got) == (b"", status) and whole and all(word in said for word in told), f"{title}: refused", str(ran))
    count(state(path) == before, f"{title}: the folder is as it was", str(sorted(state(path))))


def of_folders():
    """Random folders with all that is not listed in them; then the checker says that all is OK."""
    for turn in range(18):
        edition = turn % 6 + 1
        files = some_files((0, 1, 3, 30, 255, 256)[(turn + turn // 6) % 6], (6, 64)[turn % 2], (0, 1, 64, 4095, 4096, 4097, 9000))
        if files:
            files[b".hidden%d" % turn] = files.pop(sorted(files)[0])
        with folder(files, (None, OLD)[turn % 2]) as yard:
            os.makedirs(os.path.join(yard.path, b"~folder"))
            put(yard.path, b"~folder/file", b"not listed")
            for name, target in ((b"~link", b"~folder/file"), (b"~dangling", b"nothing"), (b"~to folder", b"~folder")):
                os.symlink(target, os.path.join(yard.path, name))
            os.mkfifo(os.path.join(yard.path, b"~fifo"))
            with socket.socket(socket.AF_UNIX) as made_socket:
                made_socket.bind(os.path.join(yard.path, b"~socket"))
            before = state(yard.path)
            made(f"random folder {turn}, edition {edition}", edition, files, run([lister, yard.path, str(edition)]), yard.path, before)
            checked = run([checker, yard.path])
            count(checked[:2] == report(list_of(edition, files), files), f"random folder {turn}: yardcheck", str(checked)[:300])
            count(checked[1] == 0, f"random folder {turn}: all is OK")
            again = run([lister, yard.path, str(edition)])
            made(f"random folder {turn}, once more", edition, files, again, yard.path, before)


def of_names_and_sizes():
    sizes = (0, 1, 55, 56, 63, 64, 65, 111, 112, 127, 128, 129, 4095, 4096, 4097, 8192, 12289, 1_000_003)
    odd = rb"""- -- --help -n -e * ? [a-z] {a,b} $HOME $(id) `id` ${IFS} ; & | < > # ~ ! ' " \ \n \0 %s %n @ ^ a=b ... ( ) -f ! yard.man: yard.man.ne
        yard.man.newer yard.mans .yard.man Yard.man yard.man~ OK BAD listed,""".split()
    for title, files in (
        ("names of one byte", {bytes([b]): rng.randbytes(3) for b in PLAIN if bytes([b]) != b"."}),
        ("names that a shell could take for something else", {name: rng.randbytes(5) for name in odd}),
        ("each name the beginning of the next", {b"a" * n: rng.randbytes(n) for n in range(1, 65)}),
        ("256 names of 64 bytes", {name: b"" for name in full_names(256)}),
        ("names of all bytes", {PLAIN[:64]: b"first", PLAIN[-64:]: b"last"}),
        ("files of many sizes", {b"%d" % size: rng.randbytes(size) for size in sizes}),
    ):
        for edition in (2, rng.choice((1, 3, 4, 5, 6))):
            with folder(files) as yard:
                made(f"{title}, edition {edition}", edition, files, run([lister, yard.path, str(edition)]), yard.path, state(yard.path))


def of_words():
    """How folder and edition are given, and what is said of others."""
    files = some_files(3, 6)
    with folder(files) as yard:
        above = os.path.dirname(yard.path)
        for words, cwd in (([], yard.path), (["yard"], above), (["yard", "2"], above), (["./yard/"], above), (["--", "yard"], above), ([".", "--", "2"], yard.path)):
            before = state(yard.path)
            made(f"{words}", 2, files, run([lister, *words], cwd=cwd), yard.path, before)
        os.symlink(lister, os.path.join(above, b"link"))
        made("through a link", 2, files, run(["./link", "yard"], cwd=above), yard.path, state(yard.path))
        for name in (b"-", b"-x", b"--", b"--help", b"a b", b"$HOME", b"line\nbreak", b"\xff", b"5"):
            os.rename(yard.path, os.path.join(above, name))
            yard.path = os.path.join(above, name)
            made(f"a folder {name}", 5, files, run([lister, "--", name, "5"], cwd=above), yard.path, state(yard.path))
        os.rename(yard.path, os.path.join(above, b"yard"))
        yard.path = os.path.join(above, b"yard")
        before = state(yard.path)
        for words, told in (
            (["none"], b"none"),
            ([""], b"empty"),
            (["yard/yard.man"], b"not a folder"),
            (["yard", "0"], b"edition"),
            (["yard", "7"], b"edition"),
            (["yard", "22"], b"edition"),
            (["yard", ""], b"edition"),
            (["yard", "x"], b"edition"),
            (["yard", "2", "2"], b"usage"),
            (["-x"], b"-x"),
            (["--quiet"], b"--quiet"),
        ):
            refused(f"{words}", 3, run([lister, *words], cwd=above), yard.path, before, told)
        for words in (["--help"], ["-h"], ["yard", "--help"]):
            out, status, said = run([lister, *words], cwd=above)
            told = all(word in out for word in (b"usage: yardlist [DIR] [EDITION]", b"--version", b"Exit status: 0", b"yard.man"))
            count(told and (status, said) == (0, b""), f"{words}", str((out, status, said)))
        version = (root / "VERSION").read_bytes()
        count(run([lister, "--version"]) == (b"yardlist (Dwombarine) " + version, 0, b""), "--version")
        count(state(yard.path) == before, "asked for help, it makes nothing")


def of_refusals():
    kinds = {
        "a name of 65 bytes": ({b"n" * 65: b""}, b"n" * 65 + b": ", b"64 bytes", b"15"),
        "a name of 255 bytes": ({b"\x01" * 255: b""}, b"\\x01" * 255 + b": ", b"64 bytes", b"15"),
        "a blank in a name": ({b"a b": b""}, rb"yardlist: a\x20b: ", b"15"),
        "a line's end in a name": ({b"a\nb": b""}, rb"a\x0ab: ", b"15"),
        "a name that looks like lines": ({b"x\nyard.man: 16 bytes, 0 listed, SHA-256\n": b""}, rb"x\x0ayard.man:\x20", b"15"),
        "a byte 7f in a name": ({b"a\x7f": b""}, rb"a\x7f: ", b"15"),
        "a byte ff in a name": ({b"\xff\\": b""}, rb"\xff\x5c: ", b"15"),
        "257 files": ({b"%03d" % i: b"" for i in range(257)}, b"257th", b"17"),
        "many files": ({b"%064d" % i: b"" for i in range(700)}, b"257th", b"17"),
    }
    for title, (files, *told) in kinds.items():
        for old in (None, OLD):
            with folder({**files, b"fine": b"a file"}, old) as yard:
                refused(title, 1, run([lister, yard.path]), yard.path, state(yard.path), *told)


def of_what_is_there():
    """yard.man and files that a run may have left."""
    files = some_files(4)
    for name in (b"yard.man.new", b"yard.man.new.AbC123", b"yard.man.new."):
        with folder({**files, name: b"left over"}, OLD) as yard:
            before = state(yard.path)
            made(f"{name} is there", 2, files, run([lister, yard.path]), yard.path, before)
    with folder(files) as yard:
        os.symlink(b"elsewhere", os.path.join(yard.path, LIST))
        made("yard.man is a link to nothing", 2, files, run([lister, yard.path]), yard.path, state(yard.path))
    with folder({**files, b"other": OLD}) as yard:
        os.symlink(b"other", os.path.join(yard.path, LIST))
        made("yard.man is a link to a file", 2, {**files, b"other": OLD}, run([lister, yard.path]), yard.path, state(yard.path))
    with folder(files) as yard:
        os.mkdir(os.path.join(yard.path, LIST))
        refused("yard.man is a folder", 3, run([lister, yard.path]), yard.path, state(yard.path), b"yard.man cannot be replaced")
    for umask in (0o022, 0o027, 0o077):
        with folder(files) as yard:
            run([lister, yard.path], preexec_fn=lambda: os.umask(umask))
            mode = stat.S_IMODE(os.stat(os.path.join(yard.path, LIST)).st_mode)
            count(mode == 0o666 & ~umask, f"a new file as any other, umask {umask:o}", f"{mode:o}")


def of_the_program():
    """The program by itself: names that no folder has, in any order."""

    def started(yard, names, *words, **how):
        return run([*program, *words], cwd=yard.path, input=names, **how)

    files = some_files(40, 64, (0, 5, 5000))
    for turn in range(6):
        names = list(files)
        rng.shuffle(names)
        with folder(files) as yard:
            before = state(yard.path)
            ran = started(yard, b"".join(name + b"\0" for name in names), str(turn + 1), "new")
            made(f"names in order {turn}", turn + 1, files, ran, yard.path, before)
    with folder({b"a": b"1", b"sub/b": b"2"}, OLD) as yard:
        before = state(yard.path)
        for title, names, said in (
            ("a file that is gone", b"a\0gone\0", b"gone: not there\n"),
            ("a folder", b"sub\0a\0", b"sub: a folder\n"),
            ("a name twice", b"a\0sub/b\0a\0", b"a: named twice (rule 16)\n"),
            ("an empty name", b"a\0\0", b": an empty name (rule 15)\n"),
            ("only an empty name", b"\0", b": an empty name (rule 15)\n"),
            ("a name without an end", b"a\0sub/b", b"sub/b: a name without a zero byte behind it\n"),
            ("a long name without an end", b"a\0" + b"b" * 100, b"b" * 100 + b": a name of more than 64 bytes (rule 15)\n"),
            ("a name of a million bytes", b"b" * 1_000_000, b"b" * 255 + b": a name of more than 64 bytes (rule 15)\n"),
            ("the first of two reasons", b"gone\0a b\0", b"a\\x20b: a name has only bytes 21 to 7e, no blank (rule 15)\n"),
        ):
            ran = started(yard, names)
            count(ran == (b"", 0, said), f"the program, {title}", str(ran)[:300])
            count(state(yard.path) == before, f"the program, {title}: the folder is as it was")
        for word in ("0", "7", "", "2x", "\x32\x32"):
            ran = started(yard, b"a\0", word)
            count(ran == (b"", 0, b"no such edition: there are 1 to 6\n") and state(yard.path) == before, f"the program, edition {word!r}", str(ran))
        put(yard.path, b"taken", b"another's")
        before = state(yard.path)
        ran = started(yard, b"a\0", "2", "taken")
        count(ran[:2] == (b"", 0) and ran[2].startswith(b"the new list cannot be made: "), "the program, the new name is taken", str(ran))
        count(state(yard.path) == before, "the program, the new name is taken: the folder is as it was")
        ran = started(yard, b"a\0", "2", "x" * 65)
        count(ran[:2] == (b"", 0) and ran[2] and state(yard.path) == before, "the program, a new name that is too long", str(ran))
        ran = run(["sh", "-c", '"$@" <&-', "sh", *program], cwd=yard.path)
        count(ran[:2] == (b"", 0) and b"cannot be read" in ran[2] and state(yard.path) == before, "the program, standard input is closed", str(ran))
        ran = started(yard, b"")
        made("the program, no names", 2, {}, ran, yard.path, before)


def of_two_at_once():
    files = some_files(120, 64, (0, 5, 3000))
    lists = [list_of(edition, files) for edition in EDITIONS]
    for turn in range(6):
        with folder(files, OLD) as yard:
            before = state(yard.path)
            runs = [
                subprocess.Popen([lister, yard.path, str(edition)], stdin=subprocess.DEVNULL, stdout=subprocess.PIPE, stderr=subprocess.PIPE)
                for edition in EDITIONS
            ]
            seen = [each.communicate(timeout=120) + (each.returncode,) for each in runs]
            count(all(one == (line_of(edition, files), b"", 0) for edition, one in zip(EDITIONS, seen)), f"six at once, {turn}", str(seen)[:300])
            after = state(yard.path)
            count(after.pop(LIST) in lists, f"six at once, {turn}: one whole list")
            count(after == {name: what for name, what in before.items() if name != LIST}, f"six at once, {turn}: nothing left", str(sorted(after))[:300])


def of_unheard():
    files = some_files(3)
    with folder(files) as yard:
        list_path = Path(os.fsdecode(yard.path), "yard.man")
        for kind, (out, status, said) in run_unheard([lister, yard.path]):
            if kind == "closed":
                count((out, status) == (b"", 3) and said and not list_path.exists(), f"standard output is {kind}", str((out, status, said)))
                continue
            told = (out, status) == (b"", 2) and b"yard.man is made" in said
            count(told and list_path.read_bytes() == list_of(2, files), f"standard output is {kind}", str((out, status, said)))
            list_path.unlink()
            count(state(yard.path) == files | {}, f"standard output is {kind}: nothing left")
        for words in (["--help"], ["--version"]):
            for kind, (out, status, said) in run_unheard([lister, *words]):
                count(status == 3 and said, f"{words}, standard output is {kind}", str((out, status, said)))


def of_permissions():
    words = unprivileged()
    if words is None:
        print("not run: what may not be read or written, as root may do all and cannot be kept from it here")
        return
    with folder({b"a": b"1", b"shut": b"2", b"z": b"3"}, OLD) as yard:
        before = state(yard.path)
        os.chmod(os.path.join(yard.path, b"shut"), 0)
        ran = run([*words, lister, yard.path])
        os.chmod(os.path.join(yard.path, b"shut"), 0o644)
        refused("a file without permission", 1, ran, yard.path, before, b"shut: no permission")
        for mode, told in ((0o555, b"cannot be made: "), (0o311, b"cannot be read"), (0o644, b"cannot be entered")):
            os.chmod(yard.path, mode)
            ran = run([*words, lister, yard.path], cwd="/")
            os.chmod(yard.path, 0o755)
            out, status, said = ran
            count((out, status) == (b"", 3) and told in said, f"a folder with mode {mode:o}", str(ran))
            count(state(yard.path) == before, f"a folder with mode {mode:o}: it is as it was")


def of_a_full_disk():
    """A file may have 64 bytes: the list finds no room."""

    def few():
        signal.signal(signal.SIGXFSZ, signal.SIG_IGN)
        resource.setrlimit(resource.RLIMIT_FSIZE, (64, 64))

    with folder({b"a": b"1", b"b": b"2"}, OLD) as yard:
        refused("no room for the list", 3, run([lister, yard.path], preexec_fn=few), yard.path, state(yard.path), b"cannot be written: ")


def running_in(path):
    """The processes whose folder it is."""
    found = []
    for name in os.listdir("/proc"):
        try:
            if name.isdigit() and os.readlink(f"/proc/{name}/cwd") == os.fsdecode(os.path.realpath(path)):
                found.append(int(name))
        except OSError:
            pass
    return found


def of_signals():
    """Ended while it reads a file that would take long: the old list stays, and nothing goes on."""
    for name in ("TERM", "INT", "HUP", "KILL"):
        number = getattr(signal, "SIG" + name)
        with folder({b"a": b"1"}, OLD) as yard:
            with open(os.path.join(yard.path, b"long"), "wb") as file:
                file.truncate(2**38)
            script = subprocess.Popen([lister, yard.path], stdin=subprocess.DEVNULL, stdout=subprocess.PIPE, stderr=subprocess.PIPE, cwd="/")
            for _ in range(100):
                if running_in(yard.path):
                    break
                time.sleep(0.1)
            count(running_in(yard.path), f"{name}: the program reads")
            time.sleep(0.2)
            script.send_signal(number)
            out, said = script.communicate(timeout=60)
            for _ in range(50):
                if not running_in(yard.path):
                    break
                time.sleep(0.1)
            count(script.returncode == -number and out == b"", f"{name}: the script dies of it", str((script.returncode, out, said)))
            count(not running_in(yard.path), f"{name}: the program is gone")
            for process in running_in(yard.path):
                os.kill(process, signal.SIGKILL)
            left = sorted(os.listdir(yard.path))
            count(left == [b"a", b"long", LIST], f"{name}: nothing is left", str(left))
            count(Path(os.fsdecode(yard.path), "yard.man").read_bytes() == OLD, f"{name}: the old list stays")


def of_programs_that_fail():
    """The script over programs that break off, as it finds them where it is installed: what they made is removed."""
    files = {b"a": b"1"}
    line = b"yard.man: 57 bytes, 1 listed, SHA-256"
    make = "printf half > \"$2\"\n"
    for title, does, status, out, told in (
        ("it is killed", make + "kill -s KILL $$", 3, b"", b"ended with status 137"),
        ("it says nothing", make, 3, b"", b"before it said"),
        ("it says only why", make + "echo 'the new list cannot be written: why' >&2", 3, b"", b"cannot be written: why"),
        ("it names a file", make + "echo 'a: not there' >&2", 1, b"", b"a: not there"),
        ("it is killed after its line", make + f"echo '{line.decode()}'\nkill -s KILL $$", 3, b"", b"ended with status 137"),
        ("it says that it is done", f"echo '{line.decode()}'", 0, line + b"\n", b""),
        ("it hands names on", "while IFS= read -r line; do echo \"$line:\" >&2; done; exit 9", 3, b"", b"ended with status 9"),
    ):
        with tempfile.TemporaryDirectory() as prefix, folder(files, OLD) as yard:
            installed = installed_with(prefix, does)
            before = state(yard.path)
            ran = run([installed, yard.path])
            count(ran[:2] == (out, status) and told in ran[2], f"{title}: status {status}", str(ran))
            count(state(yard.path) == before, f"{title}: the folder is as it was", str(state(yard.path)))
    with tempfile.TemporaryDirectory() as prefix, folder(files, OLD) as yard:
        installed = installed_with(prefix, make + "while :; do :; done")
        script = subprocess.Popen([installed, yard.path], stdin=subprocess.DEVNULL, stdout=subprocess.PIPE, stderr=subprocess.PIPE, cwd="/")
        for _ in range(100):
            if len(os.listdir(yard.path)) == 3:
                break
            time.sleep(0.1)
        count(len(os.listdir(yard.path)) == 3, "ended while it writes: it writes")
        script.send_signal(signal.SIGTERM)
        script.communicate(timeout=60)
        count(script.returncode == -signal.SIGTERM, "ended while it writes: the script dies", str(script.returncode))
        count(state(yard.path) == {**files, LIST: OLD}, "ended while it writes: the folder is as it was", str(state(yard.path)))
        count(not running_in(yard.path), "ended while it writes: the program is gone")


def installed_with(prefix, does):
    """The command as it is installed, with a program that does this in a shell."""
    for name, content in (
        ("bin/yardlist", Path(lister).read_text()),
        ("share/dwombarine/common.sh", (root / "bin/common.sh").read_text()),
        ("libexec/dwombarine/yardlist", "#!/bin/sh\n" + does + "\n"),
    ):
        path = Path(prefix, name)
        path.parent.mkdir(parents=True, exist_ok=True)
        path.write_text(content)
        path.chmod(0o755)
    return str(Path(prefix, "bin/yardlist"))


def of_a_hostile_yard():
    tools = ("find", "sh", "readlink", "setsid", "setpriv", "env", "mktemp", "mkfifo", "rm", "rt", "uname", "dirname", "touch", "kill", "command")
    with tempfile.TemporaryDirectory() as outside:
        mark = os.path.join(outside, "mark")
        files = {tool.encode(): f"#!/bin/sh\ntouch '{mark}'\n".encode() for tool in tools}
        with folder(files) as yard:
            for name in files:
                os.chmod(os.path.join(yard.path, name), 0o755)
            for place in (".", "", "./", ".:" + os.environ["PATH"], ":" + os.environ["PATH"]):
                before = state(yard.path)
                env = {**os.environ, "PATH": place, "LD_LIBRARY_PATH": ".", "RATTLE_HOME": str(kit())}
                ran = run(["/bin/sh", lister], cwd=yard.path, env=env)
                made(f"a hostile yard, PATH={place[:3]}", 2, files, ran, yard.path, before)
            count(not os.path.exists(mark), "nothing of a hostile yard is run")


def kit():
    found = run([str(root / "tests/kit/tools")])[0].decode().strip()
    return Path(found).parent


def first():
    """The program may have to be built, which takes its time."""
    with folder({}) as yard:
        ran = run([lister, yard.path], timeout=3600)
        count(ran[:2] == (line_of(2, {}), 0), "a first list", str(ran))
        return ran[1] == 0


print(f"seed {seed} (SEED={seed} repeats this run)")
assert sorted(ALLOWED) == list(range(0x21, 0x7F)) and set(TITLES) == set(EDITIONS)
if first():
    of_folders()
    of_names_and_sizes()
    of_words()
    of_refusals()
    of_what_is_there()
    of_the_program()
    of_two_at_once()
    of_unheard()
    of_permissions()
    of_a_full_disk()
    of_signals()
    of_programs_that_fail()
    of_a_hostile_yard()
finish()
