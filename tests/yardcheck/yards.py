"""Yards, each checked by the program and compared with what SPEC says of it: every byte of standard output and the exit status. What
each name opens is known from how the yard was made, so nothing is read back to know what to expect.

Not tried: a file of over 2^40 bytes, which would have to be read to its end (a sparse one too: hours); a fifo, which may wait for ever.
"""
import os
import resource
import shutil
import stat
import tempfile
from pathlib import Path

from rules import ALLOWED, EDITIONS, LONGEST_LIST, digest, list_of, read, report, write
from habits import of_habits
from yard import PLAIN, changed, full_names, longer, rng, seed, shorter, some_files, spoilt
from yard import command, compare, count, finish, put, root, run, run_unheard, unprivileged, yard


def of_every_edition():
    for edition in EDITIONS:
        for n in (0, 1, 3, 256):
            files = some_files(n, rng.choice((6, 64)))
            yard(f"edition {edition}, {n} files", list_of(edition, files), files)
            reads = {name: content for name, content in files.items() if rng.random() < 0.8}
            reads = {name: content if rng.random() < 0.7 else spoilt(content) for name, content in reads.items()}
            yard(f"edition {edition}, {n} files, some bad, some missing", list_of(edition, files), reads)
    files = some_files(5)
    for edition, other in ((1, 5), (5, 1), (2, 6), (6, 2)):
        data = list_of(edition, files)
        yard(f"digests of edition {edition} in a list of edition {other}", data[:1] + bytes([other]) + data[2:], files)


def of_the_paper():
    files = {b"fleet.cfg": b"carriers 4\n", b"offsets.cfg": b"12 -7\n", b"yard.map": rng.randbytes(3000)}
    reads = {b"fleet.cfg": b"carriers 4\n", b"offsets.cfg": b"12 -8\n"}
    data = list_of(2, files)
    sample = b"OK fleet.cfg\nBAD offsets.cfg\nMISSING yard.map\n3 listed, 1 ok, 1 bad, 1 missing\n"
    assert report(data, reads) == (sample, 1)
    yard("SPEC's sample", data, reads)


def of_every_size():
    """Sizes around blocks, around the piece of 4,096 bytes and of some MB, in each edition."""
    sizes = [0, 1, 55, 56, 63, 64, 65, 111, 112, 119, 120, 127, 128, 129, 4095, 4096, 4097, 8191, 8192, 8193, 12288, 100_000]
    for edition in EDITIONS:
        files = {b"%d" % size: rng.randbytes(size) for size in sizes + [3_000_017 + edition]}
        data = list_of(edition, files)
        yard(f"edition {edition}, files of many sizes", data, files)
        yard(f"edition {edition}, each one byte longer", data, {name: longer(content) for name, content in files.items()})
        yard(f"edition {edition}, each one byte shorter", data, {name: shorter(content) for name, content in files.items() if content})
        for place in ("first", "last", "some"):
            at = {"first": lambda n: 0, "last": lambda n: n - 1, "some": rng.randrange}[place]
            reads = {name: changed(content, at(len(content))) for name, content in files.items() if content}
            yard(f"edition {edition}, the {place} byte of each changed", data, reads)
    for pieces in (4096, 8192, 65536):
        files = {b"a": rng.randbytes(pieces), b"b": rng.randbytes(2 * pieces)}
        data = list_of(2, files)
        yard(f"a piece of {pieces} bytes lost", data, {b"a": b"", b"b": files[b"b"][pieces:]})
        yard(f"two pieces of {pieces} bytes swapped", data, {b"a": files[b"a"], b"b": files[b"b"][pieces:] + files[b"b"][:pieces]})


def of_names():
    # the bytes 2e and 2f by themselves are folders
    listed = {bytes([byte]): rng.randbytes(3) for byte in ALLOWED}
    yard("names of every one byte", list_of(2, listed), {name: content for name, content in listed.items() if name not in (b".", b"/")})
    files = {PLAIN[:64]: b"first 64", PLAIN[-64:]: b"last 64", PLAIN[::-1][:64]: b"backwards"}
    yard("names of all bytes", list_of(2, files), files)
    for edition in (2, 4):
        files = {name: rng.randbytes(9) for name in full_names(256)}
        yard(f"edition {edition}, 256 names of 64 bytes", list_of(edition, files), files)
    odd = r"""- -- --help -n -e * ? [a-z] {a,b} $HOME $(id) `id` ${IFS} ; & | < > # ~ ! ' " \ \n \0 %s %n %d%% @ ^ a,b a=b =x ...
        OK BAD MISSING NOT listed, yard.man~ yard.mans Yard.man .yard.man""".split()
    files = {name.encode(): rng.randbytes(5) for name in odd}
    data = list_of(2, files)
    yard("names that a shell or a format could take for something else", data, files)
    yard("the same, all bad", data, {name: content + b"!" for name, content in files.items()})
    yard("the same, all missing", data, {})
    files = {b"a" * n: rng.randbytes(n) for n in range(1, 65)}
    yard("each name the beginning of the next", list_of(6, files), files)


def of_paths():
    def folders(path):
        os.makedirs(os.path.join(path, b"sub/deep/er"))

    paths = (b"sub/file", b"sub/deep/er/file", b"sub//deep/file", b"./here", b"sub/../there", b"../outside")
    files = {path: rng.randbytes(6) for path in paths}
    yard("names with a slash are paths", list_of(2, files), files, folders)
    yard("the same, all bad", list_of(2, files), {name: b"x" + content for name, content in files.items()}, folders)
    listed = {name: b"" for name in (b".", b"..", b"/", b"sub", b"sub/", b"sub/.", b"file/", b"file/x", b"./sub/none", b"none/file")}
    yard("folders, and paths through what is no folder", list_of(2, {**listed, b"file": b"7"}), {b"file": b"7"}, folders)
    files = some_files(3, 6)
    for folder in (b"a yard", b"yard\xc3\xa9", b"$HOME", b"*", b"'", b'"', b"a\\b", b";", b"..yard", b"line\nbreak", b"\xff", b"y" * 200):
        yard(f"a yard in a folder named {folder[:20]}", list_of(2, files), files, folder=folder)
        yard(f"a yard in a folder named {folder[:20]}, by its name", list_of(2, files), files, folder=folder, given=folder)
    for given in (b"./yard", b"yard/", b"./yard/../yard"):
        yard(f"a yard given as {given}", list_of(2, files), files, given=given)
    yard("a yard in -, by its name", list_of(2, files), files, folder=b"-", given=b"-")
    for folder in (b"-x", b"--", b"-q"):
        yard(f"a yard in {folder}, by a path", list_of(2, files), files, folder=folder, given=b"./" + folder)
    data = list_of(2, {**files, b"yard.man": b"?"})
    yard("yard.man lists itself", data, {**files, b"yard.man": data})


def of_other_things():
    """What is no file, and links."""

    def make(path):
        os.mkdir(os.path.join(path, b"folder"))
        os.mknod(os.path.join(path, b"socket"), stat.S_IFSOCK | 0o666)
        for name, target in links.items():
            os.symlink(target, os.path.join(path, name))
        os.link(os.path.join(path, b"loop1"), os.path.join(path, b"loop3"), follow_symlinks=False)

    links = {
        b"good": b"file",
        b"good2": b"good",
        b"bad": b"other",
        b"dangling": b"nothing",
        b"loop1": b"loop2",
        b"loop2": b"loop1",
        b"itself": b"itself",
        b"tofolder": b"folder",
        b"mem": b"/proc/self/mem",
        b"null": b"/dev/null",
    }
    listed = {name: b"content" for name in [*links, b"file", b"other", b"folder", b"socket", b"loop3", b"none"]}
    listed[b"null"] = b""
    reads = {b"file": b"content", b"good": b"content", b"good2": b"content", b"other": b"changed", b"bad": b"changed", b"null": b""}
    for edition in EDITIONS:
        yard(f"edition {edition}, links, folders, a socket", list_of(edition, listed), reads, make)
    # the digest of what was read before the error, or of nothing, is not the digest of the file
    yard("an error at the first byte is not an empty file", list_of(2, {b"mem": b"", b"folder": b""}), {}, make)

    # files that say they are empty, and that are read in short pieces
    for target in ("/proc/version", "/proc/kallsyms"):
        try:
            contents = [Path(target).read_bytes() for _ in range(2)]
        except OSError:
            contents = []
        if len(contents) < 2 or contents[0] != contents[1]:
            print(f"not run: a link to {target}, which cannot be read here, or changes")
            continue
        files = {b"link": contents[0]}
        yard(f"a link to {target}", list_of(2, files), files, lambda path: os.symlink(target, os.path.join(path, b"link")))

    files = some_files(256, 8)
    few = lambda: resource.setrlimit(resource.RLIMIT_NOFILE, (40, 40))
    yard("256 files where 40 may be open at once", list_of(2, files), files, preexec_fn=few)


def of_lists_that_are_no_files():
    def named(make):
        return lambda path: make(os.path.join(path, b"yard.man"))

    files = some_files(2)
    data = list_of(2, files)
    yard("no yard.man", None, files)
    yard("yard.man is a folder", None, files, named(os.mkdir))
    yard("yard.man is a socket", None, files, named(lambda path: os.mknod(path, stat.S_IFSOCK | 0o666)))
    for target in (b"nothing", b"yard.man", b"/proc/self/mem", b".", b"/dev/null"):
        yard(f"yard.man is a link to {target}", None, files, named(lambda path: os.symlink(target, path)))
    yard("yard.man is a link to a list", data, {**files, b"list": data}, named(lambda path: os.symlink(b"list", path)))
    yard("a list by another name", None, {**files, b"Yard.man": data, b"yard.man.new": data})


def without_permission():
    words = unprivileged()
    if words is None:
        print("not run: yards with files that may not be read, as root reads them all and cannot be kept from it here")
        return

    def make(path):
        for name in (b"shut", b"sub/file"):
            put(path, name, b"content")
        os.chmod(os.path.join(path, b"shut"), 0)
        os.chmod(os.path.join(path, b"sub"), 0)

    def shut_list(path):
        put(path, b"yard.man", data)
        os.chmod(os.path.join(path, b"yard.man"), 0)

    listed = {b"a": b"content", b"shut": b"content", b"sub/file": b"content", b"z": b"content"}
    data = list_of(2, listed)
    yard("a file and a folder without permission", data, {b"a": b"content", b"z": b"content"}, make, words=words)
    yard("yard.man without permission", None, {b"a": b"content"}, shut_list, words=words)


def of_list_lengths():
    names = full_names(256)
    for edition in EDITIONS:
        files = {name: rng.randbytes(3) for name in names}
        data = list_of(edition, files)
        assert len(data) <= LONGEST_LIST and (len(data) == LONGEST_LIST) == (edition == 4)
        yard(f"edition {edition}, a list of {len(data)} bytes", data, files)
        for more in (b"\0", b"a", b"~", bytes(100)):
            yard(f"edition {edition}, a list of {len(data)} bytes and {len(more)} behind it", data + more, {})
            # told in the header, it is still no name
            told = data[:12] + (len(data) + len(more)).to_bytes(4, "big") + data[16:]
            yard(f"edition {edition}, the same, counted in the header", told + more, {})
        yard(f"edition {edition}, a list of {len(data)} bytes without its last", data[:-1], {})
        yard(f"edition {edition}, a list of {len(data)} bytes, the last one wrong", data[:-1] + b"\x7f", {})
    for length in (0, 1, 2, 15, 16, 17, LONGEST_LIST - 1, LONGEST_LIST, LONGEST_LIST + 1, 40_000, 65_536, 1_000_000):
        yard(f"{length} bytes of zeros", bytes(length), {})
        yard(f"{length} random bytes", rng.randbytes(length), {})
    empty = list_of(2, {})
    yard("the empty list of edition 2", empty, {})
    yard("the empty list and a byte", empty + b"\0", {})
    yard("the empty list and zeros up to the longest length", empty + bytes(LONGEST_LIST - 16), {})
    yard("the empty list and 1 MB of zeros", empty + bytes(1_000_000), {})
    yard("the empty list cut short", empty[:-1], {})
    # lists that end with a piece of 4,096 bytes, or a byte beside that
    for length in (4095, 4096, 4097, 8191, 8192, 8193):
        n = length // 100
        spare = length - 16 - n * 40
        sizes = [spare // n + (i < spare % n) for i in range(n)]
        files = {(b"%02d" % i + b"x" * 64)[:size]: rng.randbytes(7) for i, size in enumerate(sizes)}
        data = list_of(2, files)
        assert len(data) == length
        yard(f"a list of {length} bytes", data, files)


def of_broken_rules():
    """One rule of "Digest list" at a time; all files are there and as listed, so that the list alone decides."""
    names = [b"bay.cfg", b"fleet.cfg", b"x"]
    files = {name: rng.randbytes(10) for name in names}
    good = list_of(2, files)
    yard("the list that is broken below", good, files)

    def field(title, at, size, value):
        data = good[:at] + (value % (1 << 8 * size)).to_bytes(size, "big") + good[at + size :]
        assert read(data) is None
        yard(f"{title} {value}", data, files)

    names_at = 16 + 3 * 40
    for value in (0, 7, 8, 255, 256, 258, 512, 65535):
        field("edition", 0, 2, value)
    for value in (0, 1, 2, 4, 256, 257, 259, 65535):
        field("entry count", 2, 2, value)
    for value in (0, 15, 17, 56, 272, 2**31 + 16, 2**32 - 1):
        field("offset of entries", 4, 4, value)
    for value in (0, 16, names_at - 1, names_at + 1, len(good), 2**16 + names_at, 2**31 + names_at, 2**32 - 1):
        field("offset of names", 8, 4, value)
    for value in (0, 16, len(good) - 1, len(good) + 1, 2**16 + len(good), 2**31 + len(good), 2**32 - 1):
        field("whole length", 12, 4, value)
    for entry, place in enumerate((names_at, names_at + 7, names_at + 16)):
        at = 16 + entry * 40
        for value in (0, place - 1, place + 1, place - names_at, 2**16 + place, 2**31 + place, 2**32 - 1):
            field(f"name offset of entry {entry}", at, 4, value)
        length = len(names[entry])
        for value in (0, length - 1, length + 1, 64, 65, 256 + length, 2**31 + length, 2**32 - place, 2**32 - 1):
            field(f"name length of entry {entry}", at + 4, 4, value)
    for length in range(16, len(good), 9):
        yard(f"cut to {length} bytes", good[:length], files)
    for more in (b"\0", b"x", b"y", bytes(40)):
        yard(f"with {more} behind it", good + more, files)


def of_forbidden_names():
    def listed(title, *names, edition=2):
        """A list that is well-formed but for its names. The files that can be there are there."""
        data = write(edition, [(name, digest(edition, name)) for name in names])
        assert read(data) is None
        yard(title, data, {name: name for name in names if name and b"\0" not in name})

    for byte in (0x00, 0x01, 0x09, 0x0A, 0x1F, 0x20, 0x7F, 0x80, 0xA0, 0xFF):
        one = bytes([byte])
        for name in (one, one + b"a", b"a" + one, b"a" + one + b"a"):
            listed(f"a name {name}", name)
    listed("a forbidden byte in the last of three names", b"a", b"b", b"c d")
    listed("a name of 65 bytes", b"n" * 65)
    listed("a second name of 65 bytes", b"a", b"n" * 65)
    listed("a name of no bytes", b"")
    listed("a name of no bytes and another", b"", b"a")
    listed("names out of order", b"b", b"a")
    listed("the last two of three out of order", b"a", b"c", b"b")
    listed("a name before the one it begins with", b"ab", b"a")
    listed("a capital after a small letter", b"a", b"B")
    listed("10 before 9 by number", b"9", b"10")
    listed("a name twice", b"a", b"a")
    listed("a name twice, another between", b"a", b"b", b"a")
    for edition in EDITIONS:
        listed(f"edition {edition}, 257 names", *[b"%03d" % i for i in range(257)], edition=edition)
        listed(f"edition {edition}, 256 names, two of them swapped", *[b"%03d" % (i ^ (i > 253)) for i in range(256)], edition=edition)
    # the names lie as they should, and the entries show them in another order, or one name to both
    a, b = digest(2, b"a"), digest(2, b"b")
    swapped = bytearray(write(2, [(b"a", a), (b"b", b)]))
    swapped[19], swapped[59] = swapped[59], swapped[19]
    yard("entries that name each other's names", bytes(swapped), {b"a": b"a", b"b": b"b"})
    swapped[59] = swapped[19]
    yard("entries with one name", bytes(swapped), {b"a": b"a", b"b": b"b"})


def of_every_byte():
    """Every byte of small lists changed in turn. Most changes break the list; in a digest they make BAD, in a name often MISSING."""
    for edition, names in ((2, (b"ab", b"b.x")), (5, (b"k",)), (3, (b"fleet.cfg",))):
        files = {name: rng.randbytes(20) for name in names}
        data = list_of(edition, files)
        for at in range(len(data)):
            yard(f"edition {edition}, byte {at} of the list changed", changed(data, at), files)


def of_any_kind():
    for turn in range(60):
        edition = rng.choice(list(EDITIONS))
        files = some_files(rng.randrange(20), 64, (0, 1, 64, 100, 4096, 5000, 10_000))
        reads = {}
        for name, content in files.items():
            what = rng.random()
            if what < 0.6:
                reads[name] = content
            elif what < 0.8:
                reads[name] = rng.choice([spoilt(content), rng.randbytes(len(content) + 1), content + bytes(64), b"" if content else b"?"])
        data = list_of(edition, files)
        if rng.random() < 0.15:
            data = changed(data, rng.randrange(len(data)))
        unlisted = {name: content for name, content in some_files(3).items() if name not in files}
        yard(f"random yard {turn}, edition {edition}, {len(files)} files", data, {**reads, **unlisted})


def refused(title, ran, told=b""):
    """Status 3, nothing that could be taken for a result, and why on standard error."""
    out, status, said = ran
    count((out, status) == (b"", 3) and said and told in said, title, str(ran))


def of_starts():
    """How the script is started, over a yard where all is OK, so that every other end shows."""
    files = some_files(3, 6)
    data = list_of(2, files)
    fine = report(data, files)
    with tempfile.TemporaryDirectory() as above:
        path = os.path.join(above, "yard")
        for name, content in {b"yard.man": data, **files}.items():
            put(os.fsencode(path), name, content)
        here = {"cwd": path}

        refused("a missing folder", run([*command, "none"], **here), b"none")
        refused("a missing folder, told as it was given", run([*command, r"a\nb\c"], **here), rb"a\nb\c")
        refused("a file in the place of a folder", run([*command, "yard.man"], **here), b"yard.man")
        refused("two folders", run([*command, ".", "."], **here), b"usage")
        refused("an empty name", run([*command, ""], **here), b"empty")
        for kind, ran in run_unheard([*command, path]):
            refused(f"standard output is {kind}", ran)

        for target, link in ((command[0], "link"), ("link", "second"), (os.path.relpath(command[0], os.path.realpath(above)), "relative")):
            os.symlink(target, os.path.join(above, link))
            compare(f"a start through a link, {link}", run([os.path.join(above, link), path]), fine)
            compare(f"a start through a link, {link}, by its name", run(["./" + link, "yard"], cwd=above), fine)
            compare(f"a start through a link, {link}, in the yard", run([os.path.join(above, link)], **here), fine)

        os.mkdir(os.path.join(above, "-t"))
        for place in ("-t", "./-t", os.path.join(above, "-t")):
            compare(f"TMPDIR={place}", run([*command, "yard"], cwd=above, env={**os.environ, "TMPDIR": place}), fine)
        count(not os.listdir(os.path.join(above, "-t")), "TMPDIR is left empty")
        refused("a missing TMPDIR", run([*command, "yard"], cwd=above, env={**os.environ, "TMPDIR": "none"}), b"temporary files")

        kit = os.environ.get("RATTLE_HOME") or Path(shutil.which("rt")).resolve().parents[1]
        without = {**os.environ, "PATH": path_without_rt(above)}
        without.pop("RATTLE_HOME", None)
        compare("the kit by RATTLE_HOME alone", run([*command, path], env={**without, "RATTLE_HOME": str(kit)}), fine)
        refused("neither rt nor RATTLE_HOME", run([*command, path], env=without), b"rt")
        refused("RATTLE_HOME is no kit", run([*command, path], env={**os.environ, "RATTLE_HOME": above}), b"kit")


def path_without_rt(above):
    """The PATH, with links to all else that is there in the place of a folder that has rt."""
    places = []
    for place in os.environ["PATH"].split(os.pathsep):
        if shutil.which("rt", path=place):
            instead = os.path.join(above, f"path{len(places)}")
            os.mkdir(instead)
            for name in os.listdir(place):
                if name != "rt":
                    os.symlink(os.path.join(os.path.abspath(place), name), os.path.join(instead, name))
            place = instead
        places.append(place)
    return os.pathsep.join(places)


def of_the_sample_yard():
    """The project's own sample, which README shows."""
    sample = root / "sample-yard"
    if not sample.is_dir():
        print("not run: there is no sample-yard/")
        return
    reads = {os.fsencode(path.name): path.read_bytes() for path in sample.iterdir() if path.is_file()}
    for cwd, words in ((root, ["sample-yard"]), (root / "tests", ["../sample-yard"]), (sample, [])):
        compare(f"the sample yard, from {cwd.name}", run([*command, *words], cwd=cwd), report(reads[b"yard.man"], reads))


print(f"seed {seed} (SEED={seed} repeats this run)")
with tempfile.TemporaryDirectory() as first:  # this may build the program, which takes its time
    (Path(first) / "yard.man").write_bytes(list_of(2, {}))
    built = compare("a first yard", run([*command, first], timeout=3600), report(list_of(2, {}), {}))
if built:
    of_every_edition()
    of_the_paper()
    of_every_size()
    of_names()
    of_paths()
    of_other_things()
    of_lists_that_are_no_files()
    without_permission()
    of_list_lengths()
    of_broken_rules()
    of_forbidden_names()
    of_every_byte()
    of_any_kind()
    # another command is given a folder and no more
    if not os.environ.get("YARDCHECK"):
        of_the_sample_yard()
        of_starts()
        of_habits()
finish()
