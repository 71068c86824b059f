"""SPEC's digest list and what the program writes, once more in Python: nothing here is taken from the code that is tested."""
import hashlib
import struct

# edition: hashlib's name, digest bytes
EDITIONS = {
    1: ("sha224", 28),
    2: ("sha256", 32),
    3: ("sha384", 48),
    4: ("sha512", 64),
    5: ("sha512_224", 28),
    6: ("sha512_256", 32),
}
LONGEST_LIST = 34_832
ALLOWED = bytes(range(0x21, 0x7F))


def digest(edition, data):
    return hashlib.new(EDITIONS[edition][0], data).digest()


def write(edition, entries):
    """The list of pairs of a name and a digest, in this order; a list also of names that no list may have, for the tests."""
    names_at = 16 + len(entries) * (8 + EDITIONS[edition][1])
    rows, place = b"", names_at
    for name, value in entries:
        rows += struct.pack(">II", place, len(name)) + value
        place += len(name)
    return struct.pack(">HHIII", edition, len(entries), 16, names_at, place) + rows + b"".join(name for name, _ in entries)


def list_of(edition, files):
    """The list of files, which are a dict from name to content."""
    return write(edition, [(name, digest(edition, files[name])) for name in sorted(files)])


def read(data):
    """The edition and the pairs of a list, or None where a rule of "Digest list" is broken."""
    if len(data) < 16:
        return None
    edition, n, entries_at, names_at, whole = struct.unpack(">HHIII", data[:16])
    if edition not in EDITIONS or n > 256:
        return None
    size = EDITIONS[edition][1]
    if entries_at != 16 or names_at != 16 + n * (8 + size) or names_at > len(data) or whole != len(data):
        return None
    entries, place, last = [], names_at, b""
    for at in range(16, names_at, 8 + size):
        offset, length = struct.unpack(">II", data[at : at + 8])
        if offset != place or not 1 <= length <= 64 or place + length > len(data):
            return None
        name = data[place : place + length]
        if not all(byte in ALLOWED for byte in name) or not last < name:
            return None
        entries.append((name, data[at + 8 : at + 8 + size]))
        place, last = place + length, name
    return (edition, entries) if place == len(data) else None


def report(data, reads):
    """The program's output and exit status. `data` is what yard.man holds, or None where it cannot be read; `reads` has the content of each
    name that can be opened and read to its end."""
    found = read(data) if data is not None and len(data) <= LONGEST_LIST else None
    if found is None:
        return b"NOT A LIST\n", 2
    edition, entries = found
    lines, counts = [], {b"OK": 0, b"BAD": 0, b"MISSING": 0}
    for name, value in entries:
        state = b"MISSING" if name not in reads else b"OK" if digest(edition, reads[name]) == value else b"BAD"
        counts[state] += 1
        lines.append(state + b" " + name + b"\n")
    last = b"%d listed, %d ok, %d bad, %d missing\n" % (len(entries), *counts.values())
    return b"".join(lines) + last, 0 if counts[b"OK"] == len(entries) else 1
