"""The two calls that write a digest list, by SPEC, "Writing a list", over the writer and the judge of lists in tests/driver/lists.py: what a
call answers, and the buffer as it is left. A put here reads the front of the buffer, sorts the pairs with the new one among them and writes
the list again."""
from lists import SIZES, allowed, read, write

HEADER, HEAD, MOST = 16, 8, 256  # bytes of a list's header, of an entry before its digest; entries
ORDER = (12, 15, 14, 16, 17, 9)  # the refusals of put


def started(edition, buffer):
    """Start: 5, 9, the first that applies, and the buffer as it is left."""
    if edition not in SIZES:
        return 5, buffer
    if len(buffer) < HEADER:
        return 9, buffer
    return 0, write(edition, []) + buffer[HEADER:]


def front(buffer):
    """The edition and the pairs of the list at the buffer's front, as long as its own length field says; None where there is none."""
    if len(buffer) < HEADER:
        return None
    edition, whole = int.from_bytes(buffer[:2], "big"), int.from_bytes(buffer[12:16], "big")
    if not HEADER <= whole <= len(buffer):
        return None
    entries = read(buffer[:whole])
    return None if entries is None else (edition, entries)


def put(buffer, name, digest):
    """Put: 12, 15, 14, 16, 17, 9, the first that applies, and the buffer as it is left. A number is for so many zeros, past FAR."""
    found = front(buffer)
    if found is None:
        return 12, buffer
    edition, entries = found
    if isinstance(name, int) or not allowed(name):
        return 15, buffer
    if isinstance(digest, int) or len(digest) != SIZES[edition]:
        return 14, buffer
    if name in dict(entries):
        return 16, buffer
    if len(entries) >= MOST:
        return 17, buffer
    data = write(edition, sorted([*entries, (name, digest)]))
    if len(data) > len(buffer):
        return 9, buffer
    return 0, data + buffer[len(data) :]
