"""SPEC's rules of what is sound, of records, lists and trees, written plainly. Both models of the calls use them, and those of hashing in
tests/driver/sha2.py, which they find here too."""
import struct

from sha2 import BAY, EDITIONS, LONGEST, as_bytes, bay_words, blocks, by_hashlib, leftmost, padding  # noqa: F401

MAP_LIMIT, CHUNK = 1_048_576, 1024  # "Chunk tree"
HEADER = 4  # "The table of bays": words
LEAST_DIGEST = 28


class Wrong(Exception):
    """The rules written here disagree with themselves or with hashlib: the test is at fault, not what it tests."""


def digest_at_once(number, message, closing, bits):
    edition = EDITIONS[number]
    chain = blocks(edition.width, edition.start, message + padding(edition.width, len(message), closing, bits))
    found = leftmost(edition, chain)
    if bits == 0 and found != by_hashlib(number, message):
        raise Wrong(f"edition {number} of {len(message)} bytes is not hashlib's: {message.hex()}")
    return found


def bad_closing(closing, bits):
    """Number 8: more than 7 closing bits, or a set bit below them."""
    return bits > 7 or closing & 0xFF >> bits != 0


# ---- bays and records


def bay_faults(words):
    """The rules of a sound bay that these 26 words break."""
    if not any(words):
        return ()
    number, count, chain, tail = words[0], words[1], words[2:10], words[10:]
    if number == 0:
        return ("all zeros when empty",)
    if number not in EDITIONS:
        return ("edition",)
    edition = EDITIONS[number]
    faults = []
    if count > LONGEST:
        faults.append("count")
    if any(word > edition.width.mask for word in chain):
        faults.append("chaining words below 2^w")
    if any(struct.pack(">16Q", *tail)[count % edition.block :]):
        faults.append("zeros after the tail")
    if count < edition.block and tuple(chain) != edition.start:
        faults.append("starting words")
    return tuple(faults)


RECORD_HEAD = ">HHHHQHHI"
LEAST_RECORD = 56


def record(number, count, chain, tail):
    width = EDITIONS[number].width
    at_tail = 24 + width.bits
    return struct.pack(RECORD_HEAD, number, 8, 24, at_tail, count, len(tail), at_tail + len(tail), 0) + as_bytes(width, chain) + tail


def record_faults(data):
    """The rules of a record that these bytes break. Chaining words cannot be too large: they have w bits each."""
    if len(data) < 24:
        return ("length",)
    number, words, at_words, at_tail, count, tail, whole, zero = struct.unpack(RECORD_HEAD, data[:24])
    if number not in EDITIONS:
        return ("edition",)
    edition = EDITIONS[number]
    true_tail, true_at_tail = count % edition.block, 24 + edition.width.bits
    rules = {
        "word count": words == 8,
        "offset of words": at_words == 24,
        "offset of tail": at_tail == true_at_tail,
        "bytes taken": count <= LONGEST,
        "tail length": tail == true_tail,
        "record length": whole == true_at_tail + true_tail,
        "zero": zero == 0,
        "length": len(data) == true_at_tail + true_tail,
        "starting words": count >= edition.block or data[24:true_at_tail] == as_bytes(edition.width, edition.start),
    }
    return tuple(name for name, kept in rules.items() if not kept)


def read_record(data):
    """Edition, bytes taken, chaining words and tail of what is a record."""
    number, _, _, at_tail, count, _, _, _ = struct.unpack(RECORD_HEAD, data[:24])
    size = EDITIONS[number].width.bits // 8
    chain = tuple(int.from_bytes(data[at : at + size], "big") for at in range(24, at_tail, size))
    return number, count, chain, data[at_tail:]


# ---- lists and trees


def list_of(number, entries):
    """The list of these pairs of a name and a digest, in this order."""
    names = 16 + len(entries) * (8 + EDITIONS[number].digest)
    rows, place = [], names
    for name, digest in entries:
        rows.append(struct.pack(">II", place, len(name)) + digest)
        place += len(name)
    head = struct.pack(">HHIII", number, len(entries), 16, names, place)
    return head + b"".join(rows) + b"".join(name for name, _ in entries)


def read_list(data):
    """Where the digest of each name lies, and the digests' size, or None if this is not a digest list."""
    if len(data) < 16:
        return None
    number, count, at_entries, at_names, whole = struct.unpack(">HHIII", data[:16])
    if number not in EDITIONS or count > 256 or at_entries != 16 or whole != len(data):
        return None
    size = EDITIONS[number].digest
    if at_names != 16 + count * (8 + size) or at_names > whole:
        return None
    places, last, next_name = {}, b"", at_names
    for at in range(16, at_names, 8 + size):
        place, length = struct.unpack(">II", data[at : at + 8])
        name = data[place : place + length]
        if place != next_name or not 1 <= length <= 64 or len(name) != length:
            return None
        if any(not 0x21 <= byte <= 0x7E for byte in name) or name <= last:
            return None
        places[name] = at + 8
        last, next_name = name, place + length
    return (places, size) if next_name == whole else None


def tree(data):
    """The root. FIPS 180-4 decides the hashing, so that hashlib's will do; `digest_at_once` is held to it elsewhere."""
    if not data:
        return by_hashlib(2, b"")
    level = [by_hashlib(2, b"\0" + data[at : at + CHUNK]) for at in range(0, len(data), CHUNK)]
    while len(level) > 1:
        pairs = [by_hashlib(2, b"\1" + left + right) for left, right in zip(level[::2], level[1::2])]
        level = pairs + level[2 * len(pairs) :]  # a lone last node goes up as it is
    return level[0]
