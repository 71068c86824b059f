"""Keyed digests in Python: the words of a keyed hash, when they are sound, and what each call answers, leaves and writes.

Tags that a key leads to are those of Python's hmac. The words, and the tags of words that were made up, which no key may lead to, are
FIPS 198-1's steps over the block rule of tests/driver/sha2.py.
"""
import hmac
import struct

from sha2 import BAY, EDITIONS, HASHLIB, LONGEST, bay_words, blocks, by_hashlib, leftmost, padding

OUTER = 8  # words
WORDS = BAY + OUTER
INNER_PAD, OUTER_PAD = 0x36, 0x5C


def by_hmac(number, key, message):
    return hmac.new(key, message, HASHLIB[number]).digest()


def key_words(number, key):
    """FIPS 198-1, section 4, steps 1 to 4 and 7: the chaining words after K0 with either pad."""
    edition = EDITIONS[number]
    block = (by_hashlib(number, key) if len(key) > edition.block else key).ljust(edition.block, b"\x00")
    return [blocks(edition.width, edition.start, bytes(byte ^ pad for byte in block)) for pad in (INNER_PAD, OUTER_PAD)]


class Keyed:
    """What a keyed hash takes: some first bytes, a whole number of blocks, of which only the chaining words after them are known, and bytes
    behind them. Each moment of it is a count n of these bytes; so what is said of it cannot depend on how they were cut."""

    def __init__(self, number, outer, first, chain, data):
        self.number, self.edition, self.outer = number, EDITIONS[number], tuple(outer)
        self.first, self.data = first, data
        self.chains = [tuple(chain)]  # after each block of the data, so far as they were asked for

    @classmethod
    def begun(cls, number, key, data):
        inner, outer = key_words(number, key)
        return cls(number, outer, EDITIONS[number].block, inner, data)

    def chain(self, n):
        block = self.edition.block
        while len(self.chains) <= n // block:
            at = block * (len(self.chains) - 1)
            self.chains.append(blocks(self.edition.width, self.chains[-1], self.data[at : at + block]))
        return self.chains[n // block]

    def tail(self, n):
        return self.data[n - n % self.edition.block : n]

    def words(self, n):
        return (*bay_words(self.number, self.first + n, self.chain(n), self.tail(n)), *self.outer)

    def tag(self, n):
        """FIPS 198-1, section 4, steps 5, 6, 8 and 9."""
        width = self.edition.width
        inner = leftmost(self.edition, blocks(width, self.chain(n), self.tail(n) + padding(width, self.first + n, 0, 0)))
        last = blocks(width, self.outer, inner + padding(width, self.edition.block + len(inner), 0, 0))
        return leftmost(self.edition, last)


def read(words):
    """What words hold, at the moment that all its bytes are taken; or None. Only a sound keyed hash is what its own fields are written
    as."""
    if len(words) < WORDS or words[0] not in EDITIONS:
        return None
    number, count, chain, outer = words[0], words[1], words[2:10], words[BAY:WORDS]
    edition = EDITIONS[number]
    if not edition.block <= count <= LONGEST or any(word > edition.width.mask for word in (*chain, *outer)):
        return None
    taken = count % edition.block
    held = Keyed(number, outer, count - taken, chain, struct.pack(">16Q", *words[10:BAY])[:taken])
    return held if held.words(taken) == tuple(words[:WORDS]) else None


def size(lent):
    """The count of bytes lent. A number stands for so many zeros, more than can be sent."""
    return lent if isinstance(lent, int) else len(lent)


def refused(number, key, message):
    """What both calls at once ask first: 5, 7, or 0."""
    if number not in EDITIONS:
        return 5
    return 7 if size(key) > LONGEST or EDITIONS[number].block + size(message) > LONGEST else 0


def tag(number, key, message, room):
    """5, 7, 9, the first that applies; and what is written."""
    refusal = refused(number, key, message) or (9 if room < EDITIONS[number].digest else 0)
    return refusal, b"" if refusal else by_hmac(number, key, message)


def check_tag(number, key, message, given):
    """5, 7, 14, the first that applies."""
    return refused(number, key, message) or (0 if given == by_hmac(number, key, message) else 14)


def start(words, number, key):
    """5, 7, 9, the first that applies; and the words that are left."""
    refusal = refused(number, key, b"") or (9 if len(words) < WORDS else 0)
    return refusal, words if refusal else Keyed.begun(number, key, b"").words(0) + words[WORDS:]


def add(words, piece):
    """6, 7, the first that applies; and the words that are left."""
    held = read(words)
    if held is None:
        return 6, words
    if held.first + len(held.data) + size(piece) > LONGEST:
        return 7, words
    held.data += piece
    return 0, held.words(len(held.data)) + words[WORDS:]


def end(words, room):
    """6, 9, the first that applies; and what is written."""
    held = read(words)
    if held is None:
        return 6, b""
    return (9, b"") if room < held.edition.digest else (0, held.tag(len(held.data)))


def check(words, given):
    """6, 14, the first that applies."""
    held = read(words)
    if held is None:
        return 6
    return 0 if given == held.tag(len(held.data)) else 14
