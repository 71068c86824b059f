"""SPEC's hashing, and the words of a bay, in Python, for the tests that compare words: nothing here is taken from the code that is
tested."""
import hashlib
import math
import struct
from collections import namedtuple

LONGEST = 2**40  # "Padding": c is at most this
BAY = 26  # "The table of bays": words
HASHLIB = {1: "sha224", 2: "sha256", 3: "sha384", 4: "sha512", 5: "sha512_224", 6: "sha512_256"}

Edition = namedtuple("Edition", "width block digest start")
Width = namedtuple("Width", "bits mask form constants large0 large1 small0 small1")


# ---- constants, by rule


def primes(count):
    found = []
    candidate = 2
    while len(found) < count:
        if all(candidate % p for p in found):
            found.append(candidate)
        candidate += 1
    return found


def cube_root(x):
    """The whole number N with N^3 <= x < (N+1)^3."""
    low, high = 0, 1 << x.bit_length() // 3 + 1
    while high - low > 1:
        middle = (low + high) // 2
        low, high = (middle, high) if middle**3 <= x else (low, middle)
    return low


def square_root_words(ps, w):
    return tuple(math.isqrt(p << 2 * w) % 2**w for p in ps)


def cube_root_words(ps, w):
    return tuple(cube_root(p << 3 * w) % 2**w for p in ps)


PRIMES = primes(80)
W32 = Width(32, 2**32 - 1, ">16I", cube_root_words(PRIMES[:64], 32), (2, 13, 22), (6, 11, 25), (7, 18, 3), (17, 19, 10))
W64 = Width(64, 2**64 - 1, ">16Q", cube_root_words(PRIMES, 64), (28, 34, 39), (14, 18, 41), (1, 8, 7), (19, 61, 6))


# ---- one block, and padding


def one_block(width, chain, block):
    """The chaining words after a block. A word beside itself, shifted right, has its rotation in its lower half."""
    w, mask, form, constants, (p, q, r), (i, j, k), (l, m, n), (s, t, u) = width
    words = list(struct.unpack(form, block))
    for at in range(16, len(constants)):
        x, y = words[at - 15], words[at - 2]
        xx, yy = x | x << w, y | y << w
        small0 = (xx >> l ^ xx >> m) & mask ^ x >> n
        small1 = (yy >> s ^ yy >> t) & mask ^ y >> u
        words.append(small1 + words[at - 7] + small0 + words[at - 16] & mask)
    a, b, c, d, e, f, g, h = chain
    for constant, word in zip(constants, words):
        aa, ee = a | a << w, e | e << w
        t1 = h + ((ee >> i ^ ee >> j ^ ee >> k) & mask) + (e & f ^ ~e & g) + constant + word
        t2 = ((aa >> p ^ aa >> q ^ aa >> r) & mask) + (a & b ^ a & c ^ b & c)
        h, g, f, e, d, c, b, a = g, f, e, d + t1 & mask, c, b, a, t1 + t2 & mask
    return tuple(old + new & mask for old, new in zip(chain, (a, b, c, d, e, f, g, h)))


def blocks(width, chain, data):
    """The chaining words after so many whole blocks."""
    size = 2 * width.bits
    for at in range(0, len(data), size):
        chain = one_block(width, chain, data[at : at + size])
    return chain


def padding(width, count, closing, bits):
    """What follows `count` bytes: the closing bits, a 1, zeros, and the length of it all in bits."""
    field = width.bits // 4
    end = bytes([closing | 0x80 >> bits])
    zeros = -(count + len(end) + field) % (2 * width.bits)
    return end + bytes(zeros) + (8 * count + bits).to_bytes(field, "big")


def as_bytes(width, words):
    return b"".join(word.to_bytes(width.bits // 8, "big") for word in words)


def generated(text):
    """The starting words of editions 5 and 6."""
    start = tuple(word ^ 0xA5A5A5A5A5A5A5A5 for word in square_root_words(PRIMES[:8], 64))
    return blocks(W64, start, text + padding(W64, len(text), 0, 0))


START3 = square_root_words(PRIMES[8:16], 64)
EDITIONS = {
    1: Edition(W32, 64, 28, tuple(word % 2**32 for word in START3)),
    2: Edition(W32, 64, 32, square_root_words(PRIMES[:8], 32)),
    3: Edition(W64, 128, 48, START3),
    4: Edition(W64, 128, 64, square_root_words(PRIMES[:8], 64)),
    5: Edition(W64, 128, 28, generated(b"SHA-512/224")),
    6: Edition(W64, 128, 32, generated(b"SHA-512/256")),
}


def leftmost(edition, chain):
    return as_bytes(edition.width, chain)[: edition.digest]


def by_hashlib(number, message):
    return hashlib.new(HASHLIB[number], message).digest()


def bay_words(number, count, chain, tail):
    return [number, count, *chain, *struct.unpack(">16Q", tail.ljust(128, b"\0"))]
