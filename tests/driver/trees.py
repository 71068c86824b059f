"""The nodes of a chunk tree in Python with hashlib, and where RFC 6962 splits."""
import hashlib

CHUNK, NODE = 1024, 32


def sha256(data):
    return hashlib.sha256(data).digest()


def leaf(entry):
    return sha256(b"\x00" + entry)


def parent(left, right):
    return sha256(b"\x01" + left + right)


def largest_below(n):
    """The largest power of two below n, which is 2 or more."""
    return 1 << (n - 1).bit_length() - 1
