"""The tree over a stream in Python: its words, when they are sound, and what each call answers, leaves and writes.

No chunk is joined to what is held: every node here, a root that is held and the root of all, is the tree hash of RFC 6962, section 2.1,
over the chunks below it, by splits from the top. So it is for a stream that begins with roots that were made up, whose chunks nobody has.
"""
import struct

from trees import CHUNK, NODE, largest_below, leaf, parent, sha256

MOST = 2**32  # chunks
LIMIT = MOST * CHUNK  # bytes
ROOM = 32 * NODE  # of the roots: no number up to MOST has more than 32 one bits
WORDS = 2 + ROOM // 8 + CHUNK // 8


def full(chunks):
    """The full subtrees over so many chunks, the largest first: the first chunk and the count of each."""
    first = 0
    for bit in reversed(range(chunks.bit_length())):
        if chunks >> bit & 1:
            yield first, 1 << bit
            first += 1 << bit


class Map:
    """What a stream takes: some first chunks of which only the roots that are held for them are known, and bytes behind them. Each moment
    of the stream is a count n of these bytes; so what is said of it cannot depend on how they were cut."""

    def __init__(self, data, chunks=0, roots=()):
        self.data, self.first = data, chunks
        self.nodes = dict(zip(full(chunks), roots))

    def counts(self, n):
        """The finished chunks and the bytes after them."""
        return self.first + n // CHUNK, n % CHUNK

    def node(self, first, count, n):
        """RFC 6962, section 2.1, over so many chunks from this one on; the last chunk of all may not be finished. A node over finished ones
        is the same at every later moment, and is made once."""
        finished = first + count <= self.counts(n)[0]
        if finished and (first, count) in self.nodes:
            return self.nodes[first, count]
        if count > 1:
            k = largest_below(count)
            made = parent(self.node(first, k, n), self.node(first + k, count - k, n))
        else:
            at = (first - self.first) * CHUNK
            made = leaf(self.data[at : min(at + CHUNK, n)])
        if finished:
            self.nodes[first, count] = made
        return made

    def root(self, n):
        chunks, further = self.counts(n)
        return self.node(0, chunks + (further > 0), n) if chunks + further else sha256(b"")

    def words(self, n):
        chunks, further = self.counts(n)
        roots = b"".join(self.node(*where, n) for where in full(chunks))
        rest = self.data[n - further : n]
        return chunks, further, *words_of(roots.ljust(ROOM, b"\x00") + rest.ljust(CHUNK, b"\x00"))


def words_of(data):
    """Eight bytes a word, the most significant first."""
    return struct.unpack(f">{len(data) // 8}Q", data)


def bytes_of(words):
    return struct.pack(f">{len(words)}Q", *words)


def read(words):
    """What words hold, at the moment that all its bytes are taken; or None. Only a sound stream is what its own roots and bytes are written
    as."""
    if len(words) < WORDS:
        return None
    chunks, further = words[:2]
    if chunks > MOST or further >= CHUNK or chunks == MOST and further > 0:
        return None
    room = bytes_of(words[2:WORDS])
    roots = [room[at : at + NODE] for at in range(0, NODE * bin(chunks).count("1"), NODE)]
    held = Map(room[ROOM : ROOM + further], chunks, roots)
    return held if held.words(further) == tuple(words[:WORDS]) else None


def begin(words):
    """9; and the words that are left."""
    return (9, words) if len(words) < WORDS else (0, (0,) * WORDS + words[WORDS:])


def add(words, piece):
    """6, 7, the first that applies; and the words that are left. A piece that is a number is so many zeros, too many to be taken."""
    held = read(words)
    if held is None:
        return 6, words
    n = piece if isinstance(piece, int) else len(piece)
    if held.first * CHUNK + len(held.data) + n > LIMIT:
        return 7, words
    held.data += piece
    return 0, held.words(len(held.data)) + words[WORDS:]


def root(words, size):
    """6, 9, the first that applies; and what is written."""
    held = read(words)
    if held is None:
        return 6, b""
    return (9, b"") if size < NODE else (0, held.root(len(held.data)))
