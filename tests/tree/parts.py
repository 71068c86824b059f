"""The parts of a chunk tree, leaf, parent and level, through crate treeparts: the trees published for RFC 6962, and bytes and nodes by
chance.

A case is calls with their replies. What a call is expected to make is lent to the next, so that where a case passes the compiled parts have
made all of it, and its last reply is what was published, or the node by RFC 6962's splits.
"""
from pathlib import Path

from rules import level, split

from driver import ALIGNED, Call
from trees import CHUNK, NODE, largest_below, leaf, parent

VECTORS = Path(__file__).parent / "data/rfc6962.txt"


def vectors():
    """The published entries in their order, the roots by their number, and the paths by place and number."""
    entries, roots, paths = [], {}, {}
    for line in VECTORS.read_text().splitlines():
        kind, *words = line.split()
        if kind == "leaf":
            assert int(words[0]) == len(entries)
            entries.append(bytes.fromhex(words[1].strip("-")))
        elif kind == "root":
            roots[int(words[0])] = bytes.fromhex(words[1])
        elif kind == "path":
            paths[int(words[0]), int(words[1])] = [bytes.fromhex(node) for node in words[2].split(",") if node != "-"]
        else:
            assert kind == "#"
    assert (len(entries), len(roots), len(paths)) == (8, 9, 5), "a line is missing"
    return entries, roots, paths


class Parts:
    def __init__(self, rng):
        self.rng = rng

    def part(self, name, lent, made, room=NODE):
        """A part that writes what it makes at the front of an output, as far as that goes."""
        call = Call(name, (*lent, (room, self.rng.randrange(256))), self.rng.randrange(ALIGNED**3))
        return call, call.reply(0, wrote=made[:room])

    def level(self, nodes, above, more=b""):
        """One level up from these nodes, with bytes behind them that are none."""
        buffer = b"".join(nodes) + more
        call = Call("level", (buffer,), self.rng.randrange(ALIGNED))
        left = b"".join(above)
        return call, call.reply(0, left=left + buffer[len(left) :])

    def rise(self, nodes, top):
        """Level after level, the last of which makes this node. One node has a level too, which leaves it as it is."""
        while True:
            above = level(nodes) if len(nodes) > 2 else [top]
            yield self.level(nodes, above)
            if len(above) == 1:
                return
            nodes = above

    def fold(self, place, nodes, path, root):
        """RFC 6962, section 2.1.1, from the node at a place to the root: the parents on the way, the last of which is the root."""
        if len(nodes) == 1:
            assert not path
            return nodes[0], []
        k = largest_below(len(nodes))
        low = place < k
        inner, calls = self.fold(place if low else place - k, nodes[:k] if low else nodes[k:], path[:-1], None)
        pair = (inner, path[-1]) if low else (path[-1], inner)
        made = root or parent(*pair)
        return made, calls + [self.part("parent", pair, made)]

    def published(self):
        """Every line of the file but the root of no leaves: a leaf, a root over the first leaves, a path from its leaf, and each of its
        nodes."""
        entries, roots, paths = vectors()
        leaves = [leaf(entry) for entry in entries]
        leaves[0] = roots[1]
        for entry, node in zip(entries, leaves):
            yield [self.part("leaf", (entry,), node)]
        for n, root in roots.items():
            if n:
                yield list(self.rise(leaves[:n], root))
        for (place, n), path in paths.items():
            start = self.part("leaf", (entries[place],), leaves[place] if n > 1 else roots[n])
            yield [start] + self.fold(place, leaves[:n], path, roots[n])[1]
            yield from (list(self.rise(run, node)) for run, node in zip(beside(place, leaves[:n]), path))

    def by_chance(self):
        rng = self.rng
        for n in [*range(0, 70), *range(CHUNK - 3, CHUNK + 4), 1500, 4096]:
            entry = rng.randbytes(n)
            yield [self.part("leaf", (entry,), leaf(entry[:CHUNK]), rng.choice((NODE, NODE, NODE + 1, 64)))]
        for room in range(NODE + 8):
            pair = rng.randbytes(NODE), rng.randbytes(NODE)
            yield [self.part("leaf", (pair[0],), leaf(pair[0]), room), self.part("parent", pair, parent(*pair), room)]
        for n in [*range(1, 140), 255, 256, 257, 511, 512, 513, 1000, 1023, 1024]:
            nodes = [rng.randbytes(NODE) for _ in range(n)]
            yield list(self.rise(nodes, split(nodes)))
        # bytes that make no node behind those that do, and no node at all
        for n in range(34):
            nodes = [rng.randbytes(NODE) for _ in range(n)]
            yield [self.level(nodes, level(nodes), rng.randbytes(more)) for more in (0, 1, 31, rng.randrange(NODE))]


def beside(place, leaves):
    """The leaves under each node of a path, RFC 6962, section 2.1.1: the lowest node first."""
    if len(leaves) == 1:
        return []
    k = largest_below(len(leaves))
    if place < k:
        return beside(place, leaves[:k]) + [leaves[k:]]
    return beside(place - k, leaves[k:]) + [leaves[:k]]
