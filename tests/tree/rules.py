"""The chunk tree in Python: by RFC 6962's splits, which decide every root here, and by SPEC's levels, one at a time."""
from trees import CHUNK, largest_below, leaf, parent, sha256


def split(nodes):
    """RFC 6962, section 2.1, of nodes."""
    if len(nodes) < 2:
        return nodes[0] if nodes else sha256(b"")
    k = largest_below(len(nodes))
    return parent(split(nodes[:k]), split(nodes[k:]))


def tree(data):
    """The root of a map."""
    return split([leaf(data[at : at + CHUNK]) for at in range(0, len(data), CHUNK)])


def old_tree(data):
    """The root of a map by the rule before request 03: a lone last node was paired with itself."""
    nodes = [leaf(data[at : at + CHUNK]) for at in range(0, len(data), CHUNK)]
    while len(nodes) > 1:
        nodes = [parent(nodes[i], nodes[min(i + 1, len(nodes) - 1)]) for i in range(0, len(nodes), 2)]
    return nodes[0]


def level(nodes):
    """SPEC, "Chunk tree", one level up: a parent for every two neighbours, and a lone last node as it is."""
    pairs = [parent(*nodes[i : i + 2]) for i in range(0, len(nodes) - 1, 2)]
    return pairs + nodes[len(nodes) // 2 * 2 :]
