"""The ring of a cluster: which nodes are a key's homes, and which may hold for them."""
import hashlib
from typing import Dict, List, NamedTuple, Tuple

CIRCLE = 1 << 128


class Setting(NamedTuple):
    """How many homes a key has, how many answer a get and have a put, and the tokens."""

    n: int
    r: int
    w: int
    tokens: Tuple[Tuple[int, int], ...]

    def nodes(self) -> int:
        return 1 + max((node for _, node in self.tokens), default=-1)

    def faults(self) -> List[str]:
        """Says what is wrong with it."""
        found, nodes = [], self.nodes()
        positions = [position for position, _ in self.tokens]
        if any(before >= after for before, after in zip(positions, positions[1:])):
            found.append("the positions of the tokens do not rise")
        if nodes > 32 or {node for _, node in self.tokens} != set(range(nodes)):
            found.append("the tokens are not of nodes 0, 1 and so on, to 31 at most")
        if not (1 <= self.w <= self.n <= nodes and 1 <= self.r <= self.n):
            found.append(f"n {self.n}, r {self.r} and w {self.w} do not suit {nodes} nodes")
        return found

    def preference(self, key: bytes) -> List[int]:
        """Returns all nodes, by the way from the key's position to their nearest token.

        A token at the position itself is a whole turn away.
        """
        position = int.from_bytes(hashlib.md5(key).digest(), "big")
        ways: Dict[int, int] = {}
        for token, node in self.tokens:
            way = (token - position - 1) % CIRCLE
            ways[node] = min(way, ways.get(node, CIRCLE))
        return sorted(ways, key=lambda node: ways[node])

    def homes(self, key: bytes) -> List[int]:
        """Returns the first n nodes of the key's list."""
        return self.preference(key)[: self.n]
