"""The ring of a script: its tokens, the nodes' shares of it, and keys with their homes."""
import hashlib
import re
from dataclasses import dataclass
from typing import Any, Dict, List, Tuple

from reading.rules import MAX_KEY_BYTES, MAX_NODES, MAX_TOKENS_PER_NODE
from reading.scripts import BadInput, listed, member, text, whole

SPAN = 1 << 128
TOKEN = re.compile(r"(?:[0-9a-fA-F]{2}){1,16}")


@dataclass(frozen=True)
class Key:
    """A key of the script, where it lies, and its homes in the order in which they are asked."""
    name: bytes
    position: int
    homes: Tuple[int, ...]


@dataclass(frozen=True)
class Ring:
    """The tokens by rising position, each with its node, and how many nodes there are."""
    tokens: Tuple[Tuple[int, int], ...]
    nodes: int

    def arcs(self) -> List[Tuple[int, int, int]]:
        """For each token its node, where its arc begins, and how long it is up to the token."""
        found = []
        for at, (position, node) in enumerate(self.tokens):
            begin = self.tokens[at - 1][0]
            found.append((node, begin, (position - begin - 1) % SPAN + 1))
        return found

    def shares(self) -> List[int]:
        """How many positions have their first home at each node; together they are `SPAN`."""
        sums = [0] * self.nodes
        for node, _, length in self.arcs():
            sums[node] += length
        return sums

    def walk(self, position: int) -> List[Tuple[int, int]]:
        """The tokens in the order in which a key at this position meets them."""
        return sorted(self.tokens, key=lambda token: (token[0] - position - 1) % SPAN)

    def preference(self, position: int) -> List[int]:
        """All nodes, by the nearest of their tokens clockwise."""
        return list(dict.fromkeys(node for _, node in self.walk(position)))


def md5(data: bytes) -> int:
    """The MD5 digest as a number, the first byte the greatest."""
    return int.from_bytes(hashlib.md5(data).digest(), "big")


def _given(script: Dict[str, Any]) -> List[List[int]]:
    lists = []
    for node, texts in enumerate(listed(script["tokens"], "`tokens`")):
        lists.append([])
        for token in listed(texts, f"the list of tokens of node {node}"):
            if not isinstance(token, str) or not TOKEN.fullmatch(token):
                raise BadInput(f"E17 ScriptSyntax: a token of node {node} is not 2 to 32"
                               " hexadecimal digits, even in number")
            lists[-1].append(int(token.ljust(32, "0"), 16))
    return lists


def _derived(script: Dict[str, Any]) -> List[List[int]]:
    nodes = whole(member(script["derived"], "nodes", "`derived`"), "`nodes`")
    each = whole(member(script["derived"], "per_node", "`derived`"), "`per_node`")
    return [[md5(b"%d#%d" % (i, t)) for t in range(each)] for i in range(nodes)]


def ring_of(script: Dict[str, Any]) -> Ring:
    """The ring of the script's tokens, or the refusal that `dynamo ring` tells."""
    if ("tokens" in script) == ("derived" in script):
        raise BadInput("E17 ScriptSyntax: exactly one of `tokens` and `derived` must be there")
    lists = _given(script) if "tokens" in script else _derived(script)
    if len(lists) > MAX_NODES or any(len(tokens) > MAX_TOKENS_PER_NODE for tokens in lists):
        raise BadInput(f"E6 TooMany: a ring has at most {MAX_NODES} nodes, and {MAX_TOKENS_PER_NODE}"
                       " tokens of a node")
    for node, tokens in enumerate(lists or [[]]):
        if not tokens:
            raise BadInput(f"E5 NodeWithoutToken {node}")
    ring = sorted((token, node) for node, tokens in enumerate(lists) for token in tokens)
    for (token, _), (other, _) in zip(ring, ring[1:]):
        if token == other:
            raise BadInput(f"E4 TokenClash {token:032x}")
    return Ring(tuple(ring), len(lists))


def keys_of(script: Dict[str, Any], ring: Ring) -> List[Key]:
    """The keys that the script lists, each with its first n distinct nodes clockwise."""
    keys = []
    for key in listed(script.get("keys", []), "`keys`"):
        try:
            name = text(key, "a text of `keys`").encode("utf-8")
        except UnicodeEncodeError:
            raise BadInput("E17 ScriptSyntax: a text of `keys` has half a surrogate pair") from None
        if not 1 <= len(name) <= MAX_KEY_BYTES:
            raise BadInput(f"E17 ScriptSyntax: a key has 1 to {MAX_KEY_BYTES} bytes")
        position = md5(name)
        keys.append(Key(name, position, tuple(ring.preference(position)[:script["n"]])))
    return keys
