#!/usr/bin/env python3
"""Two shoppers change one cart while one of its nodes is down, and no change is lost.

usage: examples/python/cart.py [PROGRAM]    without PROGRAM it is ./dynamo of this repository
"""
import pathlib
import sys
from typing import Set

TOP = pathlib.Path(__file__).resolve().parent.parent.parent
sys.dont_write_bytecode = True
sys.path.insert(0, str(TOP / "clients/python"))

from meldakwi import Got, Store

NODES = [["20"], ["60"], ["a0"], ["d0"], ["f0"]]
CART = "cart"  # Its homes are the nodes 1, 2 and 3; the nodes 4 and 0 stand in for them.
ANN, BOB = 0, 1


def items_of(cart: Got) -> Set[str]:
    """All items of all siblings of a cart."""
    return {item for value in cart.values for item in value.decode().split(",")}


def add(store: Store, cart: Got, item: str, session: int) -> None:
    """Writes the cart that was read with one more item."""
    items = ",".join(sorted(items_of(cart) | {item}))
    done = store.put(CART, items, context=cart.context, session=session)
    print(f"session {session} writes {items} as {done.context}:",
          *(f"{it.holder}/{it.home}={it.word}" for it in done.answers))


def main(program: str) -> None:
    with Store(tokens=NODES, n=3, r=2, w=2, program=program) as store:
        store.put(CART, "milk", session=ANN)
        store.down(1)
        print("node 1 is down")
        # Both read the same cart, and neither sees what the other one writes.
        seen_by_ann, seen_by_bob = store.get(CART, ANN), store.get(CART, BOB)
        add(store, seen_by_ann, "bread", ANN)
        add(store, seen_by_bob, "eggs", BOB)
        siblings = store.get(CART, ANN)
        print("siblings:", *(value.decode() for value in siblings.values))
        add(store, siblings, "tea", ANN)
        print("the cart:", *(value.decode() for value in store.get(CART, BOB).values))
        store.up(1)
        print("node 1 is back and has", store.show(1, CART).own)
        passed = store.handoff(4)
        print(f"node 4 hands over {passed.offers} hint; node 1 has", store.show(1, CART).own)
        print("the audit:", *store.audit().lines, sep="\n  ")


if __name__ == "__main__":
    main(sys.argv[1] if len(sys.argv) > 1 else str(TOP / "dynamo"))
