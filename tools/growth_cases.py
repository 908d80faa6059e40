"""What tools/growths refuses call by call: scripts, the calls that they reach, and what must come.

A scene is a script with a command that is tried: each growth of it is refused in turn, and the same
command follows it at once, so that it is seen to be made good. Node 0 begins what is done with the
keys A and LONG, nodes 1 and 2 are their other homes, and 3 and 4 stand in.
"""
from collections import namedtuple

# A script: commands, the one that is tried, and commands behind it.
Scene = namedtuple("Scene", "before tried behind ring", defaults=((), None))
# A call: where it lies in the program; what it may have become a part of where the compiler did not
# keep it (the first of these that has growths, or at last the whole command); the commands that
# reach it; and what may come of a growth that it is refused, where it lies there by itself.
Call = namedtuple("Call", "place within words comes")
# A line that is told whichever growth is refused: the script, the command's number, and the line.
Down = namedtuple("Down", "run number line ring", defaults=(None,))

RING = {"n": 3, "r": 2, "w": 2, "tokens": [["20"], ["60"], ["a0"], ["d0"], ["f0"]]}
# Three nodes, so that nobody stands in, and a put that wants each of them.
THREE = {"n": 3, "r": 2, "w": 3, "tokens": [["20"], ["60"], ["a0"]]}
ALL_READ = {"n": 3, "r": 3, "w": 1, "tokens": [["20"], ["60"], ["a0"]]}
A, LONG = "a", "a key of more bytes than sixteen"
# More keys of the same homes. A node of a tree has room for eleven, and a hashed table for fourteen.
OTHERS = ("k3", "k7", "k8", "k11", "k12", "k14", "k16",
          "k19", "k21", "k31", "k34", "k42", "k43", "k45")


def put(key, value, **more):
    return {"do": "put", "key": key, "value": value, **more}


def delete(key, **more):
    return {"do": "delete", "key": key, **more}


def get(key, **more):
    return {"do": "get", "key": key, **more}


def at(word, node, **more):
    return {"do": word, "node": node, **more}


def show(key):
    return tuple(at("show", node, key=key) for node in range(3))


def far(*commands):
    """The commands while nodes 1 and 2 are down, so that 3 and 4 keep hints for them."""
    return (at("down", 1), at("down", 2), *commands, at("up", 1), at("up", 2))


# Values that follow none of each other.
BESIDE = tuple(put(LONG, f"v{number}", session=number) for number in range(4))
# Node 0 has one version of the key, and 1 and 2 have another.
PARTED = (at("fault", 1, mode="delay"), at("fault", 2, mode="delay"), put(LONG, "x", w=1),
          at("fault", 1, mode="none"), at("fault", 2, mode="none"), at("down", 0),
          put(LONG, "y"), at("up", 0))
WAITING = (at("fault", 2, mode="delay"), put(A, "x"), *BESIDE, put(A, "y"),
           at("fault", 2, mode="none"))

SCENES = {
    "first put": Scene((), put(A, "x"), (get(A), *show(A))),
    "put of a long key": Scene((put(A, "x"),), put(LONG, "x"), (get(LONG),)),
    "put behind a get": Scene((put(LONG, "x"), get(LONG)), put(LONG, "y", context="n0:1"),
                              (get(LONG), *show(LONG))),
    "put beside others": Scene(BESIDE, put(LONG, "z"), (get(LONG), *show(LONG))),
    "put behind all": Scene((*BESIDE, at("down", 0), put(LONG, "w"), put(LONG, "v"), at("up", 0)),
                            put(LONG, "z", context="n0:1,3-4 n1:2", session=9), (get(LONG),)),
    "put of the twelfth key": Scene(tuple(put(it, "x") for it in OTHERS[:11]), put(A, "x"),
                                    (get(A),)),
    "put of the fifteenth key": Scene(tuple(put(it, "x") for it in OTHERS), put(A, "x"),
                                      (get(A),)),
    "put with a stand-in": Scene((at("down", 1), put(LONG, "x")), put(LONG, "y"),
                                 (at("up", 1), at("handoff", 3), get(LONG))),
    "put that wants each home": Scene((), put(A, "x"), (get(A),), THREE),
    "put of its own quorum": Scene((), put(LONG, "x", w=3), (get(LONG),)),
    "put to a node that delays": Scene(
        (at("fault", 2, mode="delay"), put(LONG, "x")), put(LONG, "y"),
        (at("fault", 2, mode="none"), at("deliver", 2), get(LONG))),
    "put to a mute node": Scene((at("fault", 1, mode="mute"),), put(LONG, "y"), (get(LONG),)),
    "delete": Scene((put(LONG, "x"),), delete(LONG, context="n0:1"), (get(LONG), *show(LONG))),
    "first get": Scene((put(A, "x"),), get(A, session=3), (get(A),)),
    "get of three that differ": Scene((*PARTED, at("down", 0), at("down", 1), put(LONG, "z", w=1),
                                       at("up", 0), at("up", 1)), get(LONG), show(LONG),
                                      {**RING, "r": 3, "w": 1}),
    "get of nothing": Scene((), get(LONG), (put(LONG, "x"),)),
    "get of many": Scene(BESIDE, get(LONG), (get(LONG),)),
    "get of what differs": Scene(PARTED, get(LONG), (*show(LONG), get(LONG))),
    "get with stand-ins": Scene((at("down", 1), *BESIDE), get(LONG), (at("up", 1), get(LONG))),
    "get of each home": Scene((*far(put(LONG, "x"), put(LONG, "y")),), get(LONG), show(LONG),
                              ALL_READ),
    "get that mends": Scene((at("fault", 1, mode="delay"), put(A, "x"), *BESIDE,
                             at("fault", 1, mode="none")), get(LONG), show(LONG)),
    "get that mends a hole": Scene((*BESIDE[:2], at("fault", 1, mode="delay"), *BESIDE[2:],
                                    at("fault", 1, mode="none")), get(LONG), show(LONG)),
    "get of a mute node": Scene((*BESIDE, at("fault", 1, mode="mute")), get(LONG), show(LONG)),
    "get of a late node": Scene((*BESIDE, at("fault", 1, mode="late")), get(LONG), show(LONG)),
    "handoff": Scene(far(put(A, "x"), *BESIDE, put(A, "y")), at("handoff", 3), show(LONG)),
    "handoff to a home that has some": Scene((*BESIDE[:2], *far(*BESIDE[2:])), at("handoff", 3),
                                             (*show(LONG), at("handoff", 4))),
    "handoff of nothing": Scene((put(A, "x"),), at("handoff", 3), ()),
    "deliver": Scene(WAITING, at("deliver", 2), show(LONG)),
    "deliver of one": Scene((at("fault", 1, mode="delay"), put(LONG, "x"),
                             at("fault", 1, mode="none")), at("deliver", 1), show(LONG)),
    "show": Scene(far(*BESIDE), at("show", 3, key=LONG), ()),
    "show of its own": Scene(BESIDE, at("show", 0, key=LONG), ()),
}

PUTS, ASKED = ("put", "delete"), ("put", "delete", "get", "handoff")
SIBLINGS, NODE, BOOK = "dy_siblings::rows::Row", "dy_node::nodes::Node", "dy_book::books::Book"
CLUSTER, REACH = "dy_cluster::clusters::Cluster", "dy_transport::reaches::Reach"
HOLDS = ("dy_node::holding::hold_lent", "dy_node::answering::run", "dy_node::answering::answer")
# What may come:
# told     the command tells E0, and all is as it was without it
# answer   the node's answer is E0, and all is as if the node had been down for the command
# after    E0 with the dot of the version, which stands and is not acknowledged
# well     the command's line is as ever, and the command that follows mends what it left
# fewer    a pass tells fewer, and the one that follows hands over the rest
# some     a delivery tells E0, those before it are stored, and the one that follows stores the rest
# ended    the run ends for want of memory
CALLS = {
    "Row::merge": Call(f"{SIBLINGS}::merge", ("dy_coord::get_endings::finish",), ("get",),
                       {"told"}),
    "Row::merged": Call(f"{SIBLINGS}::merged", (), (*ASKED, "deliver"),
                        {"told", "answer", "well", "fewer", "some"}),
    "Row::put_beside": Call(f"{SIBLINGS}::put_beside", (), (*ASKED, "deliver"),
                            {"told", "answer", "well", "fewer", "some"}),
    "Node::begin": Call(f"{NODE}::begin", (f"{REACH}::begin_at",), PUTS, {"told"}),
    "Node::store": Call(f"{NODE}::store_lent", HOLDS, ASKED, {"answer", "well", "fewer"}),
    "Node::defer": Call(f"{NODE}::defer", (f"{HOLDS[2]} but not {HOLDS[1]}",), PUTS, {"answer"}),
    "Node::fetch": Call(f"{NODE}::fetch", (f"{REACH}::look_at",), ("get",), {"told", "answer"}),
    "Node::offer": Call(f"{NODE}::offer", (f"{REACH}::offer_at",), ("handoff",), {"told"}),
    "Node::settle": Call(f"{NODE}::settle", (f"{REACH}::settle_at",), ("handoff",), {"fewer"}),
    "Node::deliver": Call(f"{NODE}::deliver", (f"{CLUSTER}::deliver",), ("deliver",),
                          {"told", "some"}),
    "Book::open": Call(f"{BOOK}::open", (f"{CLUSTER}::open",), (), {"ended"}),
    "Book::plan": Call(f"{BOOK}::plan", (f"{NODE}::begin", f"{REACH}::begin_at"), PUTS, {"told"}),
    "Book::issue": Call(f"{BOOK}::issue", ("dy_book::issues::issue_in", f"{NODE}::begin"), PUTS,
                        {"told"}),
    "Book::hold": Call(f"{BOOK}::hold", ("dy_book::holds::hold_in", *HOLDS), (*ASKED, "deliver"),
                       {"answer", "well", "fewer", "told", "some"}),
    "Book::fetch_step": Call(f"{BOOK}::fetch_step", (f"{NODE}::fetch",), ("get",),
                             {"told", "answer"}),
    "Book::release": Call(f"{BOOK}::release", (f"{NODE}::settle", f"{REACH}::settle_at"),
                          ("handoff",), {"fewer"}),
    "Book::ack": Call(f"{BOOK}::ack", (f"{CLUSTER}::put_listed", f"{CLUSTER}::put_kept"), PUTS,
                      {"after"}),
    "Book::close": Call(f"{BOOK}::close", ("dy_cluster::resting::Resting::close",
                                           f"{CLUSTER}::close"), (), {"ended"}),
    "Cluster::open": Call(f"{CLUSTER}::open", (), (), {"ended"}),
    # It opens a session, which takes no memory itself: neither does Cluster::session.
    "Cluster::seat": Call(f"{CLUSTER}::seat", ("dy_commands::seats::Seats::place_of",),
                          (*PUTS, "get"), {"told"}),
    "Cluster::put": Call(f"{CLUSTER}::put_listed", (), PUTS, {"told", "answer", "after"}),
    "Cluster::get": Call(f"{CLUSTER}::get_listed", (), ("get",), {"told", "answer"}),
    "KeptLists::keep": Call("dy_cluster::kept_lists::KeptLists::keep",
                            (f"{CLUSTER}::put_kept", f"{CLUSTER}::get_kept"), (*PUTS, "get"),
                            {"well"}),
    "Cluster::repair": Call(f"{CLUSTER}::repair", ("dy_repair::repairs::repair",), ("get",),
                            {"well"}),
    "Cluster::handoff": Call(f"{CLUSTER}::handoff", (), ("handoff",), {"told", "fewer"}),
    "Cluster::deliver": Call(f"{CLUSTER}::deliver", (), ("deliver",), {"told", "some"}),
    "Cluster::show": Call(f"{CLUSTER}::show", (), ("show",), {"told"}),
    "Cluster::close": Call(f"{CLUSTER}::close", (f"{CLUSTER}::end", f"{BOOK}::close"), (),
                           {"ended"}),
}

HINTED = far(put(A, "x"), put(LONG, "y"))
DOWNS = {
    "deliver at a node that is down": Down(
        (at("fault", 1, mode="delay"), put(LONG, "x"), at("down", 1), at("deliver", 1)), 4,
        r"deliver E13 Down"),
    "handoff at a node that is down": Down((*HINTED, at("down", 3), at("handoff", 3)), 8,
                                           r"handoff E13 Down"),
    "handoff to a home that is down": Down(
        (*HINTED, at("down", 1), at("handoff", 3)), 8,
        r"handoff (ok offers [0-2] stored 0 released 0|E0 OutOfMemory)"),
    "put with a home that is down": Down(
        (at("down", 1), put(LONG, "x")), 2,
        r"put (ok n0:1 answers 0/0=stored 1/1=down 2/2=\S+ 3/1=\S+( 4/[12]=\S+)*"
        r"|E15 NotEnough n0:1 answers 0/0=stored 1/1=down .*|E0 OutOfMemory( after n0:1)?)"),
    "put whose first node is down": Down(
        (at("down", 0), put(LONG, "x")), 2,
        r"put (ok n1:1 answers 1/1=stored 0/0=down .*|E15 NotEnough n1:1 .* 0/0=down .*"
        r"|E0 OutOfMemory( after n1:1)?)"),
    "put with each node down": Down(
        tuple(at("down", node) for node in range(5)) + (put(LONG, "x"),), 6,
        r"put E(14 NoNode|0 OutOfMemory)"),
    "get of too few homes": Down(
        (put(LONG, "x"), at("down", 1), at("down", 2), get(LONG)), 4,
        r"get (E15 NotEnough answers 0/0=rows 1/1=down 2/2=down|E0 OutOfMemory)", THREE),
    "get with each node down": Down(
        (put(LONG, "x"), *(at("down", node) for node in range(5)), get(LONG)), 7,
        r"get E(14 NoNode|0 OutOfMemory)"),
    "show of a node that is down": Down(
        (put(LONG, "x"), at("down", 1), at("show", 1, key=LONG)), 3,
        r"show (1 own (n0:1|-)|E0 OutOfMemory)"),
}
