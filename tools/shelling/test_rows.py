"""What is typed into tools/shell, and what it prints, by hand from docs/FORMATS.md."""
from typing import List, Tuple

from reading.rules import MODES

# A line that is typed, and all lines that come of it. The key a has the homes 0, 1 and 2 of five.
Row = Tuple[str, List[str]]

PUT = [
    '{"do": "put", "key": "a", "value": "x"}',
    "1 put ok n0:1 answers 0/0=stored 1/1=stored 2/2=stored",
    "   Acknowledged: node 0 made the version n0:1; 3 homes have it, and 2 were wanted.",
    "   Homes 0, 1 and 2 stored it.",
]
GET = [
    '{"do": "get", "key": "a"}',
    "2 get ok context n0:1 from 0/0 1/1 values n0:1=78",
    '   The value is "x" (n0:1, put by command 1).',
    "   Homes 0 and 1 answered.",
    "   No home had to be mended.",
    "   The context for a put that follows is n0:1.",
]

# Each command, with --json, in one store.
SESSION: List[Row] = [
    ("put a x", PUT),
    ("get a", GET),
    ("", []),
    (" \t", []),
    ("put a y behind it w 3 session 1", [
        '{"do": "put", "key": "a", "value": "y", "context": "n0:1", "w": 3, "session": 1}',
        "3 put ok n0:2 answers 0/0=stored 1/1=stored 2/2=stored",
        "   Acknowledged: node 0 made the version n0:2; 3 homes have it, and 3 were wanted.",
        "   Homes 0, 1 and 2 stored it.",
    ]),
    ("down 0", ['{"do": "down", "node": 0}', "4 down ok",
                "   Node 0 is down: whoever asks it is told so."]),
    # The context of the last get still has n0:1 alone, so y stands beside z.
    ("put a z session 1 behind it", [
        '{"do": "put", "key": "a", "value": "z", "session": 1, "context": "n0:1"}',
        "5 put ok n1:1 answers 1/1=stored 0/0=down 2/2=stored 3/0=stored",
        "   Acknowledged: node 1 made the version n1:1; 3 homes have it, and 2 were wanted.",
        "   Homes 1 and 2 stored it.",
        "   Node 3 stood in for home 0.",
        "   Home 0 was down.",
    ]),
    # A node that stands in is handed the whole row of the coordinator.
    ("show 3 a", ['{"do": "show", "node": 3, "key": "a"}', "6 show 3 own - for 0 n0:2 n1:1",
                  '   Node 3 holds of "a": nothing for itself and n0:2 n1:1 for home 0.']),
    ("up 0", ['{"do": "up", "node": 0}', "7 up ok", "   Node 0 is up, with what it held before."]),
    # Node 0 has n0:2 alone, and is mended.
    ("get a session 2", [
        '{"do": "get", "key": "a", "session": 2}',
        "8 get ok context n0:1-2 n1:1 from 0/0 1/1 values n0:2=79 n1:1=7a",
        '   2 values stand beside each other: "y" (n0:2, put by command 3) and "z" (n1:1, put by'
        " command 5). A put with the context of this get reconciles them.",
        "   Homes 0 and 1 answered.",
        "   Mended: home 0, which had another row and was asked to hold the merged one.",
        "   The context for a put that follows is n0:1-2 n1:1.",
    ]),
    ("handoff 3", [
        '{"do": "handoff", "node": 3}', "9 handoff ok offers 1 stored 1 released 2",
        "   Node 3 offered 1 hint to its home: receipts came for 1, and 2 versions left its hints.",
    ]),
    ("fault 1 delay", [
        '{"do": "fault", "node": 1, "mode": "delay"}', "10 fault ok",
        "   From now on node 1 keeps what it is asked to store for a later deliver, and no answer"
        " comes.",
    ]),
    # A context of two nodes is two words; with it all is replaced.
    ("delete a behind n0:1-2 n1:1 w 1", [
        '{"do": "delete", "key": "a", "context": "n0:1-2 n1:1", "w": 1}',
        "11 delete ok n0:3 answers 0/0=stored 1/1=noanswer 2/2=stored 3/1=stored",
        "   Acknowledged: node 0 made the version n0:3; 3 homes have it, and 1 was wanted.",
        "   Homes 0 and 2 stored it.",
        "   Node 3 stood in for home 1.",
        "   Home 1 did not answer, and may have it all the same.",
    ]),
    ("deliver 1", ['{"do": "deliver", "node": 1}', "12 deliver ok 1",
                   "   Node 1 stored 1 message that it had kept."]),
    ("put a w behind n7:1", [
        '{"do": "put", "key": "a", "value": "w", "context": "n7:1"}',
        "13 put E8 ContextUnknown n7:1",
        "   Refused with E8 ContextUnknown n7:1: the context names a dot that was never made for"
        " this key.",
        "   What stands after: unchanged.",
        "   What to do: use the context of a get of the same key; the text names the least such"
        " dot.",
    ]),
    ("put '' \"an empty key\"", [
        '{"do": "put", "key": "", "value": "an empty key"}', "14 put E2 KeySize",
        "   Refused with E2 KeySize: a key of no byte, or of more than 64.",
        "   What stands after: unchanged.",
        "   What to do: use a key of 1 to 64 bytes.",
    ]),
    ("handoff 2", ['{"do": "handoff", "node": 2}', "15 handoff ok offers 0 stored 0 released 0",
                   "   Node 2 had no hint to hand over."]),
]
# The audit of that store.
COVERED = "3 homes cover it: 0, 1 (also at node 3) and 2."
AUDIT = [
    ("held 0/0 61 n0:3", 'Node 0 holds n0:3 of "a" for itself.'),
    ("held 1/1 61 n0:3", 'Node 1 holds n0:3 of "a" for itself.'),
    ("held 2/2 61 n0:3", 'Node 2 holds n0:3 of "a" for itself.'),
    ("held 3/1 61 n0:3", 'Node 3 holds n0:3 of "a" for home 1, as a hint.'),
    ("acked 61 n0:1 covered 0/0 1/1 3/1 2/2",
     f'n0:1 of "a" is acknowledged; 2 were wanted, and {COVERED}'),
    ("acked 61 n0:2 w 3 covered 0/0 1/1 3/1 2/2",
     f'n0:2 of "a" is acknowledged; 3 were wanted, and {COVERED}'),
    ("acked 61 n0:3 w 1 covered 0/0 1/1 3/1 2/2",
     f'n0:3 of "a" is acknowledged; 1 was wanted, and {COVERED}'),
    ("acked 61 n1:1 covered 0/0 1/1 3/1 2/2",
     f'n1:1 of "a" is acknowledged; 2 were wanted, and {COVERED}'),
]
# A put's issue, its hold at three homes and its ack are 5 steps, also with a stand-in or where a
# message is kept. A get fetches at three homes; 8 mends one, too. 9 holds one and releases two
# dots, and 12 holds one.
STEPS = 5 + 3 + 5 + 5 + 4 + 3 + 5 + 1
SUMS = [f"end held 4 acked 4 gets 2 steps {STEPS}",
        f"   Sums: 4 versions held, 4 puts acknowledged, 2 gets answered, {STEPS} steps made."]
ENDED = "The store has ended. Type new to start another one of the same script, or quit."

# A put and a get in a store, its end, and another one.
ENDS: List[Row] = [
    ("put a x", PUT[1:]),
    ("new", ["the store has not ended; audit ends it."]),
    ("renew", [
        "held 0/0 61 n0:1", '   Node 0 holds n0:1 of "a" for itself.',
        "held 1/1 61 n0:1", '   Node 1 holds n0:1 of "a" for itself.',
        "held 2/2 61 n0:1", '   Node 2 holds n0:1 of "a" for itself.',
        "acked 61 n0:1 covered 0/0 1/1 2/2",
        '   n0:1 of "a" is acknowledged; 2 were wanted, and 3 homes cover it: 0, 1 and 2.',
        "end held 3 acked 1 gets 0 steps 5",
        "   Sums: 3 versions held, 1 put acknowledged, 0 gets answered, 5 steps made.",
        "2 renew ok carried 1",
        "   A new cluster has taken over: 1 value was put into it anew, in session 0.",
        "   All its nodes are up, and contexts of before mean nothing in it.",
    ]),
    ("put a y behind it", ["no get of \"a\" was answered yet, so there is nothing that 'it' names;"
                           " type get a first."]),
    ("get a", [
        "3 get ok context n0:1 from 0/0 1/1 values n0:1=78",
        '   The value is "x" (n0:1).',
        "   Homes 0 and 1 answered.",
        "   The output does not say which homes had another row, and were mended.",
        "   The context for a put that follows is n0:1.",
    ]),
    ("audit", [
        "held 0/0 61 n0:1", '   Node 0 holds n0:1 of "a" for itself.',
        "held 1/1 61 n0:1", '   Node 1 holds n0:1 of "a" for itself.',
        "held 2/2 61 n0:1", '   Node 2 holds n0:1 of "a" for itself.',
        "acked 61 n0:1 covered 0/0 1/1 2/2",
        '   n0:1 of "a" is acknowledged; 2 were wanted, and 3 homes cover it: 0, 1 and 2.',
        "end held 3 acked 1 gets 1 steps 8",
        "   Sums: 3 versions held, 1 put acknowledged, 1 get answered, 8 steps made.", ENDED,
    ]),
    ("get a", [ENDED]),
    ("audit", [ENDED]),
    ("new", ["A new store has started."]),
    ("get b behind it", ['"behind" is too much; type get KEY [session NUMBER].']),
    ("up 4", ["1 up ok", "   Node 4 is up, with what it held before."]),
    ("quit", []),
]

USAGE = "type put KEY VALUE [behind CONTEXT] [w HOMES] [session NUMBER]"
# Lines that ask for nothing, and what is said of them. No command is done.
MISTAKES = [
    ("putt a x", 'there is no command "putt"; help lists them.'),
    ("PUT a x", 'there is no command "PUT"; help lists them.'),
    ('{"do":"get","key":"a"}', 'there is no command "{do:get,key:a}"; help lists them.'),
    ("put", f"a put needs a key; {USAGE}."),
    ("put a", f"a put needs a value; {USAGE}."),
    ("put a x y", f'"y" is too much; {USAGE}, the value in quotation marks, where it has blanks.'),
    ("put a x behind", f"nothing stands behind behind; {USAGE}."),
    ("put a x w", f"nothing stands behind w; {USAGE}."),
    ("put a x behind it", "no get of \"a\" was answered yet, so there is nothing that 'it' names;"
                          " type get a first."),
    ("put 'a b' x behind it", "no get of \"a b\" was answered yet, so there is nothing that 'it'"
                              " names; type get 'a b' first."),
    ("put a x w 1 w 2", "w comes twice."),
    ("put a x w two", 'w is a number from 0 to 255, and not "two".'),
    ("put a x w 256", 'w is a number from 0 to 255, and not "256".'),
    ("put a x w -1", 'w is a number from 0 to 255, and not "-1".'),
    ("put a x w 1.0", 'w is a number from 0 to 255, and not "1.0".'),
    ("put a x w ''", 'w is a number from 0 to 255, and not "".'),
    ("put a x w \u0661", 'w is a number from 0 to 255, and not "\u0661".'),
    ("get a session 32", 'session is a number from 0 to 31, and not "32".'),
    ("get", "a get needs a key; type get KEY [session NUMBER]."),
    ("get a w 1", '"w" is too much; type get KEY [session NUMBER].'),
    ("put a hex 123", "a value behind hex has two digits for each byte."),
    ("down", "a down needs a node; type down NODE."),
    ("down 5", 'a node is a number from 0 to 4, and not "5".'),
    ("down " + "9" * 5000, 'a node is a number from 0 to 4, and not "' + "9" * 40
                           + '".. (5,000 bytes).'),
    ("down 1 2", '"2" is too much; type down NODE.'),
    ("fault 1", "a fault needs a mode; type fault NODE MODE."),
    ("fault 1 lat", f'there is no mode "lat"; there are {", ".join(MODES)}.'),
    ("show a 3", 'a node is a number from 0 to 4, and not "a".'),
    ("show 3", "a show needs a key; type show NODE KEY."),
    ("renew now", '"now" is too much; type renew.'),
    ("help putt", 'there is no help of "putt"; type help.'),
    ("help put get", 'there is no help of "put get"; type help.'),
    ("put a 'x", "a quotation mark is not closed."),
    ("put a x\\", "nothing stands behind the last \\."),
]
# What is sent for values that are typed with marks, or in digits.
SENT = [
    ("put \"my key\" 'my value'", {"do": "put", "key": "my key", "value": "my value"}),
    ("put a hex 00fF", {"do": "put", "key": "a", "valuehex": "00fF"}),
    ("put a hex", {"do": "put", "key": "a", "value": "hex"}),
    ("put a hex w 1", {"do": "put", "key": "a", "value": "hex", "w": 1}),
    ("put w 1 w 1", {"do": "put", "key": "w", "value": "1", "w": 1}),
    ("put a ''", {"do": "put", "key": "a", "value": ""}),
    ("put \u00e4 \U0001f600", {"do": "put", "key": "\u00e4", "value": "\U0001f600"}),
    ("put a \\\"", {"do": "put", "key": "a", "value": '"'}),
    ("put a x behind 'n0:1 n3:2'", {"do": "put", "key": "a", "value": "x",
                                    "context": "n0:1 n3:2"}),
    ("put a x behind -", {"do": "put", "key": "a", "value": "x", "context": "-"}),
    ("put a x behind junk w 2", {"do": "put", "key": "a", "value": "x", "context": "junk", "w": 2}),
    ("delete a", {"do": "delete", "key": "a"}),
]
