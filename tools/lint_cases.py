"""Scripts with what tools/lint says of them, by hand: line, column, path and text."""
import json
from pathlib import Path
from typing import List, Tuple, Union

from reading.rules import MAX_VALUE_BYTES

# A script up to its commands, which then have a line each, from the third on.
HEAD = '{"n":3,"r":2,"w":2,"tokens":[["20"],["60"],["a0"]],\n"run":[\n'
# A script up to a further member, which begins on the second line.
ONE = '{"n":1,"r":1,"w":1,"derived":{"nodes":1,"per_node":1},\n'
SCHEMA = json.loads((Path(__file__).resolve().parents[1] / "docs/script.schema.json").read_text())
WORDS = ", ".join(SCHEMA["definitions"]["command"]["properties"]["do"]["enum"])
TOP = "n, r, w, tokens, derived, limits, keys, settled, run"
TEXT, SMALL = "a text in double quotes", "a whole number from 0 to 255"
CONTEXT = "write what a get printed, as n0:1-3,5 n3:2 (E1 ContextSyntax)"
E4 = "E4 TokenClash 20000000000000000000000000000000"

Case = Tuple[Union[str, bytes], List[str]]

NO_JSON: List[Case] = [
    ("", ["1:1: the file ends here; write a value"]),
    ("[1", ["1:3: the file ends here; write ',' or ']'"]),
    ('{"n":1,}', ["1:7: no comma stands before '}'; take it away"]),
    ('{"n":1\n"r":1}', ["2:1: '\"' can't stand here; write ',' or '}'"]),
    ("{'n':1}", ["1:2: \"'\" can't stand here; write a name in double quotes, or '}'"]),
    ('{"n" 1}', ["1:6: '1' can't stand here; write ':' behind the name"]),
    ('{"n":1 // x\n}', ["1:8: JSON has no comments; take it away"]),
    ('{"n":1} x', ["1:9: something stands behind the end of the script; take it away"]),
    ('{"n":01}', ["1:6: '01' is no number; take away the zero before it"]),
    ('{"n":+1}', ["1:6: '+1' is no number; take away the +"]),
    ('{"n":.5}', ["1:6: '.5' is no number; write a digit before the point"]),
    ('{"n":1e309}', ["1:6: this number is beyond what a double can be"]),
    ('{"n":True}', ["1:6: there is no word 'True'; did you mean true?"]),
    ('{\n"n":"a\nb"}', ["2:5: this text has no end on its line; close it with a \""]),
    ('{"\t":1}', ["1:3: a raw byte below 0x20; write \\u0009"]),
    ('{"n":"\\x"}', ["1:7: there is no such escape; write \\\\ for a backslash"]),
    ('{"n":"\\u12"}', ["1:7: \\u has four hexadecimal digits"]),
    (
        '{"n":"\\ud83d"}',
        ["1:7: half a surrogate pair; write both halves, or the character itself"],
    ),
    (b'{"\xc3\xa9\xff":1}', ["1:4: a byte that is no UTF-8; save the file as UTF-8"]),
    ("\ufeff{}", ["1:1: the file begins with a byte order mark; save it without one"]),
    ("[" * 128, ["1:128: this bracket stands in 127 others; that is too deep"]),
    ("[]", ["1:1: a list can't stand here; write an object in { }"]),
]

SCRIPTS: List[Case] = [
    (ONE + '"run":[]}', []),
    (
        '{"n":1,"r":1,"w":1}',
        ["1:1: a script of dynamo has neither 'tokens' nor 'derived'; add one of them"],
    ),
    (
        '{"n":1,"w":1,"derived":{"nodes":1,"per_node":1}}',
        [f"1:1: a script of dynamo has no 'r'; add it with {SMALL}"],
    ),
    (
        '{"n":1,"r":1,"w":1,"tokens":[["20"]],"derived":{"nodes":1,"per_node":1}}',
        [
            "1:20: tokens: a script of dynamo can't have both 'tokens' and 'derived'; "
            "take one away"
        ],
    ),
    (
        '{"n":1,"r":1,"w":1,"derived":{"nodes":1}}',
        [f"1:30: derived: 'derived' has no 'per_node'; add it with {SMALL}"],
    ),
    (
        '{"n":1,"r":1,"w":1,"derived":{"nodes":33,"per_node":0}}',
        [
            "1:39: derived/nodes: 33 is too many; write 1 to 32 (E6 TooMany)",
            "1:53: derived/per_node: no node has a token; write 1 to 64 (E5 NodeWithoutToken 0)",
        ],
    ),
    (
        '{"n":3,"r":2,"w":4,"tokens":[["20"],["60"],["a0"]]}',
        ["1:18: w: w is 4 and n is 3; write 1 to 3 (E16 BadQuorum)"],
    ),
    (
        '{"n":4,"r":0,"w":2,"tokens":[["20"],["60"],["a0"]]}',
        [
            "1:6: n: n is 4 and the ring has 3 nodes; write 1 to 3 (E16 BadQuorum)",
            "1:12: r: r is 0; write 1 or more (E16 BadQuorum)",
        ],
    ),
    (
        '{"n":3,"r":2,"w":2,"tokens":[["20"],["2000"],["a0"]]}',
        [f"1:38: tokens/1/0: this lies where tokens/0/0 does, at 1:31; move one of them ({E4})"],
    ),
    (
        '{"n":3,"r":2,"w":2,"tokens":[["20"],[],["a0"]]}',
        ["1:37: tokens/1: node 1 has no token; give it one (E5 NodeWithoutToken 1)"],
    ),
    (
        '{"n":1,"r":1,"w":1,"tokens":[]}',
        [
            "1:29: tokens: the ring has no node; give each node a list of tokens "
            "(E5 NodeWithoutToken 0)"
        ],
    ),
    (
        '{"n":1,"r":1,"w":1,"tokens":[["2"]]}',
        [
            "1:31: tokens/0/0: '2' can't stand here; "
            "write 2 to 32 hexadecimal digits, even in number"
        ],
    ),
    (
        ONE + '"limits":{"steps":0}}',
        [
            "2:19: limits/steps: '0' is out of range; "
            "write a whole number from 1 to 1000000 (E6 TooMany)"
        ],
    ),
    (
        ONE + '"limits":{"steps":-1}}',
        ["2:19: limits/steps: '-1' is out of range; write a whole number from 1 to 1000000"],
    ),
    (
        ONE + '"limits":{"step":2}}',
        ["2:11: limits/step: there is no 'step' in 'limits'; did you mean 'steps'?"],
    ),
    (
        ONE + '"keys":["",1]}',
        [
            "2:9: keys/0: this text has 0 bytes; write 1 to 64",
            f"2:12: keys/1: a number can't stand here; write {TEXT}",
        ],
    ),
    (ONE + '"settled":0}', ["2:11: settled: a number can't stand here; write true or false"]),
    (ONE + '"run":{}}', ["2:7: run: an object can't stand here; write a list in [ ]"]),
    (
        ONE + '"n/m":1}',
        [f"2:1: n~1m: there is no 'n/m' in a script of dynamo; it has {TOP}"],
    ),
    (ONE + '"n":1}', ["1:2: warning: n: this does not count: 'n' comes again at 2:1"]),
]

# Commands of a script, each on a line of its own.
COMMANDS: List[Case] = [
    (
        '{"do":"put","kye":"a","value":"x"}',
        ["3:13: run/0/kye: there is no 'kye' in a put; did you mean 'key'?"],
    ),
    (
        '{"do":"put","key":"a","valeu":"x"}',
        ["3:23: run/0/valeu: there is no 'valeu' in a put; did you mean 'value'?"],
    ),
    (
        '{"do":"gett","key":"a"}',
        ["3:7: run/0/do: there is no 'gett'; did you mean 'get'? (E18 UnknownCommand 1)"],
    ),
    (
        '{"do":"walk"}',
        [f"3:7: run/0/do: there is no 'walk'; write one of {WORDS} (E18 UnknownCommand 1)"],
    ),
    (
        '{"Do":"get","key":"a"}',
        ["3:2: run/0/Do: there is no 'Do' in a command; did you mean 'do'?"],
    ),
    ('{"key":"a"}', [f"3:1: run/0: a command has no 'do'; add it with one of {WORDS}"]),
    ("7", ["3:1: run/0: a number can't stand here; write an object in { }"]),
    ('{"do":7}', [f"3:7: run/0/do: a number can't stand here; write one of {WORDS}"]),
    (
        '{"do":"put","key":"a"}',
        ["3:1: run/0: a put has neither 'value' nor 'valuehex'; add one of them"],
    ),
    (
        '{"do":"put","key":"a","value":"","valuehex":""}',
        ["3:23: run/0/value: a put can't have both 'value' and 'valuehex'; take one away"],
    ),
    (
        '{"do":"put","key":"a","valuehex":"0g"}',
        [
            "3:34: run/0/valuehex: '0g' can't stand here; "
            "write hexadecimal digits, even in number"
        ],
    ),
    (
        '{"do":"delete","key":"a","value":"x"}',
        [
            "3:26: run/0/value: there is no 'value' in a delete; "
            "it has do, key, context, session, w"
        ],
    ),
    ('{"do":"get"}', [f"3:1: run/0: a get has no 'key'; add it with {TEXT}"]),
    ('{"do":"get","key":5}', [f"3:19: run/0/key: a number can't stand here; write {TEXT}"]),
    (
        '{"do":"get","key":"a","session":32}',
        ["3:33: run/0/session: '32' is out of range; write a whole number from 0 to 31"],
    ),
    (
        '{"do":"down","node":0,"key":"a"}',
        [
            "3:23: run/0/key: there is no 'key' in a down, up, deliver or handoff; "
            "it has do, node"
        ],
    ),
    (
        '{"do":"get","key":"a"},\n{"do":"up","node":3}',
        ["4:19: run/1/node: there is no node 3; the ring has nodes 0 to 2"],
    ),
    (
        '{"do":"up","node":1.0}',
        [
            "3:19: run/0/node: '1.0' is not spelt in digits alone; "
            "write a whole number from 0 to 254"
        ],
    ),
    (
        '{"do":"fault","node":1,"mode":"mut"}',
        ["3:31: run/0/mode: there is no 'mut'; did you mean 'mute'?"],
    ),
    (
        '{"do":"get","key":"a","key":"b"}',
        ["3:13: warning: run/0/key: this does not count: 'key' comes again at 3:23"],
    ),
]

WARNINGS: List[Case] = [
    (
        '{"do":"get","key":""}',
        ["3:19: warning: run/0/key: this text has 0 bytes; write 1 to 64 (E2 KeySize)"],
    ),
    (
        '{"do":"put","key":"a","valuehex":"' + "00" * (MAX_VALUE_BYTES + 1) + '"}',
        [
            f"3:34: warning: run/0/valuehex: these are {MAX_VALUE_BYTES + 1} bytes; "
            f"write {MAX_VALUE_BYTES} at most (E3 ValueSize)"
        ],
    ),
    (
        '{"do":"put","key":"a","value":"","context":"n0:1,2"}',
        [f"3:44: warning: run/0/context: 'n0:1,2' is no context; {CONTEXT}"],
    ),
    (
        '{"do":"put","key":"a","value":"","w":4}',
        ["3:38: warning: run/0/w: w is 4 and n is 3; write 1 to 3 (E16 BadQuorum)"],
    ),
    (
        '{"do":"put","key":"a","value":"","context":"n2:7"}',
        [
            "3:44: warning: run/0/context: its key has 0 versions by then at most, "
            "and 7 are named (E8 ContextUnknown)"
        ],
    ),
    (
        '{"do":"put","key":"a","value":""},\n'
        '{"do":"put","key":"a","value":"","context":"n0:1"},\n'
        '{"do":"put","key":"a","value":"","context":"n7:1"}',
        [
            "5:44: warning: run/2/context: there is no node 7; "
            "write what a get of this key printed (E8 ContextUnknown)"
        ],
    ),
    (
        '{"do":"down","node":1},\n{"do":"handoff","node":1},\n{"do":"up","node":1},\n'
        '{"do":"handoff","node":1}',
        ["4:7: warning: run/1/do: node 1 is down here; write an up before (E13 Down)"],
    ),
    (
        '{"do":"down","node":0},\n{"do":"down","node":1},\n{"do":"get","key":"a"},\n'
        '{"do":"down","node":2},\n{"do":"get","key":"a"}',
        ["7:7: warning: run/4/do: every node is down here; write an up before (E14 NoNode)"],
    ),
]

CASES = NO_JSON + SCRIPTS + [
    (HEAD + commands + "\n]}", said) for commands, said in COMMANDS + WARNINGS
]
