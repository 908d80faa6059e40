"""What the reader of scripts says of texts, by hand from docs/FORMATS.md. tools/schema_test has the built
program read each of them, and holds the schema against those that are JSON."""
from typing import List, Tuple

# What is said: nothing of a script that is taken, or else the refusal.
TAKEN = ""
SCRIPT = "E17 ScriptSyntax 0"
FIRST = "E17 ScriptSyntax 1"
SECOND = "E17 ScriptSyntax 2"
UNKNOWN = "E18 UnknownCommand 1"

Case = Tuple[str, str]

# What stands before a table's texts, and behind them.
HEAD = '"n":1,"r":1,"w":1'
ONE = HEAD + ',"derived":{"nodes":1,"per_node":1}'
AROUND_MEMBERS = '{' + ONE, '}'
AROUND_TOKENS = '{' + HEAD + ',"tokens":', '}'
AROUND_COMMANDS = '{' + ONE + ',"run":[{', '}]}'

# Further members of a script of one node.
MEMBERS: List[Case] = [
    # A member that comes twice has its last value.
    (',"n":"x","n":1', TAKEN),
    (',"n":1,"n":"x"', SCRIPT),
    # A name may be spelled with escapes.
    (r',"\u006e":"x"', SCRIPT),
    (r',"\u0077":1', TAKEN),
    (',"x":1', SCRIPT),
    (',"N":1', SCRIPT),
    # Whole numbers are digits alone.
    (',"n":255', TAKEN),
    (',"n":256', SCRIPT),
    (',"n":1.0', SCRIPT),
    (',"n":1e2', SCRIPT),
    (',"n":1E0', SCRIPT),
    (',"n":-0', SCRIPT),
    (',"n":-0.0', SCRIPT),
    (',"n":0e0', SCRIPT),
    (',"n":-1', SCRIPT),
    (',"n":01', SCRIPT),
    (',"n":+1', SCRIPT),
    (',"n":null', SCRIPT),
    (',"limits":{}', TAKEN),
    (',"limits":{"counter":18446744073709551615}', TAKEN),
    (',"limits":{"counter":18446744073709551616}', SCRIPT),
    (',"limits":{"versions":-1}', SCRIPT),
    (',"limits":{"steps":2.0}', SCRIPT),
    (',"limits":{"step":2}', SCRIPT),
    (',"limits":null', SCRIPT),
    (',"settled":true', TAKEN),
    (',"settled":0', SCRIPT),
    (',"settled":null', SCRIPT),
    (',"keys":["a","b"]', TAKEN),
    (',"keys":[""]', SCRIPT),
    (',"keys":"a"', SCRIPT),
    (',"keys":[1]', SCRIPT),
    (',"keys":["0123456789abcdef0123456789abcdef0123456789abcdef0123456789abcdef"]', TAKEN),
    (',"keys":["0123456789abcdef0123456789abcdef0123456789abcdef0123456789abcdef0"]', SCRIPT),
    (',"tokens":[["20"]]', SCRIPT),
    (',"derived":{"nodes":1}', SCRIPT),
    (',"derived":{"nodes":1,"per_node":0}', TAKEN),
    (',"derived":{"nodes":1,"per_node":1,"x":1}', SCRIPT),
    (',"run":[]', TAKEN),
    (',"run":{}', SCRIPT),
    (',"run":null', SCRIPT),
    # The nodes are counted before the ring is made, which would refuse so many.
    (',"derived":{"nodes":255,"per_node":1},"run":[{"do":"up","node":254}]', TAKEN),
    (',"derived":{"nodes":255,"per_node":1},"run":[{"do":"up","node":255}]', FIRST),
    # A script's own members come before its commands, wherever they stand.
    (',"run":[{}],"x":1', SCRIPT),
    (',"run":[{}],"settled":1', SCRIPT),
    (',"run":[{}],"keys":[""]', SCRIPT),
    (',"run":[{}]', FIRST),
    (',"run":[{"do":"get","key":"a"},{}]', SECOND),
    (',"run":[{"do":"get"},{}]', FIRST),
    (',"run":[{"do":"up","node":0},[]]', SECOND),
    (',"run":[1]', FIRST),
]

# Lists of tokens.
TOKENS: List[Case] = [
    ('[["20"],["60","A0"]]', TAKEN),
    ('[["20","2000"]]', TAKEN),
    ('[["20",null]]', SCRIPT),
    ('[]', TAKEN),
    ('[[]]', TAKEN),
    ('["20"]', SCRIPT),
    ('[[20]]', SCRIPT),
    ('[["2"]]', SCRIPT),
    ('[["20"],["2z"]]', SCRIPT),
    ('1', SCRIPT),
    ('null', SCRIPT),
    ('[[""]]', SCRIPT),
    ('[["200"]]', SCRIPT),
    ('[["0x20"]]', SCRIPT),
    ('[[" 20"]]', SCRIPT),
    ('[["+1"]]', SCRIPT),
    ('[["0123456789abcdefFEDCBA9876543210"]]', TAKEN),
    ('[["0123456789abcdef0123456789abcde"]]', SCRIPT),
    ('[["0123456789abcdef0123456789abcdef00"]]', SCRIPT),
]

# Members of a script's first command.
COMMANDS: List[Case] = [
    ('"do":"put","key":"","value":""', TAKEN),
    ('"do":"put","key":"a"', FIRST),
    ('"do":"put","key":"a","value":"","valuehex":""', FIRST),
    ('"do":"put","value":""', FIRST),
    ('"do":"put","key":"a","value":1', FIRST),
    ('"do":"put","key":"a","valuehex":""', TAKEN),
    ('"do":"put","key":"a","valuehex":"00fF"', TAKEN),
    ('"do":"put","key":"a","valuehex":"0"', FIRST),
    ('"do":"put","key":"a","valuehex":"0g"', FIRST),
    ('"do":"put","key":"a","valuehex":"0x00"', FIRST),
    ('"do":"put","key":"a","value":"","context":"no"', TAKEN),
    ('"do":"put","key":"a","value":"","context":null', FIRST),
    ('"do":"put","key":"a","value":"","session":31', TAKEN),
    ('"do":"put","key":"a","value":"","session":32', FIRST),
    ('"do":"put","key":"a","value":"","session":1.0', FIRST),
    ('"do":"put","key":"a","value":"","session":null', FIRST),
    ('"do":"put","key":"a","value":"","w":255', TAKEN),
    ('"do":"put","key":"a","value":"","w":256', FIRST),
    ('"do":"put","key":"a","value":"","w":-1', FIRST),
    ('"do":"put","key":"a","value":"","node":0', FIRST),
    ('"do":"delete","key":"a","value":""', FIRST),
    ('"do":"get","key":"a","w":1', FIRST),
    ('"do":"get","key":"a","session":32', FIRST),
    ('"do":"down","node":0', TAKEN),
    ('"do":"down","node":1', FIRST),
    ('"do":"down"', FIRST),
    ('"do":"up","node":0.0', FIRST),
    ('"do":"up","node":0,"key":"a"', FIRST),
    ('"do":"deliver","node":-0', FIRST),
    ('"do":"handoff","node":"0"', FIRST),
    ('"do":"show","node":0', FIRST),
    ('"do":"show","node":1,"key":"a"', FIRST),
    ('"do":"fault","node":0', FIRST),
    ('"do":"fault","node":0,"mode":"Mute"', FIRST),
    ('"do":"fault","node":1,"mode":"mute"', FIRST),
    ('"do":1', FIRST),
    ('"do":"gett","do":"get","key":"a"', TAKEN),
    ('"key":"a"', FIRST),
    # A word that names no command comes before what else is wrong.
    ('"do":"Put"', UNKNOWN),
    ('"do":"","x":1', UNKNOWN),
    # Numbers are read before it is asked whose they are.
    ('"do":"get","key":"a","x":1e308', FIRST),
    ('"do":"get","key":"a","x":1e-999', FIRST),
    ('"do":"get","key":"a","x":1.7976931348623158e308', FIRST),
    ('"do":"get","key":"a","x":1.7976931348623159e308', SCRIPT),
    ('"do":"get","key":"a","x":1e309', SCRIPT),
    ('"do":"get","key":"a","x":-1e309', SCRIPT),
    # Texts.
    ('"do":"get","key":"\x7f"', TAKEN),
    ('"do":"get","key":"\x1f"', SCRIPT),
    (r'"do":"get","key":"\u0000\/\u00E9\u00e9"', TAKEN),
    (r'"do":"get","key":"\ud83d\ude00"', TAKEN),
    (r'"do":"get","key":"\ud83d"', SCRIPT),
    (r'"do":"get","key":"\ude00"', SCRIPT),
    (r'"do":"get","key":"\ude00\ud83d"', SCRIPT),
    (r'"do":"get","key":"\x"', SCRIPT),
]

# Whole texts.
WHOLE: List[Case] = [
    ('', SCRIPT),
    (' ', SCRIPT),
    ('[]', SCRIPT),
    ('1', SCRIPT),
    ('null', SCRIPT),
    ('"x"', SCRIPT),
    ('{', SCRIPT),
    ('{}', SCRIPT),
    ('{"n":1}', SCRIPT),
    ('nul', SCRIPT),
    ('{' + HEAD + '}', SCRIPT),
    # What stands around a script that is good.
    ('{' + ONE + '}', TAKEN),
    (' \t\r\n{' + ONE + '} \t\r\n', TAKEN),
    ('\ufeff{' + ONE + '}', SCRIPT),
    ('\f{' + ONE + '}', SCRIPT),
    ('{' + ONE + '}{}', SCRIPT),
    ('{' + ONE + '},', SCRIPT),
    ('{' + ONE + '}\0', SCRIPT),
]

# A get's key of one byte, which is UTF-8 or not.
BYTES: List[Tuple[bytes, str]] = [
    (b'k', TAKEN),
    (b'\x80', SCRIPT),
    (b'\xc0', SCRIPT),
    (b'\xed', SCRIPT),
    (b'\xff', SCRIPT),
]

# How often what is written how often, as a member of a get that no get has: long numbers, and lists in lists.
MANY: List[Tuple[str, str, int, str]] = [
    ('9', '', 308, FIRST),
    ('9', '', 309, SCRIPT),
    ('[', ']', 124, FIRST),
    ('[', ']', 125, SCRIPT),
]

# How many commands a script has.
COUNTS: List[Tuple[int, str]] = [(100_000, TAKEN), (100_001, SCRIPT)]

# What the reader refuses and no schema can: how a number is spelt, a text that comes twice, how
# many bytes a text has, and a node past the ring.
BEYOND = {
    r',"n":1.0', r',"n":1e2', r',"n":1E0', r',"n":-0', r',"n":-0.0', r',"n":0e0',
    r',"limits":{"steps":2.0}',
    r'"do":"put","key":"a","value":"","session":1.0',
    r'"do":"up","node":0.0', r'"do":"deliver","node":-0',
    r'"do":"down","node":1', r'"do":"show","node":1,"key":"a"',
    r'"do":"fault","node":1,"mode":"mute"',
    r'"do":"get","key":"\ud83d"', r'"do":"get","key":"\ude00"', r'"do":"get","key":"\ude00\ud83d"',
}
