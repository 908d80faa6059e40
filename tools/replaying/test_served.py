"""Outputs of services by hand, from docs/FORMATS.md, and how they are tampered with."""
import re
from typing import Dict, List

from replaying.test_rows import HEAD, output_of
from replaying.test_tampering import Tampering, renumber, tamper

# The script and the lines of the first service.
SCRIPT = """{"n":3,"r":2,"w":2,"tokens":[["20"],["60"],["a0"],["d0"],["f0"]]}"""
LINES = """{"do":"put","key":"a","value":"x"}
{"do":"get","key":"a"}
a line that is no command
{"do":"put","key":"a","value":"y","session":4}

{"do":"get","key":"a","session":4}
{"do":"get","key":"abc"}
{"do":"renew"}
{"do":"walk"}
{"do":"put","key":"a","value":"z","context":"n0:1-2"}
{"do":"put","key":"a","value":"z","context":"n0:4"}
{"do":"renew"}"""
STORED = "answers 0/0=stored 1/1=stored 2/2=stored"
CARRIED = """
step 1 issue 0 61 n0:1 behind - value 78
step 2 hold 0/0 61 n0:1
step 3 hold 1/1 61 n0:1
step 4 hold 2/2 61 n0:1
step 5 ack 61 n0:1 w 2 session 0
step 6 issue 0 61 n0:2 behind - value 79
step 7 hold 0/0 61 n0:2
step 8 hold 1/1 61 n0:1-2
step 9 hold 2/2 61 n0:1-2
step 10 ack 61 n0:2 w 2 session 0
"""

# Lines 5 and 6 are gets of sessions 4 and 0. In the second service node 1 keeps its message for
# the delivery of line 8, and nodes 2, 3 and 4 are down.
SERVED: Dict[str, str] = {
    "a service": HEAD + f"""
1 put ok n0:1 {STORED}
step 1 issue 0 61 n0:1 behind - value 78
step 2 hold 0/0 61 n0:1
step 3 hold 1/1 61 n0:1
step 4 hold 2/2 61 n0:1
step 5 ack 61 n0:1 w 2 session 0
2 get ok context n0:1 from 0/0 1/1 values n0:1=78
step 6 fetch 0/0 61
step 7 fetch 1/1 61
step 8 fetch 2/2 61
told 6 7 session 0
3 E17 ScriptSyntax 3
4 put ok n0:2 {STORED}
step 9 issue 0 61 n0:2 behind - value 79
step 10 hold 0/0 61 n0:2
step 11 hold 1/1 61 n0:1-2
step 12 hold 2/2 61 n0:1-2
step 13 ack 61 n0:2 w 2 session 4
5 get ok context n0:1-2 from 0/0 1/1 values n0:1=78 n0:2=79
step 14 fetch 0/0 61
step 15 fetch 1/1 61
step 16 fetch 2/2 61
told 14 15 session 4
6 get ok context - from 2/2 3/3 values none
step 17 fetch 2/2 616263
step 18 fetch 3/3 616263
step 19 fetch 4/4 616263
told 17 18 session 0
held 0/0 61 n0:1-2
held 1/1 61 n0:1-2
held 2/2 61 n0:1-2
acked 61 n0:1 covered 0/0 1/1 2/2
acked 61 n0:2 covered 0/0 1/1 2/2
end held 6 acked 2 gets 3 steps 19
7 renew ok carried 2
{CARRIED}
8 E18 UnknownCommand 8
9 put ok n0:3 {STORED}
step 11 issue 0 61 n0:3 behind n0:1-2 value 7a
step 12 hold 0/0 61 n0:3
step 13 hold 1/1 61 n0:3
step 14 hold 2/2 61 n0:3
step 15 ack 61 n0:3 w 2 session 0
10 put E8 ContextUnknown n0:4
held 0/0 61 n0:3
held 1/1 61 n0:3
held 2/2 61 n0:3
acked 61 n0:1 covered 0/0 1/1 2/2
acked 61 n0:2 covered 0/0 1/1 2/2
acked 61 n0:3 covered 0/0 1/1 2/2
end held 3 acked 3 gets 0 steps 15
11 renew ok carried 1
step 1 issue 0 61 n0:1 behind - value 7a
step 2 hold 0/0 61 n0:1
step 3 hold 1/1 61 n0:1
step 4 hold 2/2 61 n0:1
step 5 ack 61 n0:1 w 2 session 0
held 0/0 61 n0:1
held 1/1 61 n0:1
held 2/2 61 n0:1
acked 61 n0:1 covered 0/0 1/1 2/2
end held 3 acked 1 gets 0 steps 5
""",
    "a service with a late message": HEAD + """
1 fault ok
2 down ok
3 down ok
4 down ok
5 put E15 NotEnough n0:1 answers 0/0=stored 1/1=noanswer 2/2=down 3/1=down 4/2=down
step 1 issue 0 61 n0:1 behind - value 78
step 2 hold 0/0 61 n0:1
6 show 1 own -
7 fault ok
8 deliver ok 1
step 3 hold 1/1 61 n0:1
9 show 1 own n0:1
10 get ok context n0:1 from 0/0 1/1 values n0:1=78
step 4 fetch 0/0 61
step 5 fetch 1/1 61
told 4 5 session 0
11 E0 OutOfMemory
held 0/0 61 n0:1
held 1/1 61 n0:1
end held 2 acked 0 gets 1 steps 5
""",
    "a service of nothing": HEAD + """
end held 0 acked 0 gets 0 steps 0
1 renew ok carried 0
end held 0 acked 0 gets 0 steps 0
""",
}


ROWS: Dict[str, str] = {name: output_of(text) for name, text in SERVED.items()}

ONE, LATE = "a service", "a service with a late message"
AT_1, ACK = "step 11 hold 1/1 61 n0:1-2", "step 13 ack 61 n0:2 w 2 session 4"
GET, OTHER = ("5 get ok context n0:1-2 from 0/0 1/1 values n0:1=78 n0:2=79",
              "6 get ok context - from 2/2 3/3 values none")
TOLD, FIRST_END = "told 14 15 session 4", "end held 6 acked 2 gets 3 steps 19"
EARLY, LAST = "told 6 7 session 0", "told 17 18 session 0"
ISSUE, RENEWAL = "step 6 issue 0 61 n0:2 behind - value 79", "7 renew ok carried 2"
AGAIN, AGAIN_ACK = "step 8 hold 1/1 61 n0:1-2", "step 10 ack 61 n0:2 w 2 session 0"

# These leave the numbers of the steps as they are.
TAMPERED: List[Tampering] = [
    tamper(ONE, "a step left out", "numbers in order", AT_1, ""),
    tamper(ONE, "a step of the second cluster left out", "numbers in order", AGAIN, ""),
    tamper(ONE, "a step of the first cluster in the second", "numbers in order", AT_1, "",
           AGAIN, f"{AT_1}\n{AGAIN}"),
    tamper(ONE, "steps that are numbered on", "numbers in order", ISSUE,
           ISSUE.replace("step 6", "step 25")),
    tamper(ONE, "a value of a get left out", "row of a get", GET, GET.replace(" n0:2=79", "")),
    tamper(ONE, "another context of a get", "row of a get", GET, GET.replace("n0:1-2", "n0:2")),
    tamper(ONE, "a get from another place", "row of a get", GET, GET.replace("1/1", "2/2")),
    tamper(ONE, "a get that no fetches answer", "steps of a command", "3 E17 ScriptSyntax 3",
           f"3{OTHER[1:]}"),
    tamper(ONE, "a get told again", "since", LAST, EARLY),
    tamper(ONE, "a get that was refused and told", "steps of a command", OTHER, "6 E17 ScriptSyntax 6"),
    tamper(ONE, "a get not told", "steps of a command", TOLD, ""),
    tamper(ONE, "a fetch not told", "told fetches", TOLD, "told 14 session 4"),
    tamper(ONE, "another fetch told", "row of a get", TOLD, "told 14 16 session 4"),
    tamper(ONE, "a fetch of two gets told", "told fetches", TOLD, "told 14 18 session 4"),
    tamper(ONE, "two gets told in one line", "told fetches", LAST, "", TOLD,
           "told 14 15 17 18 session 4"),
    tamper(ONE, "a put of a dot that was not made", "steps of a command", f"4 put ok n0:2 {STORED}",
           f"4 put ok n0:3 {STORED}"),
    tamper(ONE, "an answer that says down", "answers of a command", f"4 put ok n0:2 {STORED}",
           f"4 put ok n0:2 {STORED.replace('1/1=stored', '1/1=down')}"),
    tamper(ONE, "a put that was not done", "steps of a command", "3 E17 ScriptSyntax 3",
           f"3 put ok n0:2 {STORED}"),
    tamper(ONE, "a put that is not told", "steps of a command", f"9 put ok n0:3 {STORED}",
           "9 E17 ScriptSyntax 9"),
    tamper(ONE, "a held line changed", "held lines", "held 2/2 61 n0:1-2", "held 2/2 61 n0:2"),
    tamper(ONE, "an acked line of the second cluster left out", "acked lines",
           "acked 61 n0:3 covered 0/0 1/1 2/2", ""),
    tamper(ONE, "the gets of the first cluster counted wrong", "counts", FIRST_END,
           FIRST_END.replace("gets 3", "gets 4")),
    tamper(ONE, "the steps counted on", "counts", "end held 3 acked 3 gets 0 steps 15",
           "end held 3 acked 3 gets 0 steps 34"),
    tamper(ONE, "a number of another line", "form of a line", "3 E17 ScriptSyntax 3",
           "3 E17 ScriptSyntax 4"),
    tamper(ONE, "a line without its answer", "numbers in order", "3 E17 ScriptSyntax 3", ""),
    tamper(ONE, "numbers that begin anew", "numbers in order", "8 E18 UnknownCommand 8",
           "1 E18 UnknownCommand 1"),
    tamper(ONE, "a renewal without an audit", "order of lines", "3 E17 ScriptSyntax 3",
           "3 renew ok carried 0"),
    tamper(ONE, "an audit without its end", "order of lines", FIRST_END, ""),
    tamper(ONE, "a command behind the audit", "order of lines", f"{FIRST_END}\n{RENEWAL}",
           f"{FIRST_END}\n7 down ok"),
    tamper(ONE, "a second head", "order of lines", RENEWAL, f"{RENEWAL}\ncluster n 3 r 2 w 2"),
    tamper(ONE, "too few values carried", "carried values", RENEWAL, "7 renew ok carried 1"),
    tamper(ONE, "too many values carried", "carried values", RENEWAL, "7 renew ok carried 3"),
    tamper(ONE, "another value carried", "carried values", ISSUE, ISSUE.replace("79", "77")),
    tamper(ONE, "a deletion carried", "carried values", ISSUE, ISSUE.replace("value 79",
           "deleted")),
    tamper(ONE, "a value carried behind another", "carried values", ISSUE,
           ISSUE.replace("behind -", "behind n0:1")),
    tamper(ONE, "a value carried in another session", "carried values", AGAIN_ACK,
           AGAIN_ACK.replace("session 0", "session 1")),
    tamper(ONE, "a value carried to fewer homes", "carried values", AGAIN_ACK,
           AGAIN_ACK.replace("w 2", "w 1")),
    tamper(ONE, "a value carried to a stand-in", "held lines", AGAIN, AGAIN.replace("1/1", "3/1")),
    tamper(ONE, "a value carried to another home first", "steps of a command",
           f"{ISSUE}\nstep 7 hold 0/0 61 n0:2", f"{ISSUE}\nstep 7 hold 1/1 61 n0:2"),
    tamper(LATE, "a message shown before it came", "row shown", "6 show 1 own -",
           "6 show 1 own n0:1"),
    tamper(LATE, "messages counted wrong", "counts", "8 deliver ok 1", "8 deliver ok 2"),
]

# Here the steps of each cluster are numbered anew.
RENUMBERED: List[Tampering] = [
    tamper(ONE, "a hold left out", "answers of a command", AT_1, ""),
    tamper(ONE, "an ack left out", "steps of a command", ACK, ""),
    tamper(ONE, "an ack of the first cluster in the second", "steps of a command", ACK, "",
           AGAIN_ACK, f"{AGAIN_ACK}\n{ACK}"),
    tamper(ONE, "a fetch of the first cluster in the second", "steps of a command",
           "step 16 fetch 2/2 61", "", AGAIN_ACK, f"{AGAIN_ACK}\nstep 16 fetch 2/2 61"),
    tamper(ONE, "a put left out", "steps of a command",
           "step 9 issue 0 61 n0:2 behind - value 79\nstep 10 hold 0/0 61 n0:2\n"
           f"{AT_1}\nstep 12 hold 2/2 61 n0:1-2\n{ACK}", ""),
    tamper(ONE, "a fetch of nobody", "steps of a command", "step 14 fetch 0/0 61",
           "step 14 fetch 3/3 616263\nstep 20 fetch 0/0 61"),
    tamper(ONE, "a carried value without its ack", "carried values", AGAIN_ACK, ""),
    tamper(ONE, "a carried value left out", "steps of a command",
           f"{ISSUE}\nstep 7 hold 0/0 61 n0:2\n{AGAIN}\n"
           f"step 9 hold 2/2 61 n0:1-2\n{AGAIN_ACK}", ""),
    tamper(LATE, "a message left out", "counts", "step 3 hold 1/1 61 n0:1", ""),
]


def renumber_each(text: str) -> str:
    """Numbers the steps of each cluster anew."""
    return "".join(map(renumber, re.split(r"(?m)^(?=\d+ renew )", text)))
