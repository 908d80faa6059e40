"""Outputs with their step lines, by hand, from docs/FORMATS.md and docs/DEFINITIONS.md.

The rows that are named for a scene of examples/ have its script and its other lines.
"""
from typing import Dict

HEAD = """
cluster n 3 r 2 w 2
token 20000000000000000000000000000000 0
token 60000000000000000000000000000000 1
token a0000000000000000000000000000000 2
token d0000000000000000000000000000000 3
token f0000000000000000000000000000000 4
"""
PUT = """
1 put ok n0:1 answers 0/0=stored 1/1=stored 2/2=stored
step 1 issue 0 61 n0:1 behind - value 78
step 2 hold 0/0 61 n0:1
step 3 hold 1/1 61 n0:1
step 4 hold 2/2 61 n0:1
step 5 ack 61 n0:1 w 2 session 0
"""

SCENES: Dict[str, str] = {
    "put_then_get": HEAD + PUT + """
2 get ok context n0:1 from 0/0 1/1 values n0:1=78
step 6 fetch 0/0 61
step 7 fetch 1/1 61
step 8 fetch 2/2 61
told 6 7 session 0
3 get ok context - from 2/2 3/3 values none
step 9 fetch 2/2 616263
step 10 fetch 3/3 616263
step 11 fetch 4/4 616263
told 9 10 session 0
held 0/0 61 n0:1
held 1/1 61 n0:1
held 2/2 61 n0:1
acked 61 n0:1 covered 0/0 1/1 2/2
end held 3 acked 1 gets 2 steps 11
""",
    "siblings_reconciled": HEAD + PUT + """
2 put ok n0:2 answers 0/0=stored 1/1=stored 2/2=stored
step 6 issue 0 61 n0:2 behind - value 79
step 7 hold 0/0 61 n0:2
step 8 hold 1/1 61 n0:1-2
step 9 hold 2/2 61 n0:1-2
step 10 ack 61 n0:2 w 2 session 0
3 get ok context n0:1-2 from 0/0 1/1 values n0:1=78 n0:2=79
step 11 fetch 0/0 61
step 12 fetch 1/1 61
step 13 fetch 2/2 61
told 11 12 session 0
4 put ok n0:3 answers 0/0=stored 1/1=stored 2/2=stored
step 14 issue 0 61 n0:3 behind n0:1-2 value 7a
step 15 hold 0/0 61 n0:3
step 16 hold 1/1 61 n0:3
step 17 hold 2/2 61 n0:3
step 18 ack 61 n0:3 w 2 session 0
5 get ok context n0:1-3 from 0/0 1/1 values n0:3=7a
step 19 fetch 0/0 61
step 20 fetch 1/1 61
step 21 fetch 2/2 61
told 19 20 session 0
held 0/0 61 n0:3
held 1/1 61 n0:3
held 2/2 61 n0:3
acked 61 n0:1 covered 0/0 1/1 2/2
acked 61 n0:2 covered 0/0 1/1 2/2
acked 61 n0:3 covered 0/0 1/1 2/2
end held 3 acked 3 gets 2 steps 21
""",
    "stand_in_hands_over": HEAD + PUT.replace("value 78", "value 77") + """
2 down ok
3 put ok n1:1 answers 1/1=stored 0/0=down 2/2=stored 3/0=stored
step 6 issue 1 61 n1:1 behind - value 78
step 7 hold 1/1 61 n1:1
step 8 hold 2/2 61 n0:1 n1:1
step 9 hold 3/0 61 n0:1 n1:1
step 10 ack 61 n1:1 w 2 session 0
4 up ok
5 show 0 own n0:1
6 handoff ok offers 1 stored 1 released 2
step 11 hold 0/0 61 n0:1 n1:1
step 12 release 3/0 61 n0:1
step 13 release 3/0 61 n1:1
7 show 0 own n0:1 n1:1
8 show 3 own -
held 0/0 61 n0:1 n1:1
held 1/1 61 n0:1 n1:1
held 2/2 61 n0:1 n1:1
acked 61 n0:1 covered 0/0 1/1 2/2
acked 61 n1:1 covered 0/0 1/1 2/2
end held 6 acked 2 gets 0 steps 13
""",
    "counters_never_come_again": HEAD + """
1 down ok
2 down ok
3 down ok
4 put ok n3:1 answers 3/0=stored 1/1=down 2/2=down 4/1=stored
step 1 issue 3 61 n3:1 behind - value 78
step 2 hold 3/0 61 n3:1
step 3 hold 4/1 61 n3:1
step 4 ack 61 n3:1 w 2 session 0
5 up ok
6 up ok
7 up ok
8 handoff ok offers 1 stored 1 released 1
step 5 hold 0/0 61 n3:1
step 6 release 3/0 61 n3:1
9 handoff ok offers 1 stored 1 released 1
step 7 hold 1/1 61 n3:1
step 8 release 4/1 61 n3:1
10 down ok
11 down ok
12 down ok
13 put ok n3:2 answers 3/0=stored 1/1=down 2/2=down 4/1=stored
step 9 issue 3 61 n3:2 behind - value 79
step 10 hold 3/0 61 n3:2
step 11 hold 4/1 61 n3:2
step 12 ack 61 n3:2 w 2 session 0
14 get ok context n3:2 from 3/0 4/1 values n3:2=79
step 13 fetch 3/0 61
step 14 fetch 4/1 61
told 13 14 session 0
held 0/0 61 n3:1
held 1/1 61 n3:1
held 3/0 61 n3:2
held 4/1 61 n3:2
acked 61 n3:1 covered 0/0 1/1
acked 61 n3:2 covered 3/0 4/1
end held 4 acked 2 gets 1 steps 14
""",
    "home_and_its_stand_in_count_once": """
cluster n 3 r 2 w 3
token 20000000000000000000000000000000 0
token 60000000000000000000000000000000 1
token a0000000000000000000000000000000 2
token d0000000000000000000000000000000 3
1 fault ok
2 down ok
3 put E15 NotEnough n0:1 answers 0/0=stored 1/1=noanswer 2/2=down 3/1=stored 1/1=stored
step 1 issue 0 61 n0:1 behind - value 78
step 2 hold 0/0 61 n0:1
step 3 hold 1/1 61 n0:1
step 4 hold 3/1 61 n0:1
held 0/0 61 n0:1
held 1/1 61 n0:1
held 3/1 61 n0:1
end held 3 acked 0 gets 0 steps 4
""",
    "read_repair": HEAD + """
1 down ok
2 put ok n0:1 answers 0/0=stored 1/1=down 2/2=stored 3/1=stored
step 1 issue 0 61 n0:1 behind - value 78
step 2 hold 0/0 61 n0:1
step 3 hold 2/2 61 n0:1
step 4 hold 3/1 61 n0:1
step 5 ack 61 n0:1 w 2 session 0
3 up ok
4 get ok context n0:1 from 0/0 1/1 values n0:1=78
step 6 fetch 0/0 61
step 7 fetch 1/1 61
step 8 fetch 2/2 61
told 6 7 session 0
step 9 hold 1/1 61 n0:1
5 show 1 own n0:1
6 show 3 own - for 1 n0:1
held 0/0 61 n0:1
held 1/1 61 n0:1
held 2/2 61 n0:1
held 3/1 61 n0:1
acked 61 n0:1 covered 0/0 1/1 3/1 2/2
end held 4 acked 1 gets 1 steps 9
""",
    "late_message_after_a_newer_put": HEAD + """
1 fault ok
2 put ok n0:1 answers 0/0=stored 1/1=stored 2/2=stored
step 1 issue 0 61 n0:1 behind - value 78
step 2 hold 0/0 61 n0:1
step 3 hold 1/1 61 n0:1
step 4 hold 1/1 61 n0:1
step 5 hold 1/1 61 n0:1
step 6 hold 2/2 61 n0:1
step 7 ack 61 n0:1 w 2 session 0
3 fault ok
4 put ok n0:2 answers 0/0=stored 1/1=noanswer 2/2=stored 3/1=stored
step 8 issue 0 61 n0:2 behind n0:1 value 79
step 9 hold 0/0 61 n0:2
step 10 hold 2/2 61 n0:2
step 11 hold 3/1 61 n0:2
step 12 ack 61 n0:2 w 2 session 0
5 fault ok
6 put ok n0:3 answers 0/0=stored 1/1=stored 2/2=stored
step 13 issue 0 61 n0:3 behind n0:1-2 value 7a
step 14 hold 0/0 61 n0:3
step 15 hold 1/1 61 n0:3
step 16 hold 2/2 61 n0:3
step 17 ack 61 n0:3 w 2 session 0
7 deliver ok 1
step 18 hold 1/1 61 n0:2
8 show 1 own n0:3
held 0/0 61 n0:3
held 1/1 61 n0:3
held 2/2 61 n0:3
held 3/1 61 n0:2
acked 61 n0:1 covered 0/0 1/1 3/1 2/2
acked 61 n0:2 covered 0/0 1/1 3/1 2/2
acked 61 n0:3 covered 0/0 1/1 2/2
end held 4 acked 3 gets 0 steps 18
""",
}

OTHERS: Dict[str, str] = {
    "an empty value and a deletion": HEAD + """
1 put ok n0:1 answers 0/0=stored 1/1=stored 2/2=stored
step 1 issue 0 61 n0:1 behind - value
step 2 hold 0/0 61 n0:1
step 3 hold 1/1 61 n0:1
step 4 hold 2/2 61 n0:1
step 5 ack 61 n0:1 w 3 session 0
2 get ok context n0:1 from 0/0 1/1 values n0:1=
step 6 fetch 0/0 61
step 7 fetch 1/1 61
step 8 fetch 2/2 61
told 6 7 session 1
3 delete ok n0:2 answers 0/0=stored 1/1=stored 2/2=stored
step 9 issue 0 61 n0:2 behind n0:1 deleted
step 10 hold 0/0 61 n0:2
step 11 hold 1/1 61 n0:2
step 12 hold 2/2 61 n0:2
step 13 ack 61 n0:2 w 2 session 1
4 get ok context n0:1-2 from 0/0 1/1 values none
step 14 fetch 0/0 61
step 15 fetch 1/1 61
step 16 fetch 2/2 61
told 14 15 session 0
held 0/0 61 n0:2
held 1/1 61 n0:2
held 2/2 61 n0:2
acked 61 n0:1 w 3 covered 0/0 1/1 2/2
acked 61 n0:2 covered 0/0 1/1 2/2
settled 61
end held 3 acked 2 gets 2 steps 16
""",
    # Nodes 1 and 2 are down, so nodes 3 and 4 stand in for them. At the end the steps run out.
    "refused commands": HEAD + """
1 down ok
2 down ok
3 put E16 BadQuorum
4 put E8 ContextUnknown n2:7
5 put ok n0:1 answers 0/0=stored 1/1=down 2/2=down 3/1=stored 4/2=stored
step 1 issue 0 61 n0:1 behind - value 78
step 2 hold 0/0 61 n0:1
step 3 hold 3/1 61 n0:1
step 4 hold 4/2 61 n0:1
step 5 ack 61 n0:1 w 2 session 31
6 handoff E13 Down
7 down ok
8 down ok
9 get E15 NotEnough answers 0/0=rows 1/1=down 2/2=down 3/1=down 4/2=down
step 6 fetch 0/0 61
10 put E12 StepsFull after n0:2
step 7 issue 0 61 n0:2 behind - value 79
step 8 hold 0/0 61 n0:2
11 get E12 StepsFull
held 0/0 61 n0:1-2
held 3/1 61 n0:1
held 4/2 61 n0:1
acked 61 n0:1 covered 0/0 3/1 4/2
end held 4 acked 1 gets 0 steps 8
""",
    "no commands": HEAD + "end held 0 acked 0 gets 0 steps 0\n",
    "a storm": HEAD + """
step 1 fetch 0/0 61
step 2 fetch 0/0 61
step 3 fetch 1/1 61
step 4 fetch 1/1 61
step 5 fetch 2/2 61
step 6 issue 0 61 n0:1 behind - value 74302d30
step 7 hold 0/0 61 n0:1
step 8 issue 0 61 n0:2 behind - value 74312d30
step 9 hold 0/0 61 n0:2
step 10 hold 1/1 61 n0:1
step 11 hold 3/1 61 n0:1-2
step 12 ack 61 n0:1 w 2 session 0
step 13 ack 61 n0:2 w 2 session 1
step 14 fetch 0/0 61
step 15 hold 1/1 61 n0:1-2
step 16 fetch 2/2 61
step 17 release 3/1 61 n0:1
step 18 release 3/1 61 n0:2
step 19 fetch 1/1 61
step 20 issue 0 61 n0:3 behind n0:1-2 value 74302d31
step 21 hold 0/0 61 n0:3
step 22 hold 1/1 61 n0:3
step 23 ack 61 n0:3 w 2 session 0
told 1 3 session 0
told 14 16 session 0
told 2 4 session 1
end acked 3 gets 3 refused 0
""",
    # The hint of the later version covers the earlier one, which alone was acknowledged.
    "a hint of a later version": HEAD + """
step 1 issue 0 61 n0:1 behind - value 78
step 2 hold 0/0 61 n0:1
step 3 hold 3/1 61 n0:1
step 4 ack 61 n0:1 w 2 session 0
step 5 issue 0 61 n0:2 behind n0:1 value 79
step 6 hold 0/0 61 n0:2
step 7 hold 3/1 61 n0:2
step 8 hold 1/1 61 n0:2
step 9 release 3/1 61 n0:2
end acked 1 gets 0 refused 1
""",
}


def output_of(text: str) -> str:
    """Returns the output of a row; blank lines are for the reader."""
    return "".join(f"{line}\n" for line in text.split("\n") if line)


ROWS: Dict[str, str] = {name: output_of(text) for name, text in {**SCENES, **OTHERS}.items()}
