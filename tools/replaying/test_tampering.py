"""How outputs are tampered with, and which rule of tools/replay each tampering breaks.

A tampering changes lines of a row. Those of a scene are also tried on what the program prints of
it. A turn changes, in any output, the middle one of the lines that its pattern fits.
"""
import re
from typing import Callable, Dict, List, NamedTuple, Tuple


class Tampering(NamedTuple):
    """What is done to which row: each text, of whole lines, becomes another one."""

    row: str
    what: str
    rule: str
    edits: Tuple[Tuple[str, str], ...]


def tamper(row: str, what: str, rule: str, *texts: str) -> Tampering:
    """Returns a tampering; texts are old and new, in turn."""
    return Tampering(row, what, rule, tuple(zip(texts[::2], texts[1::2])))


ONE, TWO, HINT, AWAY = ("put_then_get", "siblings_reconciled", "stand_in_hands_over",
                        "counters_never_come_again")
LATE, STALE, AGAIN = ("home_and_its_stand_in_count_once", "read_repair",
                      "late_message_after_a_newer_put")
GONE, LEFT, STORM = "an empty value and a deletion", "refused commands", "a storm"
PUT = "put ok n0:1 answers 0/0=stored 1/1=stored 2/2=stored"
GET = "get ok context n0:1 from 0/0 1/1 values n0:1=78"
HELD = "held 0/0 61 n0:1\nheld 1/1 61 n0:1\nheld 2/2 61 n0:1"
AT_1, AT_2 = "step 3 hold 1/1 61 n0:1", "step 4 hold 2/2 61 n0:1"
ACK = "step 5 ack 61 n0:1 w 2 session 0"
ISSUE, ACKED = "step 1 issue 0 61 n0:1 behind - value 78", "acked 61 n0:1 covered 0/0 1/1 2/2"
END = "end held 3 acked 1 gets 2 steps 11"
FEW = ("3 put E15 NotEnough n0:1 answers 0/0=stored 1/1=noanswer 2/2=down 3/1=stored "
       "1/1=stored")

# These leave the numbers of the steps as they are.
ROWS: List[Tampering] = [
    tamper(ONE, "a step left out", "numbers in order", AT_1, ""),
    tamper(ONE, "a step repeated", "numbers in order", AT_1, f"{AT_1}\n{AT_1}"),
    tamper(ONE, "two steps turned", "numbers in order", f"{AT_1}\n{AT_2}", f"{AT_2}\n{AT_1}"),
    tamper(ONE, "a command's number", "numbers in order", f"2 {GET}", f"3 {GET}"),
    tamper(ONE, "another counter", "next counter", ISSUE, ISSUE.replace("n0:1", "n0:2")),
    tamper(TWO, "a counter again", "next counter", "step 6 issue 0 61 n0:2 behind - value 79",
           "step 6 issue 0 61 n0:1 behind - value 79"),
    tamper(ONE, "an issue by another node", "next counter", ISSUE, ISSUE.replace("issue 0",
           "issue 1")),
    tamper(ONE, "an issue by no node", "next counter", ISSUE,
           "step 1 issue 5 61 n5:1 behind - value 78"),
    tamper(TWO, "a past that was not made", "closed past",
           "step 14 issue 0 61 n0:3 behind n0:1-2 value 7a",
           "step 14 issue 0 61 n0:3 behind n0:1-2 n1:1 value 7a"),
    tamper(TWO, "a past with its own dot", "closed past",
           "step 14 issue 0 61 n0:3 behind n0:1-2 value 7a",
           "step 14 issue 0 61 n0:3 behind n0:1-3 value 7a"),
    tamper(AGAIN, "a past with a gap", "closed past",
           "step 13 issue 0 61 n0:3 behind n0:1-2 value 7a",
           "step 13 issue 0 61 n0:3 behind n0:2 value 7a"),
    tamper(TWO, "a smaller past", "row of a get", "step 14 issue 0 61 n0:3 behind n0:1-2 value 7a",
           "step 14 issue 0 61 n0:3 behind n0:1 value 7a"),
    tamper(ONE, "another value", "row of a get", ISSUE, ISSUE.replace("78", "79")),
    tamper(ONE, "a deletion for a value", "row of a get", ISSUE, ISSUE.replace("value 78",
           "deleted")),
    tamper(ONE, "a deletion by a put", "steps of a command", ISSUE, ISSUE.replace("value 78",
           "deleted")),
    tamper(GONE, "an empty value for a deletion", "row of a get",
           "step 9 issue 0 61 n0:2 behind n0:1 deleted",
           "step 9 issue 0 61 n0:2 behind n0:1 value"),
    tamper(HINT, "holder and home turned", "place", "step 9 hold 3/0 61 n0:1 n1:1",
           "step 9 hold 0/3 61 n0:1 n1:1"),
    tamper(ONE, "a home for another home", "place", AT_1, AT_1.replace("1/1", "1/2")),
    tamper(ONE, "a holder that is no node", "place", AT_1, AT_1.replace("1/1", "5/1")),
    tamper(ONE, "a home that is none", "place", AT_1, AT_1.replace("1/1", "3/3")),
    tamper(ONE, "another key", "made versions", AT_1, AT_1.replace("61", "62")),
    tamper(ONE, "another dot", "made versions", AT_1, AT_1.replace("n0:1", "n0:2")),
    tamper(ONE, "a hold of too much", "made versions", AT_1, AT_1.replace("n0:1", "n0:1-2")),
    tamper(TWO, "a hold of too little", "held lines", "step 17 hold 2/2 61 n0:3",
           "step 17 hold 2/2 61 n0:1"),
    tamper(TWO, "a hold without the put's version", "steps of a command",
           "step 17 hold 2/2 61 n0:3",
           "step 17 hold 2/2 61 n0:1"),
    tamper(ONE, "an ack of another dot", "made versions", ACK, ACK.replace("n0:1", "n0:2")),
    tamper(ONE, "an ack of another key", "made versions", ACK, ACK.replace("61", "62")),
    tamper(ONE, "an ack of no home", "cover", ACK, ACK.replace("w 2", "w 0")),
    tamper(ONE, "an ack of more than all homes", "cover", ACK, ACK.replace("w 2", "w 4")),
    tamper(ONE, "an ack of another w", "acked lines", ACK, ACK.replace("w 2", "w 3")),
    tamper(LATE, "an ack of too few homes", "cover", "held 0/0 61 n0:1",
           "step 5 ack 61 n0:1 w 3 session 0\nheld 0/0 61 n0:1"),
    # Homes 0 and 1 and the stand-in of home 1: home 1 counts once.
    tamper(LATE, "an ack of one home twice", "cover",
           FEW,
           FEW.replace("E15 NotEnough", "ok"),
           "step 4 hold 3/1 61 n0:1", "step 4 hold 3/1 61 n0:1\nstep 5 ack 61 n0:1 w 3 session 0"),
    # Node 3 for homes 1 and 2: it counts once.
    tamper(LATE, "an ack of one node twice", "cover",
           "step 3 hold 1/1 61 n0:1\nstep 4 hold 3/1 61 n0:1",
           "step 3 hold 3/1 61 n0:1\nstep 4 hold 3/2 61 n0:1\nstep 5 ack 61 n0:1 w 3 session 0"),
    tamper(LATE, "an ack of a refused put", "steps of a command", "step 4 hold 3/1 61 n0:1",
           "step 4 hold 3/1 61 n0:1\nstep 5 ack 61 n0:1 w 2 session 0"),
    tamper(ONE, "a put refused behind its ack", "steps of a command", f"1 {PUT}",
           "1 put E12 StepsFull after n0:1"),
    tamper(ONE, "a put refused before its begin", "steps of a command", f"1 {PUT}",
           "1 put E14 NoNode"),
    tamper(ONE, "a put of another dot", "steps of a command", f"1 {PUT}",
           f"1 {PUT.replace('n0:1', 'n0:2')}"),
    tamper(ONE, "a put's begin of more", "steps of a command", "step 2 hold 0/0 61 n0:1",
           "step 2 hold 3/0 61 n0:1"),
    tamper(ONE, "an answer that says down", "answers of a command", f"1 {PUT}",
           f"1 {PUT.replace('1/1=stored', '1/1=down')}"),
    tamper(ONE, "an answer left out", "answers of a command", f"1 {PUT}",
           f"1 {PUT.replace(' 1/1=stored', '')}"),
    tamper(ONE, "an answer of another node", "answers of a command", f"1 {PUT}",
           f"1 {PUT.replace('1/1', '3/1')}"),
    tamper(ONE, "answers turned", "answers of a command", f"1 {PUT}",
           "1 put ok n0:1 answers 1/1=stored 0/0=stored 2/2=stored"),
    tamper(ONE, "answers of too few homes", "answers of a command", f"1 {PUT}",
           "1 put ok n0:1 answers 0/0=stored 1/1=noanswer 2/2=noanswer"),
    tamper(LEFT, "a row that no fetch told", "answers of a command",
           "9 get E15 NotEnough answers 0/0=rows 1/1=down 2/2=down 3/1=down 4/2=down",
           "9 get E15 NotEnough answers 0/0=rows 1/1=rows 2/2=down 3/1=down 4/2=down"),
    tamper(LATE, "an answer of a home for another", "answers of a command",
           FEW,
           FEW.replace("2/2", "0/2")),
    tamper(ONE, "a put refused that has all homes", "answers of a command", f"1 {PUT}",
           "1 put E15 NotEnough n0:1 answers 0/0=stored 1/1=stored 2/2=stored", ACK, ""),
    tamper(ONE, "a get refused that has its homes", "answers of a command", f"2 {GET}",
           "2 get E15 NotEnough answers 0/0=rows 1/1=rows 2/2=rows", "told 6 7 session 0", ""),
    tamper(ONE, "a fetch of a home for another", "steps of a command", "step 8 fetch 2/2 61",
           "step 8 fetch 1/2 61"),
    tamper(LEFT, "steps of a command that makes none", "steps of a command",
           "step 6 fetch 0/0 61", "", "7 down ok", "7 down ok\nstep 6 fetch 0/0 61"),
    tamper(HINT, "a release of what is not there", "release of a hint",
           "step 13 release 3/0 61 n1:1",
           "step 13 release 3/0 61 n2:1"),
    tamper(HINT, "a release twice", "release of a hint", "step 13 release 3/0 61 n1:1",
           "step 13 release 3/0 61 n0:1"),
    tamper(HINT, "a release by the home", "release of a hint", "step 13 release 3/0 61 n1:1",
           "step 13 release 0/0 61 n1:1"),
    tamper(HINT, "a release for another home", "release of a hint", "step 13 release 3/0 61 n1:1",
           "step 13 release 3/1 61 n1:1"),
    tamper(HINT, "a home that gets half", "home first", "step 11 hold 0/0 61 n0:1 n1:1",
           "step 11 hold 0/0 61 n0:1"),
    tamper(AWAY, "a hold at another home", "home first", "step 5 hold 0/0 61 n3:1",
           "step 5 hold 2/2 61 n3:1"),
    tamper(AWAY, "a hint that was the cover", "kept cover", "step 5 hold 0/0 61 n3:1",
           "step 5 hold 1/1 61 n3:1"),
    tamper(HINT, "released counted wrong", "counts", "6 handoff ok offers 1 stored 1 released 2",
           "6 handoff ok offers 1 stored 1 released 1"),
    tamper(HINT, "stored without an offer", "counts", "6 handoff ok offers 1 stored 1 released 2",
           "6 handoff ok offers 0 stored 1 released 2"),
    tamper(HINT, "released without a receipt", "counts",
           "6 handoff ok offers 1 stored 1 released 2",
           "6 handoff ok offers 1 stored 0 released 2"),
    tamper(AGAIN, "messages counted wrong", "counts", "7 deliver ok 1", "7 deliver ok 2"),
    tamper(AGAIN, "a delivery that fetches", "steps of a command", "step 18 hold 1/1 61 n0:2",
           "step 18 fetch 1/1 61"),
    tamper(HINT, "a row shown too small", "row shown", "7 show 0 own n0:1 n1:1",
           "7 show 0 own n0:1"),
    tamper(STALE, "a hint shown for another home", "row shown", "6 show 3 own - for 1 n0:1",
           "6 show 3 own - for 2 n0:1"),
    tamper(STALE, "a hint shown no more", "row shown", "6 show 3 own - for 1 n0:1",
           "6 show 3 own n0:1"),
    tamper(STALE, "a home mended that has it", "steps of a command", "step 9 hold 1/1 61 n0:1",
           "step 9 hold 2/2 61 n0:1"),
    tamper(STALE, "a stand-in mended", "steps of a command", "step 9 hold 1/1 61 n0:1",
           "step 9 hold 3/1 61 n0:1"),
    tamper(TWO, "an older row", "row of a get",
           "5 get ok context n0:1-3 from 0/0 1/1 values n0:3=7a",
           "5 get ok context n0:1-2 from 0/0 1/1 values n0:1=78 n0:2=79"),
    tamper(TWO, "a smaller context", "row of a get",
           "5 get ok context n0:1-3 from 0/0 1/1 values n0:3=7a",
           "5 get ok context n0:3 from 0/0 1/1 values n0:3=7a"),
    tamper(TWO, "a sibling left out", "row of a get",
           "3 get ok context n0:1-2 from 0/0 1/1 values n0:1=78 n0:2=79",
           "3 get ok context n0:1-2 from 0/0 1/1 values n0:2=79"),
    tamper(TWO, "siblings turned", "row of a get",
           "3 get ok context n0:1-2 from 0/0 1/1 values n0:1=78 n0:2=79",
           "3 get ok context n0:1-2 from 0/0 1/1 values n0:2=79 n0:1=78"),
    tamper(ONE, "a value that was not put", "row of a get", f"2 {GET}",
           f"2 {GET.replace('78', '79')}"),
    tamper(GONE, "a value that was deleted", "row of a get",
           "4 get ok context n0:1-2 from 0/0 1/1 values none",
           "4 get ok context n0:1-2 from 0/0 1/1 values n0:1="),
    tamper(ONE, "a row from another place", "row of a get", f"2 {GET}",
           f"2 {GET.replace('1/1', '2/2')}"),
    tamper(STALE, "rows of others than told", "row of a get", "told 6 7 session 0",
           "told 6 8 session 0"),
    tamper(TWO, "fetches of an earlier get", "since", "told 19 20 session 0",
           "told 11 12 session 0"),
    tamper(TWO, "one fetch of an earlier get", "since", "told 19 20 session 0",
           "told 11 20 session 0"),
    tamper(TWO, "fetches of another command", "told fetches", "told 19 20 session 0",
           "told 11 12 session 1"),
    tamper(ONE, "too few fetches told", "told fetches", "told 6 7 session 0", "told 6 session 0"),
    tamper(ONE, "too many fetches told", "told fetches", "told 6 7 session 0",
           "told 6 7 8 session 0"),
    tamper(ONE, "one fetch told twice", "told fetches", "told 6 7 session 0", "told 6 6 session 0"),
    tamper(ONE, "a step told that is no fetch", "told fetches", "told 6 7 session 0",
           "told 5 7 session 0"),
    tamper(ONE, "a fetch of another key told", "told fetches", "told 9 10 session 0",
           "told 7 10 session 0"),
    tamper(ONE, "a fetch at no place told", "told fetches", "step 7 fetch 1/1 61",
           "step 7 fetch 1/2 61"),
    tamper(ONE, "a fetch of another key", "steps of a command", "step 8 fetch 2/2 61",
           "step 8 fetch 2/2 62"),
    tamper(ONE, "no fetches told", "steps of a command", "told 6 7 session 0", ""),
    tamper(ONE, "fetches told of twice", "steps of a command", "told 6 7 session 0",
           "told 6 7 session 0\ntold 6 7 session 1"),
    tamper(LEFT, "fetches told of a refused get", "steps of a command", "step 6 fetch 0/0 61",
           "step 6 fetch 0/0 61\ntold 6 session 0"),
    tamper(ONE, "a held line more", "held lines", HELD, f"{HELD}\nheld 3/0 61 n0:1"),
    tamper(ONE, "a held line less", "held lines", HELD, HELD[: HELD.rindex("\n")]),
    tamper(ONE, "a held line changed", "held lines", HELD, HELD.replace("2/2 61", "2/2 62")),
    tamper(TWO, "a held line of more dots", "held lines", "held 1/1 61 n0:3", "held 1/1 61 n0:2-3"),
    tamper(ONE, "held lines turned", "held lines", HELD,
           "held 0/0 61 n0:1\nheld 2/2 61 n0:1\nheld 1/1 61 n0:1"),
    tamper(ONE, "a held line twice", "held lines", HELD, f"{HELD}\nheld 2/2 61 n0:1"),
    tamper(ONE, "an acked line less", "acked lines", ACKED, ""),
    tamper(ONE, "an acked line more", "acked lines", ACKED,
           f"{ACKED}\n{ACKED.replace('61', '62')}"),
    tamper(ONE, "a place of an acked line less", "acked lines", ACKED, ACKED.replace(" 1/1", "")),
    tamper(ONE, "a place of an acked line more", "acked lines", ACKED, ACKED.replace("1/1",
           "1/1 3/1")),
    tamper(AGAIN, "places of an acked line turned", "acked lines",
           "acked 61 n0:2 covered 0/0 1/1 3/1 2/2", "acked 61 n0:2 covered 0/0 1/1 2/2 3/1"),
    tamper(GONE, "another w of an acked line", "acked lines",
           "acked 61 n0:1 w 3 covered 0/0 1/1 2/2", "acked 61 n0:1 covered 0/0 1/1 2/2"),
    tamper(GONE, "a settled line more", "settled lines", "settled 61", "settled 61\nsettled 62"),
    tamper(AWAY, "a settled line of a key with hints", "settled lines",
           "end held 4 acked 2 gets 1 steps 14", "settled 61\nend held 4 acked 2 gets 1 steps 14"),
    *(tamper(ONE, f"{name} counted wrong", "counts", END, END.replace(f"{name} {old}",
           f"{name} {new}"))
      for name, old, new in (("held", 3, 4), ("acked", 1, 0), ("gets", 2, 3), ("steps", 11, 10))),
    *(tamper(STORM, f"{name} counted wrong", "counts", "end acked 3 gets 3 refused 0",
             "end acked 3 gets 3 refused 0".replace(f"{name} 3", f"{name} 2"))
      for name in ("acked", "gets")),
    tamper(STORM, "an ack between the fetches of a get", "since", "told 2 4 session 1",
           "told 2 19 session 1"),
    tamper(STORM, "an ack of another session", "since", "step 13 ack 61 n0:2 w 2 session 1",
           "step 13 fetch 2/2 61", "step 15 hold 1/1 61 n0:1-2",
           "step 15 ack 61 n0:1 w 2 session 0"),
    tamper(STORM, "gets of a session turned", "since", "told 1 3 session 0\ntold 14 16 session 0",
           "told 14 16 session 0\ntold 1 3 session 0"),
    tamper(STORM, "sessions turned", "order of lines", "told 14 16 session 0\ntold 2 4 session 1",
           "told 2 4 session 1\ntold 14 16 session 0"),
    tamper(STORM, "steps behind what was told", "order of lines",
           "step 23 ack 61 n0:3 w 2 session 0\ntold 1 3 session 0",
           "told 1 3 session 0\nstep 23 ack 61 n0:3 w 2 session 0"),
    tamper(STORM, "a command in a storm", "order of lines", "step 5 fetch 2/2 61",
           "step 5 fetch 2/2 61\n1 down ok"),
    tamper(ONE, "steps above their command", "order of lines", f"1 {PUT}\n{ISSUE}",
           f"{ISSUE}\n1 {PUT}"),
    tamper(ONE, "an audit before its time", "order of lines", f"{ACKED}\n{END}", f"{END}\n{ACKED}"),
    tamper(ONE, "an end left out", "order of lines", END, ""),
    tamper(ONE, "an end twice", "order of lines", END, f"{END}\n{END}"),
    tamper(ONE, "a head left out", "order of lines", "cluster n 3 r 2 w 2", ""),
    tamper(ONE, "another w of the cluster", "acked lines", "cluster n 3 r 2 w 2",
           "cluster n 3 r 2 w 3"),
    tamper(ONE, "another r of the cluster", "told fetches", "cluster n 3 r 2 w 2",
           "cluster n 3 r 1 w 2"),
    tamper(ONE, "too great an n of the cluster", "setting", "cluster n 3 r 2 w 2",
           "cluster n 6 r 2 w 2"),
    tamper(ONE, "nodes of tokens turned", "place", "token 20000000000000000000000000000000 0",
           "token 20000000000000000000000000000000 4", "token f0000000000000000000000000000000 4",
           "token f0000000000000000000000000000000 0"),
    tamper(ONE, "a token left out", "setting", "token 60000000000000000000000000000000 1", ""),
    tamper(ONE, "tokens that fall", "setting", "token 20000000000000000000000000000000 0",
           "token 70000000000000000000000000000000 0"),
    tamper(ONE, "a context with two spellings", "form of a line", AT_1, AT_1.replace("n0:1",
           "n0:1-1")),
    tamper(ONE, "an empty value with a blank", "form of a line", ISSUE, ISSUE.replace("78", "")),
    tamper(ONE, "a word too many", "form of a line", ACK, f"{ACK} again"),
]

# Here the steps are numbered anew, as who tampers well would do, and the told fetches with them.
RENUMBERED: List[Tampering] = [
    tamper(ONE, "a hold left out", "answers of a command", AT_1, ""),
    tamper(ONE, "the begin's hold left out", "steps of a command", "step 2 hold 0/0 61 n0:1", ""),
    tamper(ONE, "an ack left out", "steps of a command", ACK, ""),
    tamper(ONE, "an ack twice", "steps of a command", ACK, f"{ACK}\n{ACK}"),
    tamper(ONE, "an ack before its holds", "cover", f"{AT_1}\n{AT_2}\n{ACK}",
           f"{ACK}\n{AT_1}\n{AT_2}"),
    tamper(ONE, "an issue twice", "next counter", ISSUE, f"{ISSUE}\n{ISSUE}"),
    tamper(ONE, "an issue behind its hold", "made versions", f"{ISSUE}\nstep 2 hold 0/0 61 n0:1",
           f"step 2 hold 0/0 61 n0:1\n{ISSUE}"),
    tamper(ONE, "a fetch left out", "told fetches", "step 6 fetch 0/0 61", ""),
    tamper(ONE, "a hold twice", "counts", AT_1, f"{AT_1}\n{AT_1}"),
    tamper(HINT, "a release before its hold", "home first",
           "step 11 hold 0/0 61 n0:1 n1:1\nstep 12 release 3/0 61 n0:1",
           "step 12 release 3/0 61 n1:1\nstep 11 hold 0/0 61 n0:1 n1:1",
           "step 13 release 3/0 61 n1:1", "step 13 release 3/0 61 n0:1"),
    tamper(HINT, "a release in another handoff", "steps of a command",
           "step 11 hold 0/0 61 n0:1 n1:1",
           ""),
    tamper(HINT, "a release left out", "held lines", "step 13 release 3/0 61 n1:1", ""),
    tamper(HINT, "a release more", "release of a hint", "step 13 release 3/0 61 n1:1",
           "step 13 release 3/0 61 n1:1\nstep 14 release 3/0 61 n1:1"),
    tamper(AWAY, "a hint gone before its home has it", "kept cover", "step 5 hold 0/0 61 n3:1", ""),
    tamper(AGAIN, "a delivery left out", "counts", "step 18 hold 1/1 61 n0:2", ""),
    tamper(STALE, "a hold of a refused get", "steps of a command", f"4 {GET}",
           "4 get E12 StepsFull"),
    tamper("a hint of a later version", "a hint gone too early", "kept cover",
           "step 8 hold 1/1 61 n0:2\nstep 9 release 3/1 61 n0:2",
           "step 9 release 3/1 61 n0:2\nstep 8 hold 1/1 61 n0:2"),
    tamper(STORM, "a hold left out", "home first", "step 15 hold 1/1 61 n0:1-2", ""),
    tamper(STORM, "an ack left out", "counts", "step 23 ack 61 n0:3 w 2 session 0", ""),
    tamper(STORM, "an ack more", "counts", "step 23 ack 61 n0:3 w 2 session 0",
           "step 23 ack 61 n0:3 w 2 session 0\nstep 24 ack 61 n0:3 w 2 session 1"),
]


class Turn(NamedTuple):
    """What is done to a line of any output: its pattern, and what it becomes."""

    what: str
    rule: str
    pattern: str
    text: str


# Of the program's outputs: the middle line that a pattern fits becomes the text, by re.sub.
TURNS: List[Turn] = [
    Turn("a step left out", "numbers in order", r"step \d+ .*\n", ""),
    Turn("a step twice", "numbers in order", r"(step \d+ .*\n)", r"\1\1"),
    Turn("a step's number", "numbers in order", r"step \d+ (.*)", r"step 9999999 \1"),
    Turn("a counter left out", "next counter", r"(step \d+ issue .* n\d+:)\d+( behind .*)",
         r"\g<1>999999\2"),
    Turn("a past that was not made", "closed past", r"(step \d+ issue .* behind ).*( value.*)",
         r"\1n31:1\2"),
    Turn("a holder that is no node", "place", r"(step \d+ hold )\d+(/.*)", r"\g<1>30\2"),
    Turn("a home that is none", "place", r"(step \d+ hold )(\d+)/\d+( .*)", r"\1\2/30\3"),
    Turn("dots that were not made", "made versions", r"(step \d+ hold )(\S+ \S+) .*",
         r"\1\2 n31:1"),
    Turn("a key without versions", "made versions", r"(step \d+ hold )(\S+) \S+( .*)",
         r"\1\2 ffff\3"),
    Turn("an ack of more than all homes", "cover", r"(step \d+ ack .*) w \d+( .*)", r"\1 w 31\2"),
    Turn("an ack of what was not made", "made versions", r"(step \d+ ack \S+) \S+( .*)",
         r"\1 n31:1\2"),
    Turn("a fetch told twice", "told fetches", r"told (\d+) \d+( session .*)", r"told \1 \1\2"),
    Turn("a fetch told alone", "told fetches", r"told (\d+) \d+( session .*)", r"told \1\2"),
    Turn("a step told that is not there", "told fetches", r"told \d+ (\d+ session .*)",
         r"told 9999999 \1"),
    Turn("a get told again", "since", r"(told .*\n)", r"\1\1"),
    Turn("a get not told", "counts", r"told .*\n", ""),
    Turn("acks counted wrong", "counts", r"(end .*acked )\d+(.*)", r"\g<1>9999999\2"),
    Turn("gets counted wrong", "counts", r"(end .*gets )\d+(.*)", r"\g<1>9999999\2"),
    Turn("an end left out", "order of lines", r"end .*\n", ""),
    Turn("a token left out", "order of lines", r"(token .*\n)((?:.*\n)*)", r"\2\1"),
    Turn("a quorum of no node", "setting", r"cluster n (\d+) r \d+( .*)", r"cluster n \1 r 0\2"),
    Turn("a blank at an end", "form of a line", r"(step .*)", r"\1 "),
    Turn("a release by the home", "release of a hint", r"(step \d+ release )\d+/(\d+)( .*)",
         r"\1\2/\2\3"),
    Turn("a release of what is not there", "release of a hint", r"(step \d+ release \S+ \S+) .*",
         r"\1 n31:1"),
]


def renumber(text: str) -> str:
    """Numbers the steps anew, and names the told fetches by their new numbers."""
    numbers: Dict[str, str] = {}

    def number(match: "re.Match[str]") -> str:
        numbers[match.group(1)] = str(len(seen) + 1)
        seen.append(match.group(1))
        return f"step {len(seen)} "

    seen: List[str] = []
    text = re.sub(r"^step (\d+) ", number, text, flags=re.M)
    told: Callable[["re.Match[str]"], str] = lambda match: "told " + " ".join(
        numbers.get(it, it) for it in match.group(1).split(" ")) + " session"
    return re.sub(r"^told ([0-9 ]+) session", told, text, flags=re.M)


def edited(text: str, tampering: Tampering) -> str:
    """Returns the output with the edits; each text must stand in it once, as whole lines."""
    text = f"\n{text}"
    for old, new in tampering.edits:
        if text.count(f"\n{old}\n") != 1:
            raise ValueError(f"'{old}' does not stand there once")
        text = text.replace(f"\n{old}\n", f"\n{new}\n" if new else "\n")
    return text[1:]


def turned(text: str, turn: Turn) -> str:
    """Returns the output with the middle line of the pattern turned, where there is one."""
    found = list(re.finditer(f"^{turn.pattern}", text, flags=re.M))
    if not found:
        return text
    match = found[len(found) // 2]
    return text[: match.start()] + match.expand(turn.text) + text[match.end() :]
