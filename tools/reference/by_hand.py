#!/usr/bin/env python3
"""Reloads worked out by hand from their rules: the second reading has to answer each so, and a program too where one is named.

    python3 tools/reference/by_hand.py [PROGRAM] [--long]

With PROGRAM (the built server, which has to have the command `reload`) each case is played to it with 1, 2, 4 and 8 workers as well. `--long` adds the full history, of 1,000,000 events.
The exit status is 0 where all agree.
"""

import argparse
import os
import sys
import tempfile

import protocol
import reloads
from compare import answered, difference
from server import Server

VERSION_1 = "tag,area,priority,condition,suppress,latch,max_shelve_ms,text"
VERSION_2 = "tag,area,priority,condition,suppress,latch,max_shelve_ms,on_delay_ms,text"
T1 = "T1,north,2,c,,FALSE,5000,Feed ratio high"
CONSOLES = ((1, "north"), (2, "south"))
EPOCH = "2024-01-01T00:00:00Z"


def source(globals, body, own="", blocks=""):
    return f"VAR_GLOBAL {globals} END_VAR\n{blocks}\nPROGRAM p {own}\n{body}\nEND_PROGRAM\n"


class Files:
    """The files of a plant: that of the examples, but for what is said."""

    def __init__(self, *sources, alarms=(T1,), consoles=CONSOLES, epoch=EPOCH, header=VERSION_1, toml=""):
        quoted = ", ".join(f'"s{at}.st"' for at in range(len(sources)))
        tables = "".join(f'[[console]]\nnumber = {number}\nareas = ["{area}"]\n' for number, area in consoles)
        keys = f'name = "P"\nepoch = "{epoch}"\nareas = ["north", "south"]\nsources = [{quoted}]\nalarms = "alarms.csv"\n'
        self.plant, self.alarms, self.sources = keys + tables + toml, "\n".join([header, *alarms]) + "\n", list(sources)

    def command(self, end="\n"):
        return reloads.command(self.plant.encode(), self.alarms.encode(), [it.encode() for it in self.sources], end.encode()).decode()

    def read(self):
        return reloads.read(self.plant.encode(), self.alarms.encode(), *(it.encode() for it in self.sources))

    def write(self, folder):
        named = {"plant.toml": self.plant, "alarms.csv": self.alarms, **{f"s{at}.st": text for at, text in enumerate(self.sources)}}
        for name, text in named.items():
            with open(os.path.join(folder, name), "w", newline="", encoding="utf-8") as file:
                file.write(text)


def plant_p(limit=10, **more):
    """The example plant, whose alarm comes where 100 / a is above the limit."""
    return Files(source("a AT %ID0 : DINT; c : BOOL;", f"c := 100 / a > {limit};"), **more)


def plain(globals, body, own="", blocks="", **more):
    """A plant of one program, with an alarm on the input b."""
    return Files(source(f"b AT %IX0.0 : BOOL; {globals}", body, own, blocks), **{"alarms": ("T1,north,2,b,,FALSE,5000,x",), **more})


P, LATCHED = plant_p(), ("T1,north,2,c,,TRUE,5000,Feed ratio high",)
KEPT, NEW = "RELOADED KEPT 1 NEW 0", "RELOADED KEPT 0 NEW 1"
UP = ("scan 0 a=5", "ALARM 0 T1 NORM UNACK", "DONE 0 1")

# ------------------------------------------------------------------------------------------------- the line, its body, and refusals

COUNTER = "y AT %QD0 : DINT;"
TWO = plant_p(toml="")
TWO.sources.append("")
WRONG = plant_p(epoch="2024-01-01")
WRONG.sources.append("")

CASES = [
    ("a text that is no TOML", P, ("reload 1 0\n[", "CONFIG C1")),
    ("too few bytes before the end", P, ("reload 10 0\nabc", "REFUSED L2")),
    ("too few bytes, and what looks like lines in them", P, ("reload 20 0\nscan 1\nack 1", "REFUSED L2")),
    ("no byte before the end, and no LF", P, ("reload 1 0", "REFUSED L2")),
    ("no bytes, and no LF", P, ("reload 0 0", "CONFIG C2")),
    ("no LF, but a CR", P, ("reload 0 0\r", "REFUSED L1")),
    ("a size past its limit takes no bytes", P, ("reload 1048577 0\nscan 7 a=50", "REFUSED L1", "DONE 7 0")),
    ("a size at its limit takes them", P, ("reload 1048576 0\nscan 7", "REFUSED L2")),
    ("alarms past their limit", P, ("reload 0 16777217", "REFUSED L1"), ("reload 0 16777216\nscan 7", "REFUSED L2")),
    ("sources past their limit together", P, ("reload 0 0 4194304 1", "REFUSED L1"), ("reload 0 0 4194303 1\nscan 7", "REFUSED L2")),
    ("64 sources, and 65", P, ("reload 0 0" + " 0" * 65, "REFUSED L1"), ("reload 0 0" + " 0" * 64, "CONFIG C2")),
    ("eight digits, and nine", P, ("reload 000000001 0", "REFUSED L1"), ("reload 00000001 00000000\n[", "CONFIG C1")),
    ("other words", P, *((it, "REFUSED L1") for it in ("reload", "reload 0", "reload 0 0 x", "reload -0 0", "reload +0 0", "RELOAD 0 0", "reload 0 0x0", "reload 0,0"))),
    ("blanks and a CR", P, ("\treload \t 1  0 \r\n[", "CONFIG C1")),
    ("what would be the body of no command is lines", P, UP, ("reload 9 0 4194305\nack 1 T1", "REFUSED L1", "REPLY OK", "ALARM 0 T1 UNACK ACKED")),
    ("the next line begins right behind the body", P, (P.command() + "scan 1 a=5", KEPT, "ALARM 1 T1 NORM UNACK", "DONE 1 1")),
    ("a CR before the LF is none of the body", P, (P.command("\r\n") + "list", KEPT, "COUNT north 2 NORM 1", "END 1")),
    ("a line that looks like a command in a body", P, UP, (plant_p(limit="10; (*\nack 1 T1\n*) c := c").command(), KEPT), ("list", "STATE T1 UNACK 2", "COUNT north 2 UNACK 1", "END 2")),
    ("the plant file by itself, then the number of sources", P, (WRONG.command().replace("name", "nime"), "CONFIG C2"), (WRONG.command(), "CONFIG C2")),
    ("C1 before another number of sources", P, ("reload 1 0 0 0 0\n[", "CONFIG C1")),
    ("a source too many, and one too few", P, (TWO.command(), "CONFIG C2"), (TWO.command().replace(" 0\n", "\n", 1), KEPT)),
    ("the epoch's form", P, (plant_p(epoch="2024-13-01T00:00:00Z").command(), "CONFIG C3")),
    ("a source's spelling has its place, by the name in the plant file", P, (Files("PROGRAM p (* x").command(), "CONFIG C4 s0.st 1 11")),
    ("the alarm file", P, (plant_p(alarms=("T1,north,5,c,,FALSE,5000,x",)).command(), "CONFIG C12 1 priority"), (plant_p(alarms=("T1,north,2,zz,,FALSE,5000,x",)).command(), "CONFIG C14 1 condition")),
    ("without console 2", P, UP, (plant_p(consoles=CONSOLES[:1]).command(), "REFUSED E7"), ("ack 2 T1", "REPLY O2")),
    ("consoles in another order", P, (plant_p(consoles=CONSOLES[::-1]).command(), "REFUSED E7")),
    ("consoles of the same numbers with other areas", P, UP, (plant_p(consoles=((1, "south"), (2, "north"))).command(), KEPT), ("ack 1 T1", "REPLY O2"), ("ack 2 T1", "REPLY OK", "ALARM 0 T1 UNACK ACKED")),
    ("another epoch", P, (plant_p(epoch="2024-01-01T00:00:01Z").command(), "REFUSED E8")),
    ("another epoch and other consoles", P, (plant_p(epoch="2024-01-01T00:00:01Z", consoles=CONSOLES[:1]).command(), "REFUSED E7")),
    ("other consoles, and a broken rule", P, (plant_p(consoles=CONSOLES[:1], alarms=("T1,north,5,c,,FALSE,5000,x",)).command(), "CONFIG C12 1 priority")),
    ("a refused reload changes nothing", P, UP, (plant_p(30, consoles=()).command(), "REFUSED E7"), ("scan 10", "DONE 10 0"), ("journal", "1 2024-01-01T00:00:00.000Z ALARM T1 NORM UNACK", "END 1")),
    # ------------------------------------------------------------------------------------------------------------------- alarms
    ("30 in place of 10", P, UP, (plant_p(30).command(), KEPT), ("scan 10", "ALARM 10 T1 UNACK RTNUN", "DONE 10 1")),
    ("and another latch", P, UP, (plant_p(30, alarms=LATCHED).command(), NEW), ("scan 10", "DONE 10 0")),
    ("the same plant", P, UP, (P.command(), KEPT), ("scan 10", "DONE 10 0"), ("list", "STATE T1 UNACK 2", "COUNT north 2 UNACK 1", "END 2")),
    ("a tag in another letter case", P, UP, (plant_p(alarms=("t1,north,2,c,,FALSE,5000,x",)).command(), NEW), ("ack 1 T1", "REPLY O1"), ("scan 0", "ALARM 0 t1 NORM UNACK", "DONE 0 1")),
    ("other columns don't count", P, UP, (plant_p(alarms=("T1,south,4,c,c,0,1,y",)).command(), KEPT), ("list", "STATE T1 UNACK 4", "COUNT south 4 UNACK 1", "END 2"), ("ack 1 T1", "REPLY O2")),
    ("an alarm between others", P, UP, (plant_p(alarms=("T0,north,1,c,,0,0,x", T1)).command(), "RELOADED KEPT 1 NEW 1"), ("scan 0", "ALARM 0 T0 NORM UNACK", "DONE 0 1"), ("list", "STATE T0 UNACK 1", "STATE T1 UNACK 2", "COUNT north 1 UNACK 1", "COUNT north 2 UNACK 1", "END 4")),
    ("no alarms", P, UP, (plant_p(alarms=()).command(), "RELOADED KEPT 0 NEW 0"), ("list", "END 0"), (P.command(), NEW), ("list", "COUNT north 2 NORM 1", "END 1"), ("scan 0", "ALARM 0 T1 NORM UNACK", "DONE 0 1")),
    ("a shelf keeps its end, though it may not be shelved any more", P, ("scan 100 a=5", "ALARM 100 T1 NORM UNACK", "DONE 100 1"), ("shelve 1 T1 50", "REPLY OK", "ALARM 100 T1 UNACK SHELVED"), (plant_p(alarms=("T1,north,2,c,,FALSE,0,x",)).command(), KEPT), ("shelve 1 T1 1", "REPLY O4"), ("scan 149", "DONE 149 0"), ("scan 150", "ALARM 150 T1 SHELVED UNACK", "DONE 150 1")),
    ("out of service stays so", P, UP, ("remove 1 T1", "REPLY OK", "ALARM 0 T1 UNACK OOS"), (P.command(), KEPT), ("scan 5", "DONE 5 0"), ("return 1 T1", "REPLY OK", "ALARM 5 T1 OOS UNACK")),
    ("the last condition stays, whatever the alarm watches now", P, UP, ("remove 1 T1", "REPLY OK", "ALARM 0 T1 UNACK OOS"), (Files(source("a AT %ID0 : DINT; c, d : BOOL;", ";"), alarms=("T1,north,2,d,,FALSE,5000,x",)).command(), KEPT), ("return 1 T1", "REPLY OK", "ALARM 0 T1 OOS UNACK"), ("scan 1", "ALARM 1 T1 UNACK RTNUN", "DONE 1 1")),
    ("the last suppression stays", plain("s AT %IX0.1 : BOOL;", ";", alarms=("T1,north,2,b,s,0,9,x",)), ("scan 0 b=1 s=1", "ALARM 0 T1 NORM SUPPR", "DONE 0 1"), ("remove 1 T1", "REPLY OK", "ALARM 0 T1 SUPPR OOS"), (plain("s AT %IX0.1 : BOOL;", ";", alarms=("T1,north,2,b,,0,9,x",)).command(), KEPT), ("return 1 T1", "REPLY OK", "ALARM 0 T1 OOS SUPPR"), ("scan 1", "ALARM 1 T1 SUPPR UNACK", "DONE 1 1")),
    ("a new alarm has no condition yet", P, UP, (plant_p(alarms=LATCHED).command(), NEW), ("remove 1 T1", "REPLY OK", "ALARM 0 T1 NORM OOS"), ("return 1 T1", "REPLY OK", "ALARM 0 T1 OOS NORM")),
    # ------------------------------------------------------------------------------------------------------------------- delays
]


def delayed(delay, latch="FALSE"):
    return plain("", ";", header=VERSION_2, alarms=(f"T1,north,2,b,,{latch},5000,{delay},x",))


CASES += [
    ("a delay of a kept alarm runs on, by the new delay", delayed(100), ("scan 0 b=1", "DONE 0 0"), ("scan 50", "DONE 50 0"), (delayed(60).command(), KEPT), ("scan 59", "DONE 59 0"), ("scan 60", "ALARM 60 T1 NORM UNACK", "DONE 60 1")),
    ("that of a new one begins with the next scan", delayed(100), ("scan 0 b=1", "DONE 0 0"), ("scan 50", "DONE 50 0"), (delayed(60, "TRUE").command(), NEW), ("scan 60", "DONE 60 0"), ("scan 119", "DONE 119 0"), ("scan 120", "ALARM 120 T1 NORM UNACK", "DONE 120 1")),
    ("a delay comes to an alarm that had none", delayed(0), ("scan 5 b=1", "ALARM 5 T1 NORM UNACK", "DONE 5 1"), (delayed(10).command(), KEPT), ("scan 14", "ALARM 14 T1 UNACK RTNUN", "DONE 14 1"), ("scan 15", "ALARM 15 T1 RTNUN UNACK", "DONE 15 1")),
    ("the run of a condition goes on though another variable is watched", delayed(100), ("scan 0 b=1", "DONE 0 0"), (Files(source("b AT %IX0.0 : BOOL; d : BOOL := TRUE;", ";"), header=VERSION_2, alarms=("T1,north,2,d,,FALSE,5000,100,x",)).command(), KEPT), ("scan 99 b=0", "DONE 99 0"), ("scan 100", "ALARM 100 T1 NORM UNACK", "DONE 100 1")),
    ("a table without delays", delayed(100), ("scan 0 b=1", "DONE 0 0"), (plain("", ";").command(), KEPT), ("scan 0", "ALARM 0 T1 NORM UNACK", "DONE 0 1")),
    # ---------------------------------------------------------------------------------------------------------------- variables
    ("a global keeps its value, in another letter case too", plain(COUNTER, "y := y + 1;"), ("scan 0", "OUT 0 y 1", "DONE 0 1"), (plain("Y AT %QD7 : DINT := 9;", "y := y + 10;").command(), KEPT), ("scan 1", "OUT 1 Y 11", "DONE 1 1")),
    ("a global of another kind begins anew", plain(COUNTER, "y := 5;"), ("scan 0", "OUT 0 y 5", "DONE 0 1"), (plain("y AT %QD0 : TIME := T#7ms;", "y := y + T#1ms;").command(), KEPT), ("scan 1", "OUT 1 y 8", "DONE 1 1")),
    ("an output is compared with its value after the reload", plain(COUNTER, "y := 5;"), ("scan 0", "OUT 0 y 5", "DONE 0 1"), (plain("y AT %QD0 : TIME;", "y := T#0s;").command(), KEPT), ("scan 1", "DONE 1 0")),
    ("a new output has told nothing", plain("", ";"), (plain("z AT %QD0 : DINT := 5;", "z := 5;").command(), KEPT), ("scan 0", "DONE 0 0"), (plain("z AT %QD0 : DINT := 6;", ";").command(), KEPT), ("scan 1", "DONE 1 0")),
    ("an output, then a plain global, then an output", plain(COUNTER, "y := y + 1;"), ("scan 0", "OUT 0 y 1", "DONE 0 1"), (plain("y : DINT;", "y := y + 1;").command(), KEPT), ("scan 1", "DONE 1 0"), (plain(COUNTER, "y := y + 1;").command(), KEPT), ("scan 2", "OUT 2 y 3", "DONE 2 1")),
    ("an input keeps what it was given", P, ("scan 0 a=50", "DONE 0 0"), (plant_p(1).command(), KEPT), ("scan 1", "ALARM 1 T1 NORM UNACK", "DONE 1 1")),
    ("what was gone for one reload is initial", plain(COUNTER, "y := y + 1;"), ("scan 0", "OUT 0 y 1", "DONE 0 1"), (plain("", ";").command(), KEPT), (plain(COUNTER, "y := y + 1;").command(), KEPT), ("scan 1", "OUT 1 y 1", "DONE 1 1")),
    ("a local, and the same name as a global", plain(COUNTER, "n := n + 1; y := n;", "VAR n : DINT; END_VAR"), ("scan 0", "OUT 0 y 1", "DONE 0 1"), (plain(f"{COUNTER} n : DINT;", "n := n + 1; y := n;").command(), KEPT), ("scan 1", "DONE 1 0"), (plain(COUNTER, "n := n + 1; y := n;", "VAR N : DINT := 40; END_VAR").command(), KEPT), ("scan 2", "OUT 2 y 41", "DONE 2 1")),
    ("a program under another name", plain(COUNTER, "n := n + 1; y := n;", "VAR n : DINT; END_VAR"), ("scan 0", "OUT 0 y 1", "DONE 0 1"), ("scan 1", "OUT 1 y 2", "DONE 1 1"), (Files(plain(COUNTER, "n := n + 1; y := n;", "VAR n : DINT; END_VAR").sources[0].replace("PROGRAM p", "PROGRAM P"), alarms=("T1,north,2,b,,FALSE,5000,x",)).command(), KEPT), ("scan 2", "OUT 2 y 3", "DONE 2 1"), (Files(plain(COUNTER, "n := n + 1; y := n;", "VAR n : DINT; END_VAR").sources[0].replace("PROGRAM p", "PROGRAM q"), alarms=("T1,north,2,b,,FALSE,5000,x",)).command(), KEPT), ("scan 3", "OUT 3 y 1", "DONE 3 1")),
]


# ------------------------------------------------------------------------------------------------------------------- arrays


def with_array(array, initial="w[x] := 7;"):
    return plain(f"x AT %ID0 : DINT; y AT %QD0 : DINT; w : {array};", f"{initial} y := w[x];")


WRITTEN = ("scan 0 x=2", "OUT 0 y 7", "DONE 0 1")
CASES += [
    ("an array keeps its values as a whole", with_array("ARRAY[1..3] OF DINT"), WRITTEN, (with_array("array[1..3] of dint", ";").command(), KEPT), ("scan 1", "DONE 1 0"), ("scan 2 x=3", "OUT 2 y 0", "DONE 2 1"), ("scan 3 x=2", "OUT 3 y 7", "DONE 3 1")),
    ("an array with one more element begins anew", with_array("ARRAY[1..3] OF DINT"), WRITTEN, (with_array("ARRAY[1..4] OF DINT", ";").command(), KEPT), ("scan 1", "OUT 1 y 0", "DONE 1 1")),
    ("an array of as many elements from another number on", with_array("ARRAY[1..3] OF DINT"), WRITTEN, (with_array("ARRAY[2..4] OF DINT", ";").command(), KEPT), ("scan 1", "OUT 1 y 0", "DONE 1 1")),
    ("an array, then a variable", with_array("ARRAY[2..2] OF DINT"), WRITTEN, (plain("x AT %ID0 : DINT; y AT %QD0 : DINT; w : DINT;", "y := w;").command(), KEPT), ("scan 1", "OUT 1 y 0", "DONE 1 1")),
]

# ------------------------------------------------------------------------------------------------------------------- blocks

Q = "q AT %QX0.0 : BOOL;"
TIMER = "t(IN := b, PT := T#10ms, Q => q);"
HOLD = "FUNCTION_BLOCK H VAR_INPUT in : BOOL; pt : TIME; END_VAR VAR_OUTPUT q : BOOL; END_VAR q := in; END_FUNCTION_BLOCK"
SAME = HOLD.replace("BLOCK H ", "BLOCK K ").replace("q := in", "q := in AND pt = T#10ms")
MUTE = {"alarms": ()}
NONE = "RELOADED KEPT 0 NEW 0"


def timer(block, call, blocks="", name="t"):
    return plain(Q, call, f"VAR {name} : {block}; END_VAR", blocks, **MUTE)


ON = ("scan 0 b=1", "DONE 0 0")
CASES += [
    ("a timer runs on", timer("TON", TIMER), ON, (timer("TON", TIMER, name="T").command(), NONE), ("scan 9", "DONE 9 0"), ("scan 10", "OUT 10 q TRUE", "DONE 10 1")),
    ("a timer of a program that is put elsewhere in the text", timer("TON", TIMER), ON, (Files("PROGRAM z END_PROGRAM", *timer("TON", TIMER).sources, alarms=()).command(), NONE), ("scan 10", "OUT 10 q TRUE", "DONE 10 1")),
    ("a timer under another name begins anew", timer("TON", TIMER), ON, (timer("TON", TIMER.replace("t(", "u("), name="u").command(), NONE), ("scan 10", "DONE 10 0"), ("scan 20", "OUT 20 q TRUE", "DONE 20 1")),
    ("TOF in TON's place: its inputs stay, its calls are gone", timer("TON", TIMER), ON, (timer("TOF", "q := t.Q;").command(), NONE), ("scan 1", "DONE 1 0"), (timer("TOF", "t(Q => q);").command(), NONE), ("scan 2", "OUT 2 q TRUE", "DONE 2 1"), ("scan 3", "DONE 3 0")),
    ("TON in TOF's place: what it showed is gone", timer("TOF", TIMER), ("scan 0 b=1", "OUT 0 q TRUE", "DONE 0 1"), (timer("TON", "q := t.Q;").command(), NONE), ("scan 1", "OUT 1 q FALSE", "DONE 1 1")),
    ("R_TRIG in TON's place: it has other inputs", timer("TON", TIMER), ON, (timer("R_TRIG", "t(Q => q);").command(), NONE), ("scan 1", "DONE 1 0")),
    ("an edge isn't seen twice", timer("R_TRIG", "t(CLK := b, Q => q);"), ("scan 0 b=1", "OUT 0 q TRUE", "DONE 0 1"), (timer("R_TRIG", "t(CLK := b, Q => q);").command(), NONE), ("scan 1", "OUT 1 q FALSE", "DONE 1 1"), ("scan 2 b=0", "DONE 2 0"), ("scan 3 b=1", "OUT 3 q TRUE", "DONE 3 1")),
    ("a block of one's own in TON's place has its inputs", timer("TON", TIMER), ON, (timer("H", "t(Q => q);", HOLD).command(), NONE), ("scan 1", "OUT 1 q TRUE", "DONE 1 1")),
    ("and the other way round: the timer begins anew, with these inputs", timer("H", "t(IN := b, PT := T#10ms);", HOLD), ON, (timer("TON", "t(Q => q);").command(), NONE), ("scan 5", "DONE 5 0"), ("scan 15", "OUT 15 q TRUE", "DONE 15 1")),
    ("a block of another name with the same variables", timer("H", "t(IN := b, PT := T#10ms);", HOLD), ON, (timer("K", "t(Q => q);", SAME).command(), NONE), ("scan 1", "OUT 1 q TRUE", "DONE 1 1")),
    ("a variable in an instance's place, and back", timer("H", "t(IN := b, PT := T#10ms);", HOLD), ON, (timer("DINT", ";").command(), NONE), (timer("H", "t(Q => q);", HOLD).command(), NONE), ("scan 1", "DONE 1 0")),
    ("a section changes: an input becomes an output", timer("H", "t(in := b);", HOLD), ON, (timer("H", "t(); q := t.in;", HOLD.replace("in : BOOL; pt", "pt").replace("q : BOOL;", "q, in : BOOL;")).command(), NONE), ("scan 1", "OUT 1 q TRUE", "DONE 1 1")),
]

# -------------------------------------------------------------------------------------------------- programs, moments, the journal

STOPPED = ("scan 10 a=0", "FAULT 10 p 1 DIVZERO", "DONE 10 1")
STAMP = "2024-01-01T00:00:00."
CASES += [
    ("no program is stopped any more", P, UP, STOPPED, (P.command(), KEPT), ("restart 1 p", "REPLY O5"), ("scan 20", "FAULT 20 p 1 DIVZERO", "DONE 20 1"), ("restart 1 p", "REPLY OK")),
    ("the last moment stays", P, ("scan 10 a=50", "DONE 10 0"), (P.command(), KEPT), ("scan 9", "REFUSED E1"), ("scan 10", "DONE 10 0")),
    ("a reload before the first scan", P, (plant_p(1).command(), KEPT), ("journal", f"1 {STAMP}000Z RELOAD KEPT 1 NEW 0", "END 1"), ("scan 0 a=50", "ALARM 0 T1 NORM UNACK", "DONE 0 1")),
    (
        "the journal keeps the names of then",
        P,
        UP,
        STOPPED,
        ("restart 1 P", "REPLY OK"),
        (Files("PROGRAM z END_PROGRAM VAR_GLOBAL END_VAR".split(" VAR")[0], alarms=()).command(), NONE),
        ("restart 1 p", "REPLY O1"),
        ("ack 1 T1", "REPLY O1"),
        ("restart 1 Z", "REPLY O5"),
        ("journal", f"1 {STAMP}000Z ALARM T1 NORM UNACK", f"2 {STAMP}010Z FAULT p 1 DIVZERO", f"3 {STAMP}010Z ORDER 1 restart p OK", f"4 {STAMP}010Z RELOAD KEPT 0 NEW 0", f"5 {STAMP}010Z ORDER 1 restart ? O1", f"6 {STAMP}010Z ORDER 1 ack ? O1", f"7 {STAMP}010Z ORDER 1 restart z O5", "END 7"),
    ),
    ("several reloads have a row each", P, UP, (P.command(), KEPT), (plant_p(alarms=LATCHED).command(), NEW), ("journal", f"1 {STAMP}000Z ALARM T1 NORM UNACK", f"2 {STAMP}000Z RELOAD KEPT 1 NEW 0", f"3 {STAMP}000Z RELOAD KEPT 0 NEW 1", "END 3")),
    ("an input that is gone", P, UP, (plain("", ";").command(), KEPT), ("scan 1 a=5", "REFUSED E3"), ("scan 1 b=1", "DONE 1 0")),
    ("no plant at all", P, UP, (Files(alarms=()).command(), NONE), ("scan 1", "DONE 1 0")),
]
FULL = ("the history is full", P, ("\n".join(["ack 1 T9"] * 999_999), *["REPLY O1"] * 999_999), (P.command(), KEPT), (P.command(), "REFUSED E6"), (plant_p(epoch="1999-01-01T00:00:00Z").command(), "REFUSED E8"))


def given(steps):
    """The bytes of the steps: each that is no reload by itself ends in LF."""
    return [step[0] for step in steps]


def wanted(steps):
    return [line for step in steps for line in step[1:]]


def by_reading(files, steps):
    """Where the second reading answers otherwise, or None. The last step has no LF, as its bytes may end the input."""
    server, parts = Server(files.read(), reloads.read), given(steps)
    asked = "".join(f"{it}\n" for it in parts[:-1]) + parts[-1]
    got, due = protocol.answers(server, asked.encode()).decode().split("\n")[:-1], wanted(steps)
    return next((f"line {at + 1}: by hand {one}, by the second reading {other}" for at, (one, other) in enumerate(zip([*due, "nothing"], [*got, "nothing"])) if one != other), None)


def by_program(program, files, steps):
    """Where a program answers otherwise, with some number of workers, or None."""
    with tempfile.TemporaryDirectory() as folder:
        files.write(folder)
        *first, last = given(steps)
        for workers in (1, 2, 4, 8):
            where = difference(answered(program, folder, first, workers, last), wanted(steps))
            if where:
                return f"{workers} workers: {where}"
    return None


def main():
    reader = argparse.ArgumentParser(usage=__doc__)
    reader.add_argument("program", nargs="?", type=os.path.abspath)
    reader.add_argument("--long", action="store_true")
    words, differ = reader.parse_args(), 0
    cases = CASES + [FULL] * words.long
    for name, files, *steps in cases:
        where = by_reading(files, steps) or (words.program and by_program(words.program, files, steps))
        if where:
            differ += 1
            print(f"{name}: {where}", flush=True)
    print(f"{len(cases) - differ} cases as by hand, {differ} not")
    return 1 if differ else 0


if __name__ == "__main__":
    sys.exit(main())
