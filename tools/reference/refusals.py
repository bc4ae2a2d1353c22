#!/usr/bin/env python3
"""Plants one fault in each random plant, and compares the refusal with the one that the rules give.

    python3 tools/reference/refusals.py PROGRAM [FIRST_SEED [COUNT]]

PROGRAM is the built server. A fault is a statement or a declaration that breaks one rule of docs/LANGUAGE.md (C6 to C9, C10 TURNS and
ELEMENTS), put somewhere in a plant that keeps all rules; so the refusal's number, its file and its unit are known. The exit status is 0 where all agree.
"""

import os
import random
import subprocess
import sys
import tempfile
from dataclasses import dataclass

from language import BOOL, DINT, TIME, Array, inner
from plants import Maker, Writer


# A value of each kind, and one of another kind.
RIGHT, WRONG = {BOOL: "TRUE", DINT: "2", TIME: "T#1s"}, {BOOL: "2", DINT: "TRUE", TIME: "1"}


@dataclass
class Text:
    """A statement that stands as it is written."""

    text: str


class FaultWriter(Writer):
    """Writes plants in which a statement or a declaration is a text of its own; its sections come before the body."""

    sections = {}

    def statement(self, it):
        return it.text if isinstance(it, Text) else super().statement(it)

    def routine(self, it):
        text = super().routine(it)
        if it.name not in self.sections:
            return text
        head, rest = text.split("\n", 1)
        return f"{head}\n{self.sections[it.name]}\n{rest}"


def lists_of(body):
    """All lists of statements in a body, itself first."""
    return [body] + [deep for statement in body for statements in inner(statement) for deep in lists_of(statements)]


class Faults:
    """The faults that a routine may be given: each is its refusal, and a statement or a section that breaks the rule."""

    def __init__(self, some, maker, routine):
        self.some, self.maker, self.routine = some, maker, routine
        self.globals = maker.plant.globals

    def own(self, kind):
        return [name for name, it, _, _ in self.routine.variables if it == kind]

    def statements(self):
        """(refusal, text) of statements. `zz` and `yy` are declared nowhere."""
        found = [("C6", "zz := 1"), ("C6", "zz(yy := 1)"), ("C6", "IF zz THEN ; END_IF"), ("C6", "FOR zz := 1 TO 2 DO ; END_FOR")]
        found += [("C6", "CASE zz OF 1: ; END_CASE")]
        found += [("C7", "IF 1 THEN ; END_IF"), ("C7", "CASE TRUE OF 1: ; END_CASE"), ("C7", "IF T#1s = 1 THEN ; END_IF")]
        found += [("C7", "IF (1 < 2) < (2 < 3) THEN ; END_IF"), ("C7", "IF NOT 1 THEN ; END_IF"), ("C7", "IF T#1s * 2 = T#2s THEN ; END_IF")]
        for name in self.own(BOOL):
            found += [("C7", f"{name} := (1)"), ("C7", f"{name} := 2"), ("C7", f"{name} := -0"), ("C7", f"{name} := DINT#1")]
            found += [("C6", f"{name} := zz"), ("C6", f"{name} := {name}.q"), ("C9", f"FOR {name} := 1 TO 2 DO ; END_FOR"), ("C7", f"{name}()")]
        for name in self.own(DINT):
            found += [("C7", f"{name} := TRUE"), ("C7", f"{name} := T#1s"), ("C6", f"{name} := 1 + (2 * zz)"), ("C7", f"{name} := -(TRUE)")]
            found += [("C9", f"FOR {name} := 1 TO {name} DO ; END_FOR"), ("C9", f"FOR {name} := 1 TO 2 BY 0 DO ; END_FOR")]
            found += [("C9", f"FOR {name} := 1 / 0 TO 2 DO ; END_FOR"), ("C9", f"FOR {name} := 1 TO 0 * (1 / 0) DO ; END_FOR")]
            found += [("C7", f"FOR {name} := 1 TO T#2s DO ; END_FOR"), ("C9", f"FOR {name} := 1 TO 2 DO {name} := 1; END_FOR")]
            found += [("C9", f"FOR {name} := 1 TO 2 DO FOR {name} := 1 TO 2 DO ; END_FOR; END_FOR")]
            found += [("C10 TURNS", f"FOR {name} := 1 TO 10001 DO ; END_FOR"), ("C10 TURNS", f"FOR {name} := 2147483647 TO -2147483648 BY -1 DO ; END_FOR")]
        for name in self.own(TIME):
            found += [("C7", f"{name} := 1"), ("C7", f"{name} := T#1s / T#1s"), ("C9", f"FOR {name} := 1 TO 2 DO ; END_FOR")]
        return found + self.statements_on_globals() + self.statements_on_instances() + self.statements_on_arrays()

    def statements_on_globals(self):
        own = self.routine.names()
        found = []
        for name, kind, region, _ in self.globals:
            if name.lower() not in own:
                if region == "I":
                    found.append(("C7", f"{name} := {'TRUE' if kind == BOOL else '1' if kind == DINT else 'T#1s'}"))
                elif kind == DINT:
                    found.append(("C9", f"FOR {name} := 1 TO 2 DO ; END_FOR"))
        return found

    def statements_on_arrays(self):
        """Of arrays, and of an index where no array is."""
        found = [("C6", "zz[1] := 1"), ("C6", "IF zz[1] = 1 THEN ; END_IF"), ("C6", f"{self.routine.name}[1] := 1")]
        for name, kind, _, _ in self.routine.variables:
            found += [("C7", f"{name}[1] := {RIGHT[kind]}"), ("C7", f"IF {name}[1] = {RIGHT[kind]} THEN ; END_IF")]
        for name, _ in self.routine.instances:
            found += [("C7", f"{name}[1] := 1"), ("C7", f"IF {name}[1] THEN ; END_IF")]
        for array in self.maker.arrays(self.routine):
            found += self.statements_on(array.text, array.kind, f"{array.text}[{array.low}]")
        return found

    def statements_on(self, name, kind, element):
        """Of an array, with the text of one of its elements."""
        right, wrong = RIGHT[kind], WRONG[kind]
        found = [("C7", f"{name} := {right}"), ("C7", f"IF {name} = {right} THEN ; END_IF"), ("C7", f"IF {name} = {name} THEN ; END_IF"), ("C7", f"{name}()")]
        found += [("C6", f"IF {name}.q THEN ; END_IF"), ("C9", f"FOR {name} := 1 TO 2 DO ; END_FOR"), ("C7", f"{name}[TRUE] := {right}")]
        found += [("C7", f"{name}[T#1s] := {right}"), ("C7", f"IF {name}[TRUE] = {right} THEN ; END_IF"), ("C7", f"{name}[{name}] := {right}")]
        found += [("C7", f"{element} := {wrong}"), ("C7", f"{element} := {name}"), ("C6", f"{element} := zz"), ("C6", f"{name}[zz] := {right}")]
        found += [("C6", f"IF {name}[zz] = {right} THEN ; END_IF"), ("C7", f"IF {element} = {wrong if kind != BOOL else 'T#1s'} THEN ; END_IF")]
        for control in self.own(DINT):
            found.append(("C9" if kind == DINT else "C7", f"FOR {control} := 1 TO {element} DO ; END_FOR"))
            found += [("C7", f"FOR {control} := {name} TO 2 DO ; END_FOR"), ("C9", f"FOR {control} := 1 TO 2 DO {control} := 1; {element} := {right}; END_FOR")]
        for instance, block in self.routine.instances:
            inputs, outputs = self.maker.members(block)
            found += [("C7", f"{instance}({output} => {name})") for output, _ in outputs] + [("C7", f"{instance}({given} := {name})") for given, _ in inputs]
        return found

    def statements_on_instances(self):
        found = []
        for name, block in self.routine.instances:
            inputs, outputs = self.maker.members(block)
            found += [("C7", f"{name} := 1"), ("C7", f"IF {name} THEN ; END_IF"), ("C6", f"{name}(zz := 1)"), ("C6", f"IF {name}.zz THEN ; END_IF")]
            for given, kind in inputs:
                right, wrong = RIGHT[kind], WRONG[kind]
                found += [("C6", f"{name}({given} := {right}, {given.lower()} := {right})"), ("C7", f"{name}({given} := {wrong})")]
                found += [("C6", f"IF {name}.{given} = {right} THEN ; END_IF"), ("C6", f"{name}({given} := zz)")]
                found += [("C6", f"{name}({given} => {target})") for target in self.own(kind)]
            for output, kind in outputs:
                found += [("C6", f"{name}({output} => zz)")]
                found += [("C6", f"{name}({output} => {it}, {output} => {it})") for it in self.own(kind)]
                found += [("C7", f"{name}({output} => {it})") for other in (BOOL, DINT, TIME) if other != kind for it in self.own(other)]
        return found

    def sections(self):
        """(refusal, text) of sections. A name that is there is declared anew in another letter case."""
        name = self.some.choice(self.routine.variables)[0]
        found = [("C6", f"VAR {name.swapcase()} : DINT; END_VAR"), ("C6", "VAR zz : yy; END_VAR"), ("C6", "VAR_EXTERNAL zz : DINT; END_VAR")]
        found += [("C6", "VAR zz, yy, ZZ : BOOL; END_VAR"), ("C7", "VAR zz : TON := 1; END_VAR"), ("C7", "VAR zz : DINT := TRUE; END_VAR")]
        found += [("C7", "VAR zz : BOOL := (0); END_VAR"), ("C9", "VAR zz : DINT := 1 / 0; END_VAR"), ("C9", "VAR yy : DINT; zz : DINT := yy; END_VAR")]
        found += [("C9", "VAR zz : DINT := 2147483647 + 1; END_VAR"), ("C6", "VAR zz : DINT := yy; END_VAR")]
        if self.routine.is_block:
            found += [("C7", "VAR_INPUT zz : TOF; END_VAR"), ("C7", "VAR_OUTPUT zz : R_TRIG; END_VAR"), ("C8", f"VAR zz : {self.routine.name}; END_VAR")]
        found += self.sections_of_arrays(name)
        for name, kind, _, _ in self.globals:
            if self.is_free(name):
                other = {BOOL: DINT, DINT: TIME, TIME: BOOL}[kind]
                found += [("C7", f"VAR_EXTERNAL {name} : {other}; END_VAR"), ("C7", f"VAR_EXTERNAL {name} : ARRAY[1..1] OF {kind}; END_VAR")]
        return found

    def sections_of_arrays(self, name):
        """Of arrays, where `name` is that of a variable of the routine."""
        array = "ARRAY[1..2] OF DINT"
        found = [("C7", f"VAR zz : {array} := 1; END_VAR"), ("C7", "VAR zz : ARRAY[0..0] OF BOOL := 0; END_VAR"), ("C6", f"VAR zz : {array} := yy; END_VAR")]
        found += [("C9", "VAR zz : ARRAY[2..1] OF DINT; END_VAR"), ("C9", "VAR zz : ARRAY[2147483647..-2147483648] OF TIME; END_VAR")]
        found += [("C6", f"VAR zz, yy, ZZ : {array}; END_VAR"), ("C6", f"VAR {name.swapcase()} : {array}; END_VAR"), ("C6", f"VAR_EXTERNAL zz : {array}; END_VAR")]
        for bounds in ("0..4096", "1..4097", "-4096..0", "-2147483648..2147483647", "-2147483648..0", "2147479551..2147483647"):
            found.append(("C10 ELEMENTS", f"VAR zz : ARRAY[{bounds}] OF {self.some.choice([BOOL, DINT, TIME])}; END_VAR"))
        if self.routine.is_block:
            found += [("C7", f"VAR_INPUT zz : {array}; END_VAR"), ("C7", f"VAR_OUTPUT zz : {array}; END_VAR"), ("C7", "VAR_INPUT zz : ARRAY[2..1] OF BOOL; END_VAR")]
        for it in self.maker.arrays(self.routine):
            found += [("C9" if it.kind == DINT else "C7", f"VAR zz : DINT := {it.text}[{it.low}]; END_VAR"), ("C7", f"VAR zz : {it.kind} := {it.text}; END_VAR")]
        for it in self.maker.plant.arrays:
            if self.is_free(it.text):
                found += [("C7", f"VAR_EXTERNAL {it.text} : {text}; END_VAR") for text in self.other_arrays(it)]
        return found

    def other_arrays(self, it):
        """What a VAR_EXTERNAL of a global array may not say."""
        same = f"ARRAY[{it.low}..{it.high}] OF "
        found = [it.kind, same + {BOOL: DINT, DINT: TIME, TIME: BOOL}[it.kind], f"{same}{it.kind} := {RIGHT[it.kind]}"]
        found += [f"ARRAY[{it.low}..{it.high + 1}] OF {it.kind}"] if it.high < 2**31 - 1 else []
        return found + ([f"ARRAY[{it.low - 1}..{it.high}] OF {it.kind}", f"ARRAY[{it.low - 1}..{it.high - 1}] OF {it.kind}"] if it.low > -(2**31) else [])

    def is_free(self, name):
        """Whether the routine declares no such name, by VAR_EXTERNAL either, and its text doesn't have it."""
        external = {(it.text if isinstance(it, Array) else it[0]).lower() for it in self.routine.externals}
        return name.lower() not in self.routine.names() | external and not self.is_named(name)

    def is_named(self, name):
        """Whether the routine's own text may name a global, so that another kind for it breaks more than one rule."""
        return name.lower() in repr(self.routine.body).lower()


def faulty(seed):
    """The texts of a plant with one fault, and the line that refuses it."""
    some = random.Random(seed)
    maker = Maker(some)
    plant = maker.made()
    routines = list(plant.blocks.values()) + plant.programs
    if not routines:
        return None, None
    routine = some.choice(routines)
    faults, writer = Faults(some, maker, routine), FaultWriter(some)
    writer.sections = {}
    if some.random() < 0.7:
        refusal, text = some.choice(faults.statements())
        # (inside a FOR it might assign that FOR's control variable, which is C9 and comes first)
        place = routine.body if refusal == "C10 TURNS" else some.choice(lists_of(routine.body))
        place.insert(some.randrange(len(place) + 1), Text(text))
    else:
        refusal, text = some.choice(faults.sections())
        writer.sections = {routine.name: text}
    files = writer.files(plant)
    word = "FUNCTION_BLOCK" if routine.is_block else "PROGRAM"
    file = next(name for name, source in files.items() if f"{word} {routine.name}\n" in source)
    line = f"CONFIG {refusal}" if " " in refusal else f"CONFIG {refusal} {file} {routine.name}"
    return files, (line, text)


def main(words):
    program = os.path.abspath(words[0])
    first, count = (int(word) for word in (words[1:] + ["1", "1000"][len(words) - 1 :])[:2])
    differ = made = 0
    with tempfile.TemporaryDirectory() as folder:
        for seed in range(first, first + count):
            files, wanted = faulty(seed)
            if files is None:
                continue
            made += 1
            for name, text in files.items():
                with open(os.path.join(folder, name), "w", newline="", encoding="utf-8") as file:
                    file.write(text)
            ran = subprocess.run([program, "check", os.path.join(folder, "plant.toml")], capture_output=True)
            got = ran.stdout.decode().strip()
            if got != wanted[0] or ran.returncode != 3:
                differ += 1
                print(f"seed {seed}: {wanted[1]}: wanted {wanted[0]}, got {got}", flush=True)
    print(f"{made - differ} plants refused alike, {differ} not")
    return 1 if differ else 0


if __name__ == "__main__":
    if len(sys.argv) < 2 or len(sys.argv) > 4:
        sys.exit(__doc__)
    sys.exit(main(sys.argv[1:]))
