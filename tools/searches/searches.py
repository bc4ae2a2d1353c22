#!/usr/bin/env python3
"""Lists the goals at which `search` took long, and failed before `grind` proved them or found the proof, and what both took.

    python3 tools/searches/searches.py CRATE [--least N] [--found] [--write] [--most N]

At a goal without an answer the prover first tries `search`, which may take a second or more in vain, and then `grind`.
This reads what `rt check` left in crates/CRATE/out/incremental (so run that first, on the text as it is), and prints a
line for each such goal, the dearest first: steps of `search`, steps of `grind`, the function and the goal. A million steps
are about a second. The last line sums them up.

    --least N   goals whose search took at least N steps (200000)
    --found     also goals that the search proved, but with so many steps: `grind` mostly proves these with a fifth of them
    --write     writes an answer for each of these whose `grind` took at most --most steps (50000), in a function without
                type parameters and without a tactic of its own: `grind (arith, common_steps)`, which is what the prover
                tries after its search. Then run `rt check`, and take those out that it prints as open: `grind` had
                failed there too, and a later call proved the goal. Such a goal wants an answer that names its lemmas.

Exit status 0, or 2 where there is nothing to read. It proves nothing and runs nothing."""
import glob
import json
import os
import re
import sys

TOP = os.path.dirname(os.path.dirname(os.path.dirname(os.path.abspath(__file__))))
TRIED = {"search", "grind", "first_of"}


def end_of(text, at):
    """Returns where the JSON array that begins at a place ends."""
    depth, quoted, escaped = 0, False, False
    for i in range(at, len(text)):
        byte = text[i]
        if quoted:
            if escaped:
                escaped = False
            elif byte == 92:
                escaped = True
            elif byte == 34:
                quoted = False
        elif byte == 34:
            quoted = True
        elif byte in b"[{":
            depth += 1
        elif byte in b"]}":
            depth -= 1
            if depth == 0:
                return i + 1
    return len(text)


def goals_of(file):
    """Returns each goal that a file of records names, with the calls of tactics and their steps."""
    with open(file, "rb") as it:
        text = it.read()
    for found in re.finditer(rb'"calls":', text):
        end = end_of(text, found.end())
        try:
            calls = [(kind, steps) for kind, _, steps in json.loads(text[found.end() : end])]
        except ValueError:
            continue
        name = re.search(rb'"name":"([^"]+)"', text[end : end + 20000])
        if name:
            yield name[1].decode(), calls


def in_vain(folder, crate, least, found):
    """Returns the goals whose search was in vain, or also those that it found: its steps, those of `grind`, the function's path and the goal."""
    rows, head, tail = {}, f"Rattle-{crate}-proofs.", ".Proof.decls.oantt"
    for file in glob.glob(f"{glob.escape(folder)}/*/records/{head}*{tail}"):
        path = os.path.basename(file)[len(head) : -len(tail)]
        for goal, calls in goals_of(file):
            steps = dict(calls)
            if len(steps) == len(calls) and {"search", "first_of"} <= {*steps} <= TRIED and steps["search"] >= least and (found or "grind" in steps):
                rows[path, goal] = (steps["search"], steps.get("grind", 0), path, goal)
    return sorted(rows.values(), reverse=True)


def has_own_tactic(source, path):
    """Returns whether the function has type parameters or a tactic of its own: then its answer would be another one."""
    name = re.escape(path.split(".")[-1])
    found = re.search(rf"((?:#\[[^\n]*\]\n\s*)*)(?:pub(?:\(crate\))? )?fn {name}(<[^(]*)?\(", source)
    return bool(found) and ("tactic(" in found[1] or bool(found[2]) and not re.fullmatch(r"<('\w+,? ?)+>", found[2]))


def with_import(text, library, name):
    """Returns the text of a proof file with a name of a library imported."""
    line = re.search(rf"(?m)^use {re.escape(library)}\.\{{([^}}]*)\}}", text)
    if line and name in [it.strip() for it in line[1].split(",")]:
        return text
    if line:
        return text[: line.end(1)] + f", {name}" + text[line.end(1) :]
    last = [it.end() for it in re.finditer(r"(?m)^use Rattle\.std\.[^\n]*\n", text)]
    at = last[-1] if last else 0
    return text[:at] + f"use {library}.{{{name}}}\n" + text[at:]


def write(crate, rows):
    """Writes an answer for each of these goals, and returns how many it wrote."""
    here, written = f"{TOP}/crates/{crate}", 0
    source = "".join(open(it, encoding="utf-8").read() for it in glob.glob(f"{here}/src/**/*.rt", recursive=True))
    for path in sorted({row[2] for row in rows}):
        if has_own_tactic(source, path):
            continue
        file = f"{here}/proofs/{path.replace('.', '/')}/Answers.antt"
        text = ""
        if os.path.isfile(file):
            with open(file, encoding="utf-8") as it:
                text = it.read()
        goals = [row[3] for row in rows if row[2] == path and not re.search(rf"(?m)^(pub )?{re.escape(row[3])} :", text)]
        if not goals:
            continue
        named = f"use Rattle.{crate}.proofs.{path}.Goals as goal\n"
        if named not in text:
            last = [it.end() for it in re.finditer(r"(?m)^use [^\n]*\n", text)]
            at = last[-1] if last else 0
            text = text[:at] + named + text[at:]
        text = with_import(text, "Rattle.std.proofs.Common", "arith")
        text = with_import(text, "Rattle.std.proofs.lemmas.Grind", "common_steps")
        given = "t c" if path.split(".")[-1].startswith("+") else "c"
        for goal in goals:
            text = text.rstrip("\n") + f"\n\npub {goal} : goal.{goal}\n{goal} {given} = grind (arith, common_steps)\n"
        os.makedirs(os.path.dirname(file), exist_ok=True)
        with open(file, "w", encoding="utf-8") as it:
            it.write(text)
        written += len(goals)
    return written


def number_after(words, flag, otherwise):
    return int(words[words.index(flag) + 1]) if flag in words else otherwise


def main(words):
    if not words or words[0].startswith("-"):
        print(__doc__, file=sys.stderr)
        return 2
    crate = words[0]
    folder = f"{TOP}/crates/{crate}/out/incremental"
    if not os.path.isdir(folder):
        print(f"there is no {folder}: run rt check in the crate's folder first", file=sys.stderr)
        return 2
    rows = in_vain(folder, crate, number_after(words, "--least", 200000), "--found" in words)
    for vain, steps, path, goal in rows:
        print(f"{vain:>9} {steps:>8}  {path}  {goal}")
    print(f"{len(rows)} goals, {sum(row[0] for row in rows)} steps of searches")
    if "--write" in words:
        most = number_after(words, "--most", 50000)
        print(f"{write(crate, [row for row in rows if row[1] <= most])} answers written")
    return 0


if __name__ == "__main__":
    sys.exit(main(sys.argv[1:]))
