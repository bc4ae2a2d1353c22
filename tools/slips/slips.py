#!/usr/bin/env python3
"""Makes slips in the sources of plants, one a run, and counts where `check` tells them.

    python3 tools/slips/slips.py crates/alarmd/out/alarmd examples/rooms examples/tank
    python3 tools/slips/slips.py crates/alarmd/out/alarmd examples/rooms --show

A slip is made at each token of each source, with all else as it is: the token is left out, stands twice, stands behind the next one, is another sign that is near
it (`;` for `:`), or, where it is a word, lacks a letter, has two changed about or a blank in it. For each kind of slips a line tells how many texts there are, how
many of them are accepted, and of the refused ones how many are told once and at most a line away from the slip; how many there and in other places too; and how
many elsewhere alone, as a name that is declared otherwise than it is used. With `--show` each slip that isn't told once beside it is printed, with what is told.

It needs Python 3.10 or later. Nothing is judged but the place: whether the sentence names the cause, only a reader can tell."""

import argparse
import concurrent.futures
import os
import random
import re
import shutil
import subprocess
import tempfile

TOKEN = re.compile(
    r"\(\*.*?\*\)|/\*.*?\*/|//[^\n]*|:=|=>|<=|>=|<>|\.\.|%[A-Za-z][\w.]*|[A-Za-z_]\w*(?:#[\w.]*)?|\d[\w#]*|\S", re.S
)
TOLD = re.compile(r"^([\w./-]+\.(?:st|toml|csv)):(\d+)(?::\d+)?: (?!warning)(.*)$", re.M)
# What is typed in the place of a sign or a keyword: a key beside it, a shift too many or too few, or what another language has.
NEAR = {
    ";": [":", ",", "."],
    ":": [";", "."],
    ":=": ["=", ":", ";=", ":0", "=:"],
    "=": [":=", "=="],
    ",": [".", ";", "<"],
    "(": [")", "9", "["],
    ")": ["(", "0", "]"],
    ".": [",", ":"],
    "=>": [":=", ">=", "->", "="],
    "<": [">", "<<", ","],
    "+": ["-", "++"],
    "OF": ["DO", "THEN"],
    "DO": ["THEN"],
    "THEN": ["DO", ":", "{"],
    "END_IF": ["END", "ENDIF", "END_CASE", "}"],
    "END_CASE": ["END_IF"],
    "END_FOR": ["END_IF", "NEXT"],
    "END_VAR": ["END"],
    "AND": ["&&"],
    "OR": ["||"],
    "NOT": ["!"],
    "ELSIF": ["ELSE", "ELSE IF"],
    "BOOL": ["bit"],
    "DINT": ["INT", "REAL"],
}


def tokens(text):
    """Where each token begins and ends; comments are none."""
    return [match.span() for match in TOKEN.finditer(text) if not match.group().startswith(("(*", "/*", "//"))]


def letters(word, dice):
    """A word with a slip of a letter, by kinds."""
    place = dice.randrange(1, len(word))
    yield "a letter left out", word[:place] + word[place + 1 :]
    yield "a blank in a word", word[:place] + " " + word[place:]
    unlike = [at for at in range(1, len(word) - 1) if word[at].lower() != word[at + 1].lower()]
    if unlike:
        place = dice.choice(unlike)
        yield "two letters changed about", word[:place] + word[place + 1] + word[place] + word[place + 2 :]


def slips(text):
    """The kind of each slip, where it stands, and the text with it."""
    spans = tokens(text)
    for number, (start, end) in enumerate(spans):
        word = text[start:end]
        yield "left out", start, text[:start] + text[end:]
        yield "twice", start, text[:end] + " " + text[start:]
        if number + 1 < len(spans):
            after, until = spans[number + 1]
            yield "behind the next", start, text[:start] + text[after:until] + text[end:after] + word + text[until:]
        for near in NEAR.get(word, []):
            yield "a near sign", start, text[:start] + near + text[end:]
        if re.fullmatch(r"[A-Za-z_]\w{2,}", word):
            for kind, other in letters(word, random.Random(start)):
                yield kind, start, text[:start] + other + text[end:]


def told(program, plant, source, text):
    """Where `check` tells of a plant with this text in one of its sources; None where it accepts that."""
    with tempfile.TemporaryDirectory() as parent:
        folder = os.path.join(parent, "plant")
        shutil.copytree(plant, folder)
        with open(os.path.join(folder, source), "w") as file:
            file.write(text)
        run = subprocess.run([program, "check", os.path.join(folder, "plant.toml")], capture_output=True, text=True)
    if run.returncode == 0:
        return None
    return [(os.path.basename(name), int(line), said) for name, line, said in TOLD.findall(run.stderr)]


def place_of(places, source, line):
    """`once`, `also elsewhere` or `elsewhere`, by the places of what is told of a slip in a line of a source."""
    beside = [name == source and abs(told_at - line) <= 1 for name, told_at, _ in places]
    if any(beside):
        return "once" if len(places) == 1 else "also elsewhere"
    return "elsewhere"


def main():
    parser = argparse.ArgumentParser(description=__doc__, formatter_class=argparse.RawDescriptionHelpFormatter)
    parser.add_argument("program")
    parser.add_argument("plants", nargs="+")
    parser.add_argument("--show", action="store_true")
    parser.add_argument("--jobs", type=int, default=2)
    options = parser.parse_args()
    counts = {}

    def run(slip):
        plant, source, kind, line, text = slip
        return slip, told(options.program, plant, source, text)

    def all_slips():
        for plant in options.plants:
            for source in sorted(name for name in os.listdir(plant) if name.endswith(".st")):
                with open(os.path.join(plant, source)) as file:
                    right = file.read()
                for kind, start, text in slips(right):
                    if text != right:
                        yield plant, source, kind, right.count("\n", 0, start) + 1, text

    with concurrent.futures.ThreadPoolExecutor(options.jobs) as pool:
        for (plant, source, kind, line, text), places in pool.map(run, all_slips()):
            place = "accepted" if places is None else place_of(places, source, line)
            counts.setdefault(kind, dict.fromkeys(("accepted", "once", "also elsewhere", "elsewhere"), 0))[place] += 1
            if options.show and place in ("also elsewhere", "elsewhere"):
                print(f"{plant}/{source}:{line}: {kind}: {text.splitlines()[line - 1].strip()}")
                for name, told_at, said in places:
                    print(f"    {name}:{told_at}: {said}")
    for kind, count in counts.items():
        print(f"{kind}: {sum(count.values())} texts; " + "; ".join(f"{place} {number}" for place, number in count.items()))


if __name__ == "__main__":
    main()
