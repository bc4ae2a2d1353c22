#!/usr/bin/env python3
"""Tries the wrong bodies that stand outside the gate.

    python3 tools/planted/planted.py CRATE.. [--only WORD]
    python3 tools/planted/planted.py --apply

The folder CRATE beside this program has the wrong bodies of a crate, one a file, in the form of the crates' folders must-fail/. The first way tries those of each crate
named, or those with WORD in their names: it puts them into must-fail/ of a copy of the repository, runs `rt must-fail` there, and prints a line for each. `refused` is
followed by the goal that stays open; `PROVED` tells that a contract says too little; a `BAD EDIT` doesn't apply, or isn't read; of one that is `NOT TRIED` nothing
is known. The exit status is 0 where all are refused, 1 where one is proved, and else 2.

With --apply nothing is proved: each wrong body, of those here and of the gate's, has to apply to the code as it stands, its old texts each exactly once in their file.
Those that don't are printed, and the exit status is 2 if there is one.
"""

import argparse
import glob
import os
import re
import shutil
import subprocess
import sys
import tempfile

HERE = os.path.dirname(os.path.abspath(__file__))
ROOT = os.path.dirname(os.path.dirname(HERE))
KINDS = {"refused, as it must be": "refused", "NOT REFUSED": "PROVED", "BAD EDIT": "BAD EDIT", "NOT TRIED": "NOT TRIED"}
TOLD = re.compile(r"rt: must-fail \w+/(\S+)\.edit: (refused, as it must be|NOT REFUSED|BAD EDIT|NOT TRIED)[ :]*(.*)")


def planted(crate, word=""):
    """The names of a crate's wrong bodies here that have the word in them."""
    return sorted(name[: -len(".edit")] for name in os.listdir(f"{HERE}/{crate}") if name.endswith(".edit") and word in name)


def fault(edit, crate):
    """Why the text of an edit doesn't apply to the crate in a folder, or None where it does."""
    path, old, texts, pairs = "", "", {}, 0
    for line in edit.splitlines():
        key, _, value = line.partition(":")
        value = value.removeprefix(" ")
        if key == "file":
            path = value
        elif key == "old":
            old = value
        elif key == "new":
            if path not in texts:
                if not os.path.isfile(f"{crate}/{path}"):
                    return f"there is no file {path}"
                with open(f"{crate}/{path}", encoding="utf-8") as file:
                    texts[path] = file.read()
            found = texts[path].count(old)
            if found != 1:
                return f"{old.strip()!r} stands {found} times in {path}"
            texts[path], pairs = texts[path].replace(old, value), pairs + 1
        else:
            return f"a line is none of file, old and new: {line!r}"
    return None if pairs else "there is no old text with its new one"


def apply():
    """Looks whether all wrong bodies apply, prints those that don't, and tells how many these are."""
    files = sorted([*glob.glob(f"{ROOT}/crates/*/must-fail/*.edit"), *glob.glob(f"{HERE}/*/*.edit")])
    failed = 0
    for file in files:
        inside = os.path.relpath(file, ROOT)
        crate = inside.split(os.sep)[1 if inside.startswith("crates") else 2]
        with open(file, encoding="utf-8") as text:
            why = fault(text.read(), f"{ROOT}/crates/{crate}")
        if why:
            failed += 1
            print(f"{inside}: {why}")
    print(f"{len(files) - failed} of {len(files)} wrong bodies apply")
    return failed


def copied(crate, names, room):
    """A copy of the repository in which the crate has these wrong bodies, and no other crate has any."""
    top = f"{room}/copy"
    shutil.copytree(f"{ROOT}/crates", f"{top}/crates", ignore=shutil.ignore_patterns("out", "must-fail"))
    for name in ["crates.txt", "HANDLES"]:
        shutil.copy(f"{ROOT}/{name}", top)
    os.mkdir(f"{top}/crates/{crate}/must-fail")
    for name in names:
        shutil.copy(f"{HERE}/{crate}/{name}.edit", f"{top}/crates/{crate}/must-fail")
    return top


def tried(crate, names):
    """What became of each of the wrong bodies, by name: its kind, and what rt said."""
    with tempfile.TemporaryDirectory(prefix="planted-") as room:
        ran = subprocess.run(["rt", "must-fail", crate], cwd=copied(crate, names, room), stdout=subprocess.PIPE, stderr=subprocess.STDOUT, text=True, errors="replace")
    told = {it[1]: (KINDS[it[2]], it[3]) for it in map(TOLD.match, ran.stdout.splitlines()) if it}
    if not told:
        print(ran.stdout, end="", file=sys.stderr)
    return {name: told.get(name, ("NOT TRIED", "rt said nothing of it")) for name in names}


def main():
    given = argparse.ArgumentParser(description=__doc__, formatter_class=argparse.RawDescriptionHelpFormatter)
    given.add_argument("crates", nargs="*", metavar="CRATE")
    given.add_argument("--only", default="", metavar="WORD")
    given.add_argument("--apply", action="store_true")
    words = given.parse_args()
    if words.apply == bool(words.crates):
        given.error("crates, or --apply")
    if words.apply:
        return 2 if apply() else 0
    lacking = [it for it in words.crates if not os.path.isdir(f"{HERE}/{it}")]
    if lacking:
        given.error(f"there are no wrong bodies of {', '.join(lacking)} here")
    count = dict.fromkeys(KINDS.values(), 0)
    for crate in words.crates:
        names = planted(crate, words.only)
        for name, (kind, text) in (tried(crate, names) if names else {}).items():
            count[kind] += 1
            print(f"{crate} {name}: {kind}{': ' if text else ''}{text}", flush=True)
    print(", ".join(f"{number} {kind}" for kind, number in count.items()))
    return 1 if count["PROVED"] else 2 if count["BAD EDIT"] or count["NOT TRIED"] else 0


if __name__ == "__main__":
    sys.exit(main())
