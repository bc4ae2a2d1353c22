#!/usr/bin/env python3
"""Makes docs/DEFINITIONS.md from the definitions in crates/*/specs and the examples in by_hand.txt.

    python3 tools/definitions/definitions.py            writes the page
    python3 tools/definitions/definitions.py --check    compares the page with what would be written; `./test` runs this
    python3 tools/definitions/definitions.py NAME ..    shows definitions of these names: where they stand, their rules, texts and examples
    python3 tools/definitions/definitions.py --all      lists all definitions to which the contracts of ROOTS lead, with their files

A definition's rule is the comment above it. The page has each definition to which the contracts of ROOTS lead and that has an example in by_hand.txt.
It needs Python 3.8 or later. The exit status is 1 where something is wrong.
"""

import collections
import os
import re
import sys
import textwrap

HERE = os.path.dirname(os.path.abspath(__file__))
TOP = os.path.dirname(os.path.dirname(HERE))
CRATES = os.path.join(TOP, "crates")
PAGE = os.path.join(TOP, "docs", "DEFINITIONS.md")
EXAMPLES = os.path.join(HERE, "by_hand.txt")
HEAD = os.path.join(HERE, "head.txt")

# The entry functions of the server, by crate.
ROOTS = {
    "serve_runs": ["run", "run_from", "admit", "admit_from", "check_from"],
    "serve_session": ["serve", "step"],
    "plant_config": ["files", "read"],
    "serve_arguments": ["choose", "status"],
}

DEFINITION = re.compile(r"(?:abbrev pub|abbrev|pub record|record|unfoldable pub|unfoldable|pub data|data) (?!mutual)([^\s:]+)")
MEMBER = re.compile(r"pub ([^\s:]+) :")  # a definition inside a `mutual` block
BLOCK = re.compile(r"(?:abbrev |unfoldable )?mutual\b|module .*where$")
USE = re.compile(r"(?:pub )?use Rattle\.(\w+)\.specs\.([\w.]+?)(?:\.\{([^}]*)\})?(?: as (\w+))?\s*;?$")
WORD = re.compile(r"[\w₀₁₂◌']+(?:\.[\w◌]+)?|[^\w\s(){}\[\],;:.\"]+")  # a name, or an operator between two

Definition = collections.namedtuple("Definition", "rule lines number")
Example = collections.namedtuple("Example", "names text shown")


def read(path):
    with open(path, encoding="utf-8") as file:
        return file.read()


def definitions_in(path):
    """The definitions of a file: (name, Definition) each. A rule is the comment right above; a blank line ends a comment and a definition."""
    found, comment, lines, blocks = [], [], None, []
    for number, line in enumerate(read(path).split("\n"), 1):
        text = line.strip()
        if not text:
            comment, lines = [], None
            continue
        indent = len(line) - len(line.lstrip())
        while blocks and indent <= blocks[-1][0]:
            blocks.pop()
        if text.startswith("--"):
            comment = [] if text.startswith("-- --") else comment + [text[2:].strip()]
            continue
        if indent == (blocks[-1][0] + 2 if blocks else 0):
            if BLOCK.match(text):
                blocks.append((indent, text))
                comment, lines = (comment if "mutual" in text else []), None
                continue
            mutual = blocks and "mutual" in blocks[-1][1]
            head = DEFINITION.match(text) or (MEMBER.match(text) if mutual else None)
            if head:
                lines = [block for _, block in blocks if "module" in block] + [line]
                found.append((head.group(1), Definition(" ".join(comment), lines, number)))
                comment = []
                continue
        if lines is not None and not text.startswith("use "):
            lines.append(line)
        comment = []
    return found


def imports(text, ghost):
    """What the names of a file stand for that it takes from specs: (crate, file, name), or None for the name where a whole file has an alias."""
    named = {}
    for line in text.split("\n"):
        line = line.strip()
        if ghost:
            if not line.startswith("ghost "):
                continue
            line = line[6:]
        use = USE.match(line)
        if not use:
            continue
        crate, file, names, alias = use.groups()
        if names is None:
            named[alias or file.split(".")[-1]] = (crate, file, None)
        for name in (names or "").split(","):
            parts = name.strip().split(" as ")
            named[parts[-1]] = (crate, file, parts[0])
    return named


class Specs:
    """All definitions, by (crate, file, name), and what each leads to."""

    def __init__(self):
        self.found = collections.OrderedDict()
        self.named = {}
        self.passed = {}  # by crate and name: the crate and the file of a lower crate that it passes on
        for crate in sorted(os.listdir(CRATES)):
            folder = os.path.join(CRATES, crate, "specs")
            lib = os.path.join(folder, "Lib.antt")
            for name, (low, file, _) in imports(read(lib), False).items() if os.path.isfile(lib) else []:
                self.passed[crate, name] = (low, file)
            for name in sorted(os.listdir(folder)) if os.path.isdir(folder) else []:
                if not name.endswith(".antt") or name == "Lib.antt":
                    continue
                path = os.path.join(folder, name)
                self.named[crate, name[:-5]] = imports(read(path), False)
                for word, definition in definitions_in(path):
                    self.found[crate, name[:-5], word] = definition

    def meant(self, words, named, home=None):
        """The definitions that words stand for."""
        keys = set()
        for word in words:
            first, _, second = word.partition(".")
            for one in (first, "◌%s◌" % first):
                if home and home + (one,) in self.found:
                    keys.add(home + (one,))
                elif one in named:
                    crate, file, name = named[one]
                    keys.add(self.origin((crate, file, name or second)))
        return {key for key in keys if key in self.found}

    def origin(self, key):
        """The definition itself, where a crate passes on a file of another one, or a file a definition."""
        while key not in self.found:
            if key[:2] in self.passed:
                key = self.passed[key[:2]] + key[2:]
            elif key[2] in self.named.get(key[:2], {}):
                crate, file, name = self.named[key[:2]][key[2]]
                key = (crate, file, name or key[2])
            else:
                break
        return key

    def closure(self, keys):
        """These definitions and all to which they lead."""
        seen, left = set(keys), list(keys)
        while left:
            key = left.pop()
            words = WORD.findall("\n".join(self.found[key].lines))
            for other in self.meant(words, self.named[key[:2]], key[:2]) - seen:
                seen.add(other)
                left.append(other)
        return seen


def contracts(text, names):
    """The contracts of a source's functions of these names."""
    lines, found = text.split("\n"), []
    for at, line in enumerate(lines):
        head = re.match(r"\s*(?:pub )?(?:\w+ )*fn (\w+)", line)
        if not head or head.group(1) not in names:
            continue
        end = at + 1
        while end < len(lines) and lines[end].strip() not in ("", "{", "}") and not lines[end].strip().startswith("///"):
            end += 1
        clauses = "\n".join(lines[at:end])
        start = re.search(r"\b(requires|ensures)\b", clauses)
        found.append(clauses[start.start() :] if start else "")
    return "\n".join(found)


def roots(specs):
    """The definitions that the contracts of ROOTS name."""
    keys = set()
    for crate, names in ROOTS.items():
        folder = os.path.join(CRATES, crate, "src")
        for file in sorted(os.listdir(folder)):
            text = read(os.path.join(folder, file))
            keys |= specs.meant(WORD.findall(contracts(text, names)), imports(text, True))
    return keys


def examples():
    """By crate: what stands above its examples, the examples, and what stands below them."""
    crates, crate = collections.OrderedDict(), None
    for line in read(EXAMPLES).split("\n"):
        if line.startswith("## "):
            crate = crates.setdefault(line[3:], ([], [], []))
        elif crate and line.startswith(">"):
            crate[2 if crate[1] else 0].append(line[2:])
        elif crate and line.strip():
            names, text = line.lstrip("- ").split(": ", 1)
            crate[1].append(Example(names.split(", "), text, not line.startswith("- ")))
    return crates


def order():
    """The crates, the lowest first."""
    lines = read(os.path.join(TOP, "crates.txt")).split("\n")
    return [line.split(":")[0] for line in lines if ":" in line and not line.startswith("#")]


def chosen(specs, reached, crate, given):
    """The definitions of a crate that the page has, each with its examples, in the order of by_hand.txt."""
    places = {key[2]: key for key in sorted(reached) if key[0] == crate}
    kept = collections.OrderedDict()
    for example in given[1]:
        key = next((places[name] for name in example.names if name in places), None)
        if key and example.shown:
            kept.setdefault(key, []).append(example.text)
    return kept


def wrapped(line):
    """An item in lines of at most 160 columns, of which none after the first looks like the beginning of another list."""
    for width in range(160, 100, -1):
        lines = textwrap.wrap(line, width, subsequent_indent="  ", break_long_words=False, break_on_hyphens=False)
        if not any(re.match(r" +([-+*]|\d+[.)]) ", one) for one in lines[1:]):
            return lines
    return [line]


def section(specs, reached, crate, given):
    """The lines of a crate: its definitions with their rules and examples."""
    rows = chosen(specs, reached, crate, given)
    if not rows:
        return []
    lines, file = ["## " + crate, ""] + given[0] + [""] * bool(given[0]), None
    for key, texts in rows.items():
        place = "" if key[1] == file else " (%s)" % key[1]
        file = key[1]
        line = "- `%s`%s: %s. *%s*" % (key[2], place, specs.found[key].rule.rstrip("."), " ".join(texts))
        lines += wrapped(line)
    return lines + [""] + given[2] + [""] * bool(given[2])


def page(specs, reached):
    """The whole page."""
    given = examples()
    crates = [crate for crate in order() if crate in given]
    lines = read(HEAD).rstrip().split("\n") + [""]
    for crate in crates:
        lines += section(specs, reached, crate, given[crate])
    return "\n".join(lines).rstrip() + "\n"


def strays(specs):
    """The names of by_hand.txt that no definition of the crate has."""
    have = {(key[0], key[2]) for key in specs.found}
    return [
        "%s: %s" % (crate, name)
        for crate, given in examples().items()
        for example in given[1]
        for name in example.names
        if (crate, name) not in have
    ]


def bare(specs, reached):
    """The definitions of the page that have no rule."""
    given = examples()
    return [
        "%s: %s" % (key[0], key[2])
        for crate in given
        for key in chosen(specs, reached, crate, given[crate])
        if not specs.found[key].rule
    ]


def check(specs, reached):
    """Tells what is wrong, and returns how many of the three checks failed."""
    failed = 0
    for what, wrong in (
        ("by_hand.txt has a name that no definition has", strays(specs)),
        ("no comment states the rule of", bare(specs, reached)),
        ("run tools/definitions/definitions.py: docs/DEFINITIONS.md isn't what it writes", [] if read(PAGE) == page(specs, reached) else ["the page"]),
    ):
        failed += bool(wrong)
        for one in wrong:
            print("definitions: %s: %s" % (what, one))
    print("%d passed, %d failed" % (3 - failed, failed))
    return failed


def show(specs, reached, name):
    """Prints all that is known of the definitions of a name."""
    given = examples()
    for key in [key for key in specs.found if key[2] == name]:
        one = specs.found[key]
        print("crates/%s/specs/%s.antt:%d%s" % (key[0], key[1], one.number, ", of the theorem" if key in reached else ""))
        print("-- " + (one.rule or "(no rule)"))
        print("\n".join(one.lines))
        for example in given.get(key[0], ([], [], []))[1]:
            if name in example.names:
                print("by hand: " + example.text)
        print()


def main(words):
    specs = Specs()
    reached = specs.closure(roots(specs))
    if words == ["--check"]:
        return 1 if check(specs, reached) else 0
    if words == ["--all"]:
        print("\n".join("%s %s %s" % key for key in specs.found if key in reached))
        return 0
    if words and words[0].startswith("-"):
        print(__doc__)
        return 1
    for word in words:
        show(specs, reached, word)
    if not words:
        with open(PAGE, "w", encoding="utf-8") as file:
            file.write(page(specs, reached))
    return 0


if __name__ == "__main__":
    sys.exit(main(sys.argv[1:]))
