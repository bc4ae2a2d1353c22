"""The trees of a plant's sources, read from their texts.

The sources keep the spelling and the grammar (grammar.py says whether they do). A name that is declared nowhere is C6, as where the end of a source is cut off; every other rule of
names, kinds and constants is taken to be kept.
"""

import re

import files
from grammar import INTEGER, LEVELS, PART, UNITS, Parser, integer_value
from language import BINDS, BOOL, DINT, RANGES, STANDARD, TIME, Array, Assign, Binary, Call, Case, Element, Empty, For, If, Literal, Read, Routine, Unary

WORD = re.compile("[A-Za-z_][A-Za-z0-9_]*")
LITERAL = re.compile("(?:DINT#[+-]?|T#-?|TIME#-?)?[A-Za-z0-9_#.]+", re.IGNORECASE)
SECTIONS = ("VAR", "VAR_INPUT", "VAR_OUTPUT", "VAR_EXTERNAL")
# Operators of the same result kind as their operands; all others give a BOOL.
ARITHMETIC = ("+", "-", "*", "/", "MOD")


class Unit:
    """A routine whose declarations are read: its file, and where in the tokens its body begins."""

    def __init__(self, reader, routine, at):
        self.reader, self.routine, self.at = reader, routine, at


class Reader(Parser):
    """Reads one source. Declarations are read first, of all sources; then bodies, which name what others declare."""

    def __init__(self, name, text):
        super().__init__(text)
        self.name, self.text = name, text

    # ---- declarations

    def declared(self, plant):
        """The units of the source. Its globals are added to the plant."""
        units = []
        while self.kind() == "VAR_GLOBAL":
            self.at += 1
            while self.kind() != "END_VAR":
                self.global_declaration(plant)
            self.at += 1
        while self.kind():
            head = self.take("FUNCTION_BLOCK", "PROGRAM").kind
            routine = Routine(self.word(), head == "FUNCTION_BLOCK")
            while self.kind() in SECTIONS:
                section = self.take(*SECTIONS).kind
                while self.kind() != "END_VAR":
                    self.own_declaration(routine, section)
                self.at += 1
            units.append(Unit(self, routine, self.at))
            while self.take(self.kind()).kind != f"END_{head}":
                pass
        return units

    def word(self):
        return WORD.match(self.text, self.take("word").at)[0]

    def global_declaration(self, plant):
        names, region = [self.word()], None
        if self.kind() == "AT":
            self.at += 1
            region = self.text[self.take("address").at + 1].upper()
        for name, kind, bounds, initial in self.rest_of_declaration(names):
            if kind not in (BOOL, DINT, TIME):
                raise files.Unknown  # a global of no kind: C6
            if bounds:
                plant.arrays.append(Array(kind, ("global", name.lower()), *bounds, name))
            else:
                plant.globals.append((name, kind, region, initial))

    def own_declaration(self, routine, section):
        for name, kind, bounds, initial in self.rest_of_declaration([self.word()]):
            if section == "VAR_EXTERNAL":
                routine.externals.append(name.lower())
            elif bounds:
                routine.arrays.append(Array(kind, ("own", name.lower()), *bounds, name))
            elif kind in (BOOL, DINT, TIME):
                routine.variables.append((name, kind, section, initial))
            else:
                routine.instances.append((name, kind))

    def rest_of_declaration(self, names):
        """What is declared: each name with its kind (or the word of a block type), the bounds of an array, and the initial value."""
        while self.kind() == ",":
            self.at += 1
            names.append(self.word())
        self.take(":")
        bounds = initial = None
        if self.kind() == "ARRAY":
            self.at += 1
            self.take("[")
            low = self.signed()
            self.take("..")
            bounds = (low, self.signed())
            self.take("]")
            self.take("OF")
        kind = self.word() if self.kind() == "word" else self.take(BOOL, DINT, TIME).kind
        if self.kind() == ":=":
            self.at += 1
            initial = self.value_tree(None)
        self.take(";")
        return [(name, kind, bounds, initial) for name in names]

    def signed(self):
        """A bound or a label's number."""
        return self.integer_tree().value

    def integer_tree(self):
        """An integer, with a minus or without one."""
        sign = "-" if self.kind() == "-" else ""
        self.at += len(sign)
        it = self.take("integer")
        return Literal(DINT, -it.value if sign else it.value, sign + INTEGER.match(self.text, it.at)[0])

    # ---- statements; `scope` says what names mean

    def body(self, scope):
        found = []
        while self.kind() in ("word", "IF", "CASE", "FOR", ";"):
            found.append(Empty() if self.kind() == ";" else self.one(scope))
            self.take(";")
        return found

    def one(self, scope):
        head = self.kind()
        if head == "word":
            return self.simple(scope)
        self.at += 1
        if head == "IF":
            return self.tests(scope)
        return self.choices(scope) if head == "CASE" else self.loop(scope)

    def simple(self, scope):
        """An assignment or a call."""
        name = self.word()
        if self.kind() == "(":
            return self.call_of(scope, name)
        target = self.place_of(scope, name)
        self.take(":=")
        return Assign(target, self.value_tree(scope))

    def call_of(self, scope, name):
        block, arguments = scope.instance(name), []
        self.at += 1
        while self.kind() != ")":
            self.at += self.kind() == ","
            given = self.word()
            if self.take(":=", "=>").kind == ":=":
                arguments.append((given, self.value_tree(scope)))
            else:
                arguments.append((given, (scope.variable(self.word()),)))
        self.at += 1
        return Call(name, block, arguments)

    def tests(self, scope):
        branches, otherwise, follows = [], None, "IF"
        while follows != "END_IF":
            if follows == "ELSE":
                otherwise = self.body(scope)
            else:
                test = self.value_tree(scope)
                self.take("THEN")
                branches.append((test, self.body(scope)))
            follows = self.take("ELSIF", "ELSE", "END_IF").kind
        return If(branches, otherwise)

    def choices(self, scope):
        selector, choices, otherwise = self.value_tree(scope), [], None
        self.take("OF")
        while self.kind() in ("integer", "-"):
            labels = [self.label_of()]
            while self.kind() == ",":
                self.at += 1
                labels.append(self.label_of())
            self.take(":")
            choices.append((labels, self.body(scope)))
        if self.take("ELSE", "END_CASE").kind == "ELSE":
            otherwise = self.body(scope)
            self.take("END_CASE")
        return Case(selector, choices, otherwise)

    def label_of(self):
        low = self.signed()
        if self.kind() != "..":
            return low, low
        self.at += 1
        return low, self.signed()

    def loop(self, scope):
        control, step = scope.variable(self.word()), None
        self.take(":=")
        first = self.value_tree(scope)
        self.take("TO")
        last = self.value_tree(scope)
        if self.kind() == "BY":
            self.at += 1
            step = self.value_tree(scope)
        self.take("DO")
        body = self.body(scope)
        self.take("END_FOR")
        return For(control, first, last, step, body)

    # ---- expressions

    def value_tree(self, scope, tightness=0):
        if tightness == len(LEVELS):
            return self.operand(scope)
        left = self.value_tree(scope, tightness + 1)
        while self.kind() in LEVELS[tightness]:
            operator = self.take(*BINDS).kind
            right = self.value_tree(scope, tightness + 1)
            left = Binary(operator, left.kind if operator in ARITHMETIC else BOOL, left, right)
        return left

    def operand(self, scope):
        if self.kind() == "-":
            if self.kind(1) == "integer":
                return self.integer_tree()
            self.at += 1
            below = self.operand(scope)
            return Unary("-", below.kind, below)
        if self.kind() == "NOT":
            self.at += 1
            return Unary("NOT", BOOL, self.operand(scope))
        if self.kind() == "(":
            self.at += 1
            found = self.value_tree(scope)
            self.take(")")
            return found
        if self.kind() == "integer":
            return self.integer_tree()
        if self.kind() == "literal":
            return literal(LITERAL.match(self.text, self.take("literal").at)[0])
        return self.place_of(scope, self.word())

    def place_of(self, scope, name):
        """A variable, an output or an element, by its first word."""
        if scope is None:
            raise files.Unknown  # a constant that names something: C6 or C9
        if self.kind() == ".":
            self.at += 1
            return scope.output(name, self.word())
        if self.kind() == "[":
            self.at += 1
            index = self.value_tree(scope)
            self.take("]")
            return Element(scope.array(name), index)
        return scope.variable(name)


def literal(text):
    """A literal by its spelling."""
    mark, _, rest = text.upper().partition("#")
    if mark in ("TRUE", "FALSE"):
        return Literal(BOOL, int(mark == "TRUE"), text)
    if mark == "BOOL":
        return Literal(BOOL, int(rest in ("1", "TRUE")), text)
    sign = -1 if rest.startswith("-") else 1
    if mark == "DINT":
        return Literal(DINT, sign * integer_value(rest.lstrip("+-")), text)
    total = 0
    for number, fraction, unit in PART.findall(rest):
        digits = fraction.lstrip(".").replace("_", "")
        length = UNITS[unit.lower()]
        total += int(number.replace("_", "")) * length + (int(digits) * length // 10 ** len(digits) if digits else 0)
    return Literal(TIME, sign * total, text)


class Scope:
    """What the names of a routine's body mean. A name that is declared nowhere is C6, and names the routine."""

    def __init__(self, plant, file, routine):
        self.plant, self.refusal = plant, f"CONFIG C6 {file} {routine.name}"
        self.variables = {name.lower(): Read(kind, ("global", name.lower()), name) for name, kind, _, _ in plant.globals}
        self.arrays = {it.place[1]: it for it in plant.arrays}
        hidden = routine.names()
        for name in hidden:
            self.variables.pop(name, None)
            self.arrays.pop(name, None)
        self.variables |= {name.lower(): Read(kind, ("own", name.lower()), name) for name, kind, _, _ in routine.variables}
        self.arrays |= {it.place[1]: it for it in routine.arrays}
        self.instances = dict((name.lower(), block) for name, block in routine.instances)

    def found(self, names, name):
        return names[name.lower()] if name.lower() in names else files.refuse(self.refusal)

    def variable(self, name):
        return self.found(self.variables, name)

    def array(self, name):
        return self.found(self.arrays, name)

    def instance(self, name):
        return self.found(self.instances, name)

    def output(self, name, output):
        block = self.instance(name)
        outputs = STANDARD[block][1] if block in STANDARD else self.plant.blocks[block].section("VAR_OUTPUT")
        kind = self.found({it.lower(): kind for it, kind in outputs}, output)
        return Read(kind, ("output", name.lower(), output.lower()), f"{name}.{output}")


def add_sources(plant, sources):
    """Adds what the sources hold to a plant; each is its name and its bytes. Raises files.Refused with C6."""
    readers = [Reader(name, text.removeprefix(files.MARK).decode("latin-1")) for name, text in sources]
    units = [unit for reader in readers for unit in reader.declared(plant)]
    blocks = [unit.routine for unit in units if unit.routine.is_block]
    types = {it.name.lower(): it.name for it in blocks} | {name.lower(): name for name in STANDARD}
    plant.programs = [unit.routine for unit in units if not unit.routine.is_block]
    known = {name.lower(): (name, kind, region, initial) for name, kind, region, initial in plant.globals} | {it.place[1]: it for it in plant.arrays}
    missing = []
    for unit in units:
        routine = unit.routine
        gone = any(block.lower() not in types for _, block in routine.instances) or any(name not in known for name in routine.externals)
        missing += [unit] if gone else []
        routine.instances = [(name, types.get(block.lower(), block)) for name, block in routine.instances]
        routine.externals = [known[name] for name in routine.externals if name in known]
    plant.blocks = {it.name: it for it in blocks}
    for unit in units:
        if unit in missing:
            files.refuse(f"CONFIG C6 {unit.reader.name} {unit.routine.name}")
        unit.reader.at = unit.at
        unit.routine.body = unit.reader.body(Scope(plant, unit.reader.name, unit.routine))
