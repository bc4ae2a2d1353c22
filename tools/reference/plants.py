"""Random plants that keep every rule, as trees and as the texts of their files. What a tree means is in language.py."""

from dataclasses import dataclass, field

from language import BINDS, BINDS_UNARY, BOOL, DINT, RANGES, STANDARD, TIME
from language import Array, Assign, Binary, Call, Case, Element, Empty, For, If, Literal, Read, Routine, Trap, Unary, value

UNITS = [("d", 86_400_000), ("h", 3_600_000), ("m", 60_000), ("s", 1000), ("ms", 1)]
EPOCHS = ["2024-01-01T00:00:00Z", "1999-12-31T23:59:59Z", "2024-02-28T23:59:59Z", "1970-01-01T00:00:00Z"]


@dataclass
class AlarmRow:
    tag: str
    area: str
    priority: int
    condition: str
    suppress: str | None
    latching: bool
    longest: int
    delay: int = 0


@dataclass
class Plant:
    """Globals are (name, kind, region or None, initial value or None), and beside them stand arrays; blocks by name, each after those that it declares. `has_delays`
    is whether the table of alarms is of version 2, which has a column of delays."""

    epoch: str
    globals: list = field(default_factory=list)
    arrays: list = field(default_factory=list)
    blocks: dict = field(default_factory=dict)
    programs: list = field(default_factory=list)
    areas: list = field(default_factory=list)
    consoles: list = field(default_factory=list)
    alarms: list = field(default_factory=list)
    has_delays: bool = False


class Maker:
    """Makes one plant from a source of random numbers."""

    # How many there may be.
    GLOBALS, BLOCKS, PROGRAMS, ALARMS = range(6, 18), [0, 1, 2, 3], [0, 1, 2, 3, 3], [0, 1, 3, 5, 9]
    GLOBAL_ARRAYS, OWN_ARRAYS = [0, 1, 2, 3], [0, 0, 1, 1, 2]

    def __init__(self, random):
        self.random, self.names = random, 0
        self.plant = Plant(random.choice(EPOCHS))

    # ---- literals and expressions

    def literal(self, kind):
        some = self.random
        if kind == BOOL:
            truth = some.random() < 0.5
            return Literal(BOOL, int(truth), some.choice(["TRUE", "BOOL#1", "bool#TRUE"] if truth else ["False", "BOOL#0", "BOOL#false"]))
        if kind == TIME:
            number = some.choice([0, 1, 10, 250, 1000, -1500, 60_000, some.randrange(-(10**6), 10**7), 2**63 - 1, -(2**63)])
            return Literal(TIME, number, self.duration(number))
        edges = [0, 1, 2, 3, 5, 7, 10, 100, -1, -2, -7, 65_536, 2**31 - 1, -(2**31)]
        number = some.choice(edges + [some.randrange(-50, 50), some.randrange(-(2**31), 2**31)])
        texts = [str(number)] * 8 + [f"DINT#{number}"]
        if number >= 0:
            texts += [f"16#{number:X}", f"8#{number:o}", f"2#{number:b}", f"DINT#+{number}"]
        if number >= 1000:
            texts.append(f"{str(number)[:-3]}_{str(number)[-3:]}")
        return Literal(DINT, number, some.choice(texts))

    def duration(self, milliseconds):
        some, rest = self.random, abs(milliseconds)
        mark = some.choice(["T#", "T#", "time#"]) + ("-" if milliseconds < 0 else "")
        if some.random() < 0.4:
            return f"{mark}{rest}ms"
        parts = []
        for unit, length in UNITS:
            if unit == "ms" or (some.random() < 0.5 and rest >= length):
                parts.append(f"{rest // length}{unit.upper() if some.random() < 0.2 else unit}")
                rest %= length
        return mark + some.choice(["", "_"]).join(parts)

    def expression(self, kind, reads, depth):
        some = self.random
        if depth <= 0 or some.random() < 0.25:
            of_kind = [it for it in reads if it.kind == kind]
            return self.leaf(some.choice(of_kind), reads, depth) if of_kind and some.random() < 0.75 else self.literal(kind)
        below = lambda kind: self.expression(kind, reads, depth - 1)
        if some.random() < 0.13:
            return Unary("NOT" if kind == BOOL else "-", kind, below(kind))
        if kind == BOOL and some.random() < 0.5:
            of = some.choice([DINT, DINT, TIME, BOOL])
            return Binary(some.choice(["=", "<>"] if of == BOOL else ["=", "<>", "<", ">", "<=", ">="]), BOOL, below(of), below(of))
        operators = {BOOL: ["AND", "OR", "XOR", "&"], DINT: ["+", "-", "*", "/", "MOD"], TIME: ["+", "-"]}
        return Binary(some.choice(operators[kind]), kind, below(kind), below(kind))

    def leaf(self, it, reads, depth):
        """A variable, or an element of an array."""
        return self.element(it, reads, depth) if isinstance(it, Array) else it

    def number(self, number):
        return Literal(DINT, number, self.random.choice([f"{number}", f"{number}", f"{number}", f"DINT#{number}"]))

    def element(self, array, reads, depth):
        """An element. Its index is a literal within the bounds or just outside of them, what MOD makes of a variable so that it is within them, or any expression."""
        some, low, high = self.random, array.low, array.high
        pick = some.random()
        dints = [it for it in reads if it.kind == DINT and not isinstance(it, Array)]
        if pick < 0.50 or not dints:
            return Element(array, self.number(some.randrange(low, high + 1)))
        if pick < 0.53:
            outside = [it for it in (low - 1, high + 1) if RANGES[DINT][0] <= it <= RANGES[DINT][1]]
            return Element(array, self.number(some.choice(outside)))
        if pick < 0.87:
            return Element(array, Binary("+", DINT, self.place_in(some.choice(dints), high - low + 1), self.number(low)))
        if pick < 0.92:
            return Element(array, some.choice(dints))
        return Element(array, self.expression(DINT, reads, min(depth, 2) - 1))

    def place_in(self, dint, length):
        """A number from 0 on and below the length; one time in four it may be below 0."""
        rest = Binary("MOD", DINT, dint, self.number(length))
        if self.random.random() < 0.25:
            return rest
        return Binary("MOD", DINT, Binary("+", DINT, rest, self.number(length)), self.number(length))

    def constant(self, kind):
        """An expression without reads that doesn't trap."""
        for _ in range(20):
            found = self.expression(kind, [], self.random.choice([0, 0, 1, 2]))
            try:
                value(found, None)
                return found
            except Trap:
                pass
        return self.literal(kind)

    # ---- what a body may read and assign

    def variables(self, routine, assigned=False, controls=frozenset()):
        own = [Read(kind, ("own", name.lower()), name) for name, kind, _, _ in routine.variables]
        hidden = routine.names()
        for name, kind, region, _ in self.plant.globals:
            if name.lower() not in hidden and not (assigned and region == "I"):
                own.append(Read(kind, ("global", name.lower()), name))
        return [it for it in own if not assigned or it.place not in controls]

    def arrays(self, routine):
        hidden = routine.names()
        return routine.arrays + [it for it in self.plant.arrays if it.place[1] not in hidden]

    def members(self, block):
        if block in STANDARD:
            return STANDARD[block]
        return self.plant.blocks[block].section("VAR_INPUT"), self.plant.blocks[block].section("VAR_OUTPUT")

    def reads(self, routine):
        found = self.variables(routine) + self.arrays(routine)
        for name, block in routine.instances:
            for output, kind in self.members(block)[1]:
                found.append(Read(kind, ("output", name.lower(), output.lower()), f"{name}.{output}"))
        return found

    # ---- statements; `controls` are the places that stand in the head of a FOR around them

    def statements(self, routine, depth, controls, most):
        return [self.statement(routine, depth, controls) for _ in range(self.random.randrange(most + 1))]

    def statement(self, routine, depth, controls):
        pick = self.random.random() * (1.0 if depth > 0 else 0.62)
        made = None
        if pick < 0.40:
            made = self.assignment(routine, controls)
        elif pick < 0.60:
            made = self.call(routine, controls)
        elif 0.62 <= pick < 0.76:
            made = self.choice_by_tests(routine, depth, controls)
        elif 0.76 <= pick < 0.88:
            made = self.choice_by_labels(routine, depth, controls)
        elif 0.88 <= pick:
            made = self.loop(routine, depth, controls)
        return made or Empty()

    def assignment(self, routine, controls):
        some, targets = self.random, self.variables(routine, True, controls) + self.arrays(routine)
        if not targets:
            return None
        target = self.leaf(some.choice(targets), self.reads(routine), 2)
        if target.kind == BOOL and some.random() < 0.1:
            truth = some.randrange(2)
            return Assign(target, Literal(BOOL, truth, some.choice([f"{truth}", f"16#{truth}", f"0{truth}"])))
        return Assign(target, self.expression(target.kind, self.reads(routine), some.choice([0, 1, 1, 2, 3])))

    def call(self, routine, controls):
        some = self.random
        if not routine.instances:
            return None
        name, block = some.choice(routine.instances)
        inputs, outputs = self.members(block)
        arguments = [(it, self.argument(it, kind, routine)) for it, kind in inputs if some.random() < 0.8]
        for output, kind in outputs:
            targets = [it for it in self.variables(routine, True, controls) if it.kind == kind]
            if targets and some.random() < 0.85:
                # (a target stands in a tuple, so that it isn't taken for an input's expression)
                arguments.append((output, (some.choice(targets),)))
        some.shuffle(arguments)
        return Call(name, block, arguments)

    def argument(self, name, kind, routine):
        if name == "PT" and self.random.random() < 0.8:
            preset = self.random.choice([0, 1, 5, 10, 20, 50, -3])
            return Literal(TIME, preset, self.duration(preset))
        return self.expression(kind, self.reads(routine), self.random.choice([0, 1, 2]))

    def otherwise(self, routine, depth, controls):
        return self.statements(routine, depth - 1, controls, 2) if self.random.random() < 0.5 else None

    def choice_by_tests(self, routine, depth, controls):
        reads, some = self.reads(routine), self.random
        test = lambda: self.expression(BOOL, reads, some.choice([1, 2]))
        branches = [(test(), self.statements(routine, depth - 1, controls, 2)) for _ in range(some.choice([1, 1, 2, 3]))]
        return If(branches, self.otherwise(routine, depth, controls))

    def label(self):
        some = self.random
        low = some.choice([some.randrange(-4, 8), some.randrange(-4, 8), -(2**31), 2**31 - 1])
        high = some.choice([low, low, min(low + 2, 2**31 - 1), some.randrange(-4, 8)])
        return low, high

    def choice_by_labels(self, routine, depth, controls):
        some = self.random
        selector = self.expression(DINT, self.reads(routine), some.choice([0, 1, 2]))
        labels = lambda: [self.label() for _ in range(some.choice([1, 1, 2, 3]))]
        choices = [(labels(), self.statements(routine, depth - 1, controls, 2)) for _ in range(some.choice([1, 2, 3]))]
        return Case(selector, choices, self.otherwise(routine, depth, controls))

    def loop(self, routine, depth, controls):
        some = self.random
        own = [it for it in self.variables(routine, True, controls) if it.kind == DINT and it.place[0] == "own"]
        if not own:
            return None
        control = some.choice(own)
        first = some.choice([some.randrange(-5, 6), 2**31 - 3, -(2**31) + 1])
        last = max(-(2**31), min(2**31 - 1, first + some.randrange(-3, 5)))
        number = lambda it: Literal(DINT, it, some.choice([f"{it}", f"DINT#{it}"]))
        bound = lambda it: some.choice([number(it), Binary("+", DINT, number(it - 1), number(1)) if it > -(2**31) else number(it)])
        step = some.choice([None, 1, 2, -1, -2, 3])
        body = []
        if self.arrays(routine) and some.random() < 0.6:
            # (over the elements of an array, and now and then past one of its ends)
            array = some.choice(self.arrays(routine))
            first = max(-(2**31), array.low - (some.random() < 0.07))
            last = min(2**31 - 1, array.high + (some.random() < 0.07))
            first, last, step = some.choice([(first, last, some.choice([None, 1, 2])), (last, first, some.choice([-1, -2]))])
            reads = self.reads(routine) + [control] * 5
            body = [Assign(Element(array, control), self.expression(array.kind, reads, some.choice([0, 1, 2])))]
        body += self.statements(routine, depth - 1, controls | {control.place}, 2)
        return For(control, bound(first), bound(last), None if step is None else bound(step), body)

    # ---- routines and the plant

    def name(self, stem):
        self.names += 1
        return self.random.choice([stem, stem.upper(), f"{stem}_"]) + str(self.names)

    def own_name(self, routine):
        """The name of a variable or an array of a routine, now and then that of a global or of a global array."""
        some, own = self.random, routine.names()
        there = [it[0] for it in self.plant.globals] + [it.text for it in self.plant.arrays]
        hidable = [name for name in there if name.lower() not in own]
        return some.choice(hidable) if hidable and some.random() < 0.12 else self.name("v")

    def array(self, where, name):
        """An array of 1 to 6 elements, in seldom cases at an end of what a bound may be."""
        some, length = self.random, self.random.randrange(1, 7)
        low = some.choice([0, 0, 1, 1, -1, -length, -5, some.randrange(-20, 20), some.choice([-(2**31), 2**31 - length])])
        return Array(some.choice([BOOL, DINT, DINT, TIME]), (where, name.lower()), low, low + length - 1, name)

    def routine(self, name, is_block):
        some, made = self.random, Routine(name, is_block)
        for _ in range(some.randrange(1, 5)):
            called = self.own_name(made)
            kind = some.choice([BOOL, DINT, DINT, TIME])
            section = some.choice(["VAR_INPUT", "VAR_OUTPUT", "VAR"]) if is_block else "VAR"
            made.variables.append((called, kind, section, self.constant(kind) if some.random() < 0.3 else None))
        for _ in range(some.choice([0, 1, 2, 3, 3])):
            made.instances.append((self.name("i"), some.choice([*STANDARD, *self.plant.blocks, *self.plant.blocks])))
        for _ in range(some.choice(self.OWN_ARRAYS)):
            called = self.own_name(made)
            made.arrays.append(self.array("own", called))
        own = made.names()
        made.externals = [it for it in self.plant.globals if it[0].lower() not in own and some.random() < 0.1]
        made.externals += [it for it in self.plant.arrays if it.place[1] not in own and some.random() < 0.15]
        made.body = [self.statement(made, some.choice([1, 2, 2, 3]), frozenset()) for _ in range(some.randrange(1, 6))]
        return made

    def made(self):
        some, plant = self.random, self.plant
        for _ in range(some.choice(self.GLOBALS)):
            kind = some.choice([BOOL, BOOL, BOOL, DINT, DINT, TIME])
            region = some.choice(["I", "I", "I", "Q", "Q", "Q", "Q", "M", None])
            plant.globals.append((self.name("g"), kind, region, self.constant(kind) if some.random() < 0.3 else None))
        plant.globals.append((self.name("g"), BOOL, "I", None))
        plant.arrays = [self.array("global", self.name("g")) for _ in range(some.choice(self.GLOBAL_ARRAYS))]
        for _ in range(some.choice(self.BLOCKS)):
            name = self.name("F")
            plant.blocks[name] = self.routine(name, True)
        plant.programs = [self.routine(self.name("p"), False) for _ in range(some.choice(self.PROGRAMS))]
        plant.areas = ["north", "south", f"a.{some.randrange(9)}"][: some.choice([1, 2, 3])]
        for console in some.sample(range(1, 4), some.choice([0, 1, 2, 2, 3, 3])):
            plant.consoles.append((console, [it for it in plant.areas if some.random() < 0.85]))
        watched = [name for name, kind, _, _ in plant.globals if kind == BOOL]
        for at in range(some.choice(self.ALARMS)):
            suppress = some.choice(watched) if some.random() < 0.5 else None
            longest = some.choice([0, 1, 50, 100, 2_592_000_000])
            row = AlarmRow(f"T-{at}.x", some.choice(plant.areas), some.randrange(1, 5), some.choice(watched), suppress, some.random() < 0.4, longest)
            plant.alarms.append(row)
        self.add_delays()
        return plant

    def add_delays(self):
        """Gives the alarms of most plants delays: none, as long as scans are apart, and long ones."""
        some, plant = self.random, self.plant
        plant.has_delays = some.random() < 0.75
        for row in plant.alarms if plant.has_delays else []:
            row.delay = some.choice([0, 0, 1, 2, 5, 5, 10, 10, 15, 20, 30, 30, 50, 100, 101, 1000, 60_000, 86_400_000, some.randrange(200)])


class Writer:
    """Writes a plant as the texts of its files, with what the language leaves free: letter case, blanks, comments, parentheses."""

    def __init__(self, random):
        self.random = random

    def keyword(self, word):
        return word if self.random.random() < 0.8 else word.lower()

    def named(self, name):
        return name if self.random.random() < 0.8 else name.upper()

    def gap(self):
        return self.random.choice([" ", " ", " ", "  ", "\n", "\t", " (* c *) ", " // c\n", " /* ; */ "])

    def expression(self, it, least=0):
        """The text of an expression, in parentheses where it binds less than `least` or for nothing."""
        if isinstance(it, Literal):
            return it.text
        if isinstance(it, Read):
            return self.named(it.text)
        if isinstance(it, Element):
            return self.element(it)
        if isinstance(it, Unary):
            binds, operand = BINDS_UNARY, self.expression(it.operand, BINDS_UNARY)
            if it.operator == "-" and isinstance(it.operand, Literal):
                operand = f"({operand})"
            text = f"{self.keyword('NOT')} {operand}" if it.operator == "NOT" else f"-{self.random.choice(['', ' '])}{operand}"
        else:
            binds = BINDS[it.operator]
            left, right = self.expression(it.left, binds), self.expression(it.right, binds + 1)
            text = left + self.gap() + self.keyword(it.operator) + self.gap() + right
        return f"( {text})" if binds < least or self.random.random() < 0.1 else text

    def element(self, it):
        gap = lambda: self.random.choice(["", "", "", " ", "\n", "(* i *)"])
        return f"{self.named(it.array.text)}{gap()}[{gap()}{self.expression(it.index)}{gap()}]"

    def body(self, statements):
        return "".join(self.statement(it) + self.random.choice([";", " ;", ";\n", "; "]) for it in statements)

    def statement(self, it):
        word, expression = self.keyword, self.expression
        if isinstance(it, Assign):
            return f"{expression(it.target)} := {expression(it.right)}"
        if isinstance(it, Call):
            return f"{it.instance}({', '.join(self.argument(*argument) for argument in it.arguments)})"
        otherwise = f"{word('ELSE')} {self.body(it.otherwise)}" if getattr(it, "otherwise", None) is not None else ""
        if isinstance(it, If):
            tests = [f"{expression(test)} {word('THEN')} {self.body(body)}" for test, body in it.branches]
            return f"{word('IF')} {f' ELSIF '.join(tests)} {otherwise}{word('END_IF')}"
        if isinstance(it, Case):
            choices = [f"{', '.join(self.label(*label) for label in labels)}: {self.body(body)}\n" for labels, body in it.choices]
            return f"{word('CASE')} {expression(it.selector)} {word('OF')}\n{''.join(choices)}{otherwise}{word('END_CASE')}"
        if isinstance(it, For):
            step = "" if it.step is None else f" {word('BY')} {expression(it.step)}"
            head = f"{self.named(it.control.text)} := {expression(it.first)} {word('TO')} {expression(it.last)}{step}"
            return f"{word('FOR')} {head} {word('DO')} {self.body(it.body)}{word('END_FOR')}"
        return ""

    def argument(self, name, given):
        if isinstance(given, tuple):
            return f"{name.lower()} => {self.named(given[0].text)}"
        return f"{name} := {self.expression(given)}"

    def label(self, low, high):
        return f"{low}" if low == high and self.random.random() < 0.7 else f"{low}..{high}"

    def declaration(self, name, kind, initial):
        return f"{name} : {kind}" + ("" if initial is None else f" := {self.expression(initial)}") + ";"

    def bound(self, number):
        """A bound, in decimal digits or to a base; blanks and comments may stand behind its minus."""
        some, rest = self.random, abs(number)
        sign = some.choice(["-", "-", "- ", "-(* *)"]) if number < 0 else ""
        return sign + some.choice([f"{rest}"] * 6 + [f"16#{rest:x}", f"2#{rest:b}", f"00{rest}"])

    def declared_array(self, it):
        bounds = f"{self.bound(it.low)}{self.random.choice(['..', ' .. '])}{self.bound(it.high)}"
        return f"{self.named(it.text)} : {self.keyword('ARRAY')}{self.random.choice(['', ' '])}[{bounds}] {self.keyword('OF')} {it.kind};"

    def external(self, it):
        return self.declared_array(it) if isinstance(it, Array) else self.declaration(it[0], it[1], None)

    def routine(self, it):
        kind = "FUNCTION_BLOCK" if it.is_block else "PROGRAM"
        sections = [f"{section} {self.declaration(name, kind, initial)}" for name, kind, section, initial in it.variables]
        sections += [f"VAR {self.declaration(name, self.named(block), None)}" for name, block in it.instances]
        sections += [f"VAR {self.declared_array(array)}" for array in it.arrays]
        sections += [f"VAR_EXTERNAL {self.external(external)}" for external in it.externals]
        return f"{kind} {it.name}\n" + "".join(f"{section} END_VAR\n" for section in sections) + self.body(it.body) + f"\nEND_{kind}\n"

    def sources(self, plant):
        lines = []
        for at, (name, kind, region, initial) in enumerate(plant.globals):
            place = "" if region is None else f" AT %{region}{self.random.choice(['X', 'D', ''])}{at}"
            lines.append(self.declaration(name + place, kind, initial))
        for array in plant.arrays:
            lines.insert(self.random.randrange(len(lines) + 1), self.declared_array(array))
        blocks = [self.routine(it) for it in plant.blocks.values()]
        self.random.shuffle(blocks)
        programs = [self.routine(it) for it in plant.programs]
        cut = self.random.choice([len(programs), len(programs), self.random.randrange(len(programs) + 1)])
        mark = self.random.choice(["", "", "", "\ufeff"])
        first = mark + "VAR_GLOBAL\n" + "\n".join(lines) + "\nEND_VAR\n" + "".join(blocks + programs[:cut])
        return [first] + (["".join(programs[cut:])] if cut < len(programs) else [])

    def files(self, plant):
        """The texts by their names; the plant file is plant.toml."""
        sources = {f"s{at}.st": text for at, text in enumerate(self.sources(plant))}
        quoted = lambda texts: "[" + ", ".join(f'"{text}"' for text in texts) + "]"
        keys = f'name = "random"\nepoch = "{plant.epoch}"\nareas = {quoted(plant.areas)}\nsources = {quoted(sources)}\nalarms = "alarms.csv"\n'
        consoles = "".join(f"[[console]]\nnumber = {number}\nareas = {quoted(areas)}\n" for number, areas in plant.consoles)
        rows = f"tag,area,priority,condition,suppress,latch,max_shelve_ms,{'on_delay_ms,' if plant.has_delays else ''}text\n"
        for it in plant.alarms:
            latch = self.random.choice(["TRUE", "true", "1"] if it.latching else ["FALSE", "0"])
            delay = f"{it.delay}," if plant.has_delays else ""
            rows += f'{it.tag},{it.area},{it.priority},{it.condition},{it.suppress or ""},{latch},{it.longest},{delay}"a ""text"""\n'
        return {"plant.toml": keys + consoles, "alarms.csv": rows, **sources}
