"""The language of a plant's sources: operators, expressions and statements, and what they do.

Written from the rules of docs/LANGUAGE.md and not from the server's code or its definitions, so that a rule which both of these misread
shows as a difference. Numbers are Python's: BOOL is 0 or 1, TIME is in milliseconds.
"""

from dataclasses import dataclass, field

BOOL, DINT, TIME = "BOOL", "DINT", "TIME"
RANGES = {DINT: (-(2**31), 2**31 - 1), TIME: (-(2**63), 2**63 - 1)}

# How tight each operator binds: the greater the tighter.
BINDS = {"OR": 1, "XOR": 2, "AND": 3, "&": 3, "=": 4, "<>": 4, "<": 5, ">": 5, "<=": 5, ">=": 5}
BINDS |= {"+": 6, "-": 6, "*": 7, "/": 7, "MOD": 7}
BINDS_UNARY = 8

# Inputs and outputs of the standard blocks.
STANDARD = {
    "TON": ([("IN", BOOL), ("PT", TIME)], [("Q", BOOL), ("ET", TIME)]),
    "TOF": ([("IN", BOOL), ("PT", TIME)], [("Q", BOOL), ("ET", TIME)]),
    "R_TRIG": ([("CLK", BOOL)], [("Q", BOOL)]),
}


class Trap(Exception):
    """A trap: OVERFLOW, DIVZERO or INDEX, and where: the path, and the number of the statement."""

    def __init__(self, kind):
        super().__init__(kind)
        self.kind, self.place = kind, None


# ------------------------------------------------------------------------------------------------------------------ expressions


@dataclass(frozen=True)
class Literal:
    kind: str
    value: int
    text: str


@dataclass(frozen=True)
class Read:
    """A variable. Its place is ('global', name), ('own', name) or ('output', instance, name), all in small letters."""

    kind: str
    place: tuple
    text: str


@dataclass(frozen=True)
class Array:
    """An array as it is declared: its place is ('global', name) or ('own', name), as that of a variable, and its elements are of the kind."""

    kind: str
    place: tuple
    low: int
    high: int
    text: str


@dataclass(frozen=True)
class Element:
    """An element of an array, by an index that may be any expression."""

    array: Array
    index: object

    @property
    def kind(self):
        return self.array.kind

    def place(self, read):
        """Its place, with its number at the end; the index is evaluated, and tested against the bounds."""
        number = value(self.index, read)
        if not self.array.low <= number <= self.array.high:
            raise Trap("INDEX")
        return self.array.place + (number,)


@dataclass(frozen=True)
class Unary:
    operator: str
    kind: str
    operand: object


@dataclass(frozen=True)
class Binary:
    operator: str
    kind: str
    left: object
    right: object


def quotient(a, b):
    """a / b, truncated toward zero."""
    whole = abs(a) // abs(b)
    return whole if (a < 0) == (b < 0) else -whole


def in_range(kind, value):
    low, high = RANGES[kind]
    if not low <= value <= high:
        raise Trap("OVERFLOW")
    return value


def value(expression, read):
    """The value of an expression; both operands are evaluated, the left one first. `read` gives the value at a place."""
    if isinstance(expression, Literal):
        return expression.value
    if isinstance(expression, Read):
        return read(expression.place)
    if isinstance(expression, Element):
        return read(expression.place(read))
    if isinstance(expression, Unary):
        operand = value(expression.operand, read)
        return 1 - operand if expression.operator == "NOT" else in_range(expression.kind, -operand)
    a, b = value(expression.left, read), value(expression.right, read)
    return applied(expression.operator, expression.kind, a, b)


def applied(operator, kind, a, b):
    """What a binary operator gives of its operands' values."""
    match operator:
        case "AND" | "&":
            return int(a == 1 and b == 1)
        case "OR":
            return int(a == 1 or b == 1)
        case "XOR" | "<>":
            return int(a != b)
        case "=":
            return int(a == b)
        case "<":
            return int(a < b)
        case ">":
            return int(a > b)
        case "<=":
            return int(a <= b)
        case ">=":
            return int(a >= b)
        case "+":
            return in_range(kind, a + b)
        case "-":
            return in_range(kind, a - b)
        case "*":
            return in_range(kind, a * b)
        case "MOD":
            return 0 if b == 0 else a - quotient(a, b) * b
        case "/":
            if b == 0:
                raise Trap("DIVZERO")
            return in_range(kind, quotient(a, b))
    raise ValueError(operator)


# ------------------------------------------------------------------------------------------------------------------- statements


@dataclass
class Empty:
    pass


@dataclass
class Assign:
    """Gives a variable or an element a value."""

    target: Read | Element
    right: object


@dataclass
class Call:
    """A call of an instance: inputs are (name, expression), outputs (name, target), in the order of the text."""

    instance: str
    block: str
    arguments: list


@dataclass
class If:
    branches: list
    otherwise: list | None


@dataclass
class Case:
    """Each choice is its labels, (low, high), and its statements."""

    selector: object
    choices: list
    otherwise: list | None


@dataclass
class For:
    control: Read
    first: object
    last: object
    step: object | None
    body: list


@dataclass
class Routine:
    """A program or a function block: variables are (name, kind, section, initial value or None), instances (name, block type). What VAR_EXTERNAL names is a
    global as the plant has it, a variable or an array."""

    name: str
    is_block: bool
    variables: list = field(default_factory=list)
    arrays: list = field(default_factory=list)
    instances: list = field(default_factory=list)
    externals: list = field(default_factory=list)
    body: list = field(default_factory=list)

    def section(self, name):
        return [(it, kind) for it, kind, section, _ in self.variables if section == name]

    def names(self):
        """What it declares, VAR_EXTERNAL apart, in small letters."""
        return {it[0].lower() for it in self.variables + self.instances} | {it.place[1] for it in self.arrays}


def inner(statement):
    """The lists of statements inside a statement, in the order of the text."""
    if isinstance(statement, (If, Case)):
        branches = statement.branches if isinstance(statement, If) else statement.choices
        return [body for _, body in branches] + ([statement.otherwise] if statement.otherwise is not None else [])
    return [statement.body] if isinstance(statement, For) else []


def numbers(body, found=None):
    """The number of each statement of a body, by its identity: nested and empty ones count, in the order of their first tokens."""
    found = {} if found is None else found
    for statement in body:
        found[id(statement)] = len(found) + 1
        for statements in inner(statement):
            numbers(statements, found)
    return found
