"""The spelling and the grammar of sources, by docs/LANGUAGE.md: where a text's first fault is, if it has one."""

import re
from dataclasses import dataclass

KEYWORDS = set(
    "AND ARRAY AT BOOL BY CASE DINT DO ELSE ELSIF END_CASE END_FOR END_FUNCTION_BLOCK END_IF END_PROGRAM END_VAR FALSE FOR FUNCTION_BLOCK IF MOD NOT OF OR"
    " PROGRAM THEN TIME TO TRUE VAR VAR_EXTERNAL VAR_GLOBAL VAR_INPUT VAR_OUTPUT XOR".split()
)
SYMBOLS = [":=", "=>", "<=", ">=", "<>", "..", ":", ";", ",", "(", ")", "[", "]", ".", "+", "-", "*", "/", "&", "=", "<", ">"]
DIGITS = r"[0-9](?:_?[0-9])*"
INTEGER = re.compile(rf"2#[01](?:_?[01])*|8#[0-7](?:_?[0-7])*|16#[0-9a-f](?:_?[0-9a-f])*|{DIGITS}", re.I)
ADDRESS = re.compile(r"%[IQM][XBWDL]?(?:\*|[0-9]+(?:\.[0-9]+)*)", re.I)
PART = re.compile(rf"({DIGITS})(\.{DIGITS})?(ms|d|h|m|s)", re.I)
UNITS = {"d": 86_400_000, "h": 3_600_000, "m": 60_000, "s": 1000, "ms": 1}
DEEPEST_EXPRESSION, DEEPEST_STATEMENT = 128, 64


class Misspelled(Exception):
    """No token begins at a byte (C4)."""


class Ungrammatical(Exception):
    """No unit goes on with a token, or the text ends too early (C5)."""


@dataclass
class Token:
    """Its kind is 'word', 'integer', 'literal', 'address', or the keyword or symbol itself."""

    kind: str
    at: int
    value: int = 0


# ------------------------------------------------------------------------------------------------------------------------ tokens


def integer_value(text):
    base, found, digits = text.partition("#")
    return int(digits.replace("_", ""), int(base)) if found else int(text.replace("_", ""))


def duration(text, at):
    """The longest duration after its mark, as its end; None where none stands or none is allowed."""
    sign = -1 if text[at : at + 1] == "-" else 1
    at += sign < 0
    order, total, end = list(UNITS), 0, None
    while True:
        part = PART.match(text, at)
        if not part or part[3].lower() not in order:
            break
        order = order[order.index(part[3].lower()) + 1 :]
        unit, fraction = UNITS[part[3].lower()], (part[2] or ".0")[1:].replace("_", "")
        total += int(part[1].replace("_", "")) * unit * 10 ** len(fraction) // 10 ** len(fraction)
        if (int(fraction) * unit) % 10 ** len(fraction):
            return None
        total += int(fraction) * unit // 10 ** len(fraction)
        at = end = part.end()
        if part[2] is not None:
            break
        at += text[at : at + 1] == "_" and PART.match(text, at + 1) is not None and PART.match(text, at + 1)[3].lower() in order
    return end if end is not None and -(2**63) <= sign * total < 2**63 else None


def typed(text, at, word):
    """The end of a literal with a mark such as DINT#, which `word` ends before; None where none is allowed."""
    at += 1
    if word in ("T", "TIME"):
        return duration(text, at)
    if word == "BOOL":
        found = re.compile(r"TRUE|FALSE|[01]", re.I).match(text, at)
        return found and found.end()
    sign = text[at : at + 1]
    found = INTEGER.match(text, at + (sign in ("+", "-")))
    if not found:
        return None
    value = integer_value(found[0]) * (-1 if sign == "-" else 1)
    return found.end() if -(2**31) <= value < 2**31 else None


def separator(text, at):
    """The end of the separator that begins here, or None. Raises where a comment isn't closed."""
    if text[at] in " \t\r\n\f":
        return at + 1
    if text.startswith("//", at):
        end = text.find("\n", at)
        return len(text) if end < 0 else end
    for opening, closing in (("(*", "*)"), ("/*", "*/")):
        if text.startswith(opening, at):
            end = text.find(closing, at + 2)
            if end < 0:
                raise Misspelled(at)
            return end + 2
    return None


def token(text, at):
    """The token that begins here, and its end."""
    word = re.compile(r"[A-Za-z_][A-Za-z0-9_]*").match(text, at)
    if word:
        end, name = word.end(), word[0].upper()
        kind = name if name in KEYWORDS else "word"
        if text[end : end + 1] == "#" and name in ("T", "TIME", "DINT", "BOOL"):
            kind, end = "literal", typed(text, end, name)
        found = Token("literal" if kind in ("TRUE", "FALSE") else kind, at)
    elif INTEGER.match(text, at):
        end = INTEGER.match(text, at).end()
        found = Token("integer", at, integer_value(text[at:end]))
        end = end if found.value <= 2**31 else None
    elif ADDRESS.match(text, at):
        found, end = Token("address", at), ADDRESS.match(text, at).end()
    else:
        symbol = next((it for it in SYMBOLS if text.startswith(it, at)), None)
        if symbol is None:
            raise Misspelled(at)
        return Token(symbol, at), at + len(symbol)
    if end is None or re.match(r"[A-Za-z0-9_#]", text[end : end + 1]):
        raise Misspelled(at)
    return found, end


def tokens(text):
    found, at = [], 0
    while at < len(text):
        end = separator(text, at)
        if end is None:
            one, end = token(text, at)
            found.append(one)
        at = end
    return found


# ----------------------------------------------------------------------------------------------------------------------- grammar

KINDS = ["BOOL", "DINT", "TIME"]
LEVELS = [["OR"], ["XOR"], ["AND", "&"], ["=", "<>"], ["<", ">", "<=", ">="], ["+", "-"], ["*", "/", "MOD"]]


class Parser:
    """Reads a unit from the left, one token after another; it fails at the first token with which no unit goes on."""

    def __init__(self, text):
        self.tokens, self.at, self.end = tokens(text), 0, len(text)

    def kind(self, ahead=0):
        return self.tokens[self.at + ahead].kind if self.at + ahead < len(self.tokens) else ""

    def fail(self, ahead=0):
        at = self.at + ahead
        raise Ungrammatical(self.tokens[at].at if at < len(self.tokens) else self.end)

    def take(self, *kinds):
        if self.kind() not in kinds or not kinds:
            self.fail()
        self.at += 1
        return self.tokens[self.at - 1]

    def unit(self):
        while self.kind() == "VAR_GLOBAL":
            self.at += 1
            while self.kind() != "END_VAR":
                self.declaration(is_global=True)
            self.at += 1
        while self.kind():
            head = self.take("FUNCTION_BLOCK", "PROGRAM").kind
            self.take("word")
            sections = ["VAR", "VAR_EXTERNAL"] + (["VAR_INPUT", "VAR_OUTPUT"] if head == "FUNCTION_BLOCK" else [])
            while self.kind() in sections:
                self.at += 1
                while self.kind() != "END_VAR":
                    self.declaration()
                self.at += 1
            self.statements(DEEPEST_STATEMENT)
            self.take(f"END_{head}")

    def declaration(self, is_global=False):
        self.take("word")
        kinds = KINDS
        if is_global and self.kind() == "AT":
            self.at += 1
            self.take("address")
        else:
            kinds = KINDS + ["word", "ARRAY"]
            while self.kind() == ",":
                self.at += 1
                self.take("word")
        self.take(":")
        if self.take(*kinds).kind == "ARRAY":
            self.array()
        if self.kind() == ":=":
            self.at += 1
            self.expression(DEEPEST_EXPRESSION)
        self.take(";")

    def array(self):
        """What follows ARRAY."""
        self.take("[")
        self.bound()
        self.take("..")
        self.bound()
        self.take("]")
        self.take("OF")
        self.take(*KINDS)

    # ---- statements, of which so many levels may stand one in another

    def statements(self, levels):
        while self.kind() in ("word", "IF", "CASE", "FOR", ";"):
            if levels == 0:
                self.fail()
            if self.kind() != ";":
                self.statement(levels)
            self.take(";")

    def statement(self, levels):
        head = self.take("word", "IF", "CASE", "FOR").kind
        expression, inner = lambda: self.expression(DEEPEST_EXPRESSION), lambda: self.statements(levels - 1)
        if head == "word":
            follows = self.take(":=", "(", "[").kind
            if follows == "[":
                expression()
                self.take("]")
                self.take(":=")
            if follows != "(":
                return expression()
            if self.kind() != ")":
                self.argument()
                while self.kind() == ",":
                    self.at += 1
                    self.argument()
            return self.take(")")
        if head == "IF":
            follows = "IF"
            while follows != "END_IF":
                if follows != "ELSE":
                    expression()
                    self.take("THEN")
                inner()
                follows = self.take(*(["END_IF"] if follows == "ELSE" else ["ELSIF", "ELSE", "END_IF"])).kind
            return None
        if head == "CASE":
            expression()
            self.take("OF")
            self.choice(levels)
            while self.kind() in ("integer", "-"):
                self.choice(levels)
            if self.take("ELSE", "END_CASE").kind == "ELSE":
                inner()
                self.take("END_CASE")
            return None
        self.take("word")
        self.take(":=")
        expression()
        self.take("TO")
        expression()
        if self.kind() == "BY":
            self.at += 1
            expression()
        self.take("DO")
        inner()
        return self.take("END_FOR")

    def argument(self):
        self.take("word")
        if self.take(":=", "=>").kind == "=>":
            return self.take("word")
        return self.expression(DEEPEST_EXPRESSION)

    def choice(self, levels):
        self.label()
        while self.kind() == ",":
            self.at += 1
            self.label()
        self.take(":")
        self.statements(levels - 1)

    def label(self):
        self.bound()
        if self.kind() == "..":
            self.at += 1
            self.bound()

    def bound(self):
        most = 2**31 - 1
        if self.kind() == "-":
            self.at, most = self.at + 1, 2**31
        self.integer(most)

    def integer(self, most):
        if self.kind() != "integer" or self.tokens[self.at].value > most:
            self.fail()
        self.at += 1

    # ---- expressions, of which so many levels may stand one in another; each returns its depth

    def expression(self, levels, tightness=0):
        if tightness == len(LEVELS):
            return self.unary(levels)
        depth = self.expression(levels, tightness + 1)
        while self.kind() in LEVELS[tightness]:
            if depth + 1 > levels:
                self.fail()
            self.at += 1
            depth = 1 + max(depth, self.expression(levels - 1, tightness + 1))
        return depth

    def unary(self, levels):
        if self.kind() == "-":
            self.at += 1
            if self.kind() == "integer":
                self.integer(2**31)
                return 1
            if levels == 1:
                self.fail()
            return 1 + self.unary(levels - 1)
        if self.kind() in ("NOT", "("):
            if levels == 1:
                self.fail()
            if self.take("NOT", "(").kind == "NOT":
                return 1 + self.unary(levels - 1)
            depth = 1 + self.expression(levels - 1)
            self.take(")")
            return depth
        if self.kind() == "integer":
            self.integer(2**31 - 1)
        elif self.take("literal", "word").kind == "word":
            return self.variable(levels)
        return 1

    def variable(self, levels):
        """What follows the first word of a variable, an output or an element."""
        if self.kind() == ".":
            self.at += 1
            self.take("word")
        elif self.kind() == "[":
            if levels == 1:
                self.fail()
            self.at += 1
            depth = 1 + self.expression(levels - 1)
            self.take("]")
            return depth
        return 1


def place(text, at):
    """The line and the column of a byte, both from 1."""
    before = text[:at]
    return before.count("\n") + 1, at - (before.rfind("\n") + 1) + 1


def fault(source):
    """The first fault of a source's bytes: ('C4' or 'C5', line, column), or None. Latin-1 makes a character of each byte."""
    text = source.removeprefix(b"\xef\xbb\xbf").decode("latin-1")
    try:
        Parser(text).unit()
    except Misspelled as found:
        return ("C4", *place(text, found.args[0]))
    except Ungrammatical as found:
        return ("C5", *place(text, found.args[0]))
    return None
