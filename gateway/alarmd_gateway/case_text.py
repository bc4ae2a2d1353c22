"""How cases are written: lines of scans and orders, and what is expected after each.

    case the low level is an alarm once the plant runs
    scan 0 level=250 flow=100
    expect LAL-101 SUPPR
    scan +1000 running=TRUE
      ALARM . LAL-101 SUPPR UNACK
      OUT . pump TRUE
      DONE . 2
    ack 1 LAL-101
    expect REPLY OK

`gateway/README.md` has the format."""

from __future__ import annotations

import io
import re
from dataclasses import dataclass, field, replace

from .config import WORDS_STATUS
from .model import LAST_MOMENT, Code, GatewayFault, Kind, Plant, Value, Verb

CODES = frozenset(code.value for code in Code)
COMMANDS = frozenset({"scan", "list", "journal", *(verb.value for verb in Verb)})
ANSWERS = frozenset({"REPLY", "REFUSED"})
STOPPED, RUNS = "STOPPED", "RUNS"
MOMENT = re.compile(r"\+?[0-9]{1,13}")


@dataclass(frozen=True)
class Expected:
    """What is expected of an alarm, a variable or a program, or as the first line of the answer."""

    line: int
    subject: str  # a tag, a variable, a program, `REPLY` or `REFUSED`, as written
    wanted: str


@dataclass(frozen=True)
class Step:
    """A command, as it is sent, and what is expected after it. A case may begin with a step without a command."""

    line: int
    command: str
    moment: int  # of this scan, or of the last one
    answer: tuple[str, ...] | None = None  # the whole one
    expected: tuple[Expected, ...] = ()


@dataclass(frozen=True)
class Case:
    """A session of its own: the plant begins anew with each."""

    line: int
    name: str
    steps: list[Step] = field(default_factory=list)


class Cases:
    """Reads a text of cases. Raises GatewayFault (status 2) with the file and the line where a line is none of the format."""

    def __init__(self, name: str, plant: Plant) -> None:
        self._name = name
        self._plant = plant
        self._line = 0

    def read(self, text: str) -> list[Case]:
        """The cases, in order. Lines before the first `case` belong to one without a name."""
        cases: list[Case] = []
        for self._line, line in enumerate(io.StringIO(text), 1):  # LF alone ends a line
            words = line.split()
            if not words or words[0].startswith("#"):
                continue
            if words[0] == "case" and not line[0].isspace():
                cases.append(Case(self._line, " ".join(words[1:])))
                continue
            if not cases:
                cases.append(Case(self._line, ""))
            steps = cases[-1].steps
            if not steps:
                steps.append(Step(self._line, "", 0))
            if line[0].isspace():
                steps[-1] = self._answered(steps[-1], words)
            elif words[0] == "expect":
                expected = (*steps[-1].expected, self._expected(words))
                steps[-1] = replace(steps[-1], expected=expected)
            else:
                steps.append(self._command(words, steps[-1].moment))
        if not cases:
            raise self.fault("there is no case in it")
        for case in cases:
            if not case.steps:
                self._line = case.line
                raise self.fault("there is nothing in this case")
        return cases

    def fault(self, words: str) -> GatewayFault:
        """What is wrong with the line that was read last."""
        return GatewayFault(f"{self._name}:{self._line}: {words}", WORDS_STATUS)

    def _command(self, words: list[str], moment: int) -> Step:
        if words[0] not in COMMANDS:
            raise self.fault(
                f"no line begins with {words[0]!r}: a command, `case`, `expect`, `#`, or blanks before an answer's line"
            )
        if words[0] == "scan":
            if len(words) < 2 or not MOMENT.fullmatch(words[1]):
                raise self.fault(
                    "a scan has a moment in milliseconds, or +MILLISECONDS after the scan before it"
                )
            moment = int(words[1]) + (moment if words[1].startswith("+") else 0)
            if moment > LAST_MOMENT:
                raise self.fault(f"a moment is at most {LAST_MOMENT}")
            words = ["scan", str(moment), *words[2:]]
        return Step(self._line, " ".join(words), moment)

    def _answered(self, step: Step, words: list[str]) -> Step:
        """The step with one line more of its whole answer; a `.` in the moment's place is the moment of its scan."""
        if not step.command:
            raise self.fault("an answer's line stands below a command")
        if words[1:2] == ["."]:
            words[1] = str(step.moment)
        return replace(step, answer=(*(step.answer or ()), " ".join(words)))

    def _expected(self, words: list[str]) -> Expected:
        if len(words) != 3:
            raise self.fault("`expect` is followed by two words")
        found = Expected(self._line, words[1], words[2])
        self._check(found)
        return found

    def _check(self, found: Expected) -> None:
        plant, name, wanted = self._plant, found.subject.lower(), found.wanted
        if found.subject in ANSWERS:
            return
        if wanted in CODES:
            if found.subject not in plant.by_tag:
                raise self.fault(f"the plant has no alarm {found.subject}")
        elif wanted in (STOPPED, RUNS):
            if name not in plant.programs:
                raise self.fault(f"the plant has no program {found.subject}")
        elif (variable := plant.inputs.get(name) or plant.outputs.get(name)) is None:
            hint = f"an alarm's codes are {' '.join(code.value for code in Code)}"
            raise self.fault(
                hint
                if found.subject in plant.by_tag
                else f"the plant has no input or output {found.subject}; other variables aren't seen from outside"
            )
        elif read_value(wanted, variable.kind) is None:
            raise self.fault(f"{wanted} is no {variable.kind.value}")


def read_value(word: str, kind: Kind) -> Value | None:
    """The value that a word spells, as in a scan; None where it spells none."""
    if kind is Kind.BOOL:
        return {"TRUE": True, "1": True, "FALSE": False, "0": False}.get(word.upper())
    return int(word) if re.fullmatch(r"-?[0-9]{1,19}", word) else None
