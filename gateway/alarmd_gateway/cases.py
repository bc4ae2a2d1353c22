"""`gateway test PLANT CASES ..`: cases of a plant, each judged by a server of its own. Nothing is recorded.

Status: 0 where all is as expected, 1 where something differs, 2 where the words or the cases are wrong, 3 where the plant is
refused."""

from __future__ import annotations

import difflib
import subprocess
from collections.abc import Iterator
from dataclasses import dataclass
from pathlib import Path

from . import plant as plants
from .case_text import ANSWERS, CODES, RUNS, STOPPED, Case, Cases, Expected, Step, read_value
from .commands import END_ANSWER, END_MARK, Scan, read, spelled
from .config import WORDS_STATUS
from .model import GatewayFault, Order, Plant
from .programs import find_alarmd
from .state import State
from .words import Words, called


LONGEST = 86_400  # seconds that a case may take


@dataclass(frozen=True)
class Difference:
    """A line of the cases, the command, and what was expected beside what was there."""

    line: int
    command: str
    sides: tuple[tuple[str, str], ...]

    def text(self, file: str, case: Case) -> str:
        """For a person: both sides beside each other, lines that differ with a mark."""
        place = f"{file}:{self.line}: {case.name}".rstrip(": ")
        head = f"{place}\n    {self.command or 'at the start'}\n"
        width = max(len("expected"), *(len(left) for left, _ in self.sides)) + 3
        rows = [("expected", "got"), *self.sides]
        return head + "".join(
            f"  {'!' if at and left != right else ' '} {left:{width}}{right}".rstrip() + "\n"
            for at, (left, right) in enumerate(rows)
        )


def read_plant(alarmd: Path, path: Path, seconds: float) -> Plant:
    """The plant of a plant file. Raises GatewayFault (status 3), in the words of alarmd where that refuses it."""
    try:
        return plants.read(path)
    except GatewayFault:
        run_case(alarmd, path, Case(0, ""), seconds)
        raise


def run_case(alarmd: Path, plant: Path, case: Case, seconds: float) -> list[list[str]]:
    """The answers of a fresh server to the case's commands. Raises GatewayFault where it ends before the last, or isn't done in
    so many seconds."""
    commands = [step.command for step in case.steps if step.command]
    text = "".join(f"{command}\n{END_MARK}\n" for command in commands)
    words = [str(alarmd), "run", str(plant)]
    try:
        done = subprocess.run(words, input=text.encode(), capture_output=True, timeout=seconds)
    except OSError as fault:
        raise GatewayFault(f"{alarmd}: {fault.strerror}", WORDS_STATUS) from None
    except subprocess.TimeoutExpired:
        raise GatewayFault(f"{alarmd} wasn't done in {seconds:g} s", 1) from None
    if done.returncode:
        said = (done.stderr or done.stdout).decode(errors="replace").strip().splitlines() or [
            "nothing"
        ]
        raise GatewayFault(
            f"{alarmd} has ended with status {done.returncode}: {said[0]}", done.returncode
        )
    return list(split_answers(done.stdout.decode().splitlines(), commands))


def split_answers(lines: list[str], commands: list[str]) -> Iterator[list[str]]:
    """The lines of each command's answer, where END_MARK stood behind each command."""
    at = 0
    for command in commands:
        # a scan may itself be answered by the line that ends an answer
        end = lines.index(
            END_ANSWER, at + (lines[at] == END_ANSWER and command.startswith("scan "))
        )
        yield lines[at:end]
        at = end + 1


def judge(plant: Plant, case: Case, answers: list[list[str]]) -> Iterator[Difference]:
    """What differs in a case, in order."""
    state, given = State(plant), iter(answers)
    for step in case.steps:
        answer = next(given) if step.command else []
        take(state, step.command, answer)
        if step.answer is not None and list(step.answer) != answer:
            yield Difference(step.line, step.command, tuple(beside(list(step.answer), answer)))
        if is_surprise(step, answer):
            yield Difference(step.line, step.command, (("that it is taken", answer[0]),))
        for expected in step.expected:
            if (sides := compare(state, expected, answer)) is not None:
                yield Difference(expected.line, step.command, (sides,))


def is_surprise(step: Step, answer: list[str]) -> bool:
    """Whether a command was refused, and no line expects anything of its answer."""
    refused = bool(answer) and (
        answer[0].startswith("REFUSED")
        or answer[0].startswith("REPLY O")
        and answer[0] != "REPLY OK"
    )
    return (
        refused and step.answer is None and not any(it.subject in ANSWERS for it in step.expected)
    )


def take(state: State, command: str, answer: list[str]) -> None:
    """Gives the state a command of a case and its answer."""
    found = read(state.plant, command)
    if isinstance(found, Scan):
        state.scan(found.moment, found.given, answer)
    elif isinstance(found, Order):
        state.order(found, answer)


def compare(state: State, expected: Expected, answer: list[str]) -> tuple[str, str] | None:
    """Both sides where something else is there than expected."""
    name, wanted = expected.subject.lower(), expected.wanted
    if expected.subject in ANSWERS:
        got = answer[0] if answer else "no answer"
        wanted = f"{expected.subject} {wanted}"
        return None if wanted == got else (wanted, got)
    if wanted in CODES:
        got = state.by_tag[expected.subject].code.value
    elif wanted in (STOPPED, RUNS):
        got = STOPPED if name in state.stopped else RUNS
    else:
        variable = state.plant.inputs.get(name) or state.plant.outputs[name]
        value = read_value(wanted, variable.kind)
        wanted = wanted if value is None else spelled(value)
        got = spelled({**state.inputs, **state.outputs}[variable.name])
    return None if wanted == got else (f"{expected.subject} {wanted}", f"{expected.subject} {got}")


def beside(wanted: list[str], got: list[str]) -> Iterator[tuple[str, str]]:
    """Two lists of lines beside each other, equal ones in one row."""
    for _, i, j, k, m in difflib.SequenceMatcher(None, wanted, got, autojunk=False).get_opcodes():
        for at in range(max(j - i, m - k)):
            yield (
                wanted[i + at] if i + at < j else "",
                got[k + at] if k + at < m else "",
            )


def test_file(alarmd: Path, plant: Plant, path: Path, seconds: float) -> tuple[int, int]:
    """Runs the cases of a file and prints what differs. Gives how many cases there are, and how many differ."""
    try:
        text = path.read_text(encoding="utf-8-sig")
    except OSError as fault:
        raise GatewayFault(f"{path}: {fault.strerror}", WORDS_STATUS) from None
    except UnicodeDecodeError as fault:
        raise GatewayFault(f"{path} is no UTF-8: {fault.reason}", WORDS_STATUS) from None
    cases = Cases(str(path), plant).read(text)
    differ = 0
    for case in cases:
        found = list(judge(plant, case, run_case(alarmd, plant.path, case, seconds)))
        differ += bool(found)
        for difference in found:
            print(difference.text(str(path), case))
    return len(cases), differ


def main(words: list[str]) -> int:
    """`test PLANT CASES ..`."""
    parser = Words(prog=called("test"), description="Runs cases, and prints what differs.")
    parser.add_argument("plant", type=Path, metavar="PLANT")
    parser.add_argument("cases", type=Path, metavar="CASES", nargs="+")
    parser.add_argument(
        "--alarmd", type=Path, help="the server; else $ALARMD, else where it is built"
    )
    parser.add_argument("--seconds", type=float, default=60, help="how long a case may take (60)")
    given = parser.parse_args(words[1:])
    if not 0 < given.seconds <= LONGEST:  # nor is it no number
        parser.error(f"--seconds is more than 0, and at most {LONGEST}")
    alarmd = find_alarmd(given.alarmd)
    plant = read_plant(alarmd, given.plant, given.seconds)
    counts = [test_file(alarmd, plant, path, given.seconds) for path in given.cases]
    whole, differ = (sum(column) for column in zip(*counts))
    told = f"{differ} differ{'s' if differ == 1 else ''}" if differ else "all as expected"
    print(f"{whole} case{'' if whole == 1 else 's'}, {told}")
    return 1 if differ else 0
