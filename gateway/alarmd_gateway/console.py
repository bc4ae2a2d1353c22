"""The operator at standard input: orders, samples and questions as lines; what changes, and each answer, on standard output."""

from __future__ import annotations

import asyncio
from collections.abc import AsyncIterator, Iterator

from .changes import Change, ChangeKind, CutOff
from .commands import Reload, spelled
from .core import Core
from .input import MOST
from .model import BadSample, Order, Sample, ServerGone
from .output import Output
from .player import Taken
from .questions import Question
from .typed import FORMS, SAMPLES, Ask, Mistake, read, why


class Console:
    """Takes lines one after another. Each that is an order, a question or a mistake is answered."""

    def __init__(self, core: Core, output: Output) -> None:
        self._core = core
        self._output = output

    async def serve(self, lines: AsyncIterator[str | None]) -> None:
        """Takes all lines, to the end of the input."""
        async for line in lines:
            if line is None:
                self._output.put(f"REFUSED L1: a line has at most {MOST} bytes")
                continue
            try:
                asked = read(line, "standard input")
            except Mistake as mistake:
                self._output.put(f"REFUSED L1: {mistake}")
                continue
            if isinstance(asked, Order):
                await self._order(asked)
            elif isinstance(asked, Ask):
                await self._ask(asked)
            else:
                await self._samples(asked or [])

    async def _samples(self, samples: list[Sample]) -> None:
        """Each by itself, so that a bad one takes no other along."""
        for sample in samples:
            try:
                await self._sample(sample)
            except BadSample as fault:
                self._output.put(f"REFUSED sample: {fault}")

    async def _sample(self, sample: Sample) -> None:
        disturbances = self._core.disturbances
        if disturbances is not None and disturbances.has(sample.name):
            disturbances.disturb(sample.name, sample.value)
            self._output.put(f"# {sample.name} is {sample.value} from the next scan on")
        else:
            await self._core.offer(sample)

    async def _order(self, order: Order) -> None:
        try:
            reply = await self._core.order(order)
        except ServerGone as gone:
            self._output.put(f"# no answer to {order.line()!r}: {gone.words}")
            return
        self._output.put(reply.lines[0])
        if not reply.taken:
            self._output.put(f"# {why(reply.code, order, self._core.plant) or reply.why}")

    async def _ask(self, ask: Ask) -> None:
        if ask.word in ("confirm", "decline"):
            console, number = ask.numbers
            await self._answer(number, ask.word == "confirm", console)
            return
        if ask.word in ("yes", "no"):
            waiting = [question.number for question in self._core.questions]
            await self._answer(waiting[0] if len(waiting) == 1 else 0, ask.word == "yes", None)
            return
        for line in self._told(ask):
            while self._output.crowded:
                await asyncio.sleep(0.01)
            self._output.put(line)

    async def _answer(self, number: int, yes: bool, console: int | None) -> None:
        try:
            await self._core.answer(number, yes, console)
        except KeyError:
            which = f"no question {number}" if number else "not one question"
            self._output.put(f"REFUSED L1: {which} waits; `questions` tells those that do")
        except ValueError as fault:
            self._output.put(f"REFUSED L1: {fault}")
        else:
            self._output.put(f"# question {number} is answered: {'yes' if yes else 'no'}")

    def _told(self, ask: Ask) -> Iterator[str]:
        core, state = self._core, self._core.state
        if ask.word == "list":
            yield from state.listing()
        elif ask.word == "journal":
            yield from core.journal.lines(*ask.numbers)
            yield f"END {len(core.journal)}"
        elif ask.word == "values":
            for name, value in [*state.inputs.items(), *state.outputs.items()]:
                yield f"# {name} {spelled(value)}"
        elif ask.word == "stopped":
            for one in state.stopped.values():
                yield f"# {one.program} {one.path} {one.statement} {one.kind} {one.file}:{one.line}"
        elif ask.word == "troubles":
            yield from (f"# {one.kind.value}: {one.text}" for one in core.troubles)
        elif ask.word == "questions":
            for question in core.questions:
                yield from told(question)
        else:
            yield from (f"# {form}" for form in (*FORMS.values(), SAMPLES))

    def show_last(self, taken: Taken | None) -> None:
        """The answer to the record's last command, which nobody may have seen."""
        lines = taken.answer if taken else []
        if taken is not None and isinstance(taken.command, Reload):
            lines = lines[:1]  # behind it stands a list
        for line in lines:
            if not line.startswith("DONE"):
                self._output.put(line)

    async def show(self) -> None:
        """Changes of alarms, outputs and programs, as the server's lines, until the core closes."""
        while True:
            changes = self._core.subscribe(100_000)
            try:
                async for change in changes:
                    for line in shown(change):
                        self._output.put(line)
                return
            except CutOff:
                self._output.put("# changes were left out")
            finally:
                changes.close()


def told(question: Question) -> Iterator[str]:
    """A question as lines for a person."""
    yield f"# question {question.number}: {question.text}"
    yield f"#   `confirm CONSOLE {question.number}` or `decline CONSOLE {question.number}`; `yes` or `no` where it is the only one"
    yield from (f"#   {line}" for line in question.details)


def shown(change: Change) -> Iterator[str]:
    """A change as the server's line has it; questions as `told` has them."""
    data, moment = change.data, change.moment
    if change.kind is ChangeKind.ALARM and data["from"] != data["code"]:
        yield f"ALARM {moment} {data['tag']} {data['from']} {data['code']}"
    elif change.kind is ChangeKind.OUTPUT:
        value = data["value"]
        assert isinstance(value, int)
        yield f"OUT {moment} {data['name']} {spelled(value)}"
    elif change.kind is ChangeKind.STOPPED:
        yield f"FAULT {moment} {data['path']} {data['statement']} {data['kind']}"
    elif change.kind is ChangeKind.QUESTION:
        yield f"# question {data['number']}: {data['text']}"
        details = data["details"]
        assert isinstance(details, list)
        yield from (f"#   {line}" for line in details)
        yield f"#   `confirm CONSOLE {data['number']}` or `decline CONSOLE {data['number']}`"
