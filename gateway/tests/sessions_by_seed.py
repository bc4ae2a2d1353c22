"""Random sessions on a plant, by a seed: scans and orders, right ones and wrong ones."""

from __future__ import annotations

import random
from collections.abc import Iterator

from alarmd_gateway.commands import Scan
from alarmd_gateway.model import Kind, Order, Plant, Value, Variable, Verb

EXAMPLES = ("tank", "farm", "pumps", "boilers", "burner", "coldroom", "rooms", "built_in")


def _value(chance: random.Random, variable: Variable) -> Value:
    if variable.kind is Kind.BOOL:
        return chance.random() < 0.5
    if variable.kind is Kind.TIME:
        return chance.choice((0, 1, 1000, 10_000, 60_000, -5, 2**63 - 1))
    if chance.random() < 0.1:
        return chance.choice((0, -1, 2**31 - 1, -(2**31)))
    return chance.choice((0, 5, 20, 50, 100, 250, 500, 700, 850, 950, 1000, 2600, 3600, 3900))


def _order(chance: random.Random, plant: Plant) -> Order:
    verb = chance.choice(list(Verb))
    numbers = [console.number for console in plant.consoles]
    console = chance.choice([*numbers * 5, 999_999_999])
    if verb is Verb.RESTART:
        names = [program.name for program in plant.programs.values()]
        name = chance.choice([*names * 5, "Nothing"])
        return Order(verb, console, chance.choice((name, name.upper())))
    tag = chance.choice([*[row.tag for row in plant.alarms] * 5, "NONE-1"])
    if verb is not Verb.SHELVE:
        return Order(verb, console, tag)
    return Order(
        verb,
        console,
        tag,
        chance.choice((0, 1, 1500, 4000, 50_000, 600_000, 2**62, 10**19 - 1)),
    )


def session(plant: Plant, seed: int, count: int) -> Iterator[Scan | Order]:
    """So many commands. About one scan in twenty goes back in time, and is refused."""
    chance = random.Random(seed)
    moment = 0
    for _ in range(count):
        if chance.random() < 0.45:
            yield _order(chance, plant)
            continue
        moment += chance.choice((0, 1, 500, 1000, 1000, 1000, 5000, 20_000))
        few = chance.sample(
            list(plant.inputs.values()), min(len(plant.inputs), chance.randint(0, 4))
        )
        given = {variable.name: _value(chance, variable) for variable in few}
        back = moment > 10 and chance.random() < 0.05
        yield Scan(moment - 10 if back else moment, given)
