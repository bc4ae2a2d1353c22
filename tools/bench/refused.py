"""Plants that are refused: each is a plant that is accepted with one thing changed."""

import os
import random

import inputs


def small(folder):
    """Four sources of some 30 KB together, with 20 programs, and 40 alarms."""
    dice = random.Random(2)
    sources = [f"s{n}.st" for n in range(4)]
    inputs.plant_file(folder, sources)
    for number, source in enumerate(sources):
        pieces = ["VAR_GLOBAL\n", *(f"  c{n} : BOOL;\n" for n in range(40)), "END_VAR\n"] if number == 0 else []
        for program in range(5):
            pieces.append(f"PROGRAM p{number}_{program}\nVAR level, flow, setpoint, i, j, k : DINT; t1 : TON; el : TIME; END_VAR\n")
            for _ in range(18):
                pieces.append(
                    dice.choice(
                        [
                            "  flow := level * 3 / 7 + (setpoint - flow) MOD 16#FF; // balance\n",
                            f"  IF level > {dice.randrange(9999)} THEN setpoint := setpoint / 2; ELSE flow := -flow MOD 977; END_IF;\n",
                            f"  FOR i := 1 TO {dice.randrange(2, 20)} DO j := (j + i * k) MOD 1013; END_FOR;\n",
                            f"  t1(IN := flow > level, PT := T#1m_{dice.randrange(60)}s, ET => el);\n",
                        ]
                    )
                )
            pieces.append("END_PROGRAM\n")
        inputs.write(folder, source, "".join(pieces))
    inputs.alarm_file(folder, 40, lambda n: f"c{n}")


def few_alarms(folder):
    """The sources of `large`, and 40 of its alarms."""
    inputs.large(folder)
    path = os.path.join(folder, "alarms.csv")
    with open(path) as file:
        rows = [line for _, line in zip(range(41), file)]
    inputs.write(folder, "alarms.csv", "".join(rows))


PLANTS = {"4.2 MB of sources, 14.5 MB of alarms": inputs.large, "4.2 MB of sources, 40 alarms": few_alarms, "30 KB of sources, 40 alarms": small}


def edited(file, old, new):
    """Puts a text in the place of the first one that is another, in a file of a plant."""

    def edit(folder):
        with open(os.path.join(folder, file)) as it:
            text = it.read()
        if old not in text:
            raise ValueError(f"{file} has no {old}")
        inputs.write(folder, file, text.replace(old, new, 1))

    return edit


def without(file):
    return lambda folder: os.remove(os.path.join(folder, file))


def changes(source):
    """What is changed of a plant whose first source is named."""
    return {
        "plant.toml: a key misspelt": edited("plant.toml", "areas = ", "aeras = "),
        "plant.toml: no TOML": edited("plant.toml", '"bench"', "bench"),
        "plant.toml: a wrong epoch": edited("plant.toml", "2024-01-01", "2024-13-01"),
        "the first source missing": without(source),
        "the alarms missing": without("alarms.csv"),
        "spelling": edited(source, "flow := level", "flow := le?vel"),
        "grammar": edited(source, "flow := level", "flow = level"),
        "a name": edited(source, "flow := level", "flow := lvel"),
        "an area of an alarm": edited("alarms.csv", inputs.AREAS[0], "nowhere"),
    }
