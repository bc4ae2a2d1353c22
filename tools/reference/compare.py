#!/usr/bin/env python3
"""Compares the server with a second reading of its rules, on random plants and commands.

    python3 tools/reference/compare.py PROGRAM [FIRST_SEED [COUNT]] [--workers N ..] [--reload]

PROGRAM is the built server (crates/alarmd/out/alarmd). For each seed a plant and commands are made; the server answers them, and so does
server.py, which was written from the rules of the language and the protocol, and not from the server's code or its definitions. With
`--workers 1 2 4 8` the server answers them once with each of these numbers of workers; else with one. The first line in which the answers
differ is printed with the seed and the number of workers. The exit status is 0 where all agree.

With `--reload` the commands have reloads among them, several in a run: of the plant with random changes of it (edits.py), of a plant that is refused, of the same plant; and the last one
may be cut. The server has to have the command: else it answers `REFUSED L1`.
"""

import argparse
import os
import random
import subprocess
import sys
import tempfile

import protocol
import reloads
from edits import edited
from language import BOOL, DINT, RANGES, TIME
from plants import Maker, Writer
from server import Server

NO_COMMAND = ["scan", "ack 1", "list 1", "Scan 0", "scan 1 a", "scan 1 1a=2", "ack x T", "shelve 1 T", "restart", "scan -1"]
NO_COMMAND += ["ack 1234567890 T", "scan 1 a=+1", "scan 1 a=1.5", "journal x"]
NOTHING = ["", "  ", "# a remark"]
NO_RELOAD = ["reload", "reload 0", "reload 1048577 0", "reload 0 16777217", "reload 0 0 4194305", "reload 0 0 4194304 1", "reload 000000001 0", "reload -1 0", "Reload 0 0", "reload 0 0 x"]
NO_RELOAD += ["reload 0 0" + " 0" * 65, "reload 0x5 0", "reload 0 0 " + "0" * 9]


class Commands:
    """Random lines for a server, and what it has to answer."""

    def __init__(self, some, plant, has_reloads=False):
        self.some, self.plant, self.server = some, plant, Server(plant, reloads.read if has_reloads else None)
        self.has_reloads, self.lines, self.answers = has_reloads, [], []
        self.see_inputs()

    def see_inputs(self):
        self.inputs = [(name, kind) for name, kind, region, _ in self.plant.globals if region == "I"]

    def add(self):
        if self.has_reloads and self.some.random() < 0.08:
            self.add_reload()
            return
        pick = self.some.random()
        if pick < 0.5:
            self.add_scan()
        elif pick < 0.9:
            self.add_order()
        elif pick < 0.95:
            self.take("list", self.server.list())
        elif pick < 0.97:
            self.take("journal", self.server.journal())
        elif pick < 0.98:
            self.take(self.some.choice(NOTHING), [])
        else:
            self.take(self.some.choice(NO_COMMAND), ["REFUSED L1"])

    def take(self, line, answer):
        self.lines.append(line + self.some.choice(["", "", "", "\r"]))
        self.answers += answer

    def add_reload(self):
        """A reload, and what it leaves; or a line that is none, with bytes behind it that are lines then."""
        some = self.some
        plant = edited(some, self.plant)
        command = self.written(plant)
        pick = some.random()
        if pick < 0.05:
            command = some.choice(NO_RELOAD) + "\n" + command.partition("\n")[2]
        elif pick < 0.15:
            command = self.spoiled(plant)
        self.take_bytes(command)
        self.plant = self.server.plant
        self.see_inputs()

    def written(self, plant):
        return as_command(Writer(self.some).files(plant))

    def spoiled(self, plant):
        """A reload that is refused, as far as the second reading can tell."""
        some, found = self.some, Writer(self.some).files(plant)
        name = some.choice(list(found))
        text = found[name]
        pick = some.random()
        if pick < 0.3:
            found.pop(next(it for it in found if it.endswith(".st")))
        elif pick < 0.5:
            found["more.st"] = some.choice(["", "VAR_GLOBAL"])
        elif name == "alarms.csv":
            found[name] = some.choice([text.replace(",", ";", 1), text + "T,x\n", text + ",,,,,,,\n", text.replace("TRUE", "YES")])
        elif name == "plant.toml":
            found[name] = some.choice([text + "[", text.replace("name", "nam"), text.replace("Z", "z", 1), text + "[[console]]\nnumber = 1\nareas = []\n" * 2])
        else:
            found[name] = some.choice([text + "$", text + "(*", text + "VAR", "PROGRAM ; " + text])
        return as_command(found)

    def take_bytes(self, command):
        """Takes bytes that are whole lines, and reloads with their bodies."""
        self.lines.append(command)
        self.answers += protocol.answers(self.server, f"{command}\n".encode()).decode().split("\n")[:-1]

    def cut(self):
        """Cuts the last reload, and ends the input there."""
        some = self.some
        command = self.written(edited(some, self.plant))
        given = command.encode()[: some.randrange(len(command.encode()))].decode("utf-8", "ignore")
        self.answers += protocol.answers(self.server, given.encode()).decode().split("\n")[:-1]
        return given

    def given(self, kind):
        some = self.some
        if some.random() < 0.02:
            return some.choice(["2", "TRUE", "9223372036854775808", "2147483648"])
        if kind == BOOL:
            return some.choice(["0", "1", "1", "TRUE", "false"])
        return str(some.choice([0, 1, -1, 5, 7, 10, *RANGES[kind], some.randrange(-20, 20)]))

    def add_scan(self):
        some = self.some
        moment = max(0, self.moment() if some.random() < 0.95 else self.server.moment - some.randrange(3))
        if some.random() < 0.01:
            moment = 4_000_000_000_001
        pairs = [(some.choice([name, name.upper(), name.lower()]), self.given(kind)) for name, kind in some.sample(self.inputs, some.randrange(len(self.inputs) + 1))]
        if some.random() < 0.03:
            pairs.append((some.choice([it[0] for it in self.plant.globals] + [it.text for it in self.plant.arrays] + ["nothing"]), "1"))
        gap = some.choice([" ", "\t"])
        line = gap.join([f"scan {some.choice(['', '', '0'])}{moment}"] + [f"{name}={text}" for name, text in pairs])
        self.take(line, self.server.scan(moment, pairs))

    def moment(self):
        """A moment that isn't before the last one; now and then at the end of an alarm's delay, or a millisecond beside it."""
        some, last = self.some, self.server.moment
        due = [it.due() for it in self.server.alarms if it.due() is not None and it.due() >= last]
        if due and some.random() < 0.15:
            return max(last, some.choice(due) + some.choice([-1, 0, 0, 1]))
        return last + some.choice([0, 1, 5, 5, 5, 10, 10, 20, 30, 100])

    def add_order(self):
        some, plant = self.some, self.plant
        verb = some.choice(["ack", "ack", "reset", "shelve", "shelve", "unshelve", "remove", "return", "restart"])
        console = some.choice([number for number, _ in plant.consoles] + [some.randrange(8)])
        stopped = [it.name for it, faulted in zip(plant.programs, self.server.faulted) if faulted]
        if stopped and some.random() < 0.5:
            verb = "restart"
        targets = (stopped or [it.name for it in plant.programs]) if verb == "restart" else [it.tag for it in plant.alarms]
        fit = [it.row.tag for it in self.server.alarms if it.state == {"unshelve": "SHELVED", "return": "OOS"}.get(verb)]
        if fit and some.random() < 0.6:
            targets = fit
        target = some.choice(targets) if targets and some.random() < 0.97 else "nobody"
        if verb == "restart" and some.random() < 0.3:
            target = target.upper()
        time = some.choice([1, 5, 20, 50, 100, 101, 0, 2_592_000_000]) if verb == "shelve" else None
        line = f"{verb} {console} {target}" + ("" if time is None else f" {time}")
        self.take(line, self.server.order(verb, console, target, time))


def as_command(files):
    """The line and the body that hand over the texts of a plant's files."""
    sources = [text.encode() for name, text in files.items() if name.endswith(".st")]
    return reloads.command(files["plant.toml"].encode(), files["alarms.csv"].encode(), sources).decode()


def answered(program, folder, lines, workers, last=""):
    """How the server ends on these lines, and on what comes after them without an end, and what it writes, with so many workers."""
    words = [program, "run", os.path.join(folder, "plant.toml"), "--workers", str(workers)]
    return subprocess.run(words, input="".join([*(f"{line}\n" for line in lines), last]).encode(), capture_output=True)


def difference(ran, wanted):
    """Where the server's answers differ from those wanted, or None."""
    got = ran.stdout.decode().split("\n")[:-1]
    for at in range(max(len(got), len(wanted))):
        one, other = (lines[at] if at < len(lines) else "nothing" for lines in (wanted, got))
        if one != other:
            return f"line {at + 1}: wanted {one}, got {other}"
    return None if ran.returncode == 0 else f"status {ran.returncode}: {ran.stderr.decode().strip()}"


def differences(program, seed, folder, numbers, has_reloads=False):
    """The numbers of workers with which the answers differ, and where."""
    some = random.Random(seed)
    plant = Maker(some).made()
    for name, text in Writer(some).files(plant).items():
        with open(os.path.join(folder, name), "w", newline="", encoding="utf-8") as file:
            file.write(text)
    commands = Commands(some, plant, has_reloads)
    for _ in range(some.choice([20, 60, 150])):
        commands.add()
    last = commands.cut() if has_reloads and some.random() < 0.3 else ""
    found = ((workers, difference(answered(program, folder, commands.lines, workers, last), commands.answers)) for workers in numbers)
    return [(workers, where) for workers, where in found if where]


def asked():
    reader = argparse.ArgumentParser(usage=__doc__)
    reader.add_argument("program")
    reader.add_argument("first", type=int, nargs="?", default=1)
    reader.add_argument("count", type=int, nargs="?", default=1000)
    reader.add_argument("--workers", type=int, nargs="+", default=[1])
    reader.add_argument("--reload", action="store_true")
    return reader.parse_intermixed_args()


def main():
    words, differ = asked(), 0
    with tempfile.TemporaryDirectory() as folder:
        for seed in range(words.first, words.first + words.count):
            found = differences(os.path.abspath(words.program), seed, folder, words.workers, words.reload)
            differ += 1 if found else 0
            for workers, where in found:
                print(f"seed {seed}, {workers} workers: {where}", flush=True)
    print(f"{words.count - differ} plants alike, {differ} not")
    return 1 if differ else 0


if __name__ == "__main__":
    sys.exit(main())
