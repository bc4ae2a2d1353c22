"""A station by the second reading of the rules: a server whose orders come through rings, row by row of try_stations' table.

`crates/try_stations/src/lib.rt` says what rows there are. All consoles are in one thread, so that each end of a ring sees all that the other did, and a board shows each event."""

import collections
import re

import protocol
import reloads
from server import MOST_EVENTS, Server

PLACES = 64
MOST_ORDERS = 64
STOPPED = re.compile("TAKEN ([0-9]+) STOPPED TRUE")


class Rings:
    """A console's rings."""

    def __init__(self):
        self.orders, self.answers = collections.deque(), collections.deque()


def number(word):
    return int(word) if re.fullmatch("[0-9]{1,9}", word) else 0


def texts_in(given):
    """The texts of the files that a table gives, each by a line `file NAME` and its text: the plant file, the alarm file and the sources."""
    return [part.partition("\n")[2].encode() for part in given.removeprefix("file ").split("\nfile ")]


def changed(given, words):
    """The files of a table after a row `reload OLD => NEW`."""
    old, _, new = words.partition(" => ")
    return given.replace(old, new, 1)


class Station:
    """What a station's rows have to give, whose files are these. `came` is what a run gave: it says when workers were gone and, where memory may be refused, at which rows of `once` it was."""

    def __init__(self, name, plant, said, given="", came=None, refusing=False):
        self.server, self.said, self.given, self.came, self.refusing = Server(plant, reloads.read), said, given, came, refusing
        self.reloads = 0
        self.consoles = {number: Rings() for number, _ in plant.consoles}
        self.refused, self.stopped, self.refused_reloads = 0, 0, 0
        self.left, self.asked, self.gone = None, 0, False
        self.say(f"station {name}")

    def say(self, line):
        self.said.append(line)

    def next(self):
        """The line that came where the next one is due."""
        return self.came[len(self.said)] if self.came and len(self.said) < len(self.came) else ""

    # ---- rows

    def do(self, row):
        self.say(f"> {row}")
        word, _, words = row.partition(" ")
        first, _, second = words.partition(" ")
        rings = self.consoles.get(number(first))
        if word == "workers":
            self.left = number(first)
        elif word == "reload" or row.startswith("once reload"):
            self.reload(row)
        elif word in ("scan", "once"):
            self.scan(words if word == "once" else row, word == "once")
        elif word == "page":
            self.page(number(first), number(second))
        elif word == "journal":
            self.say(f"JOURNAL {len(self.server.rows)} ALIKE")
        elif word == "answers":
            taken = 0 if rings is None else min(number(second), len(rings.answers))
            self.say(f"ANSWERS {taken}")
            for _ in range(taken):
                rings.answers.popleft()
        elif word == "repeat":
            self.submit(second, number(first))
        elif word not in ("answer", "board", "room", "reloads"):
            self.submit(row)
        elif rings is None:
            self.say("NO CONSOLE")
        elif word == "answer":
            self.answer(rings)
        elif word == "reloads":
            self.say(f"RELOADS {self.reloads}")
        elif word == "room":
            self.say(f"ROOM {PLACES - len(rings.orders)}")
        else:
            codes = [it.state for it in self.server.alarms if it.row.tag == second]
            self.say(f"BOARD {self.server.events} {codes[0] if codes else '?'}")

    def answer(self, rings):
        if not rings.answers:
            return self.say("NO ANSWER")
        order, reply = rings.answers.popleft()
        self.say(f"ANSWER {self.named(order)} {reply}")

    def reload(self, row):
        if self.refusing and row.startswith("once ") and self.next() == "MEMORY":
            self.refused_reloads += 1
            return self.say("MEMORY")
        words = row.removeprefix("once ").partition(" ")[2]
        line = self.server.reload(*texts_in(changed(self.given, words)))[0]
        self.reloads += line.startswith("RELOADED")
        self.say("NO PLANT" if line.startswith("CONFIG") else line)

    def page(self, first, count):
        for at, row in enumerate(self.server.rows, 1):
            if first <= at < first + count:
                self.say(row)

    def submit(self, line, times=None):
        """Submits an order; or so many times, where that is said."""
        asked = protocol.command(line.encode())
        if not isinstance(asked, tuple) or asked[0] in ("scan", "list", "journal"):
            return self.say("NO ROW")
        rings = self.consoles.get(asked[1])
        room = 0 if rings is None else PLACES - len(rings.orders)
        submitted = min(room, 1 if times is None else times)
        for _ in range(submitted):
            rings.orders.append((self.reloads, asked))
        if times is not None:
            self.say(f"SUBMITTED {submitted} HANDED BACK {times - submitted}")
        elif rings is None:
            self.say("NO CONSOLE")
        else:
            self.say("SUBMITTED" if submitted else "HANDED BACK")

    # ---- turns

    def scan(self, line, once):
        asked = protocol.command(line.encode())
        if not isinstance(asked, tuple) or asked[0] != "scan":
            return self.say("NO ROW")
        may_refuse = once and self.refusing
        if may_refuse and self.next() == "MEMORY":
            self.refused += 1
            return self.say("MEMORY")
        if self.left is not None and self.are_gone(asked):
            return self.say("REFUSED E5")
        lines = self.server.scan(*asked[1:])
        if lines[0].startswith("REFUSED"):
            return self.say(lines[0])
        for it in lines:
            if it.startswith(("ALARM", "OUT")):
                self.say(it)
        cut = STOPPED.fullmatch(self.next()) if may_refuse else None
        taken, stopped = self.take(int(cut[1]) if cut else None)
        self.stopped += stopped
        self.say(f"TAKEN {taken} STOPPED {'TRUE' if stopped else 'FALSE'}")

    def are_gone(self, asked):
        """Whether the workers are gone for a scan that would be taken. A scan takes a round for each level, also for one whose programs are all faulted, and one round, with no job, where the plant has no programs. There is
        at most one level for each program: how many is what came."""
        if self.server.copy().scan(*asked[1:])[0].startswith("REFUSED"):
            return False
        self.asked += 1
        most = self.asked * max(1, len(self.server.faulted))
        self.gone = self.gone or self.asked > self.left or (most > self.left and self.next() == "REFUSED E5")
        return self.gone

    def take(self, most):
        """Takes the orders that wait, console by console: how many, and whether one was left though it could be answered."""
        taken = 0
        for console, rings in self.consoles.items():
            for _ in range(MOST_ORDERS):
                if not rings.orders or len(rings.answers) == PLACES:
                    break
                if taken == most or self.server.events == MOST_EVENTS:
                    return taken, True
                order = rings.orders.popleft()
                rings.answers.append((order, replied(self.ordered(console, order))))
                taken += 1
        return taken, False

    def ordered(self, console, order):
        """What the server answers an order: O6 to one for a plant before the present one, which is an event without a target."""
        count, (verb, _, target, *time) = order
        if count == self.reloads:
            return self.server.order(verb, console, target, *time)
        self.server.events += 1
        self.server.note_order(console, verb, "?", time[0] if time else None, "O6")
        return ["REPLY O6"]

    def named(self, order):
        """An order, with its target as it is declared; `?` where it is for a plant before the present one."""
        count, (verb, _, target, *_) = order
        plant = self.server.plant
        if verb == "restart":
            names = [it.name for it in plant.programs if it.name.lower() == target.lower()]
        else:
            names = [it.tag for it in plant.alarms if it.tag == target]
        if count != self.reloads:
            names = []
        return f"{verb} {names[0] if names else '?'}"

    # ---- the end

    def end(self):
        for console, rings in self.consoles.items():
            self.say(f"WITHIN {console} TRUE")
            for asked in rings.orders:
                self.say(f"LEFT {console} {self.named(asked)}")
            self.say(f"NO MORE LEFT {console}")
        other = max(self.consoles, default=0) + 1
        self.say(f"WITHIN {other} FALSE")
        self.say(f"NO MORE LEFT {other}")
        self.say("")


def replied(lines):
    """A reply, by the server's lines that answer an order."""
    reply = lines[0].removeprefix("REPLY ")
    if reply != "OK":
        return f"REFUSED {reply}"
    return "DONE " + " ".join(lines[1].split(" ")[3:]) if lines[1:] else "DONE"


def unbalanced(lines, named):
    """What isn't as it has to be of the orders of a station, by its lines alone, which end with a page of the whole archive; None where all is. Of each console the orders that
    the archive has, followed by those that are left, are those that it submitted; and the answers that it took are the archive's replies, from the first one on. `named` names the target
    of an order as the archive does."""
    submitted, answers, left, rows = (collections.defaultdict(list) for _ in range(4))
    row = ""
    for at, line in enumerate(lines):
        if line.startswith("> "):
            row = line[2:]
            if row.startswith("page 1 "):
                rows.clear()
        elif line.startswith("SUBMITTED"):
            words = line.split(" ")
            order = row.split(" ", 2)[2] if words[1:] else row
            asked = protocol.command(order.encode())
            submitted[asked[1]] += [named((0, asked))] * int(words[1] if words[1:] else 1)
        elif line.startswith("ANSWER "):
            verb, target, *reply = line.split(" ")[1:]
            answers[number(row.split(" ")[1])].append((f"{verb} {target}", reply[1] if reply[0] == "REFUSED" else "OK"))
        elif line.startswith("ANSWERS "):
            answers[number(row.split(" ")[1])] += [None] * int(line.split(" ")[1])
        elif line.startswith("LEFT "):
            _, console, order = line.split(" ", 2)
            left[int(console)].append(order)
        elif re.match("[0-9]+ [^ ]+ ORDER ", line) and row.startswith("page 1 "):
            _, _, _, console, verb, target, *reply = line.split(" ")
            rows[int(console)].append((f"{verb} {target}", reply[-1]))
    for console in sorted({*submitted, *answers, *left, *rows}):
        if [order for order, _ in rows[console]] + left[console] != submitted[console]:
            return f"console {console}: what was taken and what is left isn't what was submitted"
        if len(answers[console]) > len(rows[console]) or any(one not in (None, other) for one, other in zip(answers[console], rows[console])):
            return f"console {console}: the answers aren't those of the archive"
    return None
