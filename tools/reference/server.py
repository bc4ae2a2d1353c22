"""What the server answers: a plant's state, scans, orders, reloads, `list` and `journal`, by the rules of docs/LANGUAGE.md and docs/PROTOCOL.md."""

import copy
import datetime

import files
import reloads
from language import BOOL, RANGES, STANDARD, Assign, Call, Case, Element, For, If, Trap, numbers, value

CODES = ["NORM", "UNACK", "ACKED", "RTNUN", "LATUN", "LATAK", "SHELVED", "SUPPR", "OOS"]
LAST_MOMENT = 4_000_000_000_000
MOST_EVENTS = 1_000_000


class Calls(list):
    """All calls of a standard block: (block type, IN or CLK, PT, moment). `first` is the place of the first call of the unbroken run of calls with
    the same IN that ends the list."""

    first = 0

    def add(self, block, on, preset, moment):
        if self and self[-1][1] != on:
            self.first = len(self)
        self.append((block, on, preset, moment))

    def copy(self):
        made = Calls(self)
        made.first = self.first
        return made


def shown(calls, name):
    """An output of a standard block, by the list of all its calls."""
    if not calls:
        return 0
    block, on, preset, moment = calls[-1]
    preset = max(preset, 0)
    if block == "R_TRIG":
        return int(on and not (len(calls) > 1 and calls[-2][1]))
    elapsed = moment - calls[calls.first][3]
    if block == "TON":
        if not on:
            return 0
        return int(elapsed >= preset) if name == "q" else min(elapsed, preset)
    if on:
        return int(name == "q")
    if calls.first == 0:
        return 0
    return int(elapsed < preset) if name == "q" else min(elapsed, preset)


def resumed(condition, suppressed):
    return "SUPPR" if suppressed else "UNACK" if condition else "NORM"


def after_scan(state, latching, end, condition, suppressed, moment):
    """The table of transitions, its column for scans."""
    if state == "OOS" or (state == "SHELVED" and moment < end):
        return state
    if state in ("SHELVED", "SUPPR"):
        return resumed(condition, suppressed)
    if suppressed:
        return "SUPPR"
    if condition:
        return "ACKED" if state == "ACKED" else "UNACK"
    if state == "UNACK":
        return "LATUN" if latching else "RTNUN"
    if state == "ACKED":
        return "LATAK" if latching else "NORM"
    return state


class Scans(list):
    """All scans that an alarm has seen: (whether the variable that it watches was TRUE, moment). `first` is the place of the first scan of the unbroken run of
    scans with the same value that ends the list."""

    first = 0

    def add(self, watched, moment):
        if self and self[-1][0] != watched:
            self.first = len(self)
        self.append((watched, moment))

    def condition(self, delay):
        """The condition that counts: the scans with TRUE, back from the last one without a break, began at least the delay ago."""
        watched, moment = self[-1]
        return watched and moment - self[self.first][1] >= delay

    def due(self, delay):
        """The moment from which the condition counts, if the variable stays as it is; None where it is FALSE."""
        return self[self.first][1] + delay if self and self[-1][0] else None

    def copy(self):
        made = Scans(self)
        made.first = self.first
        return made


class Alarm:
    def __init__(self, row):
        self.row, self.state, self.end, self.condition, self.suppressed, self.scans = row, "NORM", 0, False, False, Scans()

    def copy(self):
        made = copy.copy(self)
        made.scans = self.scans.copy()
        return made

    def due(self):
        return self.scans.due(self.row.delay)

    def take_over(self, other):
        """Goes on from the state of another alarm: its code, the end of its shelf, and what its last scan has left."""
        self.state, self.end, self.condition, self.suppressed, self.scans = other.state, other.end, other.condition, other.suppressed, other.scans

    def ordered(self, verb, time, last):
        """The state after an order, or the reply that refuses it."""
        acknowledged = {"UNACK": "ACKED", "RTNUN": "NORM", "LATUN": "LATAK"}
        back = resumed(self.condition, self.suppressed)
        match verb:
            case "ack" if self.state in acknowledged:
                return acknowledged[self.state], None
            case "reset" if self.state == "LATAK":
                return "NORM", None
            case "unshelve" if self.state == "SHELVED":
                return back, None
            case "return" if self.state == "OOS":
                return back, None
            case "remove" if self.state != "OOS":
                return "OOS", None
            case "shelve" if self.state not in ("SUPPR", "OOS"):
                if not 1 <= time <= self.row.longest:
                    return None, "O4"
                self.end = last + time
                return "SHELVED", None
        return None, "O3"


class Server:
    """A plant that is served: what it holds after the commands so far. `reads` gives the plant of the texts of a reload; without it there is no command `reload`."""

    def __init__(self, plant, reads=None):
        self.plant, self.reads, self.moment, self.events, self.rows = plant, reads, 0, 0, []
        self.begun = datetime.datetime.strptime(plant.epoch, "%Y-%m-%dT%H:%M:%SZ")
        self.values, self.calls, self.numbers = {}, {}, {}
        self.globals = {name.lower(): (name, kind, region) for name, kind, region, _ in plant.globals}
        for name, _, _, initial in plant.globals:
            self.values["global", name.lower()] = 0 if initial is None else value(initial, None)
        for array in plant.arrays:
            self.open_array(array, ())
        for program in plant.programs:
            self.open(program, (program.name.lower(),))
        self.faulted = [False] * len(plant.programs)
        self.alarms = [Alarm(row) for row in plant.alarms]

    def copy(self):
        """A server that goes on from here by itself."""
        made = copy.copy(self)
        made.values, made.rows, made.faulted = dict(self.values), list(self.rows), list(self.faulted)
        made.calls = {path: calls.copy() for path, calls in self.calls.items()}
        made.alarms = [alarm.copy() for alarm in self.alarms]
        return made

    def open(self, routine, path):
        """Gives the variables of a routine and of its instances their initial values."""
        for name, _, _, initial in routine.variables:
            self.values[path + (name.lower(),)] = 0 if initial is None else value(initial, None)
        for array in routine.arrays:
            self.open_array(array, path)
        for name, block in routine.instances:
            below = path + (name.lower(),)
            if block in STANDARD:
                self.calls[below] = Calls()
                for given, _ in STANDARD[block][0]:
                    self.values[below + (given.lower(),)] = 0
            else:
                self.open(self.plant.blocks[block], below)

    def open_array(self, array, path):
        """Gives the elements of an array their initial values."""
        for number in range(array.low, array.high + 1):
            self.write(path, array.place + (number,), 0)

    # ---- a program's run

    def read(self, path, place):
        if place[0] == "global":
            return self.values[place]
        if place[0] == "own":
            return self.values[path + place[1:]]
        below = path + place[1:2]
        return shown(self.calls[below], place[2]) if below in self.calls else self.values[below + place[2:]]

    def write(self, path, place, number):
        self.values[place if place[0] == "global" else path + place[1:]] = number

    def run(self, routine, path, printed, moment):
        """Runs a body. A trap tells the path as declared and the number of its statement; what was assigned before it stands."""
        if routine.name not in self.numbers:
            self.numbers[routine.name] = numbers(routine.body)
        self.run_all(routine, routine.body, path, printed, moment)

    def run_all(self, routine, body, path, printed, moment):
        for statement in body:
            self.run_one(routine, statement, path, printed, moment)

    def run_one(self, routine, statement, path, printed, moment):
        read = lambda place: self.read(path, place)

        def here(work):
            try:
                return work()
            except Trap as trap:
                trap.place = printed, self.numbers[routine.name][id(statement)]
                raise

        worth = lambda expression: here(lambda: value(expression, read))
        # (the index of an element comes before the right side)
        target = lambda it: here(lambda: it.place(read)) if isinstance(it, Element) else it.place
        go = lambda body: self.run_all(routine, body or [], path, printed, moment)
        if isinstance(statement, Assign):
            place = target(statement.target)
            self.write(path, place, worth(statement.right))
        elif isinstance(statement, If):
            go(next((body for test, body in statement.branches if worth(test)), statement.otherwise))
        elif isinstance(statement, Case):
            number = worth(statement.selector)
            fits = lambda labels: any(low <= number <= high for low, high in labels)
            go(next((body for labels, body in statement.choices if fits(labels)), statement.otherwise))
        elif isinstance(statement, For):
            first, last = value(statement.first, None), value(statement.last, None)
            step = 1 if statement.step is None else value(statement.step, None)
            for number in range(first, last + (1 if step > 0 else -1), step):
                self.write(path, statement.control.place, number)
                go(statement.body)
        elif isinstance(statement, Call):
            self.call(routine, statement, path, printed, moment, worth)

    def call(self, routine, statement, path, printed, moment, worth):
        below = path + (statement.instance.lower(),)
        for name, given in statement.arguments:
            if not isinstance(given, tuple):
                self.values[below + (name.lower(),)] = worth(given)
        if statement.block in STANDARD:
            on = "clk" if statement.block == "R_TRIG" else "in"
            preset = self.values.get(below + ("pt",), 0)
            self.calls[below].add(statement.block, bool(self.values[below + (on,)]), preset, moment)
        else:
            declared = next(name for name, _ in routine.instances if name.lower() == statement.instance.lower())
            self.run(self.plant.blocks[statement.block], below, f"{printed}.{declared}", moment)
        for name, taken in statement.arguments:
            if isinstance(taken, tuple):
                output = self.read(path, ("output", statement.instance.lower(), name.lower()))
                self.write(path, taken[0].place, output)

    # ---- scans

    def image(self, pairs):
        """The inputs' numbers, or why they are refused: all names before all values."""
        names = [name.lower() for name, _ in pairs]
        if len(set(names)) < len(names) or any(self.globals.get(name, (0, 0, 0))[2] != "I" for name in names):
            return "E3"
        image = []
        for name, text in pairs:
            kind = self.globals[name.lower()][1]
            truth = {"TRUE": 1, "FALSE": 0}.get(text.upper())
            number = int(text) if truth is None else truth
            fits = number in (0, 1) if kind == BOOL else truth is None and RANGES[kind][0] <= number <= RANGES[kind][1]
            if not fits:
                return "E4"
            image.append((name.lower(), number))
        return image

    def scan(self, moment, pairs):
        image = "E2" if moment > LAST_MOMENT else "E1" if moment < self.moment else self.image(pairs)
        if not isinstance(image, str) and self.events == MOST_EVENTS:
            image = "E6"
        if isinstance(image, str):
            return [f"REFUSED {image}"]
        self.events += 1
        before = {name: self.values["global", name] for name in self.globals}
        for name, number in image:
            self.values["global", name] = number
        lines = self.run_programs(moment)
        self.moment = moment
        lines += self.step_alarms(moment)
        for name, (declared, kind, region) in self.globals.items():
            now = self.values["global", name]
            if region == "Q" and now != before[name]:
                lines.append(f"OUT {moment} {declared} {('FALSE', 'TRUE')[now] if kind == BOOL else now}")
        return lines + [f"DONE {moment} {len(lines)}"]

    def run_programs(self, moment):
        lines = []
        for at, program in enumerate(self.plant.programs):
            if self.faulted[at]:
                continue
            try:
                self.run(program, (program.name.lower(),), program.name, moment)
            except Trap as trap:
                self.faulted[at] = True
                path, statement = trap.place
                lines.append(f"FAULT {moment} {path} {statement} {trap.kind}")
                self.note(moment, f"FAULT {path} {statement} {trap.kind}")
        return lines

    def step_alarms(self, moment):
        lines = []
        for alarm in self.alarms:
            row, old = alarm.row, alarm.state
            alarm.scans.add(bool(self.values["global", row.condition.lower()]), moment)
            alarm.condition = alarm.scans.condition(row.delay)
            alarm.suppressed = bool(row.suppress and self.values["global", row.suppress.lower()])
            alarm.state = after_scan(old, row.latching, alarm.end, alarm.condition, alarm.suppressed, moment)
            lines += self.changed(moment, row.tag, old, alarm.state)
        return lines

    def changed(self, moment, tag, old, new):
        if old == new:
            return []
        self.note(moment, f"ALARM {tag} {old} {new}")
        return [f"ALARM {moment} {tag} {old} {new}"]

    # ---- orders and listings

    def order(self, verb, console, target, time=None):
        if self.events == MOST_EVENTS:
            return ["REFUSED E6"]
        self.events += 1
        areas = dict(self.plant.consoles).get(console)
        name, reply, lines = "?", "O1", []
        if verb == "restart":
            for at, program in enumerate(self.plant.programs):
                if program.name.lower() == target.lower():
                    name = program.name
                    reply = "O2" if areas is None else "OK" if self.faulted[at] else "O5"
                    self.faulted[at] = self.faulted[at] and reply != "OK"
            self.note_order(console, verb, name, time, reply)
            return [f"REPLY {reply}"]
        for alarm in self.alarms:
            if alarm.row.tag == target:
                name, old, new = target, alarm.state, None
                reply = "O2"
                if areas is not None and alarm.row.area in areas:
                    new, refused = alarm.ordered(verb, time, self.moment)
                    reply = refused or "OK"
                self.note_order(console, verb, name, time, reply)
                if new is not None:
                    alarm.state = new
                    lines = self.changed(self.moment, target, old, new)
                return [f"REPLY {reply}"] + lines
        self.note_order(console, verb, name, time, reply)
        return [f"REPLY {reply}"]

    # ---- reloads

    def reload(self, *texts):
        """Goes on with the plant of these texts, or says why not; then nothing has changed."""
        try:
            plant = self.reads(*texts)
        except files.Refused as refused:
            return [refused.args[0]]
        refused = self.reload_refused(plant)
        if refused:
            return [f"REFUSED {refused}"]
        new = Server(plant, self.reads)
        kept = reloads.carry(self, new)
        new.moment, new.events, new.rows = self.moment, self.events + 1, self.rows
        told = f"KEPT {kept} NEW {len(new.alarms) - kept}"
        new.note(new.moment, f"RELOAD {told}")
        vars(self).update(vars(new))
        return [f"RELOADED {told}"]

    def reload_refused(self, plant):
        if [number for number, _ in plant.consoles] != [number for number, _ in self.plant.consoles]:
            return "E7"
        if plant.epoch != self.plant.epoch:
            return "E8"
        return "E6" if self.events == MOST_EVENTS else None

    def note(self, moment, text):
        stamp = (self.begun + datetime.timedelta(milliseconds=moment)).isoformat(timespec="milliseconds")
        self.rows.append(f"{len(self.rows) + 1} {stamp}Z {text}")

    def note_order(self, console, verb, name, time, reply):
        self.note(self.moment, " ".join(["ORDER", str(console), verb, name] + ([] if time is None else [str(time)]) + [reply]))

    def journal(self):
        return self.rows + [f"END {len(self.rows)}"]

    def list(self):
        lines = [f"STATE {it.row.tag} {it.state} {it.row.priority}" for it in self.alarms if it.state != "NORM"]
        for area in self.plant.areas:
            for priority in range(1, 5):
                for code in CODES:
                    is_one = lambda it: (it.row.area, it.row.priority, it.state) == (area, priority, code)
                    count = sum(is_one(it) for it in self.alarms)
                    if count:
                        lines.append(f"COUNT {area} {priority} {code} {count}")
        return lines + [f"END {len(lines)}"]
