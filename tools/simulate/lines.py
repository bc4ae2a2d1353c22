"""Random lines for a plant that is served, answered by the second reading as they are made."""

import folders
import protocol
import reloads
from edits import edited
from language import BOOL, RANGES
from server import LAST_MOMENT, MOST_EVENTS

NO_COMMAND = [b"scan", b"ack 1", b"list 1", b"Scan 0", b"scan 1 a", b"scan 1 1a=2", b"ack x T", b"shelve 1 T", b"restart", b"scan -1", b"ack 1234567890 T"]
NO_COMMAND += [b"scan 1 a=+1", b"scan 1 a=1.5", b"journal x", b"\0", b"scan\x0b1", b"scan 1 a=\xc3\xa9", b"\xff\xfe", b"ack 1 T 5", b"scan 1 a==1", b"scan 1 =1"]
NO_COMMAND += [b"\xef\xbb\xbflist", b"ack 1\xc2\xa0T", b"scan 1 a=T#5s", b"scan 1 a=16#FF", b"scan 99999999999999999999", b"shelve 1 T 99999999999999999999", b"ack  1"]
NO_COMMAND += [b"scan 1 a=12345678901234567890", b"scan 1 a = 5", b"ACK 1 T", b"\r", b"list\r", b"LIST", b"quit", b"scan 1 a=1\0", b"shelve 1 T -1", b"unshelve 1 T 5"]
NOTHING = [b"", b" ", b"\t \t", b"#", b"# a remark", b"\t#scan 5", b"#\0\xff\r", b"   #ack 1 T"]
PIECES = [b"\0", b"\r", b"\t", b" ", b"  ", b"\xff", b"\xc3\xa9", b"#", b"=", b"-", b"0", b"9", b"TRUE", b"\n", b"\x0c", b"\xc2\xa0", b"\x7f", b"scan", b"ack", b"restart 1 "]
NO_RELOAD = [b"reload", b"reload 5", b"reload 1048577 0", b"reload 0 16777217", b"reload 0 0 4194305", b"reload 0 0 4194304 1", b"reload 000000001 0", b"reload 0 0 000000000"]
NO_RELOAD += [b"reload -1 0", b"RELOAD 0 0", b"reload 0 0 x", b"reload 0x5 0", b"reload 0 0" + b" 0" * 65, b"reload 0 0\0", b"reload 0 0\r", b"reload 99999999 0", b"reload 0 99999999 5"]
LENGTHS = [65_534, 65_535, 65_536, 65_537, 131_072, 1_048_574, 1_048_575, 1_048_576, 1_048_577, 1_048_578, 1_048_579, 1_300_000, 2_200_000]
MONTH = 2_592_000_000


class Lines:
    """The parts of an input, each mostly one line with its end, and the bytes that answer each."""

    def __init__(self, some, plant, server, longest):
        self.some, self.server, self.longest = some, server, longest
        self.parts, self.answers, self.copies = [], [], {}
        self.serve(plant)

    def serve(self, plant):
        """Goes on with a plant."""
        self.plant = plant
        self.inputs = [(name, kind) for name, kind, region, _ in plant.globals if region == "I"]
        self.edges = sorted({0, 1, *(row.longest for row in plant.alarms), MONTH})

    def make(self, count, copied=()):
        """Makes so many parts. The server is copied before each part whose number is in `copied`."""
        for at in range(count):
            if at in copied:
                self.copies[at] = self.server.copy()
            end = self.some.choice([b"\n"] * 8 + [b"\r\n"] * 2 + [b"\r\r\n"] * (self.some.random() < 0.05))
            if at == count - 1 and self.some.random() < 0.3:
                end = self.some.choice([b"", b"", b"\r"])
            part = self.line() + end
            self.parts.append(part)
            self.answers.append(protocol.answers(self.server, part))
            if self.server.plant is not self.plant:
                self.serve(self.server.plant)

    def line(self):
        some, pick = self.some, self.some.random()
        if self.server.reads is not None and some.random() < 0.05:
            return self.reload()
        if some.random() < self.longest:
            return self.long_line()
        if pick < 0.46:
            return self.scan()
        if pick < 0.82:
            return self.order()
        if pick < 0.86:
            return b"list"
        if pick < 0.875:
            return b"journal"
        if pick < 0.90:
            return some.choice(NOTHING)
        if pick < 0.93:
            return some.choice(NO_COMMAND)
        return self.spoiled(self.scan() if some.random() < 0.5 else self.order())

    def spoiled(self, line):
        """A line with a few bytes changed, dropped or put in: it may be a command still, and may have become two lines."""
        some = self.some
        for _ in range(some.choice([1, 1, 2, 3])):
            at = some.randrange(len(line) + 1)
            pick = some.random()
            if pick < 0.4:
                line = line[:at] + some.choice(PIECES) + line[at:]
            elif pick < 0.6:
                line = line[:at] + line[at + some.choice([1, 1, 2, 5]) :]
            elif pick < 0.8:
                line = line[:at] + bytes([some.randrange(256)]) + line[at + 1 :]
            else:
                line = line[:at] + line[at : at + 1].swapcase() + line[at + 1 :]
        return line

    def long_line(self):
        """A line about as long as what is read at once, or as a line may be."""
        some, length = self.some, self.some.choice(LENGTHS)
        line = some.choice([self.scan(), self.order(), b"list", b"#", b"", b"scan 5" + b" a=1" * 300_000, b"\0" * length, b"x" * length])
        line = line[:length]
        return some.choice([line + b" " * (length - len(line)), b"\t" * (length - len(line)) + line])

    # ---- reloads

    def reload(self):
        """A reload with its body; or a line that is none, and what would be its body is lines then."""
        some = self.some
        text = self.reload_of(edited(some, self.plant))
        if some.random() < 0.05:
            return some.choice(NO_RELOAD) + b"\n" + text.partition(b"\n")[2]
        return text

    def reload_of(self, plant):
        """A reload of a plant, now and then with a file that is cut or changed, or with a source too many or too few."""
        some = self.some
        while True:
            # (Python's own reader of TOML doesn't know what is new in TOML 1.1. A plant of many consoles would hardly be without it by chance.)
            texts = folders.Texts(some, plant, may_be_newer=False)
            folder = folders.Folder(some, texts)
            if some.random() < 0.2:
                name = some.choice(["plant.toml", texts.alarms, *texts.sources])
                (folder.cut if name in texts.sources or some.random() < 0.5 else folder.change)(name)
            if not folder.is_newer:
                break
        sources = [folder.texts[name] for name in texts.sources]
        if some.random() < 0.03:
            sources = some.choice([sources[1:], sources + [b""], sources + sources[:1]])
        words = self.joined(["reload"] + [some.choice([f"{len(it)}"] * 5 + [f"{len(it):08}"]) for it in (folder.texts["plant.toml"], folder.texts[texts.alarms], *sources)])
        return words + some.choice([b"\n", b"\n", b"\r\n"]) + b"".join((folder.texts["plant.toml"], folder.texts[texts.alarms], *sources))

    # ---- scans

    def moment(self):
        some, last = self.some, self.server.moment
        ends = [alarm.end for alarm in self.server.alarms if alarm.state == "SHELVED"]
        due = [alarm.due() for alarm in self.server.alarms if alarm.due() is not None and alarm.due() >= last]
        if some.random() < 0.5 or not ends:
            ends = due or ends
        pick = some.random()
        if ends and pick < 0.2:
            return max(0, some.choice(ends) + some.choice([-1, 0, 0, 1]))
        if pick < 0.94:
            return last + some.choice([0, 1, 5, 5, 5, 10, 10, 20, 30, 100, 1000, 60_000])
        if pick < 0.97:
            return max(0, last - some.choice([1, 1, 2, 100, 10**9]))
        if pick < 0.98:
            return last + MONTH
        if pick < 0.99:
            return some.choice([LAST_MOMENT + 1, LAST_MOMENT + 1, 2**32, 2**63, 2**64, 9_999_999_999_999_999_999])
        return some.choice([0, LAST_MOMENT if some.random() < 0.1 else last, LAST_MOMENT - 1 if some.random() < 0.1 else last])

    def given(self, kind):
        some = self.some
        if some.random() < 0.015:
            return some.choice(["2", "TRUE", "9223372036854775808", "-9223372036854775809", "2147483648", "-2147483649", "-1", "false"])
        if kind == BOOL:
            return some.choice(["0", "1", "1", "TRUE", "false", "tRuE", "0001", "-0"])
        number = some.choice([0, 1, -1, 5, 7, 10, *RANGES[kind], some.randrange(-20, 20), some.randrange(-(2**31), 2**31)])
        return some.choice([str(number)] * 5 + [f"{'-' * (number < 0)}{abs(number):05}"])

    def scan(self):
        some, inputs = self.some, self.inputs
        most = some.choice([1, 2, 3, len(inputs)])
        pairs = [(some.choice([name, name, name.upper(), name.lower()]), self.given(kind)) for name, kind in some.sample(inputs, min(len(inputs), some.randrange(most + 1)))]
        if some.random() < 0.02:
            pairs.append((some.choice([it[0] for it in self.plant.globals] + [it.text for it in self.plant.arrays] + ["nothing", "AND", "_"]), some.choice(["1", "TRUE"])))
        if pairs and some.random() < 0.01:
            pairs.append((pairs[0][0].swapcase(), pairs[0][1]))
        some.shuffle(pairs)
        return self.joined([f"scan {some.choice(['', '', '', '00'])}{self.moment()}"] + [f"{name}={text}" for name, text in pairs])

    def joined(self, words):
        some = self.some
        gap = some.choice([" "] * 8 + ["\t", "  ", " \t "])
        return (some.choice([""] * 9 + [" "]) + gap.join(words) + some.choice([""] * 9 + [gap])).encode()

    # ---- orders

    def order(self):
        some, plant = self.some, self.plant
        verb = some.choice(["ack", "ack", "ack", "reset", "shelve", "shelve", "unshelve", "remove", "return", "return", "restart"])
        stopped = [it.name for it, faulted in zip(plant.programs, self.server.faulted) if faulted]
        if stopped and some.random() < 0.5:
            verb = "restart"
        if verb == "restart":
            target = self.program(stopped)
        else:
            target = self.tag(verb)
        words = [verb, self.console(target), target]
        if verb == "shelve":
            words.append(str(self.time()))
        return self.joined(words)

    def program(self, stopped):
        some = self.some
        names = stopped or [it.name for it in self.plant.programs]
        name = some.choice(names) if names and some.random() < 0.97 else "nobody"
        return some.choice([name, name, name.upper(), name.lower()])

    def tag(self, verb):
        """A tag, mostly one whose state takes the order."""
        some, alarms = self.some, self.server.alarms
        takes = {"ack": ("UNACK", "RTNUN", "LATUN"), "reset": ("LATAK",), "unshelve": ("SHELVED",), "return": ("OOS",)}
        fit = [it.row.tag for it in alarms if it.state in takes.get(verb, (it.state,))]
        tags = fit if fit and some.random() < 0.7 else [it.row.tag for it in alarms]
        if not tags or some.random() < 0.03:
            return some.choice(["nobody", "?", "T", *(tag.swapcase() for tag in tags[:1])])
        return some.choice(tags)

    def console(self, target):
        """A console's number, mostly of one that may order the alarm."""
        some, consoles = self.some, self.plant.consoles
        area = next((row.area for row in self.plant.alarms if row.tag == target), None)
        fit = [number for number, areas in consoles if area in areas]
        pick = some.random()
        if fit and pick < 0.8:
            number = some.choice(fit)
        elif consoles and pick < 0.95:
            number = some.choice(consoles)[0]
        else:
            number = some.choice([0, some.randrange(8), 999_999_999])
        return some.choice([str(number)] * 9 + [f"{number:09}"])

    def time(self):
        some = self.some
        if some.random() < 0.6:
            return some.choice([1, 5, 20, 50, 100])
        return max(0, some.choice(self.edges) + some.choice([-1, 0, 0, 1])) if some.random() < 0.9 else some.choice([2**63, 2**64, 9_999_999_999_999_999_999])


class Flood:
    """The parts of a cheap input that fills the history and goes on for a few lines, and their answers. Where the server has reloads, two come as the history fills: they are the last event or the last
    but one, or there is no more room for them."""

    LAST = [b"scan 1\n", b"ack 1 nobody\n", b"list\n", b"journal\n", b"scan 0 nothing=1\n", b"shelve 1 nobody\n", b"restart 1 nobody\n", b"restart 1 nobody"]

    def __init__(self, some, plant, server):
        self.copies = {0: server.copy()}
        tags = [row.tag for row in plant.alarms] or ["nobody"]
        lines = [f"ack {console} {some.choice(tags)}\n".encode() for console in range(5)] + [b"restart 1 nobody\n", b"unshelve 1 \xff\n"]
        self.parts = [lines[at % len(lines)] for at in range(MOST_EVENTS - some.randrange(3))]
        if server.reads is not None:
            self.parts += [Lines(some, plant, server, 0).reload_of(plant) + b"\n" for _ in range(2)]
        self.parts += self.LAST
        self.answers = [protocol.answers(server, part) for part in self.parts]
