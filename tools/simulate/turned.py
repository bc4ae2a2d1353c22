"""Turns a rule of the model, one for each run of stations, and says whether it shows."""
import os, shutil, subprocess, sys, tempfile
program, count = sys.argv[1], sys.argv[2]
TURNS = [
    ("answers have 65 places", "len(rings.answers) == PLACES", "len(rings.answers) == PLACES + 1", []),
    ("orders have 63 places", "room = 0 if rings is None else PLACES - len(rings.orders)", "room = 0 if rings is None else 63 - len(rings.orders)", []),
    ("63 orders of a console a turn", "MOST_ORDERS = 64", "MOST_ORDERS = 63", []),
    ("consoles from the last to the first", "for console, rings in self.consoles.items():\n            for _ in", "for console, rings in reversed(self.consoles.items()):\n            for _ in", []),
    ("the last answer first", "rings.answers.popleft()}", "rings.answers.pop()}", []),
    ("a refused order is no event of the board", 'self.say(f"BOARD {self.server.events} ', 'self.say(f"BOARD {sum(1 for r in self.server.rows if not r[-2:].startswith(chr(79)))} ', []),
    ("a refused scan takes orders", '            return self.say(lines[0])\n        for it in lines', '            self.take(None)\n            return self.say(lines[0])\n        for it in lines', []),
    ("a scan that is refused for memory is an event", 'self.refused += 1\n', 'self.refused += 1\n            self.server.events += 1\n', ["--refuse", "10"]),
    ("a stopped turn loses the order", "if taken == most or self.server.events == MOST_EVENTS:\n                    return", "if taken == most or self.server.events == MOST_EVENTS:\n                    rings.orders.popleft()\n                    return", ["--refuse", "10"]),
    ("a stopped turn goes on with the next console", "return taken, True", "break", ["--refuse", "10"]),
    ("workers stay one round more", "self.asked > self.left", "self.asked > self.left + 1", []),
]
for name, old, new, more in TURNS:
    with tempfile.TemporaryDirectory() as room:
        shutil.copytree(os.path.join(os.path.dirname(os.path.abspath(__file__)), os.pardir, os.pardir, "tools"), f"{room}/tools")
        path = f"{room}/tools/simulate/rings.py"
        text = open(path).read()
        assert text.count(old) >= 1, name
        open(path, "w").write(text.replace(old, new))
        ran = subprocess.run([sys.executable, f"{room}/tools/simulate/stations.py", program, "--stations", count, "--keep", f"{room}/kept", *more], capture_output=True, text=True)
        differences = [line for line in ran.stdout.split("\n") if "differences" in line]
        print(f"{name}: {differences[0].strip() if differences else ran.stderr[-300:]}", flush=True)
