"""Plants and inputs to measure the server on. Each function writes a plant's files into a folder, and gives the lines of its input."""

import os
import random

AREAS = [f"area{n:02}" for n in range(64)]
HEAD = "tag,area,priority,condition,suppress,latch,max_shelve_ms,text\n"
HEAD_WITH_DELAYS = HEAD.replace(",text", ",on_delay_ms,text")

BLOCKS = """FUNCTION_BLOCK Filter
  VAR_INPUT x, gain : DINT; END_VAR
  VAR_OUTPUT y : DINT; END_VAR
  VAR acc : DINT; END_VAR
  acc := acc + (x - acc) * gain / 100;
  y := acc;
END_FUNCTION_BLOCK
FUNCTION_BLOCK Hyst
  VAR_INPUT x, low, high : DINT; END_VAR
  VAR_OUTPUT q : BOOL; END_VAR
  IF x > high THEN q := TRUE; ELSIF x < low THEN q := FALSE; END_IF;
END_FUNCTION_BLOCK
"""

# costs 98, and 105 more for each of TURNS
PROGRAM = """PROGRAM prog@
  VAR i, j, sum, mode, cnt : DINT; el : TIME; hot : BOOL; f : Filter; h : Hyst; t : TON; o : TOF; r : R_TRIG; END_VAR
  f(x := x@, gain := 30);
  sum := 0;
  FOR i := 1 TO TURNS DO
    sum := (sum * 3 + i * i - x@) MOD 10007;
    IF sum < 0 THEN sum := sum + 10007; END_IF;
    FOR j := 0 TO 3 DO
      IF (sum + j) MOD 4 = 1 AND NOT hot THEN cnt := cnt + 1; ELSE cnt := (cnt + j) MOD 1000; END_IF;
    END_FOR;
  END_FOR;
  mode := (sum / 100 + x@) MOD 8;
  CASE mode OF
    0: y@ := f.y + sum;
    1, 2: y@ := f.y - sum;
    3: y@ := sum * 2;
    4..6: y@ := (f.y * 7 + sum) / 3;
    ELSE y@ := cnt;
  END_CASE;
  h(x := f.y, low := 300, high := 700, q => hot);
  t(IN := b@ AND hot, PT := T#250ms);
  o(IN := t.Q, PT := T#500ms, ET => el);
  r(CLK := o.Q);
  IF r.Q THEN s@ := s@ + 1; END_IF;
  q@ := o.Q OR (el > T#0.1s) XOR hot;
  c@ := hot AND b@;
END_PROGRAM
"""


def write(folder, name, text):
    with open(os.path.join(folder, name), "w") as file:
        file.write(text)


def listed(texts):
    return "[" + ", ".join(f'"{text}"' for text in texts) + "]"


def plant_file(folder, sources=("p.st",), areas=AREAS, consoles=4):
    """plant.toml. The first console may order every alarm, the others a quarter of the areas each."""
    text = f'name = "bench"\nepoch = "2024-01-01T00:00:00Z"\nareas = {listed(areas)}\nsources = {listed(sources)}\nalarms = "alarms.csv"\n'
    for number in range(consoles):
        theirs = areas if number == 0 else areas[number * 16 : number * 16 + 16]
        text += f"[[console]]\nnumber = {number + 1}\nareas = {listed(theirs)}\n"
    write(folder, "plant.toml", text)


def tag_of(number):
    return f"{chr(65 + number % 26)}-PT{number:05}.HI"


def alarm_file(folder, count, condition, suppress=lambda n: "", latch=lambda n: "FALSE", delay=None):
    """alarms.csv with so many alarms, over all areas; with a column of delays where there is a `delay`. Gives their tags."""
    rows = [HEAD if delay is None else HEAD_WITH_DELAYS]
    for n in range(count):
        area, waits = AREAS[n * 64 // max(count, 1)], "" if delay is None else f",{delay(n)}"
        rows.append(f"{tag_of(n)},{area},{n % 4 + 1},{condition(n)},{suppress(n)},{latch(n)},3600000{waits},Pressure of vessel {n} above its limit\n")
    write(folder, "alarms.csv", "".join(rows))
    return [tag_of(n) for n in range(count)]


def turns(folder):
    """A program with one FOR of 10,000 turns."""
    plant_file(folder, areas=[], consoles=0)
    write(folder, "alarms.csv", HEAD)
    write(folder, "p.st", "VAR_GLOBAL n AT %QD0 : DINT; END_VAR\nPROGRAM p VAR i : DINT; END_VAR n := 0; FOR i := 1 TO 10000 DO n := n + 1; END_FOR; END_PROGRAM\n")
    return [f"scan {n}" for n in range(2000)]


def logic(folder, scans=20000, turns=40, programs=64):
    """Programs with nested loops, a CASE, blocks and timers, which share nothing. Some eight inputs change in a scan."""
    dice = random.Random(1)
    plant_file(folder)
    declared = "".join(
        f"  x{n} AT %ID{n} : DINT; b{n} AT %IX{n}.0 : BOOL; y{n} AT %QD{n} : DINT; q{n} AT %QX{n}.0 : BOOL; c{n} : BOOL; s{n} : DINT;\n" for n in range(programs)
    )
    bodies = "".join(PROGRAM.replace("TURNS", str(turns)).replace("@", str(n)) for n in range(programs))
    write(folder, "p.st", f"VAR_GLOBAL\n{declared}END_VAR\n{BLOCKS}{bodies}")
    write(folder, "alarms.csv", HEAD + "".join(f"T{n},{AREAS[n % 64]},1,c{n},,FALSE,1000,x\n" for n in range(programs)))
    lines = []
    for scan in range(scans):
        words = ["scan", str(scan * 10)]
        for n in sorted(dice.sample(range(programs), min(8, programs))):
            words.append(f"x{n}={dice.randrange(0, 1000)}")
            if dice.random() < 0.3:
                words.append(f"b{n}={int(dice.random() < 0.7)}")
        lines.append(" ".join(words))
    return lines


def alarms(folder, count=20000, scans=1000, delay=None):
    """Scans that change a hundredth of the alarms, and after each up to 100 orders."""
    dice = random.Random(1)
    plant_file(folder)
    inputs = "".join(f"c{n} AT %IX{n // 8}.{n % 8} : BOOL;\n" for n in range(count))
    suppressions = "".join(f"s{n} AT %MX{n}.0 : BOOL;\n" for n in range(64))
    write(folder, "p.st", f"VAR_GLOBAL\n{inputs}{suppressions}END_VAR\n")
    tags = alarm_file(folder, count, lambda n: f"c{n}", lambda n: f"s{n % 64}" if n % 10 == 0 else "", lambda n: "TRUE" if n % 3 == 0 else "FALSE", delay)
    values, lines = [0] * count, []
    for scan in range(scans):
        changed = dice.sample(range(count), max(1, count // 100))
        for n in changed:
            values[n] ^= 1
        lines.append(f"scan {scan * 100} " + " ".join(f"c{n}={values[n]}" for n in changed))
        lines += [f"ack 1 {tags[n]}" for n in changed[:100]]
    return lines


def changes(folder, count=20000, scans=500, delay=None):
    """Each scan changes the condition of every alarm."""
    plant_file(folder)
    conditions = "".join(f"c{n} : BOOL;\n" for n in range(64))
    body = "".join(f"c{n} := b;\n" for n in range(64))
    write(folder, "p.st", f"VAR_GLOBAL b AT %IX0.0 : BOOL;\n{conditions}END_VAR\nPROGRAM p\n{body}END_PROGRAM\n")
    alarm_file(folder, count, lambda n: f"c{n % 64}", delay=delay)
    return [f"scan {scan * 100} b={1 - scan % 2}" for scan in range(scans)]


def due(folder, count=20000):
    """All alarms have their condition from the first scan on, and in each scan after it the delay of one ends."""
    plant_file(folder)
    write(folder, "p.st", "VAR_GLOBAL b AT %IX0.0 : BOOL; END_VAR\n")
    alarm_file(folder, count, lambda n: "b", delay=lambda n: n * 7919 % count + 1)
    return ["scan 0 b=1"] + [f"scan {n}" for n in range(1, count + 1)]


def orders(folder, count=20000, orders=300000):
    """Random orders, for alarms that are there and a few that aren't."""
    dice = random.Random(1)
    plant_file(folder)
    write(folder, "p.st", "VAR_GLOBAL b AT %IX0.0 : BOOL; c : BOOL; END_VAR\nPROGRAM p c := b; END_PROGRAM\n")
    tags = alarm_file(folder, count, lambda n: "c", latch=lambda n: "TRUE" if n % 3 == 0 else "FALSE")
    lines = ["scan 0 b=1"]
    for _ in range(orders):
        verb = dice.choice(["ack", "ack", "reset", "shelve", "unshelve", "remove", "return"])
        words = [verb, str(dice.choice([1, 1, 1, 2, 5])), dice.choice(tags) if dice.random() < 0.98 else "NOBODY"]
        if verb == "shelve":
            words.append(str(dice.randrange(1, 3700000)))
        lines.append(" ".join(words))
    return lines


def statement(dice, source, program, name):
    """A statement of one of six kinds."""
    kind = dice.randrange(6)
    if kind == 0:
        return "  flow := level * 3 / 7 + (setpoint - flow) MOD 16#FF; // balance\n"
    if kind == 1:
        return f"  IF level > {dice.randrange(9999)} AND flow <= setpoint THEN setpoint := setpoint / 2; ELSE flow := -flow MOD 977; END_IF;\n"
    if kind == 2:
        return f"  CASE flow OF 1, 2, 5..9: level := in{source}; -3: level := level MOD {dice.randrange(1, 999)}; ELSE level := 0; END_CASE;\n"
    if kind == 3:
        return f"  FOR i := 1 TO {dice.randrange(2, 20)} DO j := (j + i * k) MOD 1013; END_FOR; (* sum of the parts *)\n"
    if kind == 4:
        return f"  t1(IN := flow > level, PT := T#1m_{dice.randrange(60)}s, ET => el); /* guard */\n"
    return f"  {name(source * 40 + program * 5 + dice.randrange(5))} := level > {dice.randrange(9999)};\n"


def large(folder, count=20000):
    """64 sources of some 65,500 bytes with 512 programs, names of 200 bytes, and 14.5 MB of alarms."""
    dice = random.Random(1)
    padding = ("condition_of_vessel_and_its_upper_limit_" * 5)[:200]

    def name(n):
        return f"c{n:05}_{padding}"

    sources, budget = [], 65536 - 40
    for source in range(64):
        pieces = ["VAR_GLOBAL\n"] + [f"  {name(source * 40 + n)} : BOOL;\n" for n in range(40)]
        pieces.append(f"  in{source} AT %ID{source} : DINT; out{source} AT %QD{source} : DINT; (* of source {source} *)\nEND_VAR\n")
        for program in range(8):
            pieces.append(f"PROGRAM unit_{source}_{program}\n  VAR level, flow, setpoint, i, j, k : DINT; t1, t2 : TON; el : TIME; END_VAR\n")
            room, used = (budget - sum(map(len, pieces))) // (8 - program) - 20, 0
            while used + len(line := statement(dice, source, program, name)) <= room:
                pieces.append(line)
                used += len(line)
            pieces.append("END_PROGRAM\n")
        sources.append(f"s{source:02}.st")
        write(folder, sources[-1], "".join(pieces))
    plant_file(folder, sources)
    rows = [HEAD]
    for n in range(count):
        latch = "TRUE" if n % 3 else "FALSE"
        said = f'Say ""high"" of vessel {n:05} ' + '""x"" ' * 40
        rows.append(f'{tag_of(n)},{AREAS[n % 64]},{n % 4 + 1},{name(n % 2560)},{name(n * 7 % 2560)},{latch},3600000,"{said}"\n')
    write(folder, "alarms.csv", "".join(rows))


# what each of the programs of `arrays` does with its array
TOUCHES = {"untouched": "y@ := s;", "read": "y@ := w@[1] + s;", "assigned": "w@[1] := s;"}


def arrays(folder, programs, touch, scans):
    """Programs with a FOR each, and as many arrays of 4,096 elements, of which each program reads or assigns an element, or none."""
    plant_file(folder, areas=[], consoles=0)
    write(folder, "alarms.csv", HEAD)
    declared = "".join(f"  w{n} : ARRAY[1..4096] OF DINT; y{n} : DINT;\n" for n in range(programs))
    body = f"PROGRAM prog@\n  VAR i, s : DINT; END_VAR\n  FOR i := 1 TO 2000 DO s := (s * 3 + i) MOD 10007; END_FOR;\n  {TOUCHES[touch]}\nEND_PROGRAM\n"
    write(folder, "p.st", f"VAR_GLOBAL\n{declared}END_VAR\n" + "".join(body.replace("@", str(n)) for n in range(programs)))
    return [f"scan {n}" for n in range(scans)]


def still(folder, variables, alarms, outputs):
    """A plant without programs, in which no scan changes anything."""
    plant_file(folder)
    declared = "".join(f"c{n} : BOOL;\n" for n in range(variables)) + "".join(f"o{n} AT %QX{n}.0 : BOOL;\n" for n in range(outputs))
    write(folder, "p.st", f"VAR_GLOBAL\n{declared}END_VAR\n")
    alarm_file(folder, alarms, lambda n: f"c{n}")
