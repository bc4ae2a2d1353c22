"""Files and commands that are large, or made to be hard to read. Each is made at its whole size or at half of it."""

from inputs import HEAD

PLANT = 'name = "P"\nepoch = "2024-01-01T00:00:00Z"\nareas = ["north"]\nsources = [{sources}]\nalarms = "alarms.csv"\n[[console]]\nnumber = 1\nareas = ["north"]\n'
SOURCE = "VAR_GLOBAL c : BOOL; END_VAR\n"
MEGA = 1_048_576


def filled(piece, size):
    """A text of a piece again and again, of at most so many bytes."""
    return piece * (size // len(piece))


def short(number):
    """A name of five bytes, for each number up to 1,679,615 another."""
    digits = "0123456789abcdefghijklmnopqrstuvwxyz"
    return "g" + "".join(digits[number // 36**n % 36] for n in (3, 2, 1, 0))


def files(sources=(SOURCE,), alarms=HEAD, plant=None):
    """The files of a plant, by name."""
    names = [f"s{n:02}.st" for n in range(len(sources))]
    made = dict(zip(names, sources))
    made["plant.toml"] = PLANT.format(sources=", ".join(f'"{name}"' for name in names)) if plant is None else plant
    made["alarms.csv"] = alarms
    return made


def plant_files(size):
    """plant.toml, filled to a size behind keys that are right."""
    right = PLANT.format(sources="")
    room = size - len(right) - 200
    yield "plant.toml: one comment", files((), plant="#" + "x" * room + "\n" + right)
    yield "plant.toml: empty lines", files((), plant="\n" * room + right)
    yield "plant.toml: one string as the name", files((), plant=right.replace('"P"', '"' + "x" * room + '"'))
    yield "plant.toml: escapes in the name", files((), plant=right.replace('"P"', '"' + filled("\\u0061", room) + '"'))
    yield "plant.toml: opening brackets", files((), plant="a = " + "[" * room + "\n" + right)
    yield "plant.toml: a key of dots", files((), plant=filled("a.", room) + "a = 1\n" + right)
    yield "plant.toml: inline tables, one in another", files((), plant="a = " + filled("{a=", room) + "\n" + right)
    yield "plant.toml: keys that no plant file has", files((), plant="".join(f"k{n:06} = 1\n" for n in range(room // 13)) + right)
    yield "plant.toml: areas", files((), plant=right.replace('areas = ["north"]\nsources', "areas = [" + ",".join(f'"a{n:06}"' for n in range(room // 10)) + "]\nsources"))


def alarm_files(size):
    """alarms.csv."""
    count = 20000 * size // (16 * MEGA)
    yield "alarms.csv: 20,000 alarms", files(alarms=HEAD + "".join(f"T{n},north,1,c,,FALSE,1000,x\n" for n in range(count)))
    yield "alarms.csv: texts of 760 bytes", files(alarms=HEAD + "".join(f"T{n},north,1,c,,FALSE,1000,{'x' * 760}\n" for n in range(count)))
    yield "alarms.csv: tags of 705 bytes", files(alarms=HEAD + "".join(f"{'T' * 700}{n:05},north,1,c,,FALSE,1000,x\n" for n in range(count)))
    row = "T,north,1,c,,FALSE,1000,"
    yield "alarms.csv: one field of quotes", files(alarms=HEAD + row + '"' + '""' * (size // 2 - 100) + '"\n')
    yield "alarms.csv: a quote that isn't closed", files(alarms=HEAD + row + '"' + "x" * (size - 200))
    yield "alarms.csv: commas", files(alarms=HEAD + "," * (size - 200) + "\n")
    yield "alarms.csv: empty lines", files(alarms=HEAD + "\n" * (size - 200))
    yield "alarms.csv: a byte too many", files(alarms=HEAD + "\n" * (16 * MEGA + 1 - len(HEAD)))


def declarations(size):
    """Sources of declarations."""
    part = size // 4
    yield "globals", files(["VAR_GLOBAL\n" + "".join(f"g{s}_{n} : BOOL;\n" for n in range(part // 1041)) + "END_VAR\n" for s in range(64)])
    yield "globals with names of 1,000 bytes", files(["VAR_GLOBAL\n" + "".join(f"g{s:02}_{n:02}{'x' * 994} : BOOL;\n" for n in range(part // 17772)) + "END_VAR\n" for s in range(64)])
    yield "three globals with names of 1,000,000 bytes", files(["VAR_GLOBAL\n" + "".join(letter * (size // 4) + " : BOOL;\n" for letter in "xyz") + "END_VAR\n"])
    count = 600_000 * size // (4 * MEGA)
    yield "globals in one declaration, with an initial value", files(["VAR_GLOBAL " + ",".join(map(short, range(count))) + " : BOOL := TRUE; END_VAR\n"])
    blocks = 60_000 * size // (4 * MEGA)

    def chain(last):
        body = "".join(f"FUNCTION_BLOCK B{n} VAR b : B{n + 1}; END_VAR END_FUNCTION_BLOCK\n" for n in range(blocks - 1))
        return files([SOURCE + body + f"FUNCTION_BLOCK B{blocks - 1} VAR {last} END_VAR END_FUNCTION_BLOCK\n"])

    yield "function blocks, each with an instance of the next", chain("x : BOOL;")
    yield "the same, and the last two hold each other", chain(f"b : B{blocks - 2};")
    yield "function blocks side by side", files([SOURCE + "".join(f"FUNCTION_BLOCK B{n} VAR x : BOOL; END_VAR x := TRUE; END_FUNCTION_BLOCK\n" for n in range(50_000 * size // (4 * MEGA)))])
    instances = 299_970 * size // (4 * MEGA)
    names = ",".join(f"b{n}" for n in range(instances))
    yield "a function block with instances of one type", files([SOURCE + f"FUNCTION_BLOCK B VAR x : BOOL; END_VAR END_FUNCTION_BLOCK FUNCTION_BLOCK M VAR {names} : B; END_VAR END_FUNCTION_BLOCK\n"])
    yield "programs", files([SOURCE + "".join(f"PROGRAM p{n} ; END_PROGRAM\n" for n in range(100_000 * size // (4 * MEGA)))])
    twice = "".join(f"FUNCTION_BLOCK B{n} VAR a, b : B{n + 1}; END_VAR END_FUNCTION_BLOCK\n" for n in range(29))
    yield "30 blocks, each with two instances of the next", files([SOURCE + twice + "FUNCTION_BLOCK B29 VAR x : BOOL; END_VAR END_FUNCTION_BLOCK\n"])


def bodies(size):
    """Sources of statements."""
    names = "VAR i, n : DINT; b : BOOL; END_VAR\n"
    many = "n := n + 1;\n"
    for count in (3200, 4000):
        assigned = [f"PROGRAM p{s} {names}" + many * (count * size // (4 * MEGA)) + "END_PROGRAM\n" for s in range(64)]
        yield f"64 sources with {count:,} assignments each", files([SOURCE + assigned[0]] + assigned[1:])
    room = size - 200

    def body(text):
        return files([SOURCE + f"PROGRAM p {names}{text} END_PROGRAM\n"])

    count = 280_000 * size // (4 * MEGA)
    yield "assignments, the last of another kind", body("n := n + 1;" * count + "b := n;")
    yield "assignments", body(filled(many, room))
    yield "empty statements", body(";" * room)
    choices, long = [], 0
    while long < room - 100:
        choices.append(f"{len(choices)}:;\n")
        long += len(choices[-1])
    yield "branches of one CASE", body("CASE n OF\n" + "".join(choices[:-1]) + "END_CASE;")
    yield "ELSIF branches of one IF", body("IF b THEN ;\n" + filled("ELSIF b THEN ;\n", room - 100) + "END_IF;")
    yield "IF, one in another", body(filled("IF b THEN ", room))
    yield "FOR, one in another", body(filled("FOR i := 1 TO 2 DO ", room))
    yield "parentheses", body("n := " + "(" * room)
    yield "NOT NOT ..", body("b := " + filled("NOT ", room) + "b;")
    yield "- - a", body("n := " + filled("- ", room) + "n;")
    yield "one sum", body("n := n" + filled(" + n", room) + ";")
    yield "one comment", files([SOURCE + "(*" + "x" * room + "*)\n"])
    yield "lines of //", files([SOURCE + filled("// x\n", room)])
    yield "comments that open", files([SOURCE + "(*" * (room // 2)])
    yield "one number", files(["1" * room])
    yield "one word", files([SOURCE + "PROGRAM p " + "x" * room + " := 1; END_PROGRAM\n"])


def commands(size):
    """Inputs for the built-in plant; the size is how many lines a short one has."""
    yield "scans", (f"scan {n} a=5\n" for n in range(size))
    yield "orders", ("ack 1 T1\n" for _ in range(size))
    yield "unknown words", ("nonsense\n" for _ in range(size))
    yield "empty lines", ("\n" for _ in range(size))
    yield "remarks", ("# x\n" for _ in range(size))
    lines = 16 * size // 1_000_000
    yield "lines of 1,048,576 bytes: one word", ("x" * MEGA + "\n" for _ in range(lines))
    yield "lines of 1,048,576 bytes: pairs of one name", ("scan 0" + filled(" a=1", MEGA - 6) + "\n" for _ in range(lines))
    yield "lines of 1,048,577 bytes", ("x" * (MEGA + 1) + "\n" for _ in range(lines))
    yield "one line of 200,000,000 bytes", ("x" * (2 * size) for _ in range(100))


READ = [(plant_files, MEGA), (alarm_files, 16 * MEGA), (declarations, 4 * MEGA), (bodies, 4 * MEGA)]
