"""Random changes of a plant: the plants that are reloaded over one that is served.

A change keeps every rule. What a body names and what isn't there any more, or is something else, is replaced: the body is made anew.
"""

import copy
import dataclasses

from language import BOOL, DINT, STANDARD, TIME, Array, Assign, Call, Element, For, Read
from plants import EPOCHS, AlarmRow, Maker

KINDS = (BOOL, DINT, TIME)
REGIONS = ("I", "Q", "M", None)


def parts(it):
    """All trees in a tree."""
    yield it
    below = vars(it).values() if dataclasses.is_dataclass(it) and not isinstance(it, type) else it if isinstance(it, (list, tuple)) else ()
    for each in below:
        yield from parts(each)


class Editor(Maker):
    """Changes a copy of a plant."""

    def __init__(self, random, plant):
        super().__init__(random)
        self.plant = copy.deepcopy(plant)
        self.names = 1000 + random.randrange(10**6)

    def changed(self):
        """The plant with some changes: none, a few, or another plant with the same consoles."""
        some, plant = self.random, self.plant
        pick = some.random()
        if pick < 0.1:
            return plant
        if pick < 0.15:
            return self.another()
        if pick < 0.22:
            some.choice([self.change_epoch, self.change_consoles])()
            return plant
        if pick < 0.45:
            self.change_some([self.change_alarm])
            return plant
        self.change_some([self.change_global, self.change_global, self.change_array, self.change_routine, self.change_routine, self.change_routine, self.change_alarm, self.change_programs])
        self.mend()
        return plant

    def another(self):
        made = Maker(self.random).made()
        made.epoch, made.areas, made.consoles = self.plant.epoch, self.plant.areas, self.plant.consoles
        for row in made.alarms:
            row.area = self.random.choice(made.areas)
        return made

    def change_some(self, ways):
        for _ in range(self.random.choice([1, 1, 2, 3, 5])):
            self.random.choice(ways)()

    # ---- what refuses a reload

    def change_epoch(self):
        self.plant.epoch = self.random.choice(EPOCHS)

    def change_consoles(self):
        some, consoles = self.random, self.plant.consoles
        pick = some.random()
        if pick < 0.3 and consoles:
            consoles.pop(some.randrange(len(consoles)))
        elif pick < 0.6:
            some.shuffle(consoles)
        elif pick < 0.8:
            consoles.append((1000 + some.randrange(9), [self.plant.areas[0]]))
        else:
            self.plant.consoles = [(number, [it for it in self.plant.areas if some.random() < 0.6]) for number, _ in consoles]

    # ---- alarms

    def change_alarm(self):
        some, alarms = self.random, self.plant.alarms
        pick = some.random()
        bools = [name for name, kind, _, _ in self.plant.globals if kind == BOOL]
        if pick < 0.05 or not bools:
            self.change_table()
        elif pick < 0.15 or not alarms:
            alarms.insert(some.randrange(len(alarms) + 1), self.new_alarm(bools))
        elif pick < 0.3:
            alarms.pop(some.randrange(len(alarms)))
        elif pick < 0.4:
            some.shuffle(alarms)
        else:
            self.change_row(some.choice(alarms), bools)

    def change_table(self):
        """Gives the table the column of delays, or takes it away; and the plant one more area, before the others."""
        plant = self.plant
        if self.random.random() < 0.5:
            plant.has_delays = not plant.has_delays
            for row in plant.alarms if not plant.has_delays else []:
                row.delay = 0
        elif len(plant.areas) < 9:
            plant.areas.insert(0, f"new.{self.names}")
            self.names += 1

    def new_alarm(self, bools):
        some, tags = self.random, {it.tag for it in self.plant.alarms}
        fresh = f"N-{self.names}"
        self.names += 1
        back = some.choice([f"T-{at}.x" for at in range(9)])
        suppress = some.choice(bools) if some.random() < 0.3 else None
        delay = some.choice([0, 5, 20]) if self.plant.has_delays else 0
        return AlarmRow(fresh if back in tags else back, some.choice(self.plant.areas), some.randrange(1, 5), some.choice(bools), suppress, some.random() < 0.4, 100, delay)

    def change_row(self, row, bools):
        some = self.random
        pick = some.randrange(7)
        if pick == 0:
            row.latching = not row.latching
        elif pick == 1 and self.plant.has_delays:
            row.delay = some.choice([0, 0, 1, 5, 10, 20, 50, 1000])
        elif pick == 2:
            row.longest = some.choice([0, 1, 50, 2_592_000_000])
        elif pick == 3:
            row.condition = some.choice(bools)
        elif pick == 4:
            row.suppress = some.choice([None, *bools])
        elif pick == 5:
            row.area, row.priority = some.choice(self.plant.areas), some.randrange(1, 5)
        else:
            row.tag = f"n{row.tag}"[:32] if all(f"n{row.tag}"[:32] != it.tag for it in self.plant.alarms) else row.tag

    # ---- globals

    def change_global(self):
        """Takes a global away, adds one, or gives one another kind, place, spelling or initial value, or makes it an array."""
        some, shared = self.random, self.plant.globals
        at = some.randrange(len(shared))
        name, kind, region, initial = shared[at]
        pick = some.random()
        if pick < 0.15 and len(shared) > 3:
            shared.pop(at)
        elif pick < 0.3:
            kind = some.choice(KINDS)
            shared.insert(at, (self.name("g"), kind, some.choice(REGIONS), None))
        elif pick < 0.5:
            shared[at] = (name, some.choice(KINDS), region, None)
        elif pick < 0.7:
            shared[at] = (name, kind, some.choice(REGIONS), initial)
        elif pick < 0.8:
            shared[at] = (name.swapcase(), kind, region, self.constant(kind))
        elif pick < 0.9:
            some.shuffle(shared)
        elif len(shared) > 3:
            shared.pop(at)
            self.plant.arrays.append(self.array("global", name))

    def change_array(self):
        """Gives an array other bounds, another kind or another spelling, makes it a variable, or takes it away."""
        some = self.random
        places = [self.plant.arrays] + [it.arrays for it in self.routines()]
        found = [them for them in places if them]
        if not found:
            return
        them = some.choice(found)
        at = some.randrange(len(them))
        it, pick = them[at], some.random()
        if pick < 0.4:
            low, high = it.low + some.choice([0, 0, 1, -1]), it.high + some.choice([0, 1, 1, 2])
            if -(2**31) <= low <= high < 2**31:
                them[at] = dataclasses.replace(it, low=low, high=high)
        elif pick < 0.6:
            them[at] = dataclasses.replace(it, kind=some.choice(KINDS))
        elif pick < 0.8:
            them[at] = dataclasses.replace(it, text=it.text.swapcase())
        else:
            them.pop(at)
            if them is self.plant.arrays and some.random() < 0.5:
                self.plant.globals.append((it.text, it.kind, None, None))

    # ---- programs and blocks

    def routines(self):
        return [*self.plant.blocks.values(), *self.plant.programs]

    def change_programs(self):
        """Takes a program away, adds one, gives one another name or spelling, or orders them anew."""
        some, programs = self.random, self.plant.programs
        pick = some.random()
        if pick < 0.25 or not programs:
            programs.insert(some.randrange(len(programs) + 1), self.routine(self.name("p"), False))
        elif pick < 0.5:
            programs.pop(some.randrange(len(programs)))
        elif pick < 0.7:
            some.shuffle(programs)
        else:
            it = some.choice(programs)
            it.name = some.choice([it.name.swapcase(), self.name("p")])

    def change_routine(self):
        """Changes a declaration of a routine."""
        found = self.routines()
        if found:
            some, it = self.random, self.random.choice(found)
            some.choice([self.change_variable, self.change_variable, self.change_instance, self.change_instance, self.change_place])(it)

    def change_variable(self, it):
        some = self.random
        sections = ["VAR_INPUT", "VAR_OUTPUT", "VAR"] if it.is_block else ["VAR"]
        pick = some.random()
        if pick < 0.25 or not it.variables:
            it.variables.append((self.name("v"), some.choice(KINDS), some.choice(sections), None))
            return
        at = some.randrange(len(it.variables))
        name, kind, section, initial = it.variables[at]
        if pick < 0.4 and len(it.variables) > 1:
            it.variables.pop(at)
        elif pick < 0.65:
            it.variables[at] = (name, some.choice(KINDS), section, None)
        elif pick < 0.8:
            it.variables[at] = (name, kind, some.choice(sections), initial)
        elif pick < 0.9:
            it.variables[at] = (name.swapcase(), kind, section, self.constant(kind))
        else:
            some.shuffle(it.variables)

    def types_for(self, it):
        """The block types that a routine may declare: none that holds it."""
        return [*STANDARD] * 2 + [name for name in self.plant.blocks if not (it.is_block and self.holds(name, it.name))]

    def holds(self, name, other):
        """Whether a block is another one, or holds it."""
        below = self.plant.blocks[name].instances if name in self.plant.blocks else []
        return name == other or any(self.holds(block, other) for _, block in below)

    def change_instance(self, it):
        """Gives an instance another type, which may have inputs of the same names, adds one, or takes one away."""
        some = self.random
        pick = some.random()
        if pick < 0.25 or not it.instances:
            it.instances.append((self.name("i"), some.choice(self.types_for(it))))
            return
        at = some.randrange(len(it.instances))
        name, block = it.instances[at]
        if pick < 0.4:
            it.instances.pop(at)
        elif pick < 0.5:
            some.shuffle(it.instances)
        elif pick < 0.6:
            it.instances[at] = (name.swapcase(), block)
        else:
            it.instances[at] = (name, some.choice({"TON": ["TOF"], "TOF": ["TON"]}.get(block, []) * 3 + self.types_for(it)))

    def change_place(self, it):
        """Makes an instance of a variable, or a variable of an instance, under the same name; or an array."""
        some = self.random
        if it.instances and some.random() < 0.5:
            name, _ = it.instances.pop(some.randrange(len(it.instances)))
            it.variables.append((name, some.choice(KINDS), "VAR", None))
        elif len(it.variables) > 1:
            name, _, _, _ = it.variables.pop(some.randrange(len(it.variables)))
            if some.random() < 0.6:
                it.instances.append((name, some.choice(self.types_for(it))))
            else:
                it.arrays.append(self.array("own", name))

    # ---- what no longer fits

    def mend(self):
        """Makes anew what names something that isn't there as it was: externals, bodies, what alarms watch."""
        some, plant = self.random, self.plant
        bools = [name for name, kind, _, _ in plant.globals if kind == BOOL]
        if not bools:
            plant.globals.append((self.name("g"), BOOL, "I", None))
            bools = [plant.globals[-1][0]]
        there = {name.lower() for name in bools}
        for row in plant.alarms:
            row.condition = row.condition if row.condition.lower() in there else some.choice(bools)
            row.suppress = row.suppress if row.suppress and row.suppress.lower() in there else None
        for it in self.routines():
            own = it.names()
            it.externals = [each for each in it.externals if self.is_external(each, own)]
            if not self.fits(it):
                it.body = [self.statement(it, some.choice([1, 2, 2, 3]), frozenset()) for _ in range(some.randrange(1, 6))]

    def is_external(self, it, own):
        if isinstance(it, Array):
            return it.place[1] not in own and it in self.plant.arrays
        return it[0].lower() not in own and any(it[:3] == shared[:3] for shared in self.plant.globals)

    def fits(self, routine):
        """Whether all that a body names is still the same, and may be assigned where the body assigns it."""
        reads = {(it.place, it.kind) for it in self.reads(routine) if isinstance(it, Read)}
        targets = {(it.place, it.kind) for it in self.variables(routine, True)}
        arrays = {(it.place, it.kind, it.low, it.high) for it in self.arrays(routine)}
        for it in parts(routine.body):
            if isinstance(it, Read) and (it.place, it.kind) not in reads:
                return False
            if isinstance(it, Element) and (it.array.place, it.array.kind, it.array.low, it.array.high) not in arrays:
                return False
            if isinstance(it, Assign) and isinstance(it.target, Read) and (it.target.place, it.target.kind) not in targets:
                return False
            if isinstance(it, For) and it.control.place[0] != "own":
                return False
            if isinstance(it, Call) and not self.fits_call(routine, it, targets):
                return False
        return True

    def fits_call(self, routine, it, targets):
        if (it.instance.lower(), it.block) not in [(name.lower(), block) for name, block in routine.instances]:
            return False
        inputs, outputs = ({name.lower(): kind for name, kind in them} for them in self.members(it.block))
        for name, given in it.arguments:
            if isinstance(given, tuple):
                if (given[0].place, outputs.get(name.lower())) not in targets:
                    return False
            elif inputs.get(name.lower()) != given.kind:
                return False
        return True


def edited(some, plant):
    """Another plant, most often one that has much in common with this one."""
    return Editor(some, plant).changed()
