#!/usr/bin/env python3
"""A second source for the definitions: runs the job of a parameter file in one piece, as docs/GUIDE.md says it.

It knows the five sample thorns and the two of physics by heart, by the guide's tables, and reads no CCL files. It expects a file that
`cactus check` accepts: it refuses nothing. It writes a file for each output variable into the folder IO::out_dir, and
prints the line that the program prints, `done: ..` or `ended: ..`. Status: 0 done, 3 ended.
"""
import argparse
import os
import re
import sys
from dataclasses import dataclass
from itertools import product

MOST_OUTPUT = 2**32
BITS = {"BYTE": (0, 255), **{f"INT{n}": (-(2 ** (8 * n - 1)), 2 ** (8 * n - 1) - 1) for n in (2, 4, 8)}}
BITS["INT"] = BITS["INT8"]


# What the thorns compute: each rule gives the number at one point, `at("u")` is the value of u there.


def lap(at, name):
    """The sum over the grid's directions of both neighbours minus 2 u."""
    total = 0
    for direction in range(at.directions):
        step = tuple(int(it == direction) for it in range(at.directions))
        back = tuple(-it for it in step)
        total += at(name, step) + at(name, back) - 2 * at(name)
    return total


def mixed(seed, place):
    """A random number of 64 bits: what SplitMix64 puts out in the state seed + place * 0x9E3779B97F4A7C15.

    This was found by trial from outputs, before the guide said how a number is mixed.
    """
    number = (seed + place * 0x9E3779B97F4A7C15) % 2**64
    number = (number ^ number >> 30) * 0xBF58476D1CE4E5B9 % 2**64
    number = (number ^ number >> 27) * 0x94D049BB133111EB % 2**64
    return number ^ number >> 31


def start(at):
    """The start of WaveInt and DiffInt."""
    amount = at.parameter("amount")
    match at.parameter("pattern"):
        case "point":
            return amount if at.place == at.parameter("start") else 0
        case "uniform":
            return amount
        case "alternate":
            return amount if sum(at.point) % 2 == 0 else -amount
        case "random":
            return mixed(at.parameter("seed"), at.place) % (max(amount, 0) + 1)


def bit(number, n):
    return number >> n & 1


def ca_init(at):
    seed = at.parameter("seed")
    return mixed(seed, at.place) % 2 if seed >= 0 else int(at.place == at.parameter("start"))


def ca_step(at):
    return bit(at.parameter("rule"), 4 * at("cell", (-1,)) + 2 * at("cell") + at("cell", (1,)))


# Taken from the picture in examples/README.md, before the guide said which cells these are.
GLIDER = {(1, 0), (2, 1), (0, 2), (1, 2), (2, 2)}


def life_init(at):
    if at.parameter("pattern") == "glider":
        return int(at.point[:2] in GLIDER)
    return mixed(at.parameter("seed"), at.place) % 2


def life_step(at):
    around = [(x, y) for x, y in product((-1, 0, 1), repeat=2) if (x, y) != (0, 0)]
    living = sum(at("cell", offset) != 0 for offset in around)
    return bit(at.parameter("survive" if at("cell") != 0 else "born"), living)


def wave_step(at):
    return 2 * at("phi_p") - at("phi_p_p") + at.parameter("factor") * lap(at, "phi_p") // 256


def diff_step(at):
    return at("u") + at.parameter("factor") * lap(at, "u") // 256


def flow(at, here, there):
    """The heat that flows from one offset to another: none where a mask is 0, else the share, rounded toward 0."""
    if at("mask", here) == 0 or at("mask", there) == 0:
        return 0
    heat = at.parameter("factor") * (at("u", here) - at("u", there))
    return heat // 256 if heat >= 0 else -(-heat // 256)


def heatflux_init(at):
    if at.is_boundary():
        return 0, 0
    if at.parameter("pattern") == "point":
        return (at.parameter("amount") if at.place == at.parameter("start") else 0), 1
    return mixed(at.parameter("seed"), at.place) % (max(at.parameter("amount"), 0) + 1), 1


def heatflux_step(at):
    here, total = (0,) * at.directions, at("u")
    for direction in range(at.directions):
        step = tuple(int(it == direction) for it in range(at.directions))
        total += flow(at, tuple(-it for it in step), here) - flow(at, here, step)
    return total


EAST, NORTH, WEST, SOUTH = range(4)


def gas_init(at):
    in_block = all(abs(2 * c + 1 - n) < at.parameter("size") for c, n in zip(at.point[:2], at.run.grid.sizes))
    return mixed(at.parameter("seed"), at.place) % 16 if in_block else 0


def gas_step(at):
    """Each particle comes from the neighbour behind it; two that meet head-on, alone, turn by a quarter."""
    behind = {EAST: (-1, 0), NORTH: (0, -1), WEST: (1, 0), SOUTH: (0, 1)}
    came = {way for way, offset in behind.items() if bit(at("cell", offset), way)}
    turned = {frozenset({EAST, WEST}): {NORTH, SOUTH}, frozenset({NORTH, SOUTH}): {EAST, WEST}}
    return sum(2**way for way in turned.get(frozenset(came), came))


def gas_measure(at):
    east, north, west, south = (bit(at("cell"), way) for way in (EAST, NORTH, WEST, SOUTH))
    return east + north + west + south, east - west, north - south


# The thorns, by the guide's tables.


@dataclass
class Routine:
    """A routine: its rule, what it reads and writes, as a schedule.ccl has them, and, of a reduction, which one.

    A rule gives one number for all that is written, or a number for each.
    """

    rule: callable
    reads: str
    writes: str
    reduction: callable = None

    def targets(self):
        """The names that it writes, and the region."""
        words = re.findall(r"(\w+)(?:\((\w+)\))?", self.writes)
        return [name for name, _ in words], words[0][1]


@dataclass
class Entry:
    """A block of a schedule.ccl: its routine or group, AT a bin or IN a group.

    `condition` is the parameter of the `if` around it, `test` and `loop` are the scalars of IF and WHILE.
    """

    place: str
    name: str
    condition: str = None
    test: str = None
    loop: str = None
    sync: str = None
    is_group: bool = False


@dataclass
class Group:
    """A group of one variable: its type, and, of a grid function, directions and timelevels."""

    name: str
    type: str
    variable: str
    directions: int = 0
    levels: int = 1


@dataclass
class Thorn:
    implementation: str
    parameters: dict
    groups: list
    routines: dict
    schedule: list


def schedule(start, step, group, edge):
    """A start AT INITIAL, and AT EVOL a step with SYNC of its group, and after it the boundary."""
    return [Entry("INITIAL", start), Entry("EVOL", step, sync=group), Entry("EVOL", edge)]


STARTS = {"pattern": "point", "amount": 8, "start": 0, "seed": 0}
FIELD = {"factor": 64, **STARTS, "edge": 0, "sum": False}

THORNS = {
    "ElemCA": Thorn(
        "ca",
        {"rule": 90, "start": 0, "seed": -1},
        [Group("cells", "BYTE", "cell", 1), Group("counts", "INT", "live")],
        {
            "ca_init": Routine(ca_init, "", "cell(everywhere)"),
            "ca_step": Routine(ca_step, "cell(everywhere)", "cell(interior)"),
            "ca_zero": Routine(lambda at: 0, "", "cell(boundary)"),
            "ca_count": Routine(lambda at: at("cell"), "cell(everywhere)", "live", sum),
        },
        schedule("ca_init", "ca_step", "cells", "ca_zero") + [Entry("POSTSTEP", "ca_count")],
    ),
    "Life2D": Thorn(
        "life",
        {"born": 8, "survive": 12, "pattern": "glider", "seed": 0},
        [Group("cells", "BYTE", "cell", 2), Group("counts", "INT", "live")],
        {
            "life_init": Routine(life_init, "", "cell(everywhere)"),
            "life_step": Routine(life_step, "cell(everywhere)", "cell(interior)"),
            "life_zero": Routine(lambda at: 0, "", "cell(boundary)"),
            "life_count": Routine(lambda at: int(at("cell") != 0), "cell(everywhere)", "live", sum),
        },
        schedule("life_init", "life_step", "cells", "life_zero") + [Entry("POSTSTEP", "life_count")],
    ),
    "WaveInt": Thorn(
        "wave",
        FIELD,
        [Group("evolved", "INT", "phi", 1, 3), Group("sums", "INT", "total")],
        {
            "wave_init": Routine(start, "", "phi(everywhere) phi_p(everywhere)"),
            "wave_step": Routine(wave_step, "phi_p(everywhere) phi_p_p(interior)", "phi(interior)"),
            "wave_flat": Routine(lambda at: at("phi"), "phi(interior)", "phi(boundary)"),
            "wave_sum": Routine(lambda at: at("phi"), "phi(everywhere)", "total", sum),
            "wave_init1": Routine(start, "", "phi(everywhere)"),
            "wave_copy": Routine(lambda at: at("phi_p"), "phi_p(interior)", "phi(boundary)"),
            "wave_scalar": Routine(lambda at: at.parameter("edge"), "", "phi(boundary)"),
        },
        schedule("wave_init", "wave_step", "evolved", "wave_flat") + [Entry("ANALYSIS", "wave_sum", condition="sum")],
    ),
    "DiffInt": Thorn(
        "diff",
        FIELD,
        [Group("evolved", "INT", "u", 1), Group("sums", "INT", "total")],
        {
            "diff_init": Routine(start, "", "u(everywhere)"),
            "diff_step": Routine(diff_step, "u(everywhere)", "u(interior)"),
            "diff_flat": Routine(lambda at: at("u"), "u(interior)", "u(boundary)"),
            "diff_sum": Routine(lambda at: at("u"), "u(everywhere)", "total", sum),
            "diff_scalar": Routine(lambda at: at.parameter("edge"), "", "u(boundary)"),
        },
        schedule("diff_init", "diff_step", "evolved", "diff_flat") + [Entry("ANALYSIS", "diff_sum", condition="sum")],
    ),
    "Control": Thorn(
        "control",
        {"turns": 3, "drop": 1},
        [Group("counter", "INT", "count")],
        {
            "control_set": Routine(lambda at: at.parameter("turns"), "", "count"),
            "control_spin": Routine(lambda at: at("count") - at.parameter("drop"), "count", "count"),
        },
        [Entry("INITIAL", "control_set"), Entry("EVOL", "control_spin", loop="control::count")],
    ),
}

# Groups of several variables are here several groups of one name.
PHYSICS = {
    "HeatFlux": Thorn(
        "heatflux",
        {"factor": 32, "pattern": "point", "amount": 1000000, "start": 0, "seed": 0},
        [Group("evolved", "INT", "u", 3), Group("walls", "BYTE", "mask", 3), Group("sums", "INT", "total")],
        {
            "heatflux_init": Routine(heatflux_init, "", "u(everywhere) mask(everywhere)"),
            "heatflux_step": Routine(heatflux_step, "u(everywhere) mask(everywhere)", "u(interior)"),
            "heatflux_zero": Routine(lambda at: 0, "", "u(boundary)"),
            "heatflux_sum": Routine(lambda at: at("u"), "u(everywhere)", "total", sum),
        },
        schedule("heatflux_init", "heatflux_step", "evolved", "heatflux_zero") + [Entry("ANALYSIS", "heatflux_sum")],
    ),
    "LatticeGas": Thorn(
        "gas",
        {"size": 16, "seed": 0},
        [Group("cells", "BYTE", "cell", 2)]
        + [Group("measured", "INT", it, 2) for it in ("number", "momentum_x", "momentum_y")]
        + [Group("sums", "INT", it) for it in ("particles", "total_x", "total_y")],
        {
            "gas_init": Routine(gas_init, "", "cell(everywhere)"),
            "gas_step": Routine(gas_step, "cell(everywhere)", "cell(interior)"),
            "gas_zero": Routine(lambda at: 0, "", "cell(boundary)"),
            "gas_measure": Routine(
                gas_measure, "cell(everywhere)", "number(everywhere) momentum_x(everywhere) momentum_y(everywhere)"
            ),
            "gas_particles": Routine(lambda at: at("number"), "number(everywhere)", "particles", sum),
            "gas_total_x": Routine(lambda at: at("momentum_x"), "momentum_x(everywhere)", "total_x", sum),
            "gas_total_y": Routine(lambda at: at("momentum_y"), "momentum_y(everywhere)", "total_y", sum),
        },
        schedule("gas_init", "gas_step", "cells", "gas_zero")
        + [Entry("ANALYSIS", it) for it in ("gas_measure", "gas_particles", "gas_total_x", "gas_total_y")],
    ),
}

BUILT_IN = {"cactus": "cactus", "pugh": "driver", "ioutil": "io"}
DEFAULTS = {
    **{"cactus::cctk_itlast": 10, "driver::while_limit": 1000},
    **{"driver::global_nsize": -1, **{f"driver::global_n{axis}": 10 for axis in "xyz"}},
    **{"driver::ghost_size": -1, **{f"driver::ghost_size_{axis}": 1 for axis in "xyz"}},
    **{"driver::periodic": False, **{f"driver::periodic_{axis}": True for axis in "xyz"}},
    **{"io::out_dir": ".", "io::out_vars": "", "io::out_every": 1},
    **{"io::checkpoint_every": -1, "io::checkpoint_on_terminate": False},
}


# The parameter file.

TOKEN = re.compile(
    r"""^[ \t\r]*![^\n]*                        # a line that begins with !
      | [ \t\r]+ | \n | \#[^\n]*                # blanks and comments
      | "(?P<text>(?:\\["'\\]|[^"])*)"
      | (?P<sign>[=\[\]])
      | (?P<word>[^\s"=\[\]\#]+)""",
    re.MULTILINE | re.VERBOSE,
)


def settings(text, parfile):
    """The settings of a parameter file, as pairs of a name and a value, in their order."""
    words = [it for it in TOKEN.finditer(text) if it.lastgroup]
    for at in range(0, len(words), 3):
        name, sign, value = words[at : at + 3]
        assert sign[0] == "=", f"{name[0]} is an array, or has no value"
        value = value["word"] or re.sub(r"\\([\"'\\])", r"\1", value["text"])
        yield name["word"].lower(), parfile if value == "$parfile" else value


def typed(value, default):
    """The value of a setting, in the type of the default."""
    if isinstance(default, bool):
        return value.lower() in ("yes", "true", "y", "t", "1")
    return int(value) if isinstance(default, int) else value


class Job:
    """What a parameter file says: active thorns, and all parameters with their values."""

    def __init__(self, path, thorns):
        with open(path, encoding="latin-1") as file:
            found = list(settings(file.read(), re.sub(r"\.par$", "", os.path.basename(path))))
        names = " ".join(value for name, value in found if name == "activethorns")
        by_name = {name.lower(): thorn for name, thorn in thorns.items()}
        active = dict.fromkeys(it for it in re.split(r"[\s,]+", names.lower()) if it in by_name)
        self.thorns = [by_name[name] for name in active]
        self.values = dict(DEFAULTS)
        for thorn in self.thorns:
            self.values |= {f"{thorn.implementation}::{name}": it for name, it in thorn.parameters.items()}
        owners = BUILT_IN | {name: thorn.implementation for name, thorn in by_name.items()}
        for name, value in found:
            owner, _, own = name.partition("::")
            full = f"{owners.get(owner, owner)}::{own}"
            if full in self.values:
                self.values[full] = typed(value, self.values[full])
        for name, value in self.values.items():
            if name.endswith("::pattern"):
                self.values[name] = value.lower()

    def __getitem__(self, name):
        return self.values[name.lower()]

    def of_directions(self, count, single, each):
        """For each direction the one value for all, where it is set, else its own."""
        return [self[single] if self[single] >= 0 else self[each + axis] for axis in "xyz"[:count]]


# The run.


class Ended(Exception):
    pass


class Grid:
    """All points of the grid in one piece, x fastest."""

    def __init__(self, job, directions):
        self.sizes = job.of_directions(directions, "driver::global_nsize", "driver::global_n")
        ghosts = job.of_directions(directions, "driver::ghost_size", "driver::ghost_size_")
        periodic = [job["driver::periodic"] and job[f"driver::periodic_{it}"] for it in "xyz"[:directions]]
        self.edges = [0 if ring else ghost for ghost, ring in zip(ghosts, periodic)]
        self.points = [it[::-1] for it in product(*map(range, reversed(self.sizes)))]

    def nearest(self, point):
        """The nearest interior point: each coordinate moved into the interior where a direction has ends."""
        return tuple(min(max(c, edge), n - 1 - edge) for c, n, edge in zip(point, self.sizes, self.edges))

    def place(self, point):
        place = 0
        for coordinate, size in zip(reversed(point), reversed(self.sizes)):
            place = place * size + coordinate % size
        return place

    def region(self, name):
        if name == "everywhere":
            return self.points
        return [it for it in self.points if (it == self.nearest(it)) == (name == "interior")]


class At:
    """What a rule sees at a point, or, where there is no point, as a routine of scalars."""

    def __init__(self, run, thorn, point=(), seen=()):
        self.run, self.thorn, self.point, self.seen = run, thorn, point, seen
        self.directions = len(point)
        self.place = run.grid.place(point)

    def parameter(self, name):
        return self.run.job[f"{self.thorn.implementation}::{name}"]

    def is_boundary(self):
        return self.point != self.run.grid.nearest(self.point)

    def __call__(self, name, offset=()):
        """The value of a variable, at this offset."""
        moved = [c + d for c, d in zip(self.seen, (*offset, 0, 0, 0))]
        return self.run.level(self.thorn, name)[self.run.grid.place(moved)]


class Run:
    """The undivided run of a job. A variable is a list of timelevels, and each of these a list of numbers."""

    def __init__(self, job):
        self.job, self.iteration, self.outputs = job, 0, {}
        groups = [group for thorn in job.thorns for group in thorn.groups if group.directions]
        self.grid = Grid(job, groups[0].directions if groups else 1)
        self.variables = {}
        for thorn in job.thorns:
            for it in thorn.groups:
                numbers = len(self.grid.points) if it.directions else 1
                levels = [[0] * numbers for _ in range(it.levels)]
                self.variables[f"{thorn.implementation}::{it.variable}"] = levels

    def level(self, thorn, name):
        """The numbers that a name means, which has `_p` once for each past timelevel."""
        variable = re.sub("(_p)*$", "", name)
        return self.variables[f"{thorn.implementation}::{variable}"][(len(name) - len(variable)) // 2]

    def rotate(self):
        for levels in self.variables.values():
            levels.insert(0, levels.pop())

    def turn(self, thorn, routine, path):
        """One turn of a routine: all that it reads is from before, and where a number fails none is written."""
        targets, region = routine.targets()
        written = [next(it for it in thorn.groups if it.variable == re.sub("(_p)*$", "", name)) for name in targets]
        group = written[0]
        if routine.reduction:
            new = {0: routine.reduction(routine.rule(At(self, thorn, it, it)) for it in self.grid.points)}
        elif not group.directions:
            new = {0: routine.rule(At(self, thorn))}
        else:
            own = region == "everywhere"
            places = [At(self, thorn, it, it if own else self.grid.nearest(it)) for it in self.grid.region(region)]
            new = {at.place: routine.rule(at) for at in places}
        each = {at: it if isinstance(it, tuple) else (it,) * len(targets) for at, it in new.items()}
        ranges = [BITS[it.type] for it in written]
        if not all(low <= it <= high for numbers in each.values() for it, (low, high) in zip(numbers, ranges)):
            raise Ended(f"Overflow {self.iteration} {path}")
        for name, numbers in zip(targets, zip(*each.values())):
            level = self.level(thorn, name)
            for place, number in zip(each, numbers):
                level[place] = number

    def scalar(self, name):
        return self.variables[name][0][0]

    def passes(self, entry, path):
        """How often an entry is done: once, or as its IF and its WHILE ask for."""
        if entry.test and self.scalar(entry.test) == 0:
            return
        if not entry.loop:
            yield
            return
        count = 0
        while self.scalar(entry.loop) != 0:
            if count == self.job["driver::while_limit"]:
                raise Ended(f"WhileLimit {self.iteration} {path}")
            count += 1
            yield

    def work(self, place, path):
        """All that is AT a bin or IN a group. A SYNC changes no number: there is one part, without ghost points."""
        for thorn in self.job.thorns:
            for entry in [it for it in thorn.schedule if it.place == place]:
                here = f"{path}/{entry.name}"
                if entry.condition and not self.job[f"{thorn.implementation}::{entry.condition}"]:
                    continue
                for _ in self.passes(entry, here):
                    if entry.is_group:
                        self.work(entry.name, here)
                    else:
                        self.turn(thorn, thorn.routines[entry.name], here)

    def bins(self, *names):
        for name in names:
            self.work(name, name)

    def is_named(self, thorn, group):
        """Whether IO::out_vars names the variable or its group."""
        names = self.job["IO::out_vars"].lower().split()
        return any(f"{thorn.implementation}::{it}" in names for it in (group.variable, group.name))

    def section(self, name, group):
        """The text of a variable's current timelevel."""
        head = f"# {name} iteration {self.iteration}"
        numbers = self.variables[name][0]
        if not group.directions:
            return f"{head} value {numbers[0]}\n"
        sizes, nx = self.grid.sizes, self.grid.sizes[0]
        rows = [" ".join(map(str, numbers[at : at + nx])) for at in range(0, len(numbers), nx)]
        return "\n".join([f"{head} size {' '.join(map(str, sizes))}", *rows, "", ""])

    def write(self):
        """The output of an iteration, where it is due."""
        every = self.job["IO::out_every"]
        if every < 1 or self.iteration % every != 0:
            return
        for thorn in self.job.thorns:
            for group in thorn.groups:
                if self.is_named(thorn, group):
                    name = f"{thorn.implementation}::{group.variable}"
                    self.append(name, self.section(name, group).encode())

    def append(self, name, text):
        """Appends a text to the file of its variable."""
        if name not in self.outputs:
            folder = self.job["IO::out_dir"] or "."
            os.makedirs(folder, exist_ok=True)
            self.outputs[name] = open(os.path.join(folder, name + ".asc"), "wb")
        file = self.outputs[name]
        if file.tell() + len(text) > MOST_OUTPUT:
            raise Ended(f"OutputLimit {self.iteration}")
        file.write(text)

    def checkpoints(self):
        """Whether a checkpoint is due, so that the bin CHECKPOINT runs."""
        every = self.job["IO::checkpoint_every"]
        is_last = self.iteration == self.job["Cactus::cctk_itlast"]
        return every >= 1 and self.iteration % every == 0 or is_last and self.job["IO::checkpoint_on_terminate"]

    def go(self):
        self.bins("STARTUP", "WRAGH", "PARAMCHECK", "BASEGRID", "INITIAL", "POSTINITIAL", "POSTSTEP", "ANALYSIS")
        self.write()
        for self.iteration in range(1, self.job["Cactus::cctk_itlast"] + 1):
            self.rotate()
            self.bins("PRESTEP", "EVOL", "POSTSTEP")
            if self.checkpoints():
                self.bins("CHECKPOINT")
            self.bins("ANALYSIS")
            self.write()
        self.bins("TERMINATE", "SHUTDOWN")


def run(path, thorns=THORNS | PHYSICS):
    """Runs the job of a parameter file; the status, and the line that the program prints last."""
    job = Run(Job(path, thorns))
    try:
        job.go()
        return 0, f"done: iteration {job.iteration}"
    except Ended as end:
        return 3, f"ended: {end}"
    finally:
        for file in job.outputs.values():
            file.close()


def main():
    words = argparse.ArgumentParser(prog="model.py", description=__doc__, formatter_class=argparse.RawTextHelpFormatter)
    words.add_argument("file", metavar="FILE", help="the parameter file")
    status, line = run(words.parse_args().file)
    print(line)
    return status


if __name__ == "__main__":
    sys.exit(main())
