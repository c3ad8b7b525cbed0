"""What measures share: a program's run and what it took, jobs of the sample thorns, and how numbers are shown."""
import shutil
import statistics
import subprocess
import tempfile
from pathlib import Path

TOP = Path(__file__).resolve().parent.parent
EXAMPLES = TOP / "examples"
MILLION = 1 << 20
HEAT = {"diff::pattern": '"random"', "diff::amount": 1000000, "diff::seed": 7}

# Per thorn: what the C loop calls it, the thorn, its start, and the settings of the same rule.
RULES = {
    "elementary automaton": ("ca", "ElemCA", {"ca::seed": 7}),
    "Life": ("life", "Life2D", {"life::pattern": '"random"', "life::seed": 7}),
    "gas without its sums": ("gas", "LatticeGas", {"gas::size": 1024, "gas::seed": 7}),
    "wave": ("wave", "WaveInt", {"wave::pattern": '"random"', "wave::amount": 1000, "wave::seed": 7}),
    "heat": ("heat", "DiffInt", HEAT),
    "heat in flux form, without its sum": ("flux", "HeatFlux", {
        "heatflux::pattern": '"random"', "heatflux::amount": 1000000, "heatflux::seed": 7}),
}
DIRECTIONS = {"ca": 1, "life": 2, "gas": 2, "wave": 1, "heat": 1, "flux": 3}


class Took:
    """What a program took: processor seconds, seconds by the clock, bytes of memory, and what it printed."""

    def __init__(self, words, folder):
        done = subprocess.run([folder / "took", "spent", *map(str, words)], cwd=folder, text=True,
                              stdout=subprocess.PIPE, stderr=subprocess.STDOUT)
        self.text = done.stdout
        if done.returncode:
            raise SystemExit(f"bench: {' '.join(map(str, words))} ended with {done.returncode}: {self.text[:400]}")
        processor, clock, kilobytes = map(int, (folder / "spent").read_text().split())
        self.processor, self.clock, self.memory = processor / 1e6, clock / 1e6, kilobytes * 1024


class Bench:
    """The program under measure, in a folder of its own, and the loops in C."""

    def __init__(self, program, rounds, divide):
        self.program, self.rounds, self.divide = Path(program).resolve(), rounds, divide
        self.folder = Path(tempfile.mkdtemp(prefix="bench"))
        shutil.copytree(EXAMPLES / "arrangements", self.folder / "arrangements")
        shutil.copytree(EXAMPLES / "physics" / "arrangements" / "Physics", self.folder / "arrangements" / "Physics")
        self.thorns = (EXAMPLES / "ThornList").read_text().split("\n") + ["Physics/LatticeGas", "Physics/HeatFlux"]
        self.list_thorns()
        self.change("Integer/DiffInt/param.ccl", 'INT factor "in 256ths"', 'INT factor "in 256ths" STEERABLE=ALWAYS')
        # without what they measure in each iteration
        self.cut("Physics/LatticeGas/schedule.ccl", "schedule gas_measure")
        self.cut("Physics/HeatFlux/schedule.ccl", "schedule heatflux_sum")
        for name in ("stencil", "took"):
            subprocess.run(["gcc", "-O3", "-o", self.folder / name, TOP / "bench" / f"{name}.c"], check=True)
        self.stencil = self.folder / "stencil"
        self.noise = []

    def list_thorns(self, more=()):
        (self.folder / "ThornList").write_text("\n".join([*self.thorns, *more]) + "\n")

    def change(self, name, old, new):
        file = self.folder / "arrangements" / name
        file.write_text(file.read_text().replace(old, new))

    def cut(self, name, word):
        file = self.folder / "arrangements" / name
        file.write_text(file.read_text().split(word)[0])

    def few(self, count):
        """So many, or fewer where a trial is made of small jobs."""
        return max(1, count // self.divide)

    def parameters(self, name, thorn, settings):
        lines = [f'ActiveThorns = "{thorn}"', *(f"{key} = {value}" for key, value in settings.items())]
        (self.folder / name).write_text("\n".join(lines) + "\n")

    def run(self, thorn, settings, command="run"):
        self.parameters("bench.par", thorn, settings)
        return Took([self.program, command, "bench.par"], self.folder)

    def c_step(self, loop, size):
        """Nanoseconds per point and step of the loop in C."""
        return float(Took([self.stencil, loop, size, max(2, self.few(100))], self.folder).text.split()[1])

    def clear(self, *names):
        for name in names:
            shutil.rmtree(self.folder / name, ignore_errors=True)


def side_of(loop, points):
    """How many points a grid of the rule has along each direction, which are about so many in all."""
    return round(points ** (1 / DIRECTIONS[loop]) - 1e-9)


def grid_of(grid, more=(), parts=None):
    settings = {f"driver::{key}": value for key, value in grid.items()}
    settings["driver::periodic"] = "yes"
    settings.update(parts or {})
    settings.update(more)
    return settings


def rule_on(name, points, cut=None):
    """The loop in C, its size, the thorn, the settings of the same grid, and how many points it has."""
    loop, thorn, start = RULES[name]
    side = side_of(loop, points)
    grid = {"global_nsize": side} if DIRECTIONS[loop] > 1 else {"global_nx": side}
    return loop, side, thorn, grid_of(grid, start, cut), side ** DIRECTIONS[loop]


def iterations(settings, last):
    return {**settings, "Cactus::cctk_itlast": last}


def step_nanoseconds(bench, thorn, settings, points):
    """What an iteration takes per point: a run of 110 iterations less one of 10."""
    more = bench.few(100)
    spent = [bench.run(thorn, iterations(settings, last)).processor for last in (10, 10 + more)]
    return (spent[1] - spent[0]) * 1e9 / (more * points)


def shown(numbers, digits=2):
    middle, least, most = statistics.median(numbers), min(numbers), max(numbers)
    return f"{middle:.{digits}f} [{least:.{digits}f} {most:.{digits}f}]"
