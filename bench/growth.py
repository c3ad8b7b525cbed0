"""How time and memory grow with what a job has: points, parts, variables, thorns and iterations."""
import statistics
from pathlib import Path

import plot
from measure import HEAT, grid_of, iterations


class Growth:
    """What runs took at each count of one thing, each a median: (count, seconds, bytes of memory)."""

    def __init__(self, name, base, times):
        self.name, self.base, self.times, self.rows = name, base, times, []

    def add(self, count, tooks):
        seconds = statistics.median(it.processor for it in tooks)
        self.rows.append((count, seconds, statistics.median(it.memory for it in tooks)))

    def show(self):
        """Each row, with what each unit more than in the row before takes."""
        before = None
        for count, seconds, memory in self.rows:
            more = ""
            if before and count > before[0]:
                units = count - before[0]
                each = (seconds - before[1]) * 1e9 / (units * self.times)
                more = f"{each:.2f} | {(memory - before[2]) / units:.1f}"
            print(f"| {self.name} | {count} | {seconds:.4f} | {memory / 1e6:.1f} | {more or '|'} |", flush=True)
            before = count, seconds, memory
        (first, quick, small), (last, slow, large) = self.rows[0], self.rows[-1]
        each = (slow - quick) * 1e9 / ((last - first) * self.times)
        print(f"| {self.name} | each of {last - first} more | {slow - quick:.4f} | {(large - small) / 1e6:.1f} "
              f"| {each:.2f} | {(large - small) / (last - first):.1f} |", flush=True)

    def panel(self):
        seconds = [(count, seconds) for count, seconds, _ in self.rows]
        return self.name, self.base, [("seconds", seconds), ("mb", [(count, it / 1e6) for count, _, it in self.rows])]


def heat(bench, settings, last, rounds):
    return [bench.run("DiffInt", iterations(settings, last)) for _ in range(rounds)]


def by_points(bench):
    last = bench.few(256)
    growth = Growth(f"points: heat, {last} iterations", 2, last)
    for k in range(12, 25, 2):
        settings = grid_of({"global_nx": 1 << k}, HEAT)
        growth.add(1 << k, heat(bench, settings, last, 1 if k > 20 else min(5, bench.rounds)))
    return growth


def by_parts(bench):
    last = bench.few(400)
    growth = Growth(f"parts: 65536 points, {last} iterations", 2, last)
    for k in range(10):
        settings = grid_of({"global_nx": 1 << 16, "parts_x": 1 << k}, HEAT)
        growth.add(1 << k, heat(bench, settings, last, min(5, bench.rounds)))
    return growth


def by_variables(bench):
    """Heat that stores many variables more; what costs time with them is a checkpoint."""
    last = bench.few(100)
    growth = Growth(f"variables: 4096 points, {last} saves", 2, last)
    folder = bench.folder / "arrangements" / "Integer" / "DiffInt"
    interface, schedule = folder / "interface.ccl", folder / "schedule.ccl"
    kept = interface.read_text(), schedule.read_text()
    saving = {"IO::checkpoint_dir": '"chk"', "IO::checkpoint_every": 1}
    for k in range(2, 9):
        names = " ".join(f"v{j}" for j in range((1 << k) - 2))
        interface.write_text(kept[0] + "CCTK_INT more TYPE=GF DIM=1 { " + names + " }\n")
        schedule.write_text("STORAGE: more[1]\n" + kept[1])
        settings = grid_of({"global_nx": 1 << 12}, {**HEAT, **saving})
        growth.add(1 << k, heat(bench, settings, last, min(5, bench.rounds)))
    interface.write_text(kept[0])
    schedule.write_text(kept[1])
    bench.clear("chk")
    return growth


def write_thorn(folder, k):
    """A thorn with 3 scalars and 32 parameters, which computes nothing."""
    folder.mkdir(parents=True, exist_ok=True)
    (folder / "interface.ccl").write_text(f"implements: more{k}\npublic:\nCCTK_INT g TYPE=SCALAR {{ a b c }}\n")
    lines = "".join(f'INT p{j} "one of many" {{ 0:* :: "any" }} {j}\n' for j in range(32))
    (folder / "param.ccl").write_text("restricted:\n" + lines)
    (folder / "schedule.ccl").write_text("STORAGE: g[1]\n")


def by_thorns(bench):
    growth = Growth("thorns: check", 2, 1)
    names = [f"More{k}" for k in range(63)]
    for k, name in enumerate(names):
        write_thorn(bench.folder / "arrangements" / "Many" / name, k)
    bench.list_thorns(f"Many/{it}" for it in names)
    for count in (1, 2, 4, 8, 16, 32, 64):
        thorns = " ".join(["DiffInt", *names[:count - 1]])
        settings = grid_of({"global_nx": 64})
        growth.add(count, [bench.run(thorns, settings, "check") for _ in range(3 * bench.rounds)])
    bench.list_thorns()
    return growth


def by_iterations(bench, lead):
    growth = Growth(f"iterations: 2 parts, lead {lead}", 10, 1)
    settings = grid_of({"global_nx": 64, "parts_x": 2, "lead": lead}, HEAT)
    for k in range(1, 7):
        last = max(10, bench.few(10 ** k))
        growth.add(last, heat(bench, settings, last, 1 if k > 5 else min(5, bench.rounds)))
    return growth


def in_step(bench):
    return by_iterations(bench, 0)


def ahead(bench):
    return by_iterations(bench, 64)


def largest(bench):
    """The largest grid, with a checkpoint in each of two iterations, and without."""
    saving = {"IO::checkpoint_dir": '"chk"', "IO::checkpoint_every": 1}
    for name, thorn, start in (("heat", "DiffInt", HEAT), ("wave, three timelevels", "WaveInt", {})):
        settings = grid_of({"global_nx": 1 << 24}, start)
        plain = bench.run(thorn, iterations(settings, 2))
        saved = bench.run(thorn, iterations({**settings, **saving}, 2))
        size = (bench.folder / "chk" / "checkpoint.chkpt.0").stat().st_size
        bench.clear("chk")
        print(f"{name} on 2^24 points, two iterations: {plain.clock:.2f} s and {plain.memory / 1e6:.0f} MB; with two "
              f"checkpoints of {size / 1e6:.0f} MB {saved.clock:.2f} s, {saved.memory / 1e6:.0f} MB", flush=True)


def measure_growth(bench):
    print("| grows | count | processor seconds | memory, MB | each more: ns an iteration | bytes |")
    print("|---|---|---|---|---|---|")
    found = []
    for measure in (by_points, by_parts, by_variables, by_thorns, in_step, ahead):
        found.append(measure(bench))
        found[-1].show()
    if bench.picture:
        Path(bench.picture).write_bytes(plot.panels([it.panel() for it in found]))
    largest(bench)
