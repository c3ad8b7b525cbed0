"""What it costs to cut the grid anew: at a checkpoint of a large grid, and in runs whose load moves."""
import statistics

from measure import MILLION, grid_of, iterations, rule_on, shown, side_of

SAVES = 3

# Per rule: the variable that weighs, and the parts of each direction.
CUTS = {
    "heat": ("diff::u", {"parts_x": 16}),
    "Life": ("life::cell", {"parts_x": 4, "parts_y": 4}),
    "heat in flux form, without its sum": ("heatflux::u", {"parts_x": 4, "parts_y": 2, "parts_z": 2}),
}

# Per load that moves: the thorn, its start, and the variable that weighs.
LOADS = {
    "heat from one corner": ("DiffInt", {"diff::amount": 1000000000}, "diff::u"),
    "a glider": ("Life2D", {}, "life::cell"),
}


def parts_of(cut):
    return {f"driver::{key}": value for key, value in cut.items()}


def saving(every):
    return {"IO::checkpoint_dir": '"chk"', "IO::checkpoint_every": every}


def balanced(variable):
    return {"driver::balance": "yes", "driver::weight": f'"{variable}"', "driver::weight_factor": 100}


def beside(bench, thorn, settings, variable):
    """A run in its own cut, and the same that is cut anew."""
    tooks = [bench.run(thorn, {**settings, **more}) for more in ({}, balanced(variable))]
    bench.clear("chk")
    return tooks


def measure_cuts(bench):
    print("| a checkpoint of some 2^24 points in 16 parts | cut anew, seconds of the processor more | by the clock "
          "| memory: without, with |\n|---|---|---|---|")
    for name, (variable, cut) in CUTS.items():
        _, _, thorn, settings, _ = rule_on(name, bench.few(16 * MILLION), parts_of(cut))
        settings = iterations({**settings, **saving(1)}, SAVES)
        more, later = [], []
        for _ in range(min(5, bench.rounds)):
            own, anew = beside(bench, thorn, settings, variable)
            more.append((anew.processor - own.processor) / SAVES)
            later.append((anew.clock - own.clock) / SAVES)
        print(f"| {name} | {shown(more, 3)} | {shown(later, 3)} | {own.memory / 1e6:.0f}, {anew.memory / 1e6:.0f} MB |",
              flush=True)


def measure_loads(bench):
    bench.change("Integer/DiffInt/interface.ccl", "DIM=1", "DIM=2")
    side = side_of("life", bench.few(MILLION // 4))
    print(f"| {side} by {side} points in 16 parts, 1000 iterations | a checkpoint in each | own cut, seconds | "
          "cut anew, seconds | loss |\n|---|---|---|---|---|")
    for name, (thorn, start, variable) in LOADS.items():
        settings = grid_of({"global_nsize": side, "parts_x": 4, "parts_y": 4}, start)
        for every in (10, 100):
            spent = [], []
            for _ in range(bench.rounds):
                tooks = beside(bench, thorn, iterations({**settings, **saving(every)}, 1000), variable)
                for found, took in zip(spent, tooks):
                    found.append(took.processor)
            own, anew = (statistics.median(it) for it in spent)
            print(f"| {name} | {every} | {shown(spent[0])} | {shown(spent[1])} | {100 * anew / own - 100:+.1f} % |",
                  flush=True)
    bench.change("Integer/DiffInt/interface.ccl", "DIM=2", "DIM=1")


def measure_balance(bench):
    measure_cuts(bench)
    print()
    measure_loads(bench)
