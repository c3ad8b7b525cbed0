"""Instructions by function, which other programs on the machine don't disturb, by valgrind."""
import re
import subprocess
from collections import Counter

from measure import HEAT, RULES, grid_of, iterations, rule_on

POINTS, MORE = 4096, 100


def valgrind(bench, tool, words, *flags):
    """The lines that a tool of valgrind writes of a run of these words."""
    file = bench.folder / f"{tool}.out"
    subprocess.run(["valgrind", f"--tool={tool}", f"--{tool}-out-file={file}", *flags, *map(str, words)],
                   cwd=bench.folder, check=True, stdout=subprocess.DEVNULL, stderr=subprocess.DEVNULL)
    return open(file)


def collected(bench, words):
    """Instructions of each function by itself, and with all that it calls, in a run of these words."""
    own, whole, function, called = Counter(), Counter(), None, False
    for line in valgrind(bench, "callgrind", words, "--compress-strings=no", "--compress-pos=no"):
        if line.startswith("fn="):
            function = line[3:].strip()
        elif line.startswith("calls="):
            called = True
        elif re.match(r"[0-9+*-]", line):
            count = int(line.split()[1])
            whole[function] += count
            own[function] += 0 if called else count
            called = False
    return own, whole


def of_run(bench, thorn, settings, command="run"):
    bench.parameters("bench.par", thorn, settings)
    return collected(bench, [bench.program, command, "bench.par"])[0]


def less(more, fewer):
    return Counter({name: more[name] - fewer[name] for name in more | fewer if more[name] != fewer[name]})


def of_iterations(bench, thorn, settings, more=MORE):
    """Instructions that each iteration more takes, by function."""
    spent = [of_run(bench, thorn, iterations(settings, last)) for last in (10, 10 + more)]
    return Counter({name: count / more for name, count in less(spent[1], spent[0]).items()})


def show(name, counts, units, least=0.05):
    """What is counted a unit, and of it each function that takes more than so much of one."""
    print(f"{name}: {sum(counts.values()) / units:.2f}")
    for function, count in counts.most_common():
        if count / units >= least:
            print(f"  {count / units:8.2f}  {function}")


def measure_iterations(bench):
    for name in RULES:
        loop, size, thorn, settings, points = rule_on(name, POINTS)
        plain = [collected(bench, [bench.stencil, loop, size, steps])[0] for steps in (10, 10 + MORE)]
        show(f"instructions a point and step of {name}, C", less(plain[1], plain[0]), MORE * points, 0.5)
        show(f"instructions a point and iteration of {name}", of_iterations(bench, thorn, settings), points)


def measure_text(bench):
    for name, variable in (("Life", "life::cell"), ("heat", "diff::u")):
        _, _, thorn, settings, _ = rule_on(name, POINTS)
        out = {"IO::out_dir": '"out"', "IO::out_vars": f'"{variable}"'}
        spent = [of_run(bench, thorn, iterations({**settings, **out, "IO::out_every": every}, 20)) for every in (0, 1)]
        size = (bench.folder / "out" / f"{variable}.asc").stat().st_size
        bench.clear("out")
        show(f"instructions a byte of output of {variable}", less(spent[1], spent[0]), size)


STAGES = re.compile(r"MemoryWire::new|Fields.*::new|::configure|::make_job|::read_\w+$|::bind$|::assign$|::order$|"
                    r"::check$|::matched_items|Keep::begin|::run_words$|::answer$|::cactus$")


def measure_start(bench):
    """A small run from its start to its end: instructions of its stages, with all that they call, and its memory."""
    bench.parameters("bench.par", "ElemCA", iterations(grid_of({"global_nx": 64}, {"ca::start": 32}), 31))
    words = [bench.program, "run", "bench.par"]
    own, whole = collected(bench, words)
    show("instructions of 31 iterations of 64 points, thousands, by function", own, 1000, 20)
    print("of stages, with all that they call:")
    for function, count in whole.most_common():
        if STAGES.search(function) and count >= 10_000:
            print(f"  {count / 1000:8.0f}  {function}")
    heap = max(int(line.split("=")[1]) for line in valgrind(bench, "massif", words) if line.startswith("mem_heap_B"))
    size = bench.program.stat().st_size
    print(f"memory that is allocated, at most: {heap / 1e6:.2f} MB; the program's file has {size / 1e6:.2f} MB")


def measure_steers(bench):
    (bench.folder / "s.txt").write_text("")
    settings = grid_of({"global_nx": POINTS}, HEAT)
    for count in (0, 1, 4096):
        (bench.folder / "s.txt").write_text("@1 diff::factor = 64\n" * count)
        steered = {**settings, "IO::steer_file": '"s.txt"'} if count else settings
        each = sum(of_iterations(bench, "DiffInt", steered).values())
        read = sum(of_run(bench, "DiffInt", steered, "check").values())
        print(f"heat with {count} steer lines: {each / POINTS:.3f} instructions a point and iteration, `check` "
              f"{read / 1e6:.2f} million")


def measure_parts(bench):
    """The same in one part and in 16, each of which has as many points as the grids above."""
    for name in ("Life", "gas without its sums", "heat in flux form, without its sum"):
        *_, thorn, settings, points = rule_on(name, 16 * POINTS)
        for parts, cut in ((1, {}), (16, {"driver::parts_x": 4, "driver::parts_y": 4})):
            counts = of_iterations(bench, thorn, {**settings, **cut}, MORE // 5)
            show(f"instructions a point and iteration of {name}, {points} points in {parts}", counts, points, 0.5)


def measure_turns(bench):
    """What an iteration takes for each of many parts, most of it to find which part can go on."""
    for count in (64, 512):
        settings = grid_of({"global_nx": 16 * POINTS, "parts_x": count}, HEAT)
        counts = of_iterations(bench, "DiffInt", settings, MORE // 10)
        show(f"instructions a part and iteration of heat, {16 * POINTS} points in {count}", counts, count, 500)


def measure_instructions(bench):
    for measure in (measure_iterations, measure_parts, measure_turns, measure_text, measure_start, measure_steers):
        measure(bench)
