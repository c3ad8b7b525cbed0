"""What the trials share: the job, its runs, and what they leave."""
import subprocess
import sys
from pathlib import Path

sys.dont_write_bytecode = True
TOP = Path(__file__).resolve().parent.parent.parent
sys.path.insert(0, str(TOP / "examples"))
from job import program  # noqa: E402,F401

CANT_TRY = 2


def counts(tries, iterations):
    """How many tries, and of how many iterations, as the words say or by default."""
    words = [int(word) for word in sys.argv[1:3]]
    return (*words, *(tries, iterations)[len(words) :])


ARRANGEMENTS = TOP / "examples"


def write_job(folder, name, seed, last, room):
    """A parameter file of random cells, which writes all into the folder `room`."""
    for needed in ("ThornList", "arrangements"):
        link = folder / needed
        if not link.exists():
            link.symlink_to(ARRANGEMENTS / needed)
    text = f"""ActiveThorns = "Life2D"
Cactus::cctk_itlast = {last}
driver::global_nx = 40
driver::global_ny = 30
driver::periodic = yes
life::pattern = "random"
life::seed = {seed}
IO::out_dir = "{room}"
IO::out_every = 1
IO::out_vars = "life::cell"
IO::checkpoint_dir = "{room}"
IO::checkpoint_every = 5
IO::recover = "autoprobe"
"""
    (folder / name).write_text(text)


def start(made, folder, name, **more):
    """A run of the parameter file that has begun."""
    words = [made, "run", name]
    return subprocess.Popen(
        words, cwd=folder, stdin=subprocess.DEVNULL, stdout=subprocess.PIPE, stderr=subprocess.STDOUT, **more
    )


def said(run):
    """What a run prints, and its status, once it has ended."""
    return run.communicate()[0].decode("latin-1").strip(), run.returncode


def left(folder, room):
    """The bytes of each output in the folder, by its name."""
    files = sorted((folder / room).glob("*.asc"))
    return {it.name: it.read_bytes() for it in files}
