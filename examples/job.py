"""What the scripts here ask the program: which file it is, and what it says of a parameter file's job."""
import os
import re
import subprocess
import sys
from dataclasses import dataclass
from pathlib import Path

TOP = Path(__file__).resolve().parent.parent
PROVED = TOP / "crates" / "cactus" / "out" / "cactus"
TRIED = TOP / "out" / "try" / "cactus"
NO_JOB = 2
PARAMETER = re.compile(r'parameter (\S+) = "((?:[^"\\]|\\.)*)"', re.S)
VARIABLE = re.compile(r"^variable \d+ (\S+) ", re.M)
DIRECTION = re.compile(r"direction ([xyz]) points (\d+) ghost (\d+) (\w+)")


def program(as_it_is=False):
    """The program's file: what CACTUS names, else that of ../cactus where it is built, else that of ../try.

    The script is called once, without words, since it builds what is missing or older than its sources; a file as it is
    may be older.
    """
    named = os.environ.get("CACTUS")
    if named:
        return os.path.abspath(named)
    there = [made for made in (PROVED, TRIED) if os.access(made, os.X_OK)]
    if as_it_is and there:
        return str(there[0])
    script, made = ("cactus", PROVED) if PROVED in there else ("try", TRIED)
    ended = subprocess.run([TOP / script], stdin=subprocess.DEVNULL, stdout=subprocess.DEVNULL)
    if ended.returncode == 125:
        sys.exit(125)
    return str(made)


@dataclass
class Direction:
    """A direction of the grid: its letter, its points, and its ghost width."""

    letter: str
    points: int
    ghost: int


class Job:
    """What `describe` prints of a parameter file."""

    def __init__(self, made, file):
        told = subprocess.run([made, "describe", file], stdin=subprocess.DEVNULL, stdout=subprocess.PIPE)
        self.text = told.stdout.decode("latin-1")
        if told.returncode != 0:
            sys.stdout.write(self.text)
            sys.exit(NO_JOB)
        self.values = {name.lower(): unescaped(value) for name, value in PARAMETER.findall(self.text)}
        self.variables = VARIABLE.findall(self.key)
        self.directions = [Direction(it[0], int(it[1]), int(it[2])) for it in DIRECTION.findall(self.text)]

    def value(self, name):
        return self.values[name.lower()]

    def number(self, name):
        return int(self.value(name))

    @property
    def key(self):
        """The lines that a checkpoint's job must have in common with this one: all before the first starred one."""
        return self.text[: self.text.index("parameter driver::parts_x")]


def unescaped(text):
    return re.sub(r"\\(.)", lambda it: "\n" if it[1] == "n" else it[1], text, flags=re.S)
