"""What the scripts here read: the thorns' files below the current folder, parameter files, and the guide's tables.

It takes files that the program accepts, and is lenient with all others: the program says what is wrong with a file.
"""
import os
import re
import signal
import sys
from dataclasses import dataclass, field
from pathlib import Path

from job import Job, program

# What is printed may be cut by `head`.
signal.signal(signal.SIGPIPE, signal.SIG_DFL)

TOP = os.path.dirname(os.path.dirname(os.path.realpath(__file__)))
GUIDE = os.path.join(TOP, "docs", "GUIDE.md")
TOKENS = re.compile(r"#[^\n]*|\"(?:\\.|[^\"\\])*\"|'(?:\\.|[^'\\])*'|[A-Za-z_]\w*|-?\d+|::|\S", re.S)
GROUP = r"^\s*(?:CCTK_)?(?:BYTE|INT\d?)\s+(\w+)[^{\n]*(?:\{([^}]*)\})?"
TYPES = ("BOOLEAN", "BOOL", "INT", "KEYWORD", "STRING", "REAL")


@dataclass
class Thorn:
    """A line of ThornList, and the folder of its files."""

    arrangement: str
    name: str

    @property
    def folder(self):
        return os.path.join("arrangements", self.arrangement, self.name)

    @property
    def implementation(self):
        found = re.search(r"^\s*implements\s*:\s*(\w+)", read_text(self.file("interface.ccl")), re.M | re.I)
        return found[1] if found else self.name

    def file(self, name):
        return os.path.join(self.folder, name)


@dataclass
class Parameter:
    """A parameter as it is declared: where, of which type, its values as text, and its default."""

    owner: str
    name: str
    type: str
    values: list = field(default_factory=list)
    default: str = ""
    words: str = ""

    @property
    def full(self):
        return self.owner + "::" + self.name


@dataclass
class Setting:
    """A setting of a parameter file, and the line that it begins in."""

    line: int
    name: str
    value: str


def stop(text):
    sys.exit("%s: %s" % (os.path.basename(sys.argv[0]), text))


def read_text(path):
    try:
        with open(path, encoding="latin-1") as file:
            return file.read()
    except OSError:
        return ""


def plain(token):
    return token[1:-1] if token[:1] in "\"'" else token


def list_thorns():
    """The thorns of ThornList, in its order."""
    lines = [line for line in read_text("ThornList").splitlines() if not line.startswith("!")]
    words = [word for line in lines for word in re.sub("#.*", "", line).split() if "/" in word]
    return [Thorn(*word.split("/", 1)) for word in words]


class Tokens:
    """The tokens of a file without its comments, from the first on."""

    def __init__(self, text):
        self.all = [token for token in TOKENS.findall(text) if not token.startswith("#")]
        self.at = 0

    def peek(self):
        return self.all[self.at] if self.at < len(self.all) else ""

    def take(self):
        token = self.peek()
        self.at += 1
        return token

    def take_if(self, *wanted):
        return self.take() if self.peek() and self.peek().upper() in wanted else None

    def skip_text(self):
        if self.peek()[:1] in ('"', "'"):
            self.take()


def read_ranges(tokens):
    """The ranges up to the closing brace, each as its own text; what follows `::` is dropped."""
    values, current = [], ""
    while tokens.peek() and not tokens.take_if("}"):
        token = tokens.take()
        if token == "::":
            tokens.skip_text()
            values, current = values + [current], ""
        elif token[:1] in "\"'":
            values.append(plain(token))
        elif token != ",":
            # Two numbers that no colon parts are two ranges.
            if current and re.search(r"[\d*)\]]$", current) and re.match(r"-?\d|[*(\[]", token):
                values, current = values + [current], ""
            current += token
    return values + [current] if current else values


def read_parameters(thorn):
    """The parameters that a thorn's param.ccl declares for itself; those of others that it uses are left out."""
    tokens = Tokens(read_text(thorn.file("param.ccl")))
    found, owner, is_own = [], thorn.name, True
    while tokens.peek():
        word = tokens.take().upper()
        if word in ("PRIVATE", "RESTRICTED", "GLOBAL", "SHARES"):
            tokens.take_if(":")
            is_own = word != "SHARES"
            owner = thorn.name if word == "PRIVATE" else thorn.implementation
        elif re.sub("^CCTK_", "", word) in TYPES:
            parameter = read_declaration(tokens, owner, re.sub("^CCTK_", "", word))
            found += [parameter] if is_own else []
    return found


def read_declaration(tokens, owner, kind):
    parameter = Parameter(owner, tokens.take(), "BOOLEAN" if kind == "BOOL" else kind)
    while tokens.peek() and not tokens.take_if("{"):
        token = tokens.take()
        if token[:1] in "\"'":
            parameter.words = plain(token)
    parameter.values = read_ranges(tokens)
    parameter.default = plain(tokens.take())
    return parameter


def list_groups():
    """The groups that the thorns declare, each with its variables, by full names."""
    found = []
    for thorn in list_thorns():
        text = re.sub("#.*", "", read_text(thorn.file("interface.ccl")))
        for group, names in re.findall(GROUP, text, re.M | re.I):
            full = [thorn.implementation + "::" + name for name in [group] + re.findall(r"\w+", names)]
            found.append((full[0], full[1:] or full))
    return found


def list_variables():
    """The groups and variables that the thorns declare, by full names."""
    return [name for group, names in list_groups() for name in dict.fromkeys([group, *names])]


def output_variables(out_vars, variables):
    """Which of the job's variables IO::out_vars names, in the variables' order: by a full name, or else by a group's."""
    known = [name.lower() for name in variables]
    wanted = out_vars.lower().split()
    for group, names in list_groups():
        if group.lower() in wanted and group.lower() not in known:
            # The copies of a variable end with a bracket.
            wanted += [it for it in known if it.split("[")[0] in map(str.lower, names)]
    return [name for name in variables if name.lower() in wanted]


def output_files(job):
    """The output files of a job, one for each variable that it writes, in the variables' order."""
    names = output_variables(job.value("IO::out_vars"), job.variables)
    return [Path(job.value("IO::out_dir")) / f"{name}.asc" for name in names]


def group_of(variable):
    """The group of a variable by its name alone, or None where no thorn declares it."""
    wanted = variable.lower()
    groups = [group for group, names in list_groups() if wanted in map(str.lower, names)]
    return groups[0].split("::")[-1] if groups else None


def read_table(heading):
    """The rows of the guide's tables below a heading, up to the next heading of its level: each a list of cells."""
    text = read_text(GUIDE)
    level = heading.split()[0]
    found = re.search(r"^%s$(.*?)(?=^#{1,%d} |\Z)" % (re.escape(heading), len(level)), text, re.M | re.S)
    if not found:
        stop("no heading %r in %s" % (heading, GUIDE))
    lines = [line for line in found[1].splitlines() if line[:1] == "|"]
    rows = [[cell.strip() for cell in line.strip("|").split(" | ")] for line in lines]
    return [row for row in rows if not row[0].startswith("---")]


def built_in_parameters():
    """The parameters of the flesh, the driver and IO, from the guide's table."""
    found = []
    for row in read_table("## Parameters of the flesh, the driver and IO"):
        names = re.findall(r"`(\w+::)?(\w+)`", row[0])
        owner = ""
        for prefix, name in names:
            owner = prefix[:-2] or owner
            values, default, words = (cell.replace("`", "") for cell in row[1:4])
            found.append(Parameter(owner, name, "", [values], default, words))
    return found


def all_parameters():
    return built_in_parameters() + [parameter for thorn in list_thorns() for parameter in read_parameters(thorn)]


def find_parameter(name, parameters):
    """The parameter of this name, full or alone, without regard to case; PUGH and IOUtil mean driver and IO."""
    wanted = re.sub("^ioutil::", "io::", re.sub("^pugh::", "driver::", name.lower()))
    wanted = re.sub(r"\[.*", "", wanted)
    for parameter in parameters:
        if wanted == parameter.full.lower():
            return parameter
    return None


def read_settings(path):
    """The settings of a parameter file, in its order."""
    lines = read_text(path).split("\n")
    found, number = [], 0
    while number < len(lines):
        first = number + 1
        match = re.match(r"\s*([^\s=#!\"]+)\s*=\s*(.*)", lines[number], re.S)
        number += 1
        if not match:
            continue
        name, rest = match.groups()
        if rest.startswith('"'):
            while len(re.findall(r'(?<!\\)"', rest)) < 2 and number < len(lines):
                rest += "\n" + lines[number]
                number += 1
            rest = rest[1:].split('"')[0]
        else:
            rest = re.split(r"[\s#]", rest)[0]
        base = os.path.basename(path)
        stem = base[:-4] if base.endswith(".par") else base
        found.append(Setting(first, name, stem if rest == "$parfile" else rest))
    return found


def describe(path):
    """The lines that `describe` prints of a parameter file; where it is refused, all ends with the refusal."""
    return Job(program(), path).text.splitlines()
