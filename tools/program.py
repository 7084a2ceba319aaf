"""The program that tools, comparisons and measurements run, named in one way: by the option --program, else by the environment
variable QECODE, else the one that ./qecode has proved and built. Where it's qdense that runs, the variable is QDENSE, and the
program that of ./qdense; so it is of qpart, which tools do without where it isn't there."""
import os
import shutil
import subprocess

TOP = os.path.dirname(os.path.dirname(os.path.realpath(__file__)))
CRATES = {"qecode": "qc_program", "qdense": "dense_program", "qpart": "qpart"}


def built(tool):
    """Where the program is that its launcher has proved and built."""
    return os.path.join(TOP, "crates", CRATES[tool], "out", CRATES[tool])


BUILT = built("qecode")


class NoProgram(Exception):
    """No such program can be run."""


def add_option(parser, tool="qecode"):
    told = f"the program to run, in place of ${tool.upper()} or the one that ./{tool} built"
    parser.add_argument("--program", metavar="PATH", help=told)


class Program:
    """A program that can be run; `path` is absolute."""

    def __init__(self, name=None, tool="qecode"):
        wanted = name or os.environ.get(tool.upper()) or built(tool)
        found = shutil.which(wanted)
        if found is None:
            raise NoProgram(missing(wanted, tool))
        self.path = os.path.abspath(found)

    def is_built_here(self):
        """Whether it's the program that ./qecode has proved and built in this checkout."""
        return os.path.exists(BUILT) and os.path.samefile(self.path, BUILT)

    def run(self, *words, **more):
        """The status of the program on these words, and the bytes that it writes. More is handed to subprocess.run."""
        more = {"stdout": subprocess.PIPE, "stdin": subprocess.DEVNULL} | more
        done = subprocess.run([self.path, *words], check=False, **more)
        return done.returncode, done.stdout


def add_piece_option(parser):
    parser.add_argument("--piece-program", metavar="PATH", help="the program for pieces, in place of QPART or the one that ./qpart built, "
                                                                "where it's there; where PATH is empty, none")


def piece_program(name=None):
    """The path of qpart; None where no name is given and it isn't built."""
    wanted = os.environ.get("QPART") if name is None else name
    if wanted is None and os.access(built("qpart"), os.X_OK):
        wanted = built("qpart")
    return Program(wanted, "qpart").path if wanted else None


# A call that proves and builds.
FIRST = {
    "qecode": "print examples/price.qc",
    "qdense": "check crates/dense_program/data/sum.qc crates/dense_program/data/sum.cert",
    "qpart": "solve examples/price.qc",
}


def missing(wanted, tool):
    if wanted == built(tool):
        return f"the program isn't built yet: run ./{tool} {FIRST[tool]} first, or name another by --program or {tool.upper()}"
    return f"{wanted}: no program that can be run"
