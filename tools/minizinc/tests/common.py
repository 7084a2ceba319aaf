"""What the tests share: paths, calls, and the count of what passed."""
import os
import shutil
import subprocess
import sys

HERE = os.path.dirname(os.path.realpath(__file__))
TOOL = os.path.dirname(HERE)
TOP = os.path.dirname(os.path.dirname(TOOL))
sys.path.insert(0, TOOL)
sys.dont_write_bytecode = True

from qecodefzn import program

FZN_QECODE = os.path.join(TOOL, "fzn-qecode")
QECODE_MZN = os.path.join(TOOL, "qecode-mzn")
# Where Debian's package has MiniZinc's library, and the part of it that fits its Gecode: the configuration of that package
# names another one, which MiniZinc 2.6.4 doesn't find everything in.
LIBRARY = "/usr/share/minizinc/std"
GECODE = {
    "id": "org.gecode.plain",
    "name": "Gecode",
    "version": "6.2.0",
    "mznlib": "/usr/share/minizinc/gecode_presolver",
    "executable": "fzn-gecode",
    "tags": ["cp", "int"],
    "stdFlags": ["-a", "-f", "-n", "-p", "-r", "-s", "-t"],
    "supportsFzn": True,
    "needsSolns2Out": True,
}


class Tally:
    """Counts checks, tells those that fail, and those that were skipped."""

    def __init__(self):
        self.passed = self.failed = 0

    def check(self, name, is_right, why=""):
        if is_right:
            self.passed += 1
        else:
            self.failed += 1
            print(f"FAILED {name}: {why}", flush=True)

    def skip(self, what, why):
        print(f"skipped {what}: {why}", flush=True)

    def end(self):
        print(f"{self.passed} passed, {self.failed} failed", flush=True)
        return 1 if self.failed else 0


def run(words, seconds=120, text=None):
    """Status, standard output and standard error; the status is None where time ran out."""
    try:
        done = subprocess.run(words, capture_output=True, text=True, input=text, timeout=seconds, check=False)
    except subprocess.TimeoutExpired:
        return None, "", f"no answer within {seconds} s"
    return done.returncode, done.stdout, done.stderr


def has_minizinc():
    return shutil.which("minizinc") is not None


def has_gecode():
    return has_minizinc() and shutil.which("fzn-gecode") is not None


def has_program():
    return program.is_there()


def write(folder, name, text):
    path = os.path.join(folder, name)
    with open(path, "w", encoding="utf-8") as file:
        file.write(text)
    return path


def read(path):
    with open(path, encoding="utf-8") as file:
        return file.read()
