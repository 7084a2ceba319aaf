"""Calls the proved program.

What it writes goes to files, since certificates can be long. A call that takes too long is ended, and so is one whose caller is
ended: MiniZinc ends a solver by a signal.
"""
import ctypes
import os
import shutil
import signal
import subprocess
import time

TOP = os.path.dirname(os.path.dirname(os.path.dirname(os.path.dirname(os.path.realpath(__file__)))))
BUILT = os.path.join(TOP, "crates", "qc_program", "out", "qc_program")
PROGRAM = os.environ.get("QECODE") or BUILT

# Statuses of docs/command.md.
DONE, OPEN, BAD_PROBLEM, TOO_LONG, MEMORY = 0, 2, 4, 6, 9
PR_SET_PDEATHSIG = 1


class ProgramMissing(Exception):
    """There is no program to call."""


class OutOfTime(Exception):
    """The time limit is over."""


class Deadline:
    """A point in time, or none."""

    def __init__(self, milliseconds):
        self.end = time.monotonic() + milliseconds / 1000 if milliseconds else None

    def left(self):
        """The seconds that are left, or None without a limit."""
        if self.end is None:
            return None
        left = self.end - time.monotonic()
        if left <= 0:
            raise OutOfTime
        return left


def is_there():
    return shutil.which(PROGRAM) is not None


def end_with_caller():
    """The kernel ends the call where this process is ended without a chance to do so. Linux alone has this."""
    try:
        ctypes.CDLL(None).prctl(PR_SET_PDEATHSIG, signal.SIGKILL)
    except (AttributeError, OSError):
        pass


def call(words, to, deadline):
    """Calls the program, writes its output to the file `to`, and gives its status."""
    try:
        with open(to, "wb") as out:
            done = subprocess.run(
                [PROGRAM, *words],
                stdout=out,
                stderr=subprocess.DEVNULL,
                stdin=subprocess.DEVNULL,
                timeout=deadline.left(),
                preexec_fn=end_with_caller,
                check=False,
            )
        return done.returncode
    except subprocess.TimeoutExpired:
        raise OutOfTime from None
    except (FileNotFoundError, PermissionError):
        raise ProgramMissing(
            f"there is no program at {PROGRAM}; `./qecode` at the top of the checkout builds it, or QECODE names another"
        ) from None


def answer(words, folder, deadline):
    """Calls the program and gives its status and what it wrote, which is short."""
    path = os.path.join(folder, "answer")
    status = call(words, path, deadline)
    with open(path, encoding="ascii") as file:
        return status, file.read()
