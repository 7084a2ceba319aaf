"""Proves and builds a program, with the crates that it stands on.

The kit's `rt ci` proves them side by side, as many as there are processors and memory, over a copy that has these crates alone,
and keeps what passed: the next time only what changed is proved, and what stands above it. Two callers build once: the second
waits for the first. The program that was there before is kept aside while it is built anew, and put back, though it isn't run,
where that fails.
"""
import fcntl
import os
import re
import select
import shutil
import subprocess
import tempfile
import time

from .crates import CRATES, TOP, files, folder_of, is_current, order_of
from .terminal import LiveLine, duration, say

# How long the dearest crates take, in minutes of one processor. Of the others it is told by their lines.
MEASURED = {
    "search_walk": 5, "qecode_commands": 4, "game_search": 2, "qc_play": 3, "check_lines": 3, "proof_text": 3, "qc_refuter": 2,
    "prop_linear": 2, "qc_model": 2, "text_resolve": 2,
}
LINES_A_MINUTE = 4_000
# What is expected before anything was measured here: minutes of the clock for each minute of one processor, which counts as
# much as so many minutes that were measured.
PACE, TRUST = 1.2 / len(os.sched_getaffinity(0)), 4
# The most that the check of a crate is likely to take.
MEMORY = 4 << 30
# What `rt ci` says of a crate that was proved now, that it had proved before, or that it could not prove.
PROVED = re.compile(rb"^rt: (\w+) proved$")
KEPT = re.compile(rb"^rt: (\w+) is kept: ")
REFUSED = re.compile(rb"^rt: (\w+) NOT PROVED$")
# What isn't needed to build a program: what its crates made before, and the edits that a check must refuse.
LEFT_OUT = shutil.ignore_patterns("out", "must-fail")


def weight(name):
    """How much work a crate is, in minutes of one processor: a guess."""
    if name in MEASURED:
        return MEASURED[name]
    lines = 0
    for path in files(name):
        with open(path, "rb") as file:
            lines += file.read().count(b"\n")
    return max(lines, 1) / LINES_A_MINUTE


class Progress:
    """How far the proofs have come, by the clock and by the weights of the crates."""

    def __init__(self, order, clock=time.monotonic):
        self.weights = {name: weight(name) for name in order}
        self.clock, self.began = clock, clock()
        # The minutes of work that were measured, and the seconds that they took.
        self.spent = self.took = 0.0
        self.now_since = self.began

    def finish(self, name, was_kept=False):
        """What was kept from before took no time, and tells nothing of the others."""
        work, now = self.weights.pop(name), self.clock()
        if not was_kept:
            self.spent += work
            self.took += now - self.now_since
        self.now_since = now

    def gone(self):
        return self.clock() - self.began

    def left(self):
        """The seconds that are left, as far as can be told: at the pace so far, and never less than none."""
        pace = (self.took + TRUST * PACE * 60) / (self.spent + TRUST)
        work = sum(self.weights.values())
        return max(work * pace - (self.clock() - self.now_since), 0.0) if work else 0.0

    def text(self):
        return f"{duration(self.gone())} gone, about {duration(self.left())} left"


def copy(order, room):
    """Copies these crates alone, as a repository of their own."""
    for name in order:
        shutil.copytree(folder_of(name), os.path.join(room, "crates", name), ignore=LEFT_OUT)
    with open(CRATES, encoding="utf-8") as lines, open(os.path.join(room, "crates.txt"), "w", encoding="utf-8") as to:
        to.writelines(line for line in lines if line.partition(":")[0].split()[:1] in [[name] for name in order])
    shutil.copy(os.path.join(TOP, "HANDLES"), room)


class Report:
    """Tells what `rt ci` says line by line, and writes all of it to the log."""

    def __init__(self, line, order, log):
        self.line, self.log, self.count, self.progress = line, log, len(order), Progress(order)
        self.refused = None
        self.rest = b""

    def done(self):
        return self.count - len(self.progress.weights)

    def show(self):
        self.line.show(f"{self.done()} of {self.count} crates, {self.progress.text()}")

    def take(self, data):
        self.log.write(data)
        *whole, self.rest = (self.rest + data).split(b"\n")
        for text in whole:
            self.take_line(text)

    def take_line(self, text):
        refused, kept = REFUSED.match(text), KEPT.match(text)
        ended = kept or PROVED.match(text)
        if refused and not self.refused:
            self.refused = refused[1].decode()
        name = ended[1].decode() if ended else None
        if name in self.progress.weights:
            self.progress.finish(name, was_kept=kept is not None)
            self.line.say(f"{self.done()} of {self.count}: {name}; {self.progress.text()}")


def at_once():
    """How many crates are proved at once: as many as there are processors, and memory."""
    with open("/proc/meminfo", encoding="ascii") as lines:
        free = next(int(line.split()[1]) << 10 for line in lines if line.startswith("MemAvailable:"))
    return max(min(len(os.sched_getaffinity(0)), free // MEMORY), 1)


def prove_in(room, report):
    """Proves and builds what stands there. Whether all was proved, and what is built ran."""
    env = {"RT_JOBS": str(at_once()), **os.environ}
    how = {"cwd": room, "env": env, "stdin": subprocess.DEVNULL, "stdout": subprocess.PIPE, "stderr": subprocess.STDOUT, "bufsize": 0}
    with subprocess.Popen(["rt", "ci"], **how) as work:
        try:
            while True:
                if not select.select([work.stdout], [], [], 1)[0]:
                    report.show()
                    continue
                data = os.read(work.stdout.fileno(), 1 << 16)
                if not data:
                    return work.wait() == 0
                report.take(data)
        except BaseException:
            work.terminate()
            raise


def prove(program, order, log):
    """Proves the crates and puts the program in its place, of the time at which they were copied. Whether all were proved."""
    line = LiveLine(program.name)
    report = Report(line, order, log)
    with tempfile.TemporaryDirectory(prefix=f"{program.name}-build-") as room:
        when = time.time()
        copy(order, room)
        try:
            proved = prove_in(room, report)
        finally:
            line.remove()
        made = os.path.join(room, "crates", program.crate, "out", program.crate)
        if report.refused:
            line.say(f"{report.refused} could not be proved")
        if not proved or not os.access(made, os.X_OK):
            return False
        # (a gate that runs in this checkout meanwhile moves the folder aside)
        os.makedirs(os.path.dirname(program.built), exist_ok=True)
        shutil.copy(made, program.built)
        os.utime(program.built, (when, when))
    return True


def build(program, order):
    if shutil.which("rt") is None:
        say(program.name, "the command rt of the Rattle kit isn't on the PATH; nothing was changed")
        return False
    aside = program.built + ".before"
    if os.path.exists(program.built):
        os.replace(program.built, aside)
    handle, path = tempfile.mkstemp(prefix=f"{program.name}-build-", suffix=".log")
    say(program.name, f"proving and building {len(order)} crates; a first time takes up to an hour on four processors")
    say(program.name, f"what the proofs say is written to {path}; {program.launcher} --now answers before, by a build of which nothing is proved")
    proved = False
    try:
        with os.fdopen(handle, "wb") as log:
            proved = prove(program, order, log) and os.access(program.built, os.X_OK)
    except OSError as why:
        say(program.name, f"a file could not be read or written: {why}")
    finally:
        if os.path.exists(aside):
            if proved:
                os.remove(aside)
            else:
                os.replace(aside, program.built)
    if not proved:
        say(program.name, f"the program could not be built; {path} tells why")
        return False
    os.remove(path)
    return True


def take(lock, program):
    try:
        fcntl.flock(lock, fcntl.LOCK_EX | fcntl.LOCK_NB)
    except BlockingIOError:
        say(program.name, "the program is being proved and built by another call, which is waited for")
        fcntl.flock(lock, fcntl.LOCK_EX)


def ensure(program):
    """Whether the proved program is there and current, which it is built for where it isn't."""
    order = order_of(program.crate)
    if is_current(program.built, order):
        return True
    os.makedirs(os.path.dirname(program.built), exist_ok=True)
    with open(os.path.join(os.path.dirname(program.built), "build.lock"), "w", encoding="ascii") as lock:
        take(lock, program)
        return is_current(program.built, order) or build(program, order)
