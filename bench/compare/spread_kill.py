"""Kills what a spread run is made of while it is at work: the outcome has to stay the same, and be believed.

    bench/run spread_kill [--problem FILE --outcome O] [--what program|coordinator|worker] [--times N] [--every S] [--program PATH]
                          [--piece-program PATH]

program       the processes of pieces are killed, N of them, S seconds apart; their pieces are run again, or split
coordinator   `tools/spread solve` itself is killed, N times, each time after a few results, and begun anew on the same store: it
              has to go on where it was
worker        workers of dask.distributed are killed (Debian's python3-distributed, with its own Python: /usr/bin/python3 bench/run ..)

Without a problem it is one that this script makes, of some seconds.
"""
import argparse
import os
import random
import signal
import subprocess
import sys
import tempfile
import threading
import time

from measure.rungs import FAMILIES
from program import TOP, Program, add_option, add_piece_option, piece_program
from spreading import engines, outcome
from spreading.run import Policy, Run
from spreading.store import Store

USUAL = "pricing 4-10-10"
# Results after which a coordinator is killed.
GROWTH = 3


def usual_problem():
    for name, text, known, *_ in FAMILIES["pricing"](random.Random("1 pricing")):
        if name == USUAL:
            return text.encode(), known
    raise ValueError(f"no rung is called {USUAL}")


class Killer(threading.Thread):
    """Kills one of the processes that `find` tells, again and again."""

    def __init__(self, options, find):
        super().__init__(daemon=True)
        self.options, self.find, self.over, self.killed = options, find, threading.Event(), 0
        self.chance = random.Random(1)

    def run(self):
        while self.killed < self.options.times and not self.over.wait(self.options.every):
            found = self.find()
            if found:
                try:
                    os.kill(self.chance.choice(found), signal.SIGKILL)
                    self.killed += 1
                except ProcessLookupError:
                    pass


def with_kills(options, text, folder):
    """What `check` says after a run whose processes were killed, and how often."""
    store = Store(os.path.join(folder, "store"), text)
    if options.what == "worker":
        engine = engines.Dask(options.program.path, 2, folder, part=options.part)
        find = engine.worker_pids
    else:
        engine = engines.Processes(engines.here(options.program.path, 2, options.part), store.folder)
        find = engine.pids
    killer = Killer(options, find)
    killer.start()
    try:
        run = Run(store, engine, Policy(patience=0.1))
        run.go()
    finally:
        killer.over.set()
        killer.join()
        engine.close()
    print(f"killed {killer.killed}; {run.met}")
    return outcome.conclude(run.tree, store, options.program).line


def begun_anew(options, text, folder):
    """The same after the coordinator was killed, and how many results it found each time."""
    problem, out, store = (os.path.join(folder, name) for name in ("problem.qc", "whole.cert", "store"))
    with open(problem, "wb") as file:
        file.write(text)
    words = [os.path.join(TOP, "tools", "spread"), "solve", problem, "--store", store, "--out", out, "--workers", "2"]
    words += ["--program", options.program.path, "--piece-program", options.part or "", "--quiet"]
    for number in range(options.times + 1):
        child = subprocess.Popen(words, stderr=subprocess.DEVNULL)
        before = journal_of(store)
        while child.poll() is None:
            if number < options.times and journal_of(store) >= before + GROWTH:
                child.kill()
            time.sleep(0.02)
        print(f"run {number + 1}: status {child.returncode}; the journal had {before} results, and has {journal_of(store)}", flush=True)
        if child.returncode >= 0:
            break
        time.sleep(0.5)  # programs that were left alone end by themselves
    return options.program.run("check", problem, out)[1].decode().strip()


def journal_of(store):
    path = os.path.join(store, "journal")
    if not os.path.exists(path):
        return 0
    with open(path, "rb") as file:
        return file.read().count(b"\n")


def options_of(words):
    parser = argparse.ArgumentParser(prog="bench/run spread_kill", description=__doc__, formatter_class=argparse.RawTextHelpFormatter)
    parser.add_argument("--problem")
    parser.add_argument("--outcome", metavar="O", help="the problem's known outcome, as `true 137`")
    parser.add_argument("--what", choices=("program", "coordinator", "worker"), default="program")
    parser.add_argument("--times", type=int, default=5)
    parser.add_argument("--every", type=float, default=0.5)
    add_option(parser)
    add_piece_option(parser)
    options = parser.parse_args(words)
    options.program, options.part = Program(options.program), piece_program(options.piece_program)
    return options


def main(words):
    options = options_of(words)
    text, known = usual_problem()
    if options.problem:
        known = options.outcome
        with open(options.problem, "rb") as file:
            text = file.read()
    with tempfile.TemporaryDirectory() as folder:
        said = (begun_anew if options.what == "coordinator" else with_kills)(options, text, folder)
    well = said == f"yes {known}"
    print(f"{said}: {'as it has to be' if well else f'WRONG, not yes {known}'}")
    return not well


if __name__ == "__main__":
    sys.exit(main(sys.argv[1:]))
