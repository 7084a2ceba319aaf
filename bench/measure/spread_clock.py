"""How long a game takes with 1, 2, 4, 16 workers, on a clock of processor seconds.

    bench/run spread_clock [NAME ..] [--workers N,N..] [--turns N] [--first N] [--pieces N] [--patience S] [--regret S] [--fan N]
                           [--overhead S] [--keep FOLDER] [--program PATH] [--piece-program PATH]

Each piece is really run, once, and its processor seconds are how long a worker takes for it; so what is told doesn't depend on what
else the machine does, nor on how many processors it has. Names are those of rungs of the ladder (`bench/run ladder --list`), or files.
A line tells the seconds of `solve` alone, and for each number of workers:

    seconds   until the whole was settled; `check`, which comes after, takes what the last column says
    work      processor seconds of all workers together
    pieces    settled, and how often a split was made
    outcome   as `check` says it

--overhead  seconds that each run costs besides: starting the program, reading the text
--keep      keeps runs there, so that another call finds those that it needs too
"""
import argparse
import os
import random
import tempfile

from measure.ladder import run as timed
from measure.rungs import FAMILIES
from program import Program, add_option, add_piece_option, piece_program
from spreading.clock import Clock
from spreading.merging import write_whole
from spreading.run import Policy, Run
from spreading.store import Store

USUAL = ["pricing 4-10-10", "cram 4x5", "kayles 20", "shop 8-2", "shortest way 4-5-3", "formula 20-4", "formula 22-3", "Fibonacci nim 40"]
MOST_TURNS = 10_000_000
LONGEST = 3600


def texts(names):
    known = {}
    for family, make in FAMILIES.items():
        known |= {name: text for name, text, *_ in make(random.Random(f"1 {family}"))}
    for name in names:
        if name in known:
            yield name, known[name].encode()
        else:
            with open(name, "rb") as file:
                yield os.path.basename(name), file.read()


def measured(options, text, workers, folder):
    clock = Clock(options.program.path, workers, options.keep or os.path.join(folder, "clock"), options.overhead, options.part)
    with tempfile.TemporaryDirectory(dir=clock.folder) as place:
        store = Store(place, text)
        policy = Policy(options.turns, options.first, options.pieces, options.patience, options.regret, options.fan)
        run = Run(store, clock, policy)
        run.go()
        write_whole(run.tree, whole := os.path.join(place, "whole"))
        with tempfile.TemporaryFile() as said:
            _, seconds, _ = timed([options.program.path, "check", store.path("problem"), whole], said, LONGEST)
            said.seek(0)
            line = said.read().decode().strip()
        counts = f"{run.tree.settled:5} pieces {run.tree.splits:5} splits {run.met['restarted']:4} anew"
        return f"{workers:3} workers {clock.now():8.2f} s  work {clock.work:8.2f} s  {counts}  {line}  check {seconds:.2f} s"


def options_of(words):
    usual = Policy()
    parser = argparse.ArgumentParser(prog="bench/run spread_clock", description=__doc__, formatter_class=argparse.RawTextHelpFormatter)
    parser.add_argument("names", nargs="*", default=USUAL, metavar="NAME")
    parser.add_argument("--workers", default="1,2,4,16")
    for name, kind in ("turns", int), ("first", int), ("pieces", int), ("fan", int), ("patience", float), ("regret", float):
        parser.add_argument(f"--{name}", type=kind, default=getattr(usual, name))
    parser.add_argument("--overhead", type=float, default=0.01)
    parser.add_argument("--keep", metavar="FOLDER")
    add_option(parser)
    add_piece_option(parser)
    options = parser.parse_args(words)
    options.program, options.part = Program(options.program), piece_program(options.piece_program)
    return options


def main(words):
    options = options_of(words)
    with tempfile.TemporaryDirectory() as folder:
        for name, text in texts(options.names or USUAL):
            clock = Clock(options.program.path, 1, options.keep or os.path.join(folder, "clock"))
            status, seconds, _ = clock.ran(text, MOST_TURNS)
            print(f"{name}: alone {seconds:.2f} s{' and open' if status == 2 else ''}", flush=True)
            for workers in map(int, options.workers.split(",")):
                print("  " + measured(options, text, workers, folder), flush=True)
    return 0
