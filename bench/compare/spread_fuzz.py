"""Small games at random, split into pieces as small as can be and merged again, against the outcome by brute force.

    bench/run spread_fuzz [--games N] [--seed S] [--first N] [--program PATH] [--piece-program PATH] [--open] [--wish]
                          [--engine clock|processes|dask] [--address A] [--jobs J]

The pieces get a turn or a few, so that they are split at every level that allows it. Whatever a merge states, `check` has to say
yes to it, the oracle has to judge it alike, and a settled outcome has to be the one that the oracle finds by going over all moves.

--open    deep pieces aren't split any more, so that most games stay open: of what is left open `yes open N` has to be said
--wish    games in which the first scope has a wish, and which are won
--engine  clock (the usual one) runs one piece after the other; processes has up to three at work; dask has its workers
--jobs J  plays in J processes
"""
import argparse
import multiprocessing
import os
import random
import sys
import tempfile
from collections import Counter

from compare.player import Maker
from oracle.certificates import judged
from program import Program, add_option, add_piece_option, piece_program
from spreading import engines
from spreading.clock import Clock
from spreading.merging import write_whole
from spreading.run import Policy, Run
from spreading.store import Store

DEEPEST = 50_000


def game_of(chance, wish):
    while True:
        game = Maker(chance, not wish and chance.random() < 0.3).game()
        if not wish or game.kinds and game.conditions[0] and game.outcome().startswith("true"):
            return game


def small_policy(chance):
    return Policy(
        turns=chance.choice([1, 1, 1, 2, 3]),
        first=chance.choice([1, 1, 5]),
        pieces=chance.choice([0, 2]),
        fan=chance.choice([2, 3, 9]),
        patience=chance.choice([None, None, 0.0]),
        regret=chance.choice([None, 1e9]),
    )


class Shallow(Run):
    """A run that leaves pieces open that are so many parts within parts."""

    deepest = None

    def use(self, job, path):
        if self.deepest is not None and len(job.piece.path) >= self.deepest and "-" in os.path.basename(path):
            if not job.is_look:
                job.piece.file, job.piece.state = path, "open"
            return
        super().use(job, path)


def engine_of(options, workers, folder):
    if options.engine == "clock":
        return Clock(options.program.path, workers, os.path.join(folder, "clock"), part=options.part)
    if options.engine == "dask":
        return engines.Dask(options.program.path, workers, folder, options.address, options.part)
    return engines.Processes(engines.here(options.program.path, workers, options.part), folder)


def spread(text, options, workers, policy, folder, deepest=None):
    """A run that has come to its end."""
    engine = engine_of(options, workers, folder)
    try:
        run = Shallow(Store(os.path.join(folder, "store"), text), engine, policy)
        run.deepest = deepest
        run.go()
    finally:
        engine.close()
    return run


def merged(run, path):
    write_whole(run.tree, path)
    with open(path, "rb") as file:
        return file.read()


def head_of(path):
    """What stands before a piece's certificate."""
    with open(path, "rb") as file:
        return file.read(100_000).split(b"qcert", 1)[0]


def played(task):
    """What was met in a game, and what went wrong in it, or None."""
    sys.setrecursionlimit(DEEPEST)
    options, number = task
    chance = random.Random(f"spread {options.seed} {number}")
    game = game_of(chance, options.wish)
    deepest = chance.choice([None, 1, 2, 4]) if options.open else None
    with tempfile.TemporaryDirectory() as folder:
        run = spread(game.text, options, 1 + number % 3, small_policy(chance), folder, deepest)
        data = merged(run, path := os.path.join(folder, "whole"))
        problem = os.path.join(folder, "problem.qc")
        with open(problem, "wb") as file:
            file.write(game.text)
        said = options.program.run("check", problem, path)[1].decode().strip()
        heads = [head_of(leaf.file) for leaf in run.tree.leaves() if leaf.file]
    root, met = run.tree.root, Counter(run.met)
    met[f"games: {root.kind or 'open'}"] += 1
    met["games that were split"] += run.tree.splits > 0
    met["splits"] += run.tree.splits
    met["pieces with a bound"] += sum(leaf.bound is not None for leaf in run.tree.leaves())
    met["pieces of the whole's text"] += sum(head.startswith(b"qpiece") for head in heads)
    met["pieces that were told a value"] += sum(b"\nreached " in head for head in heads)
    plain = judged(game, data)[0].decode().strip()
    well = said == plain and said.startswith("yes open" if root.kind is None else f"yes {game.outcome()}")
    well = well and (root.kind is None or said == f"yes {game.outcome()}")
    return met, None if well else (number, game.text.decode(), game.outcome(), said, plain, data.decode()[:3000])


def options_of(words):
    parser = argparse.ArgumentParser(prog="bench/run spread_fuzz", description=__doc__, formatter_class=argparse.RawTextHelpFormatter)
    parser.add_argument("--games", type=int, default=500)
    parser.add_argument("--seed", type=int, default=1)
    parser.add_argument("--first", type=int, default=0)
    parser.add_argument("--engine", choices=("clock", "processes", "dask"), default="clock")
    parser.add_argument("--address")
    parser.add_argument("--jobs", type=int, default=1)
    for flag in ("--open", "--wish"):
        parser.add_argument(flag, action="store_true")
    add_option(parser)
    add_piece_option(parser)
    options = parser.parse_args(words)
    options.program, options.part = Program(options.program), piece_program(options.piece_program)
    return options


def main(words):
    options = options_of(words)
    tasks = [(options, number) for number in range(options.first, options.first + options.games)]
    met, bad = Counter(), 0
    pool = multiprocessing.Pool(options.jobs) if options.jobs > 1 else None
    for some, wrong in pool.imap(played, tasks) if pool else map(played, tasks):
        met += some
        if wrong:
            bad += 1
            print("game", *wrong, sep="\n", flush=True)
    for what, times in sorted(met.items()):
        print(f"{times:7} {what}")
    print(f"{options.games} games, {bad} differences")
    return bad > 0
