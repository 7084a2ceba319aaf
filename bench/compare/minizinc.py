#!/usr/bin/env python3
"""The long comparisons of the MiniZinc interface, as a table in Markdown.

    bench/run minizinc [--seconds N] [MODEL ..]     # the models of tools/minizinc/tests/models, beside Gecode
    bench/run minizinc --games                      # games in MiniZinc, beside the hand-written texts
    bench/run minizinc --random GAMES MODELS [--seed S]     # random ones from number S on, against brute force

It wants MiniZinc and Gecode (docs/minizinc.md names Debian's packages), and the program, which QECODE may name.
"""
import argparse
import os
import sys
from collections import Counter

TOP = os.path.dirname(os.path.dirname(os.path.dirname(os.path.realpath(__file__))))
sys.path.insert(0, os.path.join(TOP, "tools", "minizinc", "tests"))
sys.dont_write_bytecode = True

import hand_written
import measuring
import random_models
from common import Tally, has_gecode, has_minizinc, has_program


def line(*cells):
    print("| " + " | ".join(map(str, cells)) + " |", flush=True)


def head(*cells):
    line(*cells)
    line(*["---"] * len(cells))


def beside_gecode(names, seconds):
    head("model", "variables", "constraints", "outcome", "seconds", "certificate", "Gecode", "seconds", "given back", "same")
    counted = Counter()
    for path in measuring.models(names):
        it = measuring.measured(path, seconds)
        same = {None: "", True: "yes", False: "NO"}[it.is_same()]
        counted[same or "not compared"] += 1
        by_qecode = it.name, it.variables, it.constraints, it.outcome, it.seconds, it.certificate
        line(*by_qecode, it.gecode, it.gecode_seconds, it.given_back, same)
    print(", ".join(f"{count} {what}" for what, count in counted.items()))
    return 1 if counted["NO"] else 0


def shown(it):
    if not isinstance(it, hand_written.Solved):
        return it
    return f"{it.outcome}, {it.seconds} s, {it.variables} variables, {it.bytes:,} bytes"


def beside_texts():
    head("game", "hand-written", "translated", "with `--early`")
    tally = Tally()
    for name, found in hand_written.compared():
        line(name, *map(shown, found))
        outcomes = {it.outcome if isinstance(it, hand_written.Solved) else it for it in found}
        tally.check(name, len(outcomes) == 1, str(outcomes))
    return tally.end()


def random_ones(games, models, seed):
    print(f"{models} models, {models // 4} with all solutions, {games} games, {games // 4} with optional variables, from {seed} on", flush=True)
    tally = Tally()
    random_models.checks(tally, random_models.model_trial, "model", models, seed)
    random_models.checks(tally, random_models.game_trial, "game", games, seed)
    random_models.checks(tally, random_models.optional_game_trial, "game with optional variables", games // 4, seed)
    random_models.checks(tally, random_models.solutions_trial, "all solutions", models // 4, seed)
    return tally.end()


def main(given):
    words = argparse.ArgumentParser(prog="bench/run minizinc", description="The long comparisons of the MiniZinc interface.")
    words.add_argument("--seconds", type=int, default=60, help="processor seconds for each solver and model")
    words.add_argument("--games", action="store_true", help="games beside the hand-written texts")
    words.add_argument("--random", type=int, nargs=2, metavar=("GAMES", "MODELS"), help="random ones against brute force")
    words.add_argument("--seed", type=int, default=0, metavar="S", help="number of the first random game and model; 0 by default")
    words.add_argument("models", nargs="*", help="names of models; all where none is named")
    args = words.parse_args(given)
    if not has_minizinc() or not has_program() or not (has_gecode() or args.games or args.random):
        print("bench/run minizinc: minizinc, fzn-gecode or the program is missing", file=sys.stderr)
        return 2
    if args.random:
        return random_ones(*args.random, args.seed)
    return beside_texts() if args.games else beside_gecode(args.models, args.seconds)

