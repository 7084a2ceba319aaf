"""Yardsticks of lists of lemmas: plain games (plain.py), by the program and by a model of its search in the same run.

    bench/run lists [--list] [--ladder | --other] [--only FAMILY] [--first S] [--seeds N] [--program PATH] [--search WORDS]
                    [--model PATH] [--seconds N] [--runs N] [--texts FOLDER] [--save FILE]

Nothing here is part of the gate.

The program is qdense: --program, else the environment variable QDENSE, else what `./qdense` has proved and built. It solves
each game and checks what it wrote. The model is `models/lemmas.cpp`, which g++ compiles first. A line tells:

    known       the answer by a plain method; `-` where there is none
    outcome     what the program's certificate states; `limit` where the time was up, `status K` where it ended with K
    solve       processor seconds to solve, of the program and of the model, and the one by the other
    bytes       of the list, the same three
    check       processor seconds of `check` on the program's list

A line ends with what is to be looked at:

    WRONG       the outcome isn't the known one, or where none is known, not the model's
    UNCHECKED   `check` doesn't answer `yes` with the outcome
    SLOW        more than twice the model's time, of games that take the model 0.05 seconds or more
    LONG        more than 1.2 times the model's bytes
    SLOW CHECK  more than a tenth of the time to solve, of games that take the program 0.5 seconds or more
    VERSION 2   the certificate is a tree: the search for lists gave way
    NOTHING     no certificate; and MODEL: NOTHING where the model found none

The script's status is 1 where something is WRONG or UNCHECKED.

--list     says which games there are, and their known answers
--ladder   the plain games of the ladder (rungs.py) in place of these
--other    games of other sizes, on which nothing was tuned
--only     one family: formulas, interdiction, shop, knapsack, nim or boards; of the ladder puzzles too
--seeds    so many games of a kind; three else
--first    the first seed; 1 else
--search   another search than `qdense solve`, by words in which PROBLEM stands for the file with the game and LIST for that
           of the list (without LIST it's the output), as `"PROGRAM PROBLEM -o LIST"`; what it finds is checked by the program
           if there is one
--model    the model's program, compiled already
--seconds  processor seconds for each run; 60 else
--runs     the least time of so many runs of less than a second each; three else
--texts    keeps the games' texts there
--save     writes the results, a line for each game
"""
import argparse
import os
import random
import re
import shutil
import subprocess
import tempfile
from dataclasses import dataclass, fields

from compare.searches import TOLD, Search
from measure import plain, rungs
from measure.ladder import least, shown
from program import NoProgram, Program, add_option

SOURCE = os.path.join(os.path.dirname(os.path.realpath(__file__)), "models", "lemmas.cpp")
# What is shorter is told but not held against the yardsticks.
LONG_FOR_MODEL = 0.05
LONG_TO_SOLVE = 0.5
SLOW, LONG, SLOW_CHECK = 2, 1.2, 0.1


@dataclass
class Found:
    """What a search came to: the outcome that is stated or why there is none, the version of the certificate, processor
    seconds, and bytes."""

    outcome: str
    version: int
    seconds: float
    bytes: int

    def is_settled(self):
        return self.outcome in ("true", "false")


@dataclass
class Row:
    """What was measured of a game; None where it wasn't. The fields are the columns of a file of results."""

    family: str
    name: str
    known: str
    outcome: str
    version: int
    solve: float
    model: float
    bytes: int
    model_bytes: int
    checked: str
    check: float
    notes: str

    def cells(self):
        values = (getattr(self, field.name) for field in fields(self))
        return [shown("{:.3f}" if isinstance(value, float) else "{}", value) for value in values]


# ---- Runs.


def found_by(options, search, problem, place):
    """What a search finds, by the least time of some runs; its certificate is left at the place."""
    if os.path.exists(place):
        os.remove(place)
    words, output = search.words(problem, place)
    with open(output, "wb") as file:
        status, seconds, _ = least(options, words, file)
    version, outcome = head_of(place)
    if outcome is None:
        outcome = "limit" if status < 0 else f"status {status}"
        return Found(outcome, None, seconds, None)
    return Found(outcome, version, seconds, os.path.getsize(place))


def head_of(place):
    """The version of a certificate and the outcome that it states, both None where there is none."""
    if not os.path.exists(place):
        return None, None
    with open(place, "rb") as file:
        head = re.match(rb"qcert (\d)\n([^\n]*)\n", file.read(100))
    return (int(head[1]), head[2].decode()) if head else (None, None)


def checked_by(options, problem, place, folder):
    """What the program's `check` answers, and its processor seconds."""
    answer = os.path.join(folder, "answer")
    with open(answer, "wb") as file:
        _, seconds, _ = least(options, [options.program, "check", problem, place], file)
    with open(answer, encoding="utf-8") as file:
        return file.read().strip() or "nothing", seconds


def measured(options, family, name, known, problem, folder):
    place = os.path.join(folder, "list")
    model = found_by(options, options.model, problem, place)
    own = found_by(options, options.search, problem, place)
    checked, check = None, None
    if own.bytes is not None and options.program:
        checked, check = checked_by(options, problem, place, folder)
    notes = "; ".join(findings(known, own, model, checked, check))
    sizes = own.bytes, model.bytes
    return Row(family, name, known, own.outcome, own.version, own.seconds, model.seconds, *sizes, checked, check, notes)


# ---- What is told.


def findings(known, own, model, checked, check):
    """What is to be looked at."""
    if own.version is None:
        yield "NOTHING"
    elif own.is_settled() and own.outcome != (known or (model.outcome if model.is_settled() else own.outcome)):
        yield "WRONG"
    if not model.is_settled():
        yield f"MODEL: {model.outcome}"
    elif known and model.outcome != known:
        yield "MODEL WRONG"
    if checked is not None and checked != f"yes {own.outcome}":
        yield "UNCHECKED"
    if own.version == 2:
        yield "VERSION 2"
    if own.is_settled() and model.is_settled():
        yield from beyond(own, model)
    if check is not None and own.seconds >= LONG_TO_SOLVE and check > SLOW_CHECK * own.seconds:
        yield f"SLOW CHECK {check / own.seconds:.2f}"


def beyond(own, model):
    if model.seconds >= LONG_FOR_MODEL and own.seconds > SLOW * model.seconds:
        yield f"SLOW x{own.seconds / model.seconds:.1f}"
    if own.bytes > LONG * model.bytes:
        yield f"LONG x{own.bytes / model.bytes:.1f}"


LINE = "{:38} {:>6} {:>9} {:>8} {:>8} s {:>5} {:>9} {:>9} bytes {:>5} {:>7} s  {}"


def line_of(row):
    cells = dict(zip((field.name for field in fields(row)), row.cells()))
    by = lambda one, other: f"x{one / other:.2f}" if one and other else "-"
    factors = by(row.solve, row.model), by(row.bytes, row.model_bytes)
    keys = "name known outcome solve model".split()
    parts = [*(cells[key] for key in keys), factors[0], cells["bytes"], cells["model_bytes"], factors[1]]
    return LINE.format(*parts, cells["check"], row.notes).rstrip()


def tell_sum(rows):
    """The whole of the games that both settle by a list."""
    both = [row for row in rows if row.bytes and row.model_bytes and row.version == 3]
    if not both:
        return
    total = lambda key: sum(getattr(row, key) for row in both)
    print(
        f"{len(rows)} games, {len(both)} settled by both:"
        f" {total('solve'):.2f} s, the model {total('model'):.2f}; {total('bytes')} bytes, the model {total('model_bytes')};"
        f" {sum('SLOW x' in row.notes for row in rows)} slow, {sum('LONG' in row.notes for row in rows)} long"
    )


# ---- The run.


def games(options):
    """The plain games of the families that are asked for, seed by seed."""
    families = rungs.FAMILIES if options.ladder else plain.FAMILIES
    sizes = () if options.ladder else (plain.OTHER if options.other else plain.USUAL,)
    seeds = range(options.first, options.first + options.seeds)
    for family, problems in families.items():
        for seed in seeds if options.only in (None, family) else ():
            for name, text, known, *_ in problems(random.Random(f"{seed} {family}"), *sizes):
                if not re.search("minimize|maximize|aggregate", text):
                    yield family, f"{name} ({seed})", text, known


def compiled(folder):
    """The model's program."""
    if shutil.which("g++") is None:
        raise NoProgram("the model wants g++; --model names its program, compiled already")
    program = os.path.join(folder, "model")
    subprocess.run(["g++", "-O2", "-std=c++17", "-o", program, SOURCE], check=True)
    return program


def settle(options, folder):
    """The searches and the program that checks, from the options."""
    model = options.model or compiled(folder)
    options.model = Search(f"{model} PROBLEM --limit {1_000 * options.seconds} -o LIST")
    try:
        options.program = Program(options.program, "qdense").path
    except NoProgram:
        if not options.search:
            raise
        print("no qdense, so nothing is checked")
    options.search = Search(options.search or f"{options.program} solve PROBLEM")


def run_all(options, folder):
    settle(options, folder)
    rows = []
    for family, name, text, known in games(options):
        problem = os.path.join(options.texts or folder, re.sub(r"\W+", "_", name) + ".qc")
        with open(problem, "w", encoding="utf-8") as file:
            file.write(text)
        rows.append(measured(options, family, name, known, problem, folder))
        print(line_of(rows[-1]), flush=True)
    tell_sum(rows)
    return rows


def save(path, rows):
    with open(path, "w", encoding="utf-8") as file:
        file.write("# " + "\t".join(field.name for field in fields(Row)) + "\n")
        file.writelines("\t".join(row.cells()) + "\n" for row in rows)


def options_of(words):
    parser = argparse.ArgumentParser(prog="bench/run lists", description="Measures lists of lemmas beside a model.")
    parser.add_argument("--list", action="store_true")
    which = parser.add_mutually_exclusive_group()
    which.add_argument("--ladder", action="store_true")
    which.add_argument("--other", action="store_true")
    parser.add_argument("--only", choices=rungs.FAMILIES, metavar="FAMILY")
    parser.add_argument("--first", type=int, default=1)
    parser.add_argument("--seeds", type=int, default=3)
    add_option(parser, "qdense")
    parser.add_argument("--search", metavar="WORDS", help=TOLD)
    parser.add_argument("--model", metavar="PATH")
    parser.add_argument("--seconds", type=int, default=60)
    parser.add_argument("--runs", type=int, default=3)
    parser.add_argument("--texts", metavar="FOLDER")
    parser.add_argument("--save", metavar="FILE")
    return parser.parse_args(words)


def main(words):
    options = options_of(words)
    if options.list:
        for family, name, _, known in games(options):
            print(f"{family:13} {name:42} {known or '-'}")
        return 0
    if options.texts:
        os.makedirs(options.texts, exist_ok=True)
    with tempfile.TemporaryDirectory() as folder:
        rows = run_all(options, folder)
    if options.save:
        save(options.save, rows)
    return any("WRONG" in row.notes or "UNCHECKED" in row.notes for row in rows)
