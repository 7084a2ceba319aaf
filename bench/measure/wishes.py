"""Yardsticks of dense certificates: games with wishes of the ladder (rungs.py), by the program and by a solver in C++ in one run.

    bench/run wishes [--only FAMILY] [--seeds N] [--first S] [--program PATH] [--model PATH] [--seconds N] [--runs N]

Nothing here is part of the gate.

The program is qdense: --program, else the environment variable QDENSE, else what `./qdense` has proved and built. It solves each
game that has a condition, and checks what it wrote. The solver in C++ is `models/dense.cpp`, which g++ compiles first; it is called
with all its ways but learning. A line tells:

    known       the answer by a plain method
    outcome     what the program's certificate states; `limit` where the time was up, `status K` where it ended with K
    solve       processor seconds to solve, of the program and of the model, and the one by the other
    bytes       of the certificate, the same three
    check       processor seconds of `check` on the program's certificate, and its greatest memory in megabytes; less than this
                script's own, some 20, can't be told

A line ends with what is to be looked at:

    WRONG       the outcome isn't the known one
    UNCHECKED   `check` doesn't answer `yes` with the outcome
    SLOW        more than twice the model's time, of games that take the model 0.05 seconds or more
    MORE TURNS  no dense certificate within twice the model's turns, of the same games
    LONG        more than 1.2 times the model's bytes
    SLOW CHECK  longer than to solve
    VERSION N   the certificate is no dense one: the search for these gave way
    NO MODEL    the solver in C++ didn't settle it

The script's status is 1 where something is WRONG or UNCHECKED.

--only     one family of the ladder
--seeds    so many games of a kind; three else
--first    the first seed; 1 else, which some of the search was tuned on
--model    the solver in C++, compiled already
--seconds  processor seconds for each run; 60 else
--runs     the least time of so many runs of less than a second each; three else
"""
import argparse
import multiprocessing
import os
import re
import subprocess
import tempfile
from dataclasses import dataclass

from measure.ladder import least, problems_of
from measure.rungs import FAMILIES
from program import Program, add_option

SOURCE = os.path.join(os.path.dirname(os.path.realpath(__file__)), "models", "dense.cpp")
WAYS = ["--v3f", "--v3b", "--opp"]
TURNS = "10000000"
# What is shorter is told but not held against the yardsticks.
LONG_FOR_MODEL = 0.05
SLOW, LONG = 2, 1.2
LINE = "{:26} {:9} {:9} {:>7} s {:>7} s {:>6}  {:>9} {:>9} bytes {:>6}  {:>7} s {:>4} MB  {}"


@dataclass
class Model:
    """What the solver in C++ took."""

    seconds: float
    bytes: int
    turns: int


def compiled(folder):
    """The solver in C++."""
    place = os.path.join(folder, "model")
    subprocess.run(["g++", "-O2", "-std=c++17", "-w", "-o", place, SOURCE], check=True)
    return place


def problems(options):
    """The ladder's games, each seed's. They are made in a process of its own, so that this one stays small."""
    for seed in range(options.first, options.first + options.seeds):
        for family in FAMILIES:
            if options.only in (None, family):
                with multiprocessing.Pool(1) as pool:
                    made = pool.apply(problems_of, (family, seed))
                for name, text, known, *_ in made:
                    yield f"{name} s{seed}", text, known


def games(options):
    """Those that have a condition."""
    return ((name, text, known) for name, text, known in problems(options) if re.search(r"\b(minimize|maximize)\b", text))


def solved(options, problem, certificate):
    """What the program says, its seconds, the version of its certificate and its bytes."""
    with open(certificate, "w+b") as file:
        status, seconds, _ = least(options, [options.program, "solve", problem, "--turns", TURNS], file)
        file.seek(0)
        version, outcome = (file.readline().decode().strip() for _ in range(2))
    if status not in (0, 2):
        outcome = "limit" if status < 0 else f"status {status}"
    return outcome, seconds, version.removeprefix("qcert "), os.path.getsize(certificate)


def checked(options, problem, certificate):
    """What `check` answers, with its seconds and megabytes."""
    with tempfile.TemporaryFile() as file:
        _, seconds, megabytes = least(options, [options.program, "check", problem, certificate], file)
        file.seek(0)
        return file.read().decode().strip(), seconds, megabytes


def modelled(options, problem, known):
    """Seconds, bytes and turns of the solver in C++; None where it doesn't settle the game."""
    with tempfile.TemporaryFile() as file:
        least(options, [options.model, "--turns", TURNS, *WAYS, problem], file)
        file.seek(0)
        told = re.search(r'"outcome":"([^"]*)".*"cpu":([0-9.]+).*"turns":([0-9]+).*"bytes":([0-9]+)', file.read().decode())
    return Model(float(told[2]), int(told[4]), int(told[3])) if told and told[1] == known else None


def settles_within(options, problem, turns):
    """Whether the program settles the game by a dense certificate within so many turns."""
    found = subprocess.run([options.program, "solve", problem, "--turns", str(turns)], stdout=subprocess.PIPE, check=False)
    version, outcome = (found.stdout.split(b"\n", 2) + [b"", b""])[:2]
    return version == b"qcert 4" and not outcome.startswith(b"open")


def by(now, then):
    return f"x{now / then:.2f}" if then else "-"


def line_of(options, folder, name, text, known):
    """A game's line, and whether all is well."""
    problem, certificate = os.path.join(folder, "problem"), os.path.join(folder, "certificate")
    with open(problem, "w", encoding="utf-8") as file:
        file.write(text)
    outcome, solve, version, size = solved(options, problem, certificate)
    answer, check, megabytes = checked(options, problem, certificate)
    model = modelled(options, problem, known)
    # an optimum by two lists is stated as `best V LENGTH`
    stated = f"true {outcome.split()[1]}" if outcome.startswith("best ") else outcome
    counts = model and model.seconds >= LONG_FOR_MODEL
    notes = [note for note, holds in (
        ("WRONG", stated != known), ("UNCHECKED", answer != f"yes {stated}"), ("SLOW CHECK", check > solve),
        ("VERSION " + version, version != "4"), ("NO MODEL", not model),
        ("SLOW", counts and solve > SLOW * model.seconds),
        ("MORE TURNS", counts and not settles_within(options, problem, SLOW * model.turns)),
        ("LONG", model and size > LONG * model.bytes),
    ) if holds]
    than = model or Model(0, 0, 0)
    print(LINE.format(name, known, stated, f"{solve:.3f}", f"{than.seconds:.3f}", by(solve, than.seconds),
                      size, than.bytes, by(size, than.bytes), f"{check:.3f}", f"{megabytes:.0f}", "; ".join(notes)).rstrip(), flush=True)
    return "WRONG" not in notes and "UNCHECKED" not in notes


def main(words):
    options = argparse.ArgumentParser(prog="bench/run wishes", description=__doc__, formatter_class=argparse.RawTextHelpFormatter)
    options.add_argument("--only", choices=FAMILIES)
    options.add_argument("--seeds", type=int, default=3)
    options.add_argument("--first", type=int, default=1)
    options.add_argument("--model")
    options.add_argument("--seconds", type=int, default=60)
    options.add_argument("--runs", type=int, default=3)
    add_option(options, "qdense")
    options = options.parse_args(words)
    options.program = Program(options.program, "qdense").path
    with tempfile.TemporaryDirectory() as folder:
        options.model = options.model or compiled(folder)
        all_well = [line_of(options, folder, *game) for game in games(options)]
    return 0 if all(all_well) else 1
