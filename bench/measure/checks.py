"""Yardsticks of checking dense certificates: those of a solver in C++, by the program and by that solver's own checker in one run.

    bench/run checks [--only FAMILY] [--seeds N] [--first S] [--all] [--program PATH] [--model PATH] [--seconds N] [--runs N]

Nothing here is part of the gate.

The program is qdense: --program, else the environment variable QDENSE, else what `./qdense` has proved and built. The solver is
`measure/models/dense.cpp`, which g++ compiles first. It solves each game of the ladder (rungs.py) twice, with closing lines alone
(`closing`) and with loose parts, joint closing and references as well (`loose`), and writes what it found; the program's `check`
judges that, in the fourth version of the text, and the solver's own checker does. A line tells:

    ways        which of the two
    known       the answer by a plain method
    check       processor seconds of the program and of the solver's checker, and the one by the other
    bytes       of the certificate
    memory      of `check` at its greatest, in megabytes; less than this script's own, some 20, can't be told

A line ends with what is to be looked at:

    WRONG       the program says yes to another outcome than the known one
    REFUSED     the program doesn't say yes where the solver's checker does: where a scope of the opponent has a restriction, the
                solver leaves out the tuple that shows that he always has a move
    SLOW        more than twice the time of the solver's checker, where that takes 0.02 seconds or more

The script's status is 1 where something is WRONG.

--only     one family of the ladder
--seeds    so many games of a kind; one else
--first    the first seed; 1 else
--all      also what neither takes 0.01 seconds for
--model    the solver in C++, compiled already
--seconds  processor seconds for each run; 60 else
--runs     the least time of so many runs of less than a second each; five else
"""
import argparse
import os
import re
import subprocess
import tempfile

from measure.ladder import least
from measure.rungs import FAMILIES
from measure.wishes import by, compiled, problems
from program import Program, add_option

WAYS = {"closing": ["--v3c"], "loose": ["--v3f", "--v3b", "--opp"]}
TURNS = "10000000"
# What is shorter isn't told, and isn't held against the yardstick.
TOLD, LONG_FOR_MODEL = 0.01, 0.02
SLOW = 2
LINE = "{:26} {:8} {:9} {:>7} s {:>7} s {:>6}  {:>9} bytes {:>4} MB  {}"


def told(options, words):
    """The status of a run, what it wrote, its seconds and its megabytes."""
    with tempfile.TemporaryFile() as file:
        status, seconds, megabytes = least(options, words, file)
        file.seek(0)
        return status, file.read().decode(errors="replace").strip(), seconds, megabytes


def written(options, ways, problem, certificate):
    """Whether the solver settles the game; its certificate is written then."""
    words = [options.model, "--turns", TURNS, *WAYS[ways], "-o", certificate, problem]
    try:
        subprocess.run(words, check=True, timeout=options.seconds, stdout=subprocess.DEVNULL, stderr=subprocess.DEVNULL)
    except (subprocess.SubprocessError, OSError):
        return False
    with open(certificate, "rb") as file:
        return file.readline() == b"qcert 3\n" and not file.readline().startswith(b"open")


def fourth(certificate):
    """A copy of the certificate that begins as those of the fourth version do."""
    with open(certificate, "rb") as file:
        text = file.read()
    copy = certificate + ".4"
    with open(copy, "wb") as file:
        file.write(b"qcert 4\n" + text.partition(b"\n")[2])
    return copy


def line_of(options, folder, name, text, known, ways):
    """Whether all is well, once a line is told of the game."""
    problem, certificate = os.path.join(folder, "problem"), os.path.join(folder, "certificate")
    with open(problem, "w", encoding="utf-8") as file:
        file.write(text)
    if not written(options, ways, problem, certificate):
        return True
    _, verdict, model, _ = told(options, [options.model, "--check", certificate, *WAYS[ways], problem])
    _, answer, seconds, megabytes = told(options, [options.program, "check", problem, fourth(certificate)])
    if seconds < TOLD and model < TOLD and not options.all:
        return True
    believed = re.search(r'"verdict":"yes', verdict)
    notes = [note for note, holds in (
        ("WRONG", answer.startswith("yes") and answer != f"yes {known}"), ("REFUSED", believed and not answer.startswith("yes")),
        ("SLOW", model >= LONG_FOR_MODEL and seconds > SLOW * model),
    ) if holds]
    size = os.path.getsize(certificate)
    print(LINE.format(name, ways, known, f"{seconds:.3f}", f"{model:.3f}", by(seconds, model), size, f"{megabytes:.0f}",
                      "; ".join(notes)).rstrip(), flush=True)
    return "WRONG" not in notes


def main(words):
    options = argparse.ArgumentParser(prog="bench/run checks", description=__doc__, formatter_class=argparse.RawTextHelpFormatter)
    options.add_argument("--only", choices=FAMILIES)
    options.add_argument("--seeds", type=int, default=1)
    options.add_argument("--first", type=int, default=1)
    options.add_argument("--all", action="store_true")
    options.add_argument("--model")
    options.add_argument("--seconds", type=int, default=60)
    options.add_argument("--runs", type=int, default=5)
    add_option(options, "qdense")
    options = options.parse_args(words)
    options.program = Program(options.program, "qdense").path
    with tempfile.TemporaryDirectory() as folder:
        options.model = options.model or compiled(folder)
        all_well = [line_of(options, folder, *game, ways) for game in problems(options) for ways in WAYS]
    return 0 if all(all_well) else 1
