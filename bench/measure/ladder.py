"""Measures the program on the ladder: 78 problems in nine families, each with its known answer (rungs.py).

    bench/run ladder [--list] [--only FAMILY] [--seed S] [--program PATH] [--seconds N] [--texts FOLDER]
                     [--save FILE] [--compare FILE] [--model PATH] [--runs N]

Nothing here is part of the gate.

Each problem is solved within 10,000,000 turns and N processor seconds, and its certificate is checked. A line tells:

    outcome     what the certificate states; `limit` where the time was up, `status K` where the program ended with K
    solve       processor seconds of `solve`, and its greatest memory
    check       the same of `check`
    turns       cases that the certificate goes into; those of the budget where it is open
    lines       of the certificate, and its bytes

A line ends with what is to be looked at: WRONG where the outcome is settled and isn't the known one, UNCHECKED where
`check` doesn't answer `yes` with the outcome, `open` where the problem isn't settled; of a problem marked hard that is
expected. The script's status is 1 where something is WRONG or UNCHECKED.

--list     says which problems there are, and their known answers
--only     one family: pricing, interdiction, shop, knapsack, nim, boards, formulas, long_formulas or puzzles
--seed     makes other problems of the same sizes; times of different seeds aren't to be compared
--runs     takes the least time of N runs, each less than a second; a busy machine makes single ones longer
--texts    keeps the problem texts there
--save     writes the results, a line for each problem
--compare  shows by which factor time and bytes have changed since the results of that file were saved, and marks with
           SLOWER, FASTER, LONGER and SHORTER what changed by more than a quarter, and WAS where the outcome was another
--model    runs another solver with the same words for its file and its turns beside the program: once with switches for
           an ascending search without advice, once without switches; the factors are the program's time by its own

Less memory than this script's own, some 20 MB, can't be told.
"""
import argparse
import multiprocessing
import os
import random
import re
import resource
import subprocess
import tempfile
from dataclasses import dataclass, fields

from measure.rungs import FAMILIES
from program import Program, add_option

TURNS = 10_000_000
MEMORY = 6 << 30
PLAIN = ["--no-drop", "--no-killer", "--no-polar", "--no-cache", "--no-witness"]
NOISE = 0.02
LONG = 1.0
CHANGED = 1.25
FORMS = {"solve": "{:.3f}", "check": "{:.3f}", "solve_mb": "{:.0f}", "check_mb": "{:.0f}", "plain": "{:.3f}", "model": "{:.3f}"}


@dataclass
class Result:
    """What was measured of a problem; None where it wasn't. The fields are the columns of a file of results."""

    family: str
    name: str
    known: str
    outcome: str
    checked: str
    solve: float
    check: float = None
    turns: int = None
    lines: int = None
    bytes: int = None
    solve_mb: float = None
    check_mb: float = None
    plain: float = None
    model: float = None

    def cells(self):
        return [shown(FORMS.get(field.name, "{}"), getattr(self, field.name)) for field in fields(self)]

    @classmethod
    def head(cls):
        return [field.name for field in fields(cls)]

    def is_settled(self):
        return self.outcome.startswith(("true", "false"))


def shown(form, value):
    return "-" if value is None else form.format(value)


def read_results(path):
    """The results of a file, by name."""
    kinds = {"solve": float, "check": float, "bytes": int}
    with open(path, encoding="utf-8") as file:
        rows = [line.rstrip("\n").split("\t") for line in file if not line.startswith("#")]
    parsed = lambda key, cell: None if cell == "-" else kinds.get(key, str)(cell)
    results = (Result(*map(parsed, Result.head(), row)) for row in rows)
    return {result.name: result for result in results}


# ---- Runs.


def run(words, output, seconds):
    """The exit status, processor seconds and megabytes of a run; a status below 0 is a signal's, as where time is up."""

    def limited():
        resource.setrlimit(resource.RLIMIT_CPU, (seconds, seconds + 1))
        resource.setrlimit(resource.RLIMIT_AS, (MEMORY, MEMORY))

    child = subprocess.Popen(words, stdout=output, stderr=subprocess.DEVNULL, preexec_fn=limited)
    _, status, usage = os.wait4(child.pid, 0)
    return os.waitstatus_to_exitcode(status), usage.ru_utime + usage.ru_stime, usage.ru_maxrss / 1024


def least(options, words, output):
    """The same with the least time of several runs; a long one is done once. The output is that of the last."""
    status, seconds, megabytes = run(words, output, options.seconds)
    for _ in range(options.runs - 1):
        if seconds > LONG:
            break
        output.seek(0)
        output.truncate()
        status, again, megabytes = run(words, output, options.seconds)
        seconds = min(seconds, again)
    return status, seconds, megabytes


def read_certificate(path):
    """The outcome that a certificate states, its turns, lines and bytes.

    Each part that is gone into ends in `e`, `x`, `n` or `v`, and each node is `g`, `t` or such a part; the first node is
    there without a turn, and each other one by `n`.
    """
    with open(path, "rb") as file:
        file.readline()
        outcome = file.readline().decode().strip()
        turns, lines, before = -1, 2, b"\n"
        while piece := file.read(1 << 20):
            lines += piece.count(b"\n")
            turns += sum((before + piece).count(b"\n" + letter) for letter in (b"e", b"x", b"v", b"g", b"t"))
            before = piece[-1:] if piece[-1:] == b"\n" else b""
    stated = int(outcome.split()[1]) if outcome.startswith("open") else turns
    return outcome, stated, lines, os.path.getsize(path)


def measured(options, family, name, known, text, folder):
    certificate = os.path.join(folder, "certificate")
    with open(certificate, "wb") as file:
        words = [options.program, "solve", text, "--turns", str(TURNS)]
        status, solve, solve_mb = least(options, words, file)
    if status not in (0, 2):
        outcome = "limit" if status < 0 else f"status {status}"
        return Result(family, name, known, outcome, None, solve, solve_mb=solve_mb)
    outcome, turns, lines, size = read_certificate(certificate)
    answer = os.path.join(folder, "answer")
    with open(answer, "wb") as file:
        _, check, check_mb = least(options, [options.program, "check", text, certificate], file)
    with open(answer, encoding="utf-8") as file:
        checked = file.read().strip() or "nothing"
    os.remove(certificate)
    return Result(family, name, known, outcome, checked, solve, check, turns, lines, size, solve_mb, check_mb)


def model_seconds(options, text, switches, known):
    """The model's processor seconds; None where it doesn't settle the problem. Says so where its outcome is another one."""
    with tempfile.TemporaryFile() as file:
        status, seconds, _ = least(options, [options.model, text, "--turns", str(TURNS), *switches], file)
        file.seek(0)
        outcome = re.search(rb'"outcome":"([^"]*)"', file.read())
    stated = outcome[1].decode() if outcome else ""
    if status or not stated.startswith(("true", "false")):
        return None
    if stated != known:
        print(f"the model says {stated} with {switches}")
    return seconds


# ---- What is told.


def findings(result, hard):
    """What is to be looked at in a result."""
    if not result.is_settled():
        yield "open (hard)" if hard else "open"
    elif result.outcome != result.known:
        yield "WRONG"
    if result.checked is not None and result.checked != f"yes {result.outcome}":
        yield "UNCHECKED"


def factor(now, then):
    return None if not now or not then else now / then


def changes(result, earlier):
    """By which factors time and bytes of a settled problem have changed, and what of it is more than a quarter."""
    if earlier is None:
        return ["new"]
    told = []
    for key, more, less in ("solve", "slower", "faster"), ("check", "slower", "faster"), ("bytes", "longer", "shorter"):
        now, then = getattr(result, key), getattr(earlier, key)
        by = factor(now, then)
        if by is None or not (result.is_settled() and earlier.is_settled()):
            continue
        big = key == "bytes" or max(now, then) > NOISE
        mark = (more if by > CHANGED else less if by < 1 / CHANGED else "") if big else ""
        told.append(f"{key} x{by:.2f}" + f" {mark.upper()}" * bool(mark))
    if result.outcome != earlier.outcome:
        told.append(f"WAS {earlier.outcome}")
    return told


def beside_model(result):
    pairs = (("plain", result.plain), ("all", result.model))
    at_least = "" if result.is_settled() else "over "
    factors = ((which, factor(result.solve, seconds)) for which, seconds in pairs)
    return [f"{at_least}{by:.1f} times the model ({which})" if by else f"no model ({which})" for which, by in factors]


LINE = "{:24} {:9} {:9} {:>8} s {:>8} s {:>9} turns {:>10} lines {:>11} bytes {:>5} MB {:>4} MB  {}"


def line_of(result, notes):
    cells = dict(zip(Result.head(), result.cells()))
    keys = "name known outcome solve check turns lines bytes solve_mb check_mb".split()
    return LINE.format(*(cells[key] for key in keys), "; ".join(notes)).rstrip()


def rungs(options):
    """The problems of the families that are asked for. Each family has its own source of chance, and is made in a process
    of its own, so that this one stays small."""
    for family in FAMILIES:
        if options.only in (None, family):
            with multiprocessing.Pool(1) as pool:
                problems = pool.apply(problems_of, (family, options.seed))
            for name, text, known, *hard in problems:
                yield family, name, text, known, bool(hard)


def problems_of(family, seed):
    return list(FAMILIES[family](random.Random(f"{seed} {family}")))


def climb(options, folder):
    """Measures each problem and prints its line. Returns the results, and whether all is well."""
    earlier = read_results(options.compare) if options.compare else {}
    results, well = [], True
    for family, name, text, known, hard in rungs(options):
        path = os.path.join(options.texts or folder, re.sub(r"\W+", "_", name) + ".qc")
        with open(path, "w", encoding="utf-8") as file:
            file.write(text)
        result = measured(options, family, name, known, path, folder)
        notes = list(findings(result, hard))
        well = well and not {"WRONG", "UNCHECKED"} & set(notes)
        if options.model:
            result.plain = model_seconds(options, path, PLAIN, known)
            result.model = model_seconds(options, path, [], known)
            notes += beside_model(result)
        if options.compare:
            notes += changes(result, earlier.get(name))
        print(line_of(result, notes), flush=True)
        results.append(result)
    return results, well


def save(path, results, seed):
    with open(path, "w", encoding="utf-8") as file:
        file.write(f"# seed {seed}, {TURNS} turns; seconds are the processor's, memory is in MB\n")
        file.write("# " + "\t".join(Result.head()) + "\n")
        file.writelines("\t".join(result.cells()) + "\n" for result in results)


def main(words):
    parser = argparse.ArgumentParser(prog="bench/run ladder", description="Measures the program on problems with known answers.")
    parser.add_argument("--list", action="store_true")
    parser.add_argument("--only", choices=FAMILIES, metavar="FAMILY")
    parser.add_argument("--seed", type=int, default=1)
    add_option(parser)
    parser.add_argument("--seconds", type=int, default=20)
    parser.add_argument("--runs", type=int, default=1)
    parser.add_argument("--texts", metavar="FOLDER")
    parser.add_argument("--save", metavar="FILE")
    parser.add_argument("--compare", metavar="FILE")
    parser.add_argument("--model", metavar="PATH")
    options = parser.parse_args(words)
    if options.list:
        for family, name, _, known, hard in rungs(options):
            print(f"{family:13} {name:24} {known}" + "  (hard)" * hard)
        return 0
    options.program = Program(options.program).path
    if options.texts:
        os.makedirs(options.texts, exist_ok=True)
    with tempfile.TemporaryDirectory() as folder:
        results, well = climb(options, folder)
    if options.save:
        save(options.save, results, options.seed)
    return not well
