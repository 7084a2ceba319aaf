"""Measures the program on large inputs and on constraints: time and the most memory, one line each.

    bench/run speed [--against FILE] [--write FILE] [--yardsticks FOLDER] [--program PATH]

Nothing here is part of the gate. With --against each line ends with what it was in the results of that file; with --write
the results go into the file. A problem that the program doesn't take yet has status 4. Less memory than this script's own, some 45 MB, can't be told.

Of each game whose certificate is long it is told how fast it is checked: it is solved and checked in turns, some times, on
one processor, and the median of the shares stands, each of a processor time to check by that to solve just before. The
yardsticks: 50 MB a second where a certificate has no steps, as all but that of `elements` here, and half the time that it
took to find and write. With --yardsticks these two alone are told, of the games here and of each problem text in the folder
(`bench/run ladder --texts FOLDER` makes some).
"""
import argparse
import json
import os
import random
import statistics
import subprocess
import tempfile
import time

from program import Program, add_option

LIMIT = 4_194_304
USAGE = 3
# A shorter certificate is found and checked in a time that the program's start takes up.
LONG = 100_000
RUNS = 15
# Of what takes longer there are fewer runs: so many seconds of them, and three at least.
ENOUGH = 20


def measured(program, words, output):
    """Runs the program on these words, and returns seconds, megabytes at most, and the exit status."""
    begin = time.monotonic()
    child = subprocess.Popen([program, *words], stdout=output)
    _, status, usage = os.wait4(child.pid, 0)
    return time.monotonic() - begin, usage.ru_maxrss / 1024, os.waitstatus_to_exitcode(status)


def processor_seconds(program, words, output):
    """The processor seconds of the program on these words, which write to a file of this name."""
    with open(output, "wb") as file:
        child = subprocess.Popen([program, *words], stdout=file)
        _, _, usage = os.wait4(child.pid, 0)
    return usage.ru_utime + usage.ru_stime


def texts():
    """Problem texts of about the greatest length, by what they are made of."""
    variables = "".join(f"var bool:x{k};" for k in range(215_000))
    aggregates = "".join(f"aggregate a{k}=sum(t);" for k in range(170_000))
    empty = "constraint array_bool_xor([]);"
    table = "constraint array_int_element(1,[" + "1," * 99_999 + "1],1);"
    sums = "constraint int_lin_le([" + ",".join("1" * 1_000) + "],[" + ",".join("x" * 1_000) + "],5);"
    clauses = "constraint bool_clause([" + ",".join("b" * 1_000) + "],[" + ",".join("b" * 1_000) + "]);"
    elements = "constraint array_var_int_element(x,[" + ",".join("x" * 1_000) + "],x);"
    different = "constraint all_different_int([" + ",".join("x" * 1_000) + "]);"
    yield "blanks", " " * LIMIT
    yield "one comment", "%" + "x" * (LIMIT - 1)
    yield "one word", "a" * LIMIT
    yield "one number", "1" * LIMIT
    yield "signs", ";" * LIMIT
    yield "random bytes", random.Random(1).randbytes(LIMIT)
    yield "variables", "exists;" + variables + "goal;solve;"
    yield "one name", "exists;" + "var bool:x;" * 380_000 + "goal;solve;"
    yield "aggregates", "forall;var 0..1:t;" + aggregates + "goal;solve;"
    yield "scopes", "forall;" * 599_180 + "goal;solve;"
    yield "constraints", "goal;" + empty * 139_000 + "solve;"
    yield "one array", "exists;var 0..1:x;goal;constraint all_different_int([" + "x," * 2_097_000 + "x]);solve;"
    yield "braces", "exists;var {" + "1," * 2_097_100 + "2}:x;goal;solve;"
    yield "tables, printed", "goal;" + table * 20 + "solve;"
    yield "sums, printed", "exists;var 0..1:x;goal;" + sums * 1_040 + "solve;"
    yield "clauses, printed", "exists;var bool:b;goal;" + clauses * 1_035 + "solve;"
    yield "elements, printed", "exists;var 0..1:x;goal;" + elements * 2_050 + "solve;"
    yield "all different, printed", "exists;var 0..1:x;goal;" + different * 2_055 + "solve;"


def listed(names):
    return "[" + ",".join(map(str, names)) + "]"


def declared(domain, names):
    return "".join(f"var {domain}: {name};\n" for name in names)


def game(*parts):
    return "".join(part + "\n" for part in parts) + "solve;\n"


def goal(*constraints):
    return "goal;\n" + "".join(f"constraint {constraint};\n" for constraint in constraints)


def games():
    """Problems to solve and check. All but the last are gone through whole by a search without propagation."""
    names = [f"x{k}" for k in range(19)]
    yield "nothing to keep", game("forall;", declared("0..1", names), "goal;")
    some = names[:17]
    ones, minus = listed([1] * 17), listed([-1] * 17)
    sums = [f"int_lin_le({ones},{listed(some)},17)", f"int_lin_le({minus},{listed(some)},0)"]
    sums += [f"int_lin_ne({ones},{listed(some)},18)"]
    yield "sums", game("forall;", declared("0..1", some), goal(*sums))
    clauses = [f"bool_clause({listed([one, other])},{listed([one])})" for one, other in zip(some, some[1:])]
    yield "clauses", game("forall;", declared("bool", some), goal(*clauses))
    places = names[:5]
    elements = [f"array_var_int_element(x0,{listed(places[1:] + places[:2])},e)"]
    elements += ["array_int_element(x1,[5,4,3,2,1,0],f)"]
    yield "elements", game("forall;", declared("1..6", places), "exists;\nvar 1..6: e;\nvar 0..5: f;", goal(*elements))
    yield "all different", game("exists;", declared("1..6", names[:7]), goal(f"all_different_int({listed(names[:7])})"))
    cells = names[:9]
    lines = [cells[k : k + 3] for k in (0, 3, 6)] + [cells[k::3] for k in range(3)] + [cells[0::4], cells[2:7:2]]
    square = [f"int_lin_eq([1,1,1],{listed(line)},15)" for line in lines] + [f"all_different_int({listed(cells)})"]
    yield "a magic square", game("exists;", declared("1..9", cells), goal(*square))


def formulas():
    """Formulas of about the greatest length that is read, and of many clauses."""
    pick = random.Random(2)
    head = "p cnf 500 20000\na 1 2 3 4 5 6 7 8 9 10 0\ne 11 12 13 14 15 16 17 18 19 20 0\n"
    for name, size in ("three literals", 3), ("45 literals", 45):
        clauses = (" ".join(str(pick.choice((1, -1)) * pick.randrange(1, 501)) for _ in range(size)) for _ in range(20_000))
        yield name, head + "".join(clause + " 0\n" for clause in clauses)
    yield "one comment", "c" * LIMIT
    yield "one clause", "p cnf 500 1\n" + "1 " * 2_000_000 + "0\n"


class Results:
    """Prints each result as it comes, beside the earlier one."""

    def __init__(self, earlier):
        self.earlier, self.found = earlier, {}

    def add(self, name, result):
        seconds, megabytes, status = self.found[name] = result
        was = "  (was {:.2f} s {:.0f} MB  status {})".format(*self.earlier[name]) if name in self.earlier else ""
        print(f"{name:30} {seconds:6.2f} s {megabytes:6.0f} MB  status {status}{was}", flush=True)


def written(path, content):
    with open(path, "wb") as file:
        file.write(content if isinstance(content, bytes) else content.encode())


def solved(program, text, certificate):
    """With the greatest budget, or without one where the program doesn't know budgets."""
    for budget in ["--turns", "10000000"], []:
        with open(certificate, "wb") as file:
            result = measured(program, ["solve", text, *budget], file)
        if result[2] != USAGE:
            break
    return result


def in_turns(program, text, certificate):
    """Processor seconds to find and write the certificate, and to check it, pair by pair."""
    # all on one processor: those of a busy machine differ in speed by more than is measured
    os.sched_setaffinity(0, {max(os.sched_getaffinity(0))})
    pairs = []
    while len(pairs) < 3 or len(pairs) < RUNS and sum(map(sum, pairs)) < ENOUGH:
        solve = processor_seconds(program, ["solve", text, "--turns", "10000000"], certificate)
        pairs.append((solve, processor_seconds(program, ["check", text, certificate], os.devnull)))
    return pairs


def tell_yardsticks(program, name, text, certificate):
    """How fast a long certificate is checked, and how long that takes beside finding and writing it."""
    size = os.path.getsize(certificate)
    if size < LONG:
        return
    pairs = in_turns(program, text, certificate)
    solve, check = (statistics.median(times) for times in zip(*pairs))
    shares = sorted(check / solve for solve, check in pairs)
    best = min(check for _, check in pairs)
    print(
        f"{name:30} {size / check / 1e6:6.0f} MB a second, at best {size / best / 1e6:.0f};"
        f" {statistics.median(shares):.2f} of the time to solve"
        f" (by medians {check / solve:.2f}; from {shares[0]:.2f} to {shares[-1]:.2f}, {len(pairs)} pairs)",
        flush=True,
    )


def measure_yardsticks(program, texts, folder):
    """The yardsticks alone, of the games and of the problem texts in a folder."""
    text, certificate = os.path.join(folder, "text"), os.path.join(folder, "certificate")
    for name, content in games():
        written(text, content)
        solved(program, text, certificate)
        tell_yardsticks(program, name, text, certificate)
    for name in sorted(os.listdir(texts)):
        path = os.path.join(texts, name)
        solved(program, path, certificate)
        tell_yardsticks(program, name, path, certificate)


def measure(program, results, folder):
    text, certificate = os.path.join(folder, "text"), os.path.join(folder, "certificate")
    for name, content in texts():
        assert len(content if isinstance(content, bytes) else content.encode()) <= LIMIT, name
        written(text, content)
        results.add(f"print: {name}", measured(program, ["print", text], subprocess.DEVNULL))
    for name, content in formulas():
        assert len(content) <= LIMIT, name
        written(text, content)
        results.add(f"qbf --text: {name}", measured(program, ["qbf", text, "--text"], subprocess.DEVNULL))
    for name, content in games():
        written(text, content)
        results.add(f"print: {name}", measured(program, ["print", text], subprocess.DEVNULL))
        results.add(f"solve: {name}", solved(program, text, certificate))
        results.add(f"check: {name}", measured(program, ["check", text, certificate], subprocess.DEVNULL))
        tell_yardsticks(program, "", text, certificate)


def main(words):
    parser = argparse.ArgumentParser(prog="bench/run speed", description="Measures the program.")
    parser.add_argument("--against", metavar="FILE")
    parser.add_argument("--write", metavar="FILE")
    parser.add_argument("--yardsticks", metavar="FOLDER")
    add_option(parser)
    options = parser.parse_args(words)
    program = Program(options.program).path
    if options.yardsticks:
        with tempfile.TemporaryDirectory() as folder:
            measure_yardsticks(program, options.yardsticks, folder)
        return 0
    earlier = {}
    if options.against:
        with open(options.against, encoding="utf-8") as file:
            earlier = json.load(file)
    results = Results(earlier)
    with tempfile.TemporaryDirectory() as folder:
        measure(program, results, folder)
    if options.write:
        with open(options.write, "w", encoding="utf-8") as file:
            json.dump(results.found, file, indent=1)
    return 0
