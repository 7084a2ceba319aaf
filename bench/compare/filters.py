"""Compares the filters with a plain one, on small boxes made at random, and measures them on large constraints.

    bench/run filters compare [SEED [COUNT]]
    bench/run filters measure

Build `crates/prop_yard` first (`rt run` in its folder). Nothing here is part of the gate.

`compare`: a problem has one to three constraints, over all predicates, variables that stand twice, empty arrays and domains
with holes. Its box is closed here by the table of refutations, value by value from both ends; by the program's filter that
goes end by end; and by its fast filters. The first two have to leave the same box. A fast filter may besides take a value
between the ends of a variable where it is refuted, so its box may be smaller; then it has to lie in the plain one, be closed,
and hold every tuple that satisfies all constraints. `measure` prints one line a yardstick.
"""
import os
import random
import subprocess
import sys
import tempfile
import time
from collections import Counter
from itertools import product

from compare.player import Maker
from oracle.games import Var, flat, holds, refutes
from program import TOP, Program

PROGRAM = os.path.join(TOP, "crates", "prop_yard", "out", "prop_yard")


class OneScope(Maker):
    """Makes problems of one scope and a goal with up to three constraints."""

    def text(self):
        self.kinds = ["exists"]
        self.declare()
        count = self.random.choice([1, 1, 1, 1, 2, 3])
        parts = ["exists;", *(f"var {spelled}: {name};" for name, spelled in self.spelled.items()), "goal;"]
        return "\n".join(parts + [self.constraint(1) for _ in range(count)] + ["solve;\n"])


def own(constraint):
    return {item.var for item in flat(constraint.args) if isinstance(item, Var)}


def is_refuted(constraint, box, x, value):
    return refutes(constraint, [frozenset([value]) if k == x else values for k, values in enumerate(box)])


def closed(game):
    """What is left of the declared box where refuted ends go until none is refuted; None where a domain is emptied."""
    box = [frozenset(domain) for domain in game.domains]
    changed = True
    while changed:
        changed = False
        for constraint in game.constraints:
            for x in own(constraint):
                for end in {min(box[x]), max(box[x])}:
                    if is_refuted(constraint, box, x, end):
                        box[x] -= {end}
                        changed = True
                        if not box[x]:
                            return None
    return box


def run(path, *words):
    done = subprocess.run([PROGRAM, path, *words], stdout=subprocess.PIPE, text=True, check=True)
    return done.stdout


def told(box):
    return "empty\n" if box is None else "".join(f"{min(values)} {max(values)} {len(values)}\n" for values in box)


def inside(line, values):
    low, high, size = map(int, line.split())
    return min(values) <= low and high <= max(values) and size <= len(values) and {low, high} <= values


def keeps_all(lines, game):
    """Every tuple that satisfies all constraints lies between the ends that are left."""
    ends = [tuple(map(int, line.split()))[:2] for line in lines]
    for values in product(*game.domains):
        if all(holds(constraint, values) for constraint in game.constraints):
            if not all(low <= value <= high for value, (low, high) in zip(values, ends)):
                return False
    return True


def is_satisfied(game):
    return any(all(holds(constraint, values) for constraint in game.constraints) for values in product(*game.domains))


def fault(game, path):
    """What is wrong with what the program leaves, if anything, and how the boxes compare."""
    plain = closed(game)
    by_ends, fast = run(path, "ends"), run(path, "fast")
    if by_ends != told(plain):
        return f"end by end: {by_ends!r}, not {told(plain)!r}", "other"
    if fast == by_ends:
        return None, "same"
    if fast == "empty\n":
        return (f"fast: emptied, not {by_ends!r}" if is_satisfied(game) else None), "smaller"
    if plain is None:
        return f"fast: {fast!r}, not emptied", "other"
    lines = fast.splitlines()
    if not all(inside(line, values) for line, values in zip(lines, plain)):
        return f"fast: {fast!r}, not within {by_ends!r}", "other"
    return (None if keeps_all(lines, game) else f"fast: {fast!r} loses a tuple"), "smaller"


def compare(seed=1, count=3_000):
    maker = OneScope(random.Random(seed), True)
    found, bad = Counter(), 0
    with tempfile.TemporaryDirectory() as folder:
        path = os.path.join(folder, "game")
        for _ in range(count):
            game = maker.game()
            with open(path, "wb") as file:
                file.write(game.text)
            wrong, kind = fault(game, path)
            found[kind] += 1
            if wrong:
                bad += 1
                print(f"{game.text.decode()}{wrong}")
    print(f"{count} boxes, {bad} wrong; " + ", ".join(f"{kind} {n}" for kind, n in sorted(found.items())))
    return 1 if bad else 0


def listed(items):
    return "[" + ",".join(map(str, items)) + "]"


def text(domain, count, *constraints):
    variables = "".join(f"var {domain}: x{k};\n" for k in range(count))
    return "exists;\n" + variables + "goal;\n" + "".join(f"constraint {it};\n" for it in constraints) + "solve;\n"


def yardsticks():
    """Problems, and the words after the file's name."""
    pick = random.Random(1)
    names = [f"x{k}" for k in range(500)]
    ones = listed([1] * 500)
    yield "a sum of 500, at most, 10,000 closings", text("0..9", 500, f"int_lin_le({ones},{listed(names)},2000)"), ["again", "10000"]
    yield "a sum of 500, equal, 10,000 closings", text("0..9", 500, f"int_lin_eq({ones},{listed(names)},2000)"), ["again", "10000"]
    for relation, truth in ("le", "true"), ("le", "false"), ("eq", "true"), ("eq", "false"):
        told = f"int_lin_{relation}_reif({ones},{listed(names)},2000,{truth})"
        yield f"a sum of 500, {relation} told {truth}, 10,000 closings", text("0..9", 500, told), ["again", "10000"]
    clauses = [
        f"bool_clause({listed(pick.sample(names, 1))},{listed(pick.sample(names, 2))})" for _ in range(20_000)
    ]
    yield "20,000 clauses, 10,000 closings", text("bool", 500, *clauses), ["again", "10000"]
    few = [f"bool_clause([],{listed(names[k - i * step] for i in range(4))})" for k in range(500) for step in range(1, 6)]
    few += ["bool_clause([true],[])"] * (20_000 - len(few))
    yield "20,000 clauses, 20 of a variable, 10,000 closings", text("bool", 500, *few), ["again", "10000"]
    yield "500 that differ, 100 closings", text("0..520", 500, f"all_different_int({listed(names)})"), ["again", "100"]
    rows = listed(pick.randrange(20) for _ in range(100_000))
    yield "a table of 20,000 rows, 1,000 closings", text("0..19", 5, f"table_int({listed(names[:5])},{rows})"), ["again", "1000"]
    yield "1,048,576 values, a million cut at the ends", text("0..1048575", 1), ["cut", "500000"]
    yield "a formula of 500 variables and 20,000 clauses, closed once", text("bool", 500, *clauses), ["fast"]


def measure():
    with tempfile.TemporaryDirectory() as folder:
        path = os.path.join(folder, "game")
        for name, content, words in yardsticks():
            with open(path, "w", encoding="ascii") as file:
                file.write(content)
            begin = time.monotonic()
            run(path, "fast")
            once = time.monotonic() - begin
            begin = time.monotonic()
            run(path, *words)
            print(f"{name:60} {time.monotonic() - begin:7.2f} s, of it {once:.2f} s to read and close once", flush=True)


def main(words):
    Program(PROGRAM)  # there has to be one
    if words[:1] == ["measure"]:
        return measure()
    if words[:1] == ["compare"]:
        return compare(*map(int, words[1:]))
    print(__doc__, file=sys.stderr)
    return 2
