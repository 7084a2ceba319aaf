"""The tests that need only Python, and those that need the program besides.

What a translator of constraints may get wrong is tried piece by piece, on random constraints over small domains, by going over
all values; then the stored FlatZinc is solved.
"""
import contextlib
import io
import itertools
import os
import random
import tempfile
from unittest.mock import patch

from common import FZN_QECODE, TOOL, Tally, has_program, read, run, write
from calls import is_refused
from flattening import sources, stored

from qecodefzn import flatzinc, main, plain, program, solutions
from qecodefzn.asserting import assert_is
from qecodefzn.builtins import PREDICATES
from qecodefzn.certificate import assignment
from qecodefzn.determined import Definitions, Determiner, holds
from qecodefzn.flatzinc import FlatZincError, Range
from qecodefzn.lowering import LOWERINGS, lowered
from qecodefzn.play import NoPlay
from qecodefzn.problem import Problem, written
from qecodefzn.reading import Reader
from qecodefzn.terms import C, Scope, V

TRIALS = 30  # of each kind, for each predicate
# Kinds of arguments: i b items, I B arrays of such, N M arrays of constants, S a set, k a number, T rows for two items.
KINDS = {
    "int_eq int_ne int_le int_lt int_abs": "ii",
    "int_plus int_times int_min int_max int_div int_mod int_minus": "iii",
    "int_lin_eq int_lin_ne int_lin_le": "NIk",
    "bool_lin_eq bool_lin_le": "NBk",
    "bool_eq bool_not bool_le bool_lt bool_xor2": "bb",
    "bool2int": "bi",
    "array_int_element": "iNi",
    "array_bool_element": "iMb",
    "array_var_int_element": "iIi",
    "array_var_bool_element": "iBb",
    "array_int_minimum array_int_maximum": "iI",
    "set_in": "iS",
    "bool_and bool_or bool_xor": "bbb",
    "array_bool_and array_bool_or": "Bb",
    "array_bool_xor": "B",
    "bool_clause": "BB",
    "all_different_int": "I",
    "table_int": "JT",
    "int_pow": "iii",
}
PLAIN = {name: kinds for names, kinds in KINDS.items() for name in names.split()}
REIFIED = (
    "int_eq int_ne int_le int_lt int_lin_eq int_lin_ne int_lin_le set_in bool_eq bool_le bool_lt bool_clause bool_not bool_and "
    "bool_or bool_xor array_bool_and array_bool_or array_bool_xor all_different_int table_int"
).split()
ALL = PLAIN | {f"{name}_{form}": PLAIN[name] + "b" for name in REIFIED for form in ("reif", "imp")}


class Bench:
    """A reader without a model, and variables to take arguments from."""

    def __init__(self, pick):
        self.pick = pick
        self.reader = Reader(flatzinc.Model())
        self.ints = [V(f"i{k}", "int", self.domain(), [], True) for k in range(3)]
        self.bools = [V(f"b{k}", "bool", Range(0, 1), [], True) for k in range(3)]

    def domain(self):
        low = self.pick.randint(-2, 2)
        found = Range(low, low + self.pick.randint(0, 3))
        return tuple(found)[::2] if self.pick.random() < 0.2 else found

    def argument(self, kind):
        pick = self.pick
        if kind == "i":
            return pick.choice(self.ints) if pick.random() < 0.85 else pick.randint(-2, 4)
        if kind == "b":
            return pick.choice(self.bools) if pick.random() < 0.85 else pick.random() < 0.5
        if kind in "IBJ":
            return [self.argument("b" if kind == "B" else "i") for _ in range(2 if kind == "J" else 3)]
        if kind == "N":
            return [pick.randint(-2, 2) for _ in range(3)]
        if kind == "M":
            return [pick.random() < 0.5 for _ in range(3)]
        if kind == "S":
            return Range(pick.randint(-2, 0), pick.randint(0, 2)) if pick.random() < 0.5 else (-1, 1, 2)
        if kind == "T":
            return [pick.randint(-1, 3) for _ in range(2 * pick.randint(1, 4))]
        return pick.randint(-3, 3)

    def constraint(self, name):
        return C(name.removesuffix("2"), [self.argument(kind) for kind in ALL[name]])


def environments(variables):
    for numbers in itertools.product(*(v.domain for v in variables)):
        yield dict(zip(variables, numbers))


def benches(name):
    pick = random.Random(name)
    return (Bench(pick) for _ in range(TRIALS))


def check_determined(tally):
    """Where a constraint determines a variable, each choice of the others leaves it one value."""
    for name in PREDICATES & ALL.keys():
        for bench in benches(name):
            c = bench.constraint(name)
            for v in c.variables():
                if Determiner().determines(c, v):
                    others = [x for x in c.variables() if x is not v]
                    counts = {sum(holds(c, env | {v: it}) for it in v.domain) for env in environments(others)}
                    tally.check(f"{v} is determined by {c}", counts == {1}, f"it has {sorted(counts)} values")


def check_lowered(tally):
    """A constraint, and those that it is lowered to, hold for the same values; new variables then have one value each."""
    for name in ALL:
        for bench in benches(name):
            c, parts = bench.constraint(name), []
            old = c.variables()
            lowered(bench.reader, c, parts)
            new = [v for v in dict.fromkeys(v for part in parts for v in part.variables()) if v not in old]
            is_right = all(part.name in PREDICATES for part in parts)
            if len(new) <= 8:
                for env in environments(old):
                    found = sum(all(holds(part, env | more) for part in parts) for more in environments(new))
                    is_right = is_right and found == int(holds(c, env))
            tally.check(f"lowered {c}", is_right, "; ".join(map(str, parts)))


def check_asserted(tally):
    """What says that a Boolean is true, or false, holds where it is."""
    for name in PREDICATES & ALL.keys():
        for bench in benches(name):
            c = bench.constraint(name)
            b = V("b", "bool", Range(0, 1), [], True)
            if c.name in LOWERINGS or ALL[name][-1] != "b":
                continue
            c.args[-1] = b
            if not Determiner().determines(c, b):
                continue
            definitions = Definitions(bench.ints + bench.bools)
            definitions.put(b, c)
            for truth in (True, False):
                said = []
                assert_is(b, truth, definitions, said)
                others = [v for v in c.variables() if v is not b]
                same = all(
                    all(holds(it, env) for it in said if b not in it.variables()) == holds(c, env | {b: truth})
                    or any(b in it.variables() for it in said)
                    for env in environments(others)
                )
                tally.check(f"{c} asserted as {truth}", same, "; ".join(map(str, said)))


FAULTS = {
    "constraint int_le(1,": "an expression is expected at byte 20",
    "var 1..3 x;": "':' is expected at byte 9",
    "solve satisfy": "';' is expected",
    "var 1..3: x; solve ?": "no token begins at byte 19",
    "predicate p(var int: x)": "';' is expected",
    "var set of 1..3: s;": "s is a set variable",
    "var float: f;": "f is a float variable",
    'var float: f :: mzn_path("/a/m.mzn|3|5|3|9|vd;/lib/std/x.mzn|1|1|1|1|ca");': "f is a float variable, which there is none of "
    "(m.mzn, line 3, column 5)",
}


def check_reader(tally):
    for text, wanted in FAULTS.items():
        try:
            flatzinc.parse(text)
            tally.check(text, False, "it is read")
        except FlatZincError as error:
            tally.check(text, wanted in str(error), str(error))
    text = "array [1..2] of int: a = [0x1F,-3]; var {1,5}: x :: output_var; constraint int_lin_le(a,[x,2],7); solve minimize x;"
    reader = Reader(flatzinc.parse(text))
    tally.check("a model is read", str(reader.constraints[0]) == "int_lin_le([31, -3], [x, 2], 7)", str(reader.constraints[0]))
    words = "var bool: b; var 0..1: n; var 0..3: x; constraint qecode_int_ne_reif(2,1,b); constraint bool2int(b,n); "
    known = Reader(flatzinc.parse(words + "constraint int_plus(n,x,n); constraint array_bool_and([b,b],b); solve satisfy;"))
    tally.check("results of constants", str(known.constraints[2]) == "int_plus(1, x, 1)", str(known.constraints[2]))
    words = "var 0..1: n; constraint int_plus(1,1,n); constraint int_div(1,0,n); constraint qc_chosen_int(1,1,[n]); solve satisfy;"
    for text in words, words.replace("int_plus(1,1,n)", "int_plus(0,1,n)"), words.replace("qc_chosen", "other"):
        free = Reader(flatzinc.parse(text)).vars["n"]
        tally.check(f"no result of constants in {text}", isinstance(free, V), str(free))
    narrow = Reader(flatzinc.parse("var 0..9: x; var 2..3: y = x; solve satisfy;"))
    tally.check("an alias keeps its domain", any(c.name == "set_in" for c in narrow.constraints), "no constraint does")


PLACE = "(m.mzn, line 2, column 12)"
SAID_OF_POWERS = {
    f"=====ERROR=====\nfzn-qecode: the powers of int_pow are more than 100000 numbers {PLACE}\n": True,
    f"=====ERROR=====\nfzn-qecode: y is unbounded {PLACE}; give it a domain\n": True,
    f"=====ERROR=====\nfzn-qecode: the builtin int_pow_reif is none of the predicates {PLACE}\n": True,
    f"=====ERROR=====\nfzn-qecode: the builtin int_power is none of the predicates {PLACE}\n": False,
    "=====ERROR=====\nfzn-qecode: the powers of int_pow are more than 100000 numbers\n": False,
    f"fzn-qecode: the powers of int_pow are more than 100000 numbers {PLACE}\n": False,
    "Error: evaluation error: internal error: missing builtin 'int_pow'\nm.mzn:2.12-25\n": False,
    f"Traceback (most recent call last):\n  File \"x.py\", line 2, in int_pow\nKeyError: int_pow {PLACE}\n=====ERROR=====\n": False,
}


def check_refusals(tally):
    """What counts as refused by name, where the tests call each builtin."""
    for said, is_one in SAID_OF_POWERS.items():
        tally.check(f"taken for a refusal: {said}", is_refused("int_pow(x,y,z)", said) == is_one, f"{not is_one}")


def check_each(tally):
    """Whatever the solutions are, each is given once, by constraints that hold for what is asked."""
    for seed in range(3 * TRIALS):
        bench = Bench(random.Random(f"solutions {seed}"))
        variables = bench.pick.sample(bench.ints + bench.bools, bench.pick.randint(0, 5))
        known = [env for env in environments(variables) if bench.pick.random() < 0.4]

        def solve(given, taken):
            asked = solutions.added(groups, given, taken)
            env = next((env for env in known if all(holds(c, env) for c in asked)), None)
            return None if env is None else ([[env[v] for v in group] for group in groups], env)

        with patch.object(solutions, "MOST_TOGETHER", bench.pick.choice([1, 6, 20, 1_000])):
            groups = solutions.groups_of(variables)
            found = [env for _, env in itertools.islice(solutions.each(len(groups), solve), len(known) + 1)]
        is_right = len(found) == len(known) and all(env in found for env in known)
        tally.check(f"each solution of {len(groups)} groups, {seed}", is_right, f"{found}, where {known} are known")


BOUNDING = "int_lin_eq int_plus int_times int_div int_mod int_abs int_min int_max array_var_int_element table_int".split()


def check_bounds(tally):
    """An unbounded variable gets a range that has each value which its constraint allows."""
    for name in BOUNDING:
        for bench in benches(name):
            c = bench.constraint(name)
            free = V("free", "int", None, [], True)
            spot = c.args[1] if name == "int_lin_eq" else c.args[0] if name == "table_int" else c.args
            spot[-1] = free
            reader = Reader(flatzinc.Model(), (-99, 99))
            reader.vars, reader.constraints = {v.name: v for v in [*bench.ints, free]}, [c]
            reader.find_bounds()
            others = [v for v in c.variables() if v is not free]
            if len(others) > 2:
                continue
            allowed = {it for env in environments(others) for it in range(-99, 100) if holds(c, env | {free: it})}
            tally.check(f"bounds of {c}", allowed <= set(free.domain), f"{free.domain} lacks some of {sorted(allowed)}")


def program_says(text):
    with tempfile.TemporaryDirectory() as folder:
        words = [program.PROGRAM, "solve", write(folder, "p.qc", text)]
        _, out, _ = run(words)
    return (out.splitlines() + ["", ""])[1]


def check_predicates(tally):
    """What a predicate means here is what it means to the program: many constraints on single values, each said by a Boolean."""
    for name in sorted(PREDICATES & ALL.keys()):
        scope, wanted = Scope("forall"), []
        for bench in itertools.islice(benches(name), 5):
            c = bench.constraint(name)
            env = {v: bench.pick.choice(list(v.domain)) for v in c.variables()}
            args = [place(arg, env) for arg in c.args]
            wanted.append((C(c.name, args), holds(c, env)))
        for c, is_so in wanted:
            problem = Problem(None)
            problem.scopes, problem.goal = [scope], [c]
            said = program_says(problem.text("a constraint on single values"))
            tally.check(f"the program on {written(c)}", said == ("true" if is_so else "false"), f"{said}, where {is_so} is meant")


def place(arg, env):
    if isinstance(arg, list):
        return [place(it, env) for it in arg]
    return (bool(env[arg]) if arg.kind == "bool" else env[arg]) if isinstance(arg, V) else arg


def answer_to(words):
    """What fzn-qecode writes, both streams together; called in this process."""
    streams = io.StringIO()
    with contextlib.redirect_stdout(streams), contextlib.redirect_stderr(streams):
        main.main(words)
    return streams.getvalue()


def check_stored(tally):
    for name, _, _, wanted in sources():
        said = answer_to([stored(name)])
        tally.check(f"stored {name}", wanted in said, said)


def check_stored_early(tally):
    """Where definitions stand makes no difference to what is answered."""
    for name, flags, _, wanted in sources():
        if "-g" in flags:
            said = answer_to(["--early", stored(name)])
            tally.check(f"stored {name}, early", wanted in said, said)


def check_kept(tally):
    """A kept certificate is confirmed with the text beside it; the reader of long certificates finds what the play does."""
    for name in ("queens8", "golomb5", "knapsack_b", "send"):
        with tempfile.TemporaryDirectory() as folder:
            kept = os.path.join(folder, "kept")
            said = answer_to(["--certificate", kept, stored(name)])
            status, checked, _ = run([program.PROGRAM, "check", kept + ".qc", kept])
            tally.check(f"kept certificate of {name}", status == 0 and checked.startswith("yes true"), said + checked)
            left = sorted(os.listdir(folder))
            tally.check(f"nothing else is left of {name}", left == ["kept", "kept.qc"], str(left))
            tally.check(f"reading the certificate of {name}", reads_same(name, kept), "another assignment, or none")
        with patch.object(main.Player, "one_play", side_effect=NoPlay("a certificate that is too long to be played")):
            unplayed = answer_to([stored(name)])
        tally.check(f"{name} without a play", "----------" in unplayed and "ERROR" not in unplayed, unplayed)


def reads_same(name, kept):
    model = flatzinc.parse(read(stored(name)))
    problem = plain.PlainProblem(Reader(model))
    if problem.text("").split("\n", 1)[1] != read(kept + ".qc").split("\n", 1)[1]:
        problem = plain.PlainProblem(Reader(model), True)
    target = problem.variables().index(problem.target) if isinstance(problem.target, V) else None
    lines = read(kept).splitlines(keepends=True)
    best = int(lines[1].split()[1]) if target is not None else None
    found = assignment(iter(lines[2:]), [list(v.domain) for v in problem.variables()], target, best)
    if found is None:
        return False
    value = dict(zip(problem.variables(), found))
    plain.complete(problem, value)
    return plain.broken(problem, value) is None


def check_several(tally):
    """Several solutions, with their certificates, and what is told where there is no other."""
    one, last = "----------", "==========\n"
    for words, name, count, is_at_end in (
        (["-a"], "pairs", 6, True),
        (["-n", "2"], "pairs", 2, False),
        (["-n", "9"], "pairs", 6, True),
        (["-a"], "send", 1, True),
        (["-a"], "knapsack_b", 1, True),
        (["-a"], "queens3", 0, False),
        (["-a", "--turns", "1"], "zebra", 0, False),
    ):
        said = answer_to([*words, stored(name)])
        is_right = said.count(one) == count and said.endswith(last) == is_at_end and "ERROR" not in said
        tally.check(f"{' '.join(words)} of {name}", is_right, said)
        parts = [part for part in said.split(one) if "=" in part.replace(last, "")]
        tally.check(f"each once by {' '.join(words)} of {name}", len(set(parts)) == len(parts), said)
    said = answer_to(["-a", stored("defence")])
    tally.check("several answers of a game", "a game has one answer" in said and "ERROR" in said, said)
    with tempfile.TemporaryDirectory() as folder:
        kept = os.path.join(folder, "kept")
        answer_to(["-a", "--certificate", kept, stored("pairs")])
        numbers = range(1, len(os.listdir(folder)) // 2 + 1)
        outcomes = [run([program.PROGRAM, "check", f"{kept}.{k}.qc", f"{kept}.{k}"])[1] for k in numbers]
        is_right = outcomes.count("yes true\n") == 6 and outcomes[-1] == "yes false\n" and len(set(outcomes)) == 2
        tally.check("kept certificates of several", is_right, str(outcomes))


def check_limits(tally):
    with tempfile.TemporaryDirectory() as folder:
        hard = stored("golomb5")
        tally.check("few turns", "=====UNKNOWN=====" in answer_to(["--turns", "2", hard]), "it is settled")
        loose = write(folder, "loose.fzn", "var int: x :: output_var; constraint int_le(7,x); solve minimize x;\n")
        said = answer_to(["--assume-bounds", "-5..5", loose])
        tally.check("nothing within assumed bounds", "=====UNKNOWN=====" in said and "assumed" in said, said)
        said = answer_to(["--assume-bounds", "-9..9", loose])
        tally.check("an optimum within assumed bounds", "x = 7;" in said and "==========" not in said, said)
        said = answer_to([os.path.join(folder, "none.fzn")])
        tally.check("no file", "No such file" in said and "=====ERROR=====" in said, said)
        status, out, _ = run([FZN_QECODE, "-t", "1", hard])
        _, _, err = run(["sh", "-c", '"$0" "$1" | true', FZN_QECODE, hard])
        tally.check("a reader that has gone", err == "", err)
        tally.check("time limit", status == 0 and "=====UNKNOWN=====" in out, out)


def check_installer(tally):
    with tempfile.TemporaryDirectory() as folder:
        status, _, _ = run([os.path.join(TOOL, "install"), "--to", folder])
        path = os.path.join(folder, "qecode.msc")
        tally.check("the installer", status == 0 and TOOL in read(path) and "@" not in read(path), "no configuration")
        run([os.path.join(TOOL, "install"), "--to", folder, "--remove"])
        tally.check("the installer takes away", not os.path.exists(path), "it is still there")


OF_PYTHON = (check_determined, check_lowered, check_asserted, check_reader, check_bounds, check_refusals, check_each, check_installer)
OF_PROGRAM = (check_predicates, check_stored, check_stored_early, check_kept, check_several, check_limits)


def checks(tally):
    for check in OF_PYTHON:
        check(tally)
    if has_program():
        for check in OF_PROGRAM:
            check(tally)
    else:
        tally.skip("what is solved", f"there is no program at {program.PROGRAM}; QECODE names one")


if __name__ == "__main__":
    counted = Tally()
    checks(counted)
    raise SystemExit(counted.end())
