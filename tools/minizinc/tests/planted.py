"""Errors planted in the translator, one at a time: the small tests have to fail by each of them.

A wrong answer that no test can tell would be the worst that a translator does; what the program proves doesn't cover it.
"""
import contextlib
import io
from unittest.mock import patch

import small
from common import Tally

from qecodefzn import asserting, builtins, determined, games, lowering, output, plain, problem, reading, solutions
from qecodefzn.determined import Cluster, Definitions
from qecodefzn.games import GameProblem, Option
from qecodefzn.terms import C


def as_reified(reader, c, out):
    """Half-reification as if it were the whole."""
    if c.name.endswith("_imp"):
        out.append(C("bool_eq", [c.args[-1], lowering.said_of(reader, C(c.name[:-4], c.args[:-1]), out)]))
    else:
        LOWERED(reader, c, out)


def parity_kept(reader, c, out):
    items, b = c.args
    out.append(C("array_bool_xor", [items + [b]]))


def swapped_senses(self):
    WISHES(self)
    for scope in self.scopes:
        if scope.wish:
            scope.wish = ({"minimize": "maximize", "maximize": "minimize"}[scope.wish[0]], scope.wish[1])


def goal_in_rules(self):
    """The goal as a rule of the last scope."""
    rules = RULES(self)
    last = len(self.scopes)
    rules[last] += rules[last + 1]
    rules[last + 1] = []
    return rules


class TurnedScope(plain.Scope):
    """A scope that wishes the opposite."""

    def __setattr__(self, name, value):
        if name == "wish" and value:
            value = ({"minimize": "maximize", "maximize": "minimize"}[value[0]], value[1])
        super().__setattr__(name, value)


def least_fits(self, value):
    value[self.result] = self.result.low
    return 1


def two_corners(a, b, function):
    low, high = function(reading.low_of(a), reading.low_of(b)), function(reading.high_of(a), reading.high_of(b))
    return reading.Range(min(low, high), max(low, high))


def assumed_silently(self, v):
    v.domain = reading.Range(*(self.assume or (-9, 9)))


def first_alone(group, values):
    """Excludes all that have the first value."""
    return EXCLUDED(group[:1], values[:1])


def one_of_each(count, solve):
    """Of each value of the first group one solution."""
    taken = []
    while count and (found := solve([], taken)):
        yield found
        taken.append(found[0][0])


EXCLUDED = solutions.excluded
LOWERED, WISHES, RULES = lowering.lowered, GameProblem.read_wishes, GameProblem.read_rules
PLANTED = {
    "half-reification is the whole": patch.object(small, "lowered", as_reified),
    "a parity isn't turned": patch.dict(lowering.LOWERINGS, {"array_bool_xor_reif": parity_kept}),
    "a difference is a sum": patch.dict(lowering.LOWERINGS, {"int_minus": lambda r, c, out: out.append(C("int_plus", c.args))}),
    "a reified table looks at its first row": patch.dict(
        lowering.LOWERINGS,
        {"table_int_reif": lambda r, c, out: lowering.table_said(r, C(c.name, [c.args[0], c.args[1][:2], c.args[2]]), out)},
    ),
    "quotients are rounded down": patch.dict(builtins.HOLDS, {"int_div": lambda a, b, c: b != 0 and a // b == c}),
    "a sum that isn't small may be equal": patch.dict(
        asserting.CONTRARIES, {"int_lin_le": lambda fs, xs, k: C("int_lin_le", [[-f for f in fs], xs, -k])}
    ),
    "a contrary isn't swapped": patch.dict(asserting.CONTRARIES, {"int_le": asserting.named("int_lt")}),
    "any place is in an array": patch.dict(determined.RULES, {"array_int_element": determined.by_last}),
    "a number of a Boolean may be anything": patch.dict(determined.RULES, {"bool2int": determined.always}),
    "a quotient by 0 has a value": patch.dict(determined.RULES, {"int_div": determined.by_last}),
    "a sum determines what has any factor": patch.dict(determined.RULES, {"int_lin_eq": determined.always}),
    "what checks don't fit is determined too": patch.object(Cluster, "fits", least_fits),
    "bare constraints are left aside": patch.object(GameProblem, "refuse_bare", lambda self, bare: None),
    "free variables are left aside": patch.object(GameProblem, "refuse_free", lambda self, bare: None),
    "everything always holds": patch.object(Definitions, "always", lambda self, variables, condition, more=1: True),
    "narrowed domains are taken": patch.object(games, "CANARY", "x"),
    "rules see later scopes": patch.object(GameProblem, "latest", lambda self, v: v.scope or 1),
    "wishes see everything": patch.object(GameProblem, "refuse_unseen", lambda self, of, at, c: None),
    "wishes come in any order": patch.object(GameProblem, "refuse_after_least", lambda self, folded: None),
    "wishes are turned": patch.object(GameProblem, "read_wishes", swapped_senses),
    "the goal is a rule": patch.object(GameProblem, "read_rules", goal_in_rules),
    "an alias forgets its domain": patch.object(reading.Reader, "keep_domain", lambda self, alias: None),
    "bounds of products by two corners": patch.object(reading, "ends_of_products", two_corners),
    "Booleans are written turned": patch.object(
        problem, "written_arg", lambda arg, of=problem.written_arg: of(not arg) if isinstance(arg, bool) else of(arg)
    ),
    "minimise is maximise": patch.object(plain, "Scope", TurnedScope),
    "another value is shown": patch.object(output, "shown", lambda value, kind: str(int(value) + 1)),
    "what is absent may have any value": patch.object(GameProblem, "rule_of", lambda self, it: C("bool_eq", [True, True])),
    "nothing can be chosen of options": patch.object(Option, "is_kept", lambda self, value: False),
    "more than a solution is excluded": patch.object(solutions, "excluded", first_alone),
    "a number is excluded by one factor": patch.object(solutions, "factors_of", lambda group: [1] * len(group)),
    "solutions with the same beginning are passed over": patch.object(solutions, "each", one_of_each),
    "the values of earlier groups are free": patch.object(solutions, "fixed", lambda v, value: C("bool_eq", [True, True])),
    "assumed bounds are forgotten": patch.object(reading.Reader, "assume_bounds", assumed_silently),
    "too many variables are written": patch.object(problem.Problem, "refuse_too_large", lambda self: None),
}


def fails():
    """Whether the small tests fail; a test that can't go on has failed."""
    counted = Tally()
    with contextlib.redirect_stdout(io.StringIO()):
        try:
            for check in (*small.OF_PYTHON[:-1], *small.OF_PROGRAM):
                check(counted)
                if counted.failed:
                    return True
        except Exception:
            return True
    return False


def checks(tally):
    for name, planted in PLANTED.items():
        with planted:
            tally.check(f"planted: {name}", fails(), "the small tests pass")
