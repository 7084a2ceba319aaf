"""Games by brute force: who wins and what is optimal by going over all moves.

Written apart from the program, by docs/game.md, plainly and with no thought of speed: no bound, no cut, no demanded list.
"""
from dataclasses import dataclass
from itertools import product
from math import prod
from typing import NamedTuple

from oracle import reader
from oracle.predicates import SIGNATURES, holds_of, is_refuted


@dataclass(frozen=True)
class Var:
    var: int


@dataclass(frozen=True)
class Agg:
    agg: int


class Aggregate(NamedTuple):
    owner: int
    fold: str
    over_none: object  # a number, or None for a sum, which is 0 over no branch
    target: object


class Constraint(NamedTuple):
    owner: int
    name: str
    args: list  # numbers, Vars, lists of these, and sets


class Game:
    """Everything is counted from 0; the goal's number is the number of scopes."""

    def __init__(self, text):
        self.text = text
        self.items = items = reader.read(text)
        heads = [item for item in items if item.what in ("exists", "forall")]
        declared = sorted((item for item in items if item.what == "var"), key=lambda item: item.owner)
        aggregates = sorted((item for item in items if item.what == "aggregate"), key=lambda item: item.owner)
        self.meant = {item.name.value: Var(k) for k, item in enumerate(declared)}
        self.meant |= {item.name.value: Agg(k) for k, item in enumerate(aggregates)}
        self.kinds = [item.what for item in heads]
        self.goal = len(heads)
        self.conditions = [h.condition and (h.condition[0], self.meant[h.condition[1].value]) for h in heads]
        self.owners = [item.owner for item in declared]
        self.domains = [self.members(item.domain) if item.domain[2] else range(2) for item in declared]
        self.aggregates = [
            Aggregate(item.owner, item.fold[0], item.fold[1] and item.fold[1].value, self.meant[item.target.value])
            for item in aggregates
        ]
        self.constraints = [
            Constraint(item.owner, item.name.value, [self.argument(arg) for arg in item.args])
            for item in items
            if item.what == "constraint"
        ]
        self.prepare()

    @staticmethod
    def members(domain):
        numbers = [number.value for number in domain[2]]
        return range(numbers[0], numbers[1] + 1) if domain[0] == "range" else sorted(set(numbers))

    def argument(self, argument):
        shape, _, value = argument
        if shape == "set":
            return self.members(value)
        return [self.one(item) for item in value] if shape == "array" else self.one(value)

    def one(self, token):
        if token.sort == "number":
            return token.value
        return int(token.value == "true") if token.value in ("true", "false") else self.meant[token.value]

    def prepare(self):
        """The variables of each scope, the constraints to test once so many of them are chosen, and what is watched."""
        scopes = range(self.goal + 1)
        self.own = [[x for x, owner in enumerate(self.owners) if owner == i] for i in scopes]
        self.ready = [[[] for _ in range(len(self.own[i]) + 1)] for i in scopes]
        for c in self.constraints:
            last = [k for k, x in enumerate(self.own[c.owner], 1) if Var(x) in flat(c.args)]
            self.ready[c.owner][max(last, default=0)].append(c)
        targets = [condition[1] for condition in self.conditions if condition] + [q.target for q in self.aggregates]
        self.seen = [[] for _ in scopes]
        for i in reversed(range(self.goal)):
            if self.kinds[i] == "forall":
                self.seen[i] = [Agg(k) for k, q in enumerate(self.aggregates) if q.owner == i]
            else:
                self.seen[i] = [Var(x) for x in self.own[i] if Var(x) in targets] + self.seen[i + 1]

    def is_plain(self):
        return not self.aggregates and not any(self.conditions)

    def full_turns(self):
        return min(len(self.domains) * prod(map(len, self.domains)), 2**63)

    # Who wins, and the optimum.

    def moves(self, i, a):
        """The values of all variables up to scope i, for each allowed tuple of it after a."""
        if all(holds(c, a) for c in self.ready[i][0]):
            yield from self.chosen(i, 0, a)

    def chosen(self, i, k, a):
        if k == len(self.own[i]):
            yield a
            return
        for value in self.domains[self.own[i][k]]:
            b = a + (value,)
            if all(holds(c, b) for c in self.ready[i][k + 1]):
                yield from self.chosen(i, k + 1, b)

    def wins(self, i=0, a=()):
        if i == self.goal:
            return all(holds(c, a) for c in self.ready[i][0])
        later = (self.wins(i + 1, b) for b in self.moves(i, a))
        return any(later) if self.kinds[i] == "exists" else all(later)

    def optimal(self, i=0, a=(), worst=frozenset()):
        """What the optimal strategies after a give the targets that are seen from scope i on: a set of tuples.

        The owners of the scopes `worst` meet the worst ties of later scopes.
        """
        if i == self.goal:
            return {()} if self.wins(i, a) else set()
        if self.kinds[i] == "forall":
            return self.optimal_answers(i, a, worst)
        found, best = set(), None
        for b in self.moves(i, a):
            laters = self.optimal(i + 1, b, worst)
            for later in self.worst_ties(i, b, laters) if i in worst else laters:
                value = self.conditions[i] and self.value(self.conditions[i][1], i, b, later)
                if self.conditions[i] and (best is None or better(self.conditions[i][0], value, best)):
                    found, best = set(), value
                if value == best:
                    found.add(tuple(self.value(target, i, b, later) for target in self.seen[i]))
        return found

    def value(self, target, i, b, later):
        """The target's value after scope i, where the later scopes give what they see the values `later`."""
        if isinstance(target, Var) and target.var < len(b):
            return b[target.var]
        return later[self.seen[i + 1].index(target)]

    def worst_ties(self, i, b, laters):
        """Of what the later scopes' optimal strategies give, what is the worst by the wish of scope i."""
        sense, target = self.conditions[i]
        values = {later: self.value(target, i, b, later) for later in laters}
        return {later for later in laters if not any(better(sense, values[later], v) for v in values.values())}

    def optimal_answers(self, i, a, worst):
        """One optimal strategy for each branch, whichever; each aggregate folds over the branches."""
        aggregates = [q for q in self.aggregates if q.owner == i]
        folds = [FOLDS[q.fold] for q in aggregates]
        totals = {None}
        for b in self.moves(i, a):
            laters = self.optimal(i + 1, b, worst)
            branch = {tuple(self.value(q.target, i, b, later) for q in aggregates) for later in laters}
            if not branch:
                return set()
            totals = {
                values if total is None else tuple(fold(pair) for fold, *pair in zip(folds, total, values))
                for total, values in product(totals, branch)
            }
        return {tuple(q.over_none or 0 for q in aggregates)} if totals == {None} else totals

    def outcome(self, worst=frozenset()):
        """`true`, `true V` or `false`, as a certificate states it, where the scopes `worst` meet the worst ties."""
        won = self.wins()
        if self.is_plain():
            return "true" if won else "false"
        values = self.optimal(worst=worst)
        assert won == bool(values), "won exactly where some strategy is optimal"
        if not won or not self.conditions[0]:
            return "true" if won else "false"
        best = {self.first_value(later) for later in values}
        assert len(best) == 1, "all optimal strategies have one optimum"
        return f"true {best.pop()}"

    def first_value(self, seen):
        """The first scope's value: its target is seen from it."""
        return seen[self.seen[0].index(self.conditions[0][1])]


FOLDS = {"sum": sum, "least": min, "greatest": max}


def better(sense, value, other):
    return value < other if sense == "minimize" else value > other


def flat(args):
    return [item for arg in args for item in (arg if isinstance(arg, list) else [arg])]


def filled(arg, values):
    if isinstance(arg, Var):
        return values[arg.var]
    return [filled(item, values) for item in arg] if isinstance(arg, list) else arg


def holds(constraint, values):
    return holds_of(constraint.name, [filled(arg, values) for arg in constraint.args])


def boxed(kind, arg, box):
    """Numbers and sets that can't hold variables stay; else the values left to an item."""
    if kind in "NMS":
        return arg
    if isinstance(arg, list):
        return [boxed(kind, item, box) for item in arg]
    return box[arg.var] if isinstance(arg, Var) else frozenset([arg])


def refutes(constraint, box):
    kinds = SIGNATURES[constraint.name]
    return is_refuted(constraint.name, [boxed(kind, arg, box) for kind, arg in zip(kinds, constraint.args)])
