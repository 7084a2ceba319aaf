"""Optima of games in which both sides care for one quantity: what a value and two lists of lemmas prove of a game.

Written apart from the definitions, by docs/lemmas.md, on the reader of lists beside this file.
"""
import copy
import re

from oracle import lemmas
from oracle.games import Constraint, Var
from oracle.lemmas import NotProved, Proof

HEAD = re.compile(rb"qcert 3\nbest (0|-?[1-9][0-9]*) ([1-9][0-9]*)\n")
NUMBER, LONGEST, CONSTRAINTS = 10**9, 2**30, 20_000
WORST = {"minimize": "greatest", "maximize": "least"}


def branches(game):
    """The scopes of the opponent at which the first scope's wish folds over branches, each with its aggregate, and what is
    folded in the end."""
    target, folded = game.conditions[0][1], []
    for i, kind in enumerate(game.kinds):
        if kind == "forall" and not isinstance(target, Var):
            aggregate = game.aggregates[target.agg]
            folded.append((i, aggregate))
            target = aggregate.target
    return folded, target


def stake(game):
    """The wish's sense, the variable that both sides care for, and the scope at which the player answers for it; or None."""
    if not game.kinds or game.kinds[0] != "exists" or not game.conditions[0] or any(game.conditions[1:]):
        return None
    sense = game.conditions[0][0]
    folded, target = branches(game)
    if not isinstance(target, Var) or any(aggregate.fold != WORST[sense] for _, aggregate in folded):
        return None
    start = folded[-1][0] + 1 if folded else 0
    ends = [i for i in range(start, game.goal) if game.kinds[i] == "forall"]
    if not ends:
        return sense, target.var, game.goal
    place = ends[0] - 1
    return (sense, target.var, place) if place >= start else None


def as_good(sense, value, other):
    return value <= other if sense == "minimize" else value >= other


def bounded(game, sense, x, place, value):
    """The game without wishes in which x has to be as good as the value."""
    made = copy.copy(game)
    made.conditions, made.aggregates = [None] * game.goal, []
    args = [Var(x), value] if sense == "minimize" else [value, Var(x)]
    behind = sum(constraint.owner <= place for constraint in game.constraints)
    made.constraints = [*game.constraints[:behind], Constraint(place, "int_le", args), *game.constraints[behind:]]
    made.prepare()
    return made


def proved(game, data):
    """The value that the text proves to be the optimum."""
    head = HEAD.match(data)
    if not head:
        raise NotProved(2, "head")
    value, count = int(head[1]), int(head[2])
    lists = data[head.end() :]
    if abs(value) > NUMBER or count > LONGEST or count > len(lists):
        raise NotProved(2, "numbers")
    found = stake(game)
    if not found:
        raise NotProved(2, "not both sides care for one quantity")
    sense, x, place = found
    free = [not any(constraint.owner == i for constraint in game.constraints) for i in range(game.goal)]
    if not all(free[i] or as_good(sense, aggregate.over_none, value) for i, aggregate in branches(game)[0]):
        raise NotProved(2, "an opponent without a move may leave less")
    better = value + (-1 if sense == "minimize" else 1)
    if abs(better) > NUMBER or len(game.constraints) >= CONSTRAINTS:
        raise NotProved(2, "no room for a bound")
    for of, text, loser in ((value, lists[:count], "forall"), (better, lists[count:], "exists")):
        if Proof(bounded(game, sense, x, place, of), text).loser != loser:
            raise NotProved(2, f"another outcome with {of}")
    return value


def judged(game, data):
    """What a text of version 3 proves of the game, or where it fails: `true`, `false`, or `true V` for an optimum."""
    if not data.startswith(b"qcert 3\nb"):
        return lemmas.judged(game, data)
    try:
        return f"true {proved(game, data)}"
    except NotProved as fault:
        line, why = fault.args
        return f"no: line {line}, {why}"
