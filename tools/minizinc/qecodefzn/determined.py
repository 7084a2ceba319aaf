"""Which variables follow from others.

A variable is determined by a constraint where for all values of the constraint's other variables exactly one value of its
domain satisfies it. A few variables are determined by several constraints together (a Cluster), as a divisor that is made safe
is; that is found by going over all values.
"""
from dataclasses import dataclass
from itertools import product
from math import prod

from .builtins import HOLDS, PREDICATES, RESULTS
from .terms import V, covers, high_of, is_within, low_of, values_of

# The most combinations of values that are gone over to see whether something holds for all.
MOST_TRIED = 300_000
WIDEST_TRIED = 1_000


class NoValue(Exception):
    """Nothing in the domain satisfies the constraint."""


def plain(arg, value):
    if isinstance(arg, list):
        return [plain(it, value) for it in arg]
    return value[arg] if isinstance(arg, V) else arg


def holds(c, value):
    return bool(HOLDS[c.name](*(plain(arg, value) for arg in c.args)))


def value_of(c, v, value):
    """The first value of v with which c holds, where the other variables have the values given."""
    if c.name in RESULTS and c.args[-1] is v and places(c, v) == 1:
        result = RESULTS[c.name](*(plain(arg, value) for arg in c.args[:-1]))
        if result is None or int(result) not in v.domain:
            raise NoValue
        return int(result)
    if c.name == "int_lin_eq" and places(c, v) == 1:
        return term_of_sum(c, v, value)
    for it in v.domain:
        if holds(c, value | {v: it}):
            return it
    raise NoValue


def term_of_sum(c, v, value):
    factors, items, total = c.args
    at = next(k for k, x in enumerate(items) if x is v)
    left = total - sum(f * plain(x, value) for f, x in zip(factors, items) if x is not v)
    if factors[at] == 0:
        if left:
            raise NoValue
        return v.low
    found, rest = divmod(left, factors[at])
    if rest or found not in v.domain:
        raise NoValue
    return found


def places(c, v):
    """How often v stands in c."""
    return sum((arg is v) if not isinstance(arg, list) else sum(it is v for it in arg) for arg in c.args)


# ---- One constraint.


def by_sum(args, v):
    factors, items, total = args
    at = next(k for k, x in enumerate(items) if x is v)
    if abs(factors[at]) != 1:
        return False
    ends = [sorted((f * low_of(x), f * high_of(x))) for f, x in zip(factors, items) if x is not v]
    low, high = sorted(factors[at] * (total - sum(end[k] for end in ends)) for k in (0, 1))
    return covers(v.domain, low, high)


def by_plus(args, v):
    a, b, total = args
    if total is v:
        return covers(v.domain, low_of(a) + low_of(b), high_of(a) + high_of(b))
    other = b if a is v else a
    return covers(v.domain, low_of(total) - high_of(other), high_of(total) - low_of(other))


def by_corners(function):
    def is_so(args, v):
        a, b, result = args
        ends = [function(p, q) for p in (low_of(a), high_of(a)) for q in (low_of(b), high_of(b))]
        return result is v and covers(v.domain, min(ends), max(ends))

    return is_so


def by_division(args, v):
    a, b, result = args
    if result is not v or 0 in values_of(b):
        return False
    most = max(abs(low_of(a)), abs(high_of(a)))
    is_positive = low_of(a) >= 0 and low_of(b) > 0
    return covers(v.domain, 0 if is_positive else -most, most)


def by_remainder(args, v):
    a, b, result = args
    if result is not v or 0 in values_of(b):
        return False
    most = max(abs(low_of(b)), abs(high_of(b))) - 1
    return covers(v.domain, -most if low_of(a) < 0 else 0, most if high_of(a) > 0 else 0)


def by_size(args, v):
    a, result = args
    return result is v and covers(v.domain, 0, max(abs(low_of(a)), abs(high_of(a))))


def by_number(args, v):
    b, number = args
    if number is v:
        return covers(v.domain, 0, 1)
    return low_of(number) >= 0 and high_of(number) <= 1


def by_equality(args, v):
    return is_within(values_of(args[1] if args[0] is v else args[0]), v.domain)


def by_extreme(args, v):
    return args[0] is v and covers(v.domain, min(map(low_of, args[1])), max(map(high_of, args[1])))


def by_element(args, v):
    place, items, result = args
    if result is not v or low_of(place) < 1 or high_of(place) > len(items):
        return False
    return all(is_within(values_of(items[at - 1]), v.domain) for at in values_of(place))


def by_last(args, v):
    return args[-1] is v


def always(args, v):
    return True


RULES = {
    "int_lin_eq": by_sum,
    "int_plus": by_plus,
    "int_times": by_corners(lambda p, q: p * q),
    "int_min": by_corners(min),
    "int_max": by_corners(max),
    "int_div": by_division,
    "int_mod": by_remainder,
    "int_abs": by_size,
    "int_eq": by_equality,
    "bool2int": by_number,
    "array_int_minimum": by_extreme,
    "array_int_maximum": by_extreme,
    "array_int_element": by_element,
    "array_bool_element": by_element,
    "array_var_int_element": by_element,
    "array_var_bool_element": by_element,
    "bool_and": by_last,
    "bool_or": by_last,
    "array_bool_and": by_last,
    "array_bool_or": by_last,
    "bool_xor": always,
    "bool_eq": always,
    "bool_not": always,
    "array_bool_xor": always,
}
# Where the rule, which looks at ends alone, says no, all values are gone over.
TRIED = ("int_lin_eq", "int_times", "int_min", "int_max", "int_div", "int_mod", "int_abs", "int_plus", "table_int")


class Determiner:
    """`determines(c, v)`: whether c determines v. What was found by going over values is kept."""

    def __init__(self):
        self.tried = {}

    def determines(self, c, v):
        if places(c, v) != 1:
            return False
        if c.name.endswith("_reif"):
            return c.args[-1] is v
        if c.name in RULES and RULES[c.name](c.args, v):
            return True
        if c.name not in TRIED:
            return False
        if (c, v) not in self.tried:
            self.tried[c, v] = has_one_value(c, v)
        return self.tried[c, v]


def has_one_value(c, v):
    others = [x for x in c.variables() if x is not v]
    if prod(len(x.domain) for x in others) * len(v.domain) > MOST_TRIED:
        return False
    for numbers in product(*(x.domain for x in others)):
        value = dict(zip(others, numbers))
        count = 0
        for it in v.domain:
            value[v] = it
            count += holds(c, value)
        if count != 1:
            return False
    return True


# ---- Several constraints.


@dataclass(eq=False)
class Cluster:
    """A variable that has exactly one value with which all checks hold; the steps define what follows from it."""

    result: V
    checks: list
    steps: list
    givens: list

    def fits(self, value):
        """How many values fit; the last of them is put into value."""
        count, known = 0, dict(value)
        for it in self.result.domain:
            trial = known | {self.result: it}
            try:
                for v, c in self.steps:
                    trial[v] = value_of(c, v, trial)
            except NoValue:
                continue
            if all(holds(c, trial) for c in self.checks):
                count += 1
                value[self.result] = it
        return count


def put_value(v, definition, value):
    """Puts the value of v, which is determined by what has a value."""
    if isinstance(definition, Cluster):
        if definition.fits(value) != 1:
            raise NoValue
    else:
        value[v] = value_of(definition, v, value)


def givens_of(definition, v):
    """The variables on which the value of v rests directly."""
    if isinstance(definition, Cluster):
        return definition.givens
    return [x for x in definition.variables() if x is not v]


class Definitions:
    """What determines each variable that nobody chooses; `order` has these so that each stands after those that it rests on."""

    def __init__(self, chosen):
        self.chosen = set(chosen)
        self.of, self.order = {}, []

    def put(self, v, definition):
        self.of[v] = definition
        self.order.append(v)

    def write_out(self, v, parts):
        """Several constraints, each with its result last, in place of the one that determines v."""
        at = self.order.index(v)
        self.order[at : at + 1] = [part.args[-1] for part in parts]
        self.of.update({part.args[-1]: part for part in parts})

    def base(self, variables):
        """The chosen variables on which these rest, and the definitions between, in order; None where something is unknown."""
        found, steps, seen = [], [], set()
        stack = [(v, False) for v in reversed(variables)]
        while stack:
            v, is_done = stack.pop()
            if is_done:
                steps.append((v, self.of[v]))
            elif v not in seen:
                seen.add(v)
                if v in self.chosen:
                    found.append(v)
                elif v not in self.of:
                    return None
                else:
                    stack.append((v, True))
                    stack += [(x, False) for x in reversed(givens_of(self.of[v], v))]
        return found, steps

    def always(self, variables, condition, more=1):
        """Whether the condition holds for all values of these; False too where there are too many to go over."""
        base = self.base(variables)
        if base is None or prod(len(v.domain) for v in base[0]) * more > MOST_TRIED:
            return False
        givens, steps = base
        for numbers in product(*(v.domain for v in givens)):
            value = dict(zip(givens, numbers))
            for v, definition in steps:
                put_value(v, definition, value)
            if not condition(value):
                return False
        return True

    def complete(self, value, variables):
        """Puts values for these where the chosen variables that they rest on have some."""
        base = self.base(variables)
        if base is not None and all(v in value for v in base[0]):
            for v, definition in base[1]:
                if v not in value:
                    put_value(v, definition, value)


def follow_on(determiner, known, constraints):
    """What follows from the known variables, one after the other, as pairs; both `known` and the list of constraints change."""
    found, unknown, mentions = [], {}, {}
    for c in constraints:
        missing = [v for v in c.variables() if v not in known]
        unknown[c] = len(missing)
        for v in missing:
            mentions.setdefault(v, []).append(c)
    todo, used = [c for c in constraints if unknown[c] == 1], set()
    for c in todo:  # which grows
        if unknown[c] != 1 or c in used:
            continue
        v = next(x for x in c.variables() if x not in known)
        if not determiner.determines(c, v):
            continue
        used.add(c)
        known.add(v)
        found.append((v, c))
        for other in mentions[v]:
            unknown[other] -= 1
            if unknown[other] == 1:
                todo.append(other)
    constraints[:] = [c for c in constraints if c not in used]
    return found


def find_cluster(determiner, definitions, known, constraints):
    """A Cluster of one of the unknown variables, or None."""
    unknown = {v: None for c in constraints for v in c.variables() if v not in known}
    for u in unknown:
        if len(u.domain) <= WIDEST_TRIED:
            cluster = cluster_of(u, determiner, definitions, known, constraints)
            if cluster:
                return cluster
    return None


def cluster_of(u, determiner, definitions, known, constraints):
    left, with_u = list(constraints), known | {u}
    inner = follow_on(determiner, with_u, left)
    near = {u} | {v for v, _ in inner}
    checks = [
        c
        for c in left
        if c.name in PREDICATES and all(v in with_u for v in c.variables()) and any(v in near for v in c.variables())
    ]
    if not checks:
        return None
    wanted, steps = {v: None for c in checks for v in c.variables()}, []
    for v, c in reversed(inner):
        if v in wanted:
            wanted.update(dict.fromkeys(c.variables()))
            steps.insert(0, (v, c))
    inside = {u} | {v for v, _ in steps}
    cluster = Cluster(u, checks, steps, [v for v in wanted if v not in inside])
    fits = definitions.always(cluster.givens, lambda value: cluster.fits(value) == 1, len(u.domain))
    return cluster if fits else None
