"""All solutions of a model, or the first so many: it is solved again and again, with what was found excluded.

Solutions are those that differ in what is shown. The shown variables stand in groups. Each value of the first group that was found
is excluded from then on; before that the solutions that have it are gone through, with the first group fixed and the values of
the second one excluded, and so on. So no variable is added, and a text has few constraints more than the model. Each solution
has a certificate of its own, and so has, of each group, that there is no other value.
"""
from math import prod

from .problem import GREATEST, len_of_span
from .terms import C

# The most values of a group of several variables.
MOST_TOGETHER = 5_000


def groups_of(variables):
    """The variables in groups of one kind, in order; a group has few values, or one variable."""
    found = []
    for v in variables:
        if found and is_small([*found[-1], v]):
            found[-1].append(v)
        else:
            found.append([v])
    return found


def is_small(group):
    greatest = sum(factor * max(abs(v.low), abs(v.high)) for factor, v in zip(factors_of(group), group))
    return len({v.kind for v in group}) == 1 and prod(map(len_of_span, group)) <= MOST_TOGETHER and greatest <= GREATEST


def factors_of(group):
    """Factors by which the group comes to another sum for other values."""
    return [prod(map(len_of_span, group[:at])) for at in range(len(group))]


def fixed(v, value):
    return C("bool_eq", [v, bool(value)]) if v.kind == "bool" else C("int_eq", [v, value])


def excluded(group, values):
    """A constraint that holds where one of the group hasn't this value."""
    if group[0].kind == "bool":
        pairs = list(zip(group, values))
        return C("bool_clause", [[v for v, value in pairs if not value], [v for v, value in pairs if value]])
    factors = factors_of(group)
    return C("int_lin_ne", [factors, list(group), sum(factor * value for factor, value in zip(factors, values))])


def added(groups, given, taken):
    """Constraints for these values of the first groups, and none of the taken values of the next one."""
    said = [fixed(v, value) for group, values in zip(groups, given) for v, value in zip(group, values)]
    return said + [excluded(groups[len(given)], values) for values in taken]


def each(count, solve):
    """Gives each solution once, as a list of the values of so many groups, and what else is told of it.

    `solve(given, taken)` finds such a pair with the given values of the first groups, and of the next one none of the taken values;
    or it gives None where there is none.
    """

    def below(given, found):
        taken = []
        while found or (found := solve(given, taken)):
            if len(given) + 1 < count:
                yield from below([*given, found[0][len(given)]], found)
            else:
                yield found
            taken.append(found[0][len(given)])
            found = None

    if count:
        yield from below([], None)
    elif found := solve([], []):
        yield found
