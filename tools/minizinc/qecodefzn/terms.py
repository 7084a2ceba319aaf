"""Variables, constraints and scopes of the problem that is made.

An argument of a constraint is an int, a bool, a V, a list of these, or a set (Range or ascending tuple).
"""
from bisect import bisect_left, bisect_right
from dataclasses import dataclass, field

from .flatzinc import Range


class Unsupported(Exception):
    """What can't be carried over; the text says why."""


@dataclass(eq=False)
class V:
    """A variable. `is_new` tells that flattening or lowering made it; scope is 0 until somebody chooses it."""

    name: str
    kind: str
    domain: object  # Range or ascending tuple; Range(0, 1) of a Boolean; None of an integer until its bounds are known
    annotations: list
    is_new: bool
    scope: int = 0
    word: str = ""

    def __repr__(self):
        return self.name

    @property
    def low(self):
        return self.domain.low if isinstance(self.domain, Range) else self.domain[0]

    @property
    def high(self):
        return self.domain.high if isinstance(self.domain, Range) else self.domain[-1]


@dataclass(eq=False)
class C:
    """A constraint: its predicate, its arguments, and the annotations that it came with."""

    name: str
    args: list
    annotations: list = field(default_factory=list)

    def __str__(self):
        return f"{self.name}({', '.join(map(str, self.args))})"

    def variables(self):
        """Its variables, each once."""
        found = {}
        for arg in self.args:
            for item in arg if isinstance(arg, list) else [arg]:
                if isinstance(item, V):
                    found[item] = None
        return list(found)


@dataclass
class Aggregate:
    word: str
    fold: str  # sum, least or greatest
    of: V
    otherwise: int


@dataclass
class Scope:
    kind: str = "exists"
    wish: tuple = None  # minimize or maximize, and a V or an Aggregate
    variables: list = field(default_factory=list)
    aggregates: list = field(default_factory=list)
    constraints: list = field(default_factory=list)


def low_of(it):
    return it.low if isinstance(it, V) else int(it)


def high_of(it):
    return it.high if isinstance(it, V) else int(it)


def values_of(it):
    return it.domain if isinstance(it, V) else (int(it),)


def covers(domain, low, high):
    """Whether all integers from low to high are in the domain."""
    if isinstance(domain, Range):
        return low > high or domain.low <= low and high <= domain.high
    return bisect_right(domain, high) - bisect_left(domain, low) >= high - low + 1


def is_within(values, domain):
    """Whether all values (Range or ascending tuple) are in the domain."""
    if not values:
        return True
    if isinstance(values, Range):
        return covers(domain, values.low, values.high)
    return all(value in domain for value in values)
