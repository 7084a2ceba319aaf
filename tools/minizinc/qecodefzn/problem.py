"""The problem that is made, and its text."""
from itertools import count

from .flatzinc import Range
from .terms import Aggregate, Unsupported, V

RESERVED = frozenset(
    "exists forall goal solve var bool aggregate sum least greatest else minimize maximize constraint true false".split()
)
# The limits of docs/problem-text.md.
MOST_SCOPES, MOST_VARIABLES, MOST_AGGREGATES, MOST_CONSTRAINTS = 64, 500, 255, 20_000
MOST_ITEMS, MOST_NUMBERS, GREATEST = 1_000, 100_000, 1_000_000_000
WIDEST, WIDEST_TOGETHER, MOST_BYTES = 1_048_576, 4_194_304, 4_194_304
ADVICE = "docs/minizinc.md tells what to do"


class Problem:
    """Scopes and a goal. Whoever makes one sets `scopes` and `goal`, and then calls `name_words`."""

    is_game = False

    def __init__(self, reader):
        self.reader = reader
        self.scopes, self.goal = [], []

    def variables(self):
        return [v for scope in self.scopes for v in scope.variables]

    def constraints(self):
        return [c for scope in self.scopes for c in scope.constraints] + self.goal

    def name_words(self):
        used = set(RESERVED) | {it.word for scope in self.scopes for it in scope.aggregates}
        for v in self.variables():
            word = v.name.replace("X_INTRODUCED_", "x").rstrip("_") or "v"
            v.word = word if word not in used else next(w for w in (f"{word}_{k}" for k in count(2)) if w not in used)
            used.add(v.word)

    def text(self, comment):
        lines = [f"% {comment}"]
        for scope in self.scopes:
            lines += scope_lines(scope)
        return "\n".join([*lines, "goal;", *map(written, self.goal), "solve;", ""])

    def refuse_too_large(self):
        """Names the first limit of the problem text that is passed."""
        domains = [len_of_span(v) for v in self.variables()]
        at_most("scopes", len(self.scopes), MOST_SCOPES)
        at_most("variables", len(domains), MOST_VARIABLES)
        at_most("aggregates", sum(len(scope.aggregates) for scope in self.scopes), MOST_AGGREGATES)
        at_most("constraints", len(self.constraints()), MOST_CONSTRAINTS)
        for v, width in zip(self.variables(), domains):
            at_most(f"values from the least to the greatest of {v.name}", width, WIDEST)
            at_most(f"as the size of a number, in the domain of {v.name}", max(abs(v.low), abs(v.high)), GREATEST)
        at_most("values from the least to the greatest of all variables together", sum(domains), WIDEST_TOGETHER)
        for c in self.constraints():
            for arg in c.args:
                self.refuse_long(c, arg)

    def refuse_long(self, c, arg):
        if isinstance(arg, list):
            has_variables = any(isinstance(it, V) for it in arg)
            at_most(f"items in an array of {c.name}", len(arg), MOST_ITEMS if has_variables else MOST_NUMBERS)
        if isinstance(arg, tuple):
            at_most(f"numbers in a set of {c.name}", len(arg), MOST_NUMBERS)
        for it in arg if isinstance(arg, (list, tuple)) else [arg]:
            if isinstance(it, int):
                at_most(f"as the size of a number, in {c.name}", abs(it), GREATEST)


def at_most(what, found, limit):
    if found > limit:
        raise Unsupported(f"{found:,} {what}; a problem has at most {limit:,} ({ADVICE})")


def len_of_span(v):
    return v.high - v.low + 1


def scope_lines(scope):
    wish = ""
    if scope.wish:
        sense, of = scope.wish
        wish = f" {sense} {of.word}"
    lines = [f"{scope.kind}{wish};"]
    for v in scope.variables:
        lines.append(f"var {'bool' if v.kind == 'bool' else written_set(v.domain)}: {v.word};")
    for it in scope.aggregates:
        otherwise = "" if it.fold == "sum" else f" else {it.otherwise}"
        lines.append(f"aggregate {it.word} = {it.fold}({it.of.word}){otherwise};")
    return lines + [written(c) for c in scope.constraints]


def written_set(members):
    return f"{members.low}..{members.high}" if isinstance(members, Range) else "{" + ",".join(map(str, members)) + "}"


def written_arg(arg):
    if isinstance(arg, bool):
        return "true" if arg else "false"
    if isinstance(arg, (V, Aggregate)):
        return arg.word
    if isinstance(arg, list):
        return "[" + ",".join(map(written_arg, arg)) + "]"
    if isinstance(arg, (Range, tuple)):
        return written_set(arg)
    return str(arg)


def written(c):
    return f"constraint {c.name}({','.join(map(written_arg, c.args))});"
