"""A problem as people see it: its names, its comments, and its constraints as formulas."""
import os
import re
from bisect import bisect_right

from oracle import reader
from oracle.games import Game, Var
from oracle.predicates import SIGNATURES
from people.ending import FAULT, Failed, read_bytes
from people.ranges import spans
from people.words import formula, set_words


class Problem:
    """A problem text that the program reads. Variables, scopes and constraints are counted from 0."""

    def __init__(self, program, path):
        self.path, self.source = path, read_bytes(path)
        status, canonical = program.run("print", path)
        if status != 0:
            raise Failed(f"{path}: {canonical.decode().strip() or 'it could not be read'}", status)
        self.game = game = Game(self.source)
        if reader.canonical(game.items).encode() != canonical:
            raise Failed(f"{path}: this tool reads it otherwise than the program, which is a fault of the tool", FAULT)
        self.names = [name for name, it in game.meant.items() if isinstance(it, Var)]
        self.aggregate_names = [name for name, it in game.meant.items() if not isinstance(it, Var)]
        self.is_bool = [it.domain[0] == "bool" for it in game.items if it.what == "var"]
        constraints = [it for it in game.items if it.what == "constraint"]
        self.calls = [reader.item_text(it)[len("constraint ") : -2] for it in constraints]
        self.lines = [self.source.count(b"\n", 0, it.at) + 1 for it in constraints]
        self.formulas = [formula(c.name, list(map(self.text_of, c.args, SIGNATURES[c.name]))) for c in game.constraints]
        self.head, self.comments = comments_of(self.source, game.items)

    @property
    def name(self):
        return os.path.basename(self.path)

    def name_of(self, target):
        return self.names[target.var] if isinstance(target, Var) else self.aggregate_names[target.agg]

    def text_of(self, arg, kind):
        if kind == "S":
            return set_words(spans(arg))
        if isinstance(arg, list):
            return [self.text_of(item, kind.lower()) for item in arg]
        if isinstance(arg, Var):
            return self.names[arg.var]
        return ("false", "true")[arg] if kind in "bm" else arg

    def wish(self, i=0):
        """The sense and the name of what a scope wishes for, or None."""
        condition = self.game.conditions[i] if i < self.game.goal else None
        return condition and (condition[0], self.name_of(condition[1]))

    def has_followers(self):
        """Whether a later scope has a wish of its own, so that its ties may matter to the first one, which has one too."""
        return bool(self.wish() and any(self.game.conditions[1:])) and not self.is_pessimistic()

    def is_pessimistic(self):
        """Whether it's a game that `worst` writes: the second scope chooses nothing and wishes the opposite of the first one."""
        first, second = [*self.game.conditions[:2], None, None][:2]
        return bool(first and second and not self.game.own[1] and first[1] == second[1] and first[0] != second[0])

    def assignment(self, i, values):
        """The values of a scope's variables as text, out of those of all variables up to it."""
        return ", ".join(f"{self.names[x]} = {self.value_text(x, values[x])}" for x in self.game.own[i])

    def value_text(self, x, value):
        return ("false", "true")[value] if self.is_bool[x] else str(value)


def comments_of(source, items):
    """The comment at the head, and that of each constraint: what stands right before it, in it, or behind it on its line.

    Comments may hold any bytes; no other part of a text has a `%`.
    """
    head, found = [], {k: [] for k, it in enumerate(items) if it.what == "constraint"}
    starts = [it.at for it in items]
    for match in re.finditer(rb"%([^\n]*)", source):
        text = match[1].decode("utf-8", "replace").strip()
        before = bisect_right(starts, match.start()) - 1  # the last item that begins before the comment
        if before < 0:
            head.append(text)
            continue
        is_its = match.start() < items[before].end or b"\n" not in source[items[before].end : match.start()]
        found.get(before if is_its else before + 1, []).append(text)
    return joined(head), [joined(texts) for texts in found.values()]


def joined(texts):
    return " ".join(text for text in texts if text)
