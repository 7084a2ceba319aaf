"""Lists of lemmas: what a list proves of a game, read line by line.

Written apart from the definitions, by docs/lemmas.md, plainly and with no thought of speed: a box is a list of sets, and
each test goes over all constraints.
"""
from typing import NamedTuple

from oracle.games import Var, boxed, refutes
from oracle.predicates import ENTAILED, SIGNATURES

HEADS = {b"true": "forall", b"false": "exists"}  # who loses the game
LOSERS = {b"l": "exists", b"w": "forall"}
# A text has no number beyond these: a value, and an end of a sum's range.
VALUE, SUM = 10**9, 2**62


class NotProved(Exception):
    """A list that isn't one, or proves nothing, with the number of the line and what is wrong there."""


class Lemma(NamedTuple):
    loser: str
    literals: list  # (variable, least, greatest), in order
    sums: list  # (constraint, least, greatest)


def numbers(words, count):
    """The numbers of a line: exactly count of them, or any triples for None."""
    found = [int(word) for word in words]
    if [b"%d" % number for number in found] != words or (len(found) != count if count is not None else len(found) % 3):
        raise ValueError
    return found


def linear(constraint):
    """Factors, items and bound of a sum, and whether it equals the bound or is at most that; or None."""
    name, args = constraint.name, constraint.args
    if name in ("int_lin_eq", "int_lin_le"):
        return args[0], args[1], args[2], name == "int_lin_eq"
    if name in ("int_le", "bool_le", "int_lt", "bool_lt"):
        return [1, -1], args, -1 if name.endswith("lt") else 0, False
    return ([1, 1, -1], args, 0, True) if name == "int_plus" else None


class Proof:
    """Reads a list line by line, and stops at the first that isn't in place."""

    def __init__(self, game, data):
        self.game, self.known, self.at = game, [], 0
        self.lines = data.split(b"\n")
        if not data.endswith(b"\n") or self.next() != [b"qcert", b"3"]:
            raise NotProved(1, "head")
        head = self.next()
        if len(head) != 1 or head[0] not in HEADS:
            raise NotProved(2, "outcome")
        self.loser = HEADS[head[0]]
        final = False
        while self.peek() is not None:
            final = self.entry()
        if not final:
            self.fail("the last lemma doesn't say who loses the game")

    def fail(self, why):
        raise NotProved(self.at, why)

    def peek(self):
        return self.lines[self.at][:1] if self.at < len(self.lines) - 1 else None

    def next(self):
        self.at += 1
        return self.lines[self.at - 1].split(b" ")

    def numbers(self, count):
        try:
            letter, *words = self.next()
            if len(letter) != 1:
                raise ValueError
            return numbers(words, count)
        except ValueError:
            self.fail("numbers")

    def within(self, most, *found):
        if any(abs(number) > most for number in found):
            self.fail("a number too far from zero")

    def entry(self):
        """A lemma with its steps, or a lemma that is forgotten; whether it ends the list."""
        letter = self.peek()
        if letter == b"d":
            (n,) = self.numbers(1)
            self.lemma(n)
            self.known[n - 1] = None
            return False
        if letter not in LOSERS:
            self.fail("a lemma is expected")
        found = self.numbers(None)
        literals = [(found[k] - 1, found[k + 1], found[k + 2]) for k in range(0, len(found), 3)]
        self.within(VALUE, *(end for _, low, high in literals for end in (low, high)))
        sums = []
        while self.peek() == b"u":
            c, low, high = self.numbers(3)
            self.within(SUM, low, high)
            sums.append((c - 1, low, high))
        lemma = Lemma(LOSERS[letter], literals, sums)
        self.begin(lemma)
        self.steps()
        self.known.append(lemma)
        return lemma.loser == self.loser and not literals and not sums

    def lemma(self, n):
        if not 1 <= n <= len(self.known) or not self.known[n - 1]:
            self.fail("no such lemma")
        return self.known[n - 1]

    # ---- Who chooses what.

    def side(self, scope):
        return "exists" if scope == self.game.goal else self.game.kinds[scope]

    def place(self, lemma):
        own = [self.game.owners[x] + 1 for x, _, _ in lemma.literals if self.side(self.game.owners[x]) == lemma.loser]
        return max(own, default=0)

    def is_winners(self, x):
        return self.game.owners[x] >= self.start and self.side(self.game.owners[x]) != self.now.loser

    # ---- A lemma and its steps.

    def begin(self, lemma):
        game, before = self.game, None
        for x, low, high in lemma.literals:
            if not 0 <= x < len(game.owners) or low > high or before and not follows(before, x, low):
                self.fail("literals out of order")
            before = x, low, high
        self.now, self.start = lemma, self.place(lemma)
        if any(game.owners[x] >= self.start for x, _, _ in lemma.literals):
            self.fail("a literal past the position")
        if any(not 0 <= c < len(game.constraints) or not linear(game.constraints[c]) for c, _, _ in lemma.sums):
            self.fail("a sum of no linear constraint")
        self.passed = self.start
        self.box = [frozenset(domain) for domain in game.domains]
        for x in {x for x, _, _ in lemma.literals}:
            self.box[x] = frozenset(v for v in self.box[x] if self.meets(lemma, x, v))

    @staticmethod
    def meets(lemma, x, v):
        return any(y == x and low <= v <= high for y, low, high in lemma.literals)

    def steps(self):
        while (letter := self.peek()) in (b"p", b"q", b"c"):
            if not all(self.box):
                self.fail("nothing is left")
            if letter == b"c":
                x, v = self.numbers(2)
                x -= 1
                if not 0 <= x < len(self.box) or not self.is_winners(x) or v not in self.box[x]:
                    self.fail("no choice of the winner's")
                self.box[x] = frozenset([v])
            else:
                self.cut(letter)
        self.end(letter)

    def cut(self, letter):
        x, low, high, reason = self.numbers(4)
        self.within(VALUE, low, high)
        x -= 1
        kept = 0 <= x < len(self.box) and frozenset(v for v in self.box[x] if low <= v <= high)
        if not kept or self.is_winners(x):
            self.fail("no values of the loser's")
        owner = self.game.owners[x]
        answers = {y for y in range(len(self.box)) if self.is_winners(y) and self.game.owners[y] > owner}
        inner = self.box[:x] + [kept] + self.box[x + 1 :]
        self.reason(letter == b"p", reason, inner, answers)
        self.box[x] -= kept

    def end(self, letter):
        if letter not in (b"f", b"a", b"g"):
            if all(self.box):
                self.fail("values are left")
            return
        if not all(self.box):
            self.fail("nothing is left")
        if letter != b"g":
            self.reason(letter == b"f", self.numbers(1)[0], self.box, set())
            return
        self.numbers(0)
        if self.now.loser == "exists":
            self.fail("the goal isn't the winner's")
        self.reach(self.game.goal)
        if not all(self.is_kept(k, self.box) for k, c in enumerate(self.game.constraints) if c.owner == self.game.goal):
            self.fail("the goal isn't kept")

    def reach(self, stop):
        for k, c in enumerate(self.game.constraints):
            if self.passed <= c.owner < stop and self.side(c.owner) != self.now.loser and not self.is_kept(k, self.box):
                self.fail(f"constraint {k + 1} may stop the winner")
        self.passed = max(self.passed, stop)

    def reason(self, is_constraint, number, box, answers):
        (self.by_constraint if is_constraint else self.by_lemma)(number, box, answers)

    def by_constraint(self, number, box, answers):
        if not 1 <= number <= len(self.game.constraints):
            self.fail("no such constraint")
        c = self.game.constraints[number - 1]
        self.reach(c.owner)
        if self.side(c.owner) != self.now.loser or c.owner + 1 < self.start:
            self.fail("not a constraint that the loser has to keep")
        if not self.is_refuted(number - 1, box) and not self.is_falsified(c, box, answers):
            self.fail("the constraint isn't refuted")

    def by_lemma(self, number, box, answers):
        lemma = self.lemma(number)
        place = self.place(lemma)
        self.reach(place)
        if lemma.loser != self.now.loser or place < self.start:
            self.fail("a lemma of another side, or of an earlier position")
        for x in {x for x, _, _ in lemma.literals}:
            met = [self.meets(lemma, x, v) for v in box[x]]
            if not all(met) and not (x in answers and any(met)):
                self.fail("a literal isn't met")
        for c, low, high in lemma.sums:
            least, greatest = self.sum_known(c, place - 1, box)
            if least < low or greatest > high:
                self.fail("a sum isn't shown")

    # ---- What the box and the lemma's sums say of a constraint.

    def is_falsified(self, constraint, box, answers):
        if constraint.name != "bool_clause":
            return False

        def comes_to(item, value, others):
            left = box[item.var] if isinstance(item, Var) else {item}
            return left == {value} or isinstance(item, Var) and item.var in answers and value in left and item not in others

        xs, ys = constraint.args
        return all(comes_to(item, 0, ys) for item in xs) and all(comes_to(item, 1, xs) for item in ys)

    def sum_known(self, k, stop, box):
        """The range of the terms of variables of scopes before stop, or of all terms for None."""
        factors, items, _, _ = linear(self.game.constraints[k])
        terms = list(zip(factors, items))
        counted = [t for t in terms if stop is None or self.is_before(t[1], stop)]
        ranges = [self.range_of(counted, box)]
        rest = [t for t in counted if not self.is_before(t[1], self.start - 1)]
        for c, low, high in self.now.sums:
            if c == k:
                least, greatest = self.range_of(rest, box)
                ranges.append((low + least, high + greatest))
        return max(r[0] for r in ranges), min(r[1] for r in ranges)

    def is_before(self, item, stop):
        return isinstance(item, Var) and self.game.owners[item.var] < stop

    @staticmethod
    def range_of(terms, box):
        ends = [[factor * v for v in (box[item.var] if isinstance(item, Var) else [item])] for factor, item in terms]
        return sum(map(min, ends)), sum(map(max, ends))

    def is_refuted(self, k, box):
        c = self.game.constraints[k]
        form = linear(c)
        if refutes(c, box):
            return True
        if not form:
            return False
        least, greatest = self.sum_known(k, None, box)
        return least > form[2] or form[3] and greatest < form[2]

    def is_kept(self, k, box):
        c = self.game.constraints[k]
        if entails(c, box):
            return True
        form = linear(c)
        if not form:
            return False
        least, greatest = self.sum_known(k, None, box)
        return greatest <= form[2] and (not form[3] or least >= form[2])


def entails(c, box):
    """Whether all values in the box satisfy the constraint, as far as the table, an element or a single tuple tells."""
    args = [boxed(kind, arg, box) for kind, arg in zip(SIGNATURES[c.name], c.args)]
    if c.name in ENTAILED and ENTAILED[c.name](*args):
        return True
    if c.name in ("array_var_int_element", "array_var_bool_element") and is_picked(*args):
        return True
    return all(len(box[x]) == 1 for x in variables(c.args)) and not refutes(c, box)


def is_picked(index, items, result):
    """Whether the index has one value, and the item there and the result have one, the same."""
    place = min(index) - 1
    return len(index) == len(result) == 1 and 0 <= place < len(items) and set(items[place]) == set(result)


def follows(before, x, low):
    """A later variable, or a later range of the same."""
    return x > before[0] or x == before[0] and low > before[2]


def variables(args):
    for arg in args:
        if isinstance(arg, Var):
            yield arg.var
        elif isinstance(arg, list):
            yield from variables(arg)


def judged(game, data):
    """What the list proves of the game, or where it fails."""
    try:
        return {"forall": "true", "exists": "false"}[Proof(game, data).loser]
    except NotProved as fault:
        line, why = fault.args
        return f"no: line {line}, {why}"
