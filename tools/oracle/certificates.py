"""Certificates: their text, and what they prove.

Written apart from the program, by docs/certificates.md and docs/predicates.md. `judged(game, data)` is what
`qecode check` has to write for these bytes, and its status.
"""
from typing import NamedTuple

from oracle.games import FOLDS, Agg, Var, better, holds, refutes

# ---- The text of certificates.

SCOPE, VARIABLE, CONSTRAINT, NUMBER = (1, 65), (1, 500), (1, 20_000), (-(10**9), 10**9)
OPTIMUM, TURNS = (-(2**62), 2**62), (1, 10_000_000)
NUMBERS = {
    "h": (SCOPE,),
    "p": (VARIABLE, NUMBER, NUMBER, CONSTRAINT),
    "b": (VARIABLE, NUMBER, NUMBER),
    "v": (VARIABLE,),
    "r": (NUMBER,),
}
DEEPEST = 1_000


class BadCertificate(Exception):
    def __init__(self, at, deep=False):
        super().__init__(f"{'certificate too deep' if deep else 'bad certificate'} at {at}\n")


class Line(NamedTuple):
    letter: str
    numbers: tuple = ()

    def text(self):
        return " ".join([self.letter, *map(str, self.numbers)]) + "\n"


class Certificate(NamedTuple):
    version: int
    word: str
    number: object
    lines: list

    def head(self):
        return self.word if self.number is None else f"{self.word} {self.number}"

    def text(self):
        lines = "".join(line.text() for line in self.lines)
        return f"qcert {self.version}\n{self.head()}\n{lines}".encode()


def may_begin(text, low, high):
    """Whether the decimal text of a number from low to high begins so."""
    digits = text.removeprefix("-")
    if digits == "":
        return low < 0
    if digits[0] == "0":
        return text == "0" and low <= 0 <= high
    for zeros in range(20):
        ends = int(digits) * 10**zeros, (int(digits) + 1) * 10**zeros - 1
        first, last = (-ends[1], -ends[0]) if text[0] == "-" else ends
        if first <= high and low <= last:
            return True
    return False


class Text:
    """Reads a certificate byte by byte; the first byte that no certificate has there is its fault's place."""

    # Which letters may begin a line, by what is owed there.
    CASES = "pbexnv"
    LETTERS = {"node": "htg" + CASES, "body": "tg" + CASES, "steps": "p.", "cases": CASES, "branch": ".sor" + CASES}
    LETTERS["ranged"] = "so" + CASES

    def __init__(self, data):
        self.data, self.at, self.depth = data, 0, 0

    def byte(self):
        return chr(self.data[self.at]) if self.at < len(self.data) else ""

    def expect(self, text):
        for char in text:
            if self.byte() != char:
                raise BadCertificate(self.at)
            self.at += 1

    def choice(self, chars):
        char = self.byte()
        if not char or char not in chars:
            raise BadCertificate(self.at)
        return char

    def number(self, low, high):
        text = ""
        while self.byte() and self.byte() in "-0123456789"[bool(text) :] and may_begin(text + self.byte(), low, high):
            text += self.byte()
            self.at += 1
        if text in ("", "-") or not low <= int(text) <= high:
            raise BadCertificate(self.at)
        return int(text)

    def certificate(self):
        self.expect("qcert ")
        version = int(self.choice("12"))
        self.expect(str(version) + "\n")
        certificate = Certificate(version, *self.outcome(), list(self.lines(version)))
        if self.at < len(self.data):
            raise BadCertificate(self.at)
        return certificate

    def outcome(self):
        """The line of the outcome: its word, and the optimum or the turns behind it."""
        word = {"t": "true", "f": "false", "o": "open"}[self.choice("tfo")]
        self.expect(word)
        number = None
        if word == "open" or word == "true" and self.choice(" \n") == " ":
            self.expect(" ")
            number = self.number(*(TURNS if word == "open" else OPTIMUM))
        self.expect("\n")
        return word, number

    def lines(self, version):
        owed = ["node"]
        while owed:
            if owed[-1] == "end of next":
                self.depth -= 1
                owed.pop()
                continue
            letters = self.LETTERS[owed[-1]].replace("" if version == 2 else "r", "")
            line = self.line(letters)
            yield line
            self.owe(owed, line.letter)

    def line(self, letters):
        letter = self.choice(letters)
        if letter in "nv" and self.depth == DEEPEST:
            raise BadCertificate(self.at, deep=True)
        self.expect(letter)
        numbers = []
        for low, high in NUMBERS.get(letter, ()):
            self.expect(" ")
            numbers.append(self.number(low, high))
        self.expect("\n")
        return Line(letter, tuple(numbers))

    def owe(self, owed, letter):
        """What is owed after a line that began with the letter; the last of the list comes next."""
        if letter == "h":
            owed[-1:] = ["body", "steps"]
        elif letter == "r":
            owed.append("ranged")
        elif letter == ".":
            self.depth -= owed.pop() == "branch"
        elif owed[-1] == "branch":
            owed += [] if letter in "so" else ["cases"]
        elif letter in "tgso":
            owed.pop()
        elif owed[-1] != "steps":
            owed[-1] = "cases"
        if letter in "exnv":
            owed.pop()
            owed += {"n": ["end of next", "node"], "v": ["branch"]}.get(letter, [])
            self.depth += letter in "nv"


# ---- What a certificate proves.

LOST, UNKNOWN = ("lost", None), ("unknown", None)


class NotProved(Exception):
    """Some line is out of its place, or the verdict isn't what is stated."""


class Rules:
    """What lines may do at a scope of a game, and which verdicts follow."""

    def __init__(self, game):
        self.game = game
        self.lists = [[]]  # of each scope and the goal: what is asked of it, as pairs of a sense and a target
        for kind, condition in zip(game.kinds, game.conditions):
            asked = self.lists[-1]
            own = [condition] if condition else []
            self.lists.append(own + asked if kind == "exists" else [self.within(c) for c in self.named(asked)])

    @staticmethod
    def named(asked):
        """The entries that are the first to name an aggregate."""
        targets = [target for _, target in asked]
        return [c for k, c in enumerate(asked) if isinstance(c[1], Agg) and c[1] not in targets[:k]]

    def within(self, entry):
        return entry[0], self.game.aggregates[entry[1].agg].target

    def place(self, i, target):
        """The place of a scope's aggregate in the list after the scope."""
        return [t for _, t in self.named(self.lists[i])].index(target)

    def block_end(self, i):
        """The last scope of the block of existential scopes that i stands in."""
        while i + 1 < self.game.goal and self.game.kinds[i + 1] == "exists":
            i += 1
        return i

    def in_force(self, i):
        if self.game.kinds[i] == "forall":
            return self.owned(i, i)
        end = self.block_end(i)
        return self.owned(i, end + (end + 1 == self.game.goal))

    def owned(self, first, last):
        return [c for c, constraint in enumerate(self.game.constraints) if first <= constraint.owner <= last]

    def pruned(self, box, numbers, usable):
        """The box after a removal; None where it isn't legal."""
        x, low, high, c = numbers[0] - 1, numbers[1], numbers[2], numbers[3] - 1
        if x >= len(box) or c not in usable or not all(box):
            return None
        kept = frozenset(v for v in box[x] if low <= v <= high)
        if not kept or not refutes(self.game.constraints[c], replaced(box, x, kept)):
            return None
        return replaced(box, x, box[x] - kept)

    def bounded(self, i, box, numbers):
        """The box after a bound and its mark; None where it isn't legal."""
        x, low, high = numbers[0] - 1, numbers[1], numbers[2]
        asked = self.lists[i + 1]
        if x >= len(box) or self.game.kinds[i] == "forall" or not asked or asked[0][1] != Var(x) or not all(box):
            return None
        removed = frozenset(v for v in box[x] if low <= v <= high)
        if not removed or any(self.game.conditions[j] for j in range(i + 1, self.game.owners[x] + 1)):
            return None
        return replaced(box, x, box[x] - removed), (min if asked[0][0] == "minimize" else max)(removed)

    def compare_key(self, asked):
        """Smaller is better."""
        return lambda vector: [v if sense == "minimize" else -v for (sense, _), v in zip(asked, vector)]

    def exists(self, i, leaves, marks):
        """The verdict of an existential scope, and its own value where it is exact and the scope has a condition."""
        asked, condition = self.lists[i + 1], self.game.conditions[i]
        found = [vector for what, vector in leaves if what == "exact"]
        bounds = marks + [p for what, p in leaves if what == "at most"]
        hopeless = all(what in ("lost", "barred") for what, _ in leaves)
        if not asked:
            return (("exact", ()) if found else LOST if hopeless else UNKNOWN), None
        if hopeless and not bounds:
            return LOST, None
        if any(what in ("unknown", "skipped") for what, _ in leaves):
            return UNKNOWN, None
        sense = asked[0][0]
        if found:
            best = min(found, key=self.compare_key(asked))
            if all(better(sense, best[0], p) or best[0] == p and len(asked) == 1 for p in bounds):
                return ("exact", best[1:] if condition else best), best[0] if condition else None
        if condition:
            return UNKNOWN, None
        return ("at most", (min if sense == "minimize" else max)(bounds + [vector[0] for vector in found])), None

    def forall(self, i, leaves, a):
        asked = self.lists[i]
        leaves = [leaf for leaf in leaves if leaf[0] != "barred"]
        if LOST in leaves:
            return LOST
        if all(what == "exact" for what, _ in leaves):
            return ("exact", tuple(self.folded(i, target, [v for _, v in leaves], a) for _, target in asked))
        if not asked or not isinstance(asked[0][1], Agg):
            return UNKNOWN
        known = [v[0] if what == "exact" else v for what, v in leaves if what in ("exact", "at most")]
        fold = self.game.aggregates[asked[0][1].agg].fold
        if len(known) == len(leaves):
            return ("at most", FOLDS[fold](known))
        if known and (asked[0][0], fold) in (("minimize", "greatest"), ("maximize", "least")):
            return ("at most", FOLDS[fold](known))
        return UNKNOWN

    def folded(self, i, target, vectors, a):
        if isinstance(target, Var):
            return a[target.var]
        aggregate, place = self.game.aggregates[target.agg], self.place(i, target)
        return FOLDS[aggregate.fold](vector[place] for vector in vectors) if vectors else aggregate.over_none or 0

    def stuck(self, i, a):
        """The owner of scope i has no move."""
        return LOST if i == self.game.goal or self.game.kinds[i] == "exists" else self.forall(i, [], a)

    def at_goal(self, a):
        if not self.game.wins(self.game.goal, a):
            return LOST
        return ("exact", tuple(a[target.var] for _, target in self.lists[self.game.goal]))


def replaced(box, x, values):
    return box[:x] + (values,) + box[x + 1 :]


def settled(box, variables):
    """The values of the variables; those that have more than one left, or none, are no part of it."""
    return tuple(min(box[x]) for x in variables)


class Proof:
    """Reads the lines of a certificate once, each in its place, and finds the root's verdict."""

    def __init__(self, game, lines):
        self.game, self.rules, self.lines, self.k = game, Rules(game), lines, 0
        self.turns = self.opens = 0
        self.own = None
        self.verdict = self.node(0, tuple(frozenset(domain) for domain in game.domains), None)

    def take(self, wanted=True):
        if not wanted:
            raise NotProved
        self.k += 1
        return self.lines[self.k - 1]

    def next(self):
        return self.lines[self.k].letter

    def position(self, i, box):
        return settled(box, [x for x, owner in enumerate(self.game.owners) if owner < i])

    def node(self, i, box, horizon):
        goal, a = self.game.goal, self.position(i, box)
        if self.next() == "h":
            horizon = self.horizon(i, box, goal if horizon is None else horizon - 1)
        self.at_node(i, box, horizon)
        if self.next() == "t" or i == horizon:
            self.take(self.next() == "t" and i == horizon)
            return self.rules.stuck(i, a)
        if self.next() == "g" or i == goal:
            self.take(self.next() == "g" and i == goal)
            return self.rules.at_goal(a)
        leaves, marks = [], []
        self.cases(i, box, horizon, leaves, marks)
        is_forall = self.game.kinds[i] == "forall"
        verdict, own = (self.rules.forall(i, leaves, a), None) if is_forall else self.rules.exists(i, leaves, marks)
        self.own = own if i == 0 else self.own
        self.at_end(verdict, leaves)
        return verdict

    def horizon(self, i, box, most):
        k = self.take(i < self.game.goal).numbers[0] - 1
        usable = self.rules.owned(i, k)
        if not i <= k <= most:
            raise NotProved
        while self.next() == "p":
            box = self.rules.pruned(box, self.take().numbers, usable)
            if box is None:
                raise NotProved
        self.take(not all(box))
        return k

    def cases(self, i, box, horizon, leaves, marks):
        while self.next() in "pb":
            box = self.stepped(i, box, self.take(), marks)
        if self.next() == "e" or not all(box):
            self.take(self.next() == "e" and not all(box))
            return
        free = [x for x in self.game.own[i] if len(box[x]) > 1]
        self.at_choice(i, box, free, leaves)
        if free:
            self.branch(i, box, horizon, free, leaves, marks)
            return
        values = self.position(i + 1, box)
        allowed = all(holds(self.game.constraints[c], values) for c in self.rules.owned(i, i))
        letter = self.take().letter
        if letter != ("n" if allowed else "x"):
            raise NotProved
        leaves.append(self.node(i + 1, box, horizon) if allowed else ("barred", None))

    def stepped(self, i, box, line, marks):
        if line.letter == "p":
            box = self.rules.pruned(box, line.numbers, self.rules.in_force(i))
            if box is None:
                raise NotProved
            return box
        after = self.rules.bounded(i, box, line.numbers)
        if after is None:
            raise NotProved
        marks.append(after[1])
        return after[0]

    def branch(self, i, box, horizon, free, leaves, marks):
        line = self.take(self.next() == "v")
        x = line.numbers[0] - 1
        if x not in free:
            raise NotProved
        left = sorted(box[x])
        while self.next() != ".":
            covered = self.covered(left)
            left = left[len(covered) :]
            self.at_case(i, covered, leaves)
            if self.next() in "so":
                letter = self.take().letter
                self.opens += letter == "o"
                leaves.append(("skipped", letter))
                continue
            if len(covered) == len(box[x]):
                raise NotProved
            self.turns += 1
            self.cases(i, replaced(box, x, frozenset(covered)), horizon, leaves, marks)
        self.take(not left)

    def covered(self, left):
        """The values that the next case covers."""
        if self.next() != "r":
            return left[:1] if left else self.take(False)
        high = self.take().numbers[0]
        covered = [v for v in left if v <= high]
        if len(covered) < 2 or covered[-1] != high:
            raise NotProved
        return covered

    def at_node(self, i, box, horizon):
        """Here and in the next three a heir may look at what doesn't matter for proving."""

    def at_choice(self, i, box, free, leaves):
        """A branch over one of the free variables, or the end of a scope's tuple where none is free."""

    def at_case(self, i, covered, leaves):
        """The next line is that of a case of scope i, whose tree has these leaves so far."""

    def at_end(self, verdict, leaves):
        """The end of a scope's own tree."""

    def proves(self, word, number):
        what, first = self.verdict[0], self.game.conditions and self.game.conditions[0]
        if word == "true":
            return what == "exact" and (number is not None if first else number is None) and number == self.own
        if word == "false":
            return what == "lost"
        return what == "unknown" and self.opens > 0 and self.turns == number


def has_steps(lines):
    """Whether there are steps or horizons, or a range in a case that is taken."""
    ranged = any(line.letter == "r" and after.letter not in "so" for line, after in zip(lines, lines[1:]))
    return ranged or any(line.letter in "hpb" for line in lines)


def judged(game, data, stepless=False):
    """What `check` has to write, and its status."""
    try:
        certificate = Text(data).certificate()
    except BadCertificate as bad:
        return str(bad).encode(), 5
    try:
        proof = Proof(game, certificate.lines)
    except NotProved:
        return b"no\n", 1
    if proof.proves(certificate.word, certificate.number) and not (stepless and has_steps(certificate.lines)):
        return f"yes {certificate.head()}\n".encode(), 0
    return b"no\n", 1
