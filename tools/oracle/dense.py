"""Dense certificates: their text, and what they prove.

Written apart from the definitions, by docs/dense.md and docs/certificates.md, plainly and with no thought of speed: a box is a
tuple of sets, and each closing goes over all constraints in force until none takes anything. A tree that is deeper than
Python's own limit of calls can't be read.
"""
from typing import NamedTuple

from oracle import certificates
from oracle.certificates import LOST, NUMBER, SCOPE, UNKNOWN, VARIABLE, BadCertificate, Certificate, Line
from oracle.certificates import NotProved, Rules, replaced
from oracle.games import Var, better, flat, refutes
from oracle.lemmas import entails

NODE = (1, 2**30)
NUMBERS = {"u": (SCOPE,), "a": (NODE,), "h": (SCOPE,), "l": (SCOPE,), "b": (VARIABLE, NUMBER, NUMBER), "v": (VARIABLE,), "r": (NUMBER,)}
TUPLES = "ufw"  # lines that end with the values of a tuple, as many as there are
STEPS, ENDS = "cbf", "exynwv"
SUMS = ("int_lin_eq", "int_lin_ne", "int_lin_le", "int_plus")


class Text(certificates.Text):
    """Reads a dense certificate byte by byte; the first byte that none has there is its fault's place."""

    BODY = "tg" + STEPS + ENDS
    LETTERS = {"given": "umhal" + BODY, "node": "mhal" + BODY, "named": "h" + BODY, "body": BODY, "cases": STEPS + ENDS + "l"}
    LETTERS |= {"branch": ".sor" + LETTERS["cases"], "ranged": "so" + LETTERS["cases"]}
    # What is owed in place of what was, after a line with one of these letters.
    AFTER = {"u": ["given"], "m": ["named"], "h": ["body"], "n": ["node"], "w": ["node"], "v": ["branch"], "r": ["branch", "ranged"]}
    AFTER |= dict.fromkeys(STEPS, ["cases"])

    def certificate(self):
        self.expect("qcert 4\n")
        word, number = self.outcome()
        lines, owed = [], ["given"]
        while owed:
            lines.append(self.line(self.LETTERS[owed[-1]]))
            place, letter = owed.pop(), lines[-1].letter
            # A branch goes on behind each of its cases, up to its dot.
            owed += ["branch"] if place == "branch" and letter not in ".r" else []
            owed += self.AFTER.get(letter, [])
        if self.at < len(self.data):
            raise BadCertificate(self.at)
        return Certificate(4, word, number, lines)

    def line(self, letters):
        letter, numbers = self.choice(letters), []
        self.expect(letter)
        for low, high in NUMBERS.get(letter, ()):
            self.expect(" ")
            numbers.append(self.number(low, high))
        while letter in TUPLES and self.choice(" \n") == " ":
            self.expect(" ")
            numbers.append(self.number(*NUMBER))
        self.expect("\n")
        return Line(letter, tuple(numbers))


class Place(NamedTuple):
    """Where a line stands: at a scope, with a box, below a horizon."""

    scope: int
    box: tuple
    horizon: object = None
    loose: bool = False
    bounded: bool = False


class Part:
    """What the lines of a scope's own tree leave: leaves, marks, and best values left."""

    def __init__(self):
        self.leaves, self.marks, self.bests = [], [], []


def variables(constraint):
    return {item.var for item in flat(constraint.args) if isinstance(item, Var)}


def best(sense, values):
    return (min if sense == "minimize" else max)(values)


def closed(box, constraints, takes):
    """The greatest closed box within the box; None where there is none."""
    while all(box):
        found = next(refuted(box, constraints, takes), None)
        if found is None:
            return box
        x, end = found
        if x is None:
            return None
        box = replaced(box, x, box[x] - {end})
    return None


def refuted(box, constraints, takes):
    """The ends that constraints refute and may take; (None, None) where one refutes the box that may not take each variable."""
    for c in constraints:
        for x in sorted(variables(c)):
            if not takes(c, x):
                if refutes(c, box):
                    yield None, None
                continue
            for end in {min(box[x]), max(box[x])}:
                if refutes(c, replaced(box, x, frozenset([end]))):
                    yield x, end


class Proof(certificates.Proof):
    """Reads the lines of a certificate once, each in its place, and finds the root's verdict."""

    def __init__(self, game, lines):
        self.game, self.rules, self.lines, self.k = game, Rules(game), lines, 0
        self.turns = self.opens = 0
        self.own = None
        self.named = []  # of each named node its place, and its verdict once it has ended
        self.declared = tuple(frozenset(domain) for domain in game.domains)
        self.given = []
        self.read_given()
        self.verdict = self.node(Place(0, self.declared))

    def need(self, so, why):
        """The line that was taken last is out of place unless this is so. Two lines stand before the first."""
        if not so:
            raise NotProved(self.k + 2, why)

    def take(self, wanted=True):
        self.k += 1
        self.need(wanted, "out of place")
        return self.lines[self.k - 1]

    # ---- The game.

    def is_universal(self, i):
        return i < self.game.goal and self.game.kinds[i] == "forall"

    def within(self, first, last):
        """The constraints of the scopes from first to last."""
        return [self.game.constraints[c] for c in self.rules.owned(first, last)]

    def restriction(self, i):
        return self.within(i, i)

    def is_free_from(self, i):
        """The opponent is never stuck from scope i on."""
        return all(not self.is_universal(j) or j in self.given or not self.restriction(j) for j in range(i, self.game.goal))

    def in_force(self, i):
        joint = self.is_free_from(0) and not (self.is_universal(i) and self.restriction(i))
        return self.within(i, self.game.goal) if joint else [self.game.constraints[c] for c in self.rules.in_force(i)]

    def takes(self, constraint, x):
        owner = self.game.owners[x]
        return owner == constraint.owner if self.is_universal(constraint.owner) else not self.is_universal(owner)

    def closed(self, place):
        return closed(place.box, self.in_force(place.scope), self.takes)

    def read_given(self):
        while self.next() == "u":
            k, *values = self.take().numbers
            i = k - 1
            self.need(self.is_universal(i) and self.restriction(i), "no scope of the opponent with a restriction")
            self.need(not self.given or self.given[-1] < i, "not scope after scope")
            box = self.taken(i, self.declared, values)
            self.need(all(entails(c, box) for c in self.restriction(i)), "the tuple may be forbidden")
            self.given.append(i)

    def taken(self, i, box, values):
        """The box with this tuple of scope i."""
        own = self.game.own[i]
        self.need(len(own) == len(values) and all(v in box[x] for x, v in zip(own, values)), "no tuple of values left")
        for x, v in zip(own, values):
            box = replaced(box, x, frozenset([v]))
        return box

    # ---- Nodes.

    def before(self, place, left=None, part=None):
        """The next line is that of a node; in a scope's own tree, which is in this part, or of a case for some of the values left.
        An heir may look at it, or make it."""

    def node(self, place):
        self.before(place)
        if self.next() == "a":
            return self.again(place)
        if self.next() == "l":
            return self.no_play(place)
        name = len(self.named)
        is_named = self.next() == "m" and self.take()
        if is_named:
            self.named.append((place, None))
        verdict = self.loosened(place, self.body(self.below_horizon(place) if self.next() == "h" else place))
        if is_named:
            self.named[name] = place, verdict
        return verdict

    def below_horizon(self, place):
        k = self.take(place.scope < self.game.goal).numbers[0] - 1
        self.need(place.horizon is None or k < place.horizon, "not nearer than the horizon in force")
        self.nobody_passes(place, k)
        return place._replace(horizon=k)

    def nobody_passes(self, place, k):
        self.need(place.scope <= k <= self.game.goal, "a scope that doesn't lie ahead")
        self.need(closed(place.box, self.within(place.scope, k), lambda c, x: True) is None, "a closed box is left")

    def no_play(self, place):
        k = self.take(self.is_free_from(place.scope)).numbers[0] - 1
        self.nobody_passes(place, k)
        return LOST

    def loosened(self, place, verdict):
        """In a loose part nothing is exact: it is an upper bound."""
        if not place.loose or verdict[0] != "exact":
            return verdict
        if not self.rules.lists[place.scope]:
            return UNKNOWN
        sense, target = self.rules.lists[place.scope][0]
        is_earlier = isinstance(target, Var) and self.game.owners[target.var] < place.scope
        return "at most", best(sense, place.box[target.var]) if is_earlier else verdict[1][0]

    def body(self, place):
        i = place.scope
        if self.next() == "t":
            self.take(i == place.horizon)
            return self.rules.stuck(i, self.position(i, place.box))
        if self.next() == "g":
            self.take(i == self.game.goal and i != place.horizon)
            return self.at_goal(place)
        self.need(i < self.game.goal and i != place.horizon, "no scope begins here")
        part = Part()
        self.own_tree(place, part)
        return self.concluded(place, part)

    def at_goal(self, place):
        i = place.scope
        if any(refutes(c, place.box) for c in self.restriction(i)):
            return LOST
        if not all(entails(c, place.box) for c in self.restriction(i)):
            return UNKNOWN
        return "exact", tuple(min(place.box[target.var]) for _, target in self.rules.lists[i])

    def concluded(self, place, part):
        i = place.scope
        if self.is_universal(i):
            return self.rules.forall(i, part.leaves, self.position(i, place.box))
        if part.bests:
            alone = not part.marks and all(what in ("lost", "barred") for what, _ in part.leaves)
            return ("at most", best(self.rules.lists[i][0][0], part.bests)) if alone else UNKNOWN
        verdict, own = self.rules.exists(i, part.leaves, part.marks)
        self.own = own if i == 0 else self.own
        return verdict

    # ---- What a named node came to, told again.

    def again(self, place):
        n = self.take().numbers[0]
        self.need(n <= len(self.named) and self.named[n - 1][1], "no named node that has ended")
        self.look_alike(place, self.named[n - 1][0])
        return self.loosened(place, self.named[n - 1][1])

    def look_alike(self, place, other):
        self.need(other.scope == place.scope and other.horizon == place.horizon, "of another scope or horizon")
        self.need(not other.loose or other.horizon is None, "a loose node below a horizon")
        before = sum(owner < place.scope for owner in self.game.owners)
        is_bounded = place.bounded or other.bounded
        self.need(not is_bounded or place.box[before:] == other.box[before:], "below a bound, and other values are left")
        self.need(self.views(place, before) == self.views(other, before), "the positions look different")

    def views(self, place, before):
        """What is seen of the position from the scope on: values of variables, and what sums and clauses see."""
        from_here = self.within(place.scope, self.game.goal)
        mentioned = [condition[1] for condition in self.game.conditions if condition] + [q.target for q in self.game.aggregates]
        seen = {target.var for target in mentioned if isinstance(target, Var)}
        seen |= {x for c in from_here if c.name not in SUMS and c.name != "bool_clause" for x in variables(c)}
        read = seen.union(*(variables(c) for c in from_here))
        self.need(all(len(place.box[x]) == 1 for x in read if x < before), "a variable that is read is open")
        box = place.box[:before] + self.declared[before:]
        return {x: box[x] for x in seen if x < before}, [self.view(c, box, before) for c in from_here]

    @staticmethod
    def view(constraint, box, before):
        if constraint.name not in SUMS and constraint.name != "bool_clause" or entails(constraint, box):
            return None
        if constraint.name == "bool_clause":
            return [(x, box[x]) for x in sorted(variables(constraint)) if x < before]
        factors, items = ([1, 1, -1], constraint.args) if constraint.name == "int_plus" else constraint.args[:2]
        return sum(f * min(box[item.var]) for f, item in zip(factors, items) if isinstance(item, Var) and item.var < before)

    # ---- The lines of a scope's own tree.

    def own_tree(self, place, part):
        self.before(place, None, part)
        while self.next() in STEPS:
            place = {"c": self.close, "b": self.bound, "f": self.reply}[self.next()](place, part)
            self.before(place, None, part)
        ends = {"e": self.empty, "l": self.dead, "x": self.barred, "y": self.best_left}
        ends |= {"n": self.go_on, "w": self.choose, "v": self.branch_over}
        ends[self.next()](place, part)

    def close(self, place, part):
        self.take()
        box = self.closed(place)
        self.need(box is not None, "no box is closed")
        return place._replace(box=box)

    def bound(self, place, part):
        after = self.rules.bounded(place.scope, place.box, self.take().numbers)
        self.need(after, "no bound of what is demanded first")
        part.marks.append(after[1])
        return place._replace(box=after[0], bounded=True)

    def reply(self, place, part):
        values, i, box = self.take().numbers, place.scope, place.box
        condition = self.game.conditions[i]
        self.need(i + 1 == self.game.goal and condition and isinstance(condition[1], Var) and all(box), "no last scope with a wish")
        sense, x = condition[0], condition[1].var
        taken = self.taken(i, box, values)
        self.need(all(entails(c, taken) for c in self.within(i, i + 1)), "the tuple may be forbidden")
        self.need(len(taken[x]) == 1, "what is wished for is open")
        return place._replace(box=replaced(box, x, frozenset(v for v in box[x] if not better(sense, min(taken[x]), v))))

    def empty(self, place, part):
        self.take()
        self.need(self.is_empty(place), "a closed box is left")
        if self.is_universal(place.scope) and not self.restriction(place.scope):
            part.leaves.append(LOST)

    def is_empty(self, place):
        box = self.closed(place)
        return box is None or any(self.is_answerless(place, c, box) for c in self.in_force(place.scope))

    def is_answerless(self, place, constraint, box):
        """The constraint refutes the box with an end of a variable that the opponent may give any value."""
        for x in variables(constraint):
            owner = self.game.owners[x]
            if owner >= place.scope and self.is_universal(owner) and not self.restriction(owner):
                if any(refutes(constraint, replaced(box, x, frozenset([end]))) for end in {min(box[x]), max(box[x])}):
                    return True
        return False

    def dead(self, place, part):
        part.leaves.append(self.no_play(place))
        self.need(not self.is_universal(place.scope) or not self.restriction(place.scope), "a tuple may be forbidden")

    def is_fixed(self, place):
        return all(len(place.box[x]) == 1 for x in self.game.own[place.scope])

    def barred(self, place, part):
        self.take(all(place.box) and self.is_fixed(place))
        self.need(any(refutes(c, place.box) for c in self.restriction(place.scope)), "the tuple isn't forbidden")
        part.leaves.append(("barred", None))

    def best_left(self, place, part):
        asked = self.rules.lists[place.scope]
        self.take(all(place.box) and not self.is_universal(place.scope))
        self.need(asked and isinstance(asked[0][1], Var), "no variable is demanded first")
        part.bests.append(best(asked[0][0], place.box[asked[0][1].var]))

    def go_on(self, place, part):
        self.take()
        self.enter(place, part)

    def choose(self, place, part):
        values = self.take().numbers
        self.enter(place._replace(box=self.taken(place.scope, place.box, values)), part)
        part.leaves.append(("skipped", "w"))

    def enter(self, place, part):
        i, box = place.scope, place.box
        self.need(all(box), "nothing is left")
        if self.is_universal(i):
            self.need(self.is_fixed(place) and all(entails(c, box) for c in self.restriction(i)), "no tuple that is allowed")
        else:
            self.need(not any(refutes(c, box) for c in self.restriction(i)), "the restriction fails")
        below = Place(i + 1, box, place.horizon, place.loose or not self.is_fixed(place), place.bounded and not self.is_universal(i))
        part.leaves.append(self.node(below))

    def branch_over(self, place, part):
        x, box = self.take().numbers[0] - 1, place.box
        self.need(all(box) and x in self.game.own[place.scope] and len(box[x]) > 1, "no open variable of the scope")
        left = sorted(box[x])
        self.before(place, left, part)
        while self.next() != ".":
            covered = self.covered(left)
            left = left[len(covered) :]
            if self.next() in "so":
                letter = self.take().letter
                self.opens += letter == "o"
                part.leaves.append(("skipped", letter))
            else:
                self.need(len(covered) < len(box[x]), "a case that covers all")
                self.turns += 1
                self.own_tree(place._replace(box=replaced(box, x, frozenset(covered))), part)
            self.before(place, left, part)
        self.take(not left)

    def covered(self, left):
        self.need(left, "all values are covered")
        if self.next() != "r":
            return left[:1]
        high = self.take().numbers[0]
        self.need(len(left) > 1 and high in left[1:], "no last of two values or more")
        return [v for v in left if v <= high]


def judged(game, data):
    """What the certificate proves of the game, or where it fails: `true`, `true V`, `false`, or `open N`."""
    try:
        certificate = Text(data).certificate()
        proof = Proof(game, certificate.lines)
    except BadCertificate as bad:
        return f"no: {bad}".rstrip()
    except NotProved as fault:
        line, why = fault.args
        return f"no: line {line}, {why}"
    if proof.proves(certificate.word, certificate.number):
        return certificate.head()
    return "no: line 2, the tree doesn't show this outcome"
