"""Dense certificates made at random, as the oracle's reader judges them, against a player that goes over all moves.

    bench/run dense [--games N] [--seed S] [--trees N] [--mutants M] [--program PATH | --alone] [--qdense PATH] [--writer PROGRAM]

It makes small games at random, and of each some trees of dense certificates (docs/dense.md), line by line of what the reader
(tools/oracle/dense.py) has in place: closings, loose parts, references, bounds, replies, horizons. What such a tree shows is
stated, and has to be what the oracle finds by going over all moves. So has what is believed of damaged certificates, of those
of other games, and of what the program's certificates of version 2 become where `c` stands for their removals; of these some
aren't believed, since in a free game closing takes more than the removals did.

With `--qdense` that program judges each of these certificates as well, and has to say what the oracle's reader says, place of a
fault and all. With `--writer` dense certificates of each game are written by that program too, called as `PROGRAM WORDS -q -o
CERTIFICATE PROBLEM`, once with each choice of its words (`WRITERS`): the solver in C++ (`measure/models/dense.cpp`, which g++
compiles) is one. Some of its aren't believed: it tells nodes again by rules of its own.

At the end it is told what was met: which lines stood in what was believed, and how much was believed of each making.
"""
import argparse
import os
import random
import re
import subprocess
import sys
import tempfile
from collections import Counter
from itertools import product

from compare.lemmas import Rivals
from compare.player import Maker, argument_text, damaged
from oracle.certificates import LOST, Certificate, Line, NotProved
from oracle.dense import Proof, closed, entails, judged
from oracle.games import Var, better, refutes
from program import Program, add_option

# The words of the solver in C++ for closing alone, references, `l`, joint closing, loose parts, and replies.
WRITERS = ["--v3c", "--v3c --v3b", "--v3l --v3b", "--v3j --v3b", "--v3f --v3b", "--v3f --v3b --rd"]
SOME_LINES = "c,e,y,x,m,n,w,w 0,w 1,f 0,a 1,a 2,l 2,l 3,h 2,u 1 0,u 2 0,b 1 0 0,g,t,s,o,.".split(",")


class Tall(Maker):
    """More scopes, of few variables, and constraints that see earlier ones."""

    SCOPES = [2, 3, 3, 4, 4]
    VARIABLES = [1, 1, 1, 2]
    RESTRICTIONS = [0, 0, 1, 1]


class Linear(Tall):
    """Sums of two or three variables, or bounds of one: positions that differ look the same, and few are stuck."""

    RESTRICTIONS = [0, 1, 1]
    GOALS = [0, 0, 1]
    BOOLEAN = 0

    def domain(self):
        high = self.random.choice([0, 1, 1, 2, 3])
        return list(range(high + 1)), f"0..{high}"

    def constraint(self, i):
        names = [x for x, owner in self.owner.items() if owner <= i]
        items = self.random.sample(names, min(len(names), self.random.choice([1, 2, 2, 3])))
        factors = [self.random.choice([-2, -1, 1, 1, 2]) for _ in items]
        ends = [f * v for f, x in zip(factors, items) for v in self.values[x]] or [0]
        return f"constraint int_lin_le({argument_text(factors)},{argument_text(items)},{self.random.randint(min(ends), max(ends))});"


class Weaver(Proof):
    """A certificate that is made while it is read: each line is one of those that are in place."""

    def __init__(self, chance, game):
        self.random = chance
        self.eager = chance.choice([0.1, 0.3, 0.6])  # how often scopes of the player are left open
        super().__init__(game, self.some_given(game))

    def likely(self, chance):
        return self.random.random() < chance

    def some_given(self, game):
        """A tuple of each scope of the opponent that has some which he can always take."""
        lines, box = [], tuple(frozenset(domain) for domain in game.domains)
        for i in range(game.goal):
            rules = [c for c in game.constraints if c.owner == i]
            if game.kinds[i] == "forall" and rules:
                for values in product(*(game.domains[x] for x in game.own[i])):
                    taken = dict(zip(game.own[i], values))
                    if all(entails(c, tuple(frozenset([taken[x]]) if x in taken else box[x] for x in range(len(box)))) for c in rules):
                        lines.append(Line("u", (i + 1, *values)))
                        break
        return lines

    def next(self):
        return self.lines[self.k].letter if self.k < len(self.lines) else "?"

    def add(self, letter, *numbers):
        self.lines.append(Line(letter, numbers))

    def can(self, test, *args):
        try:
            test(*args)
            return True
        except NotProved:
            return False

    def before(self, place, left=None, part=None):
        if self.k < len(self.lines):
            return
        if left is not None:
            self.add_case(left, place, part)
        elif part is None:
            self.begin_node(place)
        else:
            self.add_line(place, part)

    def begin_node(self, place):
        known = [n for n, (_, verdict) in enumerate(self.named) if verdict]
        known = [n + 1 for n in known if self.can(self.look_alike, place, self.named[n][0])]
        if known and self.likely(0.8):
            self.add("a", self.random.choice(known))
            return
        dead = self.dead_scopes(place)
        if dead and self.is_free_from(place.scope) and self.likely(0.5):
            self.add("l", self.random.choice(dead) + 1)
            return
        if self.likely(0.5):
            self.add("m")
        nearer = [k for k in dead if place.scope < self.game.goal and (place.horizon is None or k < place.horizon)]
        horizon = place.horizon
        if nearer and self.likely(0.7):
            horizon = self.random.choice(nearer)
            self.add("h", horizon + 1)
        if place.scope == horizon:
            self.add("t")
        elif place.scope == self.game.goal:
            self.add("g")

    def dead_scopes(self, place):
        ahead = range(place.scope, self.game.goal + 1)
        return [k for k in ahead if closed(place.box, self.within(place.scope, k), lambda c, x: True) is None]

    def add_case(self, left, place, part):
        if not left:
            self.add(".")
            return
        is_settled = LOST in part.leaves if self.is_universal(place.scope) else self.has_won(place, part)
        leave_out = self.likely(0.9 if is_settled else 0.03)
        some = self.random.randint(1, len(left)) if self.likely(0.5) else 1
        if not leave_out and any(left == sorted(place.box[x]) for x in self.game.own[place.scope]):
            some = min(some, len(left) - 1) or 1
        if some > 1:
            self.add("r", left[some - 1])
        if leave_out:
            self.add(self.random.choice("sso"))

    def has_won(self, place, part):
        return not self.rules.lists[place.scope + 1] and any(what == "exact" for what, _ in part.leaves)

    def add_line(self, place, part):
        if self.likely(0.6) and self.is_empty(place):
            self.add("e")
        elif not (self.likely(0.5) and self.add_step(place, part)):
            self.add_end(place)

    def add_step(self, place, part):
        """Whether a step is added."""
        box = self.closed(place)
        if box is not None and box != place.box and self.likely(0.7):
            self.add("c")
            return True
        return self.likely(0.5) and self.add_bound(place, part) or self.likely(0.7) and self.add_reply(place)

    def add_bound(self, place, part):
        asked = self.rules.lists[place.scope + 1]
        if self.is_universal(place.scope) or not asked or not isinstance(asked[0][1], Var):
            return False
        sense, x = asked[0][0], asked[0][1].var
        found = [vector[0] for what, vector in part.leaves if what == "exact"]
        values = sorted(place.box[x], reverse=sense == "minimize")
        worst = values[: self.random.randint(1, len(values))] if values and self.likely(0.2) else []
        if found and self.likely(0.8):
            best = (min if sense == "minimize" else max)(found)
            worst = [v for v in values if not better(sense, v, best) and (v != best or self.likely(0.5))]
        if not worst or self.rules.bounded(place.scope, place.box, (x + 1, min(worst), max(worst))) is None:
            return False
        self.add("b", x + 1, min(worst), max(worst))
        return True

    def some_tuple(self, place):
        return [self.random.choice(sorted(place.box[x])) for x in self.game.own[place.scope]]

    def add_reply(self, place):
        i = place.scope
        if i + 1 != self.game.goal or not self.game.conditions[i] or not isinstance(self.game.conditions[i][1], Var) or not all(place.box):
            return False
        x = self.game.conditions[i][1].var
        for _ in range(8):
            values = self.some_tuple(place)
            taken = self.taken(i, place.box, values)
            if len(taken[x]) == 1 and all(entails(c, taken) for c in self.within(i, i + 1)):
                self.add("f", *values)
                return True
        return False

    def add_end(self, place):
        i, box = place.scope, place.box
        if not all(box):
            self.add("e")
            return
        is_players = not self.is_universal(i)
        open_ones = [x for x in self.game.own[i] if len(box[x]) > 1]
        asked = self.rules.lists[i]
        choices = [("v", x + 1) for x in open_ones]
        if not open_ones and any(refutes(c, box) for c in self.restriction(i)):
            choices = [("x",)]
        elif self.enters(place) and (not open_ones or self.likely(self.eager)):
            choices = [("n",)]
        if is_players and asked and isinstance(asked[0][1], Var) and self.likely(0.25 if place.loose else 0.05):
            choices = [("y",)]
        values = self.some_tuple(place)
        if self.likely(0.1) and self.enters(place._replace(box=self.taken(i, box, values))):
            choices = [("w", *values)]
        dead = self.dead_scopes(place) if self.is_free_from(i) and (is_players or not self.restriction(i)) else []
        # Right at the beginning of a node it would be the node.
        if dead and self.lines and self.lines[-1].letter not in "nwmhu" and self.likely(0.7):
            choices = [("l", self.random.choice(dead) + 1)]
        if not choices and self.is_empty(place):
            choices = [("e",)]
        if not choices:
            raise NotProved(self.k + 2, "no end is in place")
        self.add(*self.random.choice(choices))

    def enters(self, place):
        """Whether `n` is in place."""
        if not self.is_universal(place.scope):
            return not any(refutes(c, place.box) for c in self.restriction(place.scope))
        return self.is_fixed(place) and all(entails(c, place.box) for c in self.restriction(place.scope))

    def stated(self):
        """The certificate with what it shows; None where it shows nothing that can be stated."""
        what = self.verdict[0]
        if what == "exact":
            return Certificate(4, "true", self.own, self.lines)
        if what == "lost":
            return Certificate(4, "false", None, self.lines)
        return Certificate(4, "open", self.turns, self.lines) if what == "unknown" and self.opens and self.turns else None


def densely(data):
    """A certificate of version 2 with closings in place of its removals."""
    text = data.decode().replace("qcert 2", "qcert 4", 1)
    text = re.sub(r"(?m)^(h \d+\n)(?:p .*\n)*\.\n", r"\1", text)
    text = re.sub(r"(?m)(?:^p .*\n)+", "c\n", text)
    return text.replace("c\ne\n", "e\n").encode()


def changed(chance, data):
    """One line is replaced by some other, or the text damaged otherwise."""
    if chance.random() < 0.5:
        return damaged(chance, data)
    lines = data.decode().splitlines(keepends=True)
    k = chance.randrange(2, len(lines))
    lines[k : k + chance.randrange(2)] = [chance.choice(SOME_LINES) + "\n"]
    return "".join(lines).encode()


class Trials:
    """Plays games, and gathers what was met and what is wrong."""

    def __init__(self, options, folder):
        self.options, self.met, self.wrong, self.kept = options, Counter(), [], []
        self.program = None if options.alone else Program(options.program)
        self.problem, self.certificate = os.path.join(folder, "problem"), os.path.join(folder, "certificate")
        self.qdense = Program(options.qdense, "qdense") if options.qdense else None

    def play(self, number):
        chance = random.Random(f"{self.options.seed} {number}")
        maker = chance.choice([Maker, Tall, Linear, Linear, Rivals])
        game = maker(chance, maker is Rivals or chance.random() < 0.3).game()
        outcome = game.outcome()
        with open(self.problem, "wb") as file:
            file.write(game.text)
        made = [data for _ in range(self.options.trees) if (data := self.woven(chance, game))]
        for data in made:
            self.judge(number, game, outcome, "made at random", data)
        if self.program:
            made.append(self.solved(game))
            self.judge(number, game, outcome, "from version 2", made[-1])
        for data in self.written():
            self.judge(number, game, outcome, "from the writer", data)
            made.append(data)
        if not made:
            return
        self.kept = (self.kept + made)[-30:]
        for _ in range(self.options.mutants):
            self.judge(number, game, outcome, "damaged", changed(chance, chance.choice(made)))
        for other in chance.sample(self.kept, min(3, len(self.kept))):
            self.judge(number, game, outcome, "of some game", other)

    def woven(self, chance, game):
        try:
            certificate = Weaver(chance, game).stated()
        except NotProved:
            self.met["made at random: no end was in place"] += 1
            return None
        if not certificate:
            self.met["made at random: shows nothing"] += 1
            return None
        return certificate.text()

    def written(self):
        """What the writer writes for the problem, in the fourth version of the text; the outcome is its own."""
        for words in WRITERS if self.options.writer else ():
            command = [self.options.writer, *words.split(), "-q", "-o", self.certificate, self.problem]
            if subprocess.run(command, check=False, stdout=subprocess.DEVNULL, stderr=subprocess.DEVNULL).returncode == 0:
                with open(self.certificate, "rb") as file:
                    yield b"qcert 4\n" + file.read().partition(b"\n")[2]

    def solved(self, game):
        return densely(self.program.run("solve", self.problem)[1])

    def judge(self, number, game, outcome, what, data):
        answer = judged(game, data)
        if self.qdense and data.startswith(b"qcert 4"):
            self.compare(number, game, what, answer, data)
        kind = answer.partition(":")[0].partition(" ")[0] + " with an optimum" * answer.startswith("true ")
        self.met[f"{what}: {kind}"] += 1
        if answer.startswith("no: "):
            if what == "made at random":
                self.tell(number, game, f"made in place, judged {answer}", data)
            return
        letters = {line[:1] for line in data.decode().splitlines()[2:]}
        self.met.update(f"believed, with a line {letter}" for letter in letters)
        if not answer.startswith("open") and answer != outcome:
            self.tell(number, game, f"{what}: {outcome} by going over all moves, judged {answer}", data)

    def compare(self, number, game, what, answer, data):
        """What the program says has to be what the oracle's reader does."""
        with open(self.certificate, "wb") as file:
            file.write(data)
        wanted = f"yes {answer}" if not answer.startswith("no: ") else answer[4:] if answer.startswith("no: bad certificate") else "no"
        said = self.qdense.run("check", self.problem, self.certificate)[1].decode().strip()
        self.met[f"qdense: {said.partition(' at')[0].partition(' ')[0]}"] += 1
        if said != wanted:
            self.tell(number, game, f"{what}: the reader says {answer!r}, qdense {said!r}", data)

    def tell(self, number, game, what, data):
        self.wrong.append("\n".join([f"-- game {number}, {what}", game.text.decode(), data.decode(errors="replace")]))


def main(words):
    options = argparse.ArgumentParser(prog="bench/run dense", description=__doc__, formatter_class=argparse.RawTextHelpFormatter)
    options.add_argument("--games", type=int, default=300)
    options.add_argument("--seed", default="1")
    options.add_argument("--trees", type=int, default=8)
    options.add_argument("--mutants", type=int, default=8)
    options.add_argument("--alone", action="store_true", help="without the program")
    options.add_argument("--qdense", metavar="PATH", help="what judges each certificate as well")
    options.add_argument("--writer", metavar="PROGRAM", help="what writes dense certificates of each game")
    add_option(options)
    options = options.parse_args(words)
    sys.setrecursionlimit(50_000)
    with tempfile.TemporaryDirectory() as folder:
        trials = Trials(options, folder)
        for number in range(options.games):
            trials.play(number)
    for kind, count in sorted(trials.met.items()):
        print(f"{count:8} {kind}")
    print(*trials.wrong[:5], f"{options.games} games, {len(trials.wrong)} wrong", sep="\n")
    return bool(trials.wrong)
