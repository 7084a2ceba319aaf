"""Lists of lemmas that a search wrote, and damaged ones, against a player that goes over all moves.

    bench/run lemmas SEARCH [--games N] [--seed S] [--mutants M] [--qdense PATH] [--optima]
    bench/run lemmas --judge PROBLEM LIST..

SEARCH says how a search is called that writes a list of lemmas for a plain game: `"PROGRAM solve PROBLEM"`, where it writes
the list to its output, `"PROGRAM PROBLEM -o LIST"`, or `PROGRAM` for the same. It solves small games that are made at random,
every other one with many weak constraints, and with `--optima` such in which both sides care for one quantity; the oracle's
reader (tools/oracle/lemmas.py, optima.py) has to believe each list, and it has to prove the outcome that the oracle finds by
going over all moves. Then lists are damaged, and held against other
games: none may prove another outcome. With `--qdense` that program checks each list as well, and has to say what the oracle's
reader says.

Where the search writes nothing, or a certificate of version 2, the game counts as not solved. At the end it is told which
lines the lists had, and how many predicates the games. `--judge` tells what lists prove of a problem.
"""
import argparse
import os
import random
import subprocess
import sys
import tempfile
from collections import Counter

from compare.player import Maker, argument_text, damaged
from compare.searches import Search
from oracle.games import Game
from oracle.optima import judged
from oracle.predicates import SIGNATURES

OTHERS = 3


class Denser(Maker):
    """Makes games in which the sides take turns, the player last, with many clauses and sums that mostly have one variable of
    the opponent's and some of the player's, so that one conflict isn't enough."""

    SCOPES = [2, 3, 3, 4, 4]
    VARIABLES = [2, 3, 3, 4]
    RESTRICTIONS = [0, 0, 1]
    GOALS = [6, 8, 10, 12]
    BOOLEAN = 0.75

    def declare(self):
        self.kinds = ["forall" if (len(self.kinds) - k) % 2 == 0 else "exists" for k in range(len(self.kinds))]
        super().declare()

    def constraint(self, i):
        letter = "x" if self.likely(0.3) else "b"
        names = [x for x, owner in self.owner.items() if owner <= i and x[0] == letter]
        items = self.some(names, "forall", self.random.choice([0, 1, 1]))
        items += self.some(names, "exists", self.random.choice([2, 2, 3]))
        if self.likely(0.1) or not items:
            return super().constraint(i)
        if letter == "b":
            parts = [[x for x in items if self.random.getrandbits(1)], []]
            parts[1] = [x for x in items if x not in parts[0]]
            return f"constraint bool_clause({','.join(map(argument_text, parts))});"
        factors = [self.random.choice([-2, -1, 1, 2]) for _ in items]
        most = sum(max(f * v for v in self.values[x]) for f, x in zip(factors, items)) - self.random.choice([1, 1, 2])
        return f"constraint int_lin_le({argument_text(factors)},{argument_text(items)},{most});"

    def some(self, names, kind, count):
        of_kind = [x for x in names if self.kinds[self.owner[x]] == kind]
        return self.random.sample(of_kind, min(count, len(of_kind)))


class Rivals(Maker):
    """Makes games in which both sides care for one quantity: a variable, or what the worst branches leave of one."""

    SCOPES = [1, 2, 2, 3, 3, 4]

    def declare(self):
        self.kinds[0] = "exists"
        super().declare()
        self.sense, self.inner = self.random.choice(["minimize", "maximize"]), {}
        self.wish = self.quantity(0)

    def quantity(self, i):
        """What scope i may care for: a variable of a scope before the opponent's next one, or there the worst of its branches."""
        later = [j for j, kind in enumerate(self.kinds) if kind == "forall" and j > i]
        names = [x for x, owner in self.owner.items() if x[0] == "x" and (not later or owner < later[0])]
        inner = self.quantity(later[0]) if later and (not names or self.likely(0.6)) else None
        if not inner:
            return self.random.choice(names or [None])
        self.folds.append((f"q{later[0]}", later[0]))
        self.inner[f"q{later[0]}"] = inner
        return f"q{later[0]}"

    def head(self, i):
        return f"exists {self.sense} {self.wish};" if i == 0 and self.wish else f"{self.kinds[i]};"

    def aggregate(self, name, i):
        fold = "greatest" if self.sense == "minimize" else "least"
        return f"aggregate {name} = {fold}({self.inner[name]}) else {self.random.randrange(-3, 6)};"


class Trials:
    """Plays games, and gathers what was met and what is wrong."""

    def __init__(self, options, folder):
        self.options, self.met, self.wrong, self.lists = options, Counter(), [], []
        self.predicates = Counter()
        self.problem, self.found = os.path.join(folder, "problem"), os.path.join(folder, "list")

    def play(self, number):
        chance = random.Random(f"{self.options.seed} {number}")
        makers = (Rivals, Rivals) if self.options.optima else (Maker, Denser)
        game = makers[number % 2](chance, True).game()
        outcome = game.outcome()
        self.predicates.update({constraint.name for constraint in game.constraints})
        data, status = self.solved(game)
        if data is None or data.startswith(b"qcert 2"):
            self.met["not solved, " + ("a tree" if data else f"status {status}")] += 1
            return
        self.met.update(f"solved, with a line {line[:1].decode()}" for line in {line[:1] for line in data.splitlines()[2:]})
        self.judge(number, game, data, "solved", outcome, (outcome,))
        # A list that is damaged or of another game may still tell who wins.
        right = (outcome, outcome.split()[0], "no")
        self.lists = (self.lists + [data])[-20:]
        for _ in range(self.options.mutants):
            self.judge(number, game, damaged(chance, data), "damaged", outcome, right)
        for other in chance.sample(self.lists, min(OTHERS, len(self.lists))):
            self.judge(number, game, other, "of some game", outcome, right)

    def solved(self, game):
        with open(self.problem, "wb") as file:
            file.write(game.text)
        return self.options.search.found(self.problem, self.found)

    def judge(self, number, game, data, what, outcome, right):
        judgement = judged(game, data)
        answer = judgement.partition(":")[0]
        self.met[f"{what}: {answer.partition(' ')[0]}{' with an optimum' * (' ' in answer)}"] += 1
        told = answered(self.options.qdense, self.problem, self.found, data) if self.options.qdense else answer
        # A damaged head may make it a tree, which the program reads too.
        agree = told == answer if data.startswith(b"qcert 3") else told in right
        if answer not in right or not agree:
            head = f"-- game {number}, {what}: {outcome} by going over all moves, judged {judgement}, {told} by the program"
            self.wrong.append("\n".join([head, *(part.decode(errors="replace") for part in (game.text, data))]))


def answered(program, problem, path, data):
    """What the program says that a list proves."""
    with open(path, "wb") as file:
        file.write(data)
    done = subprocess.run([program, "check", problem, path], stdout=subprocess.PIPE, check=False)
    if done.returncode:
        return "no" if done.returncode in (1, 5) else "nothing"
    return done.stdout.decode().removeprefix("yes ").rstrip("\n")


def main(words):
    options = argparse.ArgumentParser(prog="bench/run lemmas", description=__doc__, formatter_class=argparse.RawTextHelpFormatter)
    options.add_argument("search", nargs="?")
    options.add_argument("--judge", nargs="+")
    options.add_argument("--games", type=int, default=1000)
    options.add_argument("--seed", default="1")
    options.add_argument("--mutants", type=int, default=12)
    options.add_argument("--optima", action="store_true", help="games in which both sides care for one quantity")
    options.add_argument("--qdense", metavar="PATH", help="the program that has to say the same")
    options = options.parse_args(words)
    if options.judge:
        return judge_files(*options.judge)
    if not options.search:
        print("bench/run lemmas: a search is wanted", file=sys.stderr)
        return 2
    options.search = Search(options.search)
    with tempfile.TemporaryDirectory() as folder:
        trials = Trials(options, folder)
        for number in range(options.games):
            trials.play(number)
    for kind, count in sorted(trials.met.items()):
        print(f"{count:8} {kind}")
    rarest = min(SIGNATURES, key=lambda name: trials.predicates[name])
    print(f"{len(trials.predicates)} of {len(SIGNATURES)} predicates; {rarest} in {trials.predicates[rarest]} games, the others in more")
    print(*trials.wrong[:5], f"{len(trials.wrong)} wrong", sep="\n")
    return bool(trials.wrong)


def judge_files(problem, *lists):
    with open(problem, "rb") as file:
        game = Game(file.read())
    for name in lists:
        with open(name, "rb") as file:
            print(judged(game, file.read()))
    return 0
