"""Plays games to their ends against what certificates show, over every move.

    bench/run plays [--program PATH] [FILE ..]            the problem texts FILE, or all of examples/
    bench/run plays --games N [--seed S] [--jobs J]       small games made at random, as player.py makes them

Nothing here is part of the gate.

The program solves each problem, and `play` is asked for the play of every sequence of moves of the other side: of its
allowed tuples, one missing, one that isn't allowed, one too many. What is written has to be a play of the game by its
definition, gone over by oracle.games: the tuples that the certificate's side chooses are allowed, and the same wherever the
same was played before; the lines are those of docs/play.md; and a play ends as it has to. Where the game is won that is a
goal that holds, or an opponent who is stuck; where it isn't, a goal that doesn't hold, or a player who can't go on. Where
a first scope optimises, what the plays come to together has to be the optimum that `solve` states.
"""
import argparse
import multiprocessing
import os
import random
import sys
import tempfile
from collections import Counter

from compare.player import Maker
from oracle.games import FOLDS, Agg, Game, Var, holds
from program import TOP, Program, add_option

DONE, BAD_MOVES = 0, 10
# The most plays of one problem.
MOST = 3_000


class Wrong(Exception):
    """What the program answered isn't a play."""


class Plays:
    """All plays of a game against one certificate."""

    def __init__(self, program, text, folder):
        self.program, self.folder, self.game = program, folder, Game(text)
        self.problem = self.write("problem", text)
        self.moves_file = self.write("moves", b"")
        _, certificate = self.program.run("solve", self.problem)
        self.certificate = self.write("certificate", certificate)
        self.outcome = certificate.split(b"\n")[1].decode()
        self.side = "forall" if self.outcome == "false" else "exists"
        self.played = Counter()

    def write(self, name, data):
        path = os.path.join(self.folder, f"{name}{os.getpid()}")
        with open(path, "wb") as file:
            file.write(data)
        return path

    def answer(self, moves):
        with open(self.moves_file, "w", encoding="ascii") as file:
            file.write(" ".join(map(str, moves)) + "\n")
        status, written = self.program.run("play", self.problem, self.certificate, self.moves_file)
        return written.decode(), status

    def all(self):
        if self.outcome.startswith("open"):
            return
        value = self.go(0, (), [])
        if self.side == "exists" and " " in self.outcome:
            self.ask(str(value[self.game.conditions[0][1]]) == self.outcome.split()[1], "another optimum", [])

    def ask(self, fact, what, moves):
        if not fact:
            raise Wrong(f"{what}, after the moves {moves}")

    def go(self, i, a, moves):
        """The plays from scope i on, after the values a: what the targets seen from there come to."""
        self.ask(sum(self.played.values()) < MOST, "too many plays", moves)
        game = self.game
        if i == game.goal:
            return self.end(a, moves)
        tuples = list(game.moves(i, a))
        if game.kinds[i] == self.side:
            return self.chosen(i, a, moves, tuples)
        if not tuples or self.side == "forall" and self.is_stuck(i, tuples, moves):
            self.stuck(i, moves)
            return self.folded(i, [])
        if not game.own[i]:
            return self.folded(i, [(tuples[0], self.go(i + 1, tuples[0], moves))])
        self.missing(i, moves)
        self.not_allowed(i, a, moves, tuples)
        laters = []
        for b in tuples:
            after = moves + list(b[len(a) :])
            text, status = self.answer(after)
            if status == DONE and f"\nhopeless {i + 1}\n" in "\n" + text:
                self.hopeless(i, b, after, text)
            else:
                laters.append((b, self.go(i + 1, b, after)))
        return self.folded(i, laters)

    def folded(self, i, laters):
        """What targets come to in an opponent's scope, over his branches; each its own where the player moves."""
        if self.side != "exists":
            return {}
        values = {}
        for k, q in enumerate(self.game.aggregates):
            if q.owner == i:
                numbers = [self.value(q.target, b, later) for b, later in laters]
                values[Agg(k)] = FOLDS[q.fold](numbers) if numbers else q.over_none or 0
        return values

    @staticmethod
    def value(target, b, later):
        return b[target.var] if isinstance(target, Var) and target.var < len(b) else later[target]

    def chosen(self, i, a, moves, tuples):
        """The side's own scope: the tuple that the play shows, whatever comes after it."""
        shown = self.shown(i, a, moves)
        if shown is None:
            return {}
        self.ask(shown in tuples, f"scope {i + 1} of the certificate's side has a tuple that isn't allowed", moves)
        later = self.go(i + 1, shown, moves)
        if self.side != "exists":
            return {}
        own = {target: self.value(target, shown, later) for target in self.game.seen[i]}
        return own

    def shown(self, i, a, moves):
        """The values after scope i: of the play with these moves, gone on with by some that are allowed."""
        text = self.whole(i, a, moves)
        lines = text.splitlines()
        values = [int(word) for line in lines[: i + 1] for word in line.split()[2:]]
        for k, line in enumerate(lines[: i + 1]):
            self.ask(line.split()[:2] == [str(k + 1), self.game.kinds[k]], f"line {k + 1} is no scope's", moves)
        self.ask(tuple(values[: len(a)]) == a, "the values before have changed", moves)
        return tuple(values)

    def whole(self, i, a, moves):
        """The text of a play with these moves and then others, tried until one comes to an end."""
        text, status = self.answer(moves)
        while status == BAD_MOVES:
            words = text.split()
            self.ask(words[:2] == ["move", "missing"], text, moves)
            scope = int(words[-1]) - 1
            self.ask(scope > i, f"a move is missing at scope {scope + 1}", moves)
            moves, text, status = self.some_move(scope, moves)
        self.ask(status == DONE, f"status {status}", moves)
        return text

    def some_move(self, scope, moves):
        """The moves with a tuple of this scope that is allowed there, found by trying."""
        for values in self.tuples(scope):
            text, status = self.answer(moves + values)
            if text != f"move not allowed at scope {scope + 1}\n":
                return moves + values, text, status
        raise Wrong(f"no move is allowed at scope {scope + 1}, after the moves {moves}")

    def tuples(self, scope):
        found = [[]]
        for x in self.game.own[scope]:
            found = [values + [v] for values in found for v in self.game.domains[x]]
        return found

    def missing(self, i, moves):
        short = moves + [0] * (len(self.game.own[i]) - 1)
        self.same(short, f"move missing at scope {i + 1}\n", BAD_MOVES)

    def not_allowed(self, i, a, moves, tuples):
        for values in [[10**9] * len(self.game.own[i]), *self.tuples(i)]:
            if a + tuple(values) not in tuples:
                self.same(moves + values, f"move not allowed at scope {i + 1}\n", BAD_MOVES)
                return

    def same(self, moves, text, status):
        self.played[text.split(" at ")[0]] += 1
        found = self.answer(moves)
        self.ask(found == (text, status), f"{found} in place of {(text, status)}", moves)

    def end(self, a, moves):
        won = all(holds(c, a) for c in self.game.ready[self.game.goal][0])
        self.ask(won == (self.side == "exists"), f"the play ends with a goal that {'holds' if won else 'fails'}", moves)
        self.finished(a, moves, f"goal {str(won).lower()}")
        return {}

    def is_stuck(self, i, tuples, moves):
        """Whether the play ends at this scope of the player: then each of his tuples has to be hopeless."""
        text, status = self.answer(moves)
        if status != DONE or not text.endswith(f"stuck {i + 1}\nunused 0\n"):
            return False
        self.ask(not any(self.passes(i + 1, b) for b in tuples), "the player isn't stuck", moves)
        return True

    def stuck(self, i, moves):
        self.played["stuck"] += 1
        text, status = self.answer(moves + [5])
        self.ask(status == DONE and text.endswith(f"stuck {i + 1}\nunused 1\n"), f"not stuck: {text}", moves)

    def hopeless(self, i, b, moves, text):
        """The other side is the player, who can't pass the block after this tuple; nothing is played further."""
        self.played["hopeless"] += 1
        self.ask(self.side == "forall" and not self.passes(i + 1, b), "a tuple isn't hopeless", moves)
        self.ask(text.endswith(f"hopeless {i + 1}\nunused 0\n"), text, moves)

    def passes(self, i, a):
        """Whether somebody can pass the later scopes of the block, and the goal where the block reaches it."""
        if i == self.game.goal:
            return all(holds(c, a) for c in self.game.ready[i][0])
        return self.game.kinds[i] == "forall" or any(self.passes(i + 1, b) for b in self.game.moves(i, a))

    def finished(self, a, moves, last):
        self.played[last] += 1
        scopes = range(self.game.goal)
        lines, at = [], 0
        for i in scopes:
            values = a[at : at + len(self.game.own[i])]
            at += len(values)
            lines.append(" ".join([str(i + 1), self.game.kinds[i], *map(str, values)]) + "\n")
        for more in ([], [7, -7]):
            text = "".join(lines) + f"{last}\nunused {len(more)}\n"
            found = self.answer(moves + more)
            self.ask(found == (text, DONE), f"{found} in place of {text!r}", moves + more)


def played(task):
    program, text, folder = task
    sys.setrecursionlimit(50_000)
    plays = Plays(program, text, folder)
    try:
        plays.all()
    except Wrong as wrong:
        return plays.played, f"{text.decode()}-- {plays.outcome}\n-- {wrong}"
    return plays.played, None


def texts(options):
    if options.games:
        for number in range(options.games):
            yield f"game {number}", Maker(random.Random(f"{options.seed} {number}"), False).game().text
        return
    folder = os.path.join(TOP, "examples")
    for name in options.files or sorted(os.path.join(folder, it) for it in os.listdir(folder) if it.endswith(".qc")):
        with open(name, "rb") as file:
            yield name, file.read()


def main(words):
    parser = argparse.ArgumentParser(prog="bench/run plays", description="Plays every move against what certificates show.")
    parser.add_argument("files", nargs="*")
    add_option(parser)
    parser.add_argument("--games", type=int)
    parser.add_argument("--seed", type=int, default=1)
    parser.add_argument("--jobs", type=int, default=1)
    options = parser.parse_args(words)
    program, met, wrong = Program(options.program), Counter(), 0
    with tempfile.TemporaryDirectory() as folder, multiprocessing.Pool(options.jobs) as pool:
        named = list(texts(options))
        for (name, _), (counts, fault) in zip(named, pool.imap(played, ((program, text, folder) for _, text in named))):
            met += counts
            if not options.games:
                print(f"{name}: {sum(counts.values())} plays")
            if fault:
                wrong += 1
                print(f"{name}: WRONG\n{fault}", flush=True)
    for what, times in sorted(met.items()):
        print(f"{times:7} {what}")
    print(f"{len(named)} problems, {wrong} with a wrong play")
    return wrong > 0
