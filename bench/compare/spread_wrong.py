"""Spoils merges of small games in many ways, to see that `check` says yes to none that states another outcome.

    bench/run spread_wrong [--games N] [--seed S] [--program PATH] [--piece-program PATH]

Each game at random is split into pieces of a turn, and merged six times with one fault: a piece has another one's answer, or a cut
or a damaged one; the head states something else; the merged text is damaged; a piece isn't merged where it belongs but its
neighbour twice; a bound takes more than it may; a piece is said to have been told another value, or none. A merge that stops with a named reason is as good as one that isn't believed.
"""
import argparse
import os
import random
import sys
import tempfile
from collections import Counter

from compare.player import Maker, damaged
from compare.spread_fuzz import merged, spread
from oracle.games import Var
from program import Program, add_option, add_piece_option, piece_program
from spreading.certificates import NotWhole
from spreading.run import Policy

POLICY = Policy(turns=1, first=1, pieces=0, fan=2, patience=None, regret=None)
TIMES = 6
HOWS = "answer cut damage head text twice bound told".split()


def data_of(path):
    with open(path, "rb") as file:
        return file.read()


class Spoiler:
    def __init__(self, chance, run, folder):
        self.chance, self.tree, self.run, self.folder = chance, run.tree, run, folder
        self.pieces = [leaf for leaf in run.tree.leaves() if leaf.file]

    def written(self, data):
        path = os.path.join(self.folder, f"spoilt{self.chance.random()}")
        with open(path, "wb") as file:
            file.write(data)
        return path

    def spoilt(self, how):
        """The bytes of a merge with such a fault."""
        piece, other = self.chance.choices(self.pieces, k=2)
        kept = dict(piece.__dict__)
        try:
            if how == "answer":
                piece.file = other.file
            elif how == "cut":
                piece.file = self.written(data_of(piece.file)[: -self.chance.randrange(1, 20)])
            elif how == "damage":
                piece.file = self.written(damaged(self.chance, data_of(piece.file)))
            elif how == "bound":
                self.bound(piece)
            elif how == "told":
                piece.file = self.written(self.told(data_of(piece.file)))
            elif how == "twice":
                return self.twice(piece)
            data = merged(self.run, os.path.join(self.folder, "spoilt"))
        finally:
            piece.__dict__ = kept
        lines = data.split(b"\n", 2)
        if how == "head":
            lines[1] = self.chance.choice([b"true", b"false", b"true %d" % self.chance.randrange(-3, 9)])
            return b"\n".join(lines)
        return damaged(self.chance, data) if how == "text" else data

    def bound(self, piece):
        wish = self.tree.wish
        if wish and isinstance(wish[1], Var) and piece.parent:
            domain = piece.unbounded[wish[1].var]
            cut = self.chance.randint(domain.low, domain.high)
            piece.bound = b"b %d %d %d\n" % (wish[1].var + 1, *sorted((cut, self.chance.choice((domain.low, domain.high)))))

    def told(self, data):
        """The piece with another value that was reached, or without one, and with another answer by that."""
        before, _, certificate = data.partition(b"qcert 2\n")
        kept = [line for line in before.splitlines(keepends=True) if not line.startswith(b"reached")] or [b"qpiece 1\n"]
        if self.chance.random() < 0.7:
            kept.append(b"reached %d\n" % self.chance.randrange(-5, 9))
        return b"".join(kept) + b"qcert 2\n" + certificate

    def twice(self, piece):
        children = piece.parent.children
        kept = list(children)
        try:
            children[children.index(piece)] = children[0]
            return merged(self.run, os.path.join(self.folder, "spoilt"))
        finally:
            piece.parent.children = kept


def options_of(words):
    parser = argparse.ArgumentParser(prog="bench/run spread_wrong", description=__doc__, formatter_class=argparse.RawTextHelpFormatter)
    parser.add_argument("--games", type=int, default=100)
    parser.add_argument("--seed", type=int, default=1)
    add_option(parser)
    add_piece_option(parser)
    options = parser.parse_args(words)
    options.program, options.part, options.engine = Program(options.program), piece_program(options.piece_program), "clock"
    return options


def spoilt_merges(options, number):
    """What `check` says to each spoilt merge of a game, beside the right outcome."""
    chance = random.Random(f"wrong {options.seed} {number}")
    game = Maker(chance, chance.random() < 0.3).game()
    with tempfile.TemporaryDirectory() as folder:
        run = spread(game.text, options, 1, POLICY, folder)
        if run.tree.root.children is None or not run.tree.root.is_settled():
            return
        spoiler, known, right = Spoiler(chance, run, folder), game.outcome(), merged(run, os.path.join(folder, "right"))
        if not spoiler.pieces:
            return
        problem = spoiler.written(game.text)
        for _ in range(TIMES):
            how = chance.choice(HOWS)
            try:
                if (data := spoiler.spoilt(how)) == right:
                    continue
                said = options.program.run("check", problem, spoiler.written(data))[1].decode().strip()
            except (NotWhole, IndexError, ValueError, RuntimeError) as fault:
                said = f"stopped: {type(fault).__name__}"
            yield game, how, said, known


def main(words):
    options = options_of(words)
    sys.setrecursionlimit(50_000)
    met, wrong = Counter(), 0
    for number in range(options.games):
        for game, how, said, known in spoilt_merges(options, number):
            claims = said.startswith("yes") and not said.startswith("yes open")
            if claims and said != f"yes {known}":
                wrong += 1
                print("WRONG", how, game.text.decode(), said, known, sep="\n")
            met[how, "yes, and so it is" if claims else said.split(" at ")[0]] += 1
    for (how, said), times in sorted(met.items()):
        print(f"{times:6} {how:7} {said}")
    print(f"{sum(met.values())} spoilt merges, {wrong} believed with another outcome")
    return wrong > 0
