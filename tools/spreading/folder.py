"""Pieces as files, for whatever runs a command for each file: make, GNU parallel, Slurm.

A folder has `problem`, the journal and the results of a store (store.py); for each piece that waits TEXT.qc, whose certificate is
to stand in TEXT.cert, and its name in `pieces`, a line each; `waiting`, which tells what these pieces are; and `wanted`, how many of
them there are to be.
"""
import os

from spreading.asking import text_of
from spreading.certificates import NotWhole, stated_of
from spreading.merging import MOST_TURNS
from spreading.run import LOOK, Policy, Run
from spreading.store import name_of, written_whole
from spreading.tree import DROPPED, LEFT_OPEN

# Looks for each piece that is wanted, after which no more are sought: some games fall into one large piece and small ones.
LOOKS = 20
# How many pieces a folder has where nobody says how many.
USUAL = 64


def want(store, pieces):
    written_whole(store.path("wanted"), b"%d\n" % pieces)


def wanted(store):
    with open(store.path("wanted"), encoding="ascii") as file:
        return int(file.read())


class Cutting(Run):
    """A run that goes no further than to have so many pieces, by looks of one turn."""

    def __init__(self, store, engine, tree=None):
        super().__init__(store, engine, Policy(pieces=wanted(store), patience=None, regret=None), self.has_enough, tree)

    def wanted(self):
        return self.policy.pieces

    def has_enough(self, _run):
        return not self.expanding or self.count > LOOKS * self.policy.pieces

    def turns_for(self, piece):
        return self.policy.first if piece is self.tree.root else LOOK


def take_answers(store, tree, say):
    """Takes the results that stand beside the pieces that were handed out. Those that aren't certificates are set aside."""
    taken = 0
    for name, path, best in handed_out(store):
        piece, result = tree.at(path), store.path(name + ".cert")
        if piece is None or piece.is_settled() or not os.path.exists(result):
            continue
        try:
            turns = stated_of(result).number
            kept = store.keep(result, name, turns)
            tree.bind(piece, best)
            if tree.take(piece, kept):
                store.note(piece, kept)
                taken += 1
            elif turns < MOST_TURNS:
                say(f"the piece {name} was left open after {turns} turns and can't be split; it needs more turns")
        except NotWhole as why:
            store.set_aside(result)
            say(f"{result} isn't a whole certificate ({why}); it is kept as {result}.bad, and its piece is to be solved again")
    return taken


def handed_out(store):
    """The name, the path and the best value of each piece that was written for others to solve."""
    if not os.path.exists(store.path("waiting")):
        return
    with open(store.path("waiting"), encoding="ascii") as file:
        for line in file:
            name, path, best = line.split()
            path = () if path == "whole" else tuple(map(int, path.split(".")))
            yield name, path, None if best == "-" else int(best)


def hand_out(store, tree):
    """Writes the pieces that are to be solved, and says how many they are."""
    rows = []
    for piece in list(tree.leaves()):
        if piece.is_settled() or piece.state == DROPPED:
            continue
        if tree.bind(piece, tree.best):
            store.note(piece, None)
            continue
        text = text_of(tree, piece)
        name = name_of(text)
        if os.path.exists(most := store.path(f"{name}-{MOST_TURNS}.cert")):
            piece.file, piece.state = most, LEFT_OPEN
            continue
        rows.append((name, piece))
        if not os.path.exists(path := store.path(name + ".qc")):
            written_whole(path, text)
    rows = [(name, piece) for name, piece in rows if not piece.is_settled() and piece.state != DROPPED]
    lines = (f"{name} {piece.name()} {'-' if piece.best is None else piece.best}\n" for name, piece in rows)
    written_whole(store.path("waiting"), "".join(lines).encode())
    written_whole(store.path("pieces"), "".join(f"{name}\n" for name, _ in rows).encode())
    forget(store, {name for name, _ in rows})
    return len(rows)


def forget(store, names):
    """Removes the texts of pieces that nothing is asked of any more."""
    for name in os.listdir(store.folder):
        if name.endswith(".qc") and name.removesuffix(".qc") not in names:
            os.remove(store.path(name))
