"""One play of a game that is won, by the certificate.

The scopes of the player before the opponent's first one are the answer proper. What comes later is one play, against moves that
are allowed. The program tells nothing of a play before it has all moves, so moves are tried until one is allowed.
"""
import os
import re
import time
from itertools import islice

from .determined import NoValue, holds, value_of
from .program import DONE, TOO_LONG, answer
from .terms import C

MOST_TRIES = 3_000
MOST_SECONDS = 10.0
MISSING = re.compile(r"move missing at scope (\d+)\n")


class NoPlay(Exception):
    """No play was found; the text says why."""


class Player:
    """Plays the files of a certificate and its text."""

    def __init__(self, problem, text_path, certificate_path, folder, deadline):
        self.problem, self.folder, self.deadline = problem, folder, deadline
        self.words = ["play", text_path, certificate_path, os.path.join(folder, "moves")]
        self.end = time.monotonic() + MOST_SECONDS

    def play(self, moves):
        with open(self.words[-1], "w", encoding="ascii") as file:
            file.write(" ".join(map(str, moves)))
        return answer(self.words, self.folder, self.deadline)

    def one_play(self):
        """The lines of a play that came to its end."""
        moves = []
        status, said = self.play(moves)
        while status != DONE:
            missing = MISSING.fullmatch(said)
            if status == TOO_LONG:
                raise NoPlay("the certificate is too long to be played")
            if not missing:
                raise NoPlay(f"the program answers {said.strip()!r} to a play")
            status, said, moves = self.next_move(moves, said, self.problem.scopes[int(missing[1]) - 1])
        return said.splitlines()

    def next_move(self, moves, before, scope):
        for tuple_of_scope in islice(tuples(scope, self.problem), MOST_TRIES):
            tried = moves + tuple_of_scope
            status, said = self.play(tried)
            if status == DONE or MISSING.fullmatch(said) and said != before:
                return status, said, tried
            if time.monotonic() > self.end:
                break
        raise NoPlay(f"no allowed move of the opponent was found in scope {self.problem.scopes.index(scope) + 1}")


def tuples(scope, problem):
    """Tuples of a scope's variables with which its constraints hold, as far as they can be told without earlier choices."""
    own, checks, value = scope.variables, {}, {}
    places = {v: at for at, v in enumerate(own)}
    for c in scope.constraints:
        if c.variables() and all(v in places for v in c.variables()):
            checks.setdefault(max(c.variables(), key=places.get), []).append(c)
    choices = []

    def values_for(v):
        definition = problem.definitions.of.get(v)
        if isinstance(definition, C) and all(x is v or x in value for x in definition.variables()):
            try:
                return iter([value_of(definition, v, value)])
            except NoValue:
                return iter(())
        return iter(v.domain)

    if not own:
        yield []
        return
    choices.append(values_for(own[0]))
    while choices:
        v = own[len(choices) - 1]
        value.pop(v, None)
        found = next(choices[-1], None)
        if found is None:
            choices.pop()
            continue
        value[v] = found
        if all(holds(c, value) for c in checks.get(v, [])):
            if len(choices) == len(own):
                yield [int(value[x]) for x in own]
            else:
                choices.append(values_for(own[len(choices)]))
