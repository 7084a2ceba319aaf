"""What `solve` promises of its certificates besides that they prove.

They are in order: nothing is gone into that can't matter any more, no taken case has a range, and what is left out
stands in one case. They are diligent: at a branch no constraint in force refutes an end of one of its own variables,
the first variable that is open comes first, and a horizon stands wherever no values left pass. They keep what was
found: no value is left that is worse than a choice made before. `check` asks for none of this.
"""
from oracle.certificates import UNKNOWN, Proof, replaced
from oracle.games import Var, better, flat, refutes


def variables_of(constraint):
    return {arg.var for arg in flat(constraint.args) if isinstance(arg, Var)}


def refuted_ends(game, box, constraints):
    """The variables and their least and greatest values that some constraint of the list refutes."""
    for c in constraints:
        for x in sorted(variables_of(game.constraints[c])):
            for end in {min(box[x]), max(box[x])}:
                if refutes(game.constraints[c], replaced(box, x, frozenset([end]))):
                    yield x, end


def closed_within(game, box, constraints):
    """The greatest box within this one that no constraint cuts at an end; None where there is none."""
    while True:
        cut = next(refuted_ends(game, box, constraints), None)
        if cut is None:
            return box
        box = replaced(box, cut[0], box[cut[0]] - {cut[1]})
        if not box[cut[0]]:
            return None


class Promises(Proof):
    """Which promises aren't kept: sentences on order, on diligence, and on values that a bound would take."""

    def __init__(self, game, lines):
        self.disorder, self.idle, self.slack = set(), set(), set()
        self.last_leaves = None
        super().__init__(game, lines)

    def at_node(self, i, box, horizon):
        inner = box
        for k in range(i, self.game.goal + 1 if i < self.game.goal else i):
            inner = inner and closed_within(self.game, inner, self.rules.owned(i, k))
            if inner is None:
                if horizon is None or horizon > k:
                    self.idle.add("a horizon is missing")
                return

    def at_choice(self, i, box, free, leaves):
        if free:
            if self.lines[self.k].numbers[0] - 1 != free[0]:
                self.idle.add("the first open variable doesn't come first")
            if next(refuted_ends(self.game, box, self.rules.in_force(i)), None):
                self.idle.add("a box at a branch isn't closed")
        asked = self.rules.lists[i + 1]
        if self.game.kinds[i] == "exists" and asked and isinstance(asked[0][1], Var):
            self.look_at_values(i, box, leaves, *asked[0])

    def look_at_values(self, i, box, leaves, sense, target):
        """Where no follower's condition stands between, no value is worse than that of a choice found before."""
        if any(self.game.conditions[j] for j in range(i + 1, self.game.owners[target.var] + 1)):
            return
        found = [vector[0] for what, vector in leaves if what == "exact"]
        if any(better(sense, value, other) for value in found for other in box[target.var]):
            self.slack.add("a value is left that is worse than what was found")

    def at_case(self, i, covered, leaves):
        letter = self.next()
        if letter in "so":
            before = self.lines[self.k - 1 - (len(covered) > 1)]
            if before.letter == letter:
                self.disorder.add("two cases that one could be")
            return
        kinds = [what for what, _ in leaves]
        if self.opens:
            self.disorder.add("a case is taken after one was left open")
        if len(covered) > 1:
            self.disorder.add("a range is taken")
        if "lost" in kinds if self.game.kinds[i] == "forall" else "exact" in kinds and not self.rules.lists[i + 1]:
            self.disorder.add("a case is taken after the scope was decided")

    def at_end(self, verdict, leaves):
        if verdict == UNKNOWN and ("skipped", "s") in leaves:
            self.disorder.add("a case is left out, and nothing is known")
