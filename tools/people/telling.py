"""An answer in sentences: what was asked and found, and what this tool worked out itself from the tree of the certificate."""
from oracle.games import Agg, Var
from people.answers import played
from people.ending import FAULT, Failed
from people.ranges import kept, spans, without
from people.words import plural, set_words

MOST_ENDS = 20_000  # of the strategy's plays, to look for the tightest
MOST_REPLIES = 3


def asked_words(problem):
    return problem.head or f"{problem.name}, whose text has no comment at its head"


def answer_words(problem, stated):
    word, *number = stated.split()
    wish = problem.wish()
    if word == "open":
        return f"Not settled within {plural(int(number[0]), 'turn')}; nothing is known of the game."
    if word == "false":
        return "No, not by any choice: each one is beaten, or breaks a rule."
    if wish:
        return f"Yes, and the {'least' if wish[0] == 'minimize' else 'greatest'} value of {wish[1]} is {number[0]}."
    return "Yes, whatever the opponent does within its rules."


class Teller:
    """Sentences on a game and the tree of its certificate, which is walked already."""

    def __init__(self, problem, tree):
        self.problem, self.game, self.tree, self.root = problem, problem.game, tree, tree.root
        self.word, *self.number = tree.head.split()

    # Plays.

    def play(self, node, choose):
        """The nodes of the play from this one on: the certificate's side takes its leaf, the other one what `choose` gives."""
        yield node
        while node.kind == "cases" and (leaf := node.pick or choose(node)):
            node = leaf.node
            yield node

    def told(self, values, first, until=None):
        """What was chosen from one scope to before another, by names."""
        scopes = range(first, self.game.goal if until is None else until)
        own = (i for i in scopes if self.game.own[i] and self.game.own[i][-1] < len(values))
        return ", then ".join(self.problem.assignment(i, values) for i in own)

    def opposing_moves(self, values):
        """The values that the side without a strategy has chosen."""
        side = "exists" if self.word == "false" else "forall"
        return [value for x, value in enumerate(values) if self.game.kinds[self.game.owners[x]] == side]

    # The first move.

    def first_move(self):
        if not self.game.goal or self.root.kind != "cases":
            return "none is needed: some rules can't be kept, whatever is chosen"
        if self.root.pick and self.game.own[0]:
            return self.problem.assignment(0, self.root.pick.values)
        if self.game.kinds[0] == "forall":
            return "the opponent begins" if self.word == "true" else "none: the opponent has no first move that is shown"
        return "none that wins" if self.word == "false" else "nothing is chosen first"

    def confirm_first(self, values):
        """Whether the first move that this tool read is the one that was told; another one is a fault. None: none was told."""
        if values is None or not self.game.goal or self.root.kind != "cases" or not self.root.pick:
            return False
        if values != [self.root.pick.values[x] for x in self.game.own[0]]:
            raise Failed("this tool read another first move from the certificate than qtell, which is a fault of the tool", FAULT)
        return True

    def confirm_by_play(self, program, certificate):
        """Plays the hardest play that this tool found by `qecode play`; whether it could be played. Another play is a fault."""
        if self.word == "open" or self.root.kind != "cases":
            return False
        end = [*self.play(self.root, self.hardest)][-1]
        lines = played(program, self.problem.path, certificate, self.opposing_moves(end.before))
        if lines is None:
            return False
        own = [[end.before[x] for x in self.game.own[i]] for i in range(end.scope)]
        shown = [" ".join(map(str, [i + 1, self.game.kinds[i], *values])) for i, values in enumerate(own)]
        if lines[: len(shown)] != shown:
            raise Failed("this tool read another play from the certificate than qecode play, which is a fault of the tool", FAULT)
        return True

    # What it holds against.

    def hardest(self, node):
        """The move of the side without a strategy that makes most trouble here, as far as its branch alone tells."""
        moves = node.moves()
        wanted = self.folded(node)
        if not moves or wanted is None:
            return moves[0] if moves else None
        return self.deciding(moves, wanted)

    @staticmethod
    def deciding(moves, wanted):
        _, _, sense, place = wanted
        return (max if sense == "minimize" else min)(moves, key=lambda leaf: leaf.node.verdict[1][place])

    def folded(self, node):
        """The fold of this scope that the first scope's wish is, the name in it, the sense, and its place in what is asked."""
        condition = self.game.conditions[0] if self.game.goal else None
        if self.word != "true" or not condition or not isinstance(condition[1], Agg):
            return None
        aggregate = self.game.aggregates[condition[1].agg]
        if aggregate.owner != node.scope:
            return None
        return aggregate.fold, self.problem.name_of(aggregate.target), condition[0], self.tree.rules.place(node.scope, condition[1])

    def ways(self, node):
        """How many plays the strategy has."""
        if node.kind != "cases":
            return 1
        if node.pick:
            return self.ways(node.pick.node)
        return sum(self.ways(leaf.node) for leaf in node.moves()) or 1

    def held_against(self):
        """The worst case that a strategy holds against."""
        first = next((node for node in self.play(self.root, lambda _: None) if node.scope < self.game.goal and not node.pick), None)
        if first is None:
            return "nobody moves against it"
        moves = first.moves()
        if not moves:
            return "the opponent has no move that its rules allow, so everything is true here: look at its rules"
        ways = self.ways(self.root)
        text = f"all {plural(ways, 'way')} in which the opponent can go on" if ways > 1 else "the one way in which the opponent can go on"
        hardest = self.hardest_branch(first, moves) or self.tightest()
        return f"{text}; {hardest}" if hardest else text

    def hardest_branch(self, node, moves):
        wanted = self.folded(node)
        if wanted is None:
            return None
        fold, name, sense, place = wanted
        leaf = self.deciding(moves, wanted)
        which = {"sum": f"the branch that {'brings least' if sense == 'maximize' else 'costs most'}"}.get(fold, "the branch that decides")
        return f"{which} is {self.told(leaf.values, node.scope, node.scope + 1)}, with {name} = {leaf.node.verdict[1][place]}"

    def tightest(self):
        """The play whose goal has the least to spare, where the goal compares sums."""
        sums = [(c, k) for k, c in enumerate(self.game.constraints) if c.owner == self.game.goal and c.name == "int_lin_le"]
        found = []
        for end in self.ends():
            rooms = sorted((room(c, end.before), k) for c, k in sums)
            found += [(rooms[0][0], sum(it for it, _ in rooms), rooms[0][1], end)] if rooms else []
        if not found:
            return None
        least, _, k, end = min(found, key=lambda it: it[:2])
        scopes = [i for i in range(self.game.goal) if self.game.kinds[i] == "forall" and self.game.own[i]]
        moves = "; ".join(self.problem.assignment(i, end.before) for i in scopes)
        return f"the tightest is {moves or 'without a move'}, where {self.problem.formulas[k]} holds with {least} to spare"

    def ends(self):
        """Goals of the strategy's plays, some thousands at most."""
        stack, left = [self.root], MOST_ENDS
        while stack and left:
            node = stack.pop()
            if node.kind == "goal":
                left -= 1
                yield node
            elif node.kind == "cases":
                stack += [node.pick.node] if node.pick else [leaf.node for leaf in reversed(node.moves())]

    # Why a game isn't won.

    def beaten(self):
        """Choices of the first scope, and what beats each."""
        if self.root.kind != "cases" or self.game.kinds[0] == "forall":
            end = [*self.play(self.root, lambda node: next(iter(node.moves()), None))][-1]
            return f"the opponent plays {self.told(end.before, 0)}" if end.before else "the rules themselves can't be kept"
        lost = self.root.moves()
        if not lost:
            return "each first choice breaks a rule or leaves no way on; the certificate names the rule for each"
        replies = "; ".join(map(self.reply, lost[:MOST_REPLIES]))
        more = f"; and so for {len(lost) - MOST_REPLIES} more" if len(lost) > MOST_REPLIES else ""
        return f"each of {plural(len(lost), 'choice')} that the rules leave is beaten: {replies}{more}"

    def reply(self, leaf):
        """What beats a choice of the first scope, up to the next choice of the player."""
        own = self.problem.assignment(0, leaf.values) or "choosing nothing"
        end = [*self.play(leaf.node, lambda _: None)][-1]
        answer = self.told(end.before, 1)
        return f"{own} by {answer}" if answer else f"{own} leaves no way on"

    # What better was ruled out.

    def nothing_better(self):
        """Why no better number is reached; None where no number is asked for."""
        wish = self.problem.wish()
        if self.word != "true" or not wish:
            return None
        target = self.game.conditions[0][1]
        if isinstance(target, Var) and self.game.owners[target.var] == 0:
            return self.no_better_value(target.var, wish[0], int(self.number[0]))
        return self.no_better_choice(wish[0])

    def no_better_value(self, x, sense, optimum):
        """Where the first scope chooses the number itself: of each better one, that it's beaten, or that no choice has it."""
        name, domain = self.problem.names[x], spans(self.game.domains[x])
        better = kept(domain, domain[0][0], optimum - 1) if sense == "minimize" else kept(domain, optimum + 1, domain[-1][1])
        less = "less" if sense == "minimize" else "more"
        if not better:
            return f"nothing {less} than {optimum} is in the domain of {name}"
        tried = [leaf for leaf in self.root.moves() if leaf.node.verdict[0] == "lost" and kept(better, *[leaf.values[x]] * 2)]
        untried = better
        for leaf in tried:
            untried = without(untried, *[leaf.values[x]] * 2)
        parts = []
        if tried:
            nearest = min(tried, key=lambda leaf: abs(leaf.values[x] - optimum))
            parts.append(f"{plural(len(tried), 'choice')} with {less}, each beaten: {self.reply(nearest)}")
        if untried:
            parts.append(f"{name} = {set_words(untried)} leaves no choice{self.reasons(x, untried)}")
        return "; ".join(parts)

    def reasons(self, x, ranges):
        """The constraints that took values of these ranges from a variable at the root."""
        rules = {c for y, gone, c in self.root.removed if y == x and c is not None and any(kept(gone, *it) for it in ranges)}
        told = [f"constraint {c + 1} ({self.problem.formulas[c]})" for c in sorted(rules)[:2]]
        return f", by {', '.join(told)}" if told else ""

    def no_better_choice(self, sense):
        """Where the number comes from later: what the other choices of the first scope come to."""
        parts, others = [], [leaf for leaf in self.root.moves() if leaf is not self.root.pick]
        lost = sum(leaf.node.verdict[0] == "lost" for leaf in others)
        if lost:
            parts.append(f"{plural(lost, 'first choice')} can't win")
        known = [leaf for leaf in others if leaf.node.verdict[0] in ("exact", "at most")]
        if known:
            parts.append(self.next_best(known, sense))
        if self.root.marks:
            parts.append(f"{plural(len(self.root.marks), 'part')} cut short, since nothing better than what was reached could come of it")
        return "; ".join(parts) or "the rules leave no other first choice"

    def next_best(self, known, sense):
        leaf = (min if sense == "minimize" else max)(known, key=lambda it: first_value(it.node))
        is_exact = leaf.node.verdict[0] == "exact"
        comes = "comes to" if is_exact else f"comes to no {'less' if sense == 'minimize' else 'more'} than"
        own = self.problem.assignment(0, leaf.values)
        return (
            f"each of {plural(len(known), 'other first choice')} comes to nothing better; the next, {own}, {comes}"
            f" {first_value(leaf.node)}"
        )


def first_value(node):
    what, value = node.verdict
    return value[0] if what == "exact" else value


def room(constraint, values):
    """What a sum has left to its bound."""
    factors, items, most = constraint.args
    return most - sum(f * (values[it.var] if isinstance(it, Var) else it) for f, it in zip(factors, items))
