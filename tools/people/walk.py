"""The tree of a certificate that `check` has confirmed, with what each node of it comes to and which choice its owner takes.

The walk trusts each line; the tables of verdicts are those of oracle.certificates.
"""
from oracle.certificates import Rules
from people.ending import FAULT, Failed
from people.ranges import kept, spans, without


class Leaf:
    """An end of a scope's tree. `word` is node, barred, skipped or open; a node has the values of all variables up to it."""

    __slots__ = ("word", "line", "values", "node")

    def __init__(self, word, line, values=None, node=None):
        self.word, self.line, self.values, self.node = word, line, values, node

    def verdict(self):
        return self.node.verdict if self.node else ("skipped" if self.word == "open" else self.word, None)


class Node:
    """A scope after the values `before`. `kind` is cases, stuck or goal; `pick` is the leaf that its owner takes.

    `removed` are the removals, in order, each a variable, the ranges that went, and a constraint, or None for a bound.
    """

    __slots__ = ("scope", "before", "kind", "leaves", "marks", "verdict", "own", "pick", "removed")

    def __init__(self, scope, before):
        self.scope, self.before = scope, before
        self.kind, self.leaves, self.marks, self.removed = "cases", [], [], []
        self.verdict = self.own = self.pick = None

    def moves(self):
        """The leaves that lead on."""
        return [leaf for leaf in self.leaves if leaf.node]


class Tree:
    """The tree, its nodes in the order of the text. A box is a tuple of lists of ranges."""

    def __init__(self, game, data):
        self.game, self.rules = game, Rules(game)
        _, self.head, *self.lines = data.decode("ascii").splitlines()
        self.k, self.nodes, self.turns = 0, [], 0
        self.root = self.node(0, tuple(spans(domain) for domain in game.domains))

    def next(self):
        return self.lines[self.k][0]

    def take(self):
        """The letter of the next line, and its numbers."""
        letter, *numbers = self.lines[self.k].split()
        self.k += 1
        return letter, list(map(int, numbers))

    def position(self, i, box):
        return tuple(box[x][0][0] for x, owner in enumerate(self.game.owners) if owner < i)

    def node(self, i, box):
        node = Node(i, self.position(i, box))
        self.nodes.append(node)
        if self.next() == "h":  # a horizon takes nothing away here
            while self.take()[0] != ".":
                pass
        if self.next() in "tg":
            letter, _ = self.take()
            node.kind = "stuck" if letter == "t" else "goal"
            node.verdict = self.rules.stuck(i, node.before) if letter == "t" else self.rules.at_goal(node.before)
        else:
            self.cases(node, box)
            self.conclude(node)
        return node

    def cases(self, node, box):
        box = self.steps(node, box)
        line, (letter, numbers) = self.k, self.take()
        if letter == "n":
            node.leaves.append(Leaf("node", line, self.position(node.scope + 1, box), self.node(node.scope + 1, box)))
        elif letter == "x":
            node.leaves.append(Leaf("barred", line))
        elif letter == "v":
            self.branch(node, box, numbers[0] - 1)

    def steps(self, node, box):
        """The box after the removals that come next."""
        while self.next() in "pb":
            letter, (x, low, high, *by) = self.take()
            x -= 1
            gone = kept(box[x], low, high)
            node.removed.append((x, gone, by[0] - 1 if by else None))
            if letter == "b":
                sense = self.rules.lists[node.scope + 1][0][0]
                node.marks.append(gone[0][0] if sense == "minimize" else gone[-1][1])
            box = replaced(box, x, without(box[x], low, high))
        return box

    def branch(self, node, box, x):
        left = box[x]
        while self.next() != ".":
            low = left[0][0]
            high = self.take()[1][0] if self.next() == "r" else low
            part, left = kept(left, low, high), without(left, low, high)
            if self.next() in "so":
                node.leaves.append(Leaf("skipped" if self.next() == "s" else "open", self.k))
                self.take()
            else:
                self.turns += 1
                self.cases(node, replaced(box, x, part))
        self.take()

    def conclude(self, node):
        """The verdict, and the leaf taken: the first with the best vector where an existential scope is exact, the first that
        is lost where a universal scope is."""
        i, verdicts = node.scope, [leaf.verdict() for leaf in node.leaves]
        if self.game.kinds[i] == "forall":
            node.verdict = self.rules.forall(i, verdicts, node.before)
            wanted = "lost"
        else:
            node.verdict, node.own = self.rules.exists(i, verdicts, node.marks)
            wanted = "exact"
        if node.verdict[0] != wanted:
            return
        fitting = [leaf for leaf in node.leaves if leaf.verdict()[0] == wanted]
        asked = self.rules.lists[i + 1] if wanted == "exact" else []
        node.pick = min(fitting, key=lambda leaf: self.rules.compare_key(asked)(leaf.node.verdict[1])) if asked else fitting[0]

    def proves(self):
        """Whether the walk came to what the certificate states: a test of this walk, not of the certificate."""
        word, *number = self.head.split()
        what, has_wish = self.root.verdict[0], bool(self.game.goal and self.game.conditions[0])
        if word == "true":
            return what == "exact" and number == ([str(self.root.own)] if has_wish else [])
        return what == {"false": "lost", "open": "unknown"}[word]


def replaced(box, x, ranges):
    return box[:x] + (ranges,) + box[x + 1 :]


def read_tree(game, data):
    tree = Tree(game, data)
    if not tree.proves():
        raise Failed("this tool read the tree otherwise than check did, which is a fault of the tool; nothing is shown", FAULT)
    return tree
