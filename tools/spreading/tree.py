"""The tree of pieces: what each comes to, which are still needed, and how they are split.

A piece is the problem kept to a box: a case of scope `level`, where every variable of earlier scopes has one value. It comes to

    true     the player wins; `value` is the first scope's best value, where that has a wish
    false    the player doesn't
    bound    nothing in it is better than the best value that was reached elsewhere, or the player doesn't win

and so does a piece that was split, by its parts, as the tables of verdicts say (docs/many.md).
"""
from spreading.certificates import Beginning, opened, passes, removed, replaced, stated_of
from spreading.problem import Agg, Problem, Var

FOLDS = {"sum": sum, "least": min, "greatest": max}
FAN = 4
NEW, WAITING, RUNNING, SPLIT, ENDED, DROPPED, LEFT_OPEN = "new waiting running split ended dropped open".split()


class Piece:
    """`path` has its place among the parts of each piece above it."""

    def __init__(self, parent, level, box, path, part=None):
        self.parent, self.level, self.box, self.path, self.part = parent, level, box, path, part
        self.state, self.kind, self.value, self.file = NEW, None, None, None
        self.unbounded, self.bound, self.best = box, None, None  # the box without its bound, that `b` line, and its best value
        self.children = None
        self.scope = self.branch = self.steps = self.opener = None  # of a split: where, and the file that told it
        self.passed = None

    @property
    def reached(self):
        """The best value that its run is told; None where its box has no other values left anyhow."""
        return None if self.bound else self.best

    def is_settled(self):
        return self.kind is not None

    def drop_parts(self):
        """Nothing more is asked of what is below."""
        todo = list(self.children or ())
        while todo:
            piece = todo.pop()
            if not piece.is_settled() and piece.state != DROPPED:
                piece.state = DROPPED
                todo += piece.children or ()

    def name(self):
        return ".".join(map(str, self.path)) or "whole"


class Tree:
    def __init__(self, text, fan=FAN, has_part=False):
        self.problem, self.fan, self.has_part = Problem(text), fan, has_part
        self.root = Piece(None, 0, self.problem.domains, ())
        self.best = None
        self.settled = self.splits = 0

    # ---- The first scope's wish.

    @property
    def wish(self):
        return self.problem.wish

    def better_of(self, values):
        return (min if self.wish[0] == "minimize" else max)(values)

    def is_better(self, a, b):
        return a != b and self.better_of((a, b)) == a

    def is_free(self, scope):
        """Whether all scopes up to this one are of the first block, and none after the first has a wish: then whatever is chosen
        there is chosen for the first scope's wish alone."""
        problem = self.problem
        first = problem.kinds and problem.kinds[0] == "exists"
        return first and scope <= problem.rules.block_end(0) and not any(problem.conditions[1 : scope + 1])

    def may_bound(self, piece):
        """Whether a bound over the wish's variable may stand at the head of the piece's case."""
        if not self.wish or not isinstance(self.wish[1], Var) or piece.parent is None or not self.is_free(piece.level):
            return False
        return not any(self.problem.conditions[1 : self.problem.owners[self.wish[1].var] + 1])

    def may_reach(self, piece):
        """Whether a piece's run may be told the best value, by `qpart` alone: where the wish is over an aggregate, in a choice of the
        player before the opponent's, or among the opponent's moves over which it's folded, where one of them bounds it."""
        if not self.has_part or not self.wish or not isinstance(self.wish[1], Agg) or piece.parent is None:
            return False
        return self.is_free(piece.level) or self.is_one_sided(piece.level)

    def is_one_sided(self, scope):
        """Whether the wish is over an aggregate of this scope to which no move of the opponent is an advantage: the greatest that is to
        be small, or the least that is to be great."""
        aggregate = self.wish and isinstance(self.wish[1], Agg) and self.problem.aggregates[self.wish[1].agg]
        if not aggregate or aggregate.owner != scope or any(self.problem.conditions[1 : aggregate.owner]):
            return False
        return (self.wish[0], aggregate.fold) in (("minimize", "greatest"), ("maximize", "least"))

    def target(self, scope):
        """What the wish asks of this scope: its target, seen through the aggregates of the universal scopes between."""
        target = self.wish[1]
        for j in range(1, scope):
            if self.problem.kinds[j] == "forall" and isinstance(target, Agg):
                target = self.problem.aggregates[target.agg].target
        return target

    def place(self, scope):
        """The place of the wish in the list after the scope; None where its value is fixed before."""
        place, target = 0, self.wish[1]
        for j in range(1, scope + 1):
            if self.problem.kinds[j] == "exists":
                place += bool(self.problem.conditions[j])
            elif isinstance(target, Var):
                return None
            else:
                asked = [named for _, named in self.problem.lists[j] if isinstance(named, Agg)]
                place = list(dict.fromkeys(asked)).index(target)
                target = self.problem.aggregates[target.agg].target
        return place

    def tells(self, scope):
        """Whether the parts of this scope tell the wish's value of the whole. Those of a follower with a wish of its own don't:
        which part it takes isn't seen from the first scope's values."""
        return not self.wish or self.problem.kinds[scope] == "forall" or self.place(scope) in (0, None)

    # ---- What pieces come to.

    def settle(self, piece):
        """The kind and the value of a split piece by its parts; None where they don't tell it yet."""
        kinds = [child.kind for child in piece.children]
        if self.problem.kinds[piece.scope] == "exists":
            return self.chosen(piece, kinds)
        if "false" in kinds:
            return "false", None
        if self.outdoing(piece):
            return "bound", None
        return ("true", self.folded(piece)) if all(kind == "true" for kind in kinds) else None

    def chosen(self, piece, kinds):
        if not self.problem.lists[piece.scope + 1]:
            if "true" in kinds:  # any of them will do, and the wish's value, if there is one, was fixed before
                return "true", next(child.value for child in piece.children if child.kind == "true")
            return ("false", None) if all(kind == "false" for kind in kinds) else None
        if None in kinds:
            return None
        if "true" in kinds:
            return "true", self.picked(piece.scope, [child.value for child in piece.children if child.kind == "true"])
        return ("bound" if "bound" in kinds else "false"), None

    def picked(self, scope, values):
        """The wish's value where the owner of an existential scope takes what is best by the list after it."""
        if not self.wish or len(set(values)) == 1:
            return values[0]
        sense = self.problem.lists[scope + 1][0][0]
        return (min if sense == "minimize" else max)(values)

    def folded(self, piece):
        """The wish's value where all parts of a universal scope are won."""
        target = self.wish and self.target(piece.scope)
        if not isinstance(target, Agg) or self.problem.aggregates[target.agg].owner != piece.scope:
            return piece.children[0].value
        branches = [child.value for child in piece.children if self.has_branch(child, piece.scope)]
        fold = FOLDS[self.problem.aggregates[target.agg].fold]
        return fold(branches) if branches else piece.children[0].value

    def has_branch(self, piece, scope):
        """Whether the opponent has a move of this scope in the piece."""
        if piece.passed is None:
            if piece.children is not None:
                piece.passed = piece.scope > scope or any(self.has_branch(child, scope) for child in piece.children)
            else:
                piece.passed = passes(piece.file, scope)
        return piece.passed

    def outdoing(self, piece):
        """A part of a universal scope by which the choice before it comes to nothing better than the best value; None where
        there is none. The opponent's worst branch counts, so one is enough."""
        if self.best is None or not self.is_one_sided(piece.scope):
            return None
        return next((child for child in piece.children if self.is_outdone(child, piece.scope)), None)

    def is_outdone(self, child, scope):
        if child.kind == "true":
            return self.has_branch(child, scope) and not self.is_better(child.value, self.best)
        return child.kind == "bound"

    def end(self, piece, kind, value=None):
        """A piece has come to something; what the pieces above it come to by that."""
        while piece is not None and not piece.is_settled():
            piece.kind, piece.value, piece.state = kind, value, ENDED
            self.settled += 1
            piece.drop_parts()
            if piece.file:
                piece.children = None
            if kind == "true" and value is not None and self.is_free(piece.level):
                self.best = value if self.best is None else self.better_of((value, self.best))
            piece = piece.parent
            told = piece and self.settle(piece)
            if not told:
                return
            kind, value = told

    def needed(self, piece):
        """The parts of a settled piece whose cases have to stand; the others are left out."""
        children = piece.children
        if self.problem.kinds[piece.scope] == "exists":
            decides = piece.kind == "true" and not self.problem.lists[piece.scope + 1]
            return [next(child for child in children if child.kind == "true")] if decides else children
        if piece.kind == "false":
            return [next(child for child in children if child.kind == "false")]
        return [self.outdoing(piece)] if piece.kind == "bound" else children

    # ---- Bounds.

    def worse(self, piece, best):
        """The values of the wish that the piece has and that are no better than this one; None where it has none."""
        if best is None or not self.may_bound(piece):
            return None
        domain = piece.unbounded[self.wish[1].var]
        low, high = (best, domain.high) if self.wish[0] == "minimize" else (domain.low, best)
        return domain.within(low, high) or None

    def bind(self, piece, best):
        """Gives up what is no better than the best value. Whether that leaves nothing of the piece, which has then ended."""
        worse = self.worse(piece, best)
        if worse is None:
            if best is not None and self.may_reach(piece):
                piece.best = best
            return False
        piece.best, piece.bound = best, b"b %d %d %d\n" % (self.wish[1].var + 1, worse.low, worse.high)
        piece.box = removed(piece.unbounded, piece.bound)
        if piece.box[self.wish[1].var]:
            return False
        self.end(piece, "bound")
        return True

    def would_shrink(self, piece):
        """Whether the best value now takes more from the piece than when it was bound."""
        return piece.children is None and self.best != piece.best and self.worse(piece, self.best) is not None

    # ---- Results.

    def take(self, piece, path):
        """Takes a certificate of the piece. Whether it has told anything: it ends the piece or splits it."""
        word, value, _, reached = stated_of(path)
        if word == "open":
            return piece.children is None and self.split(piece, path)
        piece.file = path
        self.end(piece, "bound" if word == "false" and (piece.bound or reached is not None) else word, value)
        return True

    def split(self, piece, path):
        """Splits a piece where its open certificate branches first. False where that can't be."""
        with opened(path) as data:
            begin = Beginning(data, piece.box)
            x = begin.branch()
        if x is None or begin.is_bounded or begin.scope >= self.problem.goal or not self.tells(begin.scope):
            return False
        if not self.problem.has_text(begin.box):  # steps may stay away: a larger box is as right
            begin.box, begin.steps[-1] = begin.entered, []
            if not self.problem.has_text(begin.box):
                return False
        piece.scope, piece.branch, piece.steps, piece.opener = begin.scope, x, begin.steps, path
        parts = [(part, replaced(begin.box, x, part)) for part in begin.box[x].parts(self.fan)]
        piece.children = [Piece(piece, begin.scope, box, piece.path + (k,), part) for k, (part, box) in enumerate(parts)]
        self.splits += 1
        return True

    # ---- Where things are.

    def at(self, path):
        """The piece at a path; None where there is none any more."""
        piece = self.root
        for place in path:
            if piece.children is None or place >= len(piece.children):
                return None
            piece = piece.children[place]
        return piece

    def leaves(self):
        """The pieces without parts, in order."""
        todo = [self.root]
        while todo:
            piece = todo.pop()
            if piece.children is None:
                yield piece
            else:
                todo += reversed(piece.children)
