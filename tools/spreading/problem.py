"""A problem's text, and the same text with some variables kept to fewer values.

The numbers of scopes, variables, aggregates and constraints don't change with it. A Boolean variable that is kept to one
value can't be declared so: it becomes an integer variable of one value, and where it is used stands `true` or `false`.
"""
from bisect import bisect_left

from oracle import reader
from oracle.certificates import Rules
from oracle.games import Agg, Aggregate, Var
from spreading.domains import Domain

LONGEST_TEXT = 4_194_304


class Problem:
    """What the pieces have to know of a problem; everything is counted from 0, as in oracle.games. `lists` has what is asked of
    each scope and of the goal, the nearest wish first."""

    def __init__(self, data):
        self.data = data
        self.tokens = reader.cut(data)
        items = reader.Parser(self.tokens).problem()
        reader.Checker(self.tokens, items).check()
        of = lambda *kinds: [item for item in items if item.what in kinds]
        heads, variables, aggregates = of("exists", "forall"), of("var"), of("aggregate")
        meant = {item.name.value: Var(k) for k, item in enumerate(variables)}
        meant |= {item.name.value: Agg(k) for k, item in enumerate(aggregates)}
        self.kinds = [head.what for head in heads]
        self.goal = len(heads)
        self.conditions = [head.condition and (head.condition[0], meant[head.condition[1].value]) for head in heads]
        self.aggregates = [Aggregate(q.owner, q.fold[0], q.fold[1], meant[q.target.value]) for q in aggregates]
        self.owners = [item.owner for item in variables]
        self.constraint_owners = [item.owner for item in of("constraint")]
        self.names = [item.name.value for item in variables]
        self.domains = tuple(map(self.domain_of, variables))
        self.rules = Rules(self)
        self.lists = self.rules.lists
        self.note_places(variables, of("constraint"))

    @staticmethod
    def domain_of(item):
        kind, _, numbers = item.domain
        if kind == "bool":
            return Domain([(0, 1)])
        return Domain([tuple(n.value for n in numbers)]) if kind == "range" else Domain.of(n.value for n in numbers)

    def note_places(self, variables, constraints):
        """Where each domain stands in the text, and where Boolean variables are used."""
        starts = [token.at for token in self.tokens]
        self.places, self.uses = [], {}
        for item in variables:
            k = bisect_left(starts, item.domain[1])
            while self.tokens[k].value != ":":
                k += 1
            self.places.append((item.domain[1], self.tokens[k].at))
        bools = {item.name.value: x for x, item in enumerate(variables) if item.domain[0] == "bool"}
        self.are_bools = set(bools.values())
        for item in constraints:
            for token in reader.Checker.uses(item):
                if token.value in bools:
                    self.uses.setdefault(bools[token.value], []).append((token.at, token.at + len(token.value)))
        self.most_added = sum(len("false") * len(uses) for uses in self.uses.values())

    @property
    def wish(self):
        """The first scope's sense and target, where it has a wish."""
        return self.conditions[0] if self.conditions else None

    def reach(self, scope):
        """The last scope, or the goal, whose constraints are in force at this one."""
        if self.kinds[scope] == "forall":
            return scope
        end = self.rules.block_end(scope)
        return end + (end + 1 == self.goal)

    def has_text(self, box):
        """Whether the text of a box can be read: no list between braces is too long, and the whole isn't."""
        changed = [domain for domain, declared in zip(box, self.domains) if domain != declared]
        if not all(domain.has_text() for domain in changed):
            return False
        lists = sum(len(domain.text()) for domain in changed if len(domain.spans) > 1)
        return len(self.data) + 30 * len(changed) + lists + self.most_added <= LONGEST_TEXT

    def narrowed(self, box):
        """The text with each variable kept to its values of the box."""
        changes = []
        for x, (domain, declared) in enumerate(zip(box, self.domains)):
            if domain == declared:
                continue
            changes.append((*self.places[x], domain.text()))
            if x in self.are_bools:
                changes += [(first, end, "true" if domain.low else "false") for first, end in self.uses.get(x, ())]
        parts, at = [], 0
        for first, end, text in sorted(changes):
            parts += [self.data[at:first], text.encode()]
            at = end
        return b"".join(parts) + self.data[at:]
