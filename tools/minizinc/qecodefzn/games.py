"""A game: the scopes, rules, goal and wishes that the model names (`mznlib/qecode.mzn`).

Every constraint of the model stands in a rule or the goal. Flattening writes it under a Boolean that isn't known to be true,
and adds variables with constraints at the top level. Those are definitions, or else they would bind a choice of somebody: so
each new variable is accepted only where it has exactly one value, within its domain, whatever is chosen. All else is refused.

Where a new variable stands. Its value follows from choices up to some scope, the latest on which it rests. In that scope, or in
any later one, whoever owns the scope has exactly one value for it, after each choice: so every scope keeps its allowed
tuples, one for one, and each end of play its values. It has to stand no later than what looks at it: a rule in the scope of
that rule, a wish before the next scope of the opponent. Among these places any is right. A definition that only the player's
side looks at is put into a scope of the player, since a scope of the opponent is gone through whole.
"""
from dataclasses import dataclass
from functools import partial
from itertools import combinations

from .asserting import assert_is
from .determined import Definitions, Determiner, find_cluster, follow_on, holds
from .flatzinc import Range, annotation, call_of, place_of
from .lowering import WHOLE, fresh_bool, lowered
from .output import Output
from .problem import Problem
from .reading import CHOSEN
from .terms import Aggregate, C, Scope, Unsupported, V

OPTIONAL = ("qc_chosen_opt_int", "qc_chosen_opt_bool")
WORDS = CHOSEN + ("qc_rule", "qc_goal", "qc_scope", "qc_wish", "qc_fold_wish")
KINDS = ("forall", "exists")
SENSES = ("minimize", "maximize")
FOLDS = ("sum", "least", "greatest")
CANARY = "qc_canary"


def is_game(reader):
    return any(c.name in WORDS for c in reader.constraints)


@dataclass
class Option:
    """What a scope chooses of an optional variable: whether it is there, and its value, which is that one where it is absent."""

    scope: int
    is_there: V
    x: V
    absent: int

    def is_kept(self, value):
        """Whether the values, which may lack either, can be chosen."""
        return value.get(self.is_there, True) or value.get(self.x, self.absent) == self.absent


class GameProblem(Problem):
    """`chosen` has the variables that somebody chooses, `definitions` what determines the others."""

    is_game = True

    def __init__(self, reader, late=True):
        super().__init__(reader)
        if reader.model.goal[0] != "satisfy":
            raise Unsupported("a game ends with `solve satisfy`; what an owner wants stands in wish_min(..) or wish_max(..)")
        self.latest_of, self.options = {}, []
        self.words = [c for c in reader.constraints if c.name in WORDS]
        self.read_scopes()
        self.chosen = self.read_chosen()
        bare = self.bare_constraints()
        self.definitions, self.known = self.define(bare)
        self.refuse_free(bare)
        self.refuse_bare(bare)
        self.rules = self.read_rules()
        self.read_wishes()
        needed = self.needed()
        self.place(needed, late)
        self.name_words()

    # ---- Scopes and who chooses what.

    def read_scopes(self):
        """Scopes are numbered from 1 in the text, in the order of their numbers in the model; `number_of` tells which is which."""
        kinds = {}
        for c in self.words:
            if c.name in CHOSEN or c.name == "qc_scope":
                number, kind = c.args[0], KINDS[c.args[1]]
                if kinds.setdefault(number, kind) != kind:
                    raise Unsupported(f"scope {number} has two kinds{place_of(c.annotations)}")
        self.number_of = {number: at for at, number in enumerate(sorted(kinds), 1)}
        self.scopes = [Scope(kinds[number]) for number in sorted(kinds)] or [Scope()]

    def place_in_order(self, number, c, what):
        if number not in self.number_of:
            raise Unsupported(f"{what} scope {number}, which isn't there{place_of(c.annotations)}")
        return self.number_of[number]

    def read_chosen(self):
        for c in self.words:
            if c.name in OPTIONAL:
                self.choose_optional(c)
            elif c.name in CHOSEN:
                for v in c.args[2]:
                    self.choose(v, c)
        return list(dict.fromkeys(v for v in self.reader.vars.values() if isinstance(v, V) and v.scope))

    def choose(self, v, c):
        number, place = c.args[0], place_of(c.annotations)
        if not isinstance(v, V):
            raise Unsupported(f"a variable of scope {number} was fixed to {v} outside of all rules, or is no variable{place}")
        if v.scope:
            raise Unsupported(f"{v.name} is chosen twice, or was made equal to another one outside of all rules{place}")
        if v.is_new and annotation(v.annotations, "is_defined_var"):
            raise Unsupported(f"{v.name}, which is chosen in scope {number}, is the value of an expression{place}")
        v.scope, v.is_new = self.number_of[number], False

    def choose_optional(self, c):
        number, _, is_there, x, *absent = c.args
        self.choose(is_there, c)
        self.choose(x, c)
        self.options.append(Option(self.number_of[number], is_there, x, absent[0] if absent else False))

    # ---- What follows from what.

    def bare_constraints(self):
        """What stands outside of rules and goals, lowered; the canary, which tells that domains are as written, is taken out."""
        bare, is_as_written = [], False
        for c in self.reader.constraints:
            if c.name in WORDS:
                continue
            if any(v.name == CANARY for v in c.variables()):
                is_as_written = True
            elif c.name in WHOLE:
                bare.append(c)
            else:
                parts = []
                lowered(self.reader, c, parts)
                for part in parts:
                    part.annotations = c.annotations
                bare += parts
        if not is_as_written:
            raise Unsupported(
                "a game has to be flattened with -g, as `qecode-mzn` does, for else its domains aren't those that were written"
            )
        return bare

    def define(self, bare):
        """Takes from the bare constraints those that define something."""
        definitions, determiner, known = Definitions(self.chosen), Determiner(), set(self.chosen)
        while True:
            for v, c in follow_on(determiner, known, bare):
                definitions.put(v, c)
            cluster = find_cluster(determiner, definitions, known, bare)
            if cluster is None:
                return definitions, known
            known.add(cluster.result)
            definitions.put(cluster.result, cluster)
            bare[:] = [c for c in bare if c not in cluster.checks]

    def refuse_free(self, bare):
        met = [v for c in bare + self.words for v in c.variables()] + Output(self.reader).variables
        free = [v for v in dict.fromkeys(met) if v not in self.known and v.name != CANARY]
        if free:
            free = [v for v in free if not v.is_new] or free  # new ones often follow from those of the model
            told = ", ".join(v.name + (call_of(v.annotations) if v.is_new else "") + place_of(v.annotations) for v in free[:5])
            more = f" and {len(free) - 5} more" if len(free) > 5 else ""
            raise Unsupported(f"nobody chooses these variables, and nothing determines them: {told}{more}")

    def refuse_bare(self, bare):
        """A constraint outside of all rules that isn't a definition has to hold anyhow."""
        for c in bare:
            if not is_plainly_true(c) and not self.definitions.always(c.variables(), partial(self.holds_anyhow, c)):
                raise Unsupported(
                    f"a constraint outside of all rules: {c}{place_of(c.annotations)}; write it in a rule(..) or goal(..)"
                )

    def holds_anyhow(self, c, value):
        """Whether c holds, or these are no values that scopes may choose, since what is absent has another one."""
        return holds(c, value) or not all(it.is_kept(value) for it in self.options)

    def latest(self, v):
        """The latest scope on which the value of v rests."""
        if v.scope:
            return v.scope
        if v not in self.latest_of:
            self.latest_of[v] = max((x.scope for x in self.definitions.base([v])[0]), default=1)
        return self.latest_of[v]

    # ---- Rules, the goal, wishes.

    def read_rules(self):
        """What each scope's owner keeps to, by the scope's place; what the player has to reach stands behind the last scope."""
        rules = {at: [] for at in range(1, len(self.scopes) + 2)}
        for it in self.options:
            rules[it.scope].append(self.rule_of(it))
        for c in self.words:
            if c.name == "qc_goal":
                assert_is(c.args[0], True, self.definitions, rules[len(self.scopes) + 1])
            elif c.name == "qc_rule":
                at = self.place_in_order(c.args[0], c, "a rule for")
                said = []
                assert_is(c.args[1], True, self.definitions, said)
                for v in dict.fromkeys(v for part in said for v in part.variables()):
                    if self.latest(v) > at:
                        later = [x.name for x in self.definitions.base([v])[0] if x.scope > at]
                        raise Unsupported(
                            f"a rule of scope {c.args[0]} sees {later[0]}, which is chosen later{place_of(c.annotations)}"
                        )
                rules[at] += said
        return rules

    def rule_of(self, option):
        """What is absent has one value."""
        if option.x.kind == "bool":
            return C("bool_clause", [[option.is_there], [option.x]])
        is_absent = fresh_bool(self.reader)
        self.definitions.put(is_absent, C("int_eq_reif", [option.x, option.absent, is_absent]))
        return C("bool_clause", [[option.is_there, is_absent], []])

    def read_wishes(self):
        folded = {}
        for c in self.words:
            if c.name == "qc_wish":
                at = self.wishing(c)
                of = self.as_variable(c.args[2], at)
                self.refuse_unseen(of, at, c)
                self.scopes[at - 1].wish = (SENSES[c.args[1]], of)
            elif c.name == "qc_fold_wish":
                at = self.wishing(c)
                self.scopes[at - 1].wish = (SENSES[c.args[1]], self.aggregate(c, at))
                folded[at] = c
        self.refuse_after_least(folded)

    def refuse_after_least(self, folded):
        """Wishes over one scope of the opponent count from the nearest on, and behind a least or a greatest comes no other."""
        for near, far in combinations(sorted(folded, reverse=True), 2):
            one, other = self.scopes[near - 1].wish[1], self.scopes[far - 1].wish[1]
            if one.fold != "sum" and one is not other and self.next_forall(near) == self.next_forall(far):
                number, over = folded[near].args[0], folded[near].args[3]
                raise Unsupported(
                    f"a wish of scope {folded[far].args[0]} over scope {over}, of which scope {number}, a nearer one, wishes the "
                    f"{one.fold} already: after that no other figure can be wished{place_of(folded[far].annotations)}"
                )

    def wishing(self, c):
        at = self.place_in_order(c.args[0], c, "a wish of")
        if self.scopes[at - 1].kind == "forall":
            place = place_of(c.annotations)
            raise Unsupported(f"a wish of scope {c.args[0]}, which is the opponent's; the player alone has some{place}")
        if self.scopes[at - 1].wish:
            raise Unsupported(f"scope {c.args[0]} has two wishes{place_of(c.annotations)}")
        return at

    def aggregate(self, c, at):
        _, _, fold, number, of, otherwise = c.args
        over = self.place_in_order(number, c, "a wish over")
        if over != self.next_forall(at):
            raise Unsupported(
                f"a wish of scope {c.args[0]} over scope {number}, which isn't the opponent's next one{place_of(c.annotations)}"
            )
        of = self.as_variable(of, over)
        self.refuse_unseen(of, over, c)
        aggregates = self.scopes[over - 1].aggregates
        for it in aggregates:
            if (it.fold, it.of, it.otherwise) == (FOLDS[fold], of, otherwise):
                return it
        aggregates.append(Aggregate(f"fold_{over}_{len(aggregates) + 1}", FOLDS[fold], of, otherwise))
        return aggregates[-1]

    def next_forall(self, at):
        """The opponent's next scope after this one; one behind the last scope where there is none."""
        later = range(at + 1, len(self.scopes) + 1)
        return next((k for k in later if self.scopes[k - 1].kind == "forall"), len(self.scopes) + 1)

    def refuse_unseen(self, of, at, c):
        if self.latest(of) >= self.next_forall(at):
            raise Unsupported(f"a wish sees only what is chosen before the opponent's next scope{place_of(c.annotations)}")

    def as_variable(self, it, at):
        """A wish names a variable; a number gets one, in the scope from which it is seen."""
        if isinstance(it, V):
            return it
        v = self.reader.fresh("int", Range(int(it), int(it)))
        v.scope = at
        self.chosen.append(v)
        self.definitions.chosen.add(v)
        return v

    # ---- What is kept, and where it stands.

    def needed(self):
        """The new variables that something looks at."""
        todo = [v for part in self.rules.values() for c in part for v in c.variables()]
        todo += [scope.wish[1] for scope in self.scopes if scope.wish and isinstance(scope.wish[1], V)]
        todo += [it.of for scope in self.scopes for it in scope.aggregates]
        found = set()
        while todo:
            v = todo.pop()
            if v in found or v in self.definitions.chosen:
                continue
            found.add(v)
            definition = self.definitions.of[v]
            if isinstance(definition, C) and definition.name in WHOLE:
                parts = []
                lowered(self.reader, definition, parts)
                self.definitions.write_out(v, parts)
            todo += [x for c in self.written(v) for x in c.variables()]
        return [v for v in self.definitions.order if v in found]

    def written(self, v):
        """The constraints that define v in the text."""
        definition = self.definitions.of[v]
        return [definition] if isinstance(definition, C) else definition.checks

    def place(self, needed, late):
        last = len(self.scopes)
        scope_of = {v: v.scope for v in self.chosen}
        scope_of.update({v: self.latest(v) for v in needed})
        if late:
            scope_of.update(self.later_places(needed, scope_of))
            if any(at > last for at in scope_of.values()):
                self.scopes.append(Scope())
        for v in [*self.chosen, *needed]:
            self.scopes[scope_of[v] - 1].variables.append(v)
        for c in dict.fromkeys(c for v in needed for c in self.written(v)):
            self.scopes[max(scope_of[v] for v in c.variables()) - 1].constraints.append(c)
        for at in range(1, last + 1):
            self.scopes[at - 1].constraints += self.rules[at]
        self.goal = self.rules[last + 1]

    def later_places(self, needed, earliest):
        """Moves what the opponent's scopes don't look at to the player's next scope; a new one, behind the last, counts as one."""
        behind = len(self.scopes) + 1
        limit = {}

        def ask(v, at):
            limit[v] = min(limit.get(v, behind), at)

        for at, part in self.rules.items():
            for c in part:
                for v in c.variables():
                    ask(v, at)
        for at, scope in enumerate(self.scopes, 1):
            wished = [it.of for it in scope.aggregates]
            if scope.wish and isinstance(scope.wish[1], V):
                wished.append(scope.wish[1])
            for v in wished:
                ask(v, self.last_in_sight(at))
        for v in needed:
            if not isinstance(self.definitions.of[v], C):
                # All that its checks look at stays with it, so that it has one value as soon as it is chosen.
                for c in self.written(v):
                    for x in c.variables():
                        ask(x, earliest[v])
        found = {}
        for v in reversed(needed):
            found[v] = self.spot(earliest[v], limit.get(v, behind))
            if isinstance(self.definitions.of[v], C):
                for x in self.definitions.of[v].variables():
                    ask(x, found[v])
        return found

    def last_in_sight(self, at):
        """The last place that a wish or a fold of that scope sees. Without a later scope of the opponent it sees all."""
        following = self.next_forall(at)
        return following - 1 if following <= len(self.scopes) else following

    def spot(self, earliest, limit):
        kinds = [scope.kind for scope in self.scopes] + ["exists"]
        return next((at for at in range(earliest, limit + 1) if kinds[at - 1] == "exists"), earliest)

    # ---- After the play.

    def complete(self, value, shown):
        """Values for what the text leaves out, as far as they follow."""
        for v in shown:
            if v not in value:
                self.definitions.complete(value, [v])


def is_plainly_true(c):
    """Ends that the domains keep to anyhow."""
    if c.name == "int_le":
        a, b = c.args
        return (a.high if isinstance(a, V) else a) <= (b.low if isinstance(b, V) else b)
    if c.name == "set_in" and isinstance(c.args[0], V):
        return all(value in c.args[1] for value in c.args[0].domain)
    return False
