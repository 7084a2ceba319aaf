"""A model without a game: one scope of the player, who wishes what the model minimises or maximises."""
from .builtins import HOLDS
from .determined import holds
from .flatzinc import Call, annotation
from .lowering import lowered
from .output import Output
from .problem import Problem
from .solutions import added, groups_of
from .terms import C, Scope, Unsupported, V, covers

WIDEST_JOINED = 500
COMPARISONS = ("int_eq_reif", "int_ne_reif", "int_le_reif", "int_lt_reif", "set_in_reif")


class PlainProblem(Problem):
    """`target` is what is optimised, a V, a number or None. `left_out` has the variables that nothing looks at.

    Where all solutions are gone through, `groups` has the shown variables, and these are all kept.
    """

    def __init__(self, reader, bools_first=False, is_gone_through=False):
        super().__init__(reader)
        self.groups = groups_of(Output(reader).variables) if is_gone_through else []
        lower = []
        for c in reader.constraints:
            lowered(reader, c, lower)
        kept = [c for c in joined_counts(lower, self.shown()) if c.variables() or not holds(c, {})]
        order = self.order(kept, bools_first)
        used = {v for c in kept for v in c.variables()} | {v for group in self.groups for v in group}
        how, *wanted = reader.model.goal
        self.target = reader.resolve(wanted[0]) if wanted else None
        scope = Scope()
        if isinstance(self.target, V):
            used.add(self.target)
            scope.wish = (how, self.target)
        scope.variables = [v for v in order if v in used]
        scope.constraints = self.kept = kept
        self.scopes = [scope]
        self.left_out = [v for v in order if v not in used]
        self.name_words()

    def narrow(self, given, taken):
        """Asks for a solution with the given values of the first groups, and none of the taken values of the next one."""
        self.scopes[0].constraints = self.kept + added(self.groups, given, taken)

    def shown(self):
        """The variables that the model's output names."""
        model, reader = self.reader.model, self.reader
        found = [reader.vars[var.name] for var in model.variables.values() if annotation(var.annotations, "output_var")]
        for array in model.arrays.values():
            if annotation(array.annotations, "output_array"):
                found += [reader.resolve(it) for it in array.items]
        return {it for it in found if isinstance(it, V)}

    def order(self, constraints, bools_first):
        """What the search annotations name first, then the variables of the model, then new ones.

        Booleans may come before these: with those that say which of two jobs is first, a job shop of six machines takes some
        hundredths of a second, and with them last more than a minute; other models lose by it.
        """
        every = [v for v in self.reader.vars.values() if isinstance(v, V)]
        first = [v for v in every if bools_first and v.kind == "bool"]
        of_model = [v for v in every if not v.is_new]
        lower = [v for c in constraints for v in c.variables()]
        return list(dict.fromkeys(self.searched() + first + of_model + every + lower))

    def searched(self):
        """The variables in the order of the search annotations."""
        found = []

        def walk(it):
            if isinstance(it, list):
                for inner in it:
                    walk(inner)
            elif isinstance(it, Call) and it.name in ("int_search", "bool_search") and it.args:
                try:
                    items = self.reader.resolve(it.args[0])
                except Unsupported:
                    return  # an annotation binds nobody
                found.extend(x for x in (items if isinstance(items, list) else [items]) if isinstance(x, V))
            elif isinstance(it, Call):
                walk(it.args)

        walk(self.reader.model.goal_annotations)
        return found


def joined_counts(constraints, shown):
    """Where a Boolean only says whether x is so and is only counted, x and the number stand in one table, and the Boolean goes."""
    mentions = {}
    for c in constraints:
        for v in c.variables():
            mentions.setdefault(v, []).append(c)
    gone, made = set(), {}
    for b, pair in mentions.items():
        if b.kind == "bool" and b.is_new and len(pair) == 2 and b not in shown:
            table = table_of(b, pair)
            if table:
                said, told, joined = table
                gone.add(told)
                made[said] = joined
    return [made.get(c, c) for c in constraints if c not in gone]


def table_of(b, pair):
    """The constraint that says b, the one that counts it, and the table of both; None where they aren't such."""
    said = next((c for c in pair if c.name in COMPARISONS and c.args[-1] is b), None)
    told = next((c for c in pair if c.name == "bool2int" and c.args[0] is b and isinstance(c.args[1], V)), None)
    if not said or not told or len(said.variables()) != 2:
        return None
    x, number = next(v for v in said.variables() if v is not b), told.args[1]
    if x is number or x.kind != "int" or len(x.domain) > WIDEST_JOINED or not covers(number.domain, 0, 1):
        return None
    test = C(said.name[:-5], said.args[:-1])
    rows = [it for value in x.domain for it in (value, int(holds(test, {x: value})))]
    return said, told, C("table_int", [[x, number], rows])


def broken(problem, value):
    """The first constraint that an assignment breaks, of the text or of the model as it was flattened; None where there is none."""
    for c in problem.constraints() + problem.reader.constraints:
        if c.name in HOLDS and not holds(c, value):
            return c
    return None


def complete(problem, value):
    """Values for what the text leaves out: Booleans that were joined into a table, and variables that nothing looks at."""
    for c in problem.reader.constraints:
        if c.name in COMPARISONS and isinstance(c.args[-1], V) and c.args[-1] not in value:
            if all(v in value for v in c.variables() if v is not c.args[-1]):
                b = c.args[-1]
                value[b] = int(holds(C(c.name[:-5], c.args[:-1]), value))
    for v in problem.left_out:
        value.setdefault(v, v.low)
