"""Random expressions of MiniZinc, each with a Python function that evaluates it.

An expression is a pair (text, function of an environment). Where something is undefined, as a quotient by 0, the innermost
Boolean expression around it is false (MiniZinc's relational semantics).
"""


class Undefined(Exception):
    pass


def div(a, b):
    if b == 0:
        raise Undefined
    q = abs(a) // abs(b)
    return q if (a < 0) == (b < 0) else -q


def mod(a, b):
    return a - b * div(a, b)


def power(a, b):
    return a**b if b >= 0 else div(1, a**-b)


def item(xs, i):
    if not 1 <= i <= len(xs):
        raise Undefined
    return xs[i - 1]


def relational(function):
    def is_so(env):
        try:
            return function(env)
        except Undefined:
            return False

    return is_so


def listed(expressions):
    return "[" + ",".join(it[0] for it in expressions) + "]"


def values(expressions, env):
    return [it[1](env) for it in expressions]


def written_set(members):
    return "{" + ",".join(map(str, sorted(members))) + "}"


def is_circuit(xs):
    at, met = 1, []
    for _ in xs:
        met.append(at)
        if not 1 <= at <= len(xs):
            return False
        at = xs[at - 1]
    return at == 1 and len(set(met)) == len(xs)


def is_inverse(fs, gs):
    spots = range(1, len(fs) + 1)
    if any(x not in spots for x in fs + gs):
        return False
    return all(gs[fs[i - 1] - 1] == i for i in spots) and all(fs[gs[i - 1] - 1] == i for i in spots)


def is_accepted(xs, table, final):
    state = 1
    for x in xs:
        if not 1 <= x <= len(table[0]):
            return False
        state = table[state - 1][x - 1]
        if state == 0:
            return False
    return state in final


def fits_room(starts, lengths, needs, room):
    hours = range(min(starts), max(s + d for s, d in zip(starts, lengths)))
    return all(sum(r for s, d, r in zip(starts, lengths, needs) if s <= t < s + d) <= room for t in hours)


# The globals that expressions name; each has a file of its own.
GLOBALS = frozenset(
    "alldifferent table count all_equal increasing strictly_increasing decreasing lex_less lex_lesseq member among at_most "
    "at_least exactly nvalue minimum maximum alldifferent_except_0 global_cardinality sliding_sum disjunctive cumulative "
    "regular circuit inverse".split()
)
COMPARISONS = {
    "=": lambda x, y: x == y,
    "!=": lambda x, y: x != y,
    "<=": lambda x, y: x <= y,
    "<": lambda x, y: x < y,
    ">=": lambda x, y: x >= y,
    ">": lambda x, y: x > y,
}
CONNECTIVES = {
    "/\\": lambda x, y: x and y,
    "\\/": lambda x, y: x or y,
    "->": lambda x, y: not x or y,
    "<->": lambda x, y: x == y,
    "xor": lambda x, y: x != y,
}
ARITHMETIC = {"+": lambda x, y: x + y, "-": lambda x, y: x - y, "*": lambda x, y: x * y, "div": div, "mod": mod}
SET_OPERATIONS = {
    "union": lambda s, t: s | t,
    "intersect": lambda s, t: s & t,
    "diff": lambda s, t: s - t,
    "symdiff": lambda s, t: s ^ t,
}
SET_COMPARISONS = {
    "=": lambda s, t: s == t,
    "!=": lambda s, t: s != t,
    "subset": lambda s, t: s <= t,
    "superset": lambda s, t: s >= t,
}
INTEGERS = "var var const arithmetic arithmetic arithmetic abs extreme element of_vars if bool2int sum max3 pow card deopt".split()
BOOLEANS = (
    "compare compare compare connective connective not in alldifferent table var count if forall exists xorall "
    "global global set_compare set_in occurs opt_compare".split()
)


class Maker:
    """Makes expressions over variables of each kind."""

    def __init__(self, pick, ints=(), bools=(), sets=(), opts=(), opt_bools=()):
        self.pick, self.ints, self.bools, self.sets = pick, list(ints), list(bools), list(sets)
        self.opts, self.opt_bools = list(opts), list(opt_bools)

    def three(self, depth):
        return [self.integer(depth) for _ in range(3)]

    # ---- Integers.

    def integer(self, depth):
        kind = self.pick.choice(INTEGERS if depth else ["var", "var", "const"])
        if kind == "var" and not self.ints or kind == "card" and not self.sets or kind == "deopt" and not self.opts:
            kind = "const"
        return getattr(self, "integer_" + kind)(depth)

    def integer_var(self, _):
        name = self.pick.choice(self.ints)
        return name, lambda env: env[name]

    def integer_const(self, _):
        k = self.pick.randint(-2, 4)
        return (str(k) if k >= 0 else f"({k})"), lambda env: k

    def integer_arithmetic(self, depth):
        a, b = self.integer(depth - 1), self.integer(depth - 1)
        sign = self.pick.choice(list(ARITHMETIC))
        return f"({a[0]} {sign} {b[0]})", lambda env: ARITHMETIC[sign](a[1](env), b[1](env))

    def integer_abs(self, depth):
        a = self.integer(depth - 1)
        return f"abs({a[0]})", lambda env: abs(a[1](env))

    def integer_extreme(self, depth):
        a, b = self.integer(depth - 1), self.integer(depth - 1)
        name, function = self.pick.choice([("min", min), ("max", max)])
        return f"{name}({a[0]},{b[0]})", lambda env: function(a[1](env), b[1](env))

    def integer_max3(self, depth):
        xs = self.three(depth - 1)
        return f"max({listed(xs)})", lambda env: max(values(xs, env))

    def integer_sum(self, depth):
        xs = self.three(depth - 1)
        return f"sum({listed(xs)})", lambda env: sum(values(xs, env))

    def integer_element(self, depth):
        xs, i = [self.pick.randint(-1, 4) for _ in range(3)], self.integer(depth - 1)
        return f"[{','.join(map(str, xs))}][{i[0]}]", lambda env: item(xs, i[1](env))

    def integer_of_vars(self, depth):
        xs, i = self.three(depth - 1), self.integer(depth - 1)
        return f"{listed(xs)}[{i[0]}]", lambda env: item(values(xs, env), i[1](env))

    def integer_if(self, depth):
        c, a, b = self.boolean(depth - 1), self.integer(depth - 1), self.integer(depth - 1)
        return f"(if {c[0]} then {a[0]} else {b[0]} endif)", lambda env: a[1](env) if c[1](env) else b[1](env)

    def integer_pow(self, _):
        a = self.integer(0)
        if self.pick.random() < 0.5:
            b = self.integer(0)
            return f"pow({a[0]},{b[0]})", lambda env: power(a[1](env), b[1](env))
        k = self.pick.randint(0, 3)
        return f"pow({a[0]},{k})", lambda env: a[1](env) ** k

    def integer_bool2int(self, depth):
        c = self.boolean(depth - 1)
        return f"bool2int({c[0]})", lambda env: int(c[1](env))

    def integer_card(self, _):
        s = self.set()
        return f"card({s[0]})", lambda env: len(s[1](env))

    def integer_deopt(self, _):
        """The value of an absent one isn't asked for: MiniZinc leaves open what it is."""
        name, k = self.pick.choice(self.opts), self.pick.randint(0, 3)
        text = f"(if occurs({name}) then deopt({name}) else {k} endif)"
        return text, lambda env: k if env[name] is None else env[name]

    # ---- Sets.

    def set(self):
        a = self.set_item()
        if self.pick.random() < 0.5:
            return a
        b, sign = self.set_item(), self.pick.choice(list(SET_OPERATIONS))
        return f"({a[0]} {sign} {b[0]})", lambda env: SET_OPERATIONS[sign](a[1](env), b[1](env))

    def set_item(self):
        if self.pick.random() < 0.25:
            members = frozenset(self.pick.randint(0, 4) for _ in range(2))
            return written_set(members), lambda env: members
        name = self.pick.choice(self.sets)
        return name, lambda env: env[name]

    # ---- Booleans.

    def boolean(self, depth):
        kind = self.pick.choice(BOOLEANS) if depth else "compare"
        optional = self.opts + self.opt_bools
        lacks = {"var": self.bools, "set_compare": self.sets, "set_in": self.sets, "occurs": optional, "opt_compare": optional}
        if not lacks.get(kind, True):
            kind = "compare"
        return getattr(self, "boolean_" + kind)(depth)

    def boolean_compare(self, depth):
        a, b = self.integer(max(0, depth - 1)), self.integer(max(0, depth - 1))
        sign = self.pick.choice(list(COMPARISONS))
        return f"({a[0]} {sign} {b[0]})", relational(lambda env: COMPARISONS[sign](a[1](env), b[1](env)))

    def boolean_var(self, _):
        name = self.pick.choice(self.bools)
        return name, lambda env: bool(env[name])

    def boolean_not(self, depth):
        a = self.boolean(depth - 1)
        return f"(not {a[0]})", lambda env: not a[1](env)

    def boolean_connective(self, depth):
        a, b = self.boolean(depth - 1), self.boolean(depth - 1)
        sign = self.pick.choice(list(CONNECTIVES))
        return f"({a[0]} {sign} {b[0]})", lambda env: CONNECTIVES[sign](a[1](env), b[1](env))

    def boolean_if(self, depth):
        c, a, b = self.boolean(depth - 1), self.boolean(depth - 1), self.boolean(depth - 1)
        return f"(if {c[0]} then {a[0]} else {b[0]} endif)", lambda env: a[1](env) if c[1](env) else b[1](env)

    def boolean_xorall(self, depth):
        xs = [self.boolean(depth - 1) for _ in range(3)]
        return f"xorall({listed(xs)})", lambda env: sum(values(xs, env)) % 2 == 1

    def boolean_forall(self, depth):
        xs = [self.boolean(depth - 1) for _ in range(3)]
        return f"forall({listed(xs)})", lambda env: all(values(xs, env))

    def boolean_exists(self, depth):
        xs = [self.boolean(depth - 1) for _ in range(3)]
        return f"exists({listed(xs)})", lambda env: any(values(xs, env))

    def boolean_in(self, depth):
        a, members = self.integer(depth - 1), {self.pick.randint(-1, 4) for _ in range(3)}
        return f"({a[0]} in {written_set(members)})", relational(lambda env: a[1](env) in members)

    def boolean_alldifferent(self, depth):
        xs = self.three(depth - 1)
        return f"alldifferent({listed(xs)})", relational(lambda env: len(set(values(xs, env))) == 3)

    def boolean_count(self, _):
        xs, y, k = self.three(0), self.pick.randint(0, 2), self.pick.randint(0, 3)
        return f"(count({listed(xs)},{y}) <= {k})", relational(lambda env: values(xs, env).count(y) <= k)

    def boolean_table(self, _):
        xs = [self.integer(0) for _ in range(2)]
        rows = [[self.pick.randint(0, 3), self.pick.randint(0, 3)] for _ in range(self.pick.randint(1, 5))]
        text = "[|" + "|".join(",".join(map(str, row)) for row in rows) + "|]"
        return f"table({listed(xs)},{text})", relational(lambda env: values(xs, env) in rows)

    def boolean_set_compare(self, _):
        a, b, sign = self.set(), self.set(), self.pick.choice(list(SET_COMPARISONS))
        return f"({a[0]} {sign} {b[0]})", lambda env: SET_COMPARISONS[sign](a[1](env), b[1](env))

    def boolean_set_in(self, depth):
        a, s = self.integer(depth - 1), self.set()
        return f"({a[0]} in {s[0]})", relational(lambda env: a[1](env) in s[1](env))

    def boolean_occurs(self, _):
        name = self.pick.choice(self.opts + self.opt_bools)
        return f"occurs({name})", lambda env: env[name] is not None

    def boolean_opt_compare(self, depth):
        """An absent value satisfies no comparison here: it is asked for besides, since MiniZinc's own rule is another."""
        name, a = self.pick.choice(self.opts + self.opt_bools), self.integer(depth - 1)
        if name in self.opt_bools:
            return f"(occurs({name}) /\\ deopt({name}))", lambda env: bool(env[name])
        sign = self.pick.choice(list(COMPARISONS))
        text = f"(occurs({name}) /\\ (deopt({name}) {sign} {a[0]}))"
        return text, relational(lambda env: env[name] is not None and COMPARISONS[sign](env[name], a[1](env)))

    def boolean_global(self, _):
        """A constraint of the globals library; inside of other expressions it is reified."""
        xs, ys, k = self.three(0), self.three(0), self.pick.randint(0, 3)
        a, b = listed(xs), listed(ys)
        choices = [
            (f"all_equal({a})", lambda v, w: len(set(v)) == 1),
            (f"increasing({a})", lambda v, w: v == sorted(v)),
            (f"strictly_increasing({a})", lambda v, w: v[0] < v[1] < v[2]),
            (f"decreasing({a})", lambda v, w: v == sorted(v, reverse=True)),
            (f"lex_less({a},{b})", lambda v, w: v < w),
            (f"lex_lesseq({a},{b})", lambda v, w: v <= w),
            (f"member({a},{k})", lambda v, w: k in v),
            (f"among({k},{a},{{1,3}})", lambda v, w: sum(x in (1, 3) for x in v) == k),
            (f"at_most({k},{a},1)", lambda v, w: v.count(1) <= k),
            (f"at_least({k},{a},1)", lambda v, w: v.count(1) >= k),
            (f"exactly({k},{a},1)", lambda v, w: v.count(1) == k),
            (f"nvalue({k},{a})", lambda v, w: len(set(v)) == k),
            (f"minimum({ys[0][0]},{a})", lambda v, w: w[0] == min(v)),
            (f"maximum({ys[0][0]},{a})", lambda v, w: w[0] == max(v)),
            (f"alldifferent_except_0({a})", lambda v, w: len({x for x in v if x}) == sum(x != 0 for x in v)),
            (f"global_cardinality({a},[0,1],[{ys[0][0]},{k}])", lambda v, w: v.count(0) == w[0] and v.count(1) == k),
            (f"sliding_sum(1,{k + 1},2,{a})", lambda v, w: all(1 <= v[i] + v[i + 1] <= k + 1 for i in (0, 1))),
            (f"disjunctive({listed(xs[:2])},[2,1])", lambda v, w: v[0] + 2 <= v[1] or v[1] + 1 <= v[0]),
            (f"cumulative({a},[2,1,2],[1,2,1],2)", lambda v, w: fits_room(v, [2, 1, 2], [1, 2, 1], 2)),
            (f"regular({a},2,3,[|1,2,0|2,0,1|],1,{{2}})", lambda v, w: is_accepted(v, [[1, 2, 0], [2, 0, 1]], [2])),
            (f"circuit({a})", lambda v, w: is_circuit(v)),
            (f"inverse({a},{b})", is_inverse),
        ]
        text, function = self.pick.choice(choices)
        return text, lambda env: function(values(xs, env), values(ys, env))
