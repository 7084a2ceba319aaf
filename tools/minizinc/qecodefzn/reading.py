"""The variables and constraints of a FlatZinc model, with names resolved.

Unbounded integers get the bounds that the constraint which defines them gives, or, where the caller asks for it, assumed ones.
"""
from .builtins import RESULTS
from .flatzinc import Call, Name, Range, annotation, place_of
from .terms import C, Unsupported, V, high_of, is_within, low_of

# What the library declares for predicates that the problem text has.
NATIVE = {
    "qecode_all_different_int": "all_different_int",
    "qecode_all_different_int_reif": "all_different_int_reif",
    "qecode_table_int": "table_int",
    "qecode_table_int_reif": "table_int_reif",
    "qecode_int_ne_reif": "int_ne_reif",
}
CHOSEN = ("qc_chosen_int", "qc_chosen_bool", "qc_chosen_opt_int", "qc_chosen_opt_bool")


class Reader:
    """`vars` has what each name stands for, a V or a constant; `constraints` the constraints, as they were written."""

    def __init__(self, model, assume=None):
        self.model, self.assume = model, assume
        self.vars, self.constraints, self.assumed, self.made = {}, [], [], 0
        chosen = self.chosen_names()
        aliases = {}
        for var in model.variables.values():
            if var.value is None:
                self.vars[var.name] = declared(var, var.name in chosen)
            else:
                aliases[var.name] = var
        for name in aliases:
            self.vars[name] = self.resolve(self.end_of(name, aliases))
        self.constraints = self.read_constraints()
        while self.take_results(chosen):
            self.constraints = self.read_constraints()
        for var in aliases.values():
            self.keep_domain(var)
        self.find_bounds()

    def read_constraints(self):
        calls = self.model.constraints
        return [C(NATIVE.get(it.name, it.name), [self.resolve(arg) for arg in it.args], it.annotations) for it in calls]

    def take_results(self, chosen):
        """Lets what a function of constants comes to be a constant, where nobody chooses it; whether there was any.

        MiniZinc itself does so for the builtins that it knows, and not for those that our library names anew.
        """
        found = {}
        for c in self.constraints:
            *given, v = c.args
            if c.name in RESULTS and isinstance(v, V) and v.name not in chosen and not C(c.name, given).variables():
                value = RESULTS[c.name](*given)
                if value is not None and (v.domain is None or value in v.domain):
                    found[v] = bool(value) if v.kind == "bool" else int(value)
        self.vars.update({name: found[it] for name, it in self.vars.items() if isinstance(it, V) and it in found})
        return bool(found)

    def chosen_names(self):
        """The variables that a scope of a game chooses: these stay variables even where they have one value."""
        return {name for call in self.model.constraints if call.name in CHOSEN for arg in call.args for name in self.names(arg)}

    def names(self, arg):
        if isinstance(arg, list):
            return [name for it in arg for name in self.names(it)]
        if isinstance(arg, Name) and arg.text in self.model.arrays:
            return self.names(self.model.arrays[arg.text].items)
        return [arg.text] if isinstance(arg, Name) else []

    def end_of(self, name, aliases):
        """What a variable with a value stands for in the end."""
        met = set()
        value = Name(name)
        while isinstance(value, Name) and value.text in aliases:
            if value.text in met:
                raise Unsupported(f"{name} is defined by itself")
            met.add(value.text)
            value = aliases[value.text].value
        return value

    def keep_domain(self, alias):
        """A variable that stands for another one keeps the latter within its own domain."""
        it = self.vars[alias.name]
        values = it.domain if isinstance(it, V) else (it,)
        if alias.domain is not None and (values is None or not is_within(values, alias.domain)):
            self.constraints.append(C("set_in", [it, alias.domain], alias.annotations))

    def resolve(self, value):
        if isinstance(value, Name):
            return self.named(value.text)
        if isinstance(value, Call) and value.name == "[]":
            items, place = (self.resolve(arg) for arg in value.args)
            if not isinstance(place, int) or not 1 <= place <= len(items):
                raise Unsupported(f"the array {value.args[0].text} has no place {place}")
            return items[place - 1]
        if isinstance(value, list):
            return [self.resolve(it) for it in value]
        if isinstance(value, float) or isinstance(value, tuple) and any(isinstance(it, float) for it in value):
            raise Unsupported(f"{value} is no integer, and there are no others")
        return value

    def named(self, name):
        if name in self.vars:
            return self.vars[name]
        if name in self.model.arrays:
            return [self.resolve(it) for it in self.model.arrays[name].items]
        if name in self.model.parameters:
            return self.resolve(self.model.parameters[name])
        raise Unsupported(f"the name {name} isn't declared")

    def fresh(self, kind, domain):
        self.made += 1
        return V(f"AUX_{self.made}", kind, domain, [], True)

    def find_bounds(self):
        loose = [it for it in self.vars.values() if isinstance(it, V) and it.domain is None]
        if not loose:
            return
        mentions = {}
        for c in self.constraints:
            for v in c.variables():
                mentions.setdefault(v, []).append(c)
        todo = [c for v in loose for c in mentions.get(v, [])]
        while todo:
            c = todo.pop()
            v = bounded_by(c)
            if v is not None:
                todo += [other for other in mentions[v] if any(x.domain is None for x in other.variables())]
        self.take_declared_ends(loose)
        for v in loose:
            if v.domain is None:
                self.assume_bounds(v)

    def take_declared_ends(self, loose):
        """Where domains stay as written (`minizinc -g`), the ends of an unbounded integer may stand in constraints."""
        ends = {v: {} for v in loose if v.domain is None}
        for c in self.constraints:
            if c.name == "int_le" and annotation(c.annotations, "domain_change_constraint"):
                a, b = c.args
                if a in ends and isinstance(b, int):
                    ends[a]["high"] = min(b, ends[a].get("high", b))
                if b in ends and isinstance(a, int):
                    ends[b]["low"] = max(a, ends[b].get("low", a))
        for v, found in ends.items():
            if len(found) == 2:
                v.domain = Range(found["low"], found["high"])

    def assume_bounds(self, v):
        if self.assume is None:
            raise Unsupported(f"{v.name} is unbounded{place_of(v.annotations)}; give it a domain, or use --assume-bounds L..H")
        self.assumed.append(v.name)
        v.domain = Range(*self.assume)


def declared(var, is_chosen):
    domain = Range(0, 1) if var.kind == "bool" else var.domain
    if domain is not None and not len(domain):
        raise Unsupported(f"{var.name} has no value{place_of(var.annotations)}")
    if var.kind == "int" and domain is not None and len(domain) == 1 and not is_chosen:
        return next(iter(domain))
    return V(var.name, var.kind, domain, var.annotations, bool(annotation(var.annotations, "var_is_introduced")))


def ends_of_products(a, b, function):
    ends = [function(p, q) for p in (low_of(a), high_of(a)) for q in (low_of(b), high_of(b))]
    return Range(min(ends), max(ends))


def largest(it):
    return max(abs(low_of(it)), abs(high_of(it)))


def range_of_result(name, args):
    """The range of the last argument, whatever the others are; None where nothing is known."""
    if name in ("int_plus", "int_times", "int_max", "int_min"):
        function = {"int_plus": int.__add__, "int_times": int.__mul__, "int_max": max, "int_min": min}[name]
        return ends_of_products(args[0], args[1], function)
    if name == "int_div":
        return Range(-largest(args[0]), largest(args[0]))
    if name == "int_mod":
        return Range(1 - largest(args[1]), largest(args[1]) - 1) if largest(args[1]) else None
    if name == "int_abs":
        return Range(0, largest(args[0]))
    if name == "bool2int":
        return Range(0, 1)
    if name in ("array_var_int_element", "array_int_element"):
        return Range(min(map(low_of, args[1])), max(map(high_of, args[1])))
    return None


def range_in_sum(c, v):
    """The range of v, which a sum defines with the factor 1 or -1."""
    factors, items, total = c.args
    at = items.index(v)
    if abs(factors[at]) != 1 or items.count(v) > 1:
        return None
    ends = [sorted((f * low_of(x), f * high_of(x))) for f, x in zip(factors, items) if x is not v]
    low, high = sorted(factors[at] * (total - sum(end[k] for end in ends)) for k in (0, 1))
    return Range(low, high)


def bounded_by(c):
    """Gives the one unbounded variable of the constraint its range where the constraint bounds it; gives that variable."""
    loose = [v for v in c.variables() if v.domain is None]
    if len(loose) != 1:
        return None
    v, found = loose[0], None
    if c.name == "int_lin_eq":
        found = range_in_sum(c, v)
    elif c.name == "int_eq":
        other = c.args[1] if c.args[0] is v else c.args[0]
        found = None if other is v else Range(low_of(other), high_of(other))
    elif c.name == "table_int" and v in c.args[0] and c.args[1]:
        items, rows = c.args
        column = rows[items.index(v) :: len(items)]
        found = Range(min(column), max(column))
    elif c.args[-1] is v and not any(x is v for arg in c.args[:-1] for x in (arg if isinstance(arg, list) else [arg])):
        found = range_of_result(c.name, c.args)
    elif c.name in ("array_int_minimum", "array_int_maximum") and c.args[0] is v and v not in c.args[1]:
        found = Range(min(map(low_of, c.args[1])), max(map(high_of, c.args[1])))
    if found is None:
        return None
    v.domain = found
    return v
