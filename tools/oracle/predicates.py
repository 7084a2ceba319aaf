"""The predicates: what each takes, when it holds of values, and when it is refuted or entailed by the values left.

Written apart from the program, by docs/predicates.md, plainly and with no thought of speed.
"""

# The kinds of arguments of each predicate, a letter each as in docs/predicates.md.
SIGNATURES = {}
for _names, _kinds in (
    ("int_eq int_ne int_le int_lt int_abs", "ii"),
    ("int_lin_eq int_lin_ne int_lin_le", "NIi"),
    ("int_plus int_times int_min int_max int_div int_mod", "iii"),
    ("bool_eq bool_not bool_le bool_lt", "bb"),
    ("bool2int", "bi"),
    ("array_int_element", "iNi"),
    ("array_bool_element", "iMb"),
    ("array_var_int_element", "iIi"),
    ("array_var_bool_element", "iBb"),
    ("array_int_minimum array_int_maximum", "iI"),
    ("set_in", "iS"),
    ("bool_and bool_or bool_xor", "bbb"),
    ("array_bool_and array_bool_or", "Bb"),
    ("array_bool_xor", "B"),
    ("bool_clause", "BB"),
    ("all_different_int", "I"),
    ("table_int", "IN"),
):
    SIGNATURES.update({name: _kinds for name in _names.split()})
for _name in (
    "int_eq int_ne int_le int_lt int_lin_eq int_lin_ne int_lin_le set_in bool_eq bool_le bool_lt bool_clause".split()
):
    SIGNATURES[_name + "_reif"] = SIGNATURES[_name] + "b"


def quotient(a, b):
    """a by b, truncated towards zero."""
    return abs(a) // abs(b) * (1 if (a < 0) == (b < 0) else -1)


def dot(coefficients, values):
    return sum(c * v for c, v in zip(coefficients, values))


def is_item(place, items, value):
    return 1 <= place <= len(items) and items[place - 1] == value


def rows(items, numbers):
    return [numbers[k : k + len(items)] for k in range(0, len(numbers), len(items))]


def same(a, b):
    return a == b


def differ(a, b):
    return a != b


def at_most(a, b):
    return a <= b


def below(a, b):
    return a < b


HOLDS = {
    "int_eq": same,
    "bool_eq": same,
    "bool2int": same,
    "int_ne": differ,
    "bool_not": differ,
    "int_le": at_most,
    "bool_le": at_most,
    "int_lt": below,
    "bool_lt": below,
    "int_lin_eq": lambda cs, xs, c: dot(cs, xs) == c,
    "int_lin_ne": lambda cs, xs, c: dot(cs, xs) != c,
    "int_lin_le": lambda cs, xs, c: dot(cs, xs) <= c,
    "int_plus": lambda a, b, c: a + b == c,
    "int_times": lambda a, b, c: a * b == c,
    "int_abs": lambda a, b: abs(a) == b,
    "int_min": lambda a, b, c: min(a, b) == c,
    "int_max": lambda a, b, c: max(a, b) == c,
    "int_div": lambda a, b, c: b != 0 and quotient(a, b) == c,
    "int_mod": lambda a, b, c: b != 0 and a - b * quotient(a, b) == c,
    "array_int_element": is_item,
    "array_bool_element": is_item,
    "array_var_int_element": is_item,
    "array_var_bool_element": is_item,
    "array_int_minimum": lambda m, xs: m == min(xs),
    "array_int_maximum": lambda m, xs: m == max(xs),
    "set_in": lambda x, s: x in s,
    "bool_and": lambda a, b, r: r == min(a, b),
    "bool_or": lambda a, b, r: r == max(a, b),
    "bool_xor": lambda a, b, r: r == (a != b),
    "array_bool_and": lambda xs, r: r == all(xs),
    "array_bool_or": lambda xs, r: r == any(xs),
    "array_bool_xor": lambda xs: sum(xs) % 2 == 1,
    "bool_clause": lambda xs, ys: any(xs) or not all(ys),
    "all_different_int": lambda xs: len(set(xs)) == len(xs),
    "table_int": lambda xs, ns: list(xs) in rows(xs, ns),
}


def span(values):
    return min(values), max(values)


def miss(a, b):
    """Spans without a common number."""
    return a[1] < b[0] or b[1] < a[0]


def single(*sets):
    return all(len(values) == 1 for values in sets)


def only(values, value):
    return values == {value}


def sum_span(coefficients, sets):
    ends = [sorted((c * min(values), c * max(values))) for c, values in zip(coefficients, sets)]
    return sum(low for low, _ in ends), sum(high for _, high in ends)


def product_span(a, b):
    return span([p * q for p in span(a) for q in span(b)])


def abs_span(a):
    low, high = span(a)
    return (0 if low <= 0 <= high else min(abs(low), abs(high))), max(abs(low), abs(high))


def fold_span(fold, sets):
    return fold(min(values) for values in sets), fold(max(values) for values in sets)


def quotient_span(a, b):
    """A divisor's span without 0 is that of its negative and that of its positive numbers."""
    low, high = span(b)
    parts = [(low, min(high, -1))] * (low < 0) + [(max(low, 1), high)] * (high > 0)
    return span([quotient(p, q) for part in parts for q in part for p in span(a)])


def remainder_span(a, b):
    (low, high), most = span(a), max(map(abs, span(b))) - 1
    if single(a, b):
        return span([low - min(b) * quotient(low, min(b))])
    return (max(low, -most) if low < 0 else 0), (min(high, most) if high > 0 else 0)


def divides_never(divided_span, a, b, c):
    return span(b) == (0, 0) or miss(divided_span(a, b), span(c))


def no_item(place, items, c):
    return not any(items[k - 1] & c for k in place if 1 <= k <= len(items))


def crowded(sets):
    spans = list(map(span, sets))
    return any(
        sum(low <= s[0] and s[1] <= high for s in spans) > high - low + 1
        for low, _ in spans
        for _, high in spans
        if low <= high
    )


def no_row(sets, numbers):
    return not any(all(n in values for n, values in zip(row, sets)) for row in rows(sets, numbers))


def sets_of(numbers):
    return [{n} for n in numbers]


REFUTED = {
    "int_eq": lambda a, b: not a & b,
    "int_ne": lambda a, b: single(a, b) and a == b,
    "int_le": lambda a, b: min(a) > max(b),
    "int_lt": lambda a, b: min(a) >= max(b),
    "int_lin_eq": lambda cs, xs, c: miss(sum_span(cs, xs), span(c)),
    "int_lin_ne": lambda cs, xs, c: sum_span(cs, xs) == span(c),
    "int_lin_le": lambda cs, xs, c: sum_span(cs, xs)[0] > min(c),
    "int_plus": lambda a, b, c: miss(sum_span([1, 1], [a, b]), span(c)),
    "int_times": lambda a, b, c: miss(product_span(a, b), span(c)),
    "int_abs": lambda a, b: miss(abs_span(a), span(b)),
    "int_min": lambda a, b, c: miss(fold_span(min, [a, b]), span(c)),
    "int_max": lambda a, b, c: miss(fold_span(max, [a, b]), span(c)),
    "int_div": lambda a, b, c: divides_never(quotient_span, a, b, c),
    "int_mod": lambda a, b, c: divides_never(remainder_span, a, b, c),
    "array_int_element": lambda b, ns, c: no_item(b, sets_of(ns), c),
    "array_bool_element": lambda b, ns, c: no_item(b, sets_of(ns), c),
    "array_var_int_element": no_item,
    "array_var_bool_element": no_item,
    "array_int_minimum": lambda m, xs: miss(fold_span(min, xs), span(m)),
    "array_int_maximum": lambda m, xs: miss(fold_span(max, xs), span(m)),
    "set_in": lambda x, s: not any(v in s for v in x),
    "bool_and": lambda a, b, r: miss(fold_span(min, [a, b]), span(r)),
    "bool_or": lambda a, b, r: miss(fold_span(max, [a, b]), span(r)),
    "bool_xor": lambda a, b, r: single(a, b, r) and only(r, int(a == b)),
    "array_bool_and": lambda xs, r: miss(fold_span(min, xs + [{1}]), span(r)),
    "array_bool_or": lambda xs, r: miss(fold_span(max, xs + [{0}]), span(r)),
    "array_bool_xor": lambda xs: single(*xs) and sum(map(min, xs)) % 2 == 0,
    "bool_clause": lambda xs, ys: all(only(x, 0) for x in xs) and all(only(y, 1) for y in ys),
    "all_different_int": crowded,
    "table_int": no_row,
}
REFUTED |= {"bool_eq": REFUTED["int_eq"], "bool2int": REFUTED["int_eq"], "bool_not": REFUTED["int_ne"]}
REFUTED |= {"bool_le": REFUTED["int_le"], "bool_lt": REFUTED["int_lt"]}

ENTAILED = {
    "int_eq": lambda a, b: single(a, b) and a == b,
    "int_ne": lambda a, b: not a & b,
    "int_le": lambda a, b: max(a) <= min(b),
    "int_lt": lambda a, b: max(a) < min(b),
    "int_lin_eq": lambda cs, xs, c: sum_span(cs, xs) == span(c),
    "int_lin_ne": lambda cs, xs, c: miss(sum_span(cs, xs), span(c)),
    "int_lin_le": lambda cs, xs, c: sum_span(cs, xs)[1] <= min(c),
    "set_in": lambda x, s: all(v in s for v in x),
    "bool_clause": lambda xs, ys: any(only(x, 1) for x in xs) or any(only(y, 0) for y in ys),
}
ENTAILED |= {"bool_eq": ENTAILED["int_eq"], "bool_le": ENTAILED["int_le"], "bool_lt": ENTAILED["int_lt"]}


def holds_of(name, args):
    plain = name.removesuffix("_reif")
    return bool(HOLDS[name](*args)) if plain == name else args[-1] == bool(HOLDS[plain](*args[:-1]))


def is_refuted(name, args):
    plain = name.removesuffix("_reif")
    if plain == name:
        return REFUTED[name](*args)
    return all((REFUTED if r else ENTAILED)[plain](*args[:-1]) for r in args[-1])
