"""What predicates mean on values: the 47 of the problem text, and the builtins of FlatZinc that are lowered to them."""


def quotient(a, b):
    """Truncated towards zero; None where b is 0."""
    if b == 0:
        return None
    return abs(a) // abs(b) * (1 if (a < 0) == (b < 0) else -1)


def remainder(a, b):
    return None if b == 0 else a - b * quotient(a, b)


def power(a, b):
    """As MiniZinc has it: 1 div a to the power of -b for a negative b; None where that divides by 0."""
    return a**b if b >= 0 else quotient(1, a**-b)


def item(place, items):
    return items[place - 1] if 1 <= place <= len(items) else None


def dot(factors, items):
    return sum(factor * it for factor, it in zip(factors, items))


def is_row(items, rows):
    width = len(items)
    return any(rows[at : at + width] == items for at in range(0, len(rows), width))


# Predicates whose last argument is what a function of the others comes to; None is no value, and then the predicate is false.
RESULTS = {
    "int_plus": lambda a, b: a + b,
    "int_times": lambda a, b: a * b,
    "int_abs": abs,
    "int_min": min,
    "int_max": max,
    "int_div": quotient,
    "int_mod": remainder,
    "bool2int": int,
    "array_int_element": item,
    "array_bool_element": item,
    "array_var_int_element": item,
    "array_var_bool_element": item,
    "bool_and": lambda a, b: a and b,
    "bool_or": lambda a, b: a or b,
    "bool_xor": lambda a, b: a != b,
    "array_bool_and": all,
    "array_bool_or": any,
}
HOLDS = {
    "int_eq": lambda a, b: a == b,
    "int_ne": lambda a, b: a != b,
    "int_le": lambda a, b: a <= b,
    "int_lt": lambda a, b: a < b,
    "int_lin_eq": lambda factors, items, total: dot(factors, items) == total,
    "int_lin_ne": lambda factors, items, total: dot(factors, items) != total,
    "int_lin_le": lambda factors, items, total: dot(factors, items) <= total,
    "bool_eq": lambda a, b: a == b,
    "bool_not": lambda a, b: a != b,
    "bool_le": lambda a, b: a <= b,
    "bool_lt": lambda a, b: a < b,
    "array_int_minimum": lambda least, items: least == min(items),
    "array_int_maximum": lambda greatest, items: greatest == max(items),
    "set_in": lambda it, members: it in members,
    "array_bool_xor": lambda items: sum(items) % 2 == 1,
    "bool_clause": lambda some, lacking: any(some) or not all(lacking),
    "all_different_int": lambda items: len(set(items)) == len(items),
    "table_int": is_row,
}
REIFIED = (
    "int_eq int_ne int_le int_lt int_lin_eq int_lin_ne int_lin_le set_in bool_eq bool_le bool_lt bool_clause".split()
)


def by_result(function):
    return lambda *args: function(*args[:-1]) == args[-1]


HOLDS.update({name: by_result(function) for name, function in RESULTS.items()})
RESULTS.update({name + "_reif": HOLDS[name] for name in REIFIED})
HOLDS.update({name + "_reif": by_result(HOLDS[name]) for name in REIFIED})
PREDICATES = frozenset(HOLDS)
assert len(PREDICATES) == 47

# What FlatZinc or the library has besides. The checks by source constraints rest on this; it shares nothing with the lowering.
HOLDS.update(
    {
        "bool_xor": lambda a, b, result=True: (a != b) == result,
        "bool_lin_eq": HOLDS["int_lin_eq"],
        "bool_lin_ne": HOLDS["int_lin_ne"],
        "bool_lin_le": HOLDS["int_lin_le"],
        "int_minus": lambda a, b, c: a - b == c,
        "int_pow": by_result(power),
        "int_pow_fixed": by_result(power),
        "bool_not_reif": lambda a, b, r: (a != b) == r,
        "bool_and_reif": lambda a, b, c, r: ((a and b) == c) == r,
        "bool_or_reif": lambda a, b, c, r: ((a or b) == c) == r,
        "bool_xor_reif": lambda a, b, c, r: ((a != b) == c) == r,
        "array_bool_and_reif": lambda items, c, r: (all(items) == c) == r,
        "array_bool_or_reif": lambda items, c, r: (any(items) == c) == r,
        "array_bool_xor_reif": lambda items, r: (sum(items) % 2 == 1) == r,
        "all_different_int_reif": by_result(HOLDS["all_different_int"]),
        "table_int_reif": by_result(HOLDS["table_int"]),
    }
)
HOLDS.update(
    {
        name[:-5] + "_imp": lambda *args, of=HOLDS[name]: not args[-1] or bool(of(*args[:-1], True))
        for name in list(HOLDS)
        if name.endswith("_reif")
    }
)
