"""Constraints as people write them, and numbers in words."""

MOST_ITEMS = 12
SIGNS = {"int_lin_eq": "=", "int_lin_ne": "≠", "int_lin_le": "≤"}


def plural(number, one):
    return f"{number:,} {one}{'' if number == 1 else 's'}"


def listed(items, join=", "):
    items = list(map(str, items))
    if len(items) <= MOST_ITEMS:
        return join.join(items)
    return join.join(items[: MOST_ITEMS - 2] + [f"… {len(items) - MOST_ITEMS + 1} more …", items[-1]])


def set_words(ranges):
    """Ranges as text: `3`, `0..2`, `0..2, 5`."""
    return listed(str(low) if low == high else f"{low}..{high}" for low, high in ranges) or "nothing"


def side(terms, number):
    """A sum of terms with positive factors, and a number."""
    shown = [str(name) if factor == 1 else f"{factor}·{name}" for factor, name in terms]
    return listed(shown + ([str(number)] if number or not shown else []), " + ")


def linear(sign, factors, items, number):
    """A sum compared with a number, each term on the side on which its factor is positive."""
    number -= sum(f * it for f, it in zip(factors, items) if isinstance(it, int))
    terms = [(f, it) for f, it in zip(factors, items) if f and not isinstance(it, int)]
    left, right = [(f, it) for f, it in terms if f > 0], [(-f, it) for f, it in terms if f < 0]
    if right and not left:
        return f"{side(right, 0)} {'≥' if sign == '≤' else sign} {-number}"
    if not right:
        return f"{side(left, 0)} {sign} {number}"
    return f"{side(left, max(0, -number))} {sign} {side(right, max(0, number))}"


def clause(positive, negative):
    return listed([*map(str, positive), *(f"not {it}" for it in negative)], " or ") or "never"


def table(items, numbers):
    rows = [numbers[k : k + len(items)] for k in range(0, len(numbers), len(items))]
    return f"({listed(items)}) is one of {listed('(' + listed(row) + ')' for row in rows)}"


# Of each predicate what it says of its arguments: a form to put them in, or a function of them.
FORMS = {
    "int_eq": "{0} = {1}",
    "int_ne": "{0} ≠ {1}",
    "int_le": "{0} ≤ {1}",
    "int_lt": "{0} < {1}",
    "int_plus": "{0} + {1} = {2}",
    "int_times": "{0} · {1} = {2}",
    "int_abs": "{1} is {0} without its sign",
    "int_div": "{2} is {0} divided by {1}, without the rest",
    "int_mod": "{2} is the rest of {0} divided by {1}",
    "int_min": "{2} is the smaller of {0} and {1}",
    "int_max": "{2} is the greater of {0} and {1}",
    "array_int_minimum": "{0} is the least of {1}",
    "array_int_maximum": "{0} is the greatest of {1}",
    "array_int_element": "{2} is item {0} of ({1})",
    "array_bool_element": "{2} is item {0} of ({1})",
    "array_var_int_element": "{2} is item {0} of ({1})",
    "array_var_bool_element": "{2} is item {0} of ({1})",
    "bool_eq": "{0} = {1}",
    "bool2int": "{1} is 1 exactly where {0}, else 0",
    "bool_not": "{0} and {1} differ",
    "bool_le": "where {0}, also {1}",
    "bool_lt": "{1} and not {0}",
    "bool_and": "{2} exactly where {0} and {1}",
    "bool_or": "{2} exactly where {0} or {1}",
    "bool_xor": "{2} exactly where {0} and {1} differ",
    "set_in": "{0} is one of {1}",
    "array_bool_and": "{1} exactly where all of {0}",
    "array_bool_or": "{1} exactly where one of {0}",
    "array_bool_xor": "an odd number of {0}",
    "all_different_int": "{0} all differ",
    "bool_clause": clause,
    "table_int": table,
    **{name: lambda factors, items, number, sign=sign: linear(sign, factors, items, number) for name, sign in SIGNS.items()},
}


def formula(name, args):
    """A constraint, whose arguments are given as text, numbers, and lists of such."""
    plain = name.removesuffix("_reif")
    if plain != name:
        return f"{args[-1]} exactly where ({formula(plain, args[:-1])})"
    form = FORMS[name]
    if callable(form):
        return form(*args)
    return form.format(*(listed(it) if isinstance(it, list) else it for it in args))
