"""That a Boolean is true, said plainly.

A rule or a goal comes as a Boolean that a reified constraint defines. What is written is that constraint itself, or its
contrary, or the parts of a conjunction, one by one; then nothing looks at the Boolean any more.
"""
from .lowering import WHOLE
from .terms import C


def swapped(name):
    return lambda a, b: C(name, [b, a])


def named(name):
    return lambda *args: C(name, list(args))


def sum_above(factors, items, total):
    return C("int_lin_le", [[-factor for factor in factors], items, -total - 1])


CONTRARIES = {
    "int_eq": named("int_ne"),
    "int_ne": named("int_eq"),
    "int_le": swapped("int_lt"),
    "int_lt": swapped("int_le"),
    "int_lin_eq": named("int_lin_ne"),
    "int_lin_ne": named("int_lin_eq"),
    "int_lin_le": sum_above,
    "bool_eq": named("bool_not"),
    "bool_le": swapped("bool_lt"),
    "bool_lt": swapped("bool_le"),
}


def assert_is(b, truth, definitions, out):
    """Appends constraints which say that b is true, or false; definitions tell what defines it."""
    if isinstance(b, bool):
        if b != truth:
            out.append(C("bool_eq", [True, False]))
        return
    c = definitions.of.get(b)
    if isinstance(c, C) and c.args[-1] is b:
        parts = parts_of(c, truth)
        if parts is not None:
            for part, part_truth in parts:
                assert_is(part, part_truth, definitions, out)
            return
        said = plainly(c, truth)
        if said is not None:
            out.append(said)
            return
    out.append(C("bool_eq", [b, truth]))


def parts_of(c, truth):
    """Booleans with their truths that come to the same as that truth of the result of c; None where it isn't a conjunction."""
    if c.name == "bool_not":
        return [(c.args[0], not truth)]
    if c.name == "bool_and" and truth or c.name == "bool_or" and not truth:
        return [(x, truth) for x in c.args[:2]]
    if c.name == "array_bool_and" and truth or c.name == "array_bool_or" and not truth:
        return [(x, truth) for x in c.args[0]]
    if c.name == "bool_clause_reif" and not truth:
        return [(x, False) for x in c.args[0]] + [(x, True) for x in c.args[1]]
    return None


def plainly(c, truth):
    """One constraint that says that the result of c is so; None where there is none."""
    if c.name in ("bool_or", "bool_and", "array_bool_or", "array_bool_and"):
        items = list(c.args[0] if c.name.startswith("array") else c.args[:2])
        return C("bool_clause", [items, []] if truth else [[], items])
    if c.name == "bool_xor":
        return C("bool_not" if truth else "bool_eq", c.args[:2])
    if not c.name.endswith("_reif"):
        return None
    name, args = c.name[:-5], c.args[:-1]
    if truth:
        return C(name, args)
    if c.name in WHOLE or name not in CONTRARIES:
        return None
    return CONTRARIES[name](*args)
