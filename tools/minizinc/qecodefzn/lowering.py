"""Constraints that the problem text hasn't, by those that it has.

`lowered(reader, c, out)` appends constraints of the 47 predicates that mean c. A new variable is one for which each way to
choose the others leaves exactly one value; so counts of solutions and games stay the same.
"""
from itertools import product

from .builtins import PREDICATES, power
from .flatzinc import Range, place_of
from .terms import C, Unsupported, V, values_of

GREATEST = 1_000_000_000
MOST_NUMBERS = 100_000
# Reified forms of predicates that the text has plainly alone. Games keep them as they are where they can be asserted.
WHOLE = ("all_different_int_reif", "table_int_reif")


def fresh_bool(reader):
    return reader.fresh("bool", Range(0, 1))


def sign_turned(reader, b, out):
    """A Boolean that is true exactly where b is false."""
    if isinstance(b, bool):
        return not b
    turned = fresh_bool(reader)
    out.append(C("bool_not", [b, turned]))
    return turned


def said_of(reader, c, out):
    """A Boolean that tells whether c holds."""
    b = fresh_bool(reader)
    lowered(reader, C(c.name + "_reif", [*c.args, b], c.annotations), out)
    return b


def as_number(reader, b, out):
    if isinstance(b, bool):
        return int(b)
    number = reader.fresh("int", Range(0, 1))
    out.append(C("bool2int", [b, number]))
    return number


def sum_of_bools(reader, c, out):
    factors, items, total = c.args
    numbers = [as_number(reader, b, out) for b in items]
    if isinstance(total, V):
        factors, numbers, total = factors + [-1], numbers + [total], 0
    out.append(C("int" + c.name[4:], [factors, numbers, total]))


def all_different_said(reader, c, out):
    items, b = c.args
    pairs = [(x, y) for at, x in enumerate(items) for y in items[at + 1 :]]
    out.append(C("array_bool_and", [[said_of(reader, C("int_ne", [x, y]), out) for x, y in pairs], b]))


def table_said(reader, c, out):
    items, rows, b = c.args
    equal = {}

    def is_equal(x, number):
        if (x, number) not in equal:
            equal[x, number] = said_of(reader, C("int_eq", [x, number]), out)
        return equal[x, number]

    met = []
    for at in range(0, len(rows), len(items)):
        bits = [is_equal(x, number) for x, number in zip(items, rows[at : at + len(items)])]
        met.append(fresh_bool(reader))
        out.append(C("array_bool_and", [bits, met[-1]]))
    out.append(C("array_bool_or", [met, b]))


def whole_said(reader, c, out):
    """Where it has to hold it is the predicate itself."""
    if c.args[-1] is True:
        out.append(C(c.name[:-5], c.args[:-1]))
    elif c.name == "table_int_reif":
        table_said(reader, c, out)
    else:
        all_different_said(reader, c, out)


def result_said(reader, c, out):
    """Whether what a connective comes to is what stands there."""
    *args, result, b = c.args
    found = fresh_bool(reader)
    out.append(C(c.name[:-5], [*args, found]))
    out.append(C("bool_eq_reif", [found, result, b]))


def difference_said(reader, c, out):
    out.append(C("bool_xor", c.args))


def parity_said(reader, c, out):
    items, b = c.args
    out.append(C("array_bool_xor", [items + [sign_turned(reader, b, out)]]))


def difference(reader, c, out):
    a, b, result = c.args
    out.append(C("int_plus", [b, result, a]))


def powers(reader, c, out):
    x, y, z = c.args
    rows = []
    for a, b in product(values_of(x), values_of(y)):
        result = power(a, b)
        if result is not None and abs(result) <= GREATEST:
            rows += [a, b, result]
        if len(rows) > MOST_NUMBERS:
            raise Unsupported(f"the powers of {c.name} are more than {MOST_NUMBERS} numbers{place_of(c.annotations)}")
    out.append(C("table_int", [[x, y, z], rows]))


LOWERINGS = {
    "bool_lin_eq": sum_of_bools,
    "bool_lin_ne": sum_of_bools,
    "bool_lin_le": sum_of_bools,
    "int_minus": difference,
    "int_pow": powers,
    "int_pow_fixed": powers,
    "bool_not_reif": difference_said,
    "bool_and_reif": result_said,
    "bool_or_reif": result_said,
    "bool_xor_reif": result_said,
    "array_bool_and_reif": result_said,
    "array_bool_or_reif": result_said,
    "array_bool_xor_reif": parity_said,
    "all_different_int_reif": whole_said,
    "table_int_reif": whole_said,
}


def is_known(name):
    base = name[:-4] + "_reif" if name.endswith("_imp") else name
    return base in PREDICATES or base in LOWERINGS


def lowered(reader, c, out):
    if c.name == "bool_xor" and len(c.args) == 2:
        out.append(C("bool_not", c.args, c.annotations))
    elif c.name in PREDICATES:
        out.append(c)
    elif not is_known(c.name):
        raise Unsupported(f"the builtin {c.name} is none of the predicates, and isn't lowered to them{place_of(c.annotations)}")
    elif c.name.endswith("_imp"):
        said = said_of(reader, C(c.name[:-4], c.args[:-1], c.annotations), out)
        out.append(C("bool_le", [c.args[-1], said], c.annotations))
    else:
        LOWERINGS[c.name](reader, c, out)
