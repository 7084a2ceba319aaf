"""Tries what closing leaves, by the fast filters and end by end: the rows of a box each, which a plain filter found that is
written apart (`bench/compare/filters.py`). The program `prop_yard` is the one that the gate proves and builds."""
import os
import subprocess
import tempfile
import unittest

TOP = os.path.dirname(os.path.dirname(os.path.dirname(os.path.realpath(__file__))))
PROGRAM = os.path.join(TOP, "crates", "prop_yard", "out", "prop_yard")


def box(*ends):
    """The lines of a box: of each variable the least value, the greatest, and how many are left."""
    return [" ".join(map(str, it)) for it in ends] or ["empty"]


# Each row has its variables, a constraint over them, and what is left of them: of no variable where a domain is empty.

# Holes in both; a value at an end; below; negative coefficients; a variable twice in a sum; at most; not the sum; no
# items; plus with a variable twice.
COMPARISONS_AND_SUMS = (
    ("var {1,3,5,9}: x; var {2,3,9,11}: y;", "int_eq(x,y)", box((3, 9, 3), (3, 9, 2))),
    ("var 0..4: x; var 4..4: y;", "int_ne(x,y)", box((0, 3, 4), (4, 4, 1))),
    ("var 0..5: x; var 0..5: y;", "int_lt(x,y)", box((0, 4, 5), (1, 5, 5))),
    ("var 0..9: x; var 0..9: y;", "int_lin_eq([2,-3],[x,y],1)", box((2, 8, 7), (1, 5, 5))),
    ("var 0..9: x; var 0..9: y;", "int_lin_eq([1,1,-1],[x,x,y],0)", box((0, 4, 5), (0, 8, 9))),
    ("var -5..5: x; var -5..5: y;", "int_lin_le([1,-2],[x,y],-9)", box((-5, 1, 7), (2, 5, 4))),
    ("var 3..3: x; var 0..9: y;", "int_lin_ne([1,1],[x,y],3)", box((3, 3, 1), (1, 9, 9))),
    ("var 0..1: x;", "int_lin_eq([],[],1)", box((0, 1, 2))),
    ("var 0..9: x; var {1,4,7,9}: y;", "int_plus(x,x,y)", box((2, 2, 1), (4, 4, 1))),
)

# Products, with mixed signs; a divisor's range over 0; the divisor 0; remainders of mixed signs; absolute values; the
# smaller and the greater.
PRODUCTS_AND_QUOTIENTS = (
    ("var -3..3: x; var 2..4: y; var 5..20: z;", "int_times(x,y,z)", box((2, 3, 2), (2, 4, 3), (5, 12, 8))),
    ("var -3..2: x; var -4..5: y; var -30..-13: z;", "int_times(x,y,z)", box((-3, -3, 1), (5, 5, 1), (-15, -15, 1))),
    ("var 10..20: x; var -2..2: y; var -30..-6: z;", "int_div(x,y,z)", box((10, 20, 11), (-2, -1, 2), (-20, -6, 15))),
    ("var 1..9: x; var 0..0: y; var 0..9: z;", "int_div(x,y,z)", box()),
    ("var -7..-5: x; var -3..3: y; var -9..9: z;", "int_mod(x,y,z)", box((-7, -5, 3), (-3, 3, 7), (-2, 0, 3))),
    ("var -7..-7: x; var 3..3: y; var -9..9: z;", "int_mod(x,y,z)", box((-7, -7, 1), (3, 3, 1), (-1, -1, 1))),
    ("var -4..2: x; var 3..9: y;", "int_abs(x,y)", box((-4, -3, 2), (3, 4, 2))),
    ("var 2..9: x; var 4..7: y; var 0..3: z;", "int_min(x,y,z)", box((2, 3, 2), (4, 7, 4), (2, 3, 2))),
    ("var 0..3: x; var 1..9: y; var 5..6: z;", "int_max(x,y,z)", box((0, 3, 4), (5, 6, 2), (5, 6, 2))),
)

# An index out of its array, and by its value; an empty array; items that are variables; the least and the greatest item,
# and an only candidate; a set, and none; numbers that are full, too few, and one variable twice; rows, and none.
ARRAYS_AND_SETS = (
    ("var -2..9: i; var 0..9: v;", "array_int_element(i,[7,7,3,5],v)", box((1, 4, 4), (3, 7, 5))),
    ("var 1..4: i; var 4..6: v;", "array_int_element(i,[7,2,3,5],v)", box((4, 4, 1), (5, 5, 1))),
    ("var 1..4: i; var 4..6: v;", "array_int_element(i,[],v)", box()),
    ("var 0..9: i; var 0..2: a; var 5..9: b; var 4..6: v;", "array_var_int_element(i,[a,3,b],v)",
     box((3, 3, 1), (0, 2, 3), (5, 6, 2), (5, 6, 2))),
    ("var 0..9: m; var 3..7: a; var 5..9: b;", "array_int_minimum(m,[a,b])", box((3, 7, 5), (3, 7, 5), (5, 9, 5))),
    ("var 0..4: m; var 3..7: a; var 5..9: b;", "array_int_minimum(m,[a,b])", box((3, 4, 2), (3, 4, 2), (5, 9, 5))),
    ("var 6..20: m; var 3..7: a; var 1..4: b;", "array_int_maximum(m,[a,b])", box((6, 7, 2), (6, 7, 2), (1, 4, 4))),
    ("var 0..9: x;", "set_in(x,{2,3,4,11})", box((2, 4, 3))),
    ("var 0..9: x;", "set_in(x,{})", box()),
    ("var 1..2: a; var 1..2: b; var 1..4: c;", "all_different_int([a,b,c])", box((1, 2, 2), (1, 2, 2), (3, 4, 2))),
    ("var 1..2: a; var 1..2: b; var 1..2: c;", "all_different_int([a,b,c])", box()),
    ("var 1..2: a;", "all_different_int([a,a])", box()),
    ("var 0..3: x; var 0..3: y;", "table_int([x,y],[0,1,2,3,5,1,2,0])", box((0, 2, 3), (0, 3, 4))),
    ("var 0..3: x;", "table_int([x],[])", box()),
)

# A clause with one literal left, satisfied, lost, and with a variable on both sides; and, or, parity, with a variable
# twice; reified: open, entailed, refuted, told either way.
TRUTH_VALUES = (
    ("var bool: a; var 0..0: z; var bool: b;", "bool_clause([a],[true])", box((1, 1, 1), (0, 0, 1), (0, 1, 2))),
    ("var bool: a; var bool: b;", "bool_clause([a],[a,b])", box((0, 1, 2), (0, 1, 2))),
    ("var bool: a;", "bool_clause([false],[true])", box((0, 1, 2))),
    ("var bool: a; var bool: b; var bool: r;", "array_bool_and([a,b,true],r)", box((0, 1, 2), (0, 1, 2), (0, 1, 2))),
    ("var bool: a; var bool: b;", "array_bool_and([a,b],true)", box((1, 1, 1), (1, 1, 1))),
    ("var bool: a; var bool: b;", "array_bool_or([a,b],false)", box((0, 0, 1), (0, 0, 1))),
    ("var bool: a;", "array_bool_xor([true,a])", box((0, 0, 1))),
    ("var bool: b;", "array_bool_xor([b,b])", box()),
    ("var 0..5: x; var 0..5: y; var bool: r;", "int_le_reif(x,y,r)", box((0, 5, 6), (0, 5, 6), (0, 1, 2))),
    ("var 0..2: x; var 2..5: y; var bool: r;", "int_le_reif(x,y,r)", box((0, 2, 3), (2, 5, 4), (1, 1, 1))),
    ("var 3..5: x; var 0..2: y; var bool: r;", "int_le_reif(x,y,r)", box((3, 5, 3), (0, 2, 3), (0, 0, 1))),
    ("var 0..5: x; var 0..5: y;", "int_le_reif(x,y,true)", box((0, 5, 6), (0, 5, 6))),
    ("var 0..5: x; var 0..5: y;", "int_le_reif(x,y,false)", box((1, 5, 5), (0, 4, 5))),
    ("var 0..5: x;", "int_lin_eq_reif([2],[x],7,true)", box()),
    ("var 0..3: x; var bool: r;", "set_in_reif(x,{5,6},r)", box((0, 3, 4), (0, 0, 1))),
)


@unittest.skipUnless(os.path.exists(PROGRAM), "prop_yard isn't built: rt run in crates/prop_yard builds it")
class Closing(unittest.TestCase):
    def left(self, text, work):
        with tempfile.TemporaryDirectory() as folder:
            with open(os.path.join(folder, "game.qc"), "w", encoding="ascii") as file:
                file.write(text)
            done = subprocess.run([PROGRAM, "game.qc", work], cwd=folder, check=False, stdout=subprocess.PIPE, timeout=60)
        self.assertEqual(done.returncode, 0)
        return done.stdout.decode().splitlines()

    def try_rows(self, rows):
        for declared, constraint, wanted in rows:
            for work in ("fast", "ends"):
                with self.subTest(constraint=constraint, work=work):
                    self.assertEqual(self.left(f"exists; {declared} goal; constraint {constraint}; solve;", work), wanted)

    def test_comparisons_and_sums(self):
        self.try_rows(COMPARISONS_AND_SUMS)

    def test_products_and_quotients(self):
        self.try_rows(PRODUCTS_AND_QUOTIENTS)

    def test_arrays_and_sets(self):
        self.try_rows(ARRAYS_AND_SETS)

    def test_truth_values(self):
        self.try_rows(TRUTH_VALUES)
