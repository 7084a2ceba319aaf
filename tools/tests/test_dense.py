"""The reader of dense certificates on worked ones, right and just wrong. Those of docs/dense.md are read from the page."""
import os
import re
import unittest

from oracle.dense import judged
from oracle.games import Game
from program import TOP

# Of each game the certificates that prove what they state, and those that don't: the outcome, and the lines.
CHAIN = "exists; var 0..3: x; var 0..3: y; constraint int_lt(x,y); goal; constraint int_le(2,x); solve;"
HOLE = "exists minimize x; var 0..2: x; constraint int_ne(x,1); goal; solve;"
NOTHING = "exists; var 0..1: x; constraint int_lt(x,0); goal; solve;"
NEVER = "exists; var 0..1: x; goal; constraint int_lt(x,0); solve;"
SECOND_FAILS = "exists; var 0..1: x; exists; var 0..1: y; constraint int_lt(y,0); goal; solve;"
ONE_BARRED = "exists maximize z; var 0..1: x; constraint int_lt(x,1); exists; var 0..3: z; goal; solve;"
WITH_ANOTHER = "exists maximize x; var 0..2: x; var 0..1: y; goal; solve;"
BY_ANOTHER = "exists maximize x; var -1..0: y; var 0..3: x; constraint int_lin_le([1,-3],[x,y],3); goal; solve;"
SOMETHING = "exists; var 0..1: x; constraint int_lt(x,1); goal; solve;"
IN_KIND = (
    "exists; var 0..3: x; forall; var 0..1: y; exists; var 0..1: z; constraint int_le(z,1);"
    " goal; constraint int_le(2,x); constraint int_eq(y,z); solve;"
)
NO_ANSWER = (
    "exists; var 0..1: x; forall; var 0..1: y; exists; var 0..1: z; constraint int_le(z,x);"
    " goal; constraint int_le(y,z); constraint int_le(y,0); solve;"
)
CONTRARY = "exists; var 0..1: x; forall; var 0..1: y; {} exists; var 0..1: z; constraint int_lt(z,x); goal; constraint int_lt(x,z); solve;"
UNRESTRICTED = CONTRARY.format("")
STUCK = CONTRARY.format("constraint int_lt(y,0);")
RESTRICTED = CONTRARY.format("constraint int_le(y,0);")
MOVE_LOSES = "exists; var 0..0: x; forall; var 0..1: y; goal; constraint int_le(y,0); solve;"
ONE_PASSES = "forall; var 0..1: y; goal; constraint int_le(y,0); solve;"
FIRST_LOSES = "forall; var 0..2: y; goal; constraint int_le(1,y); solve;"
INNER_LOSES = "forall; var 0..2: y; goal; constraint int_ne(y,1); solve;"
GOAL_LOSES = "exists; var 0..1: x; forall; var 0..1: y; constraint int_le(y,0); goal; constraint int_lt(x,0); solve;"
FIRST_FREE = "forall; var 0..1: y; constraint int_le(y,0); exists; var 0..1: x; forall; var 0..1: w; goal; constraint int_lt(x,0); solve;"
TWO_MOVES = (
    "forall; var 0..1: y; constraint int_le(y,0); forall; var 0..1: z; constraint int_le(z,0);"
    " exists; var 0..0: w; constraint int_lt(w,0); goal; solve;"
)
LOST_BY_ONE = "forall; var 0..1: y; exists; var 0..0: z; constraint int_lt(y,1); goal; solve;"
FORBIDDEN = "forall; var 0..1: y; constraint int_le(y,0); exists; var 0..0: z; constraint int_lt(y,1); goal; solve;"
KEPT_OUT = "exists; var 0..1: x; forall; var 0..1: y; constraint int_le(y,x); exists; var 0..0: z; constraint int_lt(y,1); goal; solve;"
TOO_GREAT = "forall; var 0..2: y; constraint int_le(1,y); exists; var 0..1: z; constraint int_le(y,z); goal; solve;"
NOT_ALLOWED = "forall; var 0..2: y; constraint int_le(1,y); exists; var 0..1: z; constraint int_lt(z,y); goal; solve;"
ENOUGH = "forall; var 0..1: y; constraint int_le(1,y); exists; var 0..1: z; constraint int_le(y,z); goal; solve;"
ONE_WINS = "exists; var 0..1: x; goal; constraint int_le(1,x); solve;"
GREATEST = "exists maximize x; var 0..2: x; goal; solve;"
DECIDES = "exists; var 0..2: x; forall; var 0..1: y; constraint int_le(y,1); exists; var 0..0: z; constraint int_eq(z,y); goal; solve;"
ALWAYS_WON = "exists; var 0..1: x; constraint int_le(0,x); forall; var 0..0: y; goal; constraint int_le(y,x); solve;"
STUCK_FOR_SOME = (
    "exists minimize x; var 0..2: x; forall; var 1..1: y; constraint int_le(y,x); exists; var 0..0: w; constraint int_lt(w,0); goal; solve;"
)
OPEN_GREATEST = (
    "exists maximize z; var 0..1: x; var 0..5: z; constraint int_lin_le([1,-4],[z,x],1);"
    " forall; var 0..0: y; constraint int_lt(y,0); goal; solve;"
)
SAME_FOR_ALL = "exists maximize z; var 0..2: x; exists; var 0..3: z; constraint int_le(z,2); goal; solve;"
BELOW_X = "exists maximize z; var 0..2: x; exists; var 0..3: z; goal; constraint int_le(z,x); solve;"
NO_PAIR = (
    "forall; var 0..1: u; exists; var 0..1: x; var 0..1: y; constraint int_lin_le([1,-1,2],[x,y,u],1);"
    " constraint int_lin_le([-1,1,2],[x,y,u],1); exists; var 0..0: z; goal; solve;"
)
SAME_BELOW = "forall; var 0..1: u; exists; var 0..1: y; constraint int_le(1,y); goal; solve;"
OTHER_BELOW = "forall; var 0..1: u; exists; var 0..1: y; constraint {}; goal; solve;"
OTHER_VALUE, OTHER_SUM = OTHER_BELOW.format("int_lt(u,y)"), OTHER_BELOW.format("int_lin_le([1,-1],[u,y],-1)")
OTHER_WISH = "exists maximize x; var 0..1: x; exists; var 0..0: y; goal; solve;"
OWN_BELOW = "exists; var 0..1: x; exists; var 0..1: y; constraint int_le(1,y); goal; solve;"
ONE_TOO_MANY = "exists; var 0..1: x; forall; var 0..1: y; goal; constraint int_le(y,0); solve;"
ANY_SUM = OTHER_BELOW.format("int_lin_le([1,1],[u,y],3)")
WISH_OF_THREE = "exists maximize x; var 0..2: w; var 0..1: x; exists; var 0..0: y; goal; solve;"
OTHER_CLAUSE = "forall; var bool: u; exists; var bool: y; constraint bool_clause([],[u]); goal; solve;"
BEYOND_BLOCK = "exists maximize x; var 0..1: x; forall; var 0..1: y; exists; var 0..1: z; goal; constraint int_le(1,z); solve;"
GREATEST_Y = "exists maximize y; var 0..1: x; exists; var 0..1: y; goal; solve;"
NOBODY = "{}; var 0..1: u; exists; var 0..1: y; exists; var 0..1: z; constraint int_lt(z,0); goal; solve;"
NOBODY_PASSES, NOBODY_OPEN = NOBODY.format("forall"), NOBODY.format("exists")
PRUNED = (
    "exists maximize s; forall; var 0..1: x; aggregate s = least(z) else 0; exists; var 0..3: z;"
    " constraint int_lin_le([2,1],[x,z],3); goal; solve;"
)
OPEN_READ = (
    "exists; var 0..1: w; var 0..2: x; constraint int_lin_le([1,-2],[x,w],0); forall; var 0..1: y; constraint int_le(y,1);"
    " exists; var 0..0: z; constraint int_lin_le([-1],[x],-1); goal; solve;"
)
OPEN_FIRST = "exists; var 0..1: w; var 0..1: x; exists; var 0..0: z; constraint int_lin_le([-1,-1],[x,z],-2); goal; solve;"
STUCK_BY_X = "exists; var 0..1: x; forall; var 1..1: y; constraint int_le(y,x); goal; constraint int_lt(x,1); solve;"
ALWAYS_STUCK = (
    "exists maximize x; var 0..1: w; exists; var 0..1: x; constraint int_le(x,w); forall; var 0..1: y; constraint int_lt(y,0); goal; solve;"
)
BOUNDED = (
    "exists minimize s; forall; var 0..1: u; aggregate s = sum(y); exists; var 0..1: x; constraint int_lin_le([1,1],[u,x],1);"
    " exists; var 0..3: y; goal; solve;"
)
BOUND_ABOVE = "n v1 n v2 b3.0.1 n m v3 n g n g . n v3 n g r3 b3.1.3 e . . n v2 n {} x . ."
PRICING = (
    "exists maximize c; var 0..3: p; exists minimize c; var 0..1: b; var 0..6: c; constraint int_lin_le([1,-3,-1],[p,b,c],0);"
    " constraint int_lin_le([2,-1],[b,c],0); goal; solve;"
)
PRICE = "v1 r1 n f0.1 y n v2 c v3 n g r6 b3.3.6 e . c v3 n g r6 b3.3.6 e . . n {} ."
PAYS_PRICE = "exists maximize c; var 0..1: p; exists minimize c; var 0..1: c; constraint int_le(p,c); goal; solve;"
PAID = "v1 n v2 n g b2.1.1 e . n {} ."
EARLIER_WISH = (
    "exists maximize c; var 0..1: x; var 0..3: c; constraint int_lin_le([1,-4],[c,x],1); exists minimize c; var 0..0: b; goal; solve;"
)
AS_PRICED = "exists maximize c; var 0..1: p; exists; var 0..1: c; constraint int_le(c,p); goal; solve;"
SUM_PRICED = (
    "exists maximize s; var 0..1: p; exists; var 0..0: x; forall; var 0..0: y; aggregate s = sum(z);"
    " exists; var 0..1: z; constraint int_le(z,p); goal; solve;"
)
ZERO_PASSES = "exists maximize x; var 0..1: x; forall; var 0..1: y; goal; constraint int_le(x,0); solve;"
SUM_LOST = "exists maximize s; forall; var 0..1: y; aggregate s = sum(z); exists; var 0..1: z; constraint int_lt(y,1); goal; solve;"
LEAST_OF_TWO = "exists minimize c; var 0..1: c; goal; solve;"
LEAST_TWO = "exists minimize c; var 2..3: c; goal; solve;"
ONE_AT_GOAL = "exists minimize c; var 0..1: c; goal; constraint int_le(1,c); solve;"
ONE_AFTER = "exists minimize c; var 0..1: c; exists; var 0..0: z; goal; constraint int_le(1,c); solve;"
TWO_WAYS = "exists maximize z; var 0..1: x; exists; var 0..3: z; constraint int_lin_le([1,-3],[z,x],1); goal; solve;"
BRANCHES = (
    "exists maximize s; var 0..1: p; forall; var 0..1: y; aggregate s = sum(z); exists; var 0..1: z;"
    " constraint int_lin_le([1,-1,-1],[z,y,p],0); goal; solve;"
)
SUMS = "v1 n v2 n c n g n b3.0.0 n g . n {} ."
AT_HORIZON = "n v1 n v2 n m e n a1 . n h3 v2 n {0} n {0} . ."

ROWS = [
    # closing
    (CHAIN, [("true", "c n g")], [("false", "e"), ("true", "n g"), ("true", "c e")]),
    (HOLE, [("true 0", "c v1 n g x n g .")], [("true 0", "c v1 n g n g ."), ("true 2", "c v1 n g x n g .")]),
    (
        NOTHING,
        [("false", "h1 t"), ("false", "e"), ("false", "l1"), ("false", "m h1 t")],
        [("false", "c e"), ("false", "h1 e"), ("true", "e"), ("false", "h3 e"), ("true", "v1 n g s ."), ("false", "x")],
    ),
    (SOMETHING, [("true", "c n g")], [("false", "h1 t"), ("false", "l1"), ("false", "y"), ("true", "u1.0 v1 n g s ."), ("true", "f0 v1 n g s .")]),
    # nodes and ends
    (
        NEVER,
        [("false", "h2 v1 n t n t ."), ("false", "v1 n g n g .")],
        [("true", "g"), ("false", "h2 v1 n g n g ."), ("false", "v1 n h2 t n h2 t ."), ("false", "v1 r1 n g .")],
    ),
    (SECOND_FAILS, [("false", "h2 n t")], [("false", "h2 n h2 t")]),
    (ONE_BARRED, [("true 3", "v1 n b2.0.2 n g b2.0.3 e .")], [("true 3", "v1 n b2.0.2 n g b2.0.3 x .")]),
    (MOVE_LOSES, [("false", "n v2 n g n g ."), ("false", "e")], [("true", "v2 n n g s .")]),
    (WITH_ANOTHER, [("true 2", "v1 r1 b1.0.1 e v2 n g n g . .")], [("true 2", "v1 r1 b1.0.1 v2 e e . v2 n g n g . .")]),
    # free games
    (IN_KIND, [("true", "c v1 n v2 c n n g c n n g . s .")], [("true", "c v1 n v2 c n n g s . s ."), ("false", "c e")]),
    (NO_ANSWER, [("false", "e")], [("true", "c v1 n n c n g s ."), ("true", "v1 n e s .")]),
    (FIRST_LOSES, [("false", "e")], []),
    (INNER_LOSES, [("false", "v1 s n g s .")], [("false", "e")]),
    (
        UNRESTRICTED,
        [("false", "l4"), ("false", "v1 l4 l4 ."), ("false", "e")],
        [("false", "c l4"), ("false", "l3"), ("false", "l5"), ("false", "u2.0 l4")],
    ),
    (STUCK, [("true", "v1 n e s .")], [("false", "l4"), ("false", "u2.0 l4"), ("false", "u2.-1 l4"), ("false", "v1 n e n e .")]),
    (RESTRICTED, [("false", "u2.0 l4")], [("false", "l4"), ("false", "u2.1 l4"), ("false", "u2.0 u2.0 l4"), ("false", "u1.0 l4"), ("true", "u2.0 v1 n e s .")]),
    (FIRST_FREE, [("false", "u1.0 v1 n e x .")], [("false", "v1 n e x .")]),
    (TWO_MOVES, [("false", "u1.0 u2.0 l3")], [("false", "u1.0 l3"), ("false", "u2.0 u1.0 l3")]),
    (GOAL_LOSES, [("false", "u2.0 l3")], [("true", "u2.0 v1 n e s .")]),
    (ONE_PASSES, [("false", "v1 n g n g ."), ("false", "e")], [("false", "h2 v1 n t n t .")]),
    (LOST_BY_ONE, [("false", "v1 s l2 .")], [("true", "v1 n n g l2 ."), ("true", "v1 n n g .")]),
    (FORBIDDEN, [("true", "v1 n n g x .")], [("false", "u1.0 v1 s l2 .")]),
    (KEPT_OUT, [("true", "u2.0 v1 n c n n g s ."), ("true", "v1 n c n n g s .")], [("false", "u2.0 e")]),
    # tuples taken
    (TOO_GREAT, [("false", "w2 e"), ("false", "w2 l2")], [("true", "w1 c n g"), ("false", "w0 e"), ("false", "w2.0 e")]),
    (NOT_ALLOWED, [], [("false", "w0 e")]),
    (ENOUGH, [("true", "c n c n g")], [("false", "w2 e")]),
    # outcomes
    (
        ONE_WINS,
        [("open 1", "v1 n g o ."), ("true", "v1 n g n g ."), ("true", "w1 g")],
        [("open 2", "v1 n g o ."), ("open 1", "v1 n g s ."), ("false", "v1 n g o ."), ("true", "b1.0.0 n g"), ("false", "w0 g")]
        + [("open 1", "v1 o n g ."), ("false", "v1 n g s ."), ("false", "t"), ("true", "v1 n x n g ."), ("false", "v1 l2 l2 .")]
        + [("false", "v1 x x ."), ("open 1", "v1 v1 o . s ."), ("true", "v1 n g n g e .")],
    ),
    (
        GREATEST,
        [("true 2", "b1.0.1 n g")],
        [("true 0", "b1.1.2 n g"), ("true 1", "b1.0.1 n g"), ("true", "b1.0.1 n g"), ("true 2", "w2 g"), ("true 2", "y")]
        + [("true 2", "b1.5.7 b1.0.1 n g"), ("true 0", "v1 n g .")],
    ),
    (BY_ANOTHER, [("true 3", "b2.0.2 c n g")], [("true 0", "b1.0.0 c n g")]),
    # loose parts
    (DECIDES, [("false", "n v2 s n e .")], [("false", "n v2 n e s ."), ("false", "n v2 s s .")]),
    (ALWAYS_WON, [("true", "v1 n n g s .")], [("true", "n n g")]),
    (STUCK_FOR_SOME, [("true 0", "v1 n e r2 n n e .")], [("false", "n c n e")]),
    (OPEN_GREATEST, [("true 5", "v1 c v2 n e n e . b2.0.4 n e .")], [("true 1", "v1 c v2 n e n e . n e .")]),
    (
        SAME_FOR_ALL,
        [("true 2", "v1 n m c b2.0.1 n g r2 n a1 ."), ("true 2", "v1 n c b2.0.1 n g r2 n c b2.0.2 e .")]
        + [("true 2", "c v1 n b2.0.1 n g r2 b2.0.2 e .")],
        [("true 1", "v1 n m c b2.0.1 n g r2 n a1 ."), ("true 2", "v1 n c b2.0.1 n g r2 n c b2.0.2 l1 .")]
        + [("true 2", "c v1 n b2.0.1 n g r2 b2.0.2 n e .")],
    ),
    (BELOW_X, [("true 2", "v1 r1 n c y n c b2.0.1 n g .")], [("true 2", "v1 r1 n c b2.0.0 n g n c b2.0.1 n g .")]),
    (NO_PAIR, [("false", "v1 s n v2 e e . .")], [("true", "v1 n w0.0 n g n n n g ."), ("true", "v1 n w0.0 m n g n n a1 .")]),
    (
        STUCK_BY_X,
        [("true", "v1 n e s .")],
        [("false", "n c n l3"), ("false", "e"), ("false", "u2.1 l3"), ("true", "u2.1 v1 n e s .")],
    ),
    (ALWAYS_STUCK, [("true 1", "v1 n c n e n v2 n e n e . .")], [("true 0", "v1 n c n e n n e .")]),
    # references
    (SAME_BELOW, [("true", "v1 n m c n g n a1 .")], [("true", "v1 n a1 n m c n g ."), ("true", "v1 n m c n g n a2 .")]),
    (OTHER_VALUE, [("false", "v1 s n e .")], [("true", "v1 n m c n g n a1 .")]),
    (OTHER_SUM, [("false", "v1 s n e .")], [("true", "v1 n m c n g n a1 .")]),
    (ANY_SUM, [("true", "v1 n m v2 n g s . n a1 .")], []),
    (OTHER_CLAUSE, [("false", "v1 s n e .")], [("true", "v1 n m v2 n g s . n a1 .")]),
    (OTHER_WISH, [("true 1", "v1 n n g n n g .")], [("true 0", "v1 n m n g n a1 .")]),
    (WISH_OF_THREE, [("true 1", "v1 n m n g n n g v2 n n g n n g . .")], [("true 1", "v1 n m n g n a1 v2 n n g n n g . .")]),
    (OWN_BELOW, [("true", "v1 n m c n g n a1 .")], [("true", "v1 n a1 n m c n g .")]),
    (ONE_TOO_MANY, [("false", "e")], [("true", "v1 n v2 n m g s . n a1 .")]),
    (GREATEST_Y, [("true 1", "v1 n m b2.0.0 n g n a1 .")], [("true 1", "v1 n m b2.0.0 n g b2.0.0 n a1 .")]),
    (NOBODY_PASSES, [("false", AT_HORIZON[2:].format("t"))], [("false", AT_HORIZON[2:].format("a1"))]),
    (
        NOBODY_OPEN,
        [("false", "h3 v1 n v2 n m t n a1 . n v2 n m t n a1 . ."), ("false", "h3 n v2 n m t n t .")],
        [("false", "h3 n v2 n m t n a1 .")],
    ),
    (PRUNED, [("true 1", "n v1 n m b2.0.2 n g c n b2.0.0 n g .")], [("true 3", "n v1 n m b2.0.2 n g c n a1 .")]),
    (BEYOND_BLOCK, [("true 1", "b1.0.0 n v2 n m c n g c n a1 .")], []),
    (OPEN_READ, [], [("false", "v1 c n v3 n m e s . n v3 n a1 s . .")]),
    (OPEN_FIRST, [("false", "v1 n m e v2 n e n e . .")], [("false", "v1 n m e v2 n a1 n e . .")]),
    # bounds, replies, best values left
    (BOUNDED, [("true 0", BOUND_ABOVE.format("v3 n g r3 b3.1.3 e ."))], [("true 2", BOUND_ABOVE.format("a1"))]),
    (
        PRICING,
        [("true 2", PRICE.format("f1.2 y"))],
        [("true 2", PRICE.format(last)) for last in ("f1.6 y", "f0.2 y", "y")] + [("true 3", PRICE.format("f1.2 y"))],
    ),
    (PAYS_PRICE, [("true 1", PAID.format("c n g"))], [("true 0", PAID.format(last)) for last in ("f1 y", "f0 y", "y")]),
    (EARLIER_WISH, [], [("true 1", "v1 c v2 n n g n n g . n f0 y .")]),
    (
        AS_PRICED,
        [("true 1", "v1 n c n g n v2 n g n g . .")],
        [("true 0", "v1 n c n g n v2 y n g . ."), ("true 0", "v1 n c n g n b2.1.1 y ."), ("true 0", "v1 n c n g n b2.0.1 e .")],
    ),
    (SUM_PRICED, [("true 1", "v1 n n n c n g n n n b4.0.0 n g .")], [("true 0", "v1 n n n c n g n y .")]),
    (ZERO_PASSES, [("true 0", "v1 n v2 n g n g . n e .")], [("true 1", "b1.0.0 n y")]),
    (SUM_LOST, [("false", "n v1 n b2.0.1 e n e .")], [("false", "n v1 n b2.0.1 y n e .")]),
    (LEAST_OF_TWO, [("true 0", "f0 n g")], [("false", "f0 e")]),
    (LEAST_TWO, [("true 2", "f2 n g")], [("false", "f1 e")]),
    (ONE_AT_GOAL, [("true 1", "f1 c n g")], [("false", "f0 e")]),
    (ONE_AFTER, [("true 1", "c n n g")], [("false", "f0 e")]),
    (TWO_WAYS, [("true 3", "v1 n c b2.0.0 n g n b2.0.2 n g .")], [("true 1", "v1 n c b2.0.0 n g n b2.2.3 y .")]),
    (BRANCHES, [("true 2", SUMS.format("v2 n b3.0.0 n g n b3.0.0 n g ."))], [("true 1", SUMS.format("n y"))]),
]
# What is no text: what stands behind the outcome, and how far into that the fault is.
FAULTS = [("l 4\ne\n", 4), ("m\na 1\n", 2), ("h 1\nl 4\n", 4), ("u 1 01\n", 5), ("c\ng\n", 2), ("v 1\nr 1\nr 1\n", 8)]
FAULTS += [("a 0\n", 2), ("w 1000000001\n", 11), ("e\n.\n", 2), ("w  1\n", 2), ("p 1 0 0 1\n", 0), ("c\n", 2), ("c\nu 2 0\n", 2)]


def text(outcome, lines):
    """The text of a certificate; a line is written `b2.0.1` for `b 2 0 1`."""
    spelled = [re.sub(r"^([a-z])(?=[0-9-])", r"\1 ", line).replace(".", " ") if line != "." else line for line in lines.split()]
    return f"qcert 4\n{outcome}\n{''.join(line + chr(10) for line in spelled)}".encode()


def worked():
    """The problems of the page that stand before a table of lines, each with the certificate that the table's first cells make."""
    with open(os.path.join(TOP, "docs", "dense.md"), encoding="utf-8") as file:
        page = file.read()
    for problem, table in re.findall(r"```\n((?:exists|forall)[^`]*)```\n\n\| line .*\n\|[-|]*\n((?:\|.*\n)*)", page):
        cells = [row.strip("| ").split(" | ")[0] for row in table.splitlines()]
        yield problem, "".join(line + "\n" for cell in cells for line in re.findall("`(.*?)`", cell)).encode()


class DenseCertificates(unittest.TestCase):
    def judge(self, problem, data, believed):
        game = Game(problem.encode())
        answer = judged(game, data)
        stated = data.split(b"\n")[1].decode()
        self.assertEqual(answer.partition(":")[0], stated if believed else "no", (problem, data.decode(), answer))
        if believed and not stated.startswith("open"):
            self.assertEqual(stated, game.outcome())

    def test_certificates_that_prove(self):
        for problem, right, _ in ROWS:
            for outcome, lines in right:
                with self.subTest(problem=problem, lines=lines):
                    self.judge(problem, text(outcome, lines), True)

    def test_certificates_that_are_just_wrong(self):
        for problem, _, wrong in ROWS:
            for outcome, lines in wrong:
                with self.subTest(problem=problem, lines=lines):
                    self.judge(problem, text(outcome, lines), False)

    def test_texts(self):
        game = Game(RESTRICTED.encode())
        head = b"qcert 4\nfalse\n"
        for lines, at in FAULTS:
            with self.subTest(lines=lines):
                self.assertEqual(judged(game, head + lines.encode()), f"no: bad certificate at {len(head) + at}")

    def test_the_page(self):
        found = list(worked())
        self.assertEqual(len(found), 2)
        for problem, data in found:
            self.judge(problem, data, True)
            # No line of it can be left out.
            lines = data.splitlines(keepends=True)
            for k in range(2, len(lines)):
                with self.subTest(without=k + 1):
                    self.judge(problem, b"".join(lines[:k] + lines[k + 1 :]), False)


if __name__ == "__main__":
    unittest.main()
