"""Worked rows for the self test of player.py. What each comes to was found by hand."""

UNEQUAL = "exists; var 0..1: x; forall; var 0..1: y; goal; constraint int_eq(x,y); solve;"
ANSWERED = "forall; var 0..1: y; exists; var 0..1: x; goal; constraint int_eq(x,y); solve;"
AT_MOST = "exists;\nvar 0..1: x;\nforall;\nvar 0..1: y;\ngoal;\nconstraint int_le(y,x);\nsolve;\n"
STUCK_PLAYER = "exists; var 0..1: x; constraint int_lt(1,x); goal; solve;"
LATER_STUCK = "exists; var 0..1: x; forall; var 0..1: y; exists; var 0..1: z; constraint int_lt(z,0); goal; solve;"
INDIFFERENT = (
    "exists minimize c; var 0..1: x; exists minimize d; var 0..1: y; var 0..9: c; var 0..0: d;"
    " constraint int_lin_eq([4,1,-1],[y,x,c],0); goal; solve;"
)
SEVERAL = (
    "exists minimize m; exists minimize s; forall; var 1..2: t; aggregate s = sum(z); aggregate m = greatest(w) else 0;"
    " exists; var 0..3: z; var 0..3: w; constraint int_lin_le([1,-1,-1],[t,z,w],0); goal; solve;"
)
PRICES = """exists maximize total;
var 0..10: t1; var 0..10: t2; var 0..10: t3;
forall;
var 1..3: k;
aggregate total = sum(income);
exists minimize cost;
var 1..4: a; var 1..12: i; var 0..20: base; var 0..10: toll;
var 0..30: cost; var 1..3: dem; var 0..30: income;
constraint int_lin_eq([4,1,-1],[k,a,i],4);
constraint array_int_element(i,[3,6,20,10,6,3,20,9,20,4,5,7],base);
constraint array_var_int_element(a,[t1,t2,t3,0],toll);
constraint int_plus(base,toll,cost);
constraint array_int_element(k,[2,1,3],dem);
constraint int_times(dem,toll,income);
goal;
solve;
"""
SMALLEST = "exists minimize x; var 0..2: x; goal; solve;"
SAME_TARGET = "exists minimize c; var 0..0: x; exists maximize c; var 0..9: c; goal; solve;"
THREE_OF_TWO = (
    "exists; var 1..2: a; var 1..2: b; var {}: c; constraint all_different_int([a,b,c]); goal; solve;"
)
TWICE = "exists; var bool: b; goal; constraint array_bool_xor([b,b]); solve;"
WORST = (
    "exists minimize g; var 0..1: x; forall; var 0..1: t; aggregate g = greatest(z) else 0;"
    " exists; var 0..9: z; constraint int_times(x,9,z); goal; solve;"
)
TEN = "exists; var 0..9: x; goal; solve;"
BEYOND = "exists; var 0..9: x; constraint int_lt(9,x); goal; solve;"

# A problem, and its outcome.
SOLVED = [
    ("goal; solve;", "true"),
    ("goal; constraint int_lt(1,0); solve;", "false"),
    ("goal;\nconstraint int_le(1,0);\nsolve;\n", "false"),
    (
        "exists; var 1..3: x; constraint int_ne(x,2); forall; var 1..2: y; constraint int_le(y,x); goal;"
        " constraint int_lin_le([1,1],[x,y],3); solve;",
        "true",
    ),
    (
        "exists; var 0..1: x; forall; var 0..1: y; constraint int_lt(y,0); goal; constraint int_eq(x,2); solve;",
        "true",
    ),
    (STUCK_PLAYER, "false"),
    (UNEQUAL, "false"),
    (ANSWERED, "true"),
    (INDIFFERENT, "true 0"),
    (INDIFFERENT.replace("exists minimize d;", "exists maximize y;"), "true 4"),
    (
        "exists minimize s; var 0..2: x; forall; var 1..3: t; aggregate s = sum(z); exists; var 0..9: z; goal;"
        " constraint int_lin_le([1,-1,-1],[t,x,z],0); solve;",
        "true 1",
    ),
    (
        "exists maximize g; var 0..1: x; forall; var 1..2: t; aggregate g = greatest(t) else 7;"
        " constraint int_le(t,x); goal; solve;",
        "true 7",
    ),
    ("forall; var bool: a; var bool: b; exists; var bool: c; goal; constraint bool_xor(a,b,c); solve;", "true"),
    (LATER_STUCK, "false"),
    ("exists; var 0..0: x; var -5..5: q; constraint int_div(5,x,q); goal; solve;", "false"),
    (
        "exists; var -5..5: q; var -5..5: r; constraint int_div(-7,2,q); constraint int_mod(-7,2,r); goal;"
        " constraint int_eq(q,-3); constraint int_eq(r,-1); solve;",
        "true",
    ),
    ("exists; var 1000000000..1000000000: x; goal; solve;", "true"),
    ("exists; var 0..1048575: x; goal; solve;", "true"),
    (PRICES, "true 26"),
    (SMALLEST, "true 0"),
    (SAME_TARGET, "true 9"),
    (AT_MOST, "true"),
    (THREE_OF_TWO.format("1..2"), "false"),
    (THREE_OF_TWO.format("1..3"), "true"),
    (TWICE, "false"),
    (
        "exists; var bool: b; var 0..3: x; constraint int_le_reif(x,1,b); goal; constraint bool_clause([],[b]);"
        " constraint int_le(x,2); solve;",
        "true",
    ),
    (WORST, "true 0"),
    (SEVERAL, "true 2"),
    (TEN, "true"),
    (BEYOND, "false"),
]

# Sizes of whole trees.
TURNS = [
    ("goal; solve;", 0),
    ("forall; var bool: a; var bool: b; exists; var bool: c; goal; constraint bool_xor(a,b,c); solve;", 24),
    ("exists; var {0,5}: x; var 1..3: y; goal; solve;", 12),
    ("exists; " + "".join(f"var 0..1: x{k}; " for k in range(64)) + "goal; solve;", 2**63),
]


def lines(*words):
    return "".join(word + "\n" for word in words)


def split(text):
    """Lines written with commas between."""
    return lines(*text.split(","))


FALSE = split("qcert 1,false,v 1,n,v 2,s,n,g,.,n,v 2,n,g,s,.,.")
TRUE = split("qcert 1,true,v 1,n,v 2,n,g,n,g,.,n,v 2,n,g,n,g,.,.")
CUT = split("qcert 1,true 0,v 1,n,v 2,n,p 3 1 9 1,n,g,n,p 3 1 9 1,n,g,.,n,v 2,n,p 3 0 8 1,n,g,s,.,.")
FIRST_OF_TEN = split("qcert 2,true,v 1,n,g,r 9,s,.")
CROWD = split("qcert 1,false,p 1 1 2 1,e")

# A problem, a certificate, and what `check` writes.
CHECKED = [
    (STUCK_PLAYER, split("qcert 1,false,h 1,p 1 0 1 1,.,t"), "yes false"),
    (STUCK_PLAYER, split("qcert 1,false,p 1 0 1 1,e"), "yes false"),
    ("goal; solve;", split("qcert 1,true,g"), "yes true"),
    ("goal; constraint int_lt(1,0); solve;", split("qcert 1,false,g"), "yes false"),
    (UNEQUAL, FALSE, "yes false"),
    (ANSWERED, FALSE, "no"),
    (UNEQUAL, split("qcert 1,false,v 1,n,v 2,s,n,g,.,s,."), "no"),
    (UNEQUAL, split("qcert 1,false,v 01"), "bad certificate at 16"),
    (UNEQUAL, "", "bad certificate at 0"),
    (UNEQUAL, lines("qcert 1", "true", *["n"] * 1_001), "certificate too deep at 2013"),
    (UNEQUAL, lines("qcert 1", "true", *["n"] * 1_000), "bad certificate at 2013"),
    (UNEQUAL, FALSE + "g\n", "bad certificate at 48"),
    (ANSWERED, FALSE + "g\n", "bad certificate at 48"),
    (UNEQUAL, split("qcert 1,false,v 1,n,v 2,s,n,g,.,."), "no"),
    ("exists; var 0..0: x; goal; solve;", split("qcert 1,false,x"), "no"),
    (UNEQUAL, FALSE[:14] + "w" + FALSE[15:], "bad certificate at 14"),
    (UNEQUAL, FALSE[:7] + "\r" + FALSE[7:], "bad certificate at 7"),
    (UNEQUAL, FALSE.replace("v 1", "v 3"), "no"),
    (UNEQUAL, FALSE.replace("v 1", "v 501"), "bad certificate at 18"),
    (UNEQUAL, FALSE.replace("v 1", "v 0"), "bad certificate at 16"),
    (UNEQUAL, FALSE.replace("v 1", "v -1"), "bad certificate at 16"),
    *[(UNEQUAL, FALSE[:length], f"bad certificate at {length}") for length in range(len(FALSE))],
    (SMALLEST, split("qcert 1,true 0,b 1 1 2,n,g"), "yes true 0"),
    (SMALLEST, split("qcert 1,true 1,b 1 0 0,b 1 2 2,n,g"), "no"),
    (SMALLEST, split("qcert 1,true -0,g"), "bad certificate at 14"),
    (SAME_TARGET, split("qcert 1,true 9,n,b 2 0 8,n,g"), "yes true 9"),
    (SAME_TARGET, split("qcert 1,true 0,b 2 1 9,n,n,g"), "no"),
    (AT_MOST, TRUE, "yes true"),
    (AT_MOST, TRUE.replace("true", "false"), "no"),
    (AT_MOST, split("qcert 1,open 1,v 1,n,v 2,o,o,.,o,."), "yes open 1"),
    (AT_MOST, split("qcert 1,open 2,v 1,n,v 2,o,o,.,o,."), "no"),
    (
        "forall; var 0..1: y; goal; constraint int_lt(y,0); solve;",
        split("qcert 1,true,p 1 0 1 1,e"),
        "no",
    ),
    (THREE_OF_TWO.format("1..2"), CROWD, "yes false"),
    (THREE_OF_TWO.format("1..3"), CROWD, "no"),
    (TWICE, split("qcert 1,false,p 1 0 0 1,p 1 1 1 1,e"), "yes false"),
    (TWICE, split("qcert 1,false,p 1 0 1 1,e"), "no"),
    (WORST, CUT, "yes true 0"),
    (WORST.replace("greatest(z) else 0", "sum(z)"), CUT, "no"),
    (LATER_STUCK, split("qcert 1,false,h 3,p 3 0 1 1,.,v 1,n,v 2,n,t,s,.,s,."), "no"),
    (LATER_STUCK, split("qcert 1,false,h 3,p 3 0 1 1,.,v 1,n,v 2,n,t,s,.,n,v 2,n,t,s,.,."), "yes false"),
    (TEN, FIRST_OF_TEN, "yes true"),
    (TEN, FIRST_OF_TEN.replace("r 9", "r 8"), "no"),
    (TEN, FIRST_OF_TEN.replace("qcert 2", "qcert 1"), "bad certificate at 21"),
    (
        "exists minimize x; var 0..9: x; goal; solve;",
        split("qcert 2,true 0,v 1,n,g,r 9,s,."),
        "no",
    ),
    (BEYOND, split("qcert 2,false,v 1,r 4,p 1 0 4 1,e,r 9,p 1 5 9 1,e,."), "yes false"),
]

MISSING, RANGED, UNCLOSED = "a horizon is missing", "a range is taken", "a box at a branch isn't closed"
DECIDED = "a case is taken after the scope was decided"

# A problem, a certificate that is in place, and which promises of `solve` it breaks.
PROMISED = [
    (UNEQUAL, FALSE, []),
    (STUCK_PLAYER, split("qcert 1,false,h 1,p 1 0 1 1,.,t"), []),
    (STUCK_PLAYER, split("qcert 1,false,p 1 0 1 1,e"), [MISSING]),
    (THREE_OF_TWO.format("1..2"), CROWD, [MISSING]),
    (TWICE, split("qcert 1,false,v 1,n,g,n,g,."), [UNCLOSED, MISSING]),
    (SMALLEST, split("qcert 1,true 0,b 1 1 2,n,g"), []),
    (SMALLEST, split("qcert 1,true 0,v 1,n,g,n,g,n,g,."), ["a value is left that is worse than what was found"]),
    (SMALLEST, split("qcert 1,true 0,v 1,n,g,b 1 1 1,e,b 1 2 2,e,."), []),
    (WORST, CUT, []),
    (LATER_STUCK, split("qcert 1,false,h 3,p 3 0 1 1,.,v 1,n,v 2,n,t,s,.,n,v 2,n,t,s,.,."), []),
    (TEN, FIRST_OF_TEN, []),
    (TEN, split("qcert 2,true,v 1,n,g,n,g,r 9,s,."), [DECIDED]),
    (TEN, split("qcert 2,true,v 1,n,g,s,r 9,s,."), ["two cases that one could be"]),
    (BEYOND, split("qcert 2,false,v 1,r 4,p 1 0 4 1,e,r 9,p 1 5 9 1,e,."), [UNCLOSED, MISSING, RANGED]),
    (
        "exists; var 0..1: x; var 0..1: y; goal; solve;",
        split("qcert 2,true,v 2,v 1,n,g,s,.,s,."),
        ["the first open variable doesn't come first"],
    ),
    (AT_MOST, split("qcert 1,open 1,v 1,n,v 2,o,o,.,o,."), ["two cases that one could be"]),
    (AT_MOST, split("qcert 1,open 3,v 1,o,n,v 2,n,g,n,g,.,."), ["a case is taken after one was left open"]),
    (ANSWERED, split("qcert 1,open 1,v 1,n,p 2 1 1 1,n,g,o,."), []),
    (UNEQUAL, split("qcert 1,open 1,v 1,n,v 2,s,o,.,o,."), ["a case is left out, and nothing is known"]),
]

# The follower doesn't mind whether the leader pays 4 or nothing.
TIED = (
    "exists minimize c; var 0..1: x; exists minimize d; var 0..1: y; var 0..9: c; var 0..0: d;"
    "constraint int_lin_eq([4,1,-1],[y,x,c],0); goal; solve;"
)

# A text, the scopes (from 0) whose owners meet the worst ties, and the outcome.
WORST = [
    (TIED, [], "true 0"),
    (TIED, [0], "true 4"),
    (TIED, [1], "true 0"),
    (TIED, [0, 1], "true 4"),
    ("exists maximize c; var 0..1: x; exists; var 0..9: c; constraint int_le(x,c); goal; solve;", [0], "true 1"),
    ("exists maximize s; forall; var 0..1: t; aggregate s = sum(z); exists; var 0..3: z; goal; solve;", [0], "true 0"),
    ("exists minimize c; var 0..1: x; exists; var 0..9: c; goal; constraint int_lt(c,x); solve;", [0], "true 0"),
]

# A text, and what `print` writes.
REFUSED = [
    (
        "exists;constraint int_le(x,3);var {2,0,1,2}: x; % c\ngoal;solve;",
        "exists;\nvar 0..2: x;\nconstraint int_le(x,3);\ngoal;\nsolve;",
    ),
    ("exists; var 1000000001..1000000001: x; goal; solve;", "bad problem: 8 OutOfRange at 12"),
    ("exists; var 0..1048576: x; goal; solve;", "bad problem: 10 TooWide at 12"),
    ("goal; #", "bad problem: 1 BadByte at 6"),
    ("goal; constraint int_le(0x1F,1); solve;", "bad problem: 2 BadNumber at 24"),
    ("goal; solve", "bad problem: 3 Syntax at 11"),
    ("exists; var 0..1: x; var 0..1: x; goal; solve;", "bad problem: 4 DuplicateName at 31"),
    ("goal; constraint int_le(x,1); solve;", "bad problem: 5 UnknownName at 24"),
    ("goal; constraint int_pow(2,2,4); solve;", "bad problem: 6 UnknownPredicate at 17"),
    ("goal; constraint int_le(1); solve;", "bad problem: 7 WrongArguments at 17"),
    ("exists; var 3..1: x; goal; solve;", "bad problem: 9 EmptyDomain at 12"),
    ("forall; " * 65 + "goal; solve;", "bad problem: 11 TooMany at 512"),
    (
        "exists minimize g; forall; forall; var 0..1: t; aggregate g = sum(t); goal; solve;",
        "bad problem: 12 NotVisible at 16",
    ),
    (
        "forall; var 0..1: t; aggregate f = sum(t); aggregate g = sum(t); goal; solve;",
        "forall;\nvar 0..1: t;\naggregate f = sum(t);\naggregate g = sum(t);\ngoal;\nsolve;",
    ),
    (
        SEVERAL.replace("minimize m", "minimize ?").replace("minimize s", "minimize m").replace("?", "s"),
        "bad problem: 14 BottleneckFirst at 81",
    ),
    ("goal; " + "constraint int_le(0,0); " * 20_001 + "solve;", "bad problem: 11 TooMany at 480006"),
    (
        "forall;var 0..1:t;" + "".join(f"aggregate a{k:03}=sum(t);" for k in range(256)) + "goal;solve;",
        f"bad problem: 11 TooMany at {18 + 255 * len('aggregate a000=sum(t);')}",
    ),
]
