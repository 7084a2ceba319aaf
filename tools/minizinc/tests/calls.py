"""Each builtin of MiniZinc's library and each global called directly, as it is and reified: it is solved, or refused by name.

The builtins are those that the library of the installed MiniZinc declares for FlatZinc, so none is forgotten. What a builtin
means inside a goal is compared, for all values of its variables, by a game each: with `qecodefzn/builtins.py`, and of sets and of
arrays with an expression of the same meaning.
"""
import glob
import itertools
import json
import os
import random
import re
import tempfile

from common import GECODE, LIBRARY, TOOL, has_gecode, read, run, write
from random_models import answered, from_json, with_includes

from qecodefzn.builtins import HOLDS
from qecodefzn.configuration import written_configuration

OURS = os.path.join(TOOL, "mznlib")
DOMAINS = {
    **{name: "0..3" for name in ("x", "y", "z")},
    **{name: "bool" for name in ("p", "q", "r", "m")},
    **{name: "set of 1..3" for name in ("s", "t", "u")},
    **{name: "1..3" for name in ("xx", "yy", "zz", "w1")},
    **{name: "0..6" for name in ("w2", "w3", "w4")},
    **{name: "0.0..3.0" for name in ("f", "g", "h")},
    **{name: "bool" for name in ("e1", "e2", "e3", "e4")},
    "n": "opt 0..2",
    "o": "opt 1..3",
}
# What stands for arguments of a type that the library declares: for the first of that type, the second, and so on.
ARGUMENTS = {
    "int": "2 3",
    "float": "0.5 1.5",
    "set of int": "{1,3}",
    "set of float": "0.0..1.0",
    "var int": "z x y",
    "var bool": "r m q p",
    "var float": "f g h",
    "var set of int": "s t u",
    "array[int] of int": "[1,2]",
    "array[int] of bool": "[true,false]",
    "array[int] of float": "[0.5,1.5]",
    "array[int] of set of int": "[{1},{2,3},{1,2}]",
    "array[int] of var int": "[x,y]",
    "array[int] of var bool": "[p,q] [r,m]",
    "array[int] of var float": "[f,g]",
    "array[int] of var set of int": "[s,t]",
    "array[int,int] of var int": "[|x,y|y,z|]",
    "array[int,int] of var bool": "[|p,q|q,r|]",
    "array[int,int] of var float": "[|f,g|g,h|]",
    "array[int,int] of var set of int": "[|s,t|t,u|]",
}
EXPRESSIONS = """
u = s union t | u = s intersect t | u = s diff t | u = s symdiff t | s = [{1},{2,3},{1,2}][x] | s = [t,u][x] | not (x div y = z)
not (x mod y = z) | p <-> ([x,y,z][z] = x) | p -> x = y | p -> x + 2*y <= 3 | not (min([x,y,z]) = 1) | p <-> xorall([q,r])
pow(x,y) = z | card(s union t) = 2 | occurs(o) /\\ deopt(o) = x | forall(i in s)(i > 1) | sum(i in s)(i) = 3 | max(s) = 2
p <-> (s = {1}) | array_set_element(xx,[{1},{2,3},{1,2}],s) | p <-> array_set_element(xx,[{1},{2,3},{1,2}],s)
array_var_set_element(xx,[s,t,s],u) | p <-> array_var_set_element(xx,[s,t,s],u)
"""
# A graph of three nodes with four edges.
FROM, TO = "[1,2,3,1]", "[2,3,1,3]"
PART = "[p,q,r],[e1,e2,e3,e4]"
GLOBALS = f"""
alldifferent([x,y,z]) | all_equal([x,y,z]) | alldifferent_except_0([x,y,z]) | among(1,[x,y,z],{{1,2}}) | arg_max([x,y,z]) = 2
arg_min([x,y,z]) = 2 | arg_sort([x,y,z],[xx,yy,zz]) | at_least(1,[x,y,z],2) | at_most(1,[x,y,z],2) | bin_packing(4,[x,y,z],[1,2,3])
bin_packing_capa([4,4,4,4],[x+1,y+1,z+1],[1,2,3]) | bin_packing_load([w1,w2,w3,w4],[x+1,y+1,z+1],[1,2,3]) | circuit([xx,yy,zz])
cost_regular([x,yy,zz],2,3,[|1,2,1|2,0,2|],1,{{2}},[|1,2,3|3,2,1|],w2) | count([x,y,z],1,xx)
cumulative([x,y,z],[1,2,1],[1,1,2],2) | decreasing([x,y,z]) | diffn([x,y],[y,z],[1,1],[1,1]) | disjoint(s,t)
disjunctive([x,y,z],[1,1,1]) | distribute([x,y],[0,1],[xx,yy]) | exactly(1,[x,y,z],2) | global_cardinality([x,y,z],[0,1,2],[xx,yy,w2])
global_cardinality_closed([x,y,z],[0,1,2,3],[w2,w3,w4,x]) | global_cardinality_low_up([x,y,z],[0,1],[0,0],[1,2]) | increasing([x,y,z])
int_set_channel([xx,yy],[s,t,u]) | inverse([xx,yy,zz],[w1,yy,zz]) | inverse_set([s,t,u],[s,t,u]) | knapsack([1,2,3],[3,2,1],[x,y,z],w2,w3)
lex_less([x,y],[y,z]) | lex_lesseq([x,y],[y,z]) | lex2([|x,y|y,z|]) | link_set_to_booleans(s,[p,q,r]) | maximum(x,[y,z])
mdd([x,y],3,[1,2,2],4,[1,1,2,3],[{{0}},{{1,2}},{{1}},{{2,3}}],[2,3,0,0]) | member([x,y],z) | minimum(x,[y,z]) | network_flow([|1,2|2,3|],[1,0,-1],[x,y])
nvalue(x,[y,z]) | partition_set([s,t],1..3) | range([xx,yy,zz],s,t)
regular([xx,yy,zz],2,3,[|1,2,1|2,1,2|],1,{{2}}) | regular([xx,yy],"1 2* 3") | roots([xx,yy,zz],s,t) | sliding_sum(1,4,2,[x,y,z])
regular([x,y,z],2,1..2,array2d(1..2,1..2,[1,2,0,2]),1,{{2}}) | regular_nfa([x,y,z],2,2,[|{{1}},{{1,2}}|{{}},{{2}}|],1,{{2}})
regular_nfa([x,y,z],2,0..1,array2d(1..2,0..1,[{{1}},{{1,2}},{{}},{{2}}]),1,{{2}}) | seq_precede_chain([x,y,z]) | subcircuit([xx,yy,zz,w1])
sort([x,y,z],[xx,yy,zz]) | strict_lex2([|x,y|y,z|]) | strictly_increasing([x,y,z]) | sum_pred(xx,[{{1}},{{2,3}},{{1,3}}],[1,2,3],w1)
symmetric_all_different([xx,yy,zz]) | table([x,y],[|1,2|2,1|]) | table([p,q],[|true,false|])
value_precede(1,2,[x,y,z]) | value_precede_chain([1,2,3],[x,y,z]) | value_precede(1,2,[s,t,u]) | value_precede_chain([1,2,3],[s,t,u])
connected({FROM},{TO},{PART}) | dconnected({FROM},{TO},{PART}) | dag({FROM},{TO},{PART}) | reachable({FROM},{TO},xx,{PART})
reachable(3,4,{FROM},{TO},xx,{PART}) | dreachable({FROM},{TO},xx,{PART}) | dreachable(3,4,{FROM},{TO},xx,{PART}) | tree({FROM},{TO},xx,{PART})
tree(3,4,{FROM},{TO},xx,{PART}) | dtree({FROM},{TO},xx,{PART}) | dtree(3,4,{FROM},{TO},xx,{PART}) | path({FROM},{TO},xx,yy,{PART})
path(3,4,{FROM},{TO},xx,yy,{PART}) | dpath({FROM},{TO},xx,yy,{PART}) | dpath(3,4,{FROM},{TO},xx,yy,{PART})
bounded_path({FROM},{TO},[1,2,3,1],xx,yy,{PART},w2) | bounded_dpath({FROM},{TO},[1,2,3,1],xx,yy,{PART},w2)
steiner(3,4,{FROM},{TO},[1,2,3,1],{PART},w2) | dsteiner(3,4,{FROM},{TO},[1,2,3,1],xx,{PART},w2) | subgraph({FROM},{TO},{PART})
all_disjoint([s,t]) | alldifferent_except([x,y,z],{{0,1}}) | at_most1([s,t]) | diffn_k([|x,y|y,z|],[|1,1|1,1|])
diffn_nonstrict([x,y],[y,z],[1,0],[1,1]) | diffn_nonstrict_k([|x,y|y,z|],[|1,0|1,1|]) | disjunctive_strict([x,y,z],[1,0,1])
element(xx,[x,y,z],w1) | global_cardinality_low_up_closed([x,y,z],[0,1,2,3],[0,0,0,0],[1,2,1,1]) | inverse_in_range([xx,yy,x],[y,z,w1])
lex_greater([x,y],[y,z]) | lex_greatereq([x,y],[y,z]) | lex_chain_less([|x,y|y,z|]) | lex_chain_lesseq([|x,y|y,z|])
lex_chain_greater([|x,y|y,z|]) | lex_chain_greatereq([|x,y|y,z|]) | lex2_strict([|x,y|y,z|]) | strictly_decreasing([x,y,z])
mdd_nondet([x,y],3,[1,2,2],4,[1,1,2,3],[{{0,1}},{{1,2}},{{1}},{{2,3}}],[2,3,0,0]) | sum_set([1,2,3],[3,2,1],s,w2)
write([x,y],xx,2,[w1,z]) | writes([x,y],[xx,yy],[2,3],[w1,z]) | writes_seq([x,y],[xx,yy],[2,3],[w1,z])
count([x,y,z],1) = xx | among([x,y,z],{{1,2}}) = xx | sort([x,y,z])[2] = xx
global_cardinality([x,y,z],[0,1])[1] = w2 | global_cardinality_closed([x,y,z],[0,1,2])[1] = w2 | distribute([xx,yy],[x,y,z])[1] = w1
range([xx,yy,zz],s) = t | roots([xx,yy,zz],s) = t | bin_packing_load([xx,yy],[1,2])[1] = w2
weighted_spanning_tree(3,4,{FROM},{TO},[1,2,3,1],[e1,e2,e3,e4],w2) | d_weighted_spanning_tree(3,4,{FROM},{TO},[1,2,3,1],xx,[e1,e2,e3,e4],w2)
"""
# Where MiniZinc 2.6.4 itself ends, and what it says then: in a reified place, and where half-reified forms, which it would take in
# wrong places, aren't in our library.
BY_MINIZINC = {
    "bool_not": "'bool_not' is used in a reified context but no reified version is available",
    **{
        name: f"no function or predicate with name `{name}' found"
        for name in (f"set_{it}_imp" for it in ("eq", "ne", "le", "lt", "subset", "superset", "in"))
    },
}
# What a call means, in other words. Of sets and of elements of arrays the reified forms are tried as well, where there are some.
ALIKE = "forall(k in 1..4)(k in {} <-> k in {})"
RANKS = [0] * 16
for rank, members in enumerate(sorted([k for k in range(1, 5) if code >> k - 1 & 1] for code in range(16))):
    RANKS[sum(1 << k - 1 for k in members)] = rank
RANK = "{}[1 + sum(k in 1..4)(bool2int(k in {{}}) * pow(2, k - 1))]".format(RANKS)
MEANINGS = {
    "set_card(s,x)": "sum(k in 1..4)(bool2int(k in s)) = x",
    "set_eq(s,t)": ALIKE.format("s", "t"),
    "set_ne(s,t)": "exists(k in 1..4)(k in s xor k in t)",
    "set_le(s,t)": RANK.format("s") + " <= " + RANK.format("t"),
    "set_lt(s,t)": RANK.format("s") + " < " + RANK.format("t"),
    "set_in(x,s)": "exists(k in 1..4)(x = k /\\ k in s)",
    "set_in(2,t)": "2 in t",
    "set_subset(s,t)": "forall(k in 1..4)(k in s -> k in t)",
    "set_superset(s,t)": "forall(k in 1..4)(k in t -> k in s)",
    "set_union(s,t,u)": "forall(k in 1..4)(k in u <-> k in s \\/ k in t)",
    "set_intersect(s,t,u)": "forall(k in 1..4)(k in u <-> k in s /\\ k in t)",
    "set_diff(s,t,u)": "forall(k in 1..4)(k in u <-> k in s /\\ not (k in t))",
    "set_symdiff(s,t,u)": "forall(k in 1..4)(k in u <-> (k in s xor k in t))",
    "u = s diff {}": ALIKE.format("u", "s"),
    "{} = t symdiff {2}": "forall(k in 1..4)(k in t <-> k = 2)",
    "t < {}": "false",
    "array_set_element(x,[{1},{2,3},{}],s)": "exists(i in 1..3)(x = i /\\ forall(k in 1..4)(k in s <-> k in [{1},{2,3},{}][i]))",
    "array_var_set_element(x,[s,t],u)": "exists(i in 1..2)(x = i /\\ forall(k in 1..4)(k in u <-> k in [s,t][i]))",
    "array_var_set_element_nonshifted(x,array1d(0..1,[s,t]),u)": f"x = 0 /\\ {ALIKE.format('u', 's')} \\/ x = 1 /\\ {ALIKE.format('u', 't')}",
    "array_var_set_element2d_nonshifted(x,y,[|s,t|t,s|],s)": f"x in 1..2 /\\ y in 1..2 /\\ (x = y \\/ {ALIKE.format('s', 't')})",
    "array_var_int_element_nonshifted(x,array1d(0..1,[y,z]),z)": "x = 0 /\\ y = z \\/ x = 1",
    "array_var_bool_element_nonshifted(x,array1d(0..1,[p,q]),q)": "x = 0 /\\ p = q \\/ x = 1",
    "array_var_int_element2d_nonshifted(x,y,[|x,z|z,y|],z)": "x in 1..2 /\\ y in 1..2 /\\ (x != y \\/ x = z)",
    "array_var_bool_element2d_nonshifted(x,y,[|p,q|q,p|],q)": "x in 1..2 /\\ y in 1..2 /\\ (x != y \\/ p = q)",
    "[{1},{2,3},{}][x] = s": "exists(i in 1..3)(x = i /\\ forall(k in 1..4)(k in s <-> k in [{1},{2,3},{}][i]))",
    "[s,t][x] = u": "exists(i in 1..2)(x = i /\\ forall(k in 1..4)(k in u <-> k in [s,t][i]))",
    "[|x,z|z,y|][xx,yy] = z": "xx = 1 /\\ yy = 1 /\\ x = z \\/ xx = 2 /\\ yy = 2 /\\ y = z \\/ xx + yy = 3",
    "arg_min([x,y,z]) = 2": "y < x /\\ y <= z",
    "arg_max([x,y,z]) = 2": "y > x /\\ y >= z",
    "arg_min([p,q,r]) = 2": "p /\\ not q",
    "arg_max([p,q,r]) = 2": "not p /\\ q",
    "arg_min([n,o]) = 2": "occurs(o) /\\ (absent(n) \\/ deopt(o) < deopt(n))",
    "arg_max([n,o]) = 2": "occurs(o) /\\ (absent(n) \\/ deopt(o) > deopt(n))",
    "absent(arg_min_weak([n,o]))": "absent(n) /\\ absent(o)",
}
DECLARATION = re.compile(r"\bpredicate\s+(\w+)\s*\(([^;=]*?)\)\s*(?:::\s*\w+\s*)?[;=]")
COMMENT = re.compile(r"/\*.*?\*/|%[^\n]*", re.S)
REFUSED = re.compile(r"^fzn-qecode: (.*\(m\.mzn, line \d+, column \d+\).*)$", re.M)


def listed(table):
    return [call.strip() for line in table.split("\n") for call in line.split(" | ") if call.strip()]


# ---- The builtins of the library.


def sources():
    """The files of MiniZinc's library that declare builtins, and that which takes the sets away, theirs and ours."""
    named = sorted(glob.glob(os.path.join(LIBRARY, "redefinitions*.mzn")))
    return [os.path.join(LIBRARY, "flatzinc_builtins.mzn"), *named, *(os.path.join(it, "nosets.mzn") for it in (LIBRARY, OURS))]


def declared():
    """Each builtin by name and types, in the order of the files."""
    found = {}
    for path in sources():
        for name, parameters in DECLARATION.findall(COMMENT.sub("", read(path))):
            found[name, types_of(parameters)] = None
    return [it for it in found if not it[0].startswith("qecode_")]


def types_of(parameters):
    """The types of parameters that are declared as `TYPE: NAME`, perhaps with annotations."""
    parts = re.split(r",(?![^\[]*\])", re.sub(r"::\s*\w+", "", parameters))
    return tuple(" ".join(part.rpartition(":")[0].split()) for part in parts)


def call_of(name, types):
    left = {kind: iter(words.split(" ")) for kind, words in ARGUMENTS.items()}
    return f"{name}({','.join(next(left[kind]) for kind in types)})"


def all_calls():
    for name, types in declared():
        call = call_of(name, types)
        yield call
        if not name.endswith(("_reif", "_imp")):
            yield f"m <-> {call}"
            yield f"m -> {call}"
    yield from listed(EXPRESSIONS)
    for call in listed(GLOBALS):
        yield call
        yield f"p <-> ({call})"


# ---- Solved or refused.


def names_in(call):
    return [name for name in DOMAINS if re.search(rf"\b{name}\b", call)]


# Globals whose files have another name.
FILES = {"dconnected": "connected", "dreachable": "reachable", "dtree": "tree", "dpath": "path", "bounded_dpath": "bounded_path"}
FILES |= {"dsteiner": "steiner", "d_weighted_spanning_tree": "weighted_spanning_tree"}


def model_of(call, of_file=None, more=()):
    of_file = of_file or call
    declarations = [f"var {DOMAINS[name]}: {name};" for name in names_in(of_file)]
    of_file = of_file.replace("regular(", "regular_regexp(") if '"' in of_file else of_file
    for name, file in FILES.items():
        of_file = re.sub(rf"\b{name}\(", file + "(", of_file)
    of_file += " " + re.sub(r"(\w+)\(", r"\1_fn(", of_file)  # where a global is a function too
    return with_includes([*declarations, f"constraint {call};", *more, "solve satisfy;"], of_file)


def trial(call, folder, configuration):
    """Whether it is solved or proved to have no solution, and what is said else."""
    write(folder, "m.mzn", model_of(call))
    out, err = answered(folder, configuration, ["--keep-paths"], [])
    return ("----------" in out or "UNSATISFIABLE" in out), out + err


def is_refused(call, said):
    """Whether the translator refuses it: an error of its own, with a name of the call, and with the place in the model.

    An error of MiniZinc's isn't one, whatever words it has.
    """
    told = REFUSED.search(said)
    if told is None or "=====ERROR=====" not in said:
        return False
    named = re.findall(r"\w+?(?=_reif\b|_imp\b|\b)", told[1].partition(" (m.mzn")[0])
    return not {*re.findall(r"\w+(?=\()", call), *names_in(call)}.isdisjoint(named)


def is_left_to_minizinc(call, said):
    """Whether it's one of the calls that are known to end in MiniZinc itself, and ends as is known."""
    return any(said_there in said for name, said_there in BY_MINIZINC.items() if f"{name}(" in call)


def check_calls(tally, folder, configuration):
    for call in all_calls():
        is_solved, said = trial(call, folder, configuration)
        how = "solved" if is_solved else "refused by name" if is_refused(call, said) else "wrong"
        if how == "wrong" and is_left_to_minizinc(call, said):
            how = "ended by MiniZinc itself"
        if how != "solved":
            print(f"{how}: {call}", flush=True)
        tally.check(f"call {call}", how != "wrong", said)


# ---- What it means.


def rows_of(name, call):
    """The values of the call's variables for which the builtin holds, as the translator's own table of meanings has it."""
    text = call.partition("(")[2][:-1].replace("true", "True").replace("false", "False")
    names = names_in(call)
    for values in itertools.product(*(range(2) if DOMAINS[it] == "bool" else range(-2, 3) for it in names)):
        truths = {it: bool(value) if DOMAINS[it] == "bool" else value for it, value in zip(names, values)}
        if HOLDS[name](*eval(f"({text},)", {"__builtins__": {}}, truths)):
            yield values


def game_of(name, call):
    """The opponent chooses all variables, and the player wins where the builtin holds for the values of `rows_of` alone."""
    names = names_in(call)
    lines = ['include "qecode.mzn"; include "table.mzn";']
    domain = {it: "bool" if DOMAINS[it] == "bool" else "-2..2" for it in names}
    lines += [f"var {domain[it]}: {it}; constraint forall_scope(1, {it});" for it in names]
    numbers = ",".join(f"bool2int({it})" if DOMAINS[it] == "bool" else it for it in names)
    rows = "|".join(",".join(map(str, row)) for row in rows_of(name, call))
    return "\n".join([*lines, f"constraint goal({call} <-> table([{numbers}],[|{rows}|]));", "solve satisfy;\n"])


def other_forms(call):
    """The call, and its forms with a Boolean that the library declares."""
    name, _, rest = call.partition("(")
    names = {it for it, _ in declared()} if rest.endswith(")") and name.isidentifier() else ()
    yield call, "{}"
    if name + "_reif" in names:
        yield f"{name}_reif({rest[:-1]},m)", "(m <-> ({}))"
    if name + "_imp" in names:
        yield f"{name}_imp({rest[:-1]},m)", "(m -> ({}))"


def declared_for_words(call, meaning, more=""):
    domains = {"s": "set of 1..3", "t": "set of {2,4}", "u": "set of 1..4", **{it: "-1..3" for it in "xyz"}, "xx": "1..2", "yy": "1..2"}
    return [f"var {domains.get(it, DOMAINS[it])}: {it};" + more.format(it) for it in names_in(call + meaning)]


def game_of_words(call, meaning):
    """The opponent chooses all variables, and the player wins where the call holds for those for which its meaning does."""
    chosen = declared_for_words(call, meaning, " constraint forall_scope(1, {});")
    goal = f"constraint goal(({call}) <-> ({meaning}));"
    return with_includes(['include "qecode.mzn";', *chosen, goal, "solve satisfy;"], call.replace("_weak", ""))


def models_of_words(call, meaning):
    """Where the call means that, none of these has a solution."""
    for form in f"({call}) xor ({meaning})", f"({call}) /\\ not ({meaning})", f"not ({call}) /\\ ({meaning})":
        lines = [*declared_for_words(call, meaning), f"constraint {form};", "solve satisfy;"]
        yield form, with_includes(lines, call.replace("_weak", ""))


def check_meanings(tally, folder, configuration):
    words = [(call, form.format(meaning)) for it, meaning in MEANINGS.items() for call, form in other_forms(it)]
    for it, meaning in words:
        for form, model in models_of_words(it, meaning):
            write(folder, "m.mzn", model)
            out, err = answered(folder, configuration, ["--keep-paths"], [])
            tally.check(form, "=====UNSATISFIABLE=====" in out, out + err)
    games = [(call, game_of_words(call, meaning)) for call, meaning in words]
    for name, types in declared():
        # A goal is reified by itself, so the reified forms are those that this is about.
        is_plain = name in HOLDS and name not in BY_MINIZINC and not name.endswith("_reif")
        if is_plain and not any("var set" in kind for kind in types):
            games.append((call_of(name, types), game_of(name, call_of(name, types))))
    for call, game in games:
        write(folder, "m.mzn", game)
        out, err = answered(folder, configuration, ["-g", "--keep-paths"], [])
        tally.check(f"the meaning of {call}", "% qecode: true\n" in out, out + err)


# ---- Globals beside Gecode: plain, reified and negated in models, and in goals.

MOST_ROWS = 6_000


def column(value):
    """The numbers that stand for a value in a table: a bit for each member of a set."""
    return [int(k in value) for k in range(1, 4)] if isinstance(value, frozenset) else [int(value)]


def columns_of(name):
    """What is written for these numbers."""
    if DOMAINS[name].startswith("set"):
        return [f"bool2int({k} in {name})" for k in range(1, 4)]
    return [f"bool2int({name})" if DOMAINS[name] == "bool" else name]


def values_of(name):
    domain = DOMAINS[name]
    if domain == "bool":
        return [False, True]
    if domain.startswith("set"):
        return [frozenset(it) for n in range(4) for it in itertools.combinations(range(1, 4), n)]
    low, high = map(int, domain.split(".."))
    return range(low, high + 1)


def satisfying(call, folder):
    """The values of the call's variables with which Gecode finds that it holds, by MiniZinc's own library; or None, and why."""
    names = names_in(call)
    words = ["minizinc", "-a", "--output-mode", "json", "--solver", write(folder, "gecode.msc", json.dumps(GECODE)), "-G", "std"]
    # MiniZinc's arg_min.mzn names what stands in arg_max.mzn.
    model = model_of(call).replace('include "arg_min.mzn"', 'include "arg_min.mzn"; include "arg_max.mzn"')
    _, out, err = run([*words, write(folder, "m.mzn", model)], 600)
    if "==========" not in out and "UNSATISFIABLE" not in out:
        return None, out + err
    found = [json.loads(it) for it in out.split("----------") if "{" in it]
    return {tuple(from_json(it[name]) for name in names) for it in found}, ""


def rows_of_call(call, found):
    """Values of the call's variables as numbers, and whether it holds; some of them where there are many."""
    every = list(itertools.product(*map(values_of, names_in(call))))
    chosen = every if len(every) <= MOST_ROWS else random.Random(call).sample(every, MOST_ROWS)
    return [(sum(map(column, values), []), values in found) for values in chosen]


def table_of(columns, rows):
    return f"table([{','.join(columns)}],[|{'|'.join(','.join(map(str, row)) for row in rows)}|])" if rows else "false"


def refuted_models(call, rows):
    """Forms of the call, with a table of values that no solution may have."""
    columns = [it for name in names_in(call) for it in columns_of(name)] + ["bool2int(c)"]
    for form, table in (
        (f"c <-> ({call})", [[*row, int(not is_so)] for row, is_so in rows]),
        (f"c /\\ ({call})", [[*row, 1] for row, is_so in rows if not is_so]),
        (f"not c /\\ not ({call})", [[*row, 0] for row, is_so in rows if is_so]),
    ):
        yield form, model_of(form, call, [f"var bool: c; constraint {table_of(columns, table)};"])


def won_games(call, rows):
    """The call and its contrary as goals; the opponent chooses among the values with which they hold."""
    columns = [it for name in names_in(call) for it in columns_of(name)]
    chosen = [f"constraint forall_scope(1, {name});" for name in names_in(call)]
    for form, truth in (call, True), (f"not ({call})", False):
        rule = f"constraint rule(1, {table_of(columns, [row for row, is_so in rows if is_so == truth])});"
        yield f"goal({form})", model_of(f"goal({form})", call, ['include "qecode.mzn"; include "table.mzn";', *chosen, rule])


def check_globals(tally, folder, configuration):
    for call in listed(GLOBALS):
        found, why = satisfying(call, folder)
        if found is None:
            tally.check(f"{call} by Gecode", False, why)
            continue
        rows = rows_of_call(call, found)
        for form, model in refuted_models(call, rows):
            write(folder, "m.mzn", model)
            out, err = answered(folder, configuration, ["--keep-paths"], [])
            tally.check(f"{form} beside Gecode", "=====UNSATISFIABLE=====" in out, (out + err)[:1000])
        for form, game in won_games(call, rows):
            write(folder, "m.mzn", game)
            out, err = answered(folder, configuration, ["-g", "--keep-paths"], [])
            if is_refused(call, out + err):
                print(f"refused by name: {form}", flush=True)
            else:
                tally.check(f"{form} beside Gecode", "% qecode: true\n" in out, (out + err)[:1000])


def checks(tally):
    with written_configuration() as configuration, tempfile.TemporaryDirectory() as folder:
        check_calls(tally, folder, configuration)
        check_meanings(tally, folder, configuration)
        if has_gecode():
            check_globals(tally, folder, configuration)
