"""The models whose FlatZinc is stored in `flat/`, with what has to be answered; so that the tests need no MiniZinc.

`tests/run --flatten` writes the FlatZinc anew, with the MiniZinc that is installed.
"""
import os
import re
import tempfile

from common import HERE, TOOL, TOP, read, run, write

from qecodefzn.configuration import written_configuration

FLAT = os.path.join(HERE, "flat")
GAME_HEAD = (
    'include "qecode.mzn"; var 0..3: x; var 0..3: y; var 0..3: z; var bool: b; '
    "constraint exists_scope(1,x); constraint forall_scope(2,y); constraint exists_scope(3,z); constraint exists_scope(3,b);\n"
)
# Games over GAME_HEAD, by name: what is added, and the outcome, or what has to be among what is said of a refusal.
GAMES = {
    "bare_bound": ("constraint y <= 2; constraint goal(z >= y);", "outside of all rules"),
    "bare_equality": ("constraint z = y; constraint goal(z >= 1);", "outside of all rules"),
    "bare_boolean": ("constraint b; constraint goal(z >= 1);", "outside of all rules"),
    "bare_sum": ("constraint x + y <= 4; constraint goal(z >= 1);", "outside of all rules: int_lin_le([1, 1], [x, y], 4) (m.mzn, line 2"),
    "bare_element": ("array[0..3] of var 0..3: a = array1d(0..3,[x,1,2,z]); constraint a[y] = 2;", "outside of all rules"),
    "partial_wish": ("constraint wish_min(1, x div (x-1)); constraint goal(z >= 1);", "nothing determines them: X"),
    "later_variable": ("constraint rule(2, y <= z);", "a rule of scope 2 sees z, which is chosen later (m.mzn, line 2"),
    "chosen_twice": ("constraint forall_scope(4, z);", "z is chosen twice"),
    "two_kinds": ("var 0..1: w; constraint exists_scope(2, w);", "scope 2 has two kinds"),
    "two_kinds_here": ("constraint exists_here(2);", "scope 2 has two kinds"),
    "no_scope": ("var 0..1: w; constraint goal(w >= y);", "nothing determines them: w (m.mzn, line 2"),
    "free_boolean": ("var bool: w; constraint goal(w);", "nothing determines them: w"),
    "shown_by_nobody": ("var 0..1: w; constraint goal(z >= y);", "nothing determines them: w (m.mzn, line 2"),
    "no_such_scope": ("constraint rule(7, x = 1);", "a rule for scope 7, which isn't there"),
    "no_such_wish": ("constraint wish_min(7, x);", "a wish of scope 7, which isn't there"),
    "opponents_wish": ("constraint wish_min(2, x);", "which is the opponent's"),
    "two_wishes": ("constraint wish_min(1, x); constraint wish_max(1, x);", "scope 1 has two wishes"),
    "expression_chosen": ("constraint forall_scope(4, x + y);", "the value of an expression"),
    "wish_too_far": ("constraint forall_here(4); constraint wish_min_sum(1, 4, z);", "isn't the opponent's next one"),
    "wish_unseen": ("constraint wish_min(1, z);", "a wish sees only"),
    "holds_anyhow": ("constraint x + y >= 0; constraint goal(z >= y);", "true"),
    "determined": ("var int: w = y + 1; constraint goal(z + 1 >= w);", "true"),
    "least_before_sum": (
        "constraint exists_here(0); constraint wish_max_sum(0, 2, x); constraint wish_max_greatest(1, 2, x, 0);",
        "of which scope 1, a nearer one, wishes the greatest already",
    ),
    "sum_before_least": ("constraint exists_here(0); constraint wish_min_greatest(0, 2, x, 0); constraint wish_max_sum(1, 2, x);", "true 3"),
    "optional_scope": (
        "var opt 1..2: o; constraint forall_scope(4, o); constraint wish_max_sum(3, 4, if occurs(o) then deopt(o) else 4 endif); "
        "constraint wish_max(1, x);",
        "true 3",
    ),
    "optional_choice": ("var opt {1,3}: o; constraint exists_scope(4, o); constraint goal(occurs(o) /\\ deopt(o) >= y);", "true"),
    "optional_zero": (
        "var opt 0..1: o; var opt bool: q; constraint forall_scope(2, [o]); constraint forall_scope(2, q); "
        "constraint wish_max_sum(1, 2, if occurs(o) then deopt(o) + 1 else 5 endif);",
        "true 96",
    ),
    "optional_moves": (
        "array[1..2] of var opt -1..1: o; array[1..2] of var opt bool: q; constraint exists_scope(4, o); constraint exists_scope(4, q); "
        "constraint goal(occurs(o[1]) /\\ deopt(o[1]) = y - 2 \\/ absent(o[1]) /\\ y = 0); "
        "constraint goal(occurs(q[1]) /\\ deopt(q[1]) /\\ absent(q[2]));",
        "true",
    ),
    "optional_fixed": (
        "var opt 0..2: o; constraint exists_scope(3, o); constraint occurs(o); constraint goal(z >= y);",
        "was fixed to True outside of all rules",
    ),
    "optional_bare": (
        "var opt 0..2: o; constraint exists_scope(3, o); constraint occurs(o) -> deopt(o) > 0; constraint goal(z >= y);",
        "outside of all rules",
    ),
    "optional_made_equal": (
        "var opt 0..2: o; constraint exists_scope(3, o); constraint exists_scope(4, o); constraint goal(z >= y);",
        "is chosen twice",
    ),
    "counted": ("constraint wish_max_sum(1, 2, x);", "true 12"),
    "same_rule_twice": ("constraint rule(2, x > y); constraint goal(x > y);", "true"),
    "narrowing_goal": ("constraint goal(y <= 2);", "false"),
    "equating_goal": ("constraint goal(z = y);", "true"),
    "safe_divisor": ("constraint goal(x div y >= 0 \\/ y = 0);", "true"),
    "wish_of_folds": ("constraint wish_min_greatest(1, 2, max(z, y) + x, 0); constraint wish_max(3, z);", "true 3"),
    "set_scope": ("var set of 1..2: s; constraint forall_scope(4, s); constraint goal(card(s) <= 1);", "false"),
    "early_stuck": ("constraint rule(2, y > x + 3); constraint goal(false);", "true"),
    "reified_global": (
        'include "circuit.mzn"; array[1..3] of var 1..3: k; constraint exists_scope(3, k); '
        "constraint goal(circuit(k) /\\ (y = 1 -> k[1] = 3));",
        "true",
    ),
    "reified_precedence": (
        'include "value_precede_chain.mzn"; array[1..3] of var 1..3: k; constraint forall_scope(4, k); '
        "constraint goal(value_precede(1, 2, k) <-> k[1] != 2 /\\ (k[2] = 2 -> k[1] = 1) /\\ (k[3] = 2 -> k[1] = 1 \\/ k[2] = 1)); "
        "constraint goal(value_precede_chain([1, 2, 3], k) <-> value_precede(1, 2, k) /\\ k[1] != 3 /\\ (k[2] = 3 -> k[1] = 2) "
        "/\\ (k[3] = 3 -> k[1] = 2 \\/ k[2] = 2));",
        "true",
    ),
    "opponents_regular": (
        'include "regular.mzn"; array[1..2] of var 1..3: k; constraint forall_scope(4, k); '
        "constraint rule(4, regular(k,2,3,[|1,2,0|2,2,0|],1,{2})); constraint goal(k[1] = 2 \\/ k[2] = 2);",
        "true",
    ),
}
# What is answered to a game that was flattened without -g, and to one that optimises by `solve`.
OTHERS = {
    "without_g": ([], GAME_HEAD + "constraint goal(z >= y);\nsolve satisfy;\n", "flattened with -g"),
    "solve_minimize": (["-g"], GAME_HEAD + "constraint goal(z >= y);\nsolve minimize x;\n", "a game ends with `solve satisfy`"),
    "too_many": ([], "array[1..501] of var 0..1: x; constraint forall(i in 1..500)(x[i] <= x[i+1]); solve satisfy;\n", "501 variables"),
    "pairs": ([], "var 0..3: x; var 0..3: y; var bool: b; constraint x + y = 3; constraint b -> x > y; solve satisfy;\n", "b = "),
    "unbounded": ([], "var int: x; constraint x > 3; solve satisfy;\n", "x is unbounded"),
    "optional_unseen": (["--output-mode", "json"], "var opt 1..2: o; solve satisfy;\n", "X_INTRODUCED_0_ = false;"),
    "float": ([], "var 0.0..1.0: x; constraint x > 0.5; solve satisfy;\n", "x is a float variable"),
}
EXAMPLES = {"defence": "true", "best_price": "true 15", "least_makespan": "true 7"}
OWN_GAMES = {"fewest_guards": "true 2", "schedule": "true"}
MODELS = {
    "queens8": "----------",
    "send": "S = 9;",
    "zebra": "----------",
    "golomb5": "==========",
    "knapsack_b": "==========",
    "pow3": "----------",
    "coins": "==========",
    "queens3": "=====UNSATISFIABLE=====",
}


def sources():
    """Of each stored FlatZinc its name, the flags of flattening, the model and what has to be answered."""
    for name, (text, wanted) in GAMES.items():
        is_outcome = wanted.split()[0] in ("true", "false")
        said = f"% qecode: {wanted}\n" if is_outcome else wanted
        yield name, ["-g", "--keep-paths"], GAME_HEAD + text + "\nsolve satisfy;\n", said
    for name, (flags, text, wanted) in OTHERS.items():
        yield name, [*flags, "--keep-paths"], text, wanted
    for name, wanted in EXAMPLES.items():
        yield name, ["-g"], read(os.path.join(TOP, "examples", name + ".mzn")), "% qecode: " + wanted + "\n"
    for name, wanted in OWN_GAMES.items():
        yield name, ["-g"], read(os.path.join(HERE, "games", name + ".mzn")), "% qecode: " + wanted + "\n"
    for name, wanted in MODELS.items():
        yield name, [], read(os.path.join(HERE, "models", name + ".mzn")), wanted


def stored(name):
    return os.path.join(FLAT, name + ".fzn")


def flatten(configuration, flags, text):
    """The FlatZinc of a model, or None, and what MiniZinc said; paths of this machine are taken out."""
    with tempfile.TemporaryDirectory() as folder:
        fzn = os.path.join(folder, "m.fzn")
        words = ["minizinc", "-c", *flags, "--solver", configuration, write(folder, "m.mzn", text), "--fzn", fzn, "--no-output-ozn"]
        _, out, err = run(words)
        if not os.path.exists(fzn):
            return None, out + err
        found = read(fzn).replace(os.path.realpath(folder) + "/", "").replace(folder + "/", "").replace(TOOL + "/", "")
    return re.sub(r"/[\w./-]*/(?=std/)", "", found), out + err


def flatten_all():
    os.makedirs(FLAT, exist_ok=True)
    with written_configuration() as configuration:
        for name, flags, text, _ in sources():
            found, said = flatten(configuration, flags, text)
            if found is None:
                print(f"{name}: {said}")
            else:
                write(FLAT, name + ".fzn", found)
