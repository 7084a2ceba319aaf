"""Random games and plain models in MiniZinc, solved by brute force on their own expressions, and by qecode.

The plays and solutions that are shown are evaluated on these expressions as well.
"""
import contextlib
import io
import itertools
import json
import os
import random
import re
import tempfile
from collections import Counter

from common import GECODE, LIBRARY, has_gecode, run, write
from expressions import GLOBALS, Maker, Undefined

from qecodefzn import main
from qecodefzn.configuration import written_configuration


class Variable:
    """A variable with its declaration and its values."""

    def __init__(self, name, declared, domain, kind):
        self.name, self.declared, self.domain, self.kind = name, declared, domain, kind


def random_variable(pick, name, kinds, least=-1):
    kind = pick.choice(kinds)
    name = f"{kind}{name}"
    if kind == "b":
        return Variable(name, "var bool", [False, True], kind)
    if kind == "q":
        return Variable(name, "var opt bool", [None, False, True], kind)
    low = pick.randint(least, 1)
    domain = list(range(low, low + pick.randint(2, 4)))
    if pick.random() < 0.2 and len(domain) > 2:
        domain.pop(1)
    members = "{" + ",".join(map(str, domain)) + "}"
    if kind == "s":
        subsets = [frozenset(c) for n in range(len(domain) + 1) for c in itertools.combinations(domain, n)]
        return Variable(name, f"var set of {members}", subsets, kind)
    if kind == "o":
        return Variable(name, f"var opt {domain[0]}..{domain[-1]}", [None, *range(domain[0], domain[-1] + 1)], kind)
    return Variable(name, f"var {members}", domain, kind)


def maker_of(pick, variables):
    return Maker(pick, *([v.name for v in variables if v.kind == kind] for kind in "xbsoq"))


def total_expression(pick, ints):
    """One that has a value wherever its variables have."""
    a, b, k = pick.choice(ints), pick.choice(ints), pick.randint(-2, 3)
    return pick.choice(
        [
            (f"{a} + {k}*{b}", lambda env: env[a] + k * env[b]),
            (f"{a}*{b}", lambda env: env[a] * env[b]),
            (a, lambda env: env[a]),
            (f"max({a},{b}) - {a}", lambda env: max(env[a], env[b]) - env[a]),
        ]
    )


def with_includes(lines, more=""):
    """The model with the globals that it names; all of `globals.mzn` takes MiniZinc longer than the rest together."""
    text = "\n".join(lines) + "\n"
    words = set(re.findall(r"\w+(?=\()", text)) & GLOBALS
    words |= {word for word in re.findall(r"\w+(?=\()", more) if os.path.exists(os.path.join(LIBRARY, word + ".mzn"))}
    return "".join(f'include "{word}.mzn"; ' for word in sorted(words)) + "\n" + text


class Model:
    """A plain model: constraints over variables, and perhaps something to optimise."""

    def __init__(self, seed):
        pick = random.Random(f"model {seed}")
        kinds = pick.choice(["xxxb", "xxxb", "xxbs", "xxbo"])
        self.variables = [random_variable(pick, k, kinds) for k in range(1, pick.randint(2, 4) + 1)]
        maker = maker_of(pick, self.variables)
        self.constraints = [maker.boolean(2) for _ in range(pick.choice([1, 2, 3]))]
        ints = [v.name for v in self.variables if v.kind == "x"]
        self.wish = None
        if ints and pick.random() < 0.5:
            self.wish = (pick.choice(["minimize", "maximize"]), total_expression(pick, ints))

    def text(self):
        lines = [f"{v.declared}: {v.name};" for v in self.variables]
        lines += [f"constraint {c[0]};" for c in self.constraints]
        lines.append(f"solve {self.wish[0]} {self.wish[1][0]};" if self.wish else "solve satisfy;")
        return with_includes(lines)

    def holds(self, env):
        try:
            return all(c[1](env) for c in self.constraints)
        except Undefined:
            return False

    def solutions(self):
        names = [v.name for v in self.variables]
        return [env for it in itertools.product(*(v.domain for v in self.variables)) if self.holds(env := dict(zip(names, it)))]

    def known(self):
        """None, True, or the optimum."""
        found = self.solutions()
        if not found:
            return None
        if not self.wish:
            return True
        best = min if self.wish[0] == "minimize" else max
        return best(self.wish[1][1](env) for env in found)


REFUSALS = ("fzn-qecode: ", "Error: result of evaluation is undefined")


def from_json(value):
    if isinstance(value, dict):
        ends = [range(it[0], it[1] + 1) if isinstance(it, list) else [it] for it in value["set"]]
        return frozenset(x for it in ends for x in it)
    return value


def judge_model(model, out, err):
    """What is said of the answer: "right", "refused: ..", or what is wrong, which an end by neither is too."""
    known = model.known()
    if "UNSATISFIABLE" in out:
        return "right" if known is None else f"WRONG: unsatisfiable, where {known} is known"
    if "----------" not in out:
        return refusal(out, err)
    env = values(model, out[: out.index("----------")])
    if known is None:
        return f"WRONG: solved by {env}, where nothing fits"
    if any(env[v.name] not in v.domain for v in model.variables) or not model.holds(env):
        return f"WRONG: no solution is {env}"
    if model.wish and (model.wish[1][1](env) != known or "==========" not in out):
        return f"WRONG: {model.wish[1][1](env)} is reached, where {known} is known"
    return "right"


def refusal(out, err):
    """A refusal by the translator, or by MiniZinc where a part without variables has no value; all else is wrong."""
    lines = [line for line in (err + out).splitlines() if line.startswith(("fzn-qecode: ", "Error: "))]
    if not lines or not lines[0].startswith(REFUSALS) or "the program refuses" in lines[0]:
        return f"WRONG: neither an answer nor a refusal: {out + err}"
    return "refused: " + re.sub(r"\d+", "#", lines[0])[:120]


# A constraint is lost by MiniZinc itself, with any solver.
OF_MINIZINC = "refused: an error of MiniZinc, which Gecode makes as well"

KINDS = ("xxb", "xxb", "xxbs")
OPTIONAL_KINDS = ("xo", "xob", "xobs", "xoq", "xoq", "xobqs")


class Game:
    """Scopes in order, each with variables, rules and perhaps a wish; and a goal."""

    def __init__(self, seed, kinds=KINDS, least=-1):
        pick = random.Random(f"game {seed}")
        self.scopes, met = [], []
        kinds = pick.choice(kinds)
        for k in range(1, pick.randint(2, 4) + 1):
            own = [random_variable(pick, f"{k}_{j}", kinds, least) for j in range(1, pick.randint(1, 2) + 1)]
            met += own
            rules = [maker_of(pick, met).boolean(2) for _ in range(pick.choice([0, 1, 1, 2]))]
            self.scopes.append({"kind": pick.choice(["exists", "forall"]), "variables": own, "rules": rules, "wish": None})
        self.goal = [maker_of(pick, met).boolean(2) for _ in range(pick.choice([0, 1, 1, 2]))]
        for k, scope in enumerate(self.scopes, 1):
            if scope["kind"] == "exists" and pick.random() < 0.5:
                scope["wish"] = self.random_wish(pick, k)

    def next_forall(self, after):
        n = len(self.scopes)
        return next((k for k in range(after + 1, n + 1) if self.scopes[k - 1]["kind"] == "forall"), n + 1)

    def random_wish(self, pick, k):
        """(sense, fold, over, expression); fold and over are None where it is the expression itself."""
        following, fold = self.next_forall(k), None
        if following <= len(self.scopes) and pick.random() < 0.7:
            fold = pick.choice(["sum", "least", "greatest"])
        seen = self.next_forall(following) if fold else following
        ints = [v.name for scope in self.scopes[: seen - 1] for v in scope["variables"] if v.kind == "x"]
        if not ints:
            return None
        return pick.choice(["min", "max"]), fold, following if fold else None, total_expression(pick, ints)

    def text(self):
        lines = ['include "qecode.mzn";']
        for k, scope in enumerate(self.scopes, 1):
            for v in scope["variables"]:
                lines.append(f"{v.declared}: {v.name}; constraint {scope['kind']}_scope({k}, {v.name});")
            lines += [f"constraint rule({k}, {rule[0]});" for rule in scope["rules"]]
            if scope["wish"]:
                sense, fold, over, it = scope["wish"]
                end = "" if fold in (None, "sum") else ", 0"
                wish = f"wish_{sense}_{fold}({k}, {over}, {it[0]}{end})" if fold else f"wish_{sense}({k}, {it[0]})"
                lines.append(f"constraint {wish};")
        lines += [f"constraint goal({it[0]});" for it in self.goal]
        return with_includes([*lines, "solve satisfy;"])

    def moves(self, k, env):
        scope = self.scopes[k - 1]
        names = [v.name for v in scope["variables"]]
        for it in itertools.product(*(v.domain for v in scope["variables"])):
            after = env | dict(zip(names, it))
            if all(rule[1](after) for rule in scope["rules"]):
                yield after

    def solve(self, k, env, wishes):
        """What the wishes come to from scope k on, in order of their weight; None where the game is lost."""
        if k > len(self.scopes):
            return [wish[3][1](env) for wish in wishes] if all(it[1](env) for it in self.goal) else None
        if self.scopes[k - 1]["kind"] == "exists":
            return self.solve_exists(k, env, wishes)
        return self.solve_forall(k, env, wishes)

    def solve_exists(self, k, env, wishes):
        own = self.scopes[k - 1]["wish"]
        wanted = ([own] if own else []) + wishes
        found = [it for after in self.moves(k, env) if (it := self.solve(k + 1, after, wanted)) is not None]
        if not found:
            return None
        best = min(found, key=lambda it: [x if wish[0] == "min" else -x for x, wish in zip(it, wanted)])
        return best[1:] if own and k > 1 else best

    def solve_forall(self, k, env, wishes):
        folded = [wish for wish in wishes if wish[2] == k]
        inner = [(sense, None, None, it) for sense, _, _, it in folded]
        found = []
        for after in self.moves(k, env):
            one = self.solve(k + 1, after, inner)
            if one is None:
                return None
            found.append(one)
        folds = {"sum": sum, "least": lambda xs: min(xs, default=0), "greatest": lambda xs: max(xs, default=0)}
        numbers = iter([folds[wish[1]]([it[at] for it in found]) for at, wish in enumerate(folded)])
        return [next(numbers) if wish[2] == k else wish[3][1](env) for wish in wishes]

    def known(self):
        """The outcome, in the words of qecode."""
        found = self.solve(1, {}, [])
        if found is None:
            return "false"
        has_value = self.scopes[0]["kind"] == "exists" and self.scopes[0]["wish"]
        return f"true {found[0]}" if has_value else "true"

    def is_play(self, env):
        """Whether the values are those of a play that is won: rules kept in order, and the goal at the end."""
        so_far = {}
        for scope in self.scopes:
            so_far |= {v.name: env[v.name] for v in scope["variables"]}
            if not all(rule[1](so_far) for rule in scope["rules"]):
                return False
        return all(it[1](env) for it in self.goal)


def judge_game(game, out, err):
    told = re.search(r"^% qecode: (.*)$", out, re.M)
    if not told:
        return refusal(out, err)
    known = game.known()
    if told[1] != known:
        return f"WRONG: {told[1]}, where {known} is known"
    if known == "false":
        return "right" if "UNSATISFIABLE" in out else "WRONG: false isn't told"
    if "% goal true" in out:
        env = shown_values(out)
        if not game.is_play(env):
            return f"WRONG: no play is {env}"
    elif "% stuck" not in out and "no play is shown" not in out:
        return "WRONG: no play is told"
    return "right"


def shown_values(out):
    text = "\n".join(line for line in out.splitlines() if not line.startswith(("%", "-", "=")))
    return {name: from_json(value) for name, value in json.loads(text).items()}


def answered(folder, configuration, flags, options):
    """What `minizinc` with qecode writes to the model in the folder; the translator is called in this process."""
    fzn, ozn = os.path.join(folder, "m.fzn"), os.path.join(folder, "m.ozn")
    for path in fzn, ozn:
        if os.path.exists(path):
            os.unlink(path)
    words = ["minizinc", "-c", *flags, "--solver", configuration, "--output-mode", "json", "--fzn", fzn, "--ozn", ozn]
    _, out, err = run([*words, os.path.join(folder, "m.mzn")])
    if "model inconsistency detected" in err and "-g" not in flags:
        return "=====UNSATISFIABLE=====", ""  # which MiniZinc finds, and then calls no solver
    if not os.path.exists(fzn):
        return out, err
    streams = io.StringIO(), io.StringIO()
    with contextlib.redirect_stdout(streams[0]), contextlib.redirect_stderr(streams[1]):
        main.main([*options, fzn])
    out, err = (stream.getvalue() for stream in streams)
    if "----------" not in out:
        return out, err
    _, shown, err = run(["minizinc", "--ozn-file", ozn], text=out)
    return shown, err


def model_trial(seed, folder, configuration, options=()):
    model = Model(seed)
    write(folder, "m.mzn", model.text())
    out, err = answered(folder, configuration, [], options)
    answer = judge_model(model, out, err)
    if answer.startswith("WRONG: no solution is") and has_gecode() and is_of_gecode(model, folder, out):
        return OF_MINIZINC, model
    return answer, model


def is_of_gecode(model, folder, out):
    """Whether Gecode gives this solution too: then it's MiniZinc that loses a constraint, as 2.6.4 does with `deopt`."""
    return values(model, out[: out.index("----------")]) in gecode_solutions(model, folder)


def gecode_solutions(model, folder):
    text = re.sub(r"^solve .*$", "solve satisfy;", model.text(), flags=re.M)
    words = ["minizinc", "-a", "--solver", write(folder, "gecode.msc", json.dumps(GECODE)), "--output-mode", "json"]
    for flags in [], ["-G", "std"]:
        _, others, err = run([*words, *flags, write(folder, "others.mzn", text)])
        if "Registry" not in others + err:  # where Gecode lacks a global that its library hands to it
            break
    return all_values(model, others)


def all_values(model, out):
    return [values(model, it) for it in out.split("----------") if "{" in it]


MOST_SHOWN = 25


def solutions_trial(seed, folder, configuration, options=()):
    """All solutions of a model, or the first ones where there are many."""
    model = Model(seed)
    model.wish = None
    write(folder, "m.mzn", model.text())
    known = model.solutions()
    wanted = ["-a"] if len(known) <= MOST_SHOWN else ["-n", str(MOST_SHOWN)]
    out, err = answered(folder, configuration, [], [*options, *wanted])
    answer = judge_solutions(model, known, out, err)
    if answer.startswith("WRONG: other solutions") and has_gecode():
        if is_same(all_values(model, out), gecode_solutions(model, folder)):
            return OF_MINIZINC, model
    return answer, model


def judge_solutions(model, known, out, err):
    if not known:
        return judge_model(model, out, err)
    if "----------" not in out:
        return "WRONG: unsatisfiable, where there are solutions" if "UNSATISFIABLE" in out else refusal(out, err)
    shown = all_values(model, out)
    if len(known) > MOST_SHOWN:
        is_right = all(env in known for env in shown) and len(shown) == MOST_SHOWN and "==========" not in out
    else:
        is_right = is_same(shown, known) and "==========" in out
    if not is_right:
        return f"WRONG: other solutions, {shown}, where {known} are known"
    return "right" if all(one != other for one, other in itertools.combinations(shown, 2)) else "WRONG: one is shown twice"


def is_same(some, others):
    return all(env in others for env in some) and all(env in some for env in others)


def values(model, solution):
    """The value of each variable in a solution that is told as JSON; None where it has none."""
    found = json.loads(solution[solution.index("{"):])
    return {v.name: from_json(found.get(v.name)) for v in model.variables}


def optional_game_trial(seed, folder, configuration, options=()):
    """Optional integers and Booleans in scopes; in every other game integers may be 0."""
    return game_trial(seed, folder, configuration, options, Game(seed, OPTIONAL_KINDS, seed % 2 * 2 - 1))


def game_trial(seed, folder, configuration, options=(), game=None):
    game = game or Game(seed)
    write(folder, "m.mzn", game.text())
    return judge_game(game, *answered(folder, configuration, ["-g", "--keep-paths"], options)), game


def checks(tally, trial, what, count, first=0, options=()):
    """Runs `count` trials; gives how often each answer came. A refusal is none of the checks, but is told."""
    said = Counter()
    with written_configuration() as configuration, tempfile.TemporaryDirectory() as folder:
        for seed in range(first, first + count):
            answer, it = trial(seed, folder, configuration, options)
            if answer.startswith("refused") and answer not in said:
                print(f"{what} {seed}, the first that is {answer}", flush=True)
            said[answer if answer.startswith("refused") else answer.split(":")[0]] += 1
            if not answer.startswith("refused"):
                tally.check(f"{what} {seed}", answer == "right", answer + "\n" + it.text())
            if (seed - first) % 100 == 99:
                print(f"{what}: {seed - first + 1} tried, {tally.failed} failed so far", flush=True)
    for answer, times in sorted(said.items()):
        print(f"{what}: {times} times {answer}", flush=True)
    return said
