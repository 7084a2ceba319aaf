"""Models solved by qecode and by Gecode: what both come to, how long they take, and whether Gecode accepts qecode's solution."""
import glob
import json
import os
import re
import resource
import subprocess
import tempfile
from dataclasses import dataclass

from common import FZN_QECODE, GECODE, HERE, read, run, write

from qecodefzn.configuration import written_configuration

MODELS = os.path.join(HERE, "models")
STATISTIC = re.compile(r"^%%%mzn-stat: (\w+)=(.*)$", re.M)
# Globals that Gecode's own library hands to Gecode, where the version of the solver lacks them: flattened by the usual library.
NATIVE_GLOBAL = re.compile(r"constraint (?:fzn_|gecode_)\w+")


@dataclass
class Row:
    name: str
    variables: str = ""
    constraints: str = ""
    outcome: str = ""
    seconds: str = ""
    certificate: str = ""
    gecode: str = ""
    gecode_seconds: str = ""
    given_back: str = ""

    def is_same(self):
        """Whether both settled the model in the same way; None where one of them didn't settle it."""
        if not self.outcome.startswith(("true", "false")) or not self.gecode.startswith(("true", "false")) or "limit" in self.gecode:
            return None
        return self.outcome == self.gecode


def limited(words, seconds):
    """Standard output, standard error, and the processor seconds that the call took with all that it called.

    The limit is one of processor seconds as well, and holds for each process: on a busy machine the time of day says little.
    """
    before = resource.getrusage(resource.RUSAGE_CHILDREN)
    limit = ["sh", "-c", f'ulimit -t {seconds}; exec "$@"', "sh", *words]
    done = subprocess.run(limit, capture_output=True, text=True, check=False)
    after = resource.getrusage(resource.RUSAGE_CHILDREN)
    spent = after.ru_utime + after.ru_stime - before.ru_utime - before.ru_stime
    return done.stdout, done.stderr, f"{spent:.2f}"


def models(names=()):
    found = sorted(glob.glob(os.path.join(MODELS, "*.mzn")))
    return [path for path in found if not names or os.path.basename(path)[:-4] in names]


def flattened(configuration, path, folder, name, *flags):
    fzn, ozn = os.path.join(folder, name + ".fzn"), os.path.join(folder, name + ".ozn")
    words = ["minizinc", "-c", *flags, "--solver", configuration, path, "--fzn", fzn, "--ozn", ozn, "--output-mode", "dzn"]
    _, out, err = run(words, 300)
    return (fzn, ozn, "") if os.path.exists(fzn) else (None, None, (err or out).strip().split("\n")[0][:80])


def measured(path, seconds):
    """The row of a model, within so many processor seconds for each solver."""
    row = Row(os.path.basename(path)[:-4])
    with written_configuration() as qecode, tempfile.TemporaryDirectory() as folder:
        gecode = write(folder, "gecode.msc", json.dumps(GECODE))
        fzn, ozn, why = flattened(qecode, path, folder, "q")
        if fzn is None:
            row.outcome = "not flattened: " + why
        else:
            out = by_qecode(row, fzn, seconds)
            if "----------" in out:
                row.given_back = given_back(gecode, path, folder, ozn, out)
        by_gecode(row, gecode, path, folder, seconds)
    return row


def by_qecode(row, fzn, seconds):
    out, err, row.seconds = limited([FZN_QECODE, "-s", fzn], seconds)
    told = dict(STATISTIC.findall(out))
    row.variables, row.constraints = told.get("variables", ""), told.get("constraints", "")
    row.certificate = told.get("certificateBytes", "")
    refused = err.strip().split("\n")[-1][:100] if "ERROR" in out and "status -" not in err else ""
    row.outcome = refused or told.get("outcome", "limit")
    return out


def given_back(gecode, path, folder, ozn, out):
    """Whether Gecode accepts the solution as data of the model."""
    _, shown, _ = run(["minizinc", "--ozn-file", ozn], text=out)
    data = [line for line in shown.splitlines() if line and not line.startswith(("-", "=", "%"))]
    solution = write(folder, "solution.dzn", "\n".join(data))
    for flags in [], ["-G", "std"]:
        _, out, err = run(["minizinc", "--solver", gecode, *flags, path, solution])
        if "Registry" not in out + err:  # where Gecode lacks a global that its library hands to it
            break
    return "yes" if "----------" in out else "NO: " + (out + err)[:80].replace("\n", " ")


def by_gecode(row, gecode, path, folder, seconds):
    fzn, _, why = flattened(gecode, path, folder, "g")
    if fzn and NATIVE_GLOBAL.search(read(fzn)):
        fzn, _, why = flattened(gecode, path, folder, "g", "-G", "std")
    if fzn is None:
        row.gecode = "not flattened: " + why
        return
    goal = show_goal(fzn)
    out, _, row.gecode_seconds = limited(["fzn-gecode", *(["-a"] if goal else []), fzn], seconds)
    if "UNSATISFIABLE" in out:
        row.gecode = "false"
    elif "----------" not in out:
        row.gecode = "limit"
    elif goal:
        best = re.findall(rf"^{goal} = (-?\d+);", out, re.M)[-1]
        row.gecode = f"true {best}" + ("" if "==========" in out else " (limit)")
    else:
        row.gecode = "true"


def show_goal(fzn):
    """The variable that is optimised, if any; it is made one that is shown."""
    text = read(fzn)
    goal = re.search(r"solve.*?(?:minimize|maximize)\s+(\w+)", text, re.S)
    if not goal:
        return None
    declared = re.search(rf"var [^;\n]*: {goal[1]}\b[^;\n]*;", text)
    if declared and "output_var" not in declared[0]:
        text = re.sub(rf"(var [^;\n]*: {goal[1]}\b)", r"\1 :: output_var", text, count=1)
        with open(fzn, "w", encoding="utf-8") as file:
            file.write(text)
    return goal[1]


QUICK = ("queens8", "send", "zebra", "golomb5", "knapsack_b", "coins", "magic3", "sudoku_easy", "pow3", "bibd7")


SEVERAL = ("langford", "latin_lex", "magic3", "quasigroup8", "queens3", "send", "stable", "sudoku_easy")


def solutions_of(solver, path, *words):
    """All solutions in order, as text, and what is told at the end."""
    _, out, err = run(["minizinc", "--solver", solver, *words, "--output-mode", "dzn", path], 600)
    *shown, last = out.split("----------\n")
    return sorted(shown), last + err


def checks_of_several(tally):
    """All solutions of a few models are those that Gecode finds."""
    with written_configuration() as qecode, tempfile.TemporaryDirectory() as folder:
        gecode = write(folder, "gecode.msc", json.dumps(GECODE))
        for path in models(SEVERAL):
            found, last = solutions_of(qecode, path, "-a")
            others, others_last = solutions_of(gecode, path, "-a", "-G", "std")
            name = os.path.basename(path)
            is_same = found == others and ("==========" in last) == ("==========" in others_last)
            why = f"{len(found)}, where Gecode has {len(others)}: {last}{others_last}"
            tally.check(f"all solutions of {name} beside Gecode", is_same, why)


def checks(tally):
    """A few models: the same outcome as Gecode's, and Gecode accepts the solutions."""
    checks_of_several(tally)
    for path in models(QUICK):
        row = measured(path, 60)
        tally.check(f"{row.name} beside Gecode", row.is_same() is not False, f"{row.outcome}, where Gecode has {row.gecode}")
        if row.given_back:
            tally.check(f"{row.name} given back to Gecode", row.given_back == "yes", row.given_back)
