"""The commands from end to end, as a user calls them: the installer, `minizinc --solver qecode` and `qecode-mzn`.

Games that the documents show are solved as well.
"""
import os
import re
import tempfile

from common import HERE, QECODE_MZN, TOOL, TOP, read, run, write
from random_models import answered

from qecodefzn import program
from qecodefzn.configuration import written_configuration

BARE = 'include "qecode.mzn"; var 0..3: x; constraint exists_scope(1, x); constraint x > 7; solve satisfy;\n'
# Variables that nothing constrains: what MiniZinc's output model says of them has to be known without the solver's library.
UNCONSTRAINED = ("opt 1..2", "opt 0..2", "opt bool", "set of 1..2", "bool", "1..2")
# Games that documents show, with a word of each and what is answered.
SHOWN = (
    ("guide.md", "takes", "% qecode: true 22\n", "order [1, 3, 2]"),
    ("minizinc.md", "guard", "% qecode: false\n", "UNSATISFIABLE"),
)


def block_with(text, word):
    return next(block for block in re.findall(r"^```\n(.*?)^```$", text, re.S | re.M) if "qecode.mzn" in block and word in block)


def checks(tally):
    with tempfile.TemporaryDirectory() as folder:
        installed(tally, folder)
        games(tally, folder)
        kept(tally, folder)
        by_steps(tally, folder)
    for name, word, outcome, shown in SHOWN:
        with tempfile.TemporaryDirectory() as folder:
            path = write(folder, "shown.mzn", block_with(read(os.path.join(TOP, "docs", name)), word))
            _, out, err = run([QECODE_MZN, path])
            tally.check(f"the game of {name}", outcome in out and shown in out, out + err)


def installed(tally, home):
    def minizinc(*words):
        status, out, err = run(["env", f"HOME={home}", "minizinc", "--solver", "qecode", *words])
        return out + err

    run(["env", f"HOME={home}", os.path.join(TOOL, "install")])
    model = os.path.join(HERE, "models", "knapsack_b.mzn")
    said = minizinc(model)
    tally.check("an optimum", "----------\n==========" in said, said)
    said = minizinc("-a", model)
    tally.check("an optimum with -a", "----------\n==========" in said, said)
    for words, count, is_at_end in (["-a"], 3, True), (["-n", "2"], 2, False), (["-n", "1"], 1, False), (["-n", "9"], 3, True):
        said = minizinc(*words, os.path.join(HERE, "models", "quasigroup8.mzn"))
        is_right = said.count("----------") == count and ("==========" in said) == is_at_end and "ERROR" not in said
        tally.check("quasigroups with " + " ".join(words), is_right, said)
    said = minizinc("-a", os.path.join(HERE, "models", "queens3.mzn"))
    tally.check("all of no solutions", "=====UNSATISFIABLE=====" in said, said)
    said = minizinc("-i", model)
    tally.check("an optimum with -i", "----------\n==========" in said, said)
    said = minizinc(os.path.join(HERE, "models", "queens3.mzn"))
    tally.check("no solution", "=====UNSATISFIABLE=====" in said, said)
    said = minizinc("-s", "-v", os.path.join(HERE, "models", "send.mzn"))
    tally.check("statistics", "mzn-stat: certificateBytes=" in said and "S = 9;" in said, said)
    said = minizinc("--time-limit", "2000", os.path.join(HERE, "models", "pigeon11.mzn"))
    tally.check("a time limit", "=====UNKNOWN=====" in said, said)
    said = minizinc(os.path.join(TOP, "examples", "defence.mzn"))
    tally.check("a game without -g", "flattened with -g" in said and "=====ERROR=====" in said, said)
    said = minizinc("-g", os.path.join(TOP, "examples", "defence.mzn"))
    tally.check("a game with -g", "% qecode: true\n" in said and "guards [0, 1, 1]" in said, said)
    said = minizinc("-g", "-a", os.path.join(TOP, "examples", "defence.mzn"))
    tally.check("a game with -a", "a game has one answer" in said and "=====ERROR=====" in said, said)


def games(tally, folder):
    _, out, err = run([QECODE_MZN, os.path.join(TOP, "examples", "least_makespan.mzn")])
    tally.check("qecode-mzn", "% qecode: true 7\n" in out and "start 0; after a delay of 0" in out, out + err)
    status, out, err = run([QECODE_MZN, write(folder, "bare.mzn", BARE)])
    is_refused = status == 1 and "outside of all rules can't hold" in err and "UNSAT" not in out
    tally.check("a bare constraint that can't hold", is_refused, out + err)


def by_steps(tally, folder):
    """MiniZinc flattens, the solver solves, and MiniZinc writes the solution by the output model alone."""
    with written_configuration() as configuration:
        for kind in UNCONSTRAINED:
            write(folder, "m.mzn", f"var {kind}: v; solve satisfy;\n")
            out, err = answered(folder, configuration, [], [])
            tally.check(f"step by step, var {kind}", '"v"' in out and "----------" in out and not err, out + err)


def kept(tally, folder):
    certificate = os.path.join(folder, "best.cert")
    run([QECODE_MZN, os.path.join(TOP, "examples", "best_price.mzn"), "--certificate", certificate])
    _, said, _ = run([program.PROGRAM, "check", certificate + ".qc", certificate])
    tally.check("a kept certificate", said == "yes true 15\n", said)
