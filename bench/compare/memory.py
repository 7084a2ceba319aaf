"""Refuses one allocation of the program after the other, and looks at what it answers.

    bench/run memory [--program PATH | --qdense PATH] [--first N] [--samples N] [--on] [--kit N,N..]

Nothing here is part of the gate.

The runs are `solve` of examples/tolls.qc, `check` of what that writes, `print` of a small text, and `generate 0`. Where an
allocation is refused, the program has to end with status 9 and nothing written, or as it does when none is. An allocation is a call of
malloc or realloc. The first 300 are refused in turn, the last 20 too, and about 300 between them. With `--qdense` it is that
program's `solve` of examples/schedule.qc and of a wish whose optimum two lists show, `check` of what it writes, and `qbf` of
a formula.

How it is run: the program takes its memory from the C library, so refuse.c, which is compiled by cc, is loaded
before that library (LD_PRELOAD) and refuses the Nth call. So the built program itself is tried, in milliseconds.

The kit has its own way, `rt try --fail-alloc N` in the program's crate: it builds the program anew each time, with checks
for bad accesses and overflows, which takes half a minute and more, so only a few numbers can be tried. `rt try` hands on
the words after `--`, and `--data NAME=FILE` puts a copy of a file beside the program. It gives no answer past 1 MiB of
output, so `solve` gets a budget there.

--first N    how many are refused one after the other from the first on
--samples N  about how many after them
--on         refuses each later allocation too, as where memory has run out
--kit N,N..  tries these numbers by `rt try` instead
"""
import argparse
import os
import subprocess
import tempfile

from program import TOP, Program, add_option

REFUSER = os.path.join(os.path.dirname(os.path.realpath(__file__)), "refuse.c")
REFUSED = 9
LAST = 20
SMALL = "exists;constraint int_le(x,3);var {2,0,1,2}: x; % c\ngoal;solve;"
WISH = """exists maximize x; var 0..4: x; forall; var 0..4: y; constraint int_le(y,x);
goal; constraint int_le(y,2); solve;"""
TOLLS = os.path.join(TOP, "examples", "tolls.qc")
SCHEDULE = os.path.join(TOP, "examples", "schedule.qc")
FORMULA = os.path.join(TOP, "examples", "formulas", "copycat.qdimacs")
KIT_TURNS = "2000"


def write(path, content):
    with open(path, "wb") as file:
        file.write(content)


class Built:
    """Runs of the built program under the refusing library."""

    def __init__(self, program, folder, refuses_on):
        self.program, self.count = program, os.path.join(folder, "count")
        library = os.path.join(folder, "refuse.so")
        subprocess.run(["cc", "-O2", "-shared", "-fPIC", "-o", library, REFUSER], check=True)
        self.environment = {"LD_PRELOAD": library, "COUNT": self.count} | ({"REFUSE_ON": "1"} if refuses_on else {})

    def run(self, words, number):
        """The status and the output with this allocation refused; 0 for none."""
        environment = self.environment | {"REFUSE": str(number)}
        return self.program.run(*words, env=environment, stderr=subprocess.DEVNULL)

    def allocations(self):
        """How many the last run asked for."""
        with open(self.count, encoding="utf-8") as file:
            return int(file.read())


def sampled(options, count):
    between = range(options.first + 1, count - LAST)
    step = max(1, len(between) // options.samples)
    return sorted({*range(1, min(options.first, count) + 1), *between[::step], *range(max(1, count - LAST), count + 1)})


def tell_wrong(words, number, answer):
    print(f"WRONG: {' '.join(words)}: allocation {number}: status {answer[0]}, {len(answer[1])} bytes", flush=True)


def tried(options, built, words):
    """Refuses allocations of one command; the output when none is refused, and how many answers were wrong."""
    usual = built.run(words, 0)
    count = built.allocations()
    numbers = sampled(options, count)
    refused = wrong = 0
    for number in numbers:
        answer = built.run(words, number)
        refused += answer == (REFUSED, b"")
        if answer not in (usual, (REFUSED, b"")):
            wrong += 1
            tell_wrong(words, number, answer)
    told = f"{len(numbers)} of {count} allocations refused: {refused} times status {REFUSED} and nothing written"
    print(f"{words[0]:8} {told}, {len(numbers) - refused - wrong} times the usual answer, {wrong} wrong", flush=True)
    return usual[1], wrong


def try_built(options, folder):
    small, certificate = os.path.join(folder, "small.qc"), os.path.join(folder, "tolls.cert")
    write(small, SMALL.encode())
    built = Built(Program(options.program), folder, options.on)
    solved, wrong = tried(options, built, ["solve", TOLLS])
    write(certificate, solved)
    for words in ["check", TOLLS, certificate], ["print", small], ["generate", "0"]:
        wrong += tried(options, built, words)[1]
    return wrong


def try_lists(options, folder):
    """The same for `qdense`: what it writes for a formula, a schedule and a wish, and checks."""
    certificate, wish = os.path.join(folder, "certificate"), os.path.join(folder, "wish.qc")
    write(wish, WISH.encode())
    built = Built(Program(options.qdense), folder, options.on)
    wrong = tried(options, built, ["qbf", FORMULA])[1]
    for problem in SCHEDULE, wish:
        solved, more = tried(options, built, ["solve", problem])
        write(certificate, solved)
        wrong += more + tried(options, built, ["check", problem, certificate])[1]
    return wrong


def kit_answer(words, files, number):
    """The status and the output by the kit; number 0 refuses none."""
    data = [word for name, path in files.items() for word in ("--data", f"{name}={path}")]
    refusal = ["--fail-alloc", str(number)] if number else []
    done = subprocess.run(["rt", "try", *refusal, *data, "--", *words], cwd=os.path.join(TOP, "crates", "qc_program"), capture_output=True)
    return done.returncode, done.stdout


def try_kit(options, folder):
    """The same commands, each with the given numbers only."""
    certificate, small = os.path.join(folder, "tolls.cert"), os.path.join(folder, "small.qc")
    write(small, SMALL.encode())
    write(certificate, b"")
    files = {"tolls.qc": TOLLS, "small.qc": small, "tolls.cert": certificate}
    wrong = 0
    for words in ["solve", "tolls.qc", "--turns", KIT_TURNS], ["check", "tolls.qc", "tolls.cert"], ["print", "small.qc"]:
        usual = kit_answer(words, files, 0)
        print(f"{words[0]:6} with none refused: status {usual[0]}, {len(usual[1])} bytes", flush=True)
        if words[0] == "solve":
            write(certificate, usual[1])
        for number in map(int, options.kit.split(",")):
            answer = kit_answer(words, files, number)
            if answer not in (usual, (REFUSED, b"")):
                wrong += 1
                tell_wrong(words, number, answer)
            print(f"{words[0]:6} allocation {number}: status {answer[0]}, {len(answer[1])} bytes", flush=True)
    return wrong


def main(words):
    parser = argparse.ArgumentParser(prog="bench/run memory", description="Refuses allocations of the program.")
    add_option(parser)
    parser.add_argument("--qdense", metavar="PATH", help="tries that program in its place: solve, check and qbf")
    parser.add_argument("--first", type=int, default=300)
    parser.add_argument("--samples", type=int, default=300)
    parser.add_argument("--on", action="store_true")
    parser.add_argument("--kit", metavar="N,N..")
    options = parser.parse_args(words)
    with tempfile.TemporaryDirectory() as folder:
        way = try_kit if options.kit else try_lists if options.qdense else try_built
        wrong = way(options, folder)
    return wrong > 0
