"""fzn-qecode: solves a FlatZinc file with the proved program, and writes a FlatZinc solution stream.

The certificate is checked against the problem's text before anything is claimed, and an assignment is evaluated, by the text
and by the flattened model. Nothing of this file is proved: what a certificate proves is the text that is kept beside it.
"""
import argparse
import os
import re
import signal
import sys
import tempfile
import time

from . import flatzinc, plain, program
from .certificate import assignment
from .games import GameProblem, is_game
from .output import Output
from .plain import PlainProblem
from .play import NoPlay, Player
from .reading import Reader
from .solutions import each
from .terms import Unsupported, V

# Turns of the first rounds, where two orders of the variables are tried one after the other.
ROUNDS = (10_000, 100_000, 1_000_000)
MOST_TURNS = 10_000_000
PROVED_FALSE, NOT_KNOWN, FAILED = "=====UNSATISFIABLE=====", "=====UNKNOWN=====", "=====ERROR====="
ONE, ALL = "----------", "=========="


class Failure(Exception):
    """The program, or this translator, did what it mustn't; the text says what."""


class Unsettled(Exception):
    """Whether there is another solution isn't settled within the turns."""


def words_of(words):
    p = argparse.ArgumentParser(prog="fzn-qecode", description="Solves a FlatZinc file with qecode.", allow_abbrev=False)
    p.add_argument("file", help="the FlatZinc file")
    p.add_argument("-a", "--all-solutions", action="store_true", help="shows all solutions; of what is optimised the best one alone")
    p.add_argument("-n", type=count, default=1, metavar="N", help="shows N solutions where there are as many; as -a")
    p.add_argument("-i", action="store_true", help="of what is optimised: the best one alone is shown, as without it")
    p.add_argument("-s", "--statistics", action="store_true", help="writes statistics")
    p.add_argument("-t", "--time-limit", type=int, default=0, metavar="MS", help="ends after so many milliseconds")
    p.add_argument("-v", "--verbose", action="store_true", help="tells each attempt on standard error")
    p.add_argument("--turns", type=turns, default=MOST_TURNS, metavar="N", help="turns of the search, at most 10,000,000")
    p.add_argument("--certificate", metavar="FILE", help="keeps the certificate, and the problem's text beside it with .qc")
    p.add_argument("--text", metavar="FILE", help="keeps the problem's text")
    p.add_argument("--only-text", action="store_true", help="writes the text alone, to --text or else to standard output")
    p.add_argument("--assume-bounds", type=bounds, metavar="L..H", help="for integers without bounds; what is told holds within them")
    p.add_argument("--order", choices=["auto", "model", "bools"], default="auto", help="which variables are decided first")
    p.add_argument("--early", action="store_true", help="in games: what follows from the opponent's choice stays in his scope")
    return p.parse_args([*joined(words)])


def joined(words):
    """Bounds may begin with a minus sign, which argparse takes for an option."""
    words = iter(words)
    for word in words:
        yield f"{word}={next(words, '')}" if word == "--assume-bounds" else word


def bounds(text):
    met = re.fullmatch(r"(-?\d+)\.\.(-?\d+)", text)
    if not met or int(met[1]) > int(met[2]):
        raise argparse.ArgumentTypeError(f"{text!r} isn't L..H with two integers, the smaller first")
    return int(met[1]), int(met[2])


def count(text):
    if not text.isdigit() or int(text) < 1:
        raise argparse.ArgumentTypeError(f"{text!r} isn't a number of solutions from 1 on")
    return int(text)


def turns(text):
    if not text.isdigit() or not 1 <= int(text) <= MOST_TURNS:
        raise argparse.ArgumentTypeError(f"{text!r} isn't a number from 1 to {MOST_TURNS}")
    return int(text)


def main(words=None):
    signal.signal(signal.SIGTERM, lambda *_: sys.exit(1))  # so that what is under way ends, and temporary files go
    args = words_of(sys.argv[1:] if words is None else words)
    try:
        with tempfile.TemporaryDirectory(prefix="qecode-") as folder:
            Run(args, folder).run()
        return 0
    except program.OutOfTime:
        print(NOT_KNOWN)
        return 0
    except (Unsupported, flatzinc.FlatZincError, program.ProgramMissing, Failure) as error:
        print(f"fzn-qecode: {error}", file=sys.stderr)
    except BrokenPipeError:
        raise  # nobody reads any more, so nothing can be told
    except OSError as error:
        print(f"fzn-qecode: {error.filename}: {error.strerror}", file=sys.stderr)
    print(FAILED)
    return 1


def are_several_wanted(model, args):
    """Whether solutions are gone through; of what is optimised the best one is shown alone."""
    return (args.all_solutions or args.n > 1) and model.goal[0] == "satisfy"


def make_problem(model, args, bools_first=False):
    reader = Reader(model, args.assume_bounds)
    several = are_several_wanted(model, args)
    if not is_game(reader):
        return PlainProblem(reader, bools_first, several)
    if several:
        raise Unsupported("-a and -n: a game has one answer")
    return GameProblem(reader, not args.early)


class Run:
    """One call: from the file to what is written."""

    def __init__(self, args, folder):
        self.args, self.folder = args, folder
        self.deadline = program.Deadline(args.time_limit)
        self.comment = f"written by fzn-qecode from {os.path.basename(args.file)}"
        self.text_path = os.path.join(folder, "problem.qc")
        # A certificate that is to be kept is written beside its place, since it may be too long for the folder of temporary files.
        self.unkept_path = args.certificate + ".part" if args.certificate else os.path.join(folder, "certificate")
        self.orders, self.narrowed = [], ([], [])
        self.attempts = self.certificates = self.bytes = 0
        self.solve_time = self.check_time = 0.0

    def run(self):
        started = time.monotonic()
        with open(self.args.file, encoding="utf-8") as file:
            self.model = flatzinc.parse(file.read())
        self.problem = make_problem(self.model, self.args, self.args.order == "bools")
        self.orders = [self.problem]
        self.write_text()
        self.tell(
            variables=len(self.problem.variables()),
            constraints=len(self.problem.constraints()),
            translateTime=round(time.monotonic() - started, 3),
        )
        if self.args.only_text:
            self.keep_text()
            return
        try:
            if are_several_wanted(self.model, self.args):
                self.show_several()
            else:
                outcome = self.solved()
                self.keep(self.args.certificate)
                self.tell_spent(outcome)
                self.report(outcome)
        finally:
            if self.args.certificate and os.path.exists(self.unkept_path):
                os.unlink(self.unkept_path)

    # ---- Files.

    def write_text(self):
        self.problem.refuse_too_large()
        with open(self.text_path, "w", encoding="ascii") as file:
            file.write(self.problem.text(self.comment))

    def keep_text(self):
        text = self.problem.text(self.comment)
        if self.args.text:
            with open(self.args.text, "w", encoding="ascii") as file:
                file.write(text)
        else:
            print(text, end="")

    def keep(self, certificate):
        """Keeps what was asked for, once it was checked."""
        if self.args.text and self.certificates == 1:
            self.keep_text()
        if certificate:
            with open(certificate + ".qc", "w", encoding="ascii") as file:
                file.write(self.problem.text(self.comment))
            os.replace(self.certificate_path, certificate)
            self.certificate_path = certificate

    def tell(self, **what):
        if self.args.statistics:
            for name, value in what.items():
                print(f"%%%mzn-stat: {name}={value}")

    def tell_spent(self, outcome, **more):
        self.tell(
            solveTime=round(self.solve_time, 3),
            checkTime=round(self.check_time, 3),
            attempts=self.attempts,
            certificateBytes=self.bytes,
            outcome=" ".join(outcome),
            **more,
        )
        if self.args.statistics:
            print("%%%mzn-stat-end")

    # ---- Solving.

    def solved(self):
        """The words of the outcome of a certificate that was checked."""
        started = time.monotonic()
        self.certificate_path = self.unkept_path
        self.search()
        searched = time.monotonic()
        with open(self.certificate_path, encoding="ascii") as file:
            file.readline()
            outcome = file.readline().split()
        _, said = program.answer(["check", self.text_path, self.certificate_path], self.folder, self.deadline)
        if said.split() != ["yes", *outcome]:
            raise Failure(f"the certificate isn't confirmed: check answers {said.strip()!r} where {' '.join(outcome)!r} is stated")
        self.solve_time += searched - started
        self.check_time += time.monotonic() - searched
        self.certificates += 1
        self.bytes += os.path.getsize(self.certificate_path)
        return outcome

    def search(self):
        """Solves; where there are two orders of the variables, each in turn, with more turns from round to round."""
        if not self.has_orders() or self.args.turns <= ROUNDS[0]:
            self.attempt(self.args.turns)
            return
        if self.attempt(ROUNDS[0]):
            return
        other = self.other_order()
        orders = [other, self.problem]  # the one that wasn't tried yet is the first
        if other.text(self.comment) == self.problem.text(self.comment):
            orders = [self.problem]
        for most in [it for it in ROUNDS[1:] if len(orders) > 1 and it < self.args.turns] + [self.args.turns]:
            for self.problem in orders:
                self.write_text()
                if self.attempt(most):
                    return

    def other_order(self):
        """The problem in the order of its variables that isn't the present one."""
        if len(self.orders) == 1:
            self.orders.append(make_problem(self.model, self.args, True))
            self.orders[1].narrow(*self.narrowed)
        return self.orders[self.problem is self.orders[0]]

    def has_orders(self):
        """Whether two orders are to be tried: a game keeps the order of its text, and without Booleans there is one."""
        return not self.problem.is_game and self.args.order == "auto" and any(v.kind == "bool" for v in self.problem.variables())

    def attempt(self, most):
        """Solves within so many turns; whether the problem was settled."""
        self.attempts += 1
        started = time.monotonic()
        status = program.call(["solve", self.text_path, "--turns", str(most)], self.certificate_path, self.deadline)
        if self.args.verbose:
            print(f"fzn-qecode: {most} turns, status {status}, {time.monotonic() - started:.2f} s", file=sys.stderr)
        if status in (program.BAD_PROBLEM, program.TOO_LONG):
            with open(self.certificate_path, encoding="ascii") as file:
                raise Unsupported(f"the program refuses the problem's text ({file.read().strip()}; docs/problem-text.md)")
        if status == program.MEMORY:
            raise Failure("there was too little memory; fewer --turns take less")
        if status not in (program.DONE, program.OPEN):
            raise Failure(f"the program ended with status {status}")
        return status == program.DONE

    # ---- What is told.

    def report(self, outcome):
        self.output = Output(self.problem.reader)
        if self.problem.is_game:
            print("% qecode: " + " ".join(outcome))
        self.tell_assumed()
        if outcome[0] == "open":
            print(NOT_KNOWN)
        elif outcome[0] == "false":
            self.tell_none()
        elif self.problem.is_game:
            self.report_play()
        else:
            print("\n".join([*self.output.lines(self.solution(outcome)), ONE]))
            if self.problem.target is not None:
                self.tell_all()

    def tell_assumed(self):
        assumed = self.problem.reader.assumed
        if assumed:
            low, high = self.args.assume_bounds
            print(f"% within the assumed bounds {low}..{high} of {', '.join(assumed)}")

    def tell_none(self):
        print(NOT_KNOWN if self.problem.reader.assumed else PROVED_FALSE)

    def tell_all(self):
        """That there is nothing better, or no other solution."""
        if not self.problem.reader.assumed:
            print(ALL)

    def show_several(self):
        """Shows solutions one by one, and tells where there is none left."""
        self.tell_assumed()
        shown, is_at_end = 0, False
        try:
            for _, lines in each(len(self.problem.groups), self.next_solution):
                print("\n".join([*lines, ONE]), flush=True)
                shown += 1
                if shown == self.args.n and not self.args.all_solutions:
                    break
            else:
                is_at_end = True
        except (Unsettled, program.OutOfTime):
            pass  # what was shown stands
        if not is_at_end and not shown:
            print(NOT_KNOWN)
        elif is_at_end:
            self.tell_all() if shown else self.tell_none()
        self.tell_spent(["true"] if shown else ["false"] if is_at_end else ["open"], certificates=self.certificates)

    def next_solution(self, given, taken):
        """What `solutions.each` asks for: the values of the groups, and the lines that show the solution."""
        self.narrowed = given, taken
        for problem in self.orders:
            problem.narrow(given, taken)
        self.write_text()
        outcome = self.solved()
        self.keep(f"{self.args.certificate}.{self.certificates}" if self.args.certificate else None)
        if outcome[0] == "open":
            raise Unsettled
        if outcome[0] == "false":
            return None
        value = self.solution(outcome)
        return [[value[v] for v in group] for group in self.problem.groups], Output(self.problem.reader).lines(value)

    def solution(self, outcome):
        """The values of all variables, which the text and the flattened model were evaluated with."""
        problem = self.problem
        value = self.assignment(outcome)
        if value is None:
            raise Failure("no assignment was found in the certificate")
        plain.complete(problem, value)
        wrong = plain.broken(problem, value)
        if wrong:
            raise Failure(f"the assignment breaks {wrong}")
        reached = value[problem.target] if isinstance(problem.target, V) else None
        if reached is not None and [str(reached)] != outcome[1:]:
            raise Failure(f"the assignment reaches {reached}, where {' '.join(outcome)} is stated")
        return value

    def assignment(self, outcome):
        """The values of the variables, by the program's play, or from a certificate that is too long for it; or None."""
        variables = self.problem.variables()
        if not variables:
            return {}
        try:
            lines = Player(self.problem, self.text_path, self.certificate_path, self.folder, self.deadline).one_play()
            found = list(map(int, lines[0].split()[2:]))
        except NoPlay:
            target = self.problem.target
            at = variables.index(target) if isinstance(target, V) else None
            with open(self.certificate_path, encoding="ascii") as lines:
                lines.readline()
                lines.readline()
                found = assignment(lines, [list(v.domain) for v in variables], at, int(outcome[1]) if at is not None else None)
        return dict(zip(variables, found)) if found else None

    def report_play(self):
        player = Player(self.problem, self.text_path, self.certificate_path, self.folder, self.deadline)
        try:
            lines = player.one_play()
        except NoPlay as why:
            print(f"% the game is won, but {why}: no play is shown; the certificate has the strategy")
            print(NOT_KNOWN)
            return
        value = {}
        for line in lines:
            print("% " + line)
            number, *words = line.split()
            if words[:1] in (["exists"], ["forall"]):
                value.update(zip(self.problem.scopes[int(number) - 1].variables, map(int, words[1:])))
        self.fill_in(value)
        print("\n".join([*self.output.lines(value), ONE, ALL]))

    def fill_in(self, value):
        """Values for what no scope came to; then for what follows from choices and stands in no scope."""
        missing = [v for v in self.problem.chosen if v not in value]
        if missing:
            names = ", ".join(v.name for v in missing)
            print(f"% the play ends before these were chosen, and their least values are shown: {names}")
            value.update((v, v.low) for v in missing)
        self.problem.complete(value, self.output.variables)
