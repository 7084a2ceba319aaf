"""A game with one variable of its first scope kept to each of its values: what each comes to, solved and checked."""
import os
import sys
import tempfile
import threading
import time
from concurrent.futures import ThreadPoolExecutor, as_completed
from dataclasses import dataclass

from oracle import reader
from oracle.reader import Item, Token
from people.ending import FAULT, Failed

SOLVED, LEFT_OPEN = 0, 2
QUIET, OFTEN, SELDOM = 2.0, 1.0, 10.0  # seconds until progress is told, and between on a terminal and elsewhere


@dataclass
class Row:
    """What one value comes to. `best` and `worst` are a number, True, False, or None where it was left open."""

    value: int
    label: str
    best: object = None
    worst: object = None
    size: int = 0


@dataclass(frozen=True)
class Trial:
    """A variable of the first scope and some of its values, and what is asked of each: within how many turns, and whether
    besides at the worst ties of the owner of a scope, by its number or `all`."""

    problem: object
    x: int
    values: tuple
    turns: int = None
    worst: str = None

    @property
    def name(self):
        return self.problem.names[self.x]

    def worst_words(self):
        """What the second number is: nothing but the worst ties of the first owner make it sure."""
        return "sure" if self.worst == "1" else "at all worst ties" if self.worst == "all" else f"at worst ties of {self.worst}"


def narrowed(problem, x, value):
    """The canonical text with a variable kept to one value. A domain keeps the numbers of constraints; a Boolean variable has
    none of its own, and gets a constraint."""
    items = list(reader.read(problem.source))
    declared = [it for it in items if it.what == "var"][x]
    if problem.is_bool[x]:
        args = [("one", 0, Token(0, "word", word)) for word in (problem.names[x], ("false", "true")[value])]
        items.append(Item("constraint", 0, owner=declared.owner, name=Token(0, "word", "bool_eq"), args=args))
    else:
        declared.domain = ("range", 0, [Token(0, "number", value)] * 2)
    return reader.canonical(items)


class Solver:
    """Solves and checks with files in a folder: a certificate may be large."""

    def __init__(self, program, trial, folder):
        self.program, self.trial, self.folder = program, trial, folder
        self.turns = ["--turns", str(trial.turns)] if trial.turns else []

    def path(self, name):
        return os.path.join(self.folder, name)

    def written(self, path, *words):
        """Runs the program into a file. Whatever is neither done nor open is told by its first words."""
        with open(path, "wb") as file:
            status, _ = self.program.run(*words, stdout=file)
        if status not in (SOLVED, LEFT_OPEN):
            with open(path, encoding="utf-8") as file:
                raise Failed(f"{words[0]}: {file.read(200).strip() or f'the program could not answer (status {status})'}", status)

    def outcome(self, text, certificate, *words):
        """The outcome that a certificate states and `check` confirms, and the certificate's size."""
        self.written(certificate, *words, *self.turns)
        _, said = self.program.run("check", text, certificate)
        size = os.path.getsize(certificate)
        os.remove(certificate)
        confirmed, *stated = said.decode().split() or [""]
        if confirmed != "yes":
            raise Failed(f"check didn't confirm what {words[0]} wrote: {said.decode().strip()}", FAULT)
        return outcome_of(stated), size

    def solve(self, row):
        text, certificate = self.path(f"{row.value}.qc"), self.path(f"{row.value}.cert")
        with open(text, "w", encoding="utf-8") as file:
            file.write(narrowed(self.trial.problem, self.trial.x, row.value))
        row.best, row.size = self.outcome(text, certificate, "solve", text)
        if self.trial.worst:
            opposed = self.path(f"{row.value}.worst.qc")
            self.written(opposed, "worst", text, self.trial.worst, "--text")
            row.worst, size = self.outcome(opposed, certificate, "worst", text, self.trial.worst)
            row.size += size


def outcome_of(stated):
    """A number, True or False, of the words after `yes`; None where they say open."""
    if stated[0] == "open":
        return None
    return int(stated[1]) if len(stated) > 1 else stated[0] == "true"


class Progress:
    """Tells on standard error how many are done: on a terminal one line that is kept up to date, elsewhere one now and then."""

    def __init__(self, what, total):
        self.what, self.total, self.done, self.began = what, total, 0, time.monotonic()
        self.is_terminal, self.is_told = sys.stderr.isatty(), False
        self.stopped = threading.Event()
        self.thread = threading.Thread(target=self.go, daemon=True)
        self.thread.start()

    def go(self):
        wait = QUIET
        while not self.stopped.wait(wait):
            text = f"{self.what}: {self.done} of {self.total} values, {time.monotonic() - self.began:.0f} s"
            print(f"\r\x1b[K{text}" if self.is_terminal else f"{text}\n", file=sys.stderr, end="", flush=True)
            self.is_told, wait = True, OFTEN if self.is_terminal else SELDOM

    def stop(self):
        self.stopped.set()
        self.thread.join()
        if self.is_told and self.is_terminal:
            print("\r\x1b[K", file=sys.stderr, end="", flush=True)


def solve_all(program, trial, jobs):
    """A row for each value, in order, found by so many runs at a time."""
    rows = [Row(value, trial.problem.value_text(trial.x, value)) for value in trial.values]
    with tempfile.TemporaryDirectory(prefix="qecode-whatif-") as folder, ThreadPoolExecutor(jobs) as pool:
        solver, progress = Solver(program, trial, folder), Progress("whatif", len(rows))
        try:
            for done in as_completed([pool.submit(solver.solve, row) for row in rows]):
                done.result()
                progress.done += 1
        finally:
            pool.shutdown(cancel_futures=True)
            progress.stop()
    return rows


# ---- What the rows come to together.


def is_number(it):
    return it is not None and not isinstance(it, bool)


def shown(it):
    return str(it) if is_number(it) else {None: "open", True: "won", False: "can't win"}[it]


def best_of(rows, part, sense):
    """The best number of the rows, or True where no number is asked for and some value wins; None where none does."""
    found = [getattr(row, part) for row in rows]
    numbers = [it for it in found if is_number(it)]
    if numbers:
        return (min if sense == "minimize" else max)(numbers)
    return True if True in found else None


def is_best(row, part, best):
    it = getattr(row, part)
    return it is not None and is_number(it) == is_number(best) and it == best
