"""What the program says of a problem and a certificate."""
import os
import shutil
import subprocess
import tempfile

from people.ending import Failed
from program import TOP

# The program that tells first moves, where ./qtell has proved and built it.
TELLER = os.path.join(TOP, "crates", "qtell", "out", "qtell")

PATIENCE = 60  # seconds for the worst ties


def checked(program, problem, certificate):
    """What `check` says, without its yes; whoever has no yes is refused."""
    status, written = program.run("check", problem, certificate)
    text = written.decode().strip()
    if not text.startswith("yes "):
        raise Failed(f"{certificate}: check said: {text or 'nothing'}. An answer that isn't checked isn't shown.", status or 1)
    return text.removeprefix("yes ")


def checker_words(program):
    """Who checked, in words: nothing is claimed of a program that isn't the one that was proved and built here."""
    if program.is_built_here():
        return "qecode check (the proved checker)"
    return f"{os.path.basename(program.path)} check (a program that isn't known to be the proved build)"


def first_told(problem, certificate):
    """The values of the first move that `qtell first` tells of a certificate, in the order of the text; None where qtell isn't
    built here, or tells of no move."""
    path = shutil.which(os.environ.get("QTELL", TELLER))
    if path is None:
        return None
    done = subprocess.run([path, "first", problem, certificate], stdin=subprocess.DEVNULL, stdout=subprocess.PIPE, check=False)
    values = [int(line.split(" = ")[1]) for line in done.stdout.decode().splitlines() if " = " in line]
    return values if done.returncode == 0 and values else None


def played(program, problem, certificate, moves):
    """The lines that `play` writes for these moves, without the last one; None where it can't play them."""
    with tempfile.NamedTemporaryFile("w", prefix="qecode-moves-", encoding="ascii") as file:
        file.write(" ".join(map(str, moves)) + "\n")
        file.flush()
        status, written = program.run("play", problem, certificate, file.name)
    return written.decode().splitlines()[:-1] if status == 0 else None


def worst_outcome(program, problem, folder):
    """What the problem comes to where the first owner meets the worst ties, checked; None where it wasn't settled."""
    text, certificate = (os.path.join(folder, name) for name in ("worst.qc", "worst.cert"))
    for path, more in (text, ["--text"]), (certificate, []):
        with open(path, "wb") as file:
            status, _ = program.run("worst", problem, "1", *more, stdout=file, timeout=PATIENCE)
        if status != 0:
            return None
    return checked(program, text, certificate)


def sure(program, problem, stated):
    """What is sure where the first owner meets the worst ties of later owners, in words. That answer is checked too."""
    try:
        with tempfile.TemporaryDirectory(prefix="qecode-sure-") as folder:
            worst = worst_outcome(program, problem.path, folder)
    except subprocess.TimeoutExpired:
        return f"not known: worst took longer than {PATIENCE} s"
    if worst is None:
        return "not known: worst left it open, or refused it"
    if worst == stated:
        return f"{worst.split()[-1]} too (checked as well): no tie of later owners matters"
    return (
        f"only {worst.split()[-1]} (checked as well): the better number needs later owners to break their ties in favour of the"
        " first, and the sure one may need another first move, which `qecode worst` tells"
    )
