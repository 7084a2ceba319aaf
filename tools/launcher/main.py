"""The launcher of a program: `./PROGRAM [--now] WORDS`, `./PROGRAM --help`, `./PROGRAM --version`."""
import os
import signal
import subprocess
import sys

from . import crates, run, tell
from .pipes import Copies, NotCopied
from .programs import PROGRAMS
from .terminal import is_terminal, say

# Where the launcher could not do its part: there is no program, or a pipe could not be copied.
FAILED = 21
# Statuses with which `solve` has written a certificate.
ANSWERED = (0, 2)


def told_by(words):
    """The first line that a command writes, or why there is none."""
    try:
        ran = subprocess.run(words, stdin=subprocess.DEVNULL, capture_output=True, text=True, check=False)
    except OSError:
        return None, f"{words[0]} isn't there"
    lines = ran.stdout.split("\n")
    return (lines[0], "") if ran.returncode == 0 and lines[0] else (None, (ran.stderr.split("\n")[0] or "no answer"))


def commit():
    git = ["git", "-C", crates.TOP]
    top, why = told_by([*git, "rev-parse", "--show-toplevel"])
    if top is None:
        return f"commit unknown: {why}"
    # A copy without its history may lie in another repository.
    if os.path.realpath(top) != crates.TOP:
        return "commit unknown: not a clone"
    name, why = told_by([*git, "describe", "--always", "--abbrev=12", "--exclude=*", "--dirty= with changes"])
    return f"commit {name}" if name else f"commit unknown: {why}"


def version(program):
    kit, why = told_by(["rt", "version"])
    order = crates.order_of(program.crate)
    built = "built" if crates.is_current(program.built, order) else "not built yet, or older than its sources"
    unproved = ", and so is a build without proofs" if crates.is_current(program.unproved, order) else ""
    return "\n".join((
        f"{program.name} {commit()}",
        f"kit {kit}" if kit else f"kit unknown: {why}",
        f"the proved program is {built}{unproved if built == 'built' else unproved.replace('so is a', 'there is a')}",
        "",
    ))


def program_for(program, now):
    """The path of the program that answers, and whether it is proved; None where there is none."""
    if crates.is_current(program.built, crates.order_of(program.crate)):
        return program.built, True
    # What builds is imported only where it is wanted, so that a program that is there starts at once.
    if now:
        from . import unproved

        if not unproved.ensure(program):
            return None, False
        say(program.name, "nothing is proved of the build that answers now")
        return program.unproved, False
    from . import prove

    return (program.built if prove.ensure(program) else None), True


def answer(program, path, given, is_proved):
    with Copies(given, program.files_of(given)) as words:
        if not is_terminal():
            ran = run.quietly(path, words)
            tell.tell_fault(program, ran.status, words)
            return ran.status
        ran = run.watched(program.name, path, words)
        tell.tell_fault(program, ran.status, words)
        tell.tell_place(ran, words, given)
        if ran.status == tell.USAGE:
            tell.tell_usage(program)
        if words[:1] == ["solve"] and ran.status in ANSWERED:
            tell.tell_answer(program, ran, given, is_proved)
        return ran.status


def end_by_signal(number, _):
    sys.exit(128 + number)


def write_page(text):
    try:
        run.write_whole(text.encode())
    except OSError:
        return run.WRITE_FAULT
    return 0


def launch(name, words):
    program = PROGRAMS[name]
    pages = {"--help": program.page, "--version": lambda: version(program)}
    if len(words) == 1 and words[0] in pages:
        return write_page(pages[words[0]]())
    now = words[:1] == ["--now"]
    given = words[1:] if now else words
    path, is_proved = program_for(program, now)
    if path is None:
        return FAILED
    try:
        return answer(program, path, given, is_proved)
    except NotCopied as error:
        say(program.name, str(error))
    except OSError as error:
        say(program.name, f"the program could not be run: {error}")
    return FAILED


def main(name):
    """Ends as the program does. Whatever ends the launcher, what it made and what it started end with it."""
    for it in (signal.SIGTERM, signal.SIGHUP):
        if signal.getsignal(it) is not signal.SIG_IGN:
            signal.signal(it, end_by_signal)
    try:
        status = launch(name, sys.argv[1:])
    except KeyboardInterrupt:
        # So that a shell sees what ended it.
        signal.signal(signal.SIGINT, signal.SIG_DFL)
        os.kill(os.getpid(), signal.SIGINT)
        status = 128 + signal.SIGINT
    sys.exit(status)
