"""What is told after a run: why a file couldn't be read, where a text goes wrong, and what can be done with an answer."""
import os
import re
import shlex
import subprocess
import sys

from .crates import TOP
from .pipes import is_pipe
from .programs import shown
from .terminal import say

STATES = re.compile(r"true(?: (-?\d+))?|false|open (\d+)")
PLACE = re.compile(r".* at (\d+)")
# The statuses of refusals that name a place, with the word of the command whose file it is in.
PLACED = {4: 1, 11: 1, 5: 2, 10: 3}
FAULTS = {
    8: "the output could not be written; what was written is a part of the answer",
    9: "there was too little memory; nothing was written",
    20: "a word of the command isn't text",
}
USAGE, READ_FAULT = 3, 7
# Scripts that take a problem and its certificate, with what they are for.
HELPS = (("tools/play", "play", ""), ("tools/explain", "in words", ""), ("tools/page", "look", " > page.html"))


def why_unread(path):
    """Why a file can't be read, where that can be seen."""
    if not os.path.lexists(path) or not os.path.exists(path):
        return "no such file"
    if os.path.isdir(path):
        return "is a directory"
    if not os.access(path, os.R_OK):
        return "may not be read"
    if not os.path.isfile(path):
        return "isn't a file that can be read at a place; write it to a file first"
    return None


def tell_fault(program, status, words):
    if status in FAULTS:
        say(program.name, FAULTS[status])
    elif status == READ_FAULT:
        reasons = [f"{words[it]}: {why}" for it, _ in program.files_of(words) if (why := why_unread(words[it]))]
        say(program.name, reasons[0] if reasons else "a file could not be read")


def tell_place(ran, words, given):
    """Shows the place that a refusal names, under the name that was given for the file."""
    place = PLACED.get(ran.status)
    at = PLACE.fullmatch(ran.lines()[0])
    if at and place is not None and place < len(words):
        subprocess.run([sys.executable, os.path.join(TOP, "tools", "where"), words[place], at[1], given[place]], stdout=2, check=False)


def size_of(size):
    for unit, name in ((1_000_000, "MB"), (1_000, "KB")):
        if size >= unit:
            return f"{size / unit:.1f} {name}"
    return f"{size} bytes"


def output_name():
    """The name of the file that the output went to, or None where it went elsewhere."""
    try:
        name = os.readlink("/proc/self/fd/1")
    except OSError:
        return None
    return name if os.path.isfile(name) else None


def near(path):
    """The name by which people would call a file."""
    short = os.path.relpath(path)
    return path if short.startswith("..") else short


def tell_usage(program):
    say(program.name, f"{program.launcher} --help tells what each command does, with an example")


def tell_answer(program, ran, words, is_proved):
    """One line on what `solve` has written."""
    states = STATES.fullmatch(ran.lines()[1]) if len(ran.lines()) > 2 else None
    if states is None:
        return
    answer = states[0] if states[1] is None else f"true, the best value {states[1]}"
    if states[2]:
        answer = f"open, not settled within {int(states[2]):,} turns (more with --turns N)"
    launcher = program.launcher if is_proved else f"{program.launcher} --now"
    file = output_name()
    problem = "PROBLEM" if is_pipe(words[1]) else shlex.quote(words[1])
    both = f"{problem} {shlex.quote(near(file)) if file else 'CERTIFICATE'}"
    ways = [f"check: {launcher} check {both}"]
    # The helps read trees, and run qecode themselves: where this answer isn't of the proved one, that of the same build.
    if not states[2] and program.name == "qecode":
        by = "" if is_proved else f"QECODE={shlex.quote(near(program.unproved))} "
        ways += [f"{what}: {by}{shown(os.path.join(TOP, tool))} {both}{more}" for tool, what, more in HELPS if os.path.exists(os.path.join(TOP, tool))]
    where = "" if file else "; kept in a file (> CERTIFICATE)"
    say(program.name, f"{answer}; certificate of {size_of(ran.size)}{where}; {'; '.join(ways)}")
