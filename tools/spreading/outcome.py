"""The end of a run: the certificate of the whole is written, checked, and only then handed out."""
import os
import sys
from typing import NamedTuple

from spreading.certificates import NotWhole, certificate_in, opened, stated_of
from spreading.merging import write_whole

TOO_LONG = 6
OPEN = 2


class Believed(NamedTuple):
    """The certificate's file, and what `check` says of it."""

    path: str
    line: str


class Disbelieved(Exception):
    """`check` doesn't say yes to what was merged: its status and what it writes."""

    def __init__(self, path, status, line):
        super().__init__(line)
        self.path, self.status, self.line = path, status, line


def checked(program, problem, path):
    """What `check` writes of a certificate, where that is yes to what it states."""
    status, written = program.run("check", problem, path)
    line = written.decode("ascii", "replace").strip()
    word, number, *_ = stated_of(path)
    if status != 0 or line != "yes " + word + ("" if number is None else f" {number}"):
        raise Disbelieved(path, status, line)
    return line


def conclude(tree, store, program):
    """Writes the certificate of the whole into the store and has it checked."""
    part = store.path("whole.unchecked")
    write_whole(tree, part)
    line = checked(program, store.path("problem"), part)
    path = store.path("whole.cert")
    os.replace(part, path)
    return Believed(path, line)


def bad_results(tree, store, program):
    """Sets aside each result of the tree that `check` doesn't believe of its own text, and says their names. A tree of `qpart` is
    judged in the narrowed text, where it stands as in the whole. That nothing is better than a value that was reached elsewhere
    can't be judged there, so such a result isn't kept."""
    bad, text, part = [], store.half("text"), store.half("part")
    for leaf in tree.leaves():
        if leaf.file and os.path.exists(leaf.file):
            try:
                with opened(leaf.file) as data:
                    write_parts(text, tree.problem.narrowed(leaf.box))
                    write_parts(part, *certificate_in(data))
                checked(program, text, part)
            except (Disbelieved, NotWhole):
                store.set_aside(leaf.file)
                bad.append(os.path.basename(leaf.file))
    for path in text, part:
        if os.path.exists(path):
            os.remove(path)
    return bad


def write_parts(path, *parts):
    with open(path, "wb") as file:
        file.writelines(parts)


def handed_out(path, out):
    """Copies a checked certificate to a file, which has its name only when it is whole, or to standard output."""
    if out is None:
        with open(path, "rb") as file:
            while data := file.read(1 << 20):
                sys.stdout.buffer.write(data)
        sys.stdout.buffer.flush()
        return
    part = f"{out}.part{os.getpid()}"
    with open(path, "rb") as file, open(part, "wb") as copy:
        while data := file.read(1 << 20):
            copy.write(data)
    os.replace(part, out)
