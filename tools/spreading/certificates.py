"""Certificates as texts: what stands at their beginning, and their tree as a case of another tree.

A piece is the problem kept to a box. What `check` judges of a tree depends on the scope, the box, the values chosen before, the
horizon in force, and on lists and constraints of the problem; so a piece's tree is judged alike wherever another tree comes to
that box at that scope. Only the horizon is another matter: an `h` line stands at the beginning of a node, and a case isn't one.

Files are mapped, not read: a certificate may have a gigabyte.
"""
import mmap
import re
from contextlib import contextmanager
from typing import NamedTuple

from spreading.domains import Domain

CHUNK = 1 << 20
WORDS = (b"true", b"false", b"open")
# What stands before the certificate where `qpart` wrote it: what it is a piece of, and a value that was reached elsewhere.
HEAD = re.compile(rb"(?:qpiece 1\n(?:keep [^\n]*\n)*(?:reached (-?\d+)\n)?)?")
# The lines that open or end something. Steps and cases that are left out lie between.
SHAPING = re.compile(rb"^[hv.tgex]", re.MULTILINE)
TAKEN = (b"e", b"x", b"v", b"g", b"t")


class NotWhole(Exception):
    """A file that isn't the certificate that it should be."""


class Lines:
    """The lines of a text one by one, from a place on."""

    def __init__(self, data, at):
        self.data, self.at = data, at

    def peek(self):
        letter = self.data[self.at : self.at + 1]
        if not letter:
            raise NotWhole("it ends too early")
        return letter

    def take(self):
        end = self.data.find(b"\n", self.at) + 1
        if not end:
            raise NotWhole("it ends too early")
        line = self.data[self.at : end]
        self.at = end
        return line

    def rest(self):
        yield from self.upto(len(self.data))

    def upto(self, end):
        while self.at < end:
            begin, self.at = self.at, min(self.at + CHUNK, end)
            yield self.data[begin : self.at]

    def node(self):
        """The lines of the node that begins here, in chunks."""
        end, depth = self.at, 0
        while True:
            found = SHAPING.search(self.data, end)
            if not found:
                raise NotWhole("a node doesn't end")
            letter, end = found[0], self.data.find(b"\n", found.end()) + 1
            if letter == b"h":
                end = self.data.find(b"\n.\n", end - 1) + 3
                continue
            depth += (letter == b"v") - (letter == b".")
            if depth == 0:
                break
        yield from self.upto(end)


def numbers(line):
    return [int(number) for number in line.split()[1:]]


class Stated(NamedTuple):
    """What a certificate states, where its tree begins, and the value beside which it states that, where one was reached elsewhere."""

    word: str
    number: object
    tree: int
    reached: object


def stated(data):
    before = HEAD.match(data)
    head = data[before.end() : before.end() + 100].split(b"\n", 2)
    words = head[1].split() if len(head) == 3 and head[0] == b"qcert 2" else []
    if not words or words[0] not in WORDS or len(words) > 2 or data[len(data) - 1 :] != b"\n":
        raise NotWhole("it isn't a certificate of the second version")
    number = int(words[1]) if len(words) == 2 else None
    reached = None if before[1] is None else int(before[1])
    return Stated(words[0].decode(), number, before.end() + len(head[0]) + len(head[1]) + 2, reached)


def certificate_in(data):
    """The bytes of a certificate without what stands before it, in chunks."""
    stated(data)
    return Lines(data, HEAD.match(data).end()).rest()


@contextmanager
def opened(path):
    """The bytes of a file, mapped."""
    with open(path, "rb") as file:
        try:
            data = mmap.mmap(file.fileno(), 0, access=mmap.ACCESS_READ)
        except ValueError:
            raise NotWhole("it is empty") from None
        with data:
            yield data


def stated_of(path):
    with opened(path) as data:
        return stated(data)


def replaced(box, x, domain):
    return box[:x] + (domain,) + box[x + 1 :]


def removed(box, line):
    """The box after a `p` or `b` line."""
    x, low, high = numbers(line)[:3]
    return replaced(box, x - 1, box[x - 1].without(low, high))


class Horizon:
    """A horizon in force at the beginning of a certificate, with the steps that show it."""

    def __init__(self, lines):
        self.scope, self.steps = numbers(lines.take())[0] - 1, []
        while lines.peek() == b"p":
            self.steps.append(lines.take())
        lines.take()

    def steps_in(self, problem, box, first):
        """The steps that still remove something from this box, by constraints of scopes from `first` on."""
        kept = []
        for line in self.steps:
            if problem.constraint_owners[numbers(line)[3] - 1] >= first:
                after = removed(box, line)
                if after != box:
                    kept.append(line)
                    box = after
            if not all(box):
                return kept
        raise NotWhole("a horizon's steps leave values")


class Beginning:
    """What a certificate begins with before anything branches: for each scope its steps, the box after them, and the horizon in
    force. It goes up to the node of scope `level`, or where that is None up to the first branch or the end before one."""

    def __init__(self, data, box, level=None):
        told = stated(data)
        lines = self.lines = Lines(data, told.tree)
        self.steps, self.horizon, self.scope, self.box = [[]], None, 0, box
        self.entered = box  # the box where the last scope's node begins
        self.is_reached = told.reached is not None
        self.is_bounded = False  # whether a `b` line stands before, by a value that another tree may not have
        while True:
            if lines.peek() == b"h":
                self.horizon = Horizon(lines)
            if self.scope == level:
                return
            self.take_steps()
            if lines.peek() != b"n":
                return
            lines.take()
            self.scope += 1
            self.steps.append([])
            self.entered = self.box

    def take_steps(self):
        while self.lines.peek() in (b"p", b"b"):
            line = self.lines.take()
            self.is_bounded = self.is_bounded or line[:1] == b"b" and not self.is_reached
            self.steps[-1].append(line)
            self.box = removed(self.box, line)

    def branch(self):
        """The variable of the branch that comes next; None where another line does."""
        lines = self.lines
        return numbers(Lines(lines.data, lines.at).take())[0] - 1 if lines.peek() == b"v" else None


def as_case(problem, box, level, data):
    """The lines of a piece's tree as a case of scope `level`, in chunks. In the box the variables of earlier scopes have one
    value, which is an allowed tuple; so what stands before the scope's own node are at most steps that are legal there too."""
    begin = Beginning(data, box, level)
    if begin.is_bounded:
        raise NotWhole("a bound stands before its scope")
    for steps in begin.steps:
        yield from steps
    lines, horizon = begin.lines, begin.horizon
    if begin.scope < level:
        if lines.peek() != b"e":
            raise NotWhole("an earlier scope isn't passed")
        yield b"e\n"
    elif horizon is None:
        yield from lines.rest()
    elif horizon.scope <= problem.reach(level):
        yield from horizon.steps_in(problem, begin.box, level)
        yield b"e\n"
    else:
        yield from with_horizon(problem, begin.box, level, horizon, lines)


def with_horizon(problem, box, level, horizon, lines):
    """The cases of a scope's own tree, with the horizon that is in force there put at each node after the scope."""
    branches = []  # those that aren't at their end: the variable, the box, and its values that no case covers yet
    while True:
        while lines.peek() in (b"p", b"b"):
            line = lines.take()
            yield line
            box = removed(box, line)
        letter, line = lines.peek(), lines.take()
        yield line
        if letter == b"n":
            yield from node_with_horizon(problem, box, level + 1, horizon, lines)
        elif letter == b"v":
            x = numbers(line)[0] - 1
            branches.append([x, box, box[x]])
        while branches:
            if lines.peek() == b".":
                yield lines.take()
                branches.pop()
                continue
            x, above, left = branches[-1]
            count = 1
            if lines.peek() == b"r":
                line = lines.take()
                yield line
                count = len(left.within(left.low, numbers(line)[0]))
            covered, branches[-1][2] = left.parted(count)
            if lines.peek() not in (b"s", b"o"):
                box = replaced(above, x, covered)
                break
            yield lines.take()
        else:
            return


def node_with_horizon(problem, box, scope, horizon, lines):
    if scope == problem.goal:  # what stands there is `t`, since the goal is the horizon
        lines.take()
        yield b"g\n"
        return
    if lines.peek() != b"h":
        yield b"h %d\n" % (horizon.scope + 1)
        yield from horizon.steps_in(problem, box, scope)
        yield b".\n"
    yield from lines.node()


def turns_of(chunks):
    """The cases that are gone into in a case of these lines: each part ends in `e`, `x`, `v`, or in `n` and a node that is `g`,
    `t` or such a part itself."""
    turns, before = 0, b"\n"
    for chunk in chunks:
        turns += sum((before + chunk).count(b"\n" + letter) for letter in TAKEN)
        before = b"\n" if chunk.endswith(b"\n") else b""
    return turns


def passes(path, scope):
    """Whether some tuple of the scope is allowed, where one tuple is before it: the text has a line `n` for each scope before, and
    one more."""
    with opened(path) as data:
        at = stated(data).tree - 1
        for _ in range(scope + 1):
            at = data.find(b"\nn\n", at)
            if at < 0:
                return False
            at += 2
        return True
