"""Compares what `qecode qbf` answers to formulas made at random with a reader and a decision by brute force.

Many formulas are damaged; reader and decision are written apart from the program. Each certificate has to be believed by `check`
against the text of the formula's game.

    bench/run formulas [SEED [COUNT]] [--program PATH]

Nothing here is part of the gate.
"""
import argparse
import os
import random
import re
import tempfile
from collections import Counter

from program import Program, add_option

BAD = 11
BLANKS = b" \t\r"
PIECES = [b" ", b"\n", b"0", b"-", b"-0", b"01", b"1", b"a", b"e", b"p", b"cnf", b"c", b"c x\n", b"999999999", b"1000000000", b"+1", b"\x00", b"%"]


class Refused(Exception):
    def __init__(self, kind, at):
        super().__init__(kind, at)
        self.line = f"bad qdimacs: {kind} at {at}\n".encode()


def tokens(text):
    """The tokens with their places; lines whose first byte after blanks is c are left out."""
    at = 0
    for line in text.split(b"\n"):
        if not line.lstrip(BLANKS).startswith(b"c"):
            for found in re.finditer(rb"[^ \t\r]+", line):
                yield at + found.start(), found.group()
        at += len(line) + 1


class Reader:
    def __init__(self, text):
        self.size = len(text)
        self.rest = list(tokens(text))[::-1]

    def next(self, *forms):
        """The next token where it has one of these forms."""
        if not self.rest:
            raise Refused("1 Syntax", self.size)
        at, token = self.rest[-1]
        if not any(re.fullmatch(form, token) for form in forms):
            raise Refused("1 Syntax", at)
        return self.rest.pop()

    def numbers(self, *forms):
        """Numbers up to a 0, whose place comes last."""
        found = []
        while True:
            at, token = self.next(rb"0", *forms)
            if token == b"0":
                return found, at
            found.append((at, int(token)))

    def file(self):
        self.next(rb"p")
        self.next(rb"cnf")
        counts = [self.next(rb"0|[1-9][0-9]{0,8}") for _ in range(2)]
        sets, clauses = [], []
        while self.rest and self.rest[-1][1] in (b"a", b"e"):
            at, kind = self.rest.pop()
            sets.append((at, kind, self.numbers(rb"[1-9][0-9]{0,8}")[0]))
        while self.rest:
            clauses.append(self.numbers(rb"-?[1-9][0-9]{0,8}"))
        return [(at, int(token)) for at, token in counts], sets, clauses


def check(counts, sets, clauses):
    (at_most, most), (at_count, count) = counts
    named = [it for _, _, numbers in sets for it in numbers] + [it for literals, _ in clauses for it in literals]
    for at, number in named:
        if abs(number) > most:
            raise Refused("2 OutOfRange", at)
    seen = set()
    for at, number in (it for _, _, numbers in sets for it in numbers):
        if number in seen:
            raise Refused("3 Repeated", at)
        seen.add(number)
    if len(clauses) != count:
        raise Refused("4 WrongCount", at_count)
    places = [at_most] if most > 500 else []
    places += [at_count] if count > 20_000 else []
    free = most - len(seen) if most <= 500 else 0
    room = 63 if free else 64
    places += [at for at, _, _ in sets[room : room + 1]]
    for literals, _ in clauses:
        if max(sum(n > 0 for _, n in literals), sum(n < 0 for _, n in literals)) > 1_000:
            places.append(literals[0][0])
    if places:
        raise Refused("5 TooMany", min(places))
    return [it for it in range(1, most + 1) if it not in seen]


def game(free, sets, clauses):
    """The game's text."""
    scopes = [("exists", free)] if free else []
    scopes += [("forall" if kind == b"a" else "exists", [it for _, it in numbers]) for _, kind, numbers in sets]
    lines = []
    for kind, variables in scopes:
        lines.append(f"{kind};")
        lines += [f"var bool: v{it};" for it in variables]
    lines.append("goal;")
    for literals, _ in clauses:
        sides = [",".join(f"v{abs(n)}" for _, n in literals if (n > 0) == sign) for sign in (True, False)]
        lines.append(f"constraint bool_clause([{sides[0]}],[{sides[1]}]);")
    lines.append("solve;")
    return "\n".join(lines) + "\n"


def is_true(free, sets, clauses):
    prefix = [(False, it) for it in free] + [(kind == b"a", it) for _, kind, numbers in sets for _, it in numbers]
    sides = [[n for _, n in literals] for literals, _ in clauses]

    def after(place, values):
        if place == len(prefix):
            return all(any(values[abs(n)] == (n > 0) for n in side) for side in sides)
        universal, variable = prefix[place]
        results = (after(place + 1, {**values, variable: value}) for value in (False, True))
        return all(results) if universal else any(results)

    return after(0, {})


def answer(text):
    """The text of the formula's game and whether it is true, or the line of the refusal."""
    try:
        counts, sets, clauses = Reader(text).file()
        free = check(counts, sets, clauses)
    except Refused as refused:
        return refused.line, None
    truth = is_true(free, sets, clauses) if counts[0][1] <= 10 else None
    return game(free, sets, clauses).encode(), truth


class Maker:
    """Makes formulas, with a fault now and then."""

    def __init__(self, seed):
        self.random = random.Random(seed)

    def text(self):
        pick = self.random
        most = pick.randrange(0, 9)
        variables = list(range(1, most + 1))
        pick.shuffle(variables)
        lines = []
        while variables and pick.random() < 0.8:
            size = pick.randrange(0, min(4, len(variables)) + 1)
            lines.append(f"{pick.choice('ae')} {' '.join(str(variables.pop()) for _ in range(size))} 0")
        count = pick.randrange(0, 2 * most + 2)
        for _ in range(count):
            literals = [str(pick.choice((1, -1)) * pick.randrange(1, most + 1)) for _ in range(pick.randrange(0 if pick.random() < 0.05 else 1, 4)) if most]
            lines.append(" ".join([*literals, "0"]))
        if pick.random() < 0.2:
            lines.insert(pick.randrange(len(lines) + 1), "  c any 0 bytes \x7f")
        head = f"p cnf {most} {count + (pick.random() < 0.03)}"
        text = "\n".join([head, *lines]).encode() + pick.choice([b"", b"\n", b" \r\n"])
        return self.damaged(text) if pick.random() < 0.5 else text

    def damaged(self, text):
        pick = self.random
        for _ in range(pick.randrange(1, 4)):
            at = pick.randrange(len(text) + 1)
            chance = pick.random()
            if chance < 0.3:
                text = text[:at] + text[at + 1 :]
            elif chance < 0.4:
                text = text[:at]
            elif chance < 0.6:
                text = text[:at] + bytes([pick.randrange(256)]) + text[at + 1 :]
            else:
                text = text[:at] + pick.choice(PIECES) + text[at:]
        return text


def large():
    """Formulas at the limits and past them."""
    one = "p cnf 2 1\n" + "1 " * 1_000 + "0\n"
    yield one
    yield one.replace("1 0\n", "1 1 0\n")
    yield one.replace("1 0\n", "1 " + "-2 " * 1_001 + "0\n")
    yield "p cnf 1 20000\n" + "1 0\n" * 20_000
    yield "p cnf 1 20001\n" + "1 0\n" * 20_001
    yield "p cnf 64 0\n" + "".join(f"{'ae'[k % 2]} {k + 1} 0\n" for k in range(64))
    yield "p cnf 65 0\n" + "".join(f"{'ae'[k % 2]} {k + 1} 0\n" for k in range(64))
    yield "p cnf 65 0\n" + "".join(f"{'ae'[k % 2]} {k + 1} 0\n" for k in range(65))
    yield "p cnf 500 0\n"
    yield "p cnf 501 0\n"


def differs(program, folder, text):
    """What the program answers otherwise, if anything; and what kind of answer it gave."""
    file, cert, problem = (os.path.join(folder, it) for it in ("formula", "cert", "game"))
    with open(file, "wb") as out:
        out.write(text)
    expected, truth = answer(text)
    status, written = program.run("qbf", file, "--text")
    if written != expected or status != (BAD if expected.startswith(b"bad") else 0):
        return f"--text: {status} {written!r}, not {expected!r}", None
    if status == BAD:
        refused = program.run("qbf", file)
        return (None if refused == (BAD, expected) else f"qbf: {refused}"), expected.split()[3].decode()
    if truth is None:
        return None, "large"
    status, written = program.run("qbf", file)
    wanted = b"qcert 2\n" + (b"true\n" if truth else b"false\n")
    if status != 0 or not written.startswith(wanted):
        return f"qbf: {status} {written[:40]!r}, not {wanted!r}", None
    with open(cert, "wb") as out:
        out.write(written)
    with open(problem, "wb") as out:
        out.write(expected)
    said = program.run("check", problem, cert)
    return (None if said == (0, b"yes " + wanted[8:]) else f"check: {said}"), str(truth)


def main(words):
    parser = argparse.ArgumentParser(prog="bench/run formulas", description="Compares what `qecode qbf` answers.")
    parser.add_argument("seed", nargs="?", type=int, default=1)
    parser.add_argument("count", nargs="?", type=int, default=10_000)
    add_option(parser)
    options = parser.parse_args(words)
    program, maker = Program(options.program), Maker(options.seed)
    texts = [it.encode() for it in large()] + [maker.text() for _ in range(options.count)]
    kinds, bad = Counter(), 0
    with tempfile.TemporaryDirectory() as folder:
        for text in texts:
            difference, kind = differs(program, folder, text)
            kinds[kind] += 1
            if difference:
                bad += 1
                print(f"{text!r}\n  {difference}")
    print(f"{len(texts)} texts, {bad} differences; " + ", ".join(f"{kind} {n}" for kind, n in sorted(kinds.items(), key=str)))
    return 1 if bad else 0
