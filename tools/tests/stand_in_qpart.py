#!/usr/bin/env python3
"""A stand-in for `qpart`, by which the tools are tried where that isn't built: it narrows the text, has `qecode` ($QECODE) solve that, and
writes what it is a piece of before the certificate. Where the best value isn't better than one that was reached, it says false."""
import os
import subprocess
import sys
import tempfile

sys.path.insert(0, os.path.dirname(os.path.dirname(os.path.realpath(__file__))))

from spreading.problem import Problem  # noqa: E402

NO_READING = 12


def main(words):
    if words[:1] != ["solve"]:
        return 3
    with open(words[1], "rb") as file:
        problem = Problem(file.read())
    box, head, reached, turns = list(problem.domains), b"qpiece 1\n", None, "1000000"
    rest = words[2:]
    while rest:
        if rest[0] == "--keep":
            _, name, low, high, *rest = rest
            x = problem.names.index(name)
            box[x] = box[x].within(int(low), int(high))
            head += f"keep {name} {low} {high}\n".encode()
        elif rest[0] == "--reached":
            reached, rest = int(rest[1]), rest[2:]
            head += b"reached %d\n" % reached
        else:
            turns, rest = rest[1], rest[2:]
    if not all(box):
        return NO_READING
    with tempfile.NamedTemporaryFile(suffix=".qc") as file:
        file.write(problem.narrowed(tuple(box)))
        file.flush()
        done = subprocess.run([os.environ["QECODE"], "solve", file.name, "--turns", turns], capture_output=True, check=False)
    certificate = done.stdout
    outcome = certificate.split(b"\n")[1].split()
    if reached is not None and outcome[0] == b"true":
        better = int(outcome[1]) < reached if problem.wish[0] == "minimize" else reached < int(outcome[1])
        if not better:
            certificate = certificate.replace(b"qcert 2\n" + b" ".join(outcome), b"qcert 2\nfalse", 1)
    sys.stdout.buffer.write(head + certificate)
    return done.returncode


sys.exit(main(sys.argv[1:]))
