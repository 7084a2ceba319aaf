"""Tells what the check of a crate took, module by module: lemmas, and of each function what is proved of it.

    bench/run modules CRATE [--least SECONDS] [--goals COUNT]

Remove `crates/CRATE/out/incremental`, run `rt check --jobs 1` in the crate's folder on a machine that does nothing else, and then
this: the prover writes a file there as it ends with each module, and the time between two files is what the second took. First come
the shares of each kind of module, then the modules that took so many seconds or more (1 where nothing else is asked for).

What no proof changes: `front` (reading what lies below), `facade` (what others can name), `Lts` (lifetimes), `Tie`, `Reads`,
`Kinds`, `contracts` and the other parts that are made of a function. What a proof changes: `Proof` (goals that are left to the
prover), `Answers`, and `lemma`. A `Proof` that is dear has a goal without an answer at which the first search fails
(`docs/traps.md`). `--goals` lists the dearest of these goals last, with the steps that each search for them took: a second of a
processor is about a million.
"""
import argparse
import json
import os
import re
import sys
from collections import Counter

from program import TOP

# What is made of a function, by the last part of a module's name.
PARTS = (
    "Lts", "Kinds", "Reads", "Tie", "Goals", "Answers", "Proof", "Code", "Statement", "Met", "View", "Invariants", "Named", "Layout",
    "TheLink",
)


def written(folder):
    """When each file of the prover's folder was written, and its path there."""
    for at, _, names in os.walk(folder):
        for name in names:
            path = os.path.join(at, name)
            yield os.stat(path).st_mtime, os.path.relpath(path, folder)


def named(path):
    """The module that a file is of, without what is the same in all names."""
    return re.sub(r"^[^/]*/|records/|(\.decls)?\.oantt$", "", path)


def kind(module, crate):
    """What a module is, by its name."""
    of, _, rest = module.removeprefix("Rattle-").partition(".")
    parts = rest.split(".")
    for part in PARTS:
        if any(re.fullmatch(rf"{part}(-.*)?", it) for it in parts[-2:]):
            return part
    if of == crate:
        return "facade"
    if of == f"{crate}-specs":
        return parts[0] if parts[0] in ("contracts", "declared") else "specs"
    if of == f"{crate}-proofs":
        return "laws" if parts[-1].startswith("The") else "lemma" if parts[-1][:1].isupper() else "function"
    return "front"


def taken(crate, folder):
    """Of each module how long it took; of the first one nothing is known."""
    files = sorted(written(folder))
    for (before, _), (when, path) in zip(files, files[1:]):
        module = named(path)
        yield when - before, kind(module, crate), module


# In a record of declarations: the searches that were called for one, and its name.
CALLS = re.compile(rb'"calls":(\[\[.*?\]\]),"goals".*?"name":"(.*?)"')


def goals(folder):
    """The goals that were left to the prover: the steps of all searches for each, the function and the goal, and what each took."""
    for _, path in written(folder):
        if not re.search(r"records/.*\.Proof\.decls\.oantt$", path):
            continue
        with open(os.path.join(folder, path), "rb") as file:
            data = file.read()
        function = named(path).partition("-proofs.")[2].removesuffix(".Proof")
        for calls, name in CALLS.findall(data):
            steps = [(call[0], call[-1]) for call in json.loads(calls)]
            yield sum(count for _, count in steps), f"{function} {name.decode()}", steps


def show_goals(folder, count):
    print()
    for steps, goal, calls in sorted(goals(folder), reverse=True)[:count]:
        print(f"{steps:10,}  {goal}  {', '.join(f'{name} {took:,}' for name, took in calls)}")


def main(words):
    parser = argparse.ArgumentParser(prog="bench/run modules", description=__doc__, formatter_class=argparse.RawDescriptionHelpFormatter)
    parser.add_argument("crate", metavar="CRATE")
    parser.add_argument("--least", type=float, default=1.0, metavar="SECONDS")
    parser.add_argument("--goals", type=int, default=0, metavar="COUNT")
    options = parser.parse_args(words)
    folder = os.path.join(TOP, "crates", options.crate, "out", "incremental")
    if not os.path.isdir(folder):
        print(f"bench/run modules: {folder} isn't there: run rt check in the crate's folder first", file=sys.stderr)
        return 1
    modules = list(taken(options.crate, folder))
    whole = sum(seconds for seconds, _, _ in modules)
    shares = Counter()
    for seconds, what, _ in modules:
        shares[what] += seconds
    print(f"{whole:.1f} seconds from the first module to the last")
    for what, seconds in shares.most_common():
        print(f"{100 * seconds / max(whole, 1e-9):5.1f} %  {seconds:6.1f}  {what}")
    print()
    for seconds, what, module in sorted(modules, reverse=True):
        if seconds >= options.least:
            print(f"{seconds:6.1f}  {what:9}  {module}")
    if options.goals:
        show_goals(folder, options.goals)
    return 0
