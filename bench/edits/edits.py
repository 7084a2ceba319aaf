"""Tries edits that must fail and aren't part of the gate.

    bench/run edits [CRATE..]

An edit is a wrong body that the prover has to refuse. The gate tries those in crates/CRATE/must-fail. Each costs a check,
and the first of a crate costs one more of the whole crate; so those that tell less, and those of crates that take long,
stand in bench/edits/CRATE. They are put beside the crate's own while `rt must-fail CRATE` runs, and taken away again. Without
a name all are tried, which takes an hour or more. The status is 1 where one isn't refused.
"""
import os
import shutil
import subprocess

from program import TOP

KEPT = os.path.dirname(os.path.realpath(__file__))


def put(crate):
    """Puts the crate's edits beside its own; the paths of those that it put, and of the folder where it made one."""
    folder = os.path.join(TOP, "crates", crate, "must-fail")
    made = []
    if not os.path.isdir(folder):
        os.mkdir(folder)
        made.append(folder)
    for name in sorted(os.listdir(os.path.join(KEPT, crate))):
        to = os.path.join(folder, name)
        if os.path.exists(to):
            raise SystemExit(f"{to} stands there already")
        shutil.copyfile(os.path.join(KEPT, crate, name), to)
        made.append(to)
    return made


def take_away(made):
    for path in reversed(made):
        if os.path.isdir(path):
            os.rmdir(path)
        else:
            os.remove(path)


def tried(crate):
    made = []
    try:
        made = put(crate)
        return subprocess.call(["rt", "must-fail", crate], cwd=TOP) == 0
    finally:
        take_away(made)


def kept():
    """The crates that have edits here."""
    return sorted(it.name for it in os.scandir(KEPT) if it.is_dir() and not it.name.startswith("__"))


def main(words):
    crates = words or kept()
    unknown = [it for it in crates if it not in kept()]
    if unknown:
        raise SystemExit(f"bench/edits has no folder {unknown[0]}")
    failed = [it for it in crates if not tried(it)]
    if failed:
        print(f"not all edits were refused: {' '.join(failed)}")
    return 1 if failed else 0
