"""Builds the program with a search that is advised wrongly, to see that advice costs time and nothing else.

    bench/run advice PROGRAM [--checkout FOLDER]

At each node the greatest value of each variable is tried first, whatever the search has learnt, and it is asked again however
often that fails. Nothing is proved of such a program, though the proofs of the search ask nothing of its advice.
`bench/run player --program PROGRAM` compares its outcomes with those of a program written apart.
"""
import argparse
import os
import shutil
import subprocess
import tempfile

from measure.unproved import build
from program import TOP

# What stands once in a file of the search or of its advice, and what is put in its place.
WRONG = [
    (
        "search_advice/src/advice.rt",
        "            Some(standing) if standing.is_known => {\n"
        "                standing.last > 0 || self.kept(level).is_some()\n"
        "            }\n"
        "            Some(standing) => standing.signs > 0,\n",
        "            Some(_) => true,\n",
    ),
    (
        "search_advice/src/advice.rt",
        "        let value = value_at(self.values.as_slice(), x.0 as usize);\n",
        "        let value = remains.last(x);\n",
    ),
    ("search_walk/src/tries.rt", "    advice.choose(level, remains)\n", "    true\n"),
]


def advise_wrongly(folder):
    for name, right, wrong in WRONG:
        path = os.path.join(folder, "crates", name)
        with open(path, encoding="utf-8") as it:
            text = it.read()
        if text.count(right) != 1:
            raise SystemExit(f"{name} has changed: {right.strip()} doesn't stand there once")
        with open(path, "w", encoding="utf-8") as it:
            it.write(text.replace(right, wrong))


def main(words):
    parser = argparse.ArgumentParser(prog="bench/run advice", description=__doc__, formatter_class=argparse.RawDescriptionHelpFormatter)
    parser.add_argument("program", help="where to write it")
    parser.add_argument("--checkout", default=TOP, help="the checkout to build; this one else")
    chosen = parser.parse_args(words)
    with tempfile.TemporaryDirectory(prefix="advice-") as folder:
        files = subprocess.run(["git", "ls-files", "-z"], cwd=chosen.checkout, capture_output=True, text=True, check=True).stdout
        for name in files.split("\0")[:-1]:
            place = os.path.join(folder, name)
            os.makedirs(os.path.dirname(place), exist_ok=True)
            shutil.copy2(os.path.join(chosen.checkout, name), place)
        advise_wrongly(folder)
        build(folder, os.path.realpath(chosen.program))
