"""Whether what a check took is told by module, as the files of the prover's folder say."""
import os
import subprocess
import sys
import tempfile
import unittest

from measure import modules
from program import TOP

# The prover's folder, in the order in which its files were written, and the second of each.
FILES = [
    ("Rattle-std.specs.Prelude.oantt", 0),
    ("Rattle-stack-specs.Links.oantt", 2),
    ("records/Rattle-stack-specs.contracts.rows.Row.put.decls.oantt", 3),
    ("Rattle-stack-proofs.Packing.oantt", 7),
    ("Rattle-stack-proofs.rows.Row.put.Lts.oantt", 12),
    ("records/Rattle-stack-proofs.rows.Row.put.Lts.View.decls.oantt", 13),
    ("Rattle-stack-proofs.rows.Row.put.Answers.oantt", 13.5),
    ("Rattle-stack-proofs.rows.Row.put.Proof.oantt", 21.5),
    ("Rattle-stack-proofs.rows.Row.put.oantt", 22),
    ("Rattle-stack.specs.Links.oantt", 24),
]
TAKEN = [
    (2, "specs", "Rattle-stack-specs.Links"),
    (1, "contracts", "Rattle-stack-specs.contracts.rows.Row.put"),
    (4, "lemma", "Rattle-stack-proofs.Packing"),
    (5, "Lts", "Rattle-stack-proofs.rows.Row.put.Lts"),
    (1, "Lts", "Rattle-stack-proofs.rows.Row.put.Lts.View"),
    (0.5, "Answers", "Rattle-stack-proofs.rows.Row.put.Answers"),
    (8, "Proof", "Rattle-stack-proofs.rows.Row.put.Proof"),
    (0.5, "function", "Rattle-stack-proofs.rows.Row.put"),
    (2, "facade", "Rattle-stack.specs.Links"),
]

# What a record of a function's goals has of two: one that was searched for, and one that was answered.
RECORD = (
    b'[{"calls":[["search",0,3500],["grind",1,70]],"goals":[],"kind":"definition","name":"returns-clause-size"}]'
    b'[{"calls":[],"goals":[],"kind":"definition","name":"returns-clause-items"}]'
)


class Modules(unittest.TestCase):
    def test_each_module_took_the_time_since_the_one_before(self):
        with tempfile.TemporaryDirectory(prefix="qecode-test-") as folder:
            for name, second in FILES:
                path = os.path.join(folder, "antt-checked", name)
                os.makedirs(os.path.dirname(path), exist_ok=True)
                with open(path, "wb"):
                    pass
                os.utime(path, (second, second))
            self.assertEqual(list(modules.taken("stack", folder)), TAKEN)

    def test_goals_are_told_by_what_was_searched(self):
        with tempfile.TemporaryDirectory(prefix="qecode-test-") as folder:
            path = os.path.join(folder, "antt-checked", "records", "Rattle-stack-proofs.rows.Row.put.Proof.decls.oantt")
            os.makedirs(os.path.dirname(path))
            with open(path, "wb") as file:
                file.write(RECORD)
            self.assertEqual(list(modules.goals(folder)), [(3570, "rows.Row.put returns-clause-size", [("search", 3500), ("grind", 70)])])

    def test_a_crate_that_was_not_checked_is_told(self):
        words = [sys.executable, os.path.join(TOP, "bench", "run"), "modules", "no_such_crate"]
        done = subprocess.run(words, capture_output=True, text=True, check=False)
        self.assertEqual((done.returncode, done.stdout), (1, ""))
        self.assertIn("isn't there: run rt check", done.stderr)
