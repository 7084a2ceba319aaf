"""tools/explain."""
import os
import re
from unittest import mock

from helping import Case, example, tool

OWN = "Worked out from the certificate by this script, which isn't proved:"


class Explain(Case):
    def parts(self, *words):
        """What the program said, and what the script worked out, each with single blanks."""
        checked, _, own = self.said("explain", *words).partition(OWN)
        return re.sub(r"\s+", " ", checked), re.sub(r"\s+", " ", own)

    def test_examples(self):
        for name, wanted, worked_out in (
            ("best_price", ["value of total is 15", "First move: price = 5", "Sure is: only 12"], ["price = 4, comes to 12"]),
            ("fewest_guards", ["value of guards is 2"], ["4 choices with less, each beaten"]),
            ("thin_defence", ["Answer: No,"], ["each of 4 choices", "attack1 = 0, attack2 = 1, attack3 = 1"]),
            ("schedule", ["First move: start1 = 0"], ["all 6 ways", "start2 + delay2 ≤ 5 holds with 1 to spare"]),
            ("counters", ["First move: take1 = 1", "has played the first move"], ["all 4 ways"]),
            ("least_makespan", ["least value of worst is 7", "7 too (checked as well)"], ["start1 = 1, comes to no less than 8"]),
        ):
            checked, own = self.parts(example(f"{name}.qc"), example(f"{name}.cert"))
            for word in wanted:
                self.assertIn(word, checked)
            for word in worked_out:
                self.assertIn(word, own)

    def test_the_move_that_qtell_tells(self):
        words = example("best_price.qc"), example("best_price.cert"), "--no-worst"
        teller = os.path.join(self.folder, "teller")
        for told, wanted in (("5", "qtell first has told it"), ("4", "this tool read another first move")):
            with open(teller, "w", encoding="ascii") as file:
                file.write(f"#!/bin/sh\necho yes true 15\necho price = {told}\n")
            os.chmod(teller, 0o755)
            with mock.patch.dict(os.environ, {"QTELL": teller}):
                self.assertIn(wanted, " ".join(re.sub(r"\s+", " ", part) for part in tool("explain", *words)[1:]))

    def test_no_worst(self):
        self.assertNotIn("Sure is", self.parts(example("best_price.qc"), example("best_price.cert"), "--no-worst")[0])

    def test_open(self):
        checked, own = self.parts(*self.solved("exists; var 0..1: x; forall; var 0..1: y; goal; constraint int_eq(x,y); solve;", "--turns", "3"))
        self.assertIn("Not settled within 3 turns", checked)
        self.assertEqual(own, "")

    def test_small_games(self):
        for text, wanted in (
            ("goal; solve;", "nobody moves against it"),
            ("goal; constraint int_lt(1,0); solve;", "the rules themselves can't be kept"),
            ("exists; var 0..1: x; constraint int_lt(1,x); goal; solve;", "the rules themselves can't be kept"),
            ("forall; var 0..1: x; constraint int_lt(1,x); goal; solve;", "the opponent has no move that its rules allow"),
            ("exists maximize x; var 0..2: x; goal; solve;", "nothing more than 2 is in the domain of x"),
            ("exists maximize x; var 0..2: x; constraint int_lt(x,2); goal; solve;", "x = 2 leaves no choice, by constraint 1 (x < 2)"),
        ):
            self.assertIn(wanted, self.parts(*self.solved(text))[1], text)

    def test_without_a_comment(self):
        self.assertIn("problem.qc, whose text has no comment", self.parts(*self.solved("goal; solve;"))[0])

    def test_refusals(self):
        status, out, err = tool("explain", example("price.qc"), example("defence.cert"))
        self.assertEqual((status, out), (1, ""))
        self.assertIn("check said: no. An answer that isn't checked isn't shown.", err)
        self.assertEqual(tool("explain", example("price.qc"), example("price.qc"))[0], 5)
        self.assertEqual(tool("explain", example("price.cert"), example("price.cert"))[0], 4)
