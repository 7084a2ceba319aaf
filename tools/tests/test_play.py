"""tools/play."""
from helping import Case, example, tool


class Play(Case):
    def test_a_defence(self):
        out = self.said("play", example("defence.qc"), example("defence.cert"), text="1\n1\n1\nx\n1\n1\n0\n")
        for line in ("scope 1, exists: guard1 = 0, guard2 = 1, guard3 = 1", "That isn't allowed here.", "a number, please",
                     "scope 3, exists: reserve1 = 1, reserve2 = 0, reserve3 = 0", "The goal holds: the player has won."):
            self.assertIn(line, out)

    def test_against_a_counterstrategy(self):
        out = self.said("play", example("dear_price.qc"), example("dear_price.cert"), text="5\n")
        self.assertIn("scope 2, forall: buys1 = 1, buys2 = 0\nScope 3 has no way on.\n", out)

    def test_booleans(self):
        files = self.solved("forall; var bool: a; exists; var bool: b; goal; constraint bool_not(a,b); solve;")
        out = self.said("play", *files, text="true\n")
        self.assertIn("your a from false, true: ", out)
        self.assertIn("scope 2, exists: b = false\n", out)

    def test_the_end_of_the_input(self):
        self.assertEqual(tool("play", example("defence.qc"), example("defence.cert"))[0], 0)

    def test_refusals(self):
        self.assertEqual(tool("play", example("price.qc"), example("defence.cert"))[:2], (1, "no\n"))
        self.assertEqual(tool("play", example("price.cert"), example("price.cert"))[0], 4)
