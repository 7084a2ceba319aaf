"""tools/whatif."""
import os
import xml.dom.minidom

from helping import Case, example, tool
from oracle.games import Game
from people.problem import Problem
from people.trials import narrowed


class Whatif(Case):
    def rows(self, *words):
        lines = self.said("whatif", *words, "--tsv").splitlines()
        return [line.split("\t") for line in lines[1:]]

    def test_hope_and_surety(self):
        rows = self.rows(example("best_price.qc"), "price", "--worst", "1")
        self.assertEqual([row[1] for row in rows], "0 3 6 9 12 15 12 7 8 9 0".split())
        self.assertEqual([row[2] for row in rows], "0 3 6 9 12 10 6 7 8 0 0".split())

    def test_some_values(self):
        rows = self.rows(example("tolls.qc"), "t1", "--worst", "1", "--values", "6..7", "--jobs", "2")
        self.assertEqual(rows, [["6", "24", "20"], ["7", "26", "12"]])

    def test_lost_values(self):
        self.assertEqual([row[1] for row in self.rows(example("fewest_guards.qc"), "guards")], ["can't win", "can't win", "2", "3"])

    def test_without_a_wish(self):
        self.assertEqual([row[1] for row in self.rows(example("price.qc"), "price")][:5], ["can't win", "can't win", "can't win", "won", "can't win"])

    def test_table(self):
        out = self.said("whatif", example("best_price.qc"), "price", "--worst", "1")
        for line in ("The greatest value of total that may be hoped for is 15, at price = 5.", "What is sure is total = 12, at price = 4."):
            self.assertIn(line, out)
        self.assertIn("      4     12      12 *  ████", out)

    def test_negative_numbers(self):
        problem = self.write("a.qc", "exists maximize x; var -2..1: x; goal; solve;")
        self.assertEqual([row[1] for row in self.rows(problem, "x")], ["-2", "-1", "0", "1"])
        self.assertIn("│", self.said("whatif", problem, "x"))

    def test_a_boolean_keeps_its_rules(self):
        problem = self.write("a.qc", "exists; var bool: a; var bool: b; constraint bool_not(a,b); goal; constraint bool_eq(b,true); solve;")
        self.assertEqual(self.rows(problem, "a"), [["false", "won"], ["true", "can't win"]])

    def test_open(self):
        status, out, _ = tool("whatif", example("tolls.qc"), "t1", "--turns", "50", "--values", "0")
        self.assertEqual(status, 2)
        self.assertIn("Left open, for want of turns (--turns): 0.", out)

    def test_refusals(self):
        self.assertEqual(tool("whatif", example("tolls.qc"), "a")[::2], (2, "whatif: a is no variable of the first scope, which has t1, t2, t3\n"))
        self.assertEqual(tool("whatif", example("price.qc"), "price", "--worst", "1")[::2], (12, "whatif: worst: no condition\n"))
        self.assertEqual(tool("whatif", example("price.qc"), "price", "--values", "x")[0], 2)
        self.assertEqual(tool("whatif", example("price.qc"), "price", "--values", "50..60")[0], 2)
        self.assertEqual(tool("whatif", example("price.cert"), "price")[0], 4)
        self.assertEqual(tool("whatif", "/none.qc", "price")[::2], (7, "whatif: /none.qc: No such file or directory\n"))

    def test_picture(self):
        path = os.path.join(self.folder, "a.svg")
        self.said("whatif", example("best_price.qc"), "price", "--worst", "1", "--svg", path)
        picture = xml.dom.minidom.parse(path)
        self.assertEqual(len(picture.getElementsByTagName("g")), 11)
        self.assertEqual(len(picture.getElementsByTagName("rect")), 1 + 2 + 22)

    def test_narrowed_keeps_all_else(self):
        problem = Problem(self.program, example("tolls.qc"))
        game = Game(narrowed(problem, 1, 4).encode())
        self.assertEqual(list(game.domains[1]), [4])
        self.assertEqual(game.constraints, problem.game.constraints)
