"""What the tools for people share: comments, formulas, and the walk of a certificate."""
import random

from compare.player import Maker
from helping import Case
from oracle.certificates import Proof, Text
from oracle.predicates import SIGNATURES
from people.problem import Problem
from people.telling import Teller
from people.walk import read_tree
from people.words import FORMS, formula

GAMES = 40


class Comments(Case):
    def problem(self, text):
        return Problem(self.program, self.write("a.qc", text))

    def test_places(self):
        problem = self.problem(
            "% who\n% asks\nexists; var 0..1: x; % a variable's\n% before it\nconstraint int_le(x,1); % behind it\n"
            "constraint int_le(x, % in it\n 2);\ngoal; % the goal's\nconstraint int_le(x,3); constraint int_le(x,4); % the last one's\nsolve; % end"
        )
        self.assertEqual(problem.head, "who asks")
        self.assertEqual(problem.comments, ["before it behind it", "in it", "", "the last one's"])
        self.assertEqual(problem.lines, [5, 6, 9, 9])

    def test_any_bytes(self):
        problem = self.problem(b"% \xff</script>{{data}}\xe2\x80\xa8.\ngoal; constraint int_le(0,1); % \x00\nsolve;")
        self.assertEqual(problem.head, "\ufffd</script>{{data}}\u2028.")
        self.assertEqual(problem.comments, ["\x00"])


class Words(Case):
    def test_each_predicate_has_words(self):
        self.assertEqual(set(FORMS), {name for name in SIGNATURES if not name.endswith("_reif")})

    def test_formulas(self):
        for name, args, wanted in (
            ("int_lin_le", [[1, -2, -1], ["x", "y", "z"], -2], "x + 2 ≤ 2·y + z"),
            ("int_lin_le", [[-1, -1], ["x", "y"], -6], "x + y ≥ 6"),
            ("int_lin_eq", [[1, 2], ["x", 3], 7], "x = 1"),
            ("int_lin_le", [[], [], -1], "0 ≤ -1"),
            ("int_le_reif", ["x", 1, "b"], "b exactly where (x ≤ 1)"),
            ("bool_clause", [["a"], ["b"]], "a or not b"),
            ("bool_clause", [[], []], "never"),
            ("table_int", [["x", "y"], [1, 2, 3, 4]], "(x, y) is one of (1, 2), (3, 4)"),
            ("array_int_element", ["x", [5, 6], "y"], "y is item x of (5, 6)"),
            ("all_different_int", [[f"x{k}" for k in range(20)]], "x0, x1, x2, x3, x4, x5, x6, x7, x8, x9, … 9 more …, x19 all differ"),
        ):
            self.assertEqual(formula(name, args), wanted)


class Walk(Case):
    def test_random_games(self):
        """The walk comes to what the oracle's checker comes to, and plays as `play` does."""
        for number in range(GAMES):
            text = Maker(random.Random(f"walk {number}"), False).game().text
            path, certificate = self.solved(text, *(["--turns", "5"] if number % 8 == 7 else []))
            with open(certificate, "rb") as file:
                data = file.read()
            problem = Problem(self.program, path)
            tree, proof = read_tree(problem.game, data), Proof(problem.game, Text(data).certificate().lines)
            self.assertEqual((tree.root.verdict, tree.root.own, tree.turns), (proof.verdict, proof.own, proof.turns), text)
            is_played = Teller(problem, tree).confirm_by_play(self.program, certificate)
            self.assertTrue(is_played or tree.head.startswith("open") or tree.root.kind != "cases", text)
