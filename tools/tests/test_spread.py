"""Tries tools/spread: pieces, merges, engines, folders, and what goes wrong. The long comparisons are `bench/run spread_fuzz`,
`spread_wrong` and `spread_kill`."""
import os
import random
import stat
import subprocess
import sys
import tempfile
import unittest

TOOLS = os.path.dirname(os.path.dirname(os.path.realpath(__file__)))
TOP = os.path.dirname(TOOLS)
sys.path[:0] = [TOOLS, os.path.join(TOP, "bench")]

from compare.player import Maker  # noqa: E402
from oracle.games import Game  # noqa: E402
from program import NoProgram, Program, piece_program  # noqa: E402
from spreading import asking, engines, outcome  # noqa: E402
from spreading.certificates import HEAD, NotWhole, certificate_in, stated  # noqa: E402
from spreading.clock import Clock  # noqa: E402
from spreading.domains import Domain  # noqa: E402
from spreading.problem import Problem  # noqa: E402
from spreading.run import Policy, Run  # noqa: E402
from spreading.store import InUse, OtherProblem, Store  # noqa: E402
from spreading.tree import Piece, Tree  # noqa: E402

try:
    PROGRAM = Program()
except NoProgram:
    PROGRAM = None

TOLLS = os.path.join(TOP, "examples", "tolls.qc")
TOLLS_OUTCOME = "true 26"
SMALLEST = Policy(turns=1, first=1, pieces=0, fan=2, patience=None, regret=None)
STAND_IN = os.path.join(TOOLS, "tests", "stand_in_qpart.py")
PART = piece_program() or STAND_IN
# The greatest of what y comes to beside x is to be small: 4 where x is 4.
GUARDED = (
    "exists minimize m; var 0..8: x; forall; var 0..8: y; aggregate m = greatest(d) else 0; exists; var 0..8: d;"
    " constraint int_lin_le([1,-1,-1],[x,y,d],0); constraint int_lin_le([1,-1,-1],[y,x,d],0); goal; solve;"
)
FOLLOWER = (
    "exists minimize c; var 0..1: x; exists minimize d; var 0..1: y; var 0..9: c; var 0..0: d;"
    " constraint int_lin_eq([4,1,-1],[y,x,c],0); goal; solve;"
)


def bytes_of(path):
    with open(path, "rb") as file:
        return file.read()


def write(path, text, is_program=False):
    with open(path, "w", encoding="utf-8") as file:
        file.write(text)
    if is_program:
        os.chmod(path, os.stat(path).st_mode | stat.S_IXUSR)
    return path


class Domains(unittest.TestCase):
    def test_parts_keep_all_values(self):
        domain = Domain.of([1, 2, 3, 7, 9, 10])
        parts = domain.parts(4)
        self.assertEqual([str(part) for part in parts], ["1..1", "2..3", "7..7", "9..10"])
        self.assertEqual(domain.without(3, 9).text(), "{1,2,10}")
        self.assertEqual(domain.within(3, 9).text(), "{3,7,9}")

    def test_a_list_has_a_limit(self):
        self.assertTrue(Domain([(0, 1_000_000)]).has_text())
        self.assertFalse(Domain([(0, 0), (2, 1_000_000)]).has_text())


class Narrowing(unittest.TestCase):
    def test_numbers_stay_and_a_boolean_becomes_a_word(self):
        text = b"exists; var 0..5: x; var bool: b; constraint bool_eq(b,b); goal; constraint int_le_reif(x,3,b); solve;"
        problem = Problem(text)
        narrowed = problem.narrowed((Domain.of([1, 4]), Domain.of([1])))
        self.assertEqual(
            narrowed,
            b"exists; var {1,4}: x; var 1..1: b; constraint bool_eq(true,true); goal; constraint int_le_reif(x,3,true); solve;",
        )
        self.assertEqual(len(Game(narrowed).constraints), len(Game(text).constraints))


class Asking(unittest.TestCase):
    TEXT = b"exists minimize m; var 0..5: x; var bool: b; forall; var {1,4,9}: y; aggregate m = greatest(x) else 0; goal; solve;"

    def asked(self, best, has_part, *box):
        tree = Tree(self.TEXT, has_part=has_part)
        piece = Piece(tree.root, 0, tuple(map(Domain.of, box)), (0,))
        tree.bind(piece, best)
        return asking.text_of(tree, piece)

    def test_words_keep_a_piece_and_tell_a_value(self):
        text = self.asked(-3, True, [1, 2], [1], [4, 9])
        words = "--keep x 1 2 --keep b 1 1 --keep y 4 9 --reached -3"
        self.assertEqual(text, f"%qpart {words}\n".encode() + self.TEXT)
        self.assertEqual(asking.asked(text, 7), (True, [*words.split(), "--turns", "7"]))
        self.assertEqual(Game(text).text[:6], b"%qpart")  # a comment to a reader

    def test_what_no_words_keep_is_a_text(self):
        for has_part, ys in (True, [1, 9]), (False, [1, 4]):
            text = self.asked(2, has_part, [1, 2], [0, 1], ys)
            self.assertEqual(text, self.TEXT.replace(b"0..5", b"1..2").replace(b"{1,4,9}", b"{%d,%d}" % tuple(ys)))
            self.assertEqual(asking.asked(text, 7), (False, ["--turns", "7"]))

    def test_a_problem_is_not_taken_for_words(self):
        tree = Tree(b"%qpart --keep x 1 1\n" + self.TEXT, has_part=True)
        self.assertEqual(asking.words_in(asking.text_of(tree, tree.root)), [])

    def test_a_piece_that_was_written(self):
        for head, reached in (b"", None), (b"qpiece 1\nkeep x -1 4\nkeep b 0 0\n", None), (b"qpiece 1\nreached -17\n", -17):
            data = head + b"qcert 2\ntrue 3\nn\ng\n"
            told = stated(data)
            self.assertEqual((told.word, told.number, data[told.tree :], told.reached), ("true", 3, b"n\ng\n", reached))
            self.assertEqual(b"".join(certificate_in(data)), b"qcert 2\ntrue 3\nn\ng\n")
        for bad in b"qpiece 1\n", b"qpiece 2\nqcert 2\ntrue\ng\n", b"qpiece 1\nreached x\nqcert 2\ntrue\ng\n", b"qpiece 1\nqcert 2\n":
            with self.assertRaises(NotWhole):
                stated(bad)


class Folder(unittest.TestCase):
    """A test with a folder of its own."""

    def setUp(self):
        self.place = tempfile.TemporaryDirectory()
        self.addCleanup(self.place.cleanup)

    def path(self, name):
        return os.path.join(self.place.name, name)

    def store(self, text):
        store = Store(self.path("store"), text)
        self.addCleanup(store.close)
        return store


class Stores(Folder):
    def test_one_run_and_one_problem(self):
        store = self.store(b"goal; solve;")
        with self.assertRaises(InUse):
            Store(store.folder, b"goal; solve;")
        store.close()
        with self.assertRaises(OtherProblem):
            Store(store.folder, b"exists; goal; solve;")


@unittest.skipUnless(PROGRAM, "the program isn't built")
class Merges(Folder):
    def spread(self, text, workers=1, policy=SMALLEST):
        run = Run(self.store(text), Clock(PROGRAM.path, workers, self.path("clock")), policy)
        run.go()
        run.store.close()
        return run

    def test_random_games_come_to_what_they_are(self):
        sys.setrecursionlimit(50_000)
        for number in range(25):
            game = Maker(random.Random(f"spread test {number}"), False).game()
            with self.subTest(number=number), tempfile.TemporaryDirectory() as self.place.name:
                run = self.spread(game.text)
                if run.tree.root.is_settled():
                    believed = outcome.conclude(run.tree, run.store, PROGRAM)
                    self.assertEqual(believed.line, f"yes {game.outcome()}")

    def test_pieces_by_words_come_to_the_same(self):
        """By `qpart`, or a stand-in; a wish over an aggregate is told values."""
        told = 0
        for number, text in enumerate([bytes_of(TOLLS), GUARDED.encode()]):
            with self.subTest(number=number), tempfile.TemporaryDirectory() as self.place.name:
                os.environ["QECODE"] = PROGRAM.path
                clock = Clock(PROGRAM.path, 2, self.path("clock"), part=PART)
                run = Run(self.store(text), clock, Policy(first=2, fan=4, pieces=1))
                run.go()
                run.store.close()
                heads = [HEAD.match(bytes_of(leaf.file))[0] for leaf in run.tree.leaves() if leaf.file]
                self.assertTrue(any(heads))
                told += sum(b"reached" in head for head in heads)
                self.assertEqual(outcome.conclude(run.tree, run.store, PROGRAM).line, "yes " + (TOLLS_OUTCOME, "true 4")[number])
        self.assertTrue(told)

    def test_a_wrong_value_is_not_believed(self):
        """Pieces that were told a value that nobody reached."""
        os.environ["QECODE"] = PROGRAM.path
        run = Run(self.store(GUARDED.encode()), Clock(PROGRAM.path, 1, self.path("clock"), part=PART), Policy(first=2, fan=4, pieces=1))
        run.tree.best = 3
        run.go()
        run.store.close()
        with self.assertRaises((outcome.Disbelieved, NotWhole)):
            outcome.conclude(run.tree, run.store, PROGRAM)
        self.assertTrue(outcome.bad_results(run.tree, run.store, PROGRAM))

    def test_a_follower_with_a_wish_is_not_split(self):
        run = self.spread(FOLLOWER.encode(), policy=Policy(turns=2, first=1, pieces=0, fan=2, patience=None))
        self.assertTrue(all(not piece.level for piece in run.tree.leaves()))

    def test_more_workers_find_the_same(self):
        text = bytes_of(TOLLS)
        for workers in 1, 4:
            with tempfile.TemporaryDirectory() as self.place.name:
                run = self.spread(text, workers, Policy(first=500))
                self.assertGreater(run.tree.settled, 1)
                self.assertEqual(outcome.conclude(run.tree, run.store, PROGRAM).line, f"yes {TOLLS_OUTCOME}")

    def test_a_run_goes_on_where_it_was(self):
        text = bytes_of(TOLLS)
        first = self.spread(text, 4, Policy(first=500))
        again = self.spread(text, 4, Policy(first=500))
        self.assertEqual((again.met["runs"], again.met["looks"]), (0, 0))
        self.assertEqual(again.tree.settled, first.tree.settled)

    def test_a_result_that_is_broken_is_made_anew(self):
        run = self.spread(bytes_of(TOLLS), 1, Policy(first=500))
        for name in os.listdir(run.store.folder):
            if name.endswith(".cert"):
                write(os.path.join(run.store.folder, name), "qcert 2\ntrue")
        os.remove(run.store.path("journal"))
        again = self.spread(bytes_of(TOLLS), 1, Policy(first=500))
        self.assertEqual(outcome.conclude(again.tree, again.store, PROGRAM).line, f"yes {TOLLS_OUTCOME}")

    def test_a_result_that_is_wrong_is_set_aside(self):
        run = self.spread(bytes_of(TOLLS), 2, Policy(first=500))
        files = sorted(leaf.file for leaf in run.tree.leaves() if leaf.file)
        os.replace(files[0], self.path("kept"))
        write(files[0], "qcert 2\nfalse\ne\n")
        with self.assertRaises(outcome.Disbelieved):
            outcome.conclude(run.tree, run.store, PROGRAM)
        self.assertEqual(outcome.bad_results(run.tree, run.store, PROGRAM), [os.path.basename(files[0])])


@unittest.skipUnless(PROGRAM, "the program isn't built")
class Commands(Folder):
    def spread(self, *words, program=None):
        words = [os.path.join(TOOLS, "spread"), *words, "--program", program or PROGRAM.path]
        return subprocess.run(words, capture_output=True, check=False, cwd=self.place.name)

    def ends(self, done, status, said):
        self.assertEqual(done.returncode, status, done.stderr.decode())
        self.assertIn(said, done.stderr.decode())

    def believed(self, path):
        self.assertEqual(PROGRAM.run("check", TOLLS, path)[1], f"yes {TOLLS_OUTCOME}\n".encode())

    def test_solve(self):
        done = self.spread("solve", TOLLS, "--workers", "2", "--first", "500")
        self.ends(done, 0, f"yes {TOLLS_OUTCOME}")
        with open(self.path("out"), "wb") as file:
            file.write(done.stdout)
        self.believed(self.path("out"))
        self.assertEqual(os.listdir(self.place.name), ["out"])

    def test_refusals_are_those_of_the_program(self):
        bad = write(self.path("bad.qc"), "goal")
        done = self.spread("solve", bad)
        self.assertEqual((done.returncode, done.stdout), (4, b"bad problem: 3 Syntax at 4\n"))
        self.ends(self.spread("solve", "none.qc"), 7, "none.qc can't be read")
        self.ends(self.spread("solve", TOLLS, "--turns", "0"), 3, "isn't from 1 to 10000000")
        self.ends(self.spread("merge", "none"), 7, "isn't a folder")

    def test_what_is_not_settled_in_time_is_open(self):
        done = self.spread("solve", TOLLS, "--workers", "1", "--first", "1", "--turns", "1", "--seconds", "0.001", "--out", "out")
        self.ends(done, 2, "yes open")

    def test_hosts(self):
        ssh = write(self.path("ssh"), '#!/bin/sh\nshift\nexec sh -c "$1"\n', True)
        done = self.spread("solve", TOLLS, "--hosts", "one:2,two:1", "--ssh", ssh, "--first", "500", "--out", "out")
        self.ends(done, 0, f"yes {TOLLS_OUTCOME}")
        self.ends(self.spread("solve", TOLLS, "--hosts", "one", "--there", "/none", "--ssh", ssh), 21, "one: /none can't be run there")

    def test_a_host_that_fails_gets_no_more(self):
        broken = self.path("broken")
        ssh = write(self.path("ssh"), f'#!/bin/sh\nhost=$1\nshift\nif test $host = two && test -e {broken}; then exit 255; fi\n'
                    f'if test $host = two; then touch {broken}; fi\nexec sh -c "$1"\n', True)
        done = self.spread("solve", TOLLS, "--hosts", "one:1,two:1", "--ssh", ssh, "--first", "50", "--out", "out")
        self.ends(done, 0, "two gets no more pieces")

    def test_where_memory_runs_out_pieces_are_split(self):
        small = write(self.path("small"), f'#!/bin/sh\ncase "$1 $4" in "solve 10000000") exit 9;; esac\nexec {PROGRAM.path} "$@"\n', True)
        guards = os.path.join(TOP, "examples", "fewest_guards.qc")
        done = self.spread("solve", guards, "--workers", "2", "--first", "1", "--out", "out", program=small)
        self.ends(done, 0, "yes true 2")

    def test_a_program_that_dies_is_run_again(self):
        dead = self.path("dead")
        weak = write(self.path("weak"), f'#!/bin/sh\nif test "$1" = solve && mkdir {dead}; then kill -9 $$; fi\nexec {PROGRAM.path} "$@"\n', True)
        self.ends(self.spread("solve", TOLLS, "--workers", "2", "--out", "out", program=weak), 0, f"yes {TOLLS_OUTCOME}")
        self.assertTrue(os.path.exists(dead))

    def test_folders(self):
        self.ends(self.spread("split", TOLLS, "pieces", "--pieces", "6"), 2, "are to be solved")
        files = sorted(name for name in os.listdir(self.path("pieces")) if name.endswith(".qc"))
        names = bytes_of(self.path("pieces/pieces")).decode().split()
        self.assertEqual(files, sorted(name + ".qc" for name in names))
        self.ends(self.spread("merge", "pieces"), 2, f"{len(files)} are to be solved")
        self.assertEqual(self.spread("piece", *(f"pieces/{name}" for name in files)).returncode, 0)
        cut = self.path(f"pieces/{names[0]}.cert")
        write(cut, "qcert 2\ntrue 2")
        self.ends(self.spread("merge", "pieces"), 2, "isn't a whole certificate")
        done = self.spread("merge", "pieces")
        while done.returncode == 2:  # what is left may have been split again
            left = bytes_of(self.path("pieces/pieces")).decode().split()
            self.assertEqual(self.spread("piece", *(f"pieces/{name}.qc" for name in left)).returncode, 0)
            done = self.spread("merge", "pieces")
        self.ends(done, 0, f"yes {TOLLS_OUTCOME}")
        self.believed(self.path("pieces/whole.cert"))


@unittest.skipUnless(PROGRAM, "the program isn't built")
class Engines(Folder):
    def test_what_is_cancelled_answers_soon(self):
        engine = engines.Processes(engines.here(PROGRAM.path, 1), self.place.name)
        self.addCleanup(engine.close)
        for key in 1, 2:
            engine.submit(key, bytes_of(TOLLS), 10_000_000, self.path(str(key)))
            engine.cancel(key)
        self.assertEqual([engine.next(20).status for _ in range(2)], [engines.CANCELLED] * 2)


if __name__ == "__main__":
    unittest.main()
