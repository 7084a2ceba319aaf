"""tools/page. In a browser it is tried by `bench/run people`."""
import json
import random
import re
import shutil
import subprocess
import unittest

from helping import Case, example, tool
from oracle.predicates import SIGNATURES, holds_of
from people.paging import WALKING, script

NODE = unittest.skipUnless(shutil.which("node"), "it needs nodejs (Debian's package)")
PLAYS = """
const tree = new Tree(JSON.parse(require("fs").readFileSync(0, "utf8")));
console.log(JSON.stringify([[1,1,0],[1,1,1],[0,1],[1,0,1,7]].map((moves) => playText(tree, moves))));
"""
HOLD = """
const told = JSON.parse(require("fs").readFileSync(0, "utf8")).map(([name, args]) => holds({ name, args }, []));
console.log(JSON.stringify(told));
"""
LARGE = [10**9, -(10**9), 10**9 - 1]


def ran(driver, data):
    """What the page's script answers outside a page."""
    words = ["node", "-e", f'"use strict";{script(WALKING)}{driver}']
    done = subprocess.run(words, input=json.dumps(data), stdout=subprocess.PIPE, text=True, check=True)
    return json.loads(done.stdout)


class Page(Case):
    def test_nothing_from_outside(self):
        page = self.said("page", example("defence.qc"), example("defence.cert"))
        self.assertIsNone(re.search(r"(src|href)\s*=\s*[\"']?(https?:)?//|@import|\burl\(|fetch\(|https?://", page))
        self.assertIn("default-src 'none'", page)

    def test_markup_in_comments(self):
        with open(example("price.qc"), encoding="utf-8") as file:
            problem = self.write("a.qc", "% </script><script>x()</script> {{script}}\n" + file.read())
        page = self.said("page", problem, example("price.cert"))
        self.assertNotIn("<script>x()", page)
        self.assertEqual(page.count("</script>"), 2)

    def test_data(self):
        data = json.loads(self.said("page", example("best_price.qc"), example("best_price.cert"), "--data"))
        self.assertEqual((data["stated"], data["isPlayed"], data["followers"]), ("true 15", True, True))
        self.assertTrue(data["sure"].startswith("only 12"))
        self.assertEqual(data["bytes"], None)

    def test_refusals(self):
        status, out, err = tool("page", example("price.qc"), example("defence.cert"))
        self.assertEqual((status, out), (1, ""))
        self.assertIn("check said: no.", err)
        self.assertEqual(tool("page", example("price.qc"), example("price.cert"), "--most", "10")[0], 6)

    @NODE
    def test_plays(self):
        plays = ran(PLAYS, json.loads(self.said("page", example("defence.qc"), example("defence.cert"), "--data")))
        self.assertEqual(plays[0], "1 exists 0 1 1\n2 forall 1 1 0\n3 exists 1 0 0\ngoal true\nunused 0\n")
        self.assertEqual(plays[1:3], ["move not allowed at scope 2\n", "move missing at scope 2\n"])
        self.assertTrue(plays[3].endswith("unused 1\n"))

    @NODE
    def test_predicates(self):
        """The page's predicates hold of just the values of which the oracle's do."""
        pick = random.Random(1)
        asked = [(name, list(arguments(pick, name))) for name in SIGNATURES for _ in range(300)]
        told = ran(HOLD, [[name, [spanned(arg) for arg in args]] for name, args in asked])
        met = {name: set() for name in SIGNATURES}
        for (name, args), found in zip(asked, told):
            self.assertEqual(found, holds_of(name, args), (name, args))
            met[name].add(found)
        self.assertEqual({name for name, found in met.items() if len(found) < 2}, set())


def arguments(pick, name):
    size = pick.randrange(1, 4)
    for kind in SIGNATURES[name]:
        if kind == "S":
            yield range(-1, pick.randrange(4))
        elif name == "table_int" and kind == "N":
            yield [number(pick) for _ in range(size * pick.randrange(1, 12))]
        else:
            yield [one(pick, kind) for _ in range(size)] if kind.isupper() else one(pick, kind)


def one(pick, kind):
    return pick.randrange(2) if kind in "bBM" else number(pick)


def number(pick):
    return pick.choice(LARGE) if pick.random() < 0.03 else pick.randrange(-2, 5)


def spanned(arg):
    return {"s": [[arg[0], arg[-1]]] if arg else []} if isinstance(arg, range) else arg
