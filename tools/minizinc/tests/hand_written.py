"""Games in MiniZinc beside the hand-written texts of the same games: both come to the same.

`games()` gives (name, model, data, text); the texts are those of `examples/` and of the ladder (`bench/measure/rungs.py`).
"""
import os
import random
import re
import sys
import tempfile

from common import FZN_QECODE, HERE, TOP, read, run, write
from measuring import limited

from qecodefzn import program
from qecodefzn.configuration import written_configuration

sys.path.insert(0, os.path.join(TOP, "bench", "measure"))
import rungs

BESIDE = ("defence", "best_price", "least_makespan")


def listed(items):
    return "[" + ",".join(map(str, items)) + "]"


def numbers(pick, count, low, high):
    return [pick.randint(low, high) for _ in range(count)]


def example(name):
    return os.path.join(TOP, "examples", name)


def own(name):
    return os.path.join(HERE, "games", name + ".mzn")


def games():
    """All games that stand in both forms."""
    for name in BESIDE:
        yield name, example(name + ".mzn"), "", read(example(name + ".qc"))
    for name in ("fewest_guards", "schedule"):
        yield name, own(name), "", read(example(name + ".qc"))
    for guards, name in (2, "defence"), (1, "thin_defence"):
        yield f"defence {guards}", own("defence"), f"guards={guards};", read(example(name + ".qc"))
    pick = random.Random(1)
    yield from knapsacks(pick)
    yield from ways(pick)
    yield from shops(pick)


def knapsacks(pick):
    for items, gone in (12, 2), (16, 2):
        weights, values = numbers(pick, items, 3, 15), numbers(pick, items, 3, 15)
        room = sum(weights) // 2
        data = f"items={items};gone={gone};room={room};weight={listed(weights)};value={listed(values)};"
        yield f"knapsack {items}-{gone}", own("knapsack"), data, rungs.knapsack_text(weights, values, room, gone)
    for items, gone in (11, 2), (14, 2):
        weights, values = numbers(pick, items, 3, 15), numbers(pick, items, 3, 15)
        room = sum(weights) // 2
        data = f"items={items};gone={gone};room={room};weight={listed(weights)};value={listed(values)};"
        for model in "robbed_int", "robbed":
            yield f"{model} {items}-{gone}", own(model), data, rungs.robbed_text(weights, values, room, gone)


def ways(pick):
    for layers, height, cuts in (3, 4, 2), (4, 4, 2):
        net = rungs.Layers(pick, layers, height)
        mid = sum(net.lengths[1:-1], [])
        data = (
            f"layers={layers};height={height};cuts={cuts};first={listed(net.lengths[0])};"
            f"mid=array3d(1..{layers - 1},1..{height},1..{height},{listed(mid)});last={listed(net.lengths[-1])};"
        )
        name = f"{layers}-{height}-{cuts}"
        yield f"shortest {name}", own("shortest"), data, net.way_text(cuts)
        longest = max(it for it in net.shortest_ways(cuts) if it is not None)
        for least in longest, longest + 1:
            yield f"every way {name} >= {least}", own("every_way"), data + f"least={least};", net.every_way_text(cuts, least)


def shops(pick):
    for jobs, delays in (5, 3), (6, 2), (7, 1):
        one, two = numbers(pick, jobs, 1, 6), numbers(pick, jobs, 1, 6)
        data = f"jobs={jobs};late=3;delays={delays};one={listed(one)};two={listed(two)};"
        yield f"shop {jobs}-{delays}", own("shop"), data, rungs.shop_text(one, two, 3, delays)


class Solved:
    """What the program makes of a text."""

    def __init__(self, text, folder):
        path = write(folder, "p.qc", text)
        out, err, self.seconds = limited([program.PROGRAM, "solve", path, "--turns", "10000000"], 300)
        self.outcome = (out[:100].splitlines() + ["", ""])[1] or err
        self.bytes, self.variables = len(out), len(re.findall(r"\bvar ", text))


def translated(model, data, folder, options=()):
    """The text of a game in MiniZinc; None and why not where there is none."""
    with written_configuration() as configuration:
        fzn, text = os.path.join(folder, "g.fzn"), os.path.join(folder, "g.qc")
        flags = ["-c", "-g", "--solver", configuration, "--fzn", fzn, "--no-output-ozn"]
        _, out, err = run(["minizinc", *flags, model, write(folder, "d.dzn", data)])
        if not os.path.exists(fzn):
            return None, out + err
        status, out, err = run([FZN_QECODE, "--only-text", "--text", text, *options, fzn])
        return (read(text), "") if status == 0 else (None, out + err)


def compared(only=None):
    """Of each game its name, and what the hand-written text, the translated one and the early one come to."""
    for name, model, data, text in games():
        if only is None or name in only:
            with tempfile.TemporaryDirectory() as folder:
                found = [Solved(text, folder)]
                for options in (), ("--early",):
                    made, why = translated(model, data, folder, options)
                    found.append(Solved(made, folder) if made else why)
            yield name, found


def checks(tally, only=None):
    for name, found in compared(only):
        for how, it in zip(("translated", "early"), found[1:]):
            is_same = isinstance(it, Solved) and it.outcome == found[0].outcome
            said = it.outcome if isinstance(it, Solved) else it
            tally.check(f"{name}, {how}", is_same, f"{said}, where the hand-written text comes to {found[0].outcome}")
