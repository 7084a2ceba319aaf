"""An answer as one page that needs nothing from outside: its data, and the page's parts put together."""
import base64
import hashlib
import json
import os
from html import escape

from oracle.games import Var
from oracle.predicates import SIGNATURES
from people.ranges import spans

PARTS = os.path.join(os.path.dirname(os.path.realpath(__file__)), "page")
# What needs no page comes first, so that tests can run it alone.
WALKING = ("predicates.js", "walk.js", "play.js")
SHOWING = ("words.js", "answer.js", "board.js", "tree.js", "problem.js", "start.js")
LOST, UNKNOWN, AT_MOST, EXACT, BEATEN = range(5)  # as in walk.js


def part(name):
    with open(os.path.join(PARTS, name), encoding="utf-8") as file:
        return file.read()


def script(names):
    return "\n".join(map(part, names))


def page(data):
    """The page. The parts are put in at once: what one of them holds is never looked at for places of others."""
    values = {
        "title": escape(data["name"]),
        "style": part("style.css"),
        "data": script_json(data),
        "script": f'(() => {{\n"use strict";\n{script(WALKING + SHOWING)}}})();',
    }
    first, *pieces = part("page.html").split("{{")
    split = (piece.split("}}", 1) for piece in pieces)
    return first + "".join(values[key] + rest for key, rest in split)


def script_json(data):
    """JSON that may stand in a script element: a comment of a problem may hold any text."""
    text = json.dumps(data, ensure_ascii=False, separators=(",", ":"))
    return text.replace("<", "\\u003c").replace("\u2028", "\\u2028").replace("\u2029", "\\u2029")


# ---- The data.


def data_of(answer, sure):
    """What the page knows of an answer whose tree was read; `sure` is what is sure at the worst ties, in words, or None."""
    problem = answer.problem
    return {
        "name": problem.name,
        "question": problem.head,
        "source": problem.source.decode("utf-8", "replace"),
        # Comments may hold any bytes: what is saved from the page has to be the very file.
        "bytes": None if is_utf8(problem.source) else base64.b64encode(problem.source).decode(),
        "problemSum": hashlib.sha256(problem.source).hexdigest(),
        "certificate": answer.certificate.decode("ascii"),
        "certificateSum": hashlib.sha256(answer.certificate).hexdigest(),
        "certificateSize": len(answer.certificate),
        "stated": answer.stated,
        "checker": answer.checker(),
        "isPlayed": answer.is_played,
        "followers": problem.has_followers(),
        "sure": sure,
        "turns": answer.tree.turns,
        "notes": [note(node) for node in answer.tree.nodes],
        **game_data(problem, answer.tree.rules),
    }


def game_data(problem, rules):
    game, name_of = problem.game, problem.name_of
    return {
        "kinds": game.kinds,
        "conditions": [c and [c[0], name_of(c[1])] for c in game.conditions],
        "asked": [[[sense, name_of(target)] for sense, target in asked] for asked in rules.lists],
        "aggregates": [
            {"owner": q.owner, "name": name, "fold": q.fold, "target": name_of(q.target)}
            for name, q in zip(problem.aggregate_names, game.aggregates)
        ],
        "names": problem.names,
        "isBool": problem.is_bool,
        "own": game.own,
        "domains": [spans(domain) for domain in game.domains],
        "constraints": [constraint_data(problem, k) for k in range(len(game.constraints))],
    }


def constraint_data(problem, k):
    constraint = problem.game.constraints[k]
    return {
        "owner": constraint.owner,
        "name": constraint.name,
        "args": list(map(coded, constraint.args, SIGNATURES[constraint.name])),
        "formula": problem.formulas[k],
        "call": problem.calls[k],
        "comment": problem.comments[k],
        "line": problem.lines[k],
    }


def coded(arg, kind):
    """An argument for the page: a number, a variable, a set as ranges, or a list of such."""
    if kind == "S":
        return {"s": spans(arg)}
    if isinstance(arg, list):
        return [coded(item, kind.lower()) for item in arg]
    return {"v": arg.var} if isinstance(arg, Var) else int(arg)


def note(node):
    """What a node comes to, and the line of the leaf that its owner takes."""
    what, value = node.verdict
    pick = node.pick.line if node.pick else -1
    if what == "lost":
        return [BEATEN, pick] if node.pick else LOST
    if what == "exact":
        return [EXACT, pick, node.own, *value]
    return [AT_MOST, value] if what == "at most" else UNKNOWN


def is_utf8(data):
    try:
        data.decode("utf-8")
    except UnicodeDecodeError:
        return False
    return True
