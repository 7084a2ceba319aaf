"""Tries the tools for people on random games, and their pages in a real browser.

    bench/run people [--games N] [--seed S] [--jobs J] [--program PATH]
    bench/run people --pages [--games N] [--seed S] [--shots FOLDER]

The first needs nodejs, the second a browser; both are Debian's packages: apt-get install nodejs chromium chromium-driver. Nothing
here is part of the gate; what needs only Python is tried by tools/tests/run.

Without --pages each of the examples and of N random games is solved (some within few turns). Of each the script of the page
plays sequences of moves, some of them not allowed, too short or too long, and writes what `qecode play` has to write; `explain`
must not fail; and where a value of the first scope is tried by `whatif`, the best of its values has to be the whole game's
answer, and with `--worst 1` what `worst --gap` says.

With --pages the pages of the examples and of N random games are opened: every part of the tree is unfolded, and the game is
played at random, without an error of the page; then an example is played by the keyboard alone, and the two files are saved and
compared. --shots keeps screenshots, wide, as on a phone, and in dark mode, to be looked at.
"""
import argparse
import json
import multiprocessing
import os
import random
import shutil
import subprocess
import sys
import tempfile
import time
from collections import Counter

from compare.browser import ENTER, RIGHT, SPACE, TAB, Browser, NoBrowser
from compare.player import Maker
from people.paging import WALKING, data_of, page, script
from people.reading import Answer
from people.trials import Trial, is_number, solve_all
from program import TOP, Program, add_option

EXAMPLES = os.path.join(TOP, "examples")
MOST_BYTES = 20_000_000
FEW_TURNS = ["--turns", "5"]
MOVES_OF_A_GAME, MOVES_OF_AN_EXAMPLE = 12, 60
PLAYS = """
const lines = require("fs").readFileSync(0, "utf8").trimEnd().split("\\n").map((line) => JSON.parse(line));
const tree = new Tree(lines[0]);
console.log(JSON.stringify(lines.slice(1).map((moves) => playText(tree, moves))));
"""
MOST_FOLDS, ROUNDS = 3_000, 60
# Unfolds everything, then plays at random; returns folds, moves, and whether some text says that a value is missing.
MONKEY = """
const [mostFolds, rounds] = arguments;
let folds = 0, moves = 0;
for (;;) {
  const closed = [...document.querySelectorAll("#tree-body details:not([open])")].slice(0, 400);
  if (!closed.length || folds > mostFolds) break;
  for (const it of closed) { if (it.fill) it.fill(); it.open = true; folds++; }
}
const button = (text) => [...document.querySelectorAll("#play-buttons button")].find((it) => it.textContent === text && !it.disabled);
for (let round = 0; round < rounds; round++) {
  const form = document.querySelector("#play-body form");
  if (!form) {
    if (button("Show it in the tree")) button("Show it in the tree").click();
    const back = button(round % 3 ? "Take back" : "Start again");
    if (!back) break;
    back.click();
    continue;
  }
  for (const name of [...form.querySelectorAll("fieldset input")].map((it) => it.name)) {
    const all = [...document.querySelectorAll(`#play-body input[name="${name}"]`)], it = all[Math.floor(Math.random() * all.length)];
    if (it.type === "radio") it.click();
    else { it.value = String(Math.floor(Math.random() * 5)); it.dispatchEvent(new Event("input")); }
  }
  document.querySelector("#play-body form button[type=submit]").click();
  moves++;
}
return [folds, moves, /undefined|NaN|null|\\[object/.test(document.querySelector("main").textContent)];
"""


class Wrong(Exception):
    """What a tool says is wrong."""


def ask(fact, what):
    if not fact:
        raise Wrong(what)


def solved(program, text, turns, folder):
    """The answer to a problem, with its two files in a folder."""
    problem, certificate = (os.path.join(folder, name) for name in ("a.qc", "a.cert"))
    write(problem, text)
    write(certificate, program.run("solve", problem, *turns)[1])
    return Answer(program, problem, certificate, MOST_BYTES)


def play_of(answer, moves):
    """What `qecode play` writes."""
    with tempfile.NamedTemporaryFile("w", encoding="ascii") as file:
        file.write(" ".join(map(str, moves)) + "\n")
        file.flush()
        return answer.program.run("play", answer.problem.path, answer.certificate_path, file.name)[1].decode()


def write(path, data):
    with open(path, "wb") as file:
        file.write(data)


def texts(options):
    """The names, texts, turns, and numbers of sequences of moves of the games, with what each gets its chance from."""
    for name in sorted(it for it in os.listdir(EXAMPLES) if it.endswith(".qc")):
        with open(os.path.join(EXAMPLES, name), "rb") as file:
            yield name, file.read(), [], MOVES_OF_AN_EXAMPLE
    for number in range(options.games):
        name = f"game {options.seed} {number}"
        yield name, Maker(random.Random(name), False).game().text, FEW_TURNS if number % 10 == 9 else [], MOVES_OF_A_GAME


# ---- The script of the page, explain and whatif.


def sequences(chance, game, side, many):
    """Moves of the other side: values of its domains, sometimes too few or too many."""
    hand = [x for x, owner in enumerate(game.owners) if game.kinds[owner] != side]
    for _ in range(many):
        moves = [chance.choice(list(game.domains[x])) for x in hand]
        if chance.random() < 0.15:
            moves = moves[: chance.randrange(len(moves) + 1)]
        yield moves + [chance.randrange(-3, 9)] * (chance.random() < 0.1)


def compare_plays(answer, chance, many, met):
    side = "forall" if answer.stated == "false" else "exists"
    tried = list(sequences(chance, answer.problem.game, side, many))
    lines = "\n".join(map(json.dumps, [data_of(answer, None), *tried]))
    words = ["node", "-e", f'"use strict";{script(WALKING)}{PLAYS}']
    done = subprocess.run(words, input=lines, stdout=subprocess.PIPE, text=True, check=False)
    ask(done.returncode == 0, "nodejs failed")
    for moves, found in zip(tried, json.loads(done.stdout)):
        wanted = play_of(answer, moves)
        met["play: " + (wanted.splitlines()[-2] if "unused" in wanted else wanted.split(" at ")[0]).rstrip("0123456789 \n")] += 1
        ask(found == wanted, f"{moves}: the page plays {found!r}, not {wanted!r}")


def explain(answer):
    files = answer.problem.path, answer.certificate_path
    words = [sys.executable, os.path.join(TOP, "tools", "explain"), *files, "--program", answer.program.path]
    done = subprocess.run(words, capture_output=True, text=True, check=False)
    ask(done.returncode == 0 and not done.stderr, f"explain: {done.stderr}")


def compare_values(answer, chance, met):
    """The best of whatif's values of some variable, against what the whole game comes to."""
    game, wish = answer.problem.game, answer.problem.wish()
    if not game.goal or not game.own[0] or game.kinds[0] == "forall":
        return
    x = chance.choice(game.own[0])
    trial = Trial(answer.problem, x, tuple(game.domains[x]), worst="1" if wish else None)
    rows = solve_all(answer.program, trial, 1)
    wanted = {"best": answer.stated}
    if wish:
        _, said = answer.program.run("worst", answer.problem.path, "1", "--gap")
        wanted["worst"] = said.decode().splitlines()[1].removeprefix("worst ")
    for part, outcome in wanted.items():
        found = [it for it in (getattr(row, part) for row in rows) if it is not False]
        best = f"true {(min if wish[0] == 'minimize' else max)(found)}" if wish and found else "true" if found else "false"
        met[f"whatif: {part}"] += 1
        fits = best == outcome and all(is_number(it) or not wish for it in found)
        ask(fits, f"whatif {answer.problem.names[x]}: {part} is {best}, not {outcome}")


def tried(task):
    program, name, text, turns, many = task
    sys.setrecursionlimit(50_000)
    met, chance = Counter(), random.Random(name)
    with tempfile.TemporaryDirectory(prefix="people-") as folder:
        try:
            answer = solved(program, text, turns, folder)
            met["outcome: " + answer.stated.split()[0]] += 1
            explain(answer)
            if not answer.stated.startswith("open"):
                compare_plays(answer, chance, many, met)
                if name.startswith("game"):
                    compare_values(answer, chance, met)
        except Exception as wrong:  # whatever a tool stumbles over is told with its game
            return met, f"{name}: {wrong!r}\n{text.decode('utf-8', 'replace')}"
    return met, None


def try_scripts(options, program):
    if not shutil.which("node"):
        print("there is no nodejs: apt-get install nodejs")
        return 1
    tasks = [(program, *it) for it in texts(options)]
    met, wrong = Counter(), 0
    with multiprocessing.Pool(options.jobs) as pool:
        for counts, fault in pool.imap(tried, tasks):
            met += counts
            if fault:
                wrong += 1
                print(fault, flush=True)
    tell(met, f"{len(tasks)} games, {wrong} wrong")
    return wrong > 0


def tell(met, words):
    for what, times in sorted(met.items()):
        print(f"{times:7} {what}")
    print(words)


# ---- Pages, in a browser.


class Pages:
    """Makes pages in a folder, and opens them."""

    def __init__(self, program, folder):
        self.program, self.folder, self.met = program, folder, Counter()

    def make(self, text, turns=()):
        answer = solved(self.program, text, turns, self.folder)
        path = os.path.join(self.folder, "page.html")
        write(path, page(data_of(answer, None)).encode())
        return path

    def of_example(self, name):
        """The page that tools/page makes of an example and its certificate."""
        files = [os.path.join(EXAMPLES, f"{name}.{it}") for it in ("qc", "cert")]
        words = [os.path.join(TOP, "tools", "page"), *files, "--program", self.program.path]
        path = os.path.join(self.folder, f"{name}.html")
        write(path, subprocess.run([sys.executable, *words], stdout=subprocess.PIPE, check=True).stdout)
        return path

    def open_all(self, browser, path):
        browser.open(path)
        folds, moves, is_odd = browser.run(MONKEY, MOST_FOLDS, ROUNDS)
        self.met.update({"pages": 1, "folds": folds, "moves": moves})
        ask(not is_odd, "a text on the page says that something is missing")
        self.no_errors(browser)

    @staticmethod
    def no_errors(browser):
        errors = browser.errors()
        ask(not errors, f"the page complains: {errors[:3]}")

    def by_keyboard(self, browser):
        """Plays the defence with keys alone: an attack that isn't allowed, with its reason, then one that is, to the goal."""
        browser.open(self.of_example("defence"))
        self.tab_to(browser, "v3")
        for _ in range(3):
            browser.press(SPACE, RIGHT, TAB)  # from 0 to 1
        why = browser.run("return document.getElementById('live').textContent")
        ask("constraint 2" in why, f"no reason is told for three attacks: {why!r}")
        self.tab_to(browser, "v3")
        browser.press(RIGHT)  # around to 0
        browser.press(ENTER)
        end = browser.run("return document.getElementById('live').textContent")
        ask(end.startswith("The goal holds"), f"keys alone don't play to the goal: {end!r}")
        self.no_errors(browser)

    @staticmethod
    def tab_to(browser, name):
        for _ in range(60):
            if browser.run("return document.activeElement.name || ''") == name:
                return
            browser.press(TAB)
        raise Wrong(f"no key leads to {name}")

    def saved(self, browser, downloads):
        """What a page saves is the very problem, whatever bytes its comments hold, and its certificate."""
        text = b"% \xff\xfe </script>\nexists; var 0..1: x; goal; solve;\n"
        browser.open(self.make(text))
        browser.run("document.querySelectorAll('#answer-body button').forEach((it) => it.click())")
        for name in ("a.qc", "a.cert"):
            with open(os.path.join(self.folder, name), "rb") as file:
                ask(arrived(os.path.join(downloads, name)) == file.read(), f"{name} isn't saved as it was")

    def shoot(self, name, place, shots, look, **more):
        with Browser(*look, **more) as browser:
            browser.open(self.of_example(name))
            browser.run("document.querySelectorAll('#tree-body > div > details').forEach((it) => { it.fill(); it.open = true; })")
            for part in ("answer", "play", "tree", "problem"):
                browser.run("document.getElementById(arguments[0]).scrollIntoView()", part)
                browser.shoot(os.path.join(shots, f"{name}-{place}-{part}.png"))


def arrived(path):
    """The bytes of a file that a browser saves, once it's there."""
    for _ in range(100):
        if os.path.exists(path):
            with open(path, "rb") as file:
                return file.read()
        time.sleep(0.1)
    return None


def try_pages(options, program):
    wrong = 0
    with tempfile.TemporaryDirectory(prefix="people-") as folder:
        pages, downloads = Pages(program, folder), os.path.join(folder, "downloads")
        os.mkdir(downloads)
        with Browser(500, 800, downloads=downloads) as browser:
            steps = [(name, lambda text=text, turns=turns: pages.open_all(browser, pages.make(text, turns)))
                     for name, text, turns, _ in texts(options)]
            steps += [("keys", lambda: pages.by_keyboard(browser)), ("saving", lambda: pages.saved(browser, downloads))]
            for name, step in steps:
                try:
                    step()
                except (Wrong, NoBrowser) as fault:
                    wrong += 1
                    print(f"{name}: {fault}", flush=True)
        if options.shots:
            take_shots(pages, options.shots)
    tell(pages.met, f"{len(steps)} tried, {wrong} wrong")
    return wrong > 0


def take_shots(pages, folder):
    os.makedirs(folder, exist_ok=True)
    for name in ("best_price", "thin_defence"):
        pages.shoot(name, "wide", folder, (1200, 900))
        pages.shoot(name, "phone", folder, (390, 844), phone=True)
        pages.shoot(name, "dark", folder, (1200, 900), dark=True)


def main(words):
    parser = argparse.ArgumentParser(prog="bench/run people", description="Tries the tools for people.")
    parser.add_argument("--games", type=int, default=200)
    parser.add_argument("--seed", type=int, default=1)
    parser.add_argument("--jobs", type=int, default=1)
    parser.add_argument("--pages", action="store_true")
    parser.add_argument("--shots", metavar="FOLDER")
    add_option(parser)
    options = parser.parse_args(words)
    sys.setrecursionlimit(50_000)
    program = Program(options.program)
    try:
        return try_pages(options, program) if options.pages else try_scripts(options, program)
    except NoBrowser as why:
        print(f"bench/run people: {why}", file=sys.stderr)
        return 1
