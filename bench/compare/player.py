"""A plain player by brute force, to compare the program with.

    bench/run player --self-test
    bench/run player --alone [--games N] [--seed S]
    bench/run player [--games N] [--seed S] [--program PATH] [--plain] [--turns N] [--worst] [--jobs J]

Nothing here is part of the gate.

It makes small problems at random, and the oracle (tools/oracle) finds by going over all moves who wins and what the optimal
strategies are worth. The program solves each problem: its outcome has to be the one found, and its certificate has to be
believed by its own `check` and by the oracle's checker. Then `check` gets certificates of other makings: made at random from
steps, horizons, bounds and ranges, damaged, and made for other games. What it answers has to be what the oracle says, to the
byte, with the same status. Whatever the oracle believes has to agree with the outcome found; `--alone` looks at that without
the program.

--plain     no conditions and aggregates
--turns N   a budget for `solve`, which may then answer open
--stepless  the program answers `no` to certificates with steps, horizons or taken ranges, even where they prove
--diligent  the program propagates, so that its certificates are diligent (oracle.promises)
--incumbents  it bounds by what it has found, so that no value is left that is worse
--worst     looks at `worst` too: one scope of each game, or all, meets the worst ties, by the definition as oracle.games
            has it; the certificate has to be believed for the problem that `worst --text` writes, and the gap has to be the
            two outcomes found
--jobs J    plays in J processes; the seed and a game's number say what is played, whichever process plays it

A budget that the program doesn't know is counted apart.
"""
import argparse
import multiprocessing
import os
import random
import sys
import tempfile
from collections import Counter
from itertools import product
from math import prod

from compare.rows import CHECKED, PROMISED, REFUSED, SOLVED, TURNS, WORST
from oracle import reader
from oracle.certificates import BadCertificate, Certificate, Line, NotProved, Proof, Rules, Text, judged, replaced
from oracle.games import Game, Var, holds, refutes
from oracle.predicates import SIGNATURES, holds_of
from oracle.promises import Promises
from program import Program, add_option

USUAL_TURNS = 1_000_000
MOST_TUPLES = 1_500
SAMPLES = 12


class Maker:
    """Makes the texts of small problems: all predicates, repeated variables, empty arrays, domains with holes."""

    # how many there are of each, one of these numbers
    SCOPES = [0, 1, 1, 2, 2, 2, 3, 3, 3, 4]
    VARIABLES = [0, 1, 1, 1, 2, 2, 3]
    RESTRICTIONS = [0, 0, 1, 1, 2]
    GOALS = [0, 0, 1, 1, 2]
    BOOLEAN = 0.3

    def __init__(self, chance, plain):
        self.random, self.plain = chance, plain

    def likely(self, chance):
        return self.random.random() < chance

    def game(self):
        while True:
            try:
                return Game(self.text().encode())
            except reader.Refused as refused:
                if "BottleneckFirst" not in str(refused):
                    raise

    def text(self):
        """Heads, variables, aggregates and constraints, scope by scope."""
        kinds, scopes = self.random.choice([(3, 2), (1, 1)]), self.random.choice(self.SCOPES)
        self.kinds = self.random.choices(["exists", "forall"], kinds, k=scopes)
        self.declare()
        parts = []
        for i, kind in enumerate(self.kinds):
            parts.append(self.head(i))
            parts += [f"var {self.spelled[name]}: {name};" for name, owner in self.owner.items() if owner == i]
            parts += [self.aggregate(name, i) for name, owner in self.folds if owner == i]
            parts += [self.constraint(i) for _ in range(self.random.choice(self.RESTRICTIONS))]
        parts += ["goal;"] + [self.constraint(len(self.kinds)) for _ in range(self.random.choice(self.GOALS))]
        return "\n".join(parts + ["solve;"]) + "\n"

    def declare(self):
        self.owner, self.values, self.spelled, self.folds = {}, {}, {}, []
        for i in range(len(self.kinds)):
            for _ in range(self.random.choice(self.VARIABLES)):
                values, spelled = self.domain()
                if prod(map(len, self.values.values())) * len(values) <= MOST_TUPLES:
                    name = ("b" if spelled == "bool" else "x") + str(len(self.owner))
                    self.owner[name], self.values[name], self.spelled[name] = i, values, spelled
        for i, kind in reversed(list(enumerate(self.kinds))):
            if kind == "forall" and not self.plain and self.target(i):
                self.folds += [(f"q{i}_{k}", i) for k in range(self.random.choice([0, 1, 1, 2]))]

    def domain(self):
        if self.likely(self.BOOLEAN):
            return [0, 1], "bool"
        low, width = self.random.randrange(-2, 3), self.random.choice([1, 2, 2, 3, 3, 4])
        if self.likely(0.7):
            return list(range(low, low + width)), f"{low}..{low + width - 1}"
        values = sorted(self.random.sample(range(low, low + 6), width))
        return values, "{" + ",".join(map(str, self.random.sample(values, width) + values[:1])) + "}"

    def target(self, i):
        """Something that a condition or a fold at scope i sees, if there is anything."""
        later = [j for j, kind in enumerate(self.kinds) if kind == "forall" and j > i]
        names = [name for name, owner in self.owner.items() if name[0] == "x" and (not later or owner < later[0])]
        names = [name for name in names if self.owner[name] > i and self.likely(0.5)] or names
        folds = [name for name, owner in self.folds if later and owner == later[0]]
        if folds and self.likely(0.7) or not names:
            return self.random.choice(folds or [None])
        return names[-1] if self.likely(0.4) else self.random.choice(names)

    def head(self, i):
        target = None if self.plain or self.kinds[i] == "forall" or self.likely(0.25) else self.target(i)
        sense = self.random.choice(["minimize", "maximize"])
        return f"exists {sense} {target};" if target else f"{self.kinds[i]};"

    def aggregate(self, name, i):
        fold = self.random.choice(["sum", "least", "greatest"])
        over_none = "" if fold == "sum" else f" else {self.random.randrange(-3, 6)}"
        return f"aggregate {name} = {fold}({self.target(i)}){over_none};"

    def constraint(self, i):
        """One that sometimes holds and sometimes doesn't, where a few tries find such a one."""
        for _ in range(6):
            name = self.random.choice(list(SIGNATURES))
            args = self.arguments(name, [x for x, owner in self.owner.items() if owner <= i])
            met = {holds_of(name, [self.sampled(arg) for arg in args]) for _ in range(SAMPLES)}
            if len(met) == 2:
                break
        return f"constraint {name}({','.join(map(argument_text, args))});"

    def arguments(self, name, names):
        size = self.random.choice([1, 2, 2, 3, 3] if "mum" in name or name == "table_int" else [0, 1, 2, 2, 3, 3])
        args = [self.argument(kind, size, names) for kind in SIGNATURES[name]]
        if name == "table_int":
            args[1] = [self.number() for _ in range(size * self.random.randrange(6))]
        if name.startswith("int_lin"):
            args[2] = self.number()
        return args

    def argument(self, kind, size, names):
        if kind == "S":
            low = self.random.randrange(-2, 4)
            listed = {self.number() for _ in range(self.random.randrange(4))}
            return range(low, low + self.random.randrange(5)) if self.likely(0.5) else listed
        if kind.isupper():
            size = size if kind in "IN" else self.random.randrange(4)
            return [self.argument(kind.lower(), 0, names) for _ in range(size)]
        of_kind = [name for name in names if name[0] == {"i": "x", "b": "b"}.get(kind)]
        if of_kind and self.likely(0.8):
            return self.random.choice(of_kind)
        return self.likely(0.5) if kind in "bm" else self.number()

    def number(self):
        return self.random.choice([-(10**9), 10**9]) if self.likely(0.02) else self.random.randrange(-2, 5)

    def sampled(self, arg):
        if isinstance(arg, list):
            return [self.sampled(item) for item in arg]
        return self.random.choice(self.values[arg]) if isinstance(arg, str) else arg


def argument_text(arg):
    if isinstance(arg, list):
        return "[" + ",".join(map(argument_text, arg)) + "]"
    if isinstance(arg, range):
        return f"{arg.start}..{arg.stop - 1}"
    if isinstance(arg, set):
        return "{" + ",".join(map(str, sorted(arg))) + "}"
    return str(arg).lower() if isinstance(arg, bool) else str(arg)


class Weaver:
    """Makes certificates by steps, horizons and cases at random.

    `steps` is how often a step or a horizon is tried. `wild` is how often a case is left out or open for no reason, and
    a fifth of it how often something is wrong; where it is 0, there are no bounds, and the outcome is proved.
    """

    def __init__(self, chance, game, steps=0.5, wild=0.1):
        self.random, self.game, self.rules = chance, game, Rules(game)
        self.steps, self.wild = steps, wild
        self.settled = {}  # scopes whose verdict no further case can change

    def likely(self, chance):
        return self.random.random() < chance

    def certificate(self):
        lines = self.node(0, tuple(frozenset(domain) for domain in self.game.domains), None)
        return Certificate(2, *self.stated(lines), lines)

    def stated(self, lines):
        """What the lines prove, as a word and a number; mostly something else where they prove nothing."""
        try:
            proof = Proof(self.game, lines)
        except NotProved:
            word, *number = self.game.outcome().split()
            true = ("true", int(number[0]) if number else None)
            return self.random.choice([true, true, ("true", self.random.randrange(-2, 5)), ("false", None)])
        if proof.verdict[0] == "exact" and not self.likely(self.wild / 4):
            return "true", proof.own
        if proof.verdict[0] == "lost" and not self.likely(self.wild / 4):
            return "false", None
        return self.random.choice([("open", max(1, proof.turns))] * 4 + [("true", 0), ("false", None)])

    def node(self, i, box, horizon):
        self.settled[i] = False
        lines, most = [], self.game.goal if horizon is None else horizon - 1
        if i < self.game.goal and i <= most and self.likely(self.steps):
            k = self.random.randint(i, most)
            steps = self.emptied(box, self.rules.owned(i, k))
            lines += [Line("h", (k + 1,)), *steps, Line(".")] if steps else []
            horizon = k if steps else horizon
        if i == horizon:
            return lines + [Line("t")]
        return lines + ([Line("g")] if i == self.game.goal else self.cases(i, box, horizon))

    def emptied(self, box, usable):
        steps = []
        while all(box):
            step = self.removal(box, usable)
            if not step:
                return []
            steps.append(step[0])
            box = step[1]
        return steps

    def removal(self, box, usable):
        """A legal removal with the box after it, if one is found."""
        for x in self.random.sample(range(len(box)), len(box)):
            values = sorted(box[x])
            inner = sorted(self.random.choices(values, k=2))
            for low, high in (values[0] - 1, values[-1]), (values[0], values[0]), (values[-1], values[-1] + 2), inner:
                for c in self.random.sample(usable, len(usable)):
                    line = Line("p", (x + 1, low, high, c + 1))
                    after = self.rules.pruned(box, line.numbers, usable)
                    if after is not None:
                        return line, after
        return None

    def doubtful(self, box):
        """A removal by a constraint that needn't be in force, or a bound over any variable."""
        if self.likely(0.5):
            return self.removal(box, range(len(self.game.constraints)))
        x = self.random.randrange(len(box)) if box else None
        if x is None or not box[x]:
            return None
        low, high = sorted(self.random.choices(sorted(box[x]), k=2))
        kept = frozenset(v for v in box[x] if not low <= v <= high)
        return Line("b", (x + 1, low, high)), replaced(box, x, kept)

    def bound(self, i, box):
        asked = self.rules.lists[i + 1]
        if not self.wild or not asked or not isinstance(asked[0][1], Var):
            return None
        x = asked[0][1].var
        values = sorted(box[x], reverse=asked[0][0] == "minimize")
        worst = sorted(values[: self.random.randint(1, len(values))])
        line = Line("b", (x + 1, worst[0], worst[-1]))
        after = self.rules.bounded(i, box, line.numbers)
        return after and (line, after[0])

    def cases(self, i, box, horizon):
        lines = []
        while all(box) and self.likely(self.steps):
            step = self.bound(i, box) if self.likely(0.3) else self.removal(box, self.rules.in_force(i))
            if self.likely(self.wild / 5):
                step = self.doubtful(box)
            if step:
                lines.append(step[0])
                box = step[1]
        if not all(box):
            return lines + [Line("e")]
        free = [x for x in self.game.own[i] if len(box[x]) > 1]
        if free:
            return lines + self.branch(i, box, horizon, self.random.choice(free))
        values = tuple(min(box[x]) for x, owner in enumerate(self.game.owners) if owner <= i)
        if not all(holds(self.game.constraints[c], values) for c in self.rules.owned(i, i)):
            return lines + [Line("x")]
        below = self.node(i + 1, box, horizon)
        won, mine = self.game.wins(i + 1, values), self.game.kinds[i] == "exists"
        self.settled[i] = won == mine and not (mine and self.rules.lists[i + 1])
        return lines + [Line("n")] + below

    def branch(self, i, box, horizon, x):
        lines, left = [Line("v", (x + 1,))], sorted(box[x])
        while left:
            if self.likely(self.wild / 5):  # a case is missing
                left = left[1:]
                continue
            leave_out = self.settled[i] and self.likely(0.9) or self.likely(self.wild)
            some = self.random.randint(1, len(left)) if self.likely(0.5) else 1
            some = len(left) if leave_out and self.likely(0.5) else 1 if some == len(box[x]) and not leave_out else some
            lines += [Line("r", (left[some - 1],))] if some > 1 else []
            kept = replaced(box, x, frozenset(left[:some]))
            lines += [Line(self.random.choice("sso"))] if leave_out else self.cases(i, kept, horizon)
            left = left[some:]
        return lines + [Line(".")]


SOME_LINES = "s,o,e,x,n,g,t,.,v 1,r 1,p 1 0 1 1,b 1 0 0,h 1".split(",")


def damaged(chance, data):
    """The text with one or two changes."""
    lines = data.decode().splitlines(keepends=True)
    for _ in range(chance.choice([1, 1, 2])):
        k = chance.randrange(len(lines)) if lines else 0
        line, what = (lines[k] if lines else ""), chance.randrange(10)
        words = line.split()
        if what == 0:
            lines[k : k + 1] = []
        elif what == 1:
            lines[k:k] = [line]
        elif what == 2:
            lines[k : k + 2] = reversed(lines[k : k + 2])
        elif what in (3, 4, 5):
            numbers = [at for at, word in enumerate(words) if word.lstrip("-").isdigit()]
            if numbers:
                at = chance.choice(numbers)
                words[at] = str(int(words[at]) + chance.choice([-2, -1, 1, 2, 10]))
                lines[k : k + 1] = [" ".join(words) + "\n"]
        elif what == 6:
            lines[k : k + chance.randrange(2)] = [chance.choice(SOME_LINES) + "\n"]
        elif what == 7:
            lines[1:2] = [chance.choice(["true\n", "false\n", "true 0\n", "open 1\n"])]
        elif what == 8:
            lines[0:1] = [chance.choice(["qcert 1\n", "qcert 2\n", "qcert 3\n"])]
        elif line:
            at = chance.randrange(len(line))
            lines[k : k + 1] = [line[:at] + chance.choice(["", "0", "-", " ", "\n", "w", "1"]) + line[at + 1 :]]
    return "".join(lines).encode()


class Player:
    """Plays one game, and gathers what was met and what differs."""

    def __init__(self, options, number, folder):
        self.options, self.folder = options, folder
        self.random = random.Random(f"{options.seed} {number}")
        self.game = Maker(self.random, options.plain).game()
        self.outcome = self.game.outcome()
        self.met, self.different = Counter(), []

    def differs(self, what, certificate, written, wanted):
        parts = f"-- certificate {certificate!r}", f"-- written {written}", f"-- wanted  {wanted}"
        self.different.append("\n".join([what, self.game.text.decode().rstrip(), *parts, ""]))

    def run(self, command, *files, more=()):
        paths = []
        for name, data in zip(("problem", "certificate"), files):
            paths.append(os.path.join(self.folder, f"{name}{os.getpid()}"))
            with open(paths[-1], "wb") as file:
                file.write(data)
        words = ["--turns", str(self.options.turns)] if self.options.turns and command == "solve" else []
        status, written = self.options.program.run(command, *paths, *words, *more)
        return written, status

    def play(self):
        kind = self.outcome.split()[0] + (" with an optimum" if " " in self.outcome else "")
        self.met[f"games: {kind}"] += 1
        certificates = [] if self.options.alone else self.solved()
        certificates += [self.whole(steps) for steps in (0.5, 0.0)]
        certificates += [self.woven(self.game, steps) for steps in (0.7, 0.5, 0.1)]
        certificates += [damaged(self.random, self.random.choice(certificates)) for _ in range(6)]
        certificates.append(self.woven(Maker(self.random, self.options.plain).game(), 0.5))
        for certificate in certificates:
            self.check(certificate)
        if self.options.worst:
            self.play_at_worst()

    def play_at_worst(self):
        """`worst` with a number, mostly that of a scope with a wish, or with all."""
        wishes = [i for i, condition in enumerate(self.game.conditions) if condition]
        place = self.random.choice([*wishes, *wishes, self.random.randrange(self.game.goal + 1), "all"])
        worst = frozenset(wishes if place == "all" else [place])
        if worst - frozenset(wishes):
            self.answers("worst", place, (), (b"no condition\n", 12))
            return
        outcome = self.game.outcome(worst)
        self.met[f"worst: {'the same' if outcome == self.outcome else 'another'} outcome"] += 1
        certificate = self.answers("worst", place, (), None)
        opposed = self.answers("worst", place, ("--text",), None)
        written = self.run("check", opposed, certificate)
        if written != (f"yes {outcome}\n".encode(), 0):
            self.differs(f"worst {place}", certificate, written, outcome)
        self.answers("worst", place, ("--gap",), (f"best {self.outcome}\nworst {outcome}\n".encode(), 0))

    def answers(self, command, place, more, wanted):
        """What the program answers at this place, which has to be what is wanted, where something is."""
        name = place if place == "all" else str(place + 1)
        written = self.run(command, self.game.text, more=(name, *more))
        if wanted and written != wanted:
            self.differs(" ".join([command, name, *more]), None, written, wanted)
        return written[0]

    def woven(self, game, steps):
        return Weaver(self.random, game, steps, 0.1).certificate().text()

    def whole(self, steps):
        certificate = Weaver(self.random, self.game, steps, 0).certificate()
        if judged(self.game, certificate.text())[0] != f"yes {self.outcome}\n".encode():
            self.differs("the oracle doesn't believe a whole tree", certificate.text(), "no", self.outcome)
        return certificate.text()

    def solved(self):
        """The certificate that the program writes, alone in a list; none where it doesn't know the budget."""
        written, status = self.run("solve", self.game.text)
        if self.options.turns and status == 3:
            self.met["solve: a budget isn't known"] += 1
            return []
        self.look_at(written, status)
        return [written]

    def look_at(self, written, status):
        try:
            certificate = Text(written).certificate()
            proof = Promises(self.game, certificate.lines)
        except (BadCertificate, NotProved) as fault:
            self.differs("solve: no proof", written, status, repr(fault))
            return
        head, budget = certificate.head(), self.options.turns or USUAL_TURNS
        self.met[f"solve: {certificate.word}"] += 1
        is_open = certificate.word == "open"
        if is_open and (certificate.number != budget or budget >= self.game.full_turns()):
            self.differs("solve: open without need", written, head, f"a budget of {budget}")
        if not is_open and head != self.outcome:
            self.differs("solve: another outcome", written, head, self.outcome)
        broken = proof.disorder | (proof.idle if self.options.diligent else set())
        broken |= proof.slack if self.options.incumbents else set()
        if broken:
            self.differs("solve: a promise is broken", written, sorted(broken), "none")
        if proof.turns > budget or status != (2 if is_open else 0) or certificate.version != 2:
            self.differs("solve: turns, status or version", written, (proof.turns, status), budget)
        if judged(self.game, written)[1] != 0 or self.options.stepless and judged(self.game, written, True)[1] != 0:
            self.differs("solve: its certificate isn't believed", written, judged(self.game, written), "yes")

    def check(self, certificate):
        wanted = judged(self.game, certificate)
        line = wanted[0].decode().strip()
        if line.startswith(("yes true", "yes false")) and line != f"yes {self.outcome}":
            self.differs("the oracle's checker believes what its player doesn't find", certificate, line, self.outcome)
        if self.options.stepless:
            wanted = judged(self.game, certificate, True)
        self.met["check: " + wanted[0].decode().split(" at ")[0].rstrip("-0123456789 \n")] += 1
        if not self.options.alone:
            written = self.run("check", self.game.text, certificate)
            if written != wanted:
                self.differs("check", certificate, written, wanted)


def played(task):
    sys.setrecursionlimit(50_000)
    player = Player(*task)
    player.play()
    return player.met, player.different


# ---- The self test.


def laws_fail(chance):
    """Whether a constraint and a box break a law of the table: what is refuted has no solution and stays refuted in
    smaller boxes; where all is settled, refuted is the same as not holding."""
    game = Maker(chance, True).game()
    box = tuple(frozenset(chance.sample(list(d), chance.randint(1, len(d)))) for d in game.domains)
    smaller = tuple(frozenset(chance.sample(sorted(d), chance.randint(1, len(d)))) for d in box)
    for constraint in game.constraints:
        tuples = list(product(*box))
        if refutes(constraint, box) and (any(holds(constraint, t) for t in tuples) or not refutes(constraint, smaller)):
            return constraint
        for t in tuples:
            if refutes(constraint, tuple(frozenset([v]) for v in t)) == holds(constraint, t):
                return constraint
    return None


def self_test():
    failed = 0
    for text, wanted in SOLVED:
        failed += told(text, Game(text.encode()).outcome(), wanted)
    for text, worst, wanted in WORST:
        failed += told((text, worst), Game(text.encode()).outcome(frozenset(worst)), wanted)
    for text, wanted in TURNS:
        failed += told(text, Game(text.encode()).full_turns(), wanted)
    for text, certificate, wanted in CHECKED:
        line = judged(Game(text.encode()), certificate.encode())[0].decode().strip()
        failed += told((text, certificate), line, wanted)
    for text, certificate, wanted in PROMISED:
        proof = Promises(Game(text.encode()), Text(certificate.encode()).certificate().lines)
        failed += told((text, certificate), sorted(proof.disorder | proof.idle | proof.slack), wanted)
    for text, wanted in REFUSED:
        failed += told(text[:60], reader.answer(text.encode()).decode().strip(), wanted)
    chance = random.Random(1)
    broken = [constraint for constraint in (laws_fail(chance) for _ in range(2_000)) if constraint]
    failed += sum(told(constraint, "breaks a law", "none") for constraint in broken)
    rows = len(SOLVED) + len(WORST) + len(TURNS) + len(CHECKED) + len(PROMISED) + len(REFUSED)
    print(f"{rows} rows and the laws of the table: {failed} failed")
    return failed


def told(what, found, wanted):
    if found != wanted:
        print(f"{what}\n  found  {found}\n  wanted {wanted}")
    return found != wanted


def options_of(words):
    parser = argparse.ArgumentParser(prog="bench/run player", description="Compares the program with a player by brute force.")
    parser.add_argument("--games", type=int, default=500)
    parser.add_argument("--seed", type=int, default=1)
    add_option(parser)
    parser.add_argument("--turns", type=int)
    parser.add_argument("--jobs", type=int, default=1)
    for flag in ("--plain", "--stepless", "--diligent", "--incumbents", "--worst", "--alone", "--self-test"):
        parser.add_argument(flag, action="store_true")
    return parser.parse_args(words)


def main(words):
    options = options_of(words)
    sys.setrecursionlimit(50_000)
    if options.self_test:
        return self_test() > 0
    options.program = None if options.alone else Program(options.program)
    met, differ = Counter(), 0
    with tempfile.TemporaryDirectory() as folder:
        tasks = ((options, number, folder) for number in range(options.games))
        pool = multiprocessing.Pool(options.jobs) if options.jobs > 1 else None
        for some_met, different in pool.imap(played, tasks) if pool else map(played, tasks):
            met += some_met
            differ += len(different)
            print(*different, sep="\n", end="\n" * bool(different), flush=True)
    for what, times in sorted(met.items()):
        print(f"{times:7} {what}")
    print(f"{options.games} games, {differ} differences")
    return differ > 0
