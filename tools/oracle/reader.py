"""A reader of problem texts apart from the program's, by the rules of docs/problem-text.md and docs/predicates.md.

`answer(data)` is what `qecode print` has to write for these bytes. It is written plainly, with no thought of speed.
"""
import re
from dataclasses import dataclass

from oracle.predicates import SIGNATURES

RESERVED = set(
    "exists forall goal solve var bool aggregate sum least greatest else minimize maximize constraint true false".split()
)
LETTERS = set(b"abcdefghijklmnopqrstuvwxyzABCDEFGHIJKLMNOPQRSTUVWXYZ_")
DIGITS = set(b"0123456789")
SIGNS = set(b";:,()[]{}=")
KINDS = (
    "BadByte BadNumber Syntax DuplicateName UnknownName UnknownPredicate WrongArguments OutOfRange EmptyDomain TooWide"
    " TooMany NotVisible"
).split()
NUMBERS = {kind: number for number, kind in enumerate(KINDS, 1)} | {"BottleneckFirst": 14}


class Refused(Exception):
    """A text that is no problem, with the kind and the place."""

    def __init__(self, kind, at):
        super().__init__(f"bad problem: {NUMBERS[kind]} {kind} at {at}\n")


@dataclass
class Token:
    at: int
    sort: str  # word, number, sign or end
    value: object


@dataclass
class Item:
    """A part of a text, from the place `at` to `end`. `owner` is the number of its scope; the goal has the number of scopes."""

    what: str  # exists, forall, goal, var, aggregate or constraint
    at: int
    end: int = 0
    owner: int = 0
    name: Token = None
    condition: tuple = None
    domain: tuple = None
    fold: tuple = None
    target: Token = None
    args: tuple = ()


def cut(data):
    """The tokens, and an end. Of bad bytes and bad numbers the first bad byte is told, else the first bad number."""
    tokens, bad_number, at = [], None, 0
    while at < len(data):
        byte, after = data[at], data[at + 1] if at + 1 < len(data) else None
        if byte in b" \t\r\n":
            at += 1
        elif byte == ord("%"):
            while at < len(data) and data[at] != 10:
                at += 1
        elif byte in SIGNS:
            tokens.append(Token(at, "sign", chr(byte)))
            at += 1
        elif byte == ord(".") and after == ord("."):
            tokens.append(Token(at, "sign", ".."))
            at += 2
        elif byte in LETTERS or byte in DIGITS or (byte == ord("-") and after in DIGITS):
            end = at + 1
            while end < len(data) and data[end] in LETTERS | DIGITS:
                end += 1
            run = data[at:end].decode()
            if byte in LETTERS:
                tokens.append(Token(at, "word", run))
            elif re.fullmatch("-?[0-9]+", run) and -(2**63) <= int(run) < 2**63:
                tokens.append(Token(at, "number", int(run)))
            elif bad_number is None:
                bad_number = at
            at = end
        else:
            raise Refused("BadByte", at)
    if bad_number is not None:
        raise Refused("BadNumber", bad_number)
    return tokens + [Token(len(data), "end", None)]


class Parser:
    """Recursive descent: the first token that can't stand where it does is the place of Syntax."""

    def __init__(self, tokens):
        self.tokens, self.k = tokens, 0

    @property
    def token(self):
        return self.tokens[self.k]

    def stop(self):
        raise Refused("Syntax", self.token.at)

    def take(self):
        self.k += 1
        return self.tokens[self.k - 1]

    def sees(self, sort, *values):
        return self.token.sort == sort and self.token.value in values

    def sign(self, value):
        return self.take() if self.sees("sign", value) else self.stop()

    def word(self, *values):
        return self.take() if self.sees("word", *values) else self.stop()

    def name(self):
        return self.take() if self.token.sort == "word" and self.token.value not in RESERVED else self.stop()

    def number(self):
        return self.take() if self.token.sort == "number" else self.stop()

    def listed(self, one, close):
        """What `one` reads, with commas between, up to the closing sign."""
        items = []
        if not self.sees("sign", close):
            items.append(one())
            while self.sees("sign", ","):
                self.take()
                items.append(one())
        self.sign(close)
        return items

    def braces(self):
        at = self.sign("{").at
        return ("braces", at, self.listed(self.number, "}"))

    def members(self):
        if self.sees("sign", "{"):
            return self.braces()
        low = self.number()
        self.sign("..")
        return ("range", low.at, [low, self.number()])

    def one(self):
        return self.take() if self.token.sort == "number" or self.sees("word", "true", "false") else self.name()

    def argument(self):
        if self.sees("sign", "["):
            at = self.take().at
            return ("array", at, self.listed(self.one, "]"))
        if self.sees("sign", "{"):
            return ("set", self.token.at, self.braces())
        first = self.one()
        if first.sort == "number" and self.sees("sign", ".."):
            self.take()
            return ("set", first.at, ("range", first.at, [first, self.number()]))
        return ("one", first.at, first)

    def head(self, item):
        if item.what == "exists" and self.sees("word", "minimize", "maximize"):
            item.condition = (self.take().value, self.name())

    def variable(self, item):
        item.domain = ("bool", self.take().at, []) if self.sees("word", "bool") else self.members()
        self.sign(":")
        item.name = self.name()

    def aggregate(self, item):
        item.name = self.name()
        self.sign("=")
        fold = self.word("sum", "least", "greatest").value
        self.sign("(")
        item.target = self.name()
        self.sign(")")
        over_none = None
        if fold != "sum":
            self.word("else")
            over_none = self.number()
        item.fold = (fold, over_none)

    def constraint(self, item):
        item.name = self.name()
        self.sign("(")
        item.args = self.listed(self.argument, ")")

    def problem(self):
        parts = {"exists": self.head, "forall": self.head, "goal": self.head, "var": self.variable}
        parts |= {"aggregate": self.aggregate, "constraint": self.constraint}
        allowed = {
            None: ("exists", "forall", "goal"),
            "exists": ("exists", "forall", "goal", "var", "constraint"),
            "forall": ("exists", "forall", "goal", "var", "aggregate", "constraint"),
            "goal": ("constraint", "solve"),
        }
        items, place, scopes = [], None, 0
        while True:
            first = self.word(*allowed[place])
            if first.value == "solve":
                self.sign(";")
                return items if self.token.sort == "end" else self.stop()
            item = Item(first.value, first.at)
            parts[item.what](item)
            item.end = self.sign(";").at + 1
            if item.what in ("exists", "forall", "goal"):
                place, item.owner = item.what, scopes
                scopes += item.what != "goal"
            else:
                item.owner = owner
            owner = item.owner
            items.append(item)


class Checker:
    """The kinds of refusals that items meet, in their order."""

    def __init__(self, tokens, items):
        self.tokens, self.items, self.meant = tokens, items, {}
        self.kinds = [item.what for item in items if item.what in ("exists", "forall")]

    def check(self):
        self.declare()
        for item in self.items:
            for name in self.uses(item):
                if name.value not in self.meant:
                    raise Refused("UnknownName", name.at)
        for item in self.of("constraint"):
            if item.name.value not in SIGNATURES:
                raise Refused("UnknownPredicate", item.name.at)
        self.arguments()
        for token in self.tokens:
            if token.sort == "number" and abs(token.value) > 10**9:
                raise Refused("OutOfRange", token.at)
        self.domains()
        self.limits()
        self.visible()
        self.bottlenecks()

    def of(self, what):
        return (item for item in self.items if item.what == what)

    def declare(self):
        for item in self.items:
            if item.what in ("var", "aggregate"):
                if item.name.value in self.meant:
                    raise Refused("DuplicateName", item.name.at)
                kind = "q" if item.what == "aggregate" else "b" if item.domain[0] == "bool" else "i"
                self.meant[item.name.value] = (kind, item.owner)

    @staticmethod
    def uses(item):
        targets = [item.condition[1]] if item.condition else [item.target] if item.target else []
        ones = [one for kind, _, value in item.args if kind != "set" for one in (value if kind == "array" else [value])]
        return targets + [one for one in ones if one.sort == "word" and one.value not in ("true", "false")]

    def fits(self, kind, argument):
        shape, _, value = argument
        if kind == "S" or shape == "set":
            return kind == "S" and shape == "set"
        if kind.isupper() != (shape == "array"):
            return False
        return all(self.fits_one(kind, one) for one in (value if shape == "array" else [value]))

    def fits_one(self, kind, one):
        if one.sort == "number":
            return kind in "iIN"
        if one.value in ("true", "false"):
            return kind in "bBM"
        return kind in "iIbB" and self.meant[one.value][0] == kind.lower()

    def arguments(self):
        for item in self.items:
            target = item.condition[1] if item.condition else item.target
            if target and self.meant[target.value][0] == "b":
                raise Refused("WrongArguments", target.at)
            if item.what == "constraint" and not self.call_fits(item.name.value, item.args):
                raise Refused("WrongArguments", item.name.at)

    def call_fits(self, name, args):
        kinds = SIGNATURES[name]
        if len(kinds) != len(args) or not all(map(self.fits, kinds, args)):
            return False
        values = [value for _, _, value in args]
        if name.startswith("int_lin"):
            return len(values[0]) == len(values[1]) and values[2].sort == "number"
        if name in ("array_int_minimum", "array_int_maximum"):
            return len(values[1]) > 0
        return name != "table_int" or (len(values[0]) > 0 and len(values[1]) % len(values[0]) == 0)

    def domains(self):
        for item in self.of("var"):
            shape, at, numbers = item.domain
            if shape == "range" and numbers[0].value > numbers[1].value or shape == "braces" and not numbers:
                raise Refused("EmptyDomain", at)
        total = 0
        for item in self.of("var"):
            values = [number.value for number in item.domain[2]] or [0, 1]
            width = max(values) - min(values) + 1
            total += width
            if width > 1_048_576 or total > 4_194_304:
                raise Refused("TooWide", item.domain[1])

    def limits(self):
        count = dict.fromkeys(("scope", "var", "constraint", "aggregate", "goal"), 0)
        most = {"scope": 64, "var": 500, "aggregate": 255, "constraint": 20_000}
        for item in self.items:
            what = "scope" if item.what in ("exists", "forall") else item.what
            count[what] += 1
            if count[what] > most.get(what, len(self.items)):
                raise Refused("TooMany", item.at)
            if item.domain and item.domain[0] == "braces" and len(item.domain[2]) > 100_000:
                raise Refused("TooMany", item.domain[1])
            for kind, (shape, at, value) in zip(SIGNATURES.get(item.name.value, "") if item.args else "", item.args):
                if shape == "array" and len(value) > (1_000 if kind in "IB" else 100_000):
                    raise Refused("TooMany", at)
                if shape == "set" and value[0] == "braces" and len(value[2]) > 100_000:
                    raise Refused("TooMany", at)

    def sees(self, scope, name):
        kind, owner = self.meant[name]
        later = [i for i, what in enumerate(self.kinds) if what == "forall" and i > scope]
        if not later:
            return kind != "q"
        return owner == later[0] if kind == "q" else owner < later[0]

    def visible(self):
        for item in self.items:
            for name in self.uses(item):
                hidden = self.meant[name.value][1] > item.owner
                if hidden if item.what == "constraint" else not self.sees(item.owner, name.value):
                    raise Refused("NotVisible", name.at)

    def bottlenecks(self):
        """Whether a scope is asked for a least or a greatest and then for another aggregate.

        `asked` is what the scope is asked for, the nearest wish first. The first such in the text is told.
        """
        aggregates = {item.name.value: item for item in self.of("aggregate")}
        asked, early = [], []
        for item in self.items:
            if item.condition:
                asked = [item.condition[1].value] + asked
            elif item.what == "forall":
                named = [name for name in asked if name in aggregates]
                for k, name in enumerate(named):
                    if aggregates[name].fold[0] != "sum" and any(other != name for other in named[k:]):
                        early.append(aggregates[name].at)
                asked = [aggregates[name].target.value for name in dict.fromkeys(named)]
        if early:
            raise Refused("BottleneckFirst", min(early))


def set_text(members):
    shape, _, numbers = members
    values = [number.value for number in numbers]
    if shape == "range" and values[0] <= values[1]:
        return f"{values[0]}..{values[1]}"
    values = [] if shape == "range" else sorted(set(values))
    if values and values[-1] - values[0] + 1 == len(values):
        return f"{values[0]}..{values[-1]}"
    return "{" + ",".join(map(str, values)) + "}"


def argument_text(argument):
    shape, _, value = argument
    if shape == "set":
        return set_text(value)
    return "[" + ",".join(str(one.value) for one in value) + "]" if shape == "array" else str(value.value)


def item_text(item):
    if item.what == "var":
        domain = "bool" if item.domain[0] == "bool" else set_text(item.domain)
        return f"var {domain}: {item.name.value};\n"
    if item.what == "aggregate":
        fold, over_none = item.fold
        rest = f" else {over_none.value}" if over_none else ""
        return f"aggregate {item.name.value} = {fold}({item.target.value}){rest};\n"
    if item.what == "constraint":
        return f"constraint {item.name.value}({','.join(map(argument_text, item.args))});\n"
    return item.what + (f" {item.condition[0]} {item.condition[1].value}" if item.condition else "") + ";\n"


def canonical(items):
    """A scope's head first, then its variables, its aggregates and its constraints, each in order."""
    order = {"exists": 0, "forall": 0, "goal": 0, "var": 1, "aggregate": 2, "constraint": 3}
    return "".join(item_text(item) for item in sorted(items, key=lambda i: (i.owner, order[i.what]))) + "solve;\n"


def read(data):
    """The items of a problem text. Raises Refused where it's none."""
    tokens = cut(data)
    items = Parser(tokens).problem()
    Checker(tokens, items).check()
    return items


def answer(data):
    try:
        return canonical(read(data)).encode()
    except Refused as refused:
        return str(refused).encode()
