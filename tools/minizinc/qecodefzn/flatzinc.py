"""Reads FlatZinc as MiniZinc 2.6 writes it.

`parse(text)` gives a Model. Its expressions are Python values: int, float and bool; Text for strings; Name; a list for an array;
Range, or an ascending tuple, for a set; and Call for constraints and annotations (`[]` is the call of an item of an array).
"""
import re
from dataclasses import dataclass, field


class FlatZincError(Exception):
    """The text isn't FlatZinc, or has what isn't read; the message says where."""


@dataclass(frozen=True)
class Name:
    text: str


@dataclass(frozen=True)
class Text:
    text: str


@dataclass(frozen=True)
class Range:
    low: int
    high: int

    def __iter__(self):
        return iter(range(self.low, self.high + 1))

    def __contains__(self, value):
        return self.low <= value <= self.high

    def __len__(self):
        return max(0, self.high - self.low + 1)


@dataclass
class Call:
    name: str
    args: list
    annotations: list = field(default_factory=list)


@dataclass
class Var:
    name: str
    kind: str  # int or bool
    domain: object  # Range, ascending tuple, or None where it is unbounded or Boolean
    annotations: list
    value: object = None  # another name or a constant, where it has one


@dataclass
class Array:
    name: str
    kind: str
    items: list
    annotations: list


@dataclass
class Model:
    variables: dict = field(default_factory=dict)
    arrays: dict = field(default_factory=dict)  # those that hold variables
    parameters: dict = field(default_factory=dict)
    constraints: list = field(default_factory=list)
    goal: tuple = ("satisfy",)  # or ("minimize", expression), ("maximize", expression)
    goal_annotations: list = field(default_factory=list)


TOKEN = re.compile(
    r"(?P<skip>\s+|%[^\n]*)"
    r"|(?P<float>-?\d+(?:\.\d+(?:[eE][-+]?\d+)?|[eE][-+]?\d+))"
    r"|(?P<int>-?0x[0-9A-Fa-f]+|-?0o[0-7]+|-?\d+)"
    r"|(?P<word>[A-Za-z_][A-Za-z0-9_]*)"
    r'|(?P<string>"(?:[^"\\\n]|\\.)*")'
    r"|(?P<sign>::|\.\.|[;:,()\[\]{}=])"
)
BASES = {"0x": 16, "0o": 8}


def integer(word):
    return int(word, BASES.get(word.lstrip("-")[:2], 10))


def tokens_of(text):
    """Pairs of a kind and a value, the last of them ("end", ""), and the byte at which each begins."""
    at, found, places = 0, [], []
    while at < len(text):
        match = TOKEN.match(text, at)
        if not match:
            raise FlatZincError(f"no token begins at byte {at}: {text[at:at + 30]!r}")
        kind, word = match.lastgroup, match.group()
        if kind != "skip":
            places.append(at)
            value = {"int": integer, "float": float, "string": lambda it: it[1:-1]}.get(kind, str)(word)
            found.append((kind, value))
        at = match.end()
    return found + [("end", "")], places + [at]


class Parser:
    def __init__(self, text):
        self.tokens, self.places = tokens_of(text)
        self.at = 0

    def refuse(self, wanted):
        found = self.tokens[self.at][1]
        raise FlatZincError(f"{wanted} is expected at byte {self.places[self.at]}, where {found!r} stands")

    def take_kind(self, kind):
        if self.tokens[self.at][0] != kind:
            self.refuse(f"a token of kind {kind}")
        self.at += 1
        return self.tokens[self.at - 1][1]

    def take(self, value):
        if not self.met(value):
            self.refuse(repr(value))

    def met(self, value):
        kind, found = self.tokens[self.at]
        if kind in ("sign", "word") and found == value:
            self.at += 1
            return True
        return False

    def listed(self, close):
        items = []
        while not self.met(close):
            items.append(self.expression())
            if not self.met(","):
                self.take(close)
                break
        return items

    def expression(self):
        kind, value = self.tokens[self.at]
        if kind == "end" or kind == "sign" and value not in "[{":
            self.refuse("an expression")
        self.at += 1
        if kind in ("int", "float"):
            if self.met(".."):
                high = self.expression()
                return Range(value, high) if kind == "int" else (value, high)
            return value
        if kind == "string":
            return Text(value)
        if value == "[":
            return self.listed("]")
        if value == "{":
            return tuple(sorted(set(self.listed("}"))))
        if value in ("true", "false"):
            return value == "true"
        if self.met("("):
            return Call(value, self.listed(")"))
        if self.met("["):
            place = self.expression()
            self.take("]")
            return Call("[]", [Name(value), place])
        return Name(value)

    def annotations(self):
        found = []
        while self.met("::"):
            found.append(self.expression())
        return found

    def type_of(self):
        """Whether it is a variable's type, its kind and its domain."""
        is_var = self.met("var")
        if self.met("set"):
            self.take("of")
            _, _, domain = self.type_of()
            return is_var, "set", domain
        for kind in "int", "bool", "float":
            if self.met(kind):
                return is_var, kind, None
        domain = self.expression()
        if isinstance(domain, (Range, tuple)):
            is_float = isinstance(domain, tuple) and any(isinstance(it, float) for it in domain)
            return is_var, "float" if is_float else "int", domain
        return self.refuse("a type")

    def model(self):
        model = Model()
        while self.tokens[self.at][0] != "end":
            self.item(model)
        return model

    def item(self, model):
        if self.met("predicate"):
            while not self.met(";"):
                if self.tokens[self.at][0] == "end":
                    self.refuse("';'")
                self.at += 1
            return
        if self.met("constraint"):
            call = self.expression()
            if not isinstance(call, Call):
                self.refuse("a constraint before this")
            call.annotations = self.annotations()
            model.constraints.append(call)
        elif self.met("solve"):
            model.goal_annotations = self.annotations()
            how = self.take_kind("word")
            model.goal = (how,) if how == "satisfy" else (how, self.expression())
        elif self.met("array"):
            self.array(model)
        else:
            self.declaration(model)
        self.take(";")

    def array(self, model):
        self.take("[")
        if not self.met("int"):
            self.expression()
        self.take("]")
        self.take("of")
        is_var, kind, _ = self.type_of()
        self.take(":")
        name = self.take_kind("word")
        annotations = self.annotations()
        self.take("=")
        items = self.expression()
        if is_var:
            known_kind(kind, name, annotations)
            model.arrays[name] = Array(name, kind, items, annotations)
        else:
            model.parameters[name] = items

    def declaration(self, model):
        is_var, kind, domain = self.type_of()
        self.take(":")
        name = self.take_kind("word")
        annotations = self.annotations()
        value = self.expression() if self.met("=") else None
        if is_var:
            known_kind(kind, name, annotations)
            model.variables[name] = Var(name, kind, domain, annotations, value)
        else:
            model.parameters[name] = value


def known_kind(kind, name, annotations):
    if kind in ("float", "set"):
        raise FlatZincError(f"{name} is a {kind} variable, which there is none of{place_of(annotations)}")


def annotation(annotations, name):
    """The first annotation of that name, or None."""
    for it in annotations:
        if isinstance(it, Call) and it.name == name or isinstance(it, Name) and it.text == name:
            return it
    return None


def steps_in_model(annotations):
    """The steps of a path in the user's file, each cut into its parts; none where MiniZinc doesn't tell.

    A path has the calls that led somewhere, parted by semicolons. It begins in the user's file, and goes on in the library.
    """
    path = annotation(annotations, "mzn_path")
    if not path or not isinstance(path, Call) or not isinstance(path.args[0], Text):
        return []
    steps = [step.split("|") for step in path.args[0].text.split(";")]
    return [step for step in steps if len(step) > 2 and step[0] == steps[0][0]]


def place_of(annotations):
    """Where in the model something comes from, as " (FILE, line L, column C)": the innermost place; nothing where it isn't told."""
    inner = steps_in_model(annotations)
    return f" ({inner[-1][0].rpartition('/')[2]}, line {inner[-1][1]}, column {inner[-1][2]})" if inner else ""


def call_of(annotations):
    """The innermost call of the model that something comes from, as " of NAME(..)"; nothing where it isn't told."""
    names = [step[6].rpartition("@")[2] for step in steps_in_model(annotations) if len(step) > 6 and step[5] == "ca"]
    return f" of {names[-1]}(..)" if names and names[-1].isidentifier() else ""


def parse(text):
    return Parser(text).model()
