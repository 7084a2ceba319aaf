"""Compares what `qecode print` answers to texts made at random with what the reader of tools/oracle answers.

    bench/run compare [SEED [COUNT]] [--program PATH]

Nothing here is part of the gate.
"""
import argparse
import os
import random
import tempfile
from collections import Counter

from oracle.predicates import SIGNATURES
from oracle.reader import answer
from program import Program, add_option

NAMES = [f"x{k}" for k in range(8)] + ["int_le", "b1", "g"]
PIECES = [b";", b" ", b"..", b".", b"-", b"5", b"x", b",", b"[", b"]", b"{", b"}", b"exists", b"else", b"#", b"1e5", b"%", b"(", b"goal;", b"true"]


class Maker:
    """Makes texts that are mostly problems, with a fault now and then."""

    def __init__(self, seed):
        self.random = random.Random(seed)

    def rarely(self, chance=0.02):
        return self.random.random() < chance

    def number(self):
        if self.rarely():
            return self.random.choice(["1000000001", "-1000000001", "007", "-0", "-00", str(2**63 - 1)])
        return str(self.random.choice([0, 1, 2, 3, -1, -5, 7, 10**9, -(10**9)]))

    def members(self):
        if self.random.random() < 0.5:
            low = self.random.randrange(-5, 5)
            return f"{low}..{low + self.random.randrange(-1, 6)}" if not self.rarely(0.05) else "0..1048576"
        return "{" + ",".join(str(self.random.randrange(-4, 5)) for _ in range(self.random.randrange(5))) + "}"

    def names(self, kind, scope):
        if self.rarely(0.01):
            return NAMES + ["q0"]
        return [name for name, its, owner in self.declared if its == kind and (owner <= scope or self.rarely(0.05))]

    def one(self, kind, scope):
        names = self.names(kind, scope)
        if kind in "ib" and names and self.random.random() < 0.5:
            return self.random.choice(names)
        return self.random.choice(["true", "false"]) if kind in "bm" else self.number()

    def argument(self, kind, scope, size):
        kind = self.random.choice("ibIBNMS") if self.rarely(0.01) else kind
        if kind == "S":
            return self.members()
        if kind.islower():
            return self.one(kind, scope)
        size = self.random.randrange(4) if self.rarely() else size
        return "[" + ",".join(self.one(kind.lower(), scope) for _ in range(size)) + "]"

    def constraint(self, scope):
        name = self.random.choice(list(SIGNATURES))
        size = self.random.randrange(1, 4)
        args = [self.argument(kind, scope, size) for kind in SIGNATURES[name]]
        if name.startswith("int_lin") and not self.rarely():
            args[2] = self.number()
        if self.rarely(0.01):
            args.pop()
        name = "int_pow" if self.rarely(0.01) else name
        return f"constraint {name}({','.join(args)});"

    def target(self):
        names = [name for name, kind, _ in self.declared if kind in "iq" or self.rarely(0.05)]
        return self.random.choice(names or ["x0"])

    def head(self, kind):
        if kind == "exists" and self.declared and self.random.random() < 0.3:
            return f"exists {self.random.choice(['minimize', 'maximize'])} {self.target()};"
        return kind + ";"

    def item(self, name, kind):
        if kind == "q":
            fold = self.random.choice(["sum", "least", "greatest"])
            over_none = "" if fold == "sum" else f" else {self.number()}"
            return f"aggregate {name} = {fold}({self.target()}){over_none};"
        return f"var {'bool' if kind == 'b' else self.members()}: {name};"

    def declare(self, kinds):
        self.declared = []
        for scope, kind in enumerate(kinds):
            for _ in range(self.random.randrange(3)):
                name = self.random.choice(NAMES)
                if self.rarely() or name not in [known for known, _, _ in self.declared]:
                    self.declared.append((name, self.random.choice("iib"), scope))
            if kind == "forall" and self.random.random() < 0.5:
                self.declared += [(f"q{scope}", "q", scope)] + [(f"r{scope}", "q", scope)] * self.rarely(0.3)

    def problem(self):
        kinds = [self.random.choice(["exists", "forall"]) for _ in range(self.random.randrange(5))]
        self.declare(kinds)
        parts = []
        for scope, kind in enumerate(kinds):
            items = [self.item(name, its) for name, its, owner in self.declared if owner == scope]
            items += [self.constraint(scope) for _ in range(self.random.randrange(3))]
            self.random.shuffle(items)
            parts += [self.head(kind)] + items
        parts += ["goal;"] + [self.constraint(len(kinds)) for _ in range(self.random.randrange(3))] + ["solve;"]
        return self.random.choice([" ", "\n", "% c\n", "\t"]).join(parts).encode()

    def wishes(self):
        """Scopes that ask for several aggregates, some for a least or a greatest first."""
        last, parts = self.random.randrange(2), []
        for block in range(last + 1):
            names = [f"a{block}{k}" for k in range(3)]
            targets = [f"t{block}"] if block == last else [f"t{block}", f"a{block + 1}0", f"a{block + 1}1"]
            for _ in range(self.random.randrange(1, 4)):
                parts.append(f"exists {self.random.choice(['minimize', 'maximize'])} {self.random.choice(names)};")
            parts.append(f"forall;var 0..1: t{block};")
            for name in names:
                fold = self.random.choice(["sum(%s)", "sum(%s)", "least(%s) else 0", "greatest(%s) else 0"])
                parts.append(f"aggregate {name} = {fold % self.random.choice(targets)};")
        return "".join(parts + ["goal;solve;"]).encode()

    def damaged(self, data):
        data = bytearray(data)
        for _ in range(self.random.randrange(1, 3)):
            at, what = self.random.randrange(len(data) + 1), self.random.random()
            if what < 0.4:
                del data[at : at + self.random.randrange(1, 4)]
            elif what < 0.8:
                data[at:at] = self.random.choice(PIECES)
            else:
                data[at : at + 1] = bytes([self.random.randrange(256)])
        return bytes(data)

    def text(self):
        data = self.wishes() if self.rarely(0.1) else self.problem()
        return self.damaged(data) if self.random.random() < 0.3 else data


def main(words):
    parser = argparse.ArgumentParser(prog="bench/run compare", description="Compares what `qecode print` answers.")
    parser.add_argument("seed", nargs="?", type=int, default=1)
    parser.add_argument("count", nargs="?", type=int, default=5_000)
    add_option(parser)
    options = parser.parse_args(words)
    program, maker, met, differ = Program(options.program), Maker(options.seed), Counter(), 0
    with tempfile.TemporaryDirectory() as folder:
        path = os.path.join(folder, "text")
        for _ in range(options.count):
            data = maker.text()
            with open(path, "wb") as file:
                file.write(data)
            _, written = program.run("print", path)
            wanted = answer(data)
            met[wanted.decode().split(" at ")[0] if wanted.startswith(b"bad") else "printed"] += 1
            if written != wanted:
                differ += 1
                print(f"differs: {data}\n  written {written}\n  wanted  {wanted}")
    for what, times in met.most_common():
        print(f"{times:6} {what}")
    print(f"{differ} of {options.count} differ")
    return differ > 0
