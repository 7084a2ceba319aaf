"""What docs/guide.md shows of the tools is what they write, and its pictures are those that `whatif` draws."""
import contextlib
import importlib.machinery
import importlib.util
import io
import os
import re
from unittest import mock

from helping import Case, example
from program import TOP, Program

COMMAND = re.compile(r"^    (tools/(?:whatif|explain) .*)\n\n((?:    .*\n|\n)+)", re.MULTILINE)
PICTURES = {"best_price": "price", "tolls": "t1"}


def main_of(name):
    """The `main` of a tool, whose file has no name of a module."""
    loader = importlib.machinery.SourceFileLoader(name, os.path.join(TOP, "tools", name))
    module = importlib.util.module_from_spec(importlib.util.spec_from_loader(name, loader))
    loader.exec_module(module)
    return module.main


def written(name, *words):
    """What the tool writes where the program is the one that was proved and built here, and qtell isn't built."""
    out, built = io.StringIO(), mock.patch.object(Program, "is_built_here", lambda _: True)
    without = mock.patch.dict(os.environ, {"QTELL": ""})
    with contextlib.redirect_stdout(out), contextlib.redirect_stderr(io.StringIO()), built, without:
        main_of(name)([os.path.join(TOP, it) if it.startswith("examples/") else it for it in words])
    return out.getvalue()


class Guide(Case):
    def test_commands(self):
        with open(os.path.join(TOP, "docs", "guide.md"), encoding="utf-8") as file:
            shown = COMMAND.findall(file.read())
        self.assertEqual(len(shown), 2)
        for command, text in shown:
            name, *words = command.removeprefix("tools/").split()
            lines = [line.removeprefix("    ") for line in text.rstrip("\n").split("\n")]
            self.assertEqual("\n".join(lines) + "\n", written(name, *words), command)

    def test_pictures(self):
        for name, variable in PICTURES.items():
            path = os.path.join(self.folder, f"{name}.svg")
            written("whatif", example(f"{name}.qc"), variable, "--worst", "1", "--tsv", "--svg", path)
            with open(path, encoding="utf-8") as made, open(os.path.join(TOP, "docs", "pictures", f"{name}.svg"), encoding="utf-8") as kept:
                self.assertEqual(made.read(), kept.read(), f"{name}: draw it again by tools/whatif")
