"""The programs that have a launcher: where they are built, their commands, and the page that tells people of them."""
import os
from typing import NamedTuple

from .crates import TOP, folder_of

MEBI = 1 << 20


class Command(NamedTuple):
    """One command as people are told of it."""

    name: str
    words: str
    does: str
    example: str
    # For each word that names a file, in order, its place among the words and the most bytes that are read of it.
    files: tuple = ()


class Program(NamedTuple):
    name: str
    crate: str
    what: str
    commands: tuple
    notes: str

    @property
    def built(self):
        return os.path.join(folder_of(self.crate), "out", self.crate)

    @property
    def unproved(self):
        """Where the build is kept of which nothing is proved. It isn't mistaken for the other: it has a folder of its own."""
        return os.path.join(folder_of(self.crate), "out", "unproved", self.name)

    @property
    def launcher(self):
        """How it is called from the folder in which we are."""
        return shown(os.path.join(TOP, self.name))

    def files_of(self, words):
        """The places of the words that name files, with the most bytes that are read of each."""
        found = [it.files for it in self.commands if words and it.name == words[0]]
        return [it for it in (found[0] if found else ()) if it[0] < len(words)]

    def page(self):
        """What `--help` writes."""
        lines = [f"{self.name} {self.what}", "", f"usage: ./{self.name} [--now] COMMAND WORDS", ""]
        for it in self.commands:
            lines += [f"  {it.words}", *(f"      {line}" for line in it.does.split("\n")), f"      ./{self.name} {it.example}", ""]
        return "\n".join(lines) + self.notes


def shown(path):
    """The shorter way to a file of this repository, such that a shell finds it."""
    near = os.path.relpath(path)
    if len(near) > len(path):
        return path
    return near if os.sep in near else os.path.join(".", near)


# A problem or a formula, a certificate, and both as `play` reads them with its moves.
TEXT, CERTIFICATE, PLAYED, MOVES = 4 * MEBI, 1024 * MEBI, 32 * MEBI, 65_536

# The words that every launcher takes.
EVERYWHERE = """\
  --now COMMAND WORDS
      answers within minutes on a fresh machine, by a build of which nothing is proved
  --version
      the commit, the kit, and whether the program is built
  --help
      this page
"""

QECODE = Program(
    name="qecode",
    crate="qc_program",
    what="solves quantified constraint games, and writes answers that can be checked.",
    commands=(
        Command("solve", "solve PROBLEM [--turns N]",
                "solves the game of a file and writes the answer with its certificate: true, true V with the best value,\n"
                "false, or open N where the turns (1,000,000 if none are given) don't suffice",
                "solve examples/defence.qc > defence.cert", ((1, TEXT),)),
        Command("check", "check PROBLEM CERTIFICATE",
                "says whether a certificate proves what it states: yes and the answer, or no",
                "check examples/defence.qc defence.cert", ((1, TEXT), (2, CERTIFICATE))),
        Command("play", "play PROBLEM CERTIFICATE MOVES",
                "plays by a certificate against the moves of a file, in order, and writes the play",
                "play examples/defence.qc defence.cert moves", ((1, TEXT), (2, PLAYED), (3, MOVES))),
        Command("worst", "worst PROBLEM SCOPE [--turns N | --text | --gap]",
                "solves the game where later owners break their ties against a scope's owner, or against all of them;\n"
                "with --gap it tells the hopeful and the sure number, with --text it writes the game that it solves",
                "worst examples/tolls.qc 1 --gap", ((1, TEXT),)),
        Command("print", "print PROBLEM",
                "writes a problem in its canonical text, or tells what is wrong with it and where",
                "print examples/price.qc", ((1, TEXT),)),
        Command("qbf", "qbf FILE [--turns N | --text]",
                "solves a quantified Boolean formula in the QDIMACS format; with --text it writes the formula's game",
                "qbf examples/formulas/copycat.qdimacs", ((1, TEXT),)),
        Command("generate", "generate N [--text]",
                "makes a problem from a number and solves it; with --text it writes the problem",
                "generate 7 --text"),
    ),
    notes="""\
  --now COMMAND WORDS
      answers within minutes on a fresh machine, by a build of which nothing is proved; without it the first call
      proves and builds the program, which takes up to an hour
      ./qecode --now solve examples/defence.qc
  --version
      the commit, the kit, and whether the program is built
  --help
      this page

A file may also be a pipe, as in ./qecode print <(cat game.qc). What the statuses mean stands in docs/command.md.
Playing move by move, with names: tools/play PROBLEM CERTIFICATE.

Where to read: README.md (the first problem), docs/guide.md (from the question to the answer), docs/idioms.md (how what
people say is written), docs/faq.md (questions), docs/problem-text.md and docs/predicates.md (the input), docs/game.md
(what a game means), docs/certificates.md (what the lines of an answer mean), docs/command.md (words and statuses).
""",
)

QTELL = Program(
    name="qtell",
    crate="qtell",
    what="tells what people rely on: how an answer begins, what is allowed at a position, and what stands behind a gap.",
    commands=(
        Command("first", "first PROBLEM CERTIFICATE",
                "tells, of a certificate that proves what it states, the first move by names",
                "first examples/defence.qc defence.cert", ((1, TEXT), (2, PLAYED))),
        Command("allowed", "allowed PROBLEM POSITION [--most N]",
                "lists the allowed tuples of the next scope after the values of the first scopes, a file of numbers",
                "allowed examples/defence.qc position --most 20", ((1, TEXT), (2, MOVES))),
        Command("gap", "gap PROBLEM SCOPE --hopeful|--sure [--turns N]",
                "writes one of the two certificates behind ./qecode worst PROBLEM SCOPE --gap",
                "gap examples/tolls.qc 1 --sure > sure.cert", ((1, TEXT),)),
    ),
    notes=EVERYWHERE + """
Where to read: docs/tell.md (words, lines and statuses), docs/command.md (the other programs).
""",
)

QDENSE = Program(
    name="qdense",
    crate="dense_program",
    what="solves games by lists of lemmas and by dense certificates, which say much in few lines.",
    commands=(
        Command("solve", "solve PROBLEM [--turns N]",
                "solves the game of a file and writes a list of lemmas that proves who wins or, where something is optimised, a\n"
                "dense certificate; where neither is found, the certificate that ./qecode solve writes",
                "solve examples/counters.qc > counters.cert", ((1, TEXT),)),
        Command("check", "check PROBLEM CERTIFICATE",
                "says whether a certificate, a list, a dense one or one of ./qecode, proves what it states: yes and the answer,\n"
                "or no",
                "check crates/dense_program/data/sum.qc crates/dense_program/data/sum.cert", ((1, TEXT), (2, CERTIFICATE))),
        Command("qbf", "qbf FILE [--turns N]",
                "solves a quantified Boolean formula in the QDIMACS format",
                "qbf examples/formulas/copycat.qdimacs", ((1, TEXT),)),
    ),
    notes=EVERYWHERE + """
What the lines of a list mean stands in docs/lemmas.md, those of a dense certificate in docs/dense.md, what the statuses mean in
docs/command.md.
""",
)

QPART = Program(
    name="qpart",
    crate="qpart",
    what="solves a piece of a game, for certificates that many processors make together.",
    commands=(
        Command("solve", "solve PROBLEM [--keep X L H].. [--reached V] [--turns N]",
                "solves the game in which the variable named X keeps its values from L to H only, and writes the piece's lines\n"
                "below what it is a piece of; V is a value of the first scope's wish that another piece has reached",
                "solve examples/tolls.qc --keep t1 0 3 --reached 20", ((1, TEXT),)),
    ),
    notes=EVERYWHERE + """
A piece is no certificate. tools/spread makes one of pieces, and has ./qecode check it: docs/many.md. Words, lines and
statuses stand in docs/command.md.
""",
)

PROGRAMS = {it.name: it for it in (QECODE, QTELL, QDENSE, QPART)}
