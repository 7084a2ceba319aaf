"""Results in a folder, and the journal from which a run goes on.

A result is named by the text that it answers: TEXT.cert where that is settled, TEXT-TURNS.cert where it was left open after so many
turns. It is written under another name and renamed when it is whole, so what has a name can be used by any run, and a run that was
killed leaves nothing to mistrust. The journal has a line for each result that was taken, in order: the piece's path, the best value
that it was bound by, and the result's name. Taken again in that order they make the same tree.
"""
import fcntl
import hashlib
import os

from spreading.certificates import NotWhole, stated_of

BOUND = "bound"
# How the names of files begin that are being written: those of runs, and those that `mktemp` gives.
HALF = "half-", "tmp."


class InUse(Exception):
    """Another run is at work in the folder."""


class OtherProblem(Exception):
    """The folder was made for another problem."""


def name_of(text):
    return hashlib.sha256(text).hexdigest()[:32]


def written_whole(path, data):
    part = f"{path}.part{os.getpid()}"
    with open(part, "wb") as file:
        file.write(data)
    os.replace(part, path)


class Store:
    """A folder for one problem. Only one run may be at work in it."""

    def __init__(self, folder, text=None):
        self.folder = folder
        if text is not None:
            os.makedirs(folder, exist_ok=True)
        self.lock = open(self.path("journal"), "a+b")
        try:
            fcntl.flock(self.lock, fcntl.LOCK_EX | fcntl.LOCK_NB)
        except OSError:
            self.lock.close()
            raise InUse(folder) from None
        try:
            self.keep_problem(text)
        except BaseException:
            self.close()
            raise
        self.clean()

    def clean(self):
        """Removes what runs that were killed have left: nothing of it is whole."""
        for name in os.listdir(self.folder):
            if name.startswith(HALF):
                os.remove(self.path(name))

    def half(self, name):
        """The path of a file that isn't whole as yet."""
        return self.path(HALF[0] + name)

    def keep_problem(self, text):
        path = self.path("problem")
        if not os.path.exists(path):
            written_whole(path, text)
        with open(path, "rb") as file:
            self.text = file.read()
        if text is not None and text != self.text:
            raise OtherProblem(self.folder)

    def path(self, name):
        return os.path.join(self.folder, name)

    def close(self):
        self.lock.close()

    # ---- Results.

    def has_results(self):
        return any(name.endswith(".cert") for name in os.listdir(self.folder))

    def result(self, text, turns):
        """The path of a result for this text that says as much as a run of so many turns; None where there is none."""
        for name in (f"{name_of(text)}.cert", f"{name_of(text)}-{turns}.cert"):
            if os.path.exists(self.path(name)):
                return self.path(name)
        return None

    def keep(self, part, name, turns):
        """Names what a run has written for the text of this name, and says its path. NotWhole where it isn't a certificate."""
        word = stated_of(part).word
        path = self.path(name + (f"-{turns}" if word == "open" else "") + ".cert")
        os.replace(part, path)
        return path

    def set_aside(self, path):
        """A result that isn't to be used any more; it is kept under another name."""
        os.replace(path, path + ".bad")

    # ---- The journal.

    def note(self, piece, path):
        best = "-" if piece.best is None else str(piece.best)
        name = os.path.basename(path) if path else BOUND
        self.lock.write(f"{piece.name()} {best} {name}\n".encode())
        self.lock.flush()

    def replay(self, tree):
        """Takes the results of the journal again. Lines that don't lead on are left out of it from then on."""
        self.lock.seek(0)
        lines, kept = self.lock.read().decode("ascii", "replace").splitlines(keepends=True), []
        for line in lines:
            if line.endswith("\n") and self.replayed(tree, line):
                kept.append(line)
        if kept != lines:
            self.rewrite(kept)

    def replayed(self, tree, line):
        """Takes the result that a line names. Whether that has led on."""
        try:
            path, best, name = line.split()
            piece = tree.at(() if path == "whole" else tuple(map(int, path.split("."))))
            best = None if best == "-" else int(best)
            if piece is None or piece.is_settled():
                return False
            is_gone = piece.children is None and tree.bind(piece, best)
            if is_gone or name == BOUND:
                return is_gone
            return tree.take(piece, self.path(name))
        except (ValueError, FileNotFoundError, NotWhole):
            return False

    def forget_bounds(self):
        """Leaves out of the journal what rests on a best value, which may have come from a result that wasn't right."""
        self.lock.seek(0)
        lines = self.lock.read().decode("ascii", "replace").splitlines(keepends=True)
        self.rewrite(line for line in lines if line.split()[1:2] == ["-"])

    def rewrite(self, lines):
        self.lock.truncate(0)
        self.lock.write("".join(lines).encode())
        self.lock.flush()
