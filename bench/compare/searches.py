"""How a search for lists of lemmas is called, in one way: by words in which PROBLEM stands for the file with the problem and
LIST for the file that the list goes to. Without LIST it's what the search writes to its standard output; one word alone is
called as `SEARCH PROBLEM -o LIST`.
"""
import os
import shlex
import shutil
import subprocess

from program import NoProgram

TOLD = "how the search is called; PROBLEM and LIST stand for its files, without LIST the list is its output"


class Search:
    """A search that can be run."""

    def __init__(self, words):
        words = shlex.split(words)
        if not words or shutil.which(words[0]) is None:
            raise NoProgram(f"{words[0] if words else 'no words'}: no search that can be run")
        self.form = words if len(words) > 1 else [*words, "PROBLEM", "-o", "LIST"]

    def words(self, problem, place):
        """The words of a call for this problem, and the file of the standard output; the list goes to the file at the place."""
        files = {"PROBLEM": problem, "LIST": place}
        return [files.get(word, word) for word in self.form], place + ".told" if "LIST" in self.form else place

    def found(self, problem, place):
        """What the search writes, with no limit of time, or None where that is nothing; and its exit status."""
        if os.path.exists(place):
            os.remove(place)
        words, output = self.words(problem, place)
        with open(output, "wb") as file:
            status = subprocess.run(words, stdout=file, check=False).returncode
        if not os.path.exists(place):
            return None, status
        with open(place, "rb") as file:
            return file.read() or None, status
