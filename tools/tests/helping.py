"""What the tests share."""
import os
import subprocess
import sys
import tempfile
import unittest

from program import TOP, Program


def example(name):
    return os.path.join(TOP, "examples", name)


def tool(name, *words, text=None):
    """The status of a tool on these words, and what it writes to standard output and to standard error."""
    path = os.path.join(TOP, "tools", name)
    done = subprocess.run([sys.executable, path, *words], capture_output=True, input=(text or "").encode(), check=False)
    return done.returncode, done.stdout.decode(), done.stderr.decode()


class Case(unittest.TestCase):
    """A test with a folder of its own, and the program."""

    def setUp(self):
        folder = tempfile.TemporaryDirectory(prefix="qecode-test-")
        self.addCleanup(folder.cleanup)
        self.folder, self.program = folder.name, Program()

    def write(self, name, data):
        path = os.path.join(self.folder, name)
        with open(path, "wb") as file:
            file.write(data if isinstance(data, bytes) else data.encode())
        return path

    def solved(self, text, *words):
        """A problem's file and that of a certificate for it."""
        problem = self.write("problem.qc", text)
        return problem, self.write("problem.cert", self.program.run("solve", problem, *words)[1])

    def said(self, name, *words, text=None):
        """What a tool writes that ends well and complains of nothing."""
        status, out, err = tool(name, *words, text=text)
        self.assertEqual((status, err), (0, ""))
        return out
