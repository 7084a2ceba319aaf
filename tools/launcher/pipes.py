"""Files in place of pipes. The program reads a file at places, which a pipe has none of."""
import os
import shutil
import stat
import tempfile

CHUNK = 1 << 20


class NotCopied(Exception):
    """A pipe that could not be copied, and why."""


def is_pipe(path):
    try:
        return stat.S_ISFIFO(os.stat(path).st_mode)
    except (OSError, ValueError):
        return False


def copy(path, place, most):
    """Copies a pipe to its end, or to one byte past the most that are read of it: then it is too long anyhow."""
    left = most + 1
    with open(path, "rb", buffering=0) as pipe, open(place, "wb") as file:
        while left > 0:
            data = pipe.read(min(left, CHUNK))
            if not data:
                break
            file.write(data)
            left -= len(data)


class Copies:
    """The words with a file in place of each pipe; the files are there until the end."""

    def __init__(self, words, files):
        self.words, self.pipes, self.folder = list(words), [it for it in files if is_pipe(words[it[0]])], None

    def __enter__(self):
        if self.pipes:
            self.folder = tempfile.mkdtemp(prefix="qecode-")
            try:
                for place, most in self.pipes:
                    file = os.path.join(self.folder, str(place))
                    try:
                        copy(self.words[place], file, most)
                    except OSError as error:
                        raise NotCopied(f"{self.words[place]}: this pipe could not be copied to a file: {error}") from None
                    self.words[place] = file
            except BaseException:
                self.__exit__()
                raise
        return self.words

    def __exit__(self, *_):
        if self.folder:
            shutil.rmtree(self.folder, ignore_errors=True)
