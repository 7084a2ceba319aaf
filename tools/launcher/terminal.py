"""What is told on standard error."""
import os
import sys


def is_terminal():
    try:
        return os.isatty(2)
    except OSError:
        return False


def say(program, text):
    print(f"{program}: {text}", file=sys.stderr, flush=True)


def duration(seconds):
    return f"{seconds / 60:.0f} min" if seconds >= 150 else f"{seconds:.0f} s"


class LiveLine:
    """A line that shows how far something has come. It is shown on a terminal alone, written over, and removed at the end."""

    def __init__(self, program):
        self.program, self.is_shown, self.may_show = program, False, is_terminal()

    def show(self, text):
        if self.may_show:
            # A line that doesn't fit would go on in the next one, which isn't removed.
            try:
                width = os.get_terminal_size(2).columns or 80
            except OSError:
                width = 80
            sys.stderr.write("\r\x1b[K" + f"{self.program}: {text}"[: width - 1])
            sys.stderr.flush()
            self.is_shown = True

    def remove(self):
        if self.is_shown:
            sys.stderr.write("\r\x1b[K")
            sys.stderr.flush()
            self.is_shown = False

    def say(self, text):
        """A line that stays."""
        self.remove()
        say(self.program, text)
