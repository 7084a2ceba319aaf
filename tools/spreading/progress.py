"""What a run tells on standard error while it is at work."""
import sys
import time

EVERY = 10.0  # seconds between two lines; on a terminal one line is written again and again
EVERY_ON_TERMINAL = 0.5


class Progress:
    def __init__(self, quiet=False, seconds=None):
        self.quiet, self.seconds = quiet, seconds
        self.begun = self.told = time.monotonic()
        self.terminal = sys.stderr.isatty()
        self.is_open = False  # whether a line stands that is to be written again
        self.best = None

    def say(self, text):
        self.write(("\r\x1b[K" if self.is_open else "") + f"spread: {text}\n")
        self.is_open = False

    @staticmethod
    def write(text):
        try:
            sys.stderr.write(text)
            sys.stderr.flush()
        except OSError:  # nobody reads it any more, which is no reason to stop
            pass

    def __call__(self, run):
        """Tells how far a run is. Whether its time is up."""
        now = time.monotonic()
        if not self.quiet and (run.tree.best != self.best or now - self.told > (EVERY_ON_TERMINAL if self.terminal else EVERY)):
            self.told, self.best = now, run.tree.best
            self.line(run, now)
        return self.seconds is not None and now - self.begun > self.seconds

    def line(self, run, now):
        best = "" if run.tree.best is None else f"best {run.tree.best}; "
        counts = f"{run.tree.settled} pieces settled, {len(run.running)} at work, {len(run.waiting)} waiting"
        text = f"{now - self.begun:.0f} s: {best}{counts}"
        if self.terminal:
            self.write(f"\r\x1b[K{text}")
            self.is_open = True
        else:
            self.say(text)
