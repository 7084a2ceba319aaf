"""How a tool ends."""
import os
import sys

from program import NoProgram

USAGE, OPEN, UNREAD, TOO_LONG, NO_PROGRAM, FAULT, INTERRUPTED = 2, 2, 7, 6, 21, 70, 130


class Failed(Exception):
    """What a tool says before it ends, and its status."""

    def __init__(self, text, status=1):
        super().__init__(text)
        self.status = status


def read_bytes(name):
    try:
        with open(name, "rb") as file:
            return file.read()
    except OSError as error:
        raise Failed(f"{name}: {error.strerror}", UNREAD) from error


def ended(name, main):
    """The status of the tool `name`, whose `main` gets its words; what it refuses is told on standard error."""
    sys.setrecursionlimit(50_000)
    try:
        status = main(sys.argv[1:])
        sys.stdout.flush()
        return status
    except Failed as failed:
        print(f"{name}: {failed}", file=sys.stderr)
        return failed.status
    except NoProgram as why:
        print(f"{name}: {why}", file=sys.stderr)
        return NO_PROGRAM
    except BrokenPipeError:
        # Whoever read had enough; without this the interpreter would complain when it flushes once more.
        os.dup2(os.open(os.devnull, os.O_WRONLY), sys.stdout.fileno())
        return 1
    except KeyboardInterrupt:
        return INTERRUPTED
