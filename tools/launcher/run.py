"""Runs a program for its launcher. Its words, its output and its status are its own: its output isn't changed by a byte. What
is added is written to standard error, and most of it on a terminal alone."""
import contextlib
import fcntl
import os
import select
import signal
import stat
import subprocess
import time

from .terminal import LiveLine, duration

# After so many seconds of a run it is told how long it takes, and then each second.
PATIENCE = 2
CHUNK = 1 << 16
# The beginning of an answer that is kept, in which what it states is told, or the place of a refusal.
HEAD = 256
# The program's status where its output could not be written.
WRITE_FAULT = 8
# What ends a launcher, and its program with it.
ENDING = {signal.SIGINT, signal.SIGTERM, signal.SIGHUP}


class Ran:
    """How a program ended, and where that is known, how its output begins and how long it is."""

    def __init__(self, status, head=b"", size=0):
        # A program that was ended by a signal has a status as a shell tells it.
        self.status = status if status >= 0 else 128 - status
        self.head, self.size = head, size

    def lines(self):
        return self.head.decode("ascii", "replace").split("\n")


@contextlib.contextmanager
def started(path, words, **more):
    """The program, which whatever ends this ends too. A signal that comes while it is started waits until it can be ended."""
    mask = signal.pthread_sigmask(signal.SIG_BLOCK, ENDING)
    try:
        child = subprocess.Popen([path, *words], close_fds=False, preexec_fn=lambda: signal.pthread_sigmask(signal.SIG_SETMASK, mask), **more)
        with child:
            try:
                signal.pthread_sigmask(signal.SIG_SETMASK, mask)
                yield child
            except BaseException:
                child.terminate()
                raise
    finally:
        signal.pthread_sigmask(signal.SIG_SETMASK, mask)


def quietly(path, words):
    """Runs it with this program's own input and output."""
    with started(path, words) as child:
        return Ran(child.wait())



def write_whole(data):
    view = memoryview(data)
    while view:
        try:
            view = view[os.write(1, view) :]
        except BlockingIOError:
            select.select([], [1], [])


class Watch:
    """Waits for something to read or for an end, and tells meanwhile how long it has taken."""

    def __init__(self, program, end):
        self.line, self.end, self.began = LiveLine(program), end, time.monotonic()

    def wait(self):
        while not select.select([self.end], [], [], 1)[0]:
            gone = time.monotonic() - self.began
            if gone >= PATIENCE:
                self.line.show(f"{gone:.0f} s" if gone < 600 else duration(gone))
        self.line.remove()


def into_file(program, path, words):
    """Runs it with its output in a file, of which the answer is read afterwards."""
    end, held = os.pipe()
    os.set_inheritable(held, True)
    if fcntl.fcntl(1, fcntl.F_GETFL) & os.O_APPEND:
        start = os.fstat(1).st_size
    else:
        start = os.lseek(1, 0, os.SEEK_CUR)
    watch = Watch(program, end)
    with started(path, words) as child:
        os.close(held)
        try:
            watch.wait()  # the end is readable once the program has let go of the other end
            status = child.wait()
        except BaseException:
            watch.line.remove()
            raise
        finally:
            os.close(end)
    size = os.lseek(1, 0, os.SEEK_CUR) - start
    try:
        with open("/proc/self/fd/1", "rb") as file:
            file.seek(start)
            return Ran(status, file.read(min(HEAD, max(size, 0))), size)
    except OSError:
        return Ran(status)


def handed_on(program, path, words):
    """Runs it and hands its output on as it comes. It is told of a fault as it would be by the output itself: where a piece
    can't be written, it finds that nobody reads any more, or its status is changed to the one for that."""
    head, size, lost = b"", 0, False
    with started(path, words, stdout=subprocess.PIPE, bufsize=0) as child:
        output = child.stdout.fileno()
        watch = Watch(program, output)
        try:
            while True:
                watch.wait()
                data = os.read(output, CHUNK)
                if not data:
                    break
                watch.line.may_show = False  # it would stand in the midst of the output, where both go to one terminal
                head, size = head + data[: HEAD - len(head)], size + len(data)
                try:
                    write_whole(data)
                except OSError:
                    lost = True
                    break
            child.stdout.close()
            status = child.wait()
        except BaseException:
            watch.line.remove()
            raise
    return Ran(WRITE_FAULT if lost and status >= 0 else status, head, size)


def watched(program, path, words):
    """Runs it where standard error is a terminal."""
    try:
        is_file = stat.S_ISREG(os.fstat(1).st_mode)
    except OSError:  # there is no output at all, which is for the program to find out
        return quietly(path, words)
    return (into_file if is_file else handed_on)(program, path, words)
