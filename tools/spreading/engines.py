"""Engines run the program on texts. An engine has

    workers                           how many texts it works at, at a time
    has_part                          whether texts may be for `qpart`
    submit(key, text, turns, path)    what the program writes is to stand in the file `path`
    next(seconds)                     an Answer, or None where none comes within so many seconds (None: however long it takes)
    cancel(key)                       its answer comes too, and soon
    now()                             seconds on its clock
    close()                           ends whatever runs

Each key that was submitted gets one answer. Which pieces are run again is the business of `run`.
"""
import importlib
import os
import queue
import shlex
import subprocess
import threading
import time
import uuid
import zlib
from concurrent.futures import ThreadPoolExecutor
from typing import NamedTuple

from spreading.asking import asked

DIED, CANCELLED = "died", "cancelled"
# Statuses by which a shell says that it found no program.
NO_PROGRAM = 126, 127
# What ssh itself ends with.
NO_HOST = 255
# Failures in a row after which a host gets no more pieces.
PATIENCE = 3

# Reads the text from its input, and ends the program when the input ends: so no program outlives who wants its answer, here or on
# another machine. Words: the program, the bytes of the text, and those behind the text's file.
SCRIPT = r"""
program=$1 size=$2
shift 2
file=$(mktemp) || exit 8
trap 'rm -f "$file"' EXIT
head -c "$size" > "$file" || exit 8
exec 3<&0
"$program" solve "$file" "$@" 3<&- < /dev/null &
piece=$!
{ cat <&3; kill -9 "$piece"; } > /dev/null 2>&1 &
watch=$!
wait "$piece"
status=$?
kill "$watch" 2> /dev/null
exit "$status"
"""
NAME = "spread"


class Answer(NamedTuple):
    """The program's status, or DIED or CANCELLED; `path` has what it wrote."""

    key: int
    status: object
    path: str


class EngineFault(Exception):
    """The engine can't run anything, and why."""


class Place(NamedTuple):
    """Where a piece can be run: on a host by ssh, or here where `host` is None."""

    host: object
    words: tuple
    program: str
    part: object = None  # `qpart`, where it's used

    def asked(self, text, turns):
        """The program for a text, and the words behind the text's file."""
        is_part, words = asked(text, turns)
        return self.part if is_part else self.program, words


class Processes:
    """Processes here, and on other hosts by ssh: a thread for each, which waits for it."""

    def __init__(self, places, folder, say=print):
        self.env = os.environ | {"TMPDIR": folder}  # what a killed shell leaves goes with the folder
        self.say, self.answers, self.free = say, queue.SimpleQueue(), queue.SimpleQueue()
        self.workers, self.has_part = len(places), all(place.part for place in places)
        for place in places:
            self.free.put(place)
        self.pool = ThreadPoolExecutor(max(len(places), 1))
        self.lock, self.live, self.cancelled, self.failures = threading.Lock(), {}, set(), {}
        self.is_over = False

    now = staticmethod(time.monotonic)

    def submit(self, key, text, turns, path):
        self.pool.submit(self.run, key, text, turns, path)

    def run(self, key, text, turns, path):
        try:
            status = CANCELLED if self.is_over or key in self.cancelled else self.placed(key, text, turns, path)
        except Exception as fault:  # told, and not lost in a thread
            status = fault
        self.cancelled.discard(key)
        self.answers.put(Answer(key, status, path))

    def placed(self, key, text, turns, path):
        place = self.free.get()
        status = self.solved(place, key, text, turns, path)
        failed = place.host is not None and status in (NO_HOST, *NO_PROGRAM)
        if self.keeps(place, failed):
            self.free.put(place)
        if status in NO_PROGRAM and not failed:
            raise EngineFault(f"{place.asked(text, turns)[0]} can't be run")
        return status if isinstance(status, str) or 0 <= status < NO_PROGRAM[0] else DIED

    def solved(self, place, key, text, turns, path):
        program, more = place.asked(text, turns)
        words = [*place.words, *remote(SCRIPT, place, program, len(text), *more)]
        with open(path, "wb") as file:
            child = subprocess.Popen(words, stdin=subprocess.PIPE, stdout=file, stderr=subprocess.DEVNULL, env=self.env,
                                     start_new_session=True)
        with self.lock:
            self.live[key] = child, place
            if self.is_over or key in self.cancelled:  # it was let go before there was anything to let go
                let_go(child, place)
        give(child, text)
        status = child.wait()
        with self.lock:
            del self.live[key]
            hang_up(child)
        return CANCELLED if self.is_over or key in self.cancelled else status

    def keeps(self, place, failed):
        """Whether a place gets more pieces. A host that fails again and again doesn't."""
        if place.host is None:
            return True
        with self.lock:
            count = self.failures[place.host] = self.failures.get(place.host, 0) + 1 if failed else 0
            if count < PATIENCE:
                return True
            self.workers -= 1
            left = self.workers
        self.say(f"{place.host} gets no more pieces: it failed {count} times; {left} workers are left")
        if not left:
            raise EngineFault("no host is left")
        return False

    def next(self, seconds=None):
        try:
            answer = self.answers.get(timeout=seconds)
        except queue.Empty:
            return None
        if isinstance(answer.status, Exception):
            raise answer.status
        return answer

    def cancel(self, key):
        with self.lock:
            self.cancelled.add(key)
            if key in self.live:
                let_go(*self.live[key])

    def pids(self):
        """Processes that stand for the pieces that run, by which tests end them."""
        with self.lock:
            return [child.pid for child, _ in self.live.values()]

    def close(self):
        with self.lock:
            self.is_over = True
            for child, place in self.live.values():
                let_go(child, place)
        self.pool.shutdown(wait=True, cancel_futures=True)


def give(child, text):
    try:
        child.stdin.write(text)
        child.stdin.flush()
    except (BrokenPipeError, ValueError):  # it has ended already, or was let go
        pass


def hang_up(child):
    """The end of its input ends a program."""
    try:
        child.stdin.close()
    except BrokenPipeError:
        pass


def let_go(child, place):
    if place.host is not None:
        child.terminate()  # the host's end of the connection then tells its program
    hang_up(child)


def remote(script, place, *words):
    """The words that run a script at a place. ssh hands over one text, which a shell there reads."""
    words = ["sh", "-c", script, NAME, *map(str, words)]
    return words if place.host is None else [shlex.join(words)]


def here(program, workers, part=None):
    return [Place(None, (), program, part)] * workers


# A host tells how many processors it has, and that programs are there: without words each writes its usage, with status 3.
GREETING = r"""
for program do
"$program" < /dev/null > /dev/null 2>&1
test $? -eq 3 || exit 127
done
nproc
"""


def there(hosts, program, ssh, part=None):
    """The places that hosts offer. Each is a name, or a name, a colon and how many pieces it is to run at a time."""
    places = []
    for name in hosts:
        host, _, many = name.partition(":")
        place = Place(host, (*shlex.split(ssh), host), program, part)
        programs = [program] + [part] * bool(part)
        words = [*place.words, *remote(GREETING, place, *programs)]
        done = subprocess.run(words, stdin=subprocess.DEVNULL, capture_output=True, text=True, check=False)
        if done.returncode:
            why = f"{' or '.join(programs)} can't be run there" if done.returncode in NO_PROGRAM else done.stderr.strip() or "it can't be reached"
            raise EngineFault(f"{host}: {why}")
        if many and not many.isdigit():
            raise EngineFault(f"{name}: after the colon comes how many pieces the host is to run at a time")
        places += [place] * (int(many) if many else int(done.stdout))
    return places


# ---- dask.distributed


def dask_piece(key, script, program, text, more):
    """Runs on a worker, with more words behind the text's file. The program's input stays open as long as the worker lives and wants the answer."""
    import subprocess
    import tempfile
    import zlib

    from distributed import get_worker

    worker = get_worker()
    live = worker.__dict__.setdefault("spread_live", {})
    gone = worker.__dict__.setdefault("spread_gone", set())
    text = zlib.decompress(text)
    with tempfile.TemporaryFile() as file:
        words = ["sh", "-c", script, "spread", program, str(len(text)), *more]
        child = subprocess.Popen(words, stdin=subprocess.PIPE, stdout=file, stderr=subprocess.DEVNULL, start_new_session=True)
        live[key] = child
        try:
            child.stdin.write(text)
            child.stdin.flush()
            if key in gone:
                child.stdin.close()
        except (BrokenPipeError, ValueError):
            pass
        status = child.wait()
        del live[key]
        file.seek(0)
        return status, zlib.compress(file.read(), 1)


async def dask_cancel(key, dask_worker):
    """Lets a piece go; a worker's loop can run it without waiting, as only what is `async` can."""
    dask_worker.__dict__.setdefault("spread_gone", set()).add(key)
    child = dask_worker.__dict__.setdefault("spread_live", {}).get(key)
    if child:
        child.stdin.close()


class Dask:
    """A scheduler of dask.distributed, and workers on any machines that have the program at the same path. Without an address, a
    cluster of so many workers here. Texts and certificates go through the scheduler, packed."""

    now = staticmethod(time.monotonic)

    def __init__(self, program, workers, folder, address=None, part=None):
        try:
            distributed = importlib.import_module("distributed")
            import cloudpickle
        except ImportError as fault:
            raise EngineFault(f"dask.distributed isn't installed for this Python (Debian: python3-distributed): {fault}") from None
        cloudpickle.register_pickle_by_value(importlib.import_module(__name__))  # workers needn't have these files
        self.cluster = None
        try:
            if not address:
                self.cluster = distributed.LocalCluster(n_workers=workers, threads_per_worker=1, processes=True, memory_limit=0,
                                                        dashboard_address=None, local_directory=folder)
            self.client = distributed.Client(address or self.cluster)
        except (OSError, ValueError) as fault:
            raise EngineFault(f"no dask scheduler: {fault}") from None
        self.place, self.has_part = Place(None, (), program, part), part is not None
        self.answers, self.futures, self.cancelled = queue.SimpleQueue(), {}, set()
        self.run_name = uuid.uuid4().hex  # keys of several runs on one scheduler mustn't meet
        self.seen_at, self.seen = 0.0, 0

    @property
    def workers(self):
        """The threads of all workers, which may come and go."""
        if not self.seen or self.now() - self.seen_at > 1:
            self.seen = sum(worker["nthreads"] for worker in self.client.scheduler_info()["workers"].values()) or 1
            self.seen_at = self.now()
        return self.seen

    def key(self, key):
        return f"{NAME}-{self.run_name}-{key}"

    def submit(self, key, text, turns, path):
        name = self.key(key)
        program, more = self.place.asked(text, turns)
        future = self.client.submit(dask_piece, name, SCRIPT, program, zlib.compress(text, 1), more, pure=False, key=name)
        self.futures[key] = future
        future.add_done_callback(lambda done: self.finished(key, done, path))

    def finished(self, key, future, path):
        status = DIED
        if key in self.cancelled:
            status = CANCELLED
        else:
            try:
                code, data = future.result()
                with open(path, "wb") as file:
                    file.write(zlib.decompress(data))
                status = code if 0 <= code < NO_PROGRAM[0] else DIED
                if code in NO_PROGRAM:
                    status = EngineFault(f"{self.place.program} can't be run by a dask worker")
            except Exception:  # the worker died, or gave it up
                status = CANCELLED if key in self.cancelled else DIED
        self.futures.pop(key, None)
        self.answers.put(Answer(key, status, path))

    next = Processes.next

    def cancel(self, key):
        self.cancelled.add(key)
        future = self.futures.get(key)
        if future is not None:
            self.client.run(dask_cancel, self.key(key), wait=False)  # a task that runs isn't stopped by `cancel`
            future.cancel(force=True)

    def worker_pids(self):
        """Those of workers that were started here."""
        return [nanny.pid for nanny in self.cluster.workers.values() if nanny.pid]

    def close(self):
        for key in list(self.futures):
            self.cancel(key)
        self.client.close()
        if self.cluster:
            self.cluster.close()
