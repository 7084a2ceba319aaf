"""Which piece is run when.

The whole is run for a few turns first; where that doesn't settle it, it is split until there are some pieces for each worker, by
looks of one turn, and these are run in order. Where nothing waits and a worker is idle, a look tells where the piece that has run
longest branches, and its parts are run beside it; whichever ends first counts. Where the best value improves, pieces begin anew that
it takes values from, unless they have run for long. A piece whose program dies is run again, and then split.
"""
import heapq
import os
from dataclasses import dataclass

from spreading.asking import text_of
from spreading.certificates import NotWhole
from spreading.engines import CANCELLED, DIED, EngineFault
from spreading.store import name_of
from spreading.tree import DROPPED, LEFT_OPEN, NEW, RUNNING, SPLIT, WAITING, Tree

LOOK = 1
DONE, OPEN, MEMORY = 0, 2, 9
# What a broken disk, or a text that can't be read there, comes to; it is tried again as if the program had died.
FAULTS = 7, 8
TRIES = 3
# Below this many parts within parts no more pieces are sought before the first are run.
DEEPEST_LOOKS = 12


@dataclass
class Policy:
    turns: int = 10_000_000  # that a piece has before it is split
    first: int = 5_000  # that the whole has
    pieces: int = 4  # for each worker, before the first are run
    patience: object = 0.3  # seconds after which parts of a piece are run beside it; None for never
    regret: object = 1.0  # seconds up to which a piece begins anew; None for never
    fan: int = 4  # parts that a piece is split into


class Unfit(Exception):
    """The program answered something that it has no reason for: its status, and the file with what it wrote."""

    def __init__(self, piece, status):
        super().__init__(f"the program answered a piece with status {status}")
        self.piece, self.status = piece, status


class Waiting:
    """The pieces that wait. The first in order comes first; as long as there are too few, the one with the fewest above it."""

    def __init__(self):
        self.heap, self.count, self.by_depth = [], 0, True

    def row(self, piece):
        self.count += 1
        return len(piece.path) if self.by_depth else 0, piece.path, self.count, piece

    def add(self, piece):
        piece.state = WAITING
        heapq.heappush(self.heap, self.row(piece))

    def in_order(self):
        self.by_depth = False
        self.heap = [self.row(row[-1]) for row in self.heap if row[-1].state == WAITING]
        heapq.heapify(self.heap)

    def take(self):
        """The first piece that still waits, or None."""
        while self.heap:
            piece = heapq.heappop(self.heap)[-1]
            if piece.state == WAITING:
                return piece
        return None

    def __len__(self):
        return len(self.heap)


class Job:
    """A run of the program. A look is at a piece that runs beside it."""

    def __init__(self, piece, text, turns, begun, is_look=False):
        self.piece, self.text, self.turns, self.begun, self.is_look = piece, text, turns, begun, is_look
        self.is_cancelled = self.has_look = False


class Run:
    """`tell(run)` is called now and then; a run that is told to stop by its answer True leaves the rest open."""

    def __init__(self, store, engine, policy=None, tell=lambda run: False, tree=None):
        self.store, self.engine, self.policy, self.tell = store, engine, policy or Policy(), tell
        self.tree = tree or self.replayed()
        self.waiting, self.running, self.count = Waiting(), {}, 0
        self.deaths, self.met = {}, dict.fromkeys("runs looks cancelled restarted died found".split(), 0)
        for piece in self.tree.leaves():
            if not piece.is_settled() and piece.state != DROPPED:
                self.waiting.add(piece)
        self.expanding = len(self.waiting) < self.wanted()

    def replayed(self):
        """The tree as the journal has it."""
        tree = Tree(self.store.text, self.policy.fan, self.engine.has_part)
        self.store.replay(tree)
        return tree

    def wanted(self):
        return self.policy.pieces * self.engine.workers

    # ---- The loop.

    def go(self):
        """Runs until the whole is settled, nothing is left to be tried, or it is told to stop."""
        stopped = False
        while not self.tree.root.is_settled() and not stopped:
            self.fill()
            if self.tree.root.is_settled() or not self.running:
                break
            is_idle = len(self.running) < self.engine.workers
            answer = self.engine.next(0.05 if is_idle and self.policy.patience is not None else 0.5)
            if answer:
                self.take(answer)
            stopped = self.tell(self)
        for key in list(self.running):
            self.cancel(key)
        return self.tree.root.is_settled()

    def fill(self):
        """Gives idle workers something to do."""
        while len(self.running) < self.engine.workers and not self.tree.root.is_settled():
            piece = self.waiting.take()
            if piece is None:
                if not self.look():
                    return
            elif self.tree.bind(piece, self.tree.best):
                self.store.note(piece, None)
                self.drop()
            else:
                self.start(piece, self.turns_for(piece))

    def turns_for(self, piece):
        if self.deaths.get(piece, 0) >= TRIES:
            return LOOK
        if piece is self.tree.root:
            return min(self.policy.first, self.policy.turns)
        if self.expanding and len(piece.path) < DEEPEST_LOOKS:
            return LOOK
        return self.policy.turns

    def start(self, piece, turns):
        piece.state = RUNNING
        self.submit(Job(piece, text_of(self.tree, piece), turns, self.engine.now()))

    def submit(self, job):
        found = self.store.result(job.text, job.turns)
        if found and self.is_used(job, found):
            self.met["found"] += 1
            return
        self.count += 1
        self.met["looks" if job.turns == LOOK else "runs"] += 1
        self.running[self.count] = job
        self.engine.submit(self.count, job.text, job.turns, self.store.half(str(self.count)))

    def look(self):
        """Looks where the piece that has run longest branches. False where there is none to look at."""
        if self.policy.patience is None or self.expanding:
            return False
        for job in self.running.values():  # in the order in which they were begun
            may = not job.is_look and not job.has_look and not job.is_cancelled and job.piece.state == RUNNING
            if may and job.piece.children is None and self.engine.now() - job.begun > self.policy.patience:
                job.has_look = True
                self.submit(Job(job.piece, job.text, LOOK, self.engine.now(), is_look=True))
                return True
        return False

    # ---- Answers.

    def take(self, answer):
        job = self.running.pop(answer.key)
        try:
            if answer.status in (DONE, OPEN) and not job.is_cancelled:
                if self.is_used(job, self.store.keep(answer.path, name_of(job.text), job.turns)):
                    return
                answer = answer._replace(status=DIED)
        except NotWhole:
            answer = answer._replace(status=DIED)
        if os.path.exists(answer.path):
            os.remove(answer.path)
        if job.is_cancelled or answer.status == CANCELLED or job.is_look:
            return
        if answer.status == DIED or answer.status in FAULTS:
            self.died(job, 1)
        elif answer.status == MEMORY:
            self.died(job, TRIES)
        else:
            raise Unfit(job.piece, answer.status)

    def died(self, job, times):
        """A piece is run again, and after some deaths, or where memory ran out, it is split."""
        self.met["died"] += 1
        piece = job.piece
        if piece.children is not None:
            piece.state = SPLIT
            return
        if piece.state != RUNNING:
            return
        count = self.deaths[piece] = self.deaths.get(piece, 0) + times
        if count >= 2 * TRIES:
            raise EngineFault(f"the program ends without an answer at one turn of the piece {piece.name()}, each time")
        self.waiting.add(piece)

    def is_used(self, job, path):
        """Takes a result. One that can't be read as a certificate is set aside."""
        try:
            self.use(job, path)
        except NotWhole:
            self.store.set_aside(path)
            return False
        return True

    def use(self, job, path):
        """Takes a result that is whole."""
        piece, best = job.piece, self.tree.best
        if piece.state != RUNNING:
            return
        if self.tree.take(piece, path):
            self.store.note(piece, path)
        elif job.is_look:
            return
        elif piece.children is not None:
            piece.state = SPLIT
        else:
            self.not_split(job, path)
        if piece.children is not None and not piece.is_settled():
            self.has_parts(job)
        self.drop()
        if self.tree.best != best:
            self.restart()

    def not_split(self, job, path):
        """An open certificate told no place to split at: more turns may settle the piece."""
        if job.turns < self.policy.turns and self.deaths.get(job.piece, 0) < TRIES:
            self.submit(Job(job.piece, job.text, self.policy.turns, self.engine.now()))
        else:
            job.piece.file, job.piece.state = path, LEFT_OPEN

    def has_parts(self, job):
        """A piece was split, or its own run has come to nothing beside its parts."""
        piece = job.piece
        if not job.is_look:
            piece.state = SPLIT
        for child in piece.children:
            if child.state == NEW:
                self.waiting.add(child)
        above = piece.parent if job.is_look else None
        while above is not None:  # one run beside its parts is enough
            if above.state == RUNNING:
                above.state = SPLIT
            above = above.parent
        if self.expanding and len(self.waiting) + len(self.running) >= self.wanted():
            self.expanding = False
            self.waiting.in_order()

    def drop(self):
        """Ends the runs of pieces that nothing more is asked of."""
        for key, job in self.running.items():
            if job.piece.state != RUNNING and not job.is_cancelled:
                self.cancel(key)

    def restart(self):
        """Pieces begin anew where the best value takes more from them, unless they have run for long."""
        if self.policy.regret is None:
            return
        for key, job in self.running.items():
            piece = job.piece
            fresh = self.engine.now() - job.begun <= self.policy.regret
            if fresh and not job.is_look and not job.is_cancelled and piece.state == RUNNING and self.tree.would_shrink(piece):
                self.cancel(key)
                self.met["restarted"] += 1
                self.waiting.add(piece)

    def cancel(self, key):
        self.running[key].is_cancelled = True
        self.met["cancelled"] += 1
        self.engine.cancel(key)
