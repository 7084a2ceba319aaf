"""An engine with any number of workers on a clock of processor seconds, for tests and measurements.

Each text is really run, once, by itself, and its processor seconds and `overhead` more are how long a worker takes for it. So what is
measured doesn't depend on what else the machine does, nor on how many processors it has.
"""
import hashlib
import heapq
import os
import subprocess

from spreading.asking import asked
from spreading.engines import CANCELLED, Answer


class Clock:
    def __init__(self, program, workers, folder, overhead=0.0, part=None):
        self.program, self.workers, self.folder, self.overhead = program, workers, folder, overhead
        self.part, self.has_part = part, part is not None
        self.time, self.work, self.running, self.ended = 0.0, 0.0, [], []
        os.makedirs(folder, exist_ok=True)

    def now(self):
        return self.time

    def submit(self, key, text, turns, path):
        status, seconds, written = self.ran(text, turns)
        heapq.heappush(self.running, (self.time + seconds + self.overhead, key, status, written, path, self.time))

    def ran(self, text, turns):
        """The status, the processor seconds and the file of a run; those of an earlier one where there was one."""
        name = os.path.join(self.folder, hashlib.sha256(text + b" %d" % turns).hexdigest())
        if not os.path.exists(name + ".seconds"):
            with open(name + ".qc", "wb") as file:
                file.write(text)
            with open(name, "wb") as file:
                is_part, words = asked(text, turns)
                child = subprocess.Popen([self.part if is_part else self.program, "solve", name + ".qc", *words], stdout=file)
                _, status, usage = os.wait4(child.pid, 0)
            child.returncode = os.waitstatus_to_exitcode(status)
            os.remove(name + ".qc")
            with open(name + ".seconds", "w", encoding="ascii") as file:
                file.write(f"{child.returncode} {usage.ru_utime + usage.ru_stime:.6f}")
        with open(name + ".seconds", encoding="ascii") as file:
            status, seconds = file.read().split()
        return int(status), float(seconds), name

    def next(self, seconds=None):
        if self.ended:
            return self.ended.pop()
        if seconds is not None and (not self.running or self.running[0][0] > self.time + seconds):
            self.time += seconds
            return None
        self.time, key, status, written, path, begun = heapq.heappop(self.running)
        self.work += self.time - begun
        if os.path.lexists(path):
            os.remove(path)
        os.link(written, path)
        return Answer(key, status, path)

    def cancel(self, key):
        for entry in self.running:
            if entry[1] == key:
                self.running.remove(entry)
                heapq.heapify(self.running)
                self.work += self.time - entry[5]
                self.ended.append(Answer(key, CANCELLED, entry[4]))
                return

    def close(self):
        self.running.clear()
