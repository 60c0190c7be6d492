"""Which crate of a build is proved when, and by how many jobs: those first behind which the longest chain of others waits.

A check by more than one job takes a fifth to two thirds more of the processors, most in large crates over many others. So a crate gets further
jobs only if processors would be idle without them: now, since fewer crates wait than processors are free, or at the end, since its chain is a larger
part of what is left than one processor.
How long a crate takes is what `make times` measured last (bench/crate_seconds.csv); it only has to be right beside the others.
"""
import csv
import os
from concurrent.futures import FIRST_COMPLETED, ThreadPoolExecutor, wait

# What a check by one job needs more for each further job.
MORE_MEMORY = 0.6
# A fifth job of one check gains nothing.
MOST_JOBS = 4


def measured(path):
    """The processor seconds of each crate's proof, as they were measured last."""
    if not os.path.isfile(path):
        return {}
    with open(path, newline="", encoding="utf-8") as file:
        return {row["crate"]: float(row["proof"]) for row in csv.DictReader(file)}


class Lanes:
    """Tasks by their names: what each waits for, how many seconds it takes, and how much memory."""

    def __init__(self, below, seconds, memory, lanes, room):
        self.below, self.seconds, self.memory, self.lanes, self.room = below, seconds, memory, lanes, room
        self.behind = {}
        # a task has fewer below it than those that wait for it
        for name in sorted(below, key=lambda it: -len(below[it])):
            self.behind[name] = seconds[name] + max((self.behind[it] for it in below if name in below[it]), default=0)

    def jobs(self, name, free, ready, left):
        """As many jobs as a task gets, if `free` lanes are free, `ready` could begin beside it, and `left` have not begun, this one among them."""
        # rt looks for the tests of each crate beside its proof, which takes no time if it has none
        of_free = free // (sum(self.seconds[it] >= 1 for it in ready) + 1)
        of_all = int(self.lanes * self.behind[name] / max(sum(self.seconds[it] for it in left), 1))
        return max(1, min(max(of_free, of_all), MOST_JOBS))

    def run(self, call):
        """Calls `call(name, jobs, given)` for each task once those that it waits for have ended, and answers what each gave: `given`, which has
        what those gave."""
        given, running, left = {}, {}, sorted(self.below, key=lambda it: -self.behind[it])
        with ThreadPoolExecutor(self.lanes) as pool:
            while left or running:
                for future in self.begun(pool, call, given, running, left):
                    running[future[0]] = future[1:]
                for done in wait(running, return_when=FIRST_COMPLETED).done:
                    given[running.pop(done)[0]] = done.result()
        return given

    def begun(self, pool, call, given, running, left):
        """Begins what can begin now: for each its future, its name, its jobs and its memory."""
        new = []
        ready = [it for it in left if self.below[it] <= given.keys()]
        while ready:
            at_work = [*running.values(), *[it[1:] for it in new]]
            free = self.lanes - sum(jobs for _, jobs, _ in at_work)
            name = ready.pop(0)
            if free < 1:
                break
            jobs = self.jobs(name, free, ready, left)
            room = self.room - sum(memory for _, _, memory in at_work)
            while jobs > 1 and self.memory[name] * (1 + MORE_MEMORY * (jobs - 1)) > room:
                jobs -= 1
            needed = self.memory[name] * (1 + MORE_MEMORY * (jobs - 1))
            if needed <= room or not at_work:
                left.remove(name)
                new.append((pool.submit(call, name, jobs, given), name, jobs, needed))
        return new
