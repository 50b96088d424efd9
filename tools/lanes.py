"""The order in which checks run side by side."""
import re
import sys
from concurrent.futures import FIRST_COMPLETED, ThreadPoolExecutor, wait

from toolchain import TOOLS, rt

# of the memory that `rt` reckons a check with; the dearest checks of the repository took at most two thirds of it
SHARE_OF_NEED = 0.75
# what is kept free beside a peak that was measured: sources grow, and processes are looked at now and then
SHARE_OF_PEAK = 1.2
# of the memory of a proof each further job takes so much, as those that were seen did at most: jobs share what was read
OF_JOB = 0.3
# processor seconds of a line of source, where they weren't measured
SECONDS_OF_LINE = 0.16
MEASURED = f"{TOOLS}/measured.tsv"


def measured():
    """What was measured of each crate's proof, tests and edits (tools/gate_cost --keep): processor seconds, and the greatest memory in bytes or None."""
    found = {}
    with open(MEASURED, encoding="utf-8") as it:
        for number, line in enumerate(it.read().splitlines()[1:], 2):
            row = re.fullmatch(r"(\w+)\t(proof|tests|edits)\t(\d+)\t(\d+(?:\.\d+)?|)", line)
            if not row:
                sys.exit(f"{MEASURED}, line {number}: not a crate, `proof`, `tests` or `edits`, seconds, and GB or nothing, with tabs between")
            found[row[1], row[2]] = int(row[3]), float(row[4]) * 1e9 if row[4] else None
    return found


def is_proof(key):
    return key[1] == "proof"


class Lanes:
    """The tasks that are left and those that run. A task is as `in_lanes` of `rt` has it: what it waits for, its lines, its memory, and a call."""

    def __init__(self, tasks, most_jobs):
        # (one lane more than processors where a proof may have several jobs: it begins and ends with work for one)
        self.tasks, self.count, self.memory = tasks, rt().processors() + (most_jobs > 1), 0.85 * rt().free()
        # (the edits of a crate are a task `tried edits`)
        known, stage_of = measured(), lambda key: (key[0], str(key[1]).rpartition(" ")[2])
        told = {key: known.get(stage_of(key), (0, None)) for key in tasks}
        self.needs = {key: SHARE_OF_PEAK * told[key][1] if told[key][1] else SHARE_OF_NEED * task[2] for key, task in tasks.items()}
        self.work = {key: (told[key][0] or SECONDS_OF_LINE * task[1]) if task[1] else 0 for key, task in tasks.items()}
        # jobs of one proof at most
        self.most_jobs = most_jobs
        # tests and edits that run while there are proofs left: more would hold up the next proof of the longest chain
        self.most_beside = max(2, rt().processors() - 1)
        self.behind, self.running, self.given = self.chains(), {}, {}
        self.left = sorted(tasks, key=lambda key: -self.behind[key])

    def chains(self):
        """Of each task its own seconds and those of the longest chain of tasks behind it."""
        behind = {key: 0 for key in self.tasks}
        for key in reversed(list(self.tasks)):
            behind[key] += self.work[key]
            for below in self.tasks[key][0]:
                behind[below] = max(behind[below], behind[key])
        return behind

    def ready(self):
        return [key for key in self.left if all(below in self.given for below in self.tasks[key][0])]

    def is_critical(self, key):
        """Whether the chain that begins with this task is about as long as all that is left, shared by the lanes."""
        seconds = sum(self.work[it] for it in [*self.left, *self.running])
        return self.behind[key] * self.count > 0.9 * seconds

    def is_first(self, key):
        """Whether no other proof that runs or is left has a much longer chain: else that one needs the processors and the memory before long."""
        return all(self.behind[key] >= 0.9 * self.behind[it] for it in [*self.left, *self.running] if is_proof(it))

    def next(self):
        """Which task begins now, the most urgent first, and with how many jobs; None where none can."""
        room = self.memory - sum(self.needs[key] * (1 + OF_JOB * (jobs - 1)) for key, jobs in self.running.items())
        idle = self.count - sum(self.running.values())
        is_beside_full = any(map(is_proof, [*self.left, *self.running])) and sum(not is_proof(key) for key in self.running) >= self.most_beside
        ready = self.ready() if idle > 0 else []
        # a proof that others could run beside leaves them half of the processors; one that none can takes the lanes of those that end before it does
        is_alone = sum(map(is_proof, ready)) == 1
        most_jobs = self.most_jobs if is_alone else min(self.most_jobs, max(2, rt().processors() // 2), idle)
        for key in ready:
            needs = self.needs[key]
            if is_beside_full and not is_proof(key):
                continue
            if self.running and needs > room:
                # what runs beside proofs waits for those that wait for memory, and takes none of it
                is_beside_full = is_beside_full or is_proof(key)
                continue
            # more jobs make a proof shorter, and take half as much processor time again
            is_shared = is_proof(key) and self.is_critical(key) and self.is_first(key)
            return key, max(1, min(most_jobs, 1 + int((room / needs - 1) / OF_JOB))) if is_shared else 1
        return None

    def run(self):
        """Runs all, and returns what each gave."""
        at_work = {}
        with ThreadPoolExecutor(self.count) as pool:
            while self.left or self.running:
                nothing = [key for key in self.ready() if self.tasks[key][1] == 0]
                for key in nothing:
                    # a crate without tests, or without edits: its call returns at once
                    self.left.remove(key)
                    self.given[key] = self.tasks[key][3](self.given, 1)
                if nothing:
                    continue
                while chosen := self.next():
                    key, jobs = chosen
                    self.left.remove(key)
                    self.running[key] = jobs
                    at_work[pool.submit(self.tasks[key][3], self.given, jobs)] = key
                for done in wait(at_work, return_when=FIRST_COMPLETED).done:
                    key = at_work.pop(done)
                    del self.running[key]
                    self.given[key] = done.result()
        return self.given
