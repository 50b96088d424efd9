"""Cases that are made from seeds, until their time is over.

A test is a generator of a program, a folder of its own and a seed: it yields the kind of its next case and what the case is, and
tries it when it is resumed. Some seeds are tried at once, each in a process of its own; a case depends on its seed alone, and not on
the time. What differs is printed with its seed.

The time is that which each process takes of a processor, with the programs that it waited for, so that as much is tried beside other work; but at most four times
as long by the clock.
"""

import collections
import multiprocessing
import os
import sys
import time
import traceback

from calls import empty
from offices import Difference


class Time:
    """The time that the process that makes this has from then on."""

    def __init__(self, seconds):
        self.busy, self.clock = self.taken() + seconds, time.monotonic() + 4 * seconds

    @staticmethod
    def taken():
        return sum(os.times()[:4])

    def is_over(self):
        return self.taken() > self.busy or time.monotonic() > self.clock


def try_seed(test, program, folder, seed, end):
    """How many cases of each kind were tried until the time was over, and what is to be printed of a failure, or None."""
    tried, kind, what = collections.Counter(), 'none', ''
    cases = test(program, empty(folder), seed)
    try:
        for kind, what in cases:
            if end.is_over():
                return tried, None
            tried[kind] += 1
    except Difference as difference:
        return tried, f'seed {seed}: {kind} {what[:30000]}\n  {difference}'
    except Exception:
        return tried, f'seed {seed}: {kind} {what[:30000]}\n{traceback.format_exc()}'
    finally:
        cases.close()
    return tried, None


def worker(test, program, folder, seeds, seconds):
    """Seeds one after the other, up to the first failure."""
    tried, failure, end = collections.Counter(), None, Time(seconds)
    for seed in seeds:
        if failure or end.is_over():
            break
        more, failure = try_seed(test, program, folder, seed, end)
        tried += more
    return tried, failure


def main(test):
    """Called as PROGRAM FOLDER SECONDS [SEED]: seeds from this one on (from 1 where there is none); the last line counts."""
    program, folder, seconds, *first = sys.argv[1:]
    first, at_once = int(first[0]) if first else 1, min(4, os.cpu_count() or 1)
    given = [(test, program, os.path.join(folder, str(at)), range(first + at, first + 1000000, at_once), float(seconds))
             for at in range(at_once)]
    with multiprocessing.Pool(at_once) as pool:
        results = pool.starmap(worker, given)
    failures = [failure for _, failure in results if failure]
    tried = sum((more for more, _ in results), collections.Counter())
    print('tried:', ', '.join(f'{count} {kind}' for kind, count in sorted(tried.items())))
    print(*failures, sep='\n', end='\n' if failures else '')
    print(f'{sum(tried.values())} cases of {len(tried)} kinds, {len(failures)} differences')
    sys.exit(1 if failures or not tried else 0)
