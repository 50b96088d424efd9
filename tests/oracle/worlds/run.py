#!/usr/bin/env python3
"""Generated worlds, in three ways: as scripts, as commands on databases, and over HTTP.

    run.py PROGRAM FOLDER [REPLIES]        compares at least so many replies in each way (100,000), of the same seeds each time
    run.py PROGRAM FOLDER WAY SEED         the world of one seed alone; its files stay in FOLDER

Each reply is compared, to the byte, with that of a plain form of the system (world.py), in a process for each processor. A way fails too
where something that it has to try never came (WANTED), or where a reply of which one bit is turned isn't noticed. The last line counts ways.
"""

import collections
import itertools
import multiprocessing
import os
import shutil
import signal
import sys
import time
import traceback

sys.path.append(os.path.join(os.path.dirname(os.path.abspath(__file__)), '..'))
sys.path.append(os.path.join(os.path.dirname(os.path.abspath(__file__)), '..', '..', 'hostile'))

import commands
import scripts
import served
from program import Difference, Program
from world import size_of

WAYS = {'scripts': (scripts.Scripts, scripts.run), 'commands': (commands.Commands, commands.run), 'http': (served.Served, served.run)}
ALL = 100000
# The most seconds of one world, and failures that are shown whole.
PATIENCE, SHOWN = 300, 3


def ports_of(worker):
    """Ports for one of the workers, none of them soon again."""
    first = 20000 + worker % 12 * 1000
    return itertools.cycle(range(first, first + 1000))


def too_slow(*_):
    raise Difference(f'not done after {PATIENCE} seconds')


def try_world(path, folder, way, seed, ports, wrong=0):
    """The world of a seed: how many replies it has, what was tried, and what is to be said of a difference, or None."""
    make, run = WAYS[way]
    shutil.rmtree(folder, ignore_errors=True)
    os.makedirs(folder)
    program, world = Program(path, folder, ports, wrong), None
    signal.signal(signal.SIGALRM, too_slow)
    signal.alarm(PATIENCE)
    try:
        world = make(seed)
        run(program, world)
        return world.replies, world.tried, None
    except Difference as difference:
        return 0, collections.Counter(), str(difference)
    except Exception:
        return 0, collections.Counter(), traceback.format_exc()
    finally:
        signal.alarm(0)
        program.close()


class Worker:
    """What a process of the pool has of its own."""

    path = folder = ports = None

    @classmethod
    def begin(cls, path, folder, numbers):
        number = numbers.get()
        cls.path, cls.folder, cls.ports = path, f'{folder}/{number}', ports_of(number)


def work(task):
    """One world, and the processor time that it took here and in the program."""
    here, there = time.process_time(), sum(os.times()[2:4])
    result = try_world(Worker.path, Worker.folder, *task[:2], Worker.ports, *task[2:])
    return *result, time.process_time() - here, sum(os.times()[2:4]) - there


def seeds_for(replies):
    """The first seeds whose worlds have so many replies."""
    seeds, size = [], 0
    while size < replies:
        seeds.append(len(seeds) + 1)
        size += size_of(seeds[-1])
    return seeds


def unnoticed(pool, way):
    """The numbers of replies that were turned without being noticed."""
    numbers = [1, 2] if way == 'scripts' else [1, 2, 25, 50]
    results = pool.map(work, [(way, 1, number) for number in numbers])
    return [f'a wrong reply {number}' for number, result in zip(numbers, results) if result[2] is None]


def try_way(pool, way, replies, again):
    """Whether all worlds of a way reply as the plain form does."""
    began, total, tried, differ, here, there = time.monotonic(), 0, collections.Counter(), [], 0, 0
    seeds = seeds_for(replies)
    for seed, (count, more, failure, own, children) in zip(seeds, pool.imap(work, [(way, seed) for seed in seeds])):
        total, tried, here, there = total + count, tried + more, here + own, there + children
        if failure and len(differ) < SHOWN:
            print(f'FAILED: {way}, seed {seed}: {failure}\n  alone: {again} {way} {seed}', flush=True)
        differ += [seed] if failure else []
    missing = [f'never tried: {name}' for name in WAYS[way][0].WANTED if not tried[name] and replies >= ALL] + unnoticed(pool, way)
    for words in missing + ([f'seeds {differ}'] if differ else []):
        print(f'FAILED: {way}: {words}')
    print(f'{way}: {total} replies of {len(seeds) - len(differ)} worlds, {len(differ)} differ; {time.monotonic() - began:.0f} s, '
          f'on the processors {here:.0f} s here and {there:.0f} s in the program', flush=True)
    return not differ and not missing


def try_alone(path, folder, way, seed):
    count, _, failure = try_world(path, folder, way, int(seed), ports_of(os.getpid()))
    print(failure or f'{way}, seed {seed}: {count} replies, none differs')
    return 1 if failure else 0


def main():
    path, folder, *rest = sys.argv[1:]
    path, folder = os.path.abspath(path), os.path.abspath(folder)
    if len(rest) == 2:
        sys.exit(try_alone(path, folder, *rest))
    replies, at_once = int(rest[0]) if rest else ALL, len(os.sched_getaffinity(0))
    numbers = multiprocessing.SimpleQueue()
    for number in range(at_once):
        numbers.put(number)
    with multiprocessing.Pool(at_once, Worker.begin, (path, folder, numbers)) as pool:
        results = [try_way(pool, way, replies, f'python3 {sys.argv[0]} {path} {folder}') for way in WAYS]
    print(f'{sum(results)} passed, {len(results) - sum(results)} failed')
    sys.exit(0 if all(results) else 1)


if __name__ == '__main__':
    main()
