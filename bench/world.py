#!/usr/bin/env python3
"""What it costs many offices to know all, as a script on replicas in memory.

    world.py PROGRAM FOLDER [REPLICAS WRITES ROOMS [SEED]]

writes a script and has `rehearse` run it: so many replicas (99 where no numbers are given) take so many bookings (100,000) in so many
rooms (50), each at a replica by chance, in the first eight of a number of rounds. In each round the primary commits all that it knows, and
then the replicas, in pairs by chance, give each other what they lack, in both directions, until each knows each write and each commit.
Prints the rounds, and how many of them came after the last booking; the exchanges, the bytes of all batches, also a write and replica, the
seconds that the process had a processor, and its greatest memory, all batches among it: they are kept to the end of a script. At the end all
sheets have to be equal, with the mark of a commit in each line.
"""

import os
import random
import subprocess
import sys

LINES, BOOKING_ROUNDS = 100_000, 8


class Offices:
    """What each replica knows: the count of each server's writes, and the number of commits. Replica 1 is the primary."""

    def __init__(self, count, out):
        self.counts = [[0] * count for _ in range(count)]
        self.commits, self.batches, self.out = [0] * count, 0, out
        for server in range(1, count + 1):
            print(f'replica {server}', file=out)

    def know_all(self):
        whole = [max(column) for column in zip(*self.counts)]
        return all(it == whole for it in self.counts) and min(self.commits) == sum(whole)

    def book(self, place, chance, rooms):
        date = f'1995-{chance.randint(1, 12):02}-{chance.randint(1, 28):02}'
        times = [f'{chance.randint(8, 17):02}:{chance.choice((0, 30)):02}' for _ in range(3)]
        self.counts[place][place] += 1
        others = ' '.join(f'{date} {it}' for it in times[1:])
        print(f'book {place + 1} room-{chance.randrange(rooms)} 60 {date} {times[0]} 2 {others} Weekly meeting', file=self.out)

    def commit(self):
        self.commits[0] = sum(self.counts[0])
        print(f'commit 1 {self.commits[0]}', file=self.out)

    def lines_between(self, maker, taker):
        """The most lines that the maker has for the taker: a line for each write, and one for each commit."""
        writes = sum(max(ours - theirs, 0) for ours, theirs in zip(self.counts[maker], self.counts[taker]))
        return writes + max(self.commits[maker] - self.commits[taker], 0)

    def give(self, maker, taker):
        lines = self.lines_between(maker, taker)
        for _ in range(-(-lines // LINES)):
            self.batches += 1
            print(f'batch {maker + 1} {taker + 1} {LINES}\ndeliver {self.batches} {taker + 1} all', file=self.out)
        self.counts[taker] = [max(pair) for pair in zip(self.counts[taker], self.counts[maker])]
        self.commits[taker] = max(self.commits[taker], self.commits[maker])

    def exchange(self, chance):
        """Pairs by chance; where the number is odd, one replica has none."""
        order = list(range(len(self.counts)))
        chance.shuffle(order)
        for one, other in zip(order[::2], order[1::2]):
            self.give(one, other)
            self.give(other, one)


def write_script(file, replicas, writes, rooms, seed):
    """Writes the script; returns the number of rounds and of batches."""
    chance, rounds = random.Random(seed), 0
    with open(file, 'w', encoding='ascii') as out:
        offices = Offices(replicas, out)
        for server in range(1, replicas + 1):
            for room in range(rooms):
                print(f'room {server} room-{room}', file=out)
        while rounds < BOOKING_ROUNDS or not offices.know_all():
            if rounds < BOOKING_ROUNDS:
                for _ in range(writes * rounds // BOOKING_ROUNDS, writes * (rounds + 1) // BOOKING_ROUNDS):
                    offices.book(chance.randrange(replicas), chance, rooms)
            offices.commit()
            offices.exchange(chance)
            rounds += 1
        for server in range(1, replicas + 1):
            print(f'sheet {server} room-0 1995-06-14', file=out)
    return rounds, offices.batches


def replies(process):
    """The sum of the sizes of the batches, the refusals, and the last sheets."""
    size, refused, sheet, sheets = 0, 0, [], []
    for line in process.stdout:
        words = line.split()
        if words[0] == b'batch':
            size += int(words[2])
        refused += words[0] == b'refused'
        if words[:2] == [b'room-0', b'1995-06-14']:
            sheet = []
            sheets.append(sheet)
        elif sheets:
            sheet.append(line)
    return size, refused, sheets


def main(program, folder, replicas=99, writes=100_000, rooms=50, seed=1):
    replicas, writes, rooms = int(replicas), int(writes), int(rooms)
    os.makedirs(folder, exist_ok=True)
    script = os.path.join(folder, 'world.script')
    rounds, batches = write_script(script, replicas, writes, rooms, int(seed))
    process = subprocess.Popen([program, 'rehearse', script], stdin=subprocess.DEVNULL, stdout=subprocess.PIPE)
    size, refused, sheets = replies(process)
    _, status, usage = os.wait4(process.pid, 0)
    print(f'{replicas} replicas, {writes} writes, {rooms} rooms: {rounds} rounds, {batches} batches, status {status}')
    print(f'{rounds - BOOKING_ROUNDS} rounds after the last booking until all had settled')
    print(f'bytes {size}, {size / writes / (replicas - 1):.1f} a write and replica that it came to; {refused} refused')
    print(f'processor seconds {usage.ru_utime + usage.ru_stime:.1f}, peak {usage.ru_maxrss // 1024} MiB')
    is_settled = all(line.split()[1] == b'C' for sheet in sheets for line in sheet if b'-' in line.split()[0])
    print(f'{len(sheets)} sheets, all equal: {all(it == sheets[0] for it in sheets)}, all committed: {is_settled}')


if __name__ == '__main__':
    main(*sys.argv[1:])
