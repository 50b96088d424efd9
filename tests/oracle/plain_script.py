#!/usr/bin/env python3
"""A plain form of scripts: what `rehearse` prints for one, line by line, where some lines may have been refused for want of memory.

    plain_script.py SCRIPT

prints the replies to the script's lines, none of which may be a bad one. A replica is that of oracle.py: the set of the writes that it knows and the list of commits. A line that was refused is not done here,
so that what is printed afterwards shows whether the program did it.
"""

import sys

import oracle

REFUSED = b'refused 24 OutOfMemory\n'
DAY = '1995-12-18'


def questions(servers):
    """The lines that ask these replicas all that can be seen of oak on that day, and their positions."""
    words = []
    for server in servers:
        words += [f'sheet {server} oak {DAY}', f'calendar {server} oak full', f'calendar {server} oak committed', f'errors {server} oak', f'position {server}']
    return words


class World:
    """The replicas of a script, and its batches."""

    def __init__(self):
        self.replicas, self.batches = {}, []

    def add(self, server):
        if server in self.replicas:
            return 'there'
        self.replicas[server] = oracle.Replica(server, next(iter(self.replicas), server))
        return 'ok'

    def make(self, maker, taker, limit):
        if maker not in self.replicas or taker not in self.replicas:
            return 'no replica'
        lines = self.replicas[maker].batch_for(self.replicas[taker], limit)
        if isinstance(lines, str):
            return lines
        self.batches.append(''.join(line + '\n' for line in lines))
        return f'batch {len(self.batches)} {len(self.batches[-1])} bytes'

    def deliver(self, batch, taker, size):
        if taker not in self.replicas:
            return 'no replica'
        if not 1 <= batch <= len(self.batches):
            return 'no batch'
        text = self.batches[batch - 1]
        return self.replicas[taker].receive(text if size == 'all' else text[:int(size)])

    def book(self, replica, words):
        room, length, day, time, extra, rest = words.split(' ', 5)
        *slots, title = rest.split(' ', 2 * int(extra))
        return replica.book(room, length, [(day, time), *zip(slots[::2], slots[1::2])], title)

    def reply(self, line):
        """Does what the line says; the text of its reply."""
        kind, first, *rest = line.split(' ', 2)
        words = rest[0].split(' ') if rest else []
        if kind == 'replica':
            return self.add(int(first))
        if kind == 'batch':
            return self.make(int(first), int(words[0]), int(words[1]))
        if kind == 'deliver':
            return self.deliver(int(first), int(words[0]), words[1])
        replica = self.replicas.get(int(first))
        if replica is None:
            return 'no replica'
        if kind == 'book':
            return self.book(replica, rest[0])
        if kind in ('commit', 'truncate'):
            return getattr(replica, kind)(int(words[0]))
        return getattr(replica, {'room': 'add_room'}.get(kind, kind))(*words)


def lines_of(script):
    """The steps of a script's text."""
    return [line for line in script.split('\n') if line and not line.startswith('#')]


def lines_in(file):
    """The steps of the script in a file."""
    with open(file, encoding='ascii') as text:
        return lines_of(text.read())


def printed_by(lines):
    """What is printed where nothing is refused."""
    world = World()
    return ''.join(world.reply(line) + '\n' for line in lines).encode('ascii')


def refused_in(lines, printed):
    """Which lines were refused for want of memory, where all that was printed is right; a sentence on the first fault, else."""
    world, refused, at = World(), [], 0
    for number, line in enumerate(lines):
        if printed.startswith(REFUSED, at):
            refused.append(number)
            at += len(REFUSED)
            continue
        reply = (world.reply(line) + '\n').encode('ascii')
        if not printed.startswith(reply, at):
            return f'line {number + 1}, `{line}`: printed {printed[at:at + 200]}, wanted {reply}'
        at += len(reply)
    return refused if at == len(printed) else f'printed beyond the last reply: {printed[at:at + 200]}'


if __name__ == '__main__':
    sys.stdout.buffer.write(printed_by(lines_in(sys.argv[1])))
