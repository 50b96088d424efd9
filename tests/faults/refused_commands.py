"""Commands over each keeper with each allocation refused in turn, by the shim refuse_each.c under the built tests of the crate mr_sql_tests.

One test asks three replicas the commands of six scripts over lists, and one over databases in memory. Each allocation of each
command, and of opening each keeper, is refused in a child of the process: there the reply is that of the script, or that there is no
memory. In the second case all that can be seen of the three replicas is as before the command, the command has its reply once it is
asked again, and then what can be seen is as after it. In a third test two databases of the first schema are made and moved up in memory: each
allocation of either is refused, too, and it is done once it is tried again. What is wanted comes from the plain form of scripts.
"""

import os
import subprocess
import sys

sys.path.insert(0, os.path.join(os.path.dirname(os.path.abspath(__file__)), '..', 'oracle'))

import oracle
import plain_script
from plain_script import REFUSED
from shim import built

SERVERS = (1, 2, 3)
# The tests by their names, and the line with which a test ends.
OVER_LISTS, OVER_DATABASES, MOVING_UP = (f'now_and_then_tests::{name}' for name in ('scripts_over_lists', 'scripts_over_databases', 'first_tables_that_move_up'))
END = b'\ntest result: ok\n'
# Replicas whose tables are moved up: the batches that each has received, each with how many writes are dropped then.
TWO = 'mr1 1 1\nW 1 1 1 oak 60 1995-12-18 14:00 0 Alpha\nW 2 1 1 oak 60 1995-12-18 13:30 1 1995-12-18 15:00 Beta\nE\n'
COMMITTED = 'mr1 1 1\nW 1 1 1 oak 60 1995-12-18 13:30 0 Audit\nC 1 1 1\nW 1 2 2 oak 30 1995-12-18 14:30 0 Brief\nC 2 1 2\nE\n'
ELM = 'mr1 3 1\n' + ''.join(f'W 3 {i} {i} elm 15 1995-12-18 09:00 0 Elm\nC {i} 3 {i}\n' for i in range(1, 51)) + 'E\n'
MOVED = ((9, ((ELM, 50), (TWO, 50))), (2, ((COMMITTED, 2),)))


def seen(world, servers=SERVERS):
    """What a test prints of its replicas."""
    return b''.join(world.reply(line).encode('ascii') + b'\n' for line in plain_script.questions(servers))


def replies(world, line):
    """What the line does, one command after the other, with the text of each reply; a batch is the position of its taker and the batch for it."""
    kind, *words = line.split(' ')
    if kind != 'batch':
        yield world.reply(line).encode('ascii') + b'\n'
        return
    yield world.reply(f'position {words[1]}').encode('ascii') + b'\n'
    reply = world.reply(line)
    yield (reply + '\n' if reply.startswith('refused ') else world.batches[-1]).encode('ascii')


def steps(scripts):
    """Of each keeper that is opened and each command: its reply, and what is printed where it is refused at first."""
    for lines in scripts:
        world = plain_script.World()
        for server in SERVERS:
            world.add(server)
            yield b'ok\n', REFUSED + b'ok\n'
        for line in lines:
            if line.startswith('replica '):
                continue
            before = seen(world)
            for reply in replies(world, line):
                after = seen(world)
                yield reply, REFUSED + before + reply + after


def moves():
    """Of each database: that it is made; that it is moved up, and what is seen of its replica; and each of these where it is refused at first."""
    for server, batches in MOVED:
        world = plain_script.World()
        replica = world.replicas[server] = oracle.Replica(server, 1)
        for batch, dropped in batches:
            replica.receive(batch)
            replica.truncate(dropped)
        yield b'ok\n', REFUSED + b'ok\n'
        shown = b'ok\n' + seen(world, (server,))
        yield shown, REFUSED + shown


class Commands:
    """Counts what was tried."""

    def __init__(self, program, folder):
        self.program, self.folder = program, folder
        self.allocations, self.refused, self.late, self.wrong = 0, 0, 0, 0

    def told(self, name, fault):
        """Without a fault it is right."""
        if fault:
            self.wrong += 1
            print(f'FAILED: commands over each keeper: {name}: {fault}', flush=True)

    def pieces(self, test, has_rest):
        """What the test and its children print, cut at the bytes 0."""
        environment = {**os.environ, 'ROOMS_TELL': '1', 'LD_PRELOAD': built('refuse_each.c', self.folder), **({'REFUSE_REST': '1'} if has_rest else {})}
        left = b''
        with subprocess.Popen([self.program, test], stdin=subprocess.DEVNULL, stdout=subprocess.PIPE, env=environment) as process:
            while chunk := process.stdout.read1():
                *whole, left = (left + chunk).split(b'\0')
                yield from whole
            yield left
        self.told(test, f'status {process.returncode}' if process.returncode else None)

    def check_child(self, name, wanted, child, status):
        reply, refused = wanted
        self.allocations += 1
        self.refused += child == b'then\n' + refused
        if status != b'0' or child not in (b'then\n' + refused, b'then\n' + reply):
            self.told(f'allocation {self.allocations}, of {name}', f'status {status}, printed {child}, wanted {refused}')

    def each(self, test, wanted, has_rest):
        """Tries the test, which is to print so."""
        printed, begun, child = [], 0, None
        for piece in self.pieces(test, has_rest):
            if piece.startswith(b'r'):
                # the child of the last command goes on to the end of the test
                child = piece[1:].removesuffix(END)
                continue
            if child is not None:
                self.check_child(f'command {begun} of {test}', wanted[begun - 1], child, piece[:1])
                piece = piece[1:]
            printed.append(piece)
            begun += piece.count(b'now\n')
        whole = b''.join(b'now\nthen\n' + reply for reply, _ in wanted) + END
        self.told(f'{test} with no refusal', None if b''.join(printed) == whole else f'printed {b"".join(printed)}')

    def scripts(self, scripts):
        """With one allocation refused, and with all from one on up to the reply."""
        wanted = list(steps(scripts))
        for has_rest in (False, True):
            self.each(OVER_LISTS, wanted, has_rest)
            self.each(OVER_DATABASES, wanted, has_rest)
            self.each(MOVING_UP, list(moves()), has_rest)
