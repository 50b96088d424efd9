"""Worlds as commands: each line a process of the program on a database file, batches and positions in files."""

import collections

import wire
from program import expect
from world import NOBODY, Bytes, told

COMMANDS = {'room': 'add-room'}
# Words behind a command's database that make no command line.
BAD_WORDS = ['add-room', 'add-room oak elm', 'book oak 60 2024-02-29 09:00', 'cancel oak', 'cancel oak 1-1 now', 'sheet oak', 'sheet oak 2024-02-29 x',
             'calendar oak', 'calendar oak half', 'outcome oak', 'errors', 'commit', 'commit x', 'commit 1000000000000', 'commit 01', 'truncate 1000000000000',
             'truncate +1', 'position now', 'export @position @made 0', 'export @position @made 100001', 'export @position @made', 'import', 'import @batch x',
             'init 0 1', 'init 1 100', 'init 1', 'serve 0 1', 'serve 65536 1', 'serve 20000 1000000000', 'bridge', 'sheets oak 2024-02-29', 'Sheet oak 2024-02-29']

# A command line, the files that are there before, what is printed and with which status, and the batch that is written or None.
Call = collections.namedtuple('Call', 'words files printed status made')


def status_of(reply):
    return 1 if reply.startswith('refused ') else 0


def printed_as(reply):
    """The bytes of a reply."""
    return (reply if reply.endswith('\n') else reply + '\n').encode('ascii')


def one_way(maker, taker):
    """What the one lacks of what the other has, in rounds of 64 lines: who refused, or None; the refusal, or what was new; the numbers of batches
    that were asked for, and that were made."""
    writes = commits = asked = 0
    while True:
        asked += 1
        batch = wire.answer_position(maker, printed_as(taker.position()), 64)
        if batch.startswith('refused '):
            return maker, batch, asked, asked - 1
        reply = wire.receive(taker, batch.encode('ascii'))
        if reply.startswith('refused '):
            return taker, reply, asked, asked
        _, more_writes, _, more_commits, _ = reply.split(' ')
        writes, commits = writes + int(more_writes), commits + int(more_commits)
        if batch.endswith('E\n') or more_writes == more_commits == '0':
            return None, f'{writes} writes {commits} commits', asked, asked


def line_of(word, mine, who, reply):
    """What is printed for one way, where `mine` asks."""
    if who is None:
        return f'{word} {reply}'
    return reply if who is mine else 'peer answered ' + wire.refusal_reply(reply).split(b' ')[1].decode('ascii')


def exchanged(mine, peer):
    """What an exchange prints, its status and its connections: one for each batch that is pulled, one for the position before each push, and one
    more for each batch that is made and pushed."""
    who, reply, connections, _ = one_way(peer, mine)
    lines = [line_of('pulled', mine, who, reply)]
    if who is None:
        who, reply, asked, made = one_way(mine, peer)
        lines.append(line_of('pushed', mine, who, reply))
        connections += asked + made
    return lines, 0 if who is None else 1, connections


class Commands(Bytes):
    """Each step is a call of the program."""

    WANTED = Bytes.WANTED + ['refusal 26', 'bad command line', *[f'bridge: {lines} lines, status {status}' for lines, status in ((2, 0), (1, 1), (2, 1))]]
    KINDS = Bytes.KINDS | {'more': 3, 'bridge': 2}

    def take(self, call):
        self.steps.append(call)
        self.replies += 1

    def call(self, kind, words, reply, files=None, made=None):
        self.take(Call(words, files or {}, printed_as(reply), status_of(reply), made))
        self.note_reply(kind, reply)
        return reply

    def add(self, server):
        replica = self.replicas[server] = self.new_replica(server)
        self.call('init', ['init', f'@{server}.db', str(server), str(replica.primary)], 'ok')

    def at(self, server, kind, *words):
        replica = self.replicas.get(server)
        if kind == 'book':
            room, length, slots, title = words
            given = [room, length, *slots[0], title, *[f'{day}T{time}' for day, time in slots[1:]]]
        else:
            given = list(words)
        reply = told(replica, kind, words) if replica else 'refused 26 NotAReplica'
        return self.call(kind, [COMMANDS.get(kind, kind), f'@{server}.db', *given], reply)

    def pull(self, maker, position, limit):
        """A batch for a position, from file to file."""
        replica = self.replicas.get(maker)
        reply = wire.answer_position(replica, position, limit) if replica else 'refused 26 NotAReplica'
        made = None
        if not reply.startswith('refused '):
            self.keep(reply)
            made, reply = reply.encode('ascii'), f'wrote {len(reply)} bytes'
        self.call('pull', ['export', f'@{maker}.db', '@position', '@made', str(limit)], reply, {'position': position}, made)

    def push(self, taker, text):
        replica = self.replicas.get(taker)
        reply = self.receive(replica, text) if replica else 'refused 26 NotAReplica'
        self.call('push', ['import', f'@{taker}.db', '@batch'], reply, {'batch': text})

    def ask_bridge(self):
        self.exchange_all(*self.rng.sample(sorted(self.replicas), 2))

    def exchange_all(self, mine, peer):
        """A bridge; its status."""
        lines, status, _ = exchanged(self.replicas[mine], self.replicas[peer])
        self.take(Call(['bridge', f'@{mine}.db', f'@{peer}.db'], {}, printed_as('\n'.join(lines)), status, None))
        self.note(f'bridge: {len(lines)} lines, status {status}')
        return status

    def meet(self, office, primary):
        """By files, or by the command that exchanges, which either of the two may call."""
        if self.rng.random() < 0.5:
            super().meet(office, primary)
        elif self.exchange_all(*self.rng.sample([office, primary], 2)) != 0:
            raise AssertionError('an office and the primary refuse to exchange')

    def ask_more(self):
        """A database that is made again, by the same words or by others, and words that are no command line."""
        rng, server = self.rng, self.rng.choice(sorted(self.replicas))
        primary = self.replicas[server].primary
        if rng.random() < 0.4:
            other = rng.choice([(server, primary), (NOBODY, primary), (server, NOBODY)])
            self.call('init', ['init', f'@{server}.db', *map(str, other)], 'ok' if other == (server, primary) else 'refused 26 NotAReplica')
        else:
            kind, *words = rng.choice(BAD_WORDS).split(' ')
            self.take(Call([kind, f'@{server}.db', *words], {'position': b'', 'batch': b''}, b'bad command line\n', 2, None))
            self.note('bad command line')


def run_call(program, number, call):
    """One step: what is printed, and what is written to the batch's file."""
    for name, data in call.files.items():
        program.write(name, data)
    printed = program.call(*call.words)
    what = f'line {number}, `{" ".join(call.words)}`' + ''.join(f', {name}: {data!r}' for name, data in call.files.items())
    expect(what, printed, (call.printed, call.status))
    if call.words[0] == 'export':
        expect(what + ', the batch', program.read('made'), call.made)


def run(program, world):
    for number, call in enumerate(world.steps, 1):
        run_call(program, number, call)
