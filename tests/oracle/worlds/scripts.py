"""Worlds as scripts: what `rehearse` prints for one."""

from program import Difference, expect
from world import NOBODY, World, told

# Lines that are none.
BAD_LINES = ['batch 1 2 0', 'batch 1 2 100001', 'batch 1 2', 'commit 1 1000000000000', 'commit 1 01', 'commit 1 -1', 'truncate 1 x', 'deliver 1000000000 1 all',
             'deliver 1 1 1000000000', 'deliver 1 1 some', 'replica 0', 'replica 100', 'replica 01', 'replica', 'room 1', 'room 1 oak x', 'calendar 1 oak half',
             'book 1 oak 60 2024-02-29 09:00 1 x', 'book 1 oak 60 2024-02-29 09:00 0', 'book 1 oak 60 2024-02-29 09:00 100 x', 'cancel 1 oak', 'cancel 1 oak 1-1 x',
             ' sheet 1 oak 2024-02-29', 'sheet 1  oak 2024-02-29', 'sheet 1 oak 2024-02-29 ', 'position 1 x', 'Position 1', 'position 1\r', 'errors 1 \toak', 'nothing', ' ']


class Scripts(World):
    """Each step is a line and its reply, or None where it is passed over."""

    WANTED = World.WANTED + ['there', 'no replica', 'no batch']
    HAVE_MANY = 0.5

    def say(self, line, reply, kind):
        self.steps.append((line, reply))
        self.replies += 1
        if reply in ('no replica', 'no batch', 'there'):
            self.note(reply)
        else:
            self.note_reply(kind, reply)
        return reply

    def add(self, server):
        is_new = server not in self.replicas
        if is_new:
            self.replicas[server] = self.new_replica(server)
        self.say(f'replica {server}', 'ok' if is_new else 'there', 'replica')

    def at(self, server, kind, *words):
        replica, text = self.replicas.get(server), ' '.join([kind, str(server)])
        if kind == 'book':
            room, length, slots, title = words
            text += f' {room} {length} {" ".join(slots[0])} {len(slots) - 1} ' + ''.join(f'{day} {time} ' for day, time in slots[1:]) + title
        elif words:
            text += ' ' + ' '.join(words)
        return self.say(text, told(replica, kind, words) if replica else 'no replica', kind)

    def make(self, maker, taker, limit):
        line = f'batch {maker} {taker} {limit}'
        if maker not in self.replicas or taker not in self.replicas:
            self.say(line, 'no replica', 'batch')
            return
        lines = self.replicas[maker].batch_for(self.replicas[taker], limit)
        if isinstance(lines, str):
            self.say(line, lines, 'batch')
            return
        self.keep(''.join(each + '\n' for each in lines))
        self.say(line, f'batch {len(self.pool)} {len(self.pool[-1])} bytes', 'batch')

    def hand(self, number, taker, size):
        line, replica = f'deliver {number} {taker} {"all" if size is None else size}', self.replicas.get(taker)
        if not 1 <= number <= len(self.pool):
            self.say(line, 'no batch' if replica else 'no replica', 'push')
            return
        text = self.pool[number - 1] if size is None else self.pool[number - 1][:size]
        self.say(line, self.receive(replica, text.encode('ascii')) if replica else 'no replica', 'push')

    def ask_more(self):
        """Lines that are passed over, replicas that come later or are there, batches that aren't."""
        rng = self.rng
        kind = rng.randrange(4)
        if kind == 0:
            self.steps += [(rng.choice(['', '# oak', '#', '#' * 200]), None)]
        elif kind == 1:
            self.hand(rng.choice([0, len(self.pool) + 1, 999999999]), self.server(), rng.choice([None, 0, 999999999]))
        elif len(self.replicas) < 6:
            self.add(rng.choice([*self.replicas, 4]))
        else:
            self.at(NOBODY, 'position')

    def script(self):
        """The text; every other one lacks its last LF."""
        text = '\n'.join(line for line, _ in self.steps)
        return text if self.size % 2 else text + '\n'

    def bad_script(self):
        """A script with a line that is none, and its number."""
        lines = [line for line, _ in self.steps]
        number = self.rng.randint(1, len(lines))
        lines[number - 1] = self.rng.choice(BAD_LINES)
        return '\n'.join(lines), number


def first_difference(world, printed):
    """The first line whose reply isn't the plain form's."""
    at = 0
    for number, (line, reply) in enumerate(world.steps, 1):
        wanted = b'' if reply is None else (reply + '\n').encode('ascii')
        if not printed.startswith(wanted, at):
            lines = wanted.count(b'\n')
            return f'line {number}, `{line}`\n  printed {b"".join(printed[at:].splitlines(True)[:lines + 1])!r}, and more\n  wanted  {wanted!r}'
        at += len(wanted)
    return f'printed beyond the last reply: {printed[at:at + 500]!r}'


def run(program, world):
    """The script, and one with a bad line."""
    program.write('script', world.script().encode('ascii'))
    printed, status = program.call('rehearse', '@script')
    wanted = ''.join(reply + '\n' for _, reply in world.steps if reply is not None).encode('ascii')
    if printed != wanted:
        raise Difference(first_difference(world, printed))
    expect('the status of rehearse', status, 0)
    text, number = world.bad_script()
    program.write('bad', text.encode('ascii'))
    expect(f'the same with `{text.split(chr(10))[number - 1]}` in line {number}', program.call('rehearse', '@bad'), (b'bad script line %d\n' % number, 1))
