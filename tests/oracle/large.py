#!/usr/bin/env python3
"""A large replica: more than 12,000 writes of 99 servers, over 2,000 cancels, 10,000 commits, and an early write that moves 5,000 others.

    large.py PROGRAM FOLDER

What the program prints is compared with the plain form (oracle.py), once over lists, as a script in which each of 99 replicas books and one
of them learns of all, and once over databases, into which the same writes come by files; so nothing is refused for want of memory at such a
size. The last line counts the replies.
"""

import os
import random
import subprocess
import sys
import tempfile

import oracle
import wire
from calls import call, done

# the primary, those who book, and the one whose one write is early
PRIMARY, BOOKING, LATECOMER = 1, range(2, 99), 99
CHAIN, ROOMS = 'long', ['a-room-of-16-byt'] + [f'r{n}' for n in range(40)]
DAYS = ['2030-03-04', '2030-03-05', '2030-03-06', '2030-03-07']
# of each that books: requests for the room of the chain, for other rooms, and cancels
IN_CHAIN, OTHERS, CANCELS = 53, 51, 21
TITLE = 'A title as long as one may be, which is of sixty bytes: 1234'
MOST_LINES = 100000


def replay(writes):
    """What `oracle.replay` gives, of a room with thousands of writes: who stands is kept by day."""
    places, cancels, standing, days = [], [None] * len(writes), {}, {}
    for index, write in enumerate(writes):
        if isinstance(write, oracle.Cancel):
            target = standing.pop(write.target, None)
            places.append('void' if target is None else 'done')
            if target is not None:
                cancels[target] = index
                del days[writes[target].choices[places[target]][0]][target]
            continue
        free = (number for number, (day, start) in enumerate(write.choices)
                if all(start + write.length <= s or s + size <= start for s, size in days.get(day, {}).values()))
        places.append(next(free, 'logged'))
        if places[-1] != 'logged':
            day, start = write.choices[places[-1]]
            standing[write.id()] = index
            days.setdefault(day, {})[index] = (start, write.length)
    return list(zip(places, cancels))


class Replica(oracle.Replica):
    def counts(self):
        """The counts, in one pass over the writes."""
        counts = {}
        for server, n in self.known:
            counts[server] = max(n, counts.get(server, 0))
        return dict(sorted(counts.items()))


def minute(index):
    """A minute of the chain: its day and time."""
    return DAYS[index // 1440], oracle.time_text(index % 1440)


class World:
    """The replicas, and a script of what is asked of them with its replies."""

    def __init__(self):
        self.replicas, self.lines, self.replies, self.batches, self.rng = {}, [], [], 0, random.Random(99)

    def say(self, line, reply):
        self.lines.append(line)
        self.replies.append(reply)
        return reply

    def replica(self, server):
        self.replicas[server] = Replica(server, PRIMARY)
        self.say(f'replica {server}', 'ok')
        for room in [CHAIN] + ROOMS:
            self.say(f'room {server} {room}', self.replicas[server].add_room(room))

    def book(self, server, room, length, slots):
        others = ''.join(f' {day} {time}' for day, time in slots[1:])
        line = f'book {server} {room} {length} {" ".join(slots[0])} {len(slots) - 1}{others} {TITLE}'
        return self.say(line, self.replicas[server].book(room, str(length), slots, TITLE))

    def book_all(self, server):
        """The requests of one that books. Those of the chain want a minute each, or the next one; nobody else wants these."""
        self.replica(server)
        for n in range(IN_CHAIN):
            index = n * len(BOOKING) + server - BOOKING[0]
            self.book(server, CHAIN, 1, [minute(index), minute(index + 1)])
        rooms = []
        for _ in range(OTHERS):
            rooms.append(self.rng.choice(ROOMS))
            start = oracle.time_text(self.rng.randrange(0, 1440 - 120, 15))
            self.book(server, rooms[-1], self.rng.choice([15, 60, 120]), [(self.rng.choice(DAYS), start)])
        for n in self.rng.sample(range(OTHERS), CANCELS):
            request = f'{server}-{IN_CHAIN + n + 1}'
            self.say(f'cancel {server} {rooms[n]} {request}', self.replicas[server].cancel(rooms[n], request))

    def hand(self, maker, taker):
        """All that one lacks, from another; the batch's text, and what is answered."""
        self.batches += 1
        text = ''.join(line + '\n' for line in self.replicas[maker].batch_for(self.replicas[taker], MOST_LINES))
        self.say(f'batch {maker} {taker} {MOST_LINES}', f'batch {self.batches} {len(text)} bytes')
        return text, self.say(f'deliver {self.batches} {taker} all', learn(self.replicas[taker], self.replicas[maker]))

    def questions(self, server):
        """What this replica is asked, as words without the database, and what it answers."""
        it = self.replicas[server]
        asked = [(['position'], it.position()), (['calendar', CHAIN, 'full'], it.calendar(CHAIN, 'full')), (['errors', ROOMS[1]], it.errors(ROOMS[1])),
                 (['calendar', ROOMS[0], 'committed'], it.calendar(ROOMS[0], 'committed')), (['sheet', ROOMS[2], DAYS[1]], it.sheet(ROOMS[2], DAYS[1])),
                 (['outcome', CHAIN, f'98-{IN_CHAIN}'], it.outcome(CHAIN, f'98-{IN_CHAIN}'))]
        for words, reply in asked:
            self.say(' '.join([words[0], str(server), *words[1:]]), reply)
        return asked


def learn(taker, maker):
    """The taker learns what the maker has, none of which contradicts what it knows; the reply to the batch."""
    writes, commits = len(maker.known.keys() - taker.known.keys()), len(maker.commits) - len(taker.commits)
    taker.known = {**maker.known, **taker.known}
    taker.commits = taker.commits + maker.commits[len(taker.commits):]
    taker.rooms |= {write.room for write in maker.known.values()}
    return f'took {writes} writes {max(commits, 0)} commits'


class Databases:
    """Two databases, and how many replies were as wanted."""

    def __init__(self, program, folder):
        self.program, self.folder, self.passed, self.failed = program, folder, 0, 0

    def told(self, name, found, wanted):
        self.passed += found == wanted
        self.failed += found != wanted
        if found != wanted:
            print(f'FAILED: {name}: {found[:200]!r}, wanted {wanted[:200]!r}', flush=True)

    def asked(self, database, words, reply):
        printed, status = call(self.program, words[0], f'{self.folder}/{database}.db', *words[1:])
        wanted = f'{reply}\n'.encode()
        self.told(f'{database}: {" ".join(words)}: status {status}', printed, wanted)
        self.told(f'{database}: {" ".join(words)}: the status', str(status), '1' if reply.startswith('refused ') else '0')

    def all_asked(self, database, questions):
        for words, reply in questions:
            self.asked(database, words, reply)

    def imported(self, database, text, reply):
        self.asked(database, ['import', self.file('batch', text)], reply)

    def exported(self, database, position, text):
        out = f'{self.folder}/out'
        self.asked(database, ['export', self.file('position', position), out, str(MOST_LINES)], f'wrote {len(text)} bytes')
        with open(out, encoding='ascii') as it:
            self.told(f'{database}: the exported batch', it.read(), text)

    def file(self, name, text):
        path = f'{self.folder}/{name}'
        with open(path, 'w', encoding='ascii') as it:
            it.write(text)
        return path

    def make(self, database, server, rooms):
        done(self.program, 'init', f'{self.folder}/{database}.db', server, PRIMARY)
        for room in rooms:
            self.asked(database, ['add-room', room], 'ok')

    def rehearsed(self, world):
        """The script, line by line."""
        path = self.file('script', ''.join(line + '\n' for line in world.lines))
        ran = subprocess.run([self.program, 'rehearse', path], stdin=subprocess.DEVNULL, stdout=subprocess.PIPE, timeout=1500, check=False)
        found, wanted = ran.stdout.decode('ascii').split('\n'), '\n'.join([*world.replies, '']).split('\n')
        self.told(f'the script ends with status {ran.returncode}', str(len(found)), str(len(wanted)))
        wrong = next((number for number, (one, other) in enumerate(zip(found, wanted)) if one != other), None)
        self.told('the lines of the script', 'all' if wrong is None else f'{found[wrong]}, and not {wanted[wrong]}', 'all')
        self.passed += len(world.replies)


def both_ways(tried, world):
    """The same steps in the script and on databases; what is asked in between."""
    primary, latecomer = (world.replicas[server] for server in (PRIMARY, LATECOMER))
    for database, server in ('primary', PRIMARY), ('latecomer', LATECOMER):
        tried.make(database, server, [CHAIN] + ROOMS)
    everybody = Replica(BOOKING[-1], PRIMARY)
    for server in BOOKING:
        world.hand(server, PRIMARY)
        learn(everybody, world.replicas[server])
    everything = ''.join(line + '\n' for line in everybody.batch_for(wire.Claim(0, {}), MOST_LINES))
    tried.imported('primary', everything, f'took {len(everybody.known)} writes 0 commits')
    tried.all_asked('primary', world.questions(PRIMARY))
    tried.asked('primary', ['book', CHAIN, '30', DAYS[0], '23:30', TITLE], world.book(PRIMARY, CHAIN, 30, [(DAYS[0], '23:30')]))
    # the early write, which takes the minute that the next request by its stamp has, so that this and all behind it move on by one
    day, time = minute(len(BOOKING))
    tried.asked('latecomer', ['book', CHAIN, '1', day, time, TITLE], world.book(LATECOMER, CHAIN, 1, [(day, time)]))
    text, reply = world.hand(LATECOMER, PRIMARY)
    tried.imported('primary', text, reply)
    tried.all_asked('primary', world.questions(PRIMARY))
    tried.asked('primary', ['commit', '10000'], world.say(f'commit {PRIMARY} 10000', primary.commit(10000)))
    tried.all_asked('primary', world.questions(PRIMARY))
    position = latecomer.position() + '\n'
    text, reply = world.hand(PRIMARY, LATECOMER)
    tried.exported('primary', position, text)
    tried.imported('latecomer', text, reply)
    tried.all_asked('latecomer', world.questions(LATECOMER))
    tried.asked('latecomer', ['truncate', '10000'], world.say(f'truncate {LATECOMER} 10000', latecomer.truncate(10000)))
    tried.all_asked('latecomer', world.questions(LATECOMER))
    # for the position of one who knows all, with 99 servers
    request = world.book(LATECOMER, ROOMS[0], 1440, [(DAYS[3], '00:00')])
    tried.asked('latecomer', ['book', ROOMS[0], '1440', DAYS[3], '00:00', TITLE], request)
    position = primary.position() + '\n'
    text, reply = world.hand(LATECOMER, PRIMARY)
    tried.exported('latecomer', position, text)
    tried.imported('primary', text, reply)
    tried.asked('latecomer', ['export', tried.file('position', 'mp2 9 1\nK 0\nE\n'), f'{tried.folder}/out', '10'], 'refused 22 Truncated')
    found = call(tried.program, 'bridge', f'{tried.folder}/latecomer.db', f'{tried.folder}/primary.db')
    tried.told('a bridge of the two', str(found), str((b'pulled 0 writes 0 commits\npushed 0 writes 0 commits\n', 0)))


def is_large(world):
    """Whether it is what the first line of this file says."""
    known = world.replicas[PRIMARY].known.values()
    moved = [entry for entry in world.replicas[PRIMARY].told(CHAIN) if entry.place == 1]
    cancels = sum(isinstance(write, oracle.Cancel) for write in known)
    return len(known) > 12000 and cancels > 2000 and len({write.server for write in known}) == 99 and len(moved) > 5000


def main(program, folder):
    os.makedirs(folder, exist_ok=True)
    world = World()
    for server in [PRIMARY, LATECOMER]:
        world.replica(server)
    few = oracle.replay
    oracle.replay = replay
    for server in BOOKING:
        world.book_all(server)
    with tempfile.TemporaryDirectory(dir=folder) as place:
        tried = Databases(os.path.abspath(program), place)
        both_ways(tried, world)
        tried.rehearsed(world)
    tried.told('the replica is a large one', str(is_large(world)), 'True')
    room = [entry.write for entry in world.replicas[PRIMARY].told(ROOMS[1])]
    tried.told('the plain form of a room', str(replay(room)), str(few(room)))
    print(f'{tried.passed} passed, {tried.failed} failed')
    return 1 if tried.failed else 0


if __name__ == '__main__':
    sys.exit(main(*sys.argv[1:]))
