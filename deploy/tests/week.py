#!/usr/bin/env python3
"""A week of two offices in a minute: both are served by rooms-office, book and cancel at random, and exchange with cuts between.

    week.py OFFICE PROGRAM PORT [SEED]

OFFICE is rooms-office, PROGRAM the built program; the folders and the share are those of the environment (ROOMS_ETC and so on). Each copy that
an office makes between two stretches is kept; what a request's state was in each, `calendar`, `errors` and `outcome` of the program say, and
what changed from copy to copy has to stand in the office's news once, and nothing else; the hook gets the same. The last line counts.
"""
import collections
import concurrent.futures
import json
import os
import random
import re
import subprocess
import sys
import time
import urllib.error
import urllib.request

OFFICE, PROGRAM, PORT = sys.argv[1], os.path.realpath(sys.argv[2]), int(sys.argv[3])
CHANCE = random.Random(int((sys.argv[4:] + ['1'])[0]))
ETC, STATE, CACHE = (os.environ[name] for name in ('ROOMS_ETC', 'ROOMS_STATE', 'ROOMS_CALENDARS'))
ROOMS, DAYS = ['oak', 'elm'], [f'2030-03-{day:02}' for day in range(4, 11)]
REQUESTS, SECONDS = 330, 45
SLOT = re.compile(r'^\d{4}-\d\d-\d\d \d\d:\d\d-\d\d:\d\d$')
passed = failed = 0


def same(name, found, wanted):
    global passed, failed
    passed, failed = passed + (found == wanted), failed + (found != wanted)
    if found != wanted:
        print(f'FAILED: {name}: {found!r}, wanted {wanted!r}')


def ask(port, path, body=None):
    """A reply of 200; a pause between two stretches is waited for."""
    for _ in range(2000):
        try:
            with urllib.request.urlopen(f'http://127.0.0.1:{port}{path}', data=body, timeout=60) as reply:
                return reply.read()
        except urllib.error.HTTPError as it:
            return it.read()
        except OSError:
            time.sleep(0.05)
    raise TimeoutError(path)


class Office:
    """One of the two, served with stretches of a second."""

    def __init__(self, name, server, port):
        self.name, self.server, self.port, self.ids = name, server, port, []
        subprocess.run([OFFICE, 'make', name, str(server), '1', str(port), str(port + 1), *ROOMS], check=True, stdout=subprocess.DEVNULL)
        with open(f'{ETC}/{name}.conf', 'a', encoding='ascii') as it:
            it.write('STRETCH=1\n')
        self.rounds, self.handed = f'{STATE}/{name}.rounds', f'{STATE}/{name}.handed'
        os.mkdir(self.rounds)
        self.script(f'{ETC}/{name}.news', f'cat >> {self.handed}\n')
        # what is called first with the copy keeps it
        keep = self.script(f'{STATE}/{name}.keep', f'cp -r "${{2%/*}}" {self.rounds}/$(date +%s%N)\n')
        os.makedirs(f'{CACHE}/{name}/told', exist_ok=True)
        self.process = subprocess.Popen([OFFICE, 'serve', name], env={**os.environ, 'ROOMS_CALENDAR': keep}, stdout=subprocess.PIPE, text=True)

    @staticmethod
    def script(path, text):
        with open(path, 'w', encoding='ascii') as it:
            it.write(f'#!/bin/sh\n{text}')
        os.chmod(path, 0o755)
        return path

    def book(self):
        start = CHANCE.randrange(16, 38)
        choices = [f'{CHANCE.choice(DAYS)} {half // 2:02}:{half % 2 * 30:02}' for half in (start, *CHANCE.choices(range(16, 38), k=CHANCE.choice([0, 0, 1, 2])))]
        wish, *others = [dict(zip(('day', 'start'), it.split())) for it in choices]
        body = {'room': CHANCE.choice(ROOMS), **wish, 'length': CHANCE.choice([30, 60, 90]), 'title': f'Of {self.name}', 'alternatives': others}
        reply = json.loads(ask(self.port, '/submit', json.dumps(body).encode()))
        self.ids.append((body['room'], reply['id']))

    def cancel(self, offices):
        ids = self.ids if CHANCE.random() < 0.6 else CHANCE.choice(offices).ids
        if ids:
            room, it = CHANCE.choice(ids)
            ask(self.port, '/cancel', json.dumps({'room': room, 'id': it}).encode())

    def take_from(self, other):
        while True:
            batch = ask(other.port, '/pull', ask(self.port, '/position'))
            ask(self.port, '/push', batch)
            if not batch.endswith(b'\nM\n'):
                return

    def end(self):
        self.process.terminate()
        self.journal = self.process.communicate(timeout=300)[0]


def run_week():
    offices = [Office('west', 1, PORT), Office('east', 2, PORT + 2)]
    begin, count, cut = time.time(), 0, 0
    while count < REQUESTS or time.time() < begin + SECONDS:
        if count < REQUESTS and count < REQUESTS * (time.time() - begin) / SECONDS + 1:
            CHANCE.choice(offices).book()
            count += 1
            if CHANCE.random() < 0.12:
                CHANCE.choice(offices).cancel(offices)
        elif time.time() > cut:
            # one way alone at times, then the line is cut for up to six seconds
            for one, other in CHANCE.choice([(offices, offices[::-1]), (offices[:1], offices[1:]), (offices[1:], offices[:1])]), :
                for a, b in zip(one, other):
                    a.take_from(b)
            cut = time.time() + CHANCE.random() * 6
        else:
            time.sleep(0.02)
    time.sleep(3)
    for _ in range(2):
        offices[0].take_from(offices[1])
        time.sleep(3)
        offices[1].take_from(offices[0])
    time.sleep(3)
    for it in offices:
        it.end()
    return offices


# ---- what the databases say, round by round

def program(*words):
    return subprocess.run([PROGRAM, *words], capture_output=True, text=True, check=False).stdout


def states(database, server):
    """Of each own request its place, the id of its cancel, and whether that is final, by the replies of the program."""
    count = int((re.findall(rf'^V {server} (\d+)$', program('position', database), re.M) + ['0'])[0])
    found, others = {}, {f'{server}-{n}' for n in range(1, count + 1)}
    for room in ROOMS:
        for line in program('calendar', database, room, 'full').splitlines()[1:]:
            parts = line.split(' ')
            if parts[3:] and parts[3] in others:
                found[parts[3]] = (f'{parts[0]} {parts[1]}', None, parts[2] == 'C')
        for line in program('errors', database, room).splitlines()[1:]:
            parts = line.split(' ')
            if parts[1] in others:
                found[parts[1]] = ('cancel' if parts[2] == 'cancel' else 'none', None, parts[0] == 'C')
    for it in sorted(others - set(found)):
        for room in ROOMS:
            parts = program('outcome', database, room, it).split()
            if parts[0] == it and parts[2] == 'cancelled':
                found[it] = ('cancelled', parts[4], parts[1] == 'C' and parts[3] == 'C')
    return {it: state for it, state in found.items() if state[0] != 'cancel'}


def wanted_news(rounds):
    """The changes from each copy to the next, as lines."""
    lines = collections.Counter()
    for old, new in zip(rounds, rounds[1:]):
        for it, (place, by, final) in new.items():
            had = old.get(it)
            if had is None:
                if place == 'none':
                    lines[f'{it} none - - - {final}'] += 1
                elif final and place != 'cancelled':
                    lines[f'{it} final {place} {place} - True'] += 1
            elif had[0] != place:
                kind = {'none': 'lost', 'cancelled': 'cancelled'}.get(place) or ('moved' if SLOT.match(had[0]) else 'found')
                lines[f'{it} {kind} {had[0] if SLOT.match(had[0]) else "-"} {place if SLOT.match(place) else "-"} {by or "-"} {final}'] += 1
            elif final and not had[2]:
                slot = place if SLOT.match(place) else '-'
                lines[f'{it} final {slot} {slot} {by or "-"} True'] += 1
    return lines


def slot_words(slot):
    return f"{slot['day']} {slot['start']}-{slot['stop']}" if slot else '-'


def compare(office):
    with concurrent.futures.ThreadPoolExecutor(4) as pool:
        rounds = list(pool.map(lambda it: states(f'{office.rounds}/{it}/rooms.db', office.server), sorted(os.listdir(office.rounds))))
    wanted = wanted_news(rounds)
    with open(f'{CACHE}/{office.name}/news.json', encoding='ascii') as it:
        items = json.load(it)['items']
    found = collections.Counter(f"{it['id']} {it['kind']} {slot_words(it['from'])} {slot_words(it['to'])} {it['by'] or '-'} {it['mark'] == 'C'}" for it in items)
    same(f'{office.name}: in the news and not so', sorted((found - wanted).elements()), [])
    same(f'{office.name}: so and not in the news', sorted((wanted - found).elements()), [])
    same(f'{office.name}: the last copy is the database', rounds[-1], states(f'{STATE}/{office.name}/rooms.db', office.server))
    keys = [it['key'] for it in items]
    same(f'{office.name}: keys are unique', len(set(keys)), len(keys))
    same(f'{office.name}: keys have their form', [it for it in keys if not re.fullmatch(r'[1-9]\d?-[1-9]\d{0,8}\.\d{10,11}', it)], [])
    with open(office.handed, encoding='ascii') as it:
        same(f'{office.name}: the hook gets each once', [line.split('\t')[0] for line in it], keys)
    kinds = collections.Counter(it['kind'] for it in items)
    counted = collections.Counter()
    for number, words in re.findall(r'(\d+) (lost the room|moved|found a room|cancelled|without a room|final)', '\n'.join(re.findall(r'^news: .*', office.journal, re.M))):
        counted[{'lost the room': 'lost', 'found a room': 'found', 'without a room': 'none'}.get(words, words)] += int(number)
    same(f'{office.name}: the journal counts them', counted, kinds)
    print(f'{office.name}: {len(rounds)} rounds, {len(rounds[-1])} requests, {dict(kinds)}')
    return kinds


def main():
    offices = run_week()
    same('requests', sum(len(it.ids) for it in offices), REQUESTS)
    kinds = compare(offices[0]) + compare(offices[1])
    # a week in which nothing happened would show nothing
    same('what a merge does came', [kind for kind in ('lost', 'moved', 'cancelled', 'final') if not kinds[kind]], [])
    print(f'{passed} passed, {failed} failed')
    return 1 if failed else 0


if __name__ == '__main__':
    sys.exit(main())
