#!/usr/bin/env python3
"""Killed commands, limited files, closed outputs, and commands at once, on a database of some thousand bookings.

    faults.py PROGRAM FOLDER KILLS SEED

After a fault the rows of the database, read by Python's sqlite3 from a copy, are those from before the command or those after it, and
after it once its reply was printed; the program shows the same. What was done is counted in the last line.
"""

import os
import random
import shutil
import signal
import subprocess
import sys
import threading
import time

import resource

sys.path.insert(0, os.path.join(os.path.dirname(os.path.abspath(__file__)), '..', 'oracle'))

from calls import Served, call, done, empty
from oracle import RULES
from tables import copy_database, rows_of

BOOKINGS = 3000
BOOK = ['book', 'elm', '60', '1995-12-18', '14:00', 'Alpha', '1995-12-18T15:00']
STORE = (b'refused 25 Store\n', 1)
# how many of a hundred kills each command gets; the rest are those of a server
SHARES = {'book': 20, 'commit': 20, 'import': 20, 'cancel': 20} if RULES.has_cancels else {'book': 30, 'commit': 25, 'import': 25}


def batch_of(server, count, first=1):
    """A batch of bookings of a quarter of an hour in five rooms; each tenth finds its slot taken."""
    lines = [f'mr1 {server} 1']
    for n in range(first, first + count):
        slot, day = n % 96 if n % 10 else 1, n // 96
        lines.append(f'W {server} {n} {n} oak-{n % 5} 15 {1995 + day // 336}-{day // 28 % 12 + 1:02}-{day % 28 + 1:02} '
                     f'{slot // 4:02}:{slot % 4 * 15:02} 0 Meeting {n}')
    return '\n'.join(lines + ['E', ''])


class Faults:
    def __init__(self, program, folder, kills, seed):
        self.program, self.folder, self.kills, self.rng = program, empty(folder), kills, random.Random(seed)
        self.passed, self.failed = 0, []
        self.count = {'kills': 0, 'refused': 0}
        self.base, self.file, self.batch = f'{folder}/base.db', f'{folder}/tried.db', f'{folder}/batch'
        for name, text in (('first', batch_of(2, BOOKINGS)), ('batch', batch_of(3, 120))):
            with open(f'{folder}/{name}', 'w', encoding='ascii') as out:
                out.write(text)
        for words in (['init', self.base, 1, 1], ['import', self.base, f'{folder}/first'], ['add-room', self.base, 'elm'],
                      ['commit', self.base, 1000]):
            done(program, *words)
        self.before = rows_of(self.base)
        self.commands = {'book': BOOK, 'commit': ['commit', '500'], 'import': ['import', self.batch]}
        if RULES.has_cancels:
            self.commands['cancel'] = ['cancel', 'oak-1', '2-1']

    def words(self, name):
        first, *rest = self.commands[name]
        return [self.program, first, self.file, *rest]

    def told(self, name, is_right):
        if is_right:
            self.passed += 1
        else:
            self.failed.append(name)
            print(f'FAILED: {name}', flush=True)

    def whole(self, name):
        """What a command that meets no fault prints, how long it takes, and the rows after it."""
        copy_database(self.base, self.file)
        start = time.monotonic()
        printed = done(*self.words(name))
        return printed, time.monotonic() - start, rows_of(self.file)

    def after_fault(self, name, after, is_acknowledged):
        """The rows are those before or after; the program shows what these rows say. Returns them."""
        rows = rows_of(self.file)
        self.told(f'{name}: before or after', rows == after or rows == self.before and not is_acknowledged)
        position, status = call(self.program, 'position', self.file)
        self.told(f'{name}: the position', status == 0 and position.startswith(b'mp%d 1 1\nK %d\n' % (RULES.version, rows['meta'][0][4])))
        self.told(f'{name}: no row is lost by showing it', rows_of(self.file) == rows)
        return rows

    def killed(self, name):
        """At random moments, so long after the start that about a quarter of the commands are done by then, however busy the machine."""
        printed, span, after = self.whole(name)
        kills, count = self.kills * SHARES[name] // 100, 0
        for _ in range(kills):
            copy_database(self.base, self.file)
            process = subprocess.Popen(self.words(name), stdin=subprocess.DEVNULL, stdout=subprocess.PIPE, stderr=subprocess.DEVNULL)
            time.sleep(self.rng.random() * span)
            process.send_signal(signal.SIGKILL)
            acknowledged = process.communicate()[0]
            self.told(f'{name}, killed: what is printed', printed.startswith(acknowledged))
            is_done = self.after_fault(f'{name}, killed', after, acknowledged == printed) == after
            count += is_done
            span *= 0.9 if is_done else 1.035
        self.count['kills'] += kills
        print(f'{name}: killed {kills} times, {count} of them done')

    def killed_server(self):
        """Each submission that was answered is there, and at most the one in flight beside."""
        kills, answered = self.kills - self.count['kills'], 0
        for _ in range(kills):
            copy_database(self.base, self.file)
            served, ids = Served(self.program, self.file, f'{self.folder}/lines'), []
            killer = threading.Timer(self.rng.random() / 2, served.end)
            killer.start()
            self.submit(served, ids)
            killer.join()
            there = self.own_bookings()
            self.told('serve, killed: what was answered is there', set(ids) <= there and len(there) <= len(ids) + 1)
            self.told('serve, killed: the next command', call(self.program, 'position', self.file)[1] == 0 and self.own_bookings() == there)
            answered += len(ids)
        self.count['kills'] += kills
        print(f'serve: killed {kills} times, after {answered} answers')

    def own_bookings(self):
        """The ids of the server's own requests that are known."""
        rows = rows_of(self.file)
        return {(row[4], row[5]) for row in rows['booking'] + rows['errorlog'] if row[4] == 1}

    def submit(self, served, ids):
        while True:
            minute = len(ids) % 1440
            body = b'{"day":"2001-01-%02d","length":1,"room":"elm","start":"%02d:%02d","title":"x"}' % (
                len(ids) // 1440 + 1, minute // 60, minute % 60)
            try:
                reply = served.ask(b'POST /submit HTTP/1.1\r\nContent-Length: %d\r\n\r\n' % len(body) + body)
            except OSError:
                return
            if b'"state":"booked"' not in reply:
                return
            ids.append(tuple(map(int, reply.split(b'"id":"')[1].split(b'"')[0].split(b'-'))))

    def no_room(self, name, limit, told, whole, after):
        """A refusal by name, and nothing lost, or it is done; and it is done once there is room."""
        self.told(f'{name}, {limit}: printed {told}', told in (whole, STORE))
        rows = self.after_fault(f'{name}, {limit}', after, told == whole)
        self.count['refused'] += told == STORE
        if rows == self.before:
            self.told(f'{name}, {limit}, with room again', call(*self.words(name)) == whole and rows_of(self.file) == after)
        return told == STORE

    def full_disk(self, name):
        """No file may grow past a limit."""
        printed, _, after = self.whole(name)
        size, refused = os.path.getsize(self.base), 0
        for limit in [0, 1, 512, 4096, 8192, size - 4096, size, size + 4096] + [self.rng.randint(0, 2 * size) for _ in range(12)]:
            def limited():
                signal.signal(signal.SIGXFSZ, signal.SIG_IGN)
                resource.setrlimit(resource.RLIMIT_FSIZE, (limit, limit))
            copy_database(self.base, self.file)
            told = call(*self.words(name), preexec_fn=limited)
            refused += self.no_room(name, f'at most {limit} bytes a file', told, (printed, 0), after)
        print(f'{name}: 20 limits of files, {refused} refused')

    def small_disk(self, name):
        """The same on a file system that is full, where one may be mounted."""
        disk, tried, refused = f'{self.folder}/disk', 0, 0
        files = [self.base + end for end in ('', '-wal') if os.path.exists(self.base + end)]
        size = sum(os.path.getsize(file) // 4096 * 4096 + 4096 for file in files)
        os.makedirs(disk, exist_ok=True)
        printed, _, after = self.whole(name)
        for room in [0, 4096, 8192, 16384, 65536, size // 2, size, 2 * size] + [self.rng.randint(0, size) for _ in range(8)]:
            options = ['-t', 'tmpfs', '-o', f'size={(size + room + 4095) // 4096 * 4096}', 'tmpfs', disk]
            if os.getuid() != 0 or subprocess.run(['mount', *options], stderr=subprocess.DEVNULL, check=False).returncode != 0:
                print('skipped: a full file system (none may be mounted)')
                break
            usual, self.file = self.file, f'{disk}/tried.db'
            try:
                copy_database(self.base, self.file)
                told = call(*self.words(name))
                copy_database(self.file, usual)
            finally:
                subprocess.run(['umount', disk], check=True)
                self.file = usual
            tried += 1
            refused += self.no_room(name, f'{room} bytes left', told, (printed, 0), after)
        os.rmdir(disk)
        print(f'{name}: {tried} full file systems, {refused} refused')

    def closed_output(self, name):
        """Nobody takes the reply: status 3, and the command is done."""
        _, _, after = self.whole(name)
        for output in ('full', 'closed', 'gone'):
            copy_database(self.base, self.file)
            reader, writer = os.pipe()
            os.close(reader)
            target = open('/dev/full', 'wb') if output == 'full' else writer
            ran = subprocess.run(self.words(name), stdin=subprocess.DEVNULL, stdout=target, stderr=subprocess.DEVNULL, check=False,
                                 preexec_fn=(lambda: os.close(1)) if output == 'closed' else None)
            os.close(writer)
            self.told(f'{name}, output {output}: status {ran.returncode}', ran.returncode == 3)
            self.after_fault(f'{name}, output {output}', after, True)

    def at_once(self, crowd, times):
        """Bookings in the same file at the same time: each is done or refused by name, and nothing is lost."""
        done_ids, refused = [], 0
        copy_database(self.base, self.file)
        for _ in range(times):
            processes = [subprocess.Popen(self.words('book'), stdin=subprocess.DEVNULL, stdout=subprocess.PIPE) for _ in range(crowd)]
            for process in processes:
                printed = process.communicate()[0]
                if process.returncode == 0:
                    done_ids.append((1, int(printed.split(b' ')[0].split(b'-')[1])))
                else:
                    refused += 1
                    self.told(f'one of {crowd} at once: printed {printed}', (printed, process.returncode) == STORE)
        there = self.own_bookings()
        is_whole = sorted(there) == sorted(done_ids) == [(1, n) for n in range(1, len(there) + 1)]
        self.told(f'of {crowd} at once nothing is lost', is_whole and done_ids)
        print(f'{crowd} at once, {times} times: {len(done_ids)} done, {refused} refused')

    def different_at_once(self):
        """One of each command at once: the rows are those after some of them, one after the other."""
        done_names = {}
        for _ in range(8):
            copy_database(self.base, self.file)
            processes = {name: subprocess.Popen(self.words(name), stdin=subprocess.DEVNULL, stdout=subprocess.PIPE) for name in self.commands}
            told = {name: (process.communicate()[0], process.returncode) for name, process in processes.items()}
            names = [name for name in told if told[name] != STORE]
            self.told(f'different commands at once: {told}', all(told[name][1] == 0 for name in names))
            rows = rows_of(self.file)
            is_there = {'book': bool(self.own_bookings()), 'commit': rows['meta'][0][4] > self.before['meta'][0][4],
                        'import': any(row[0] == 3 for row in rows['vector']), 'cancel': bool(rows.get('cancel'))}
            self.told(f'different commands at once, {names}: {is_there}', all(is_there[name] == (name in names) for name in told))
            done_names[len(names)] = done_names.get(len(names), 0) + 1
        print(f'different commands at once, 8 times: {done_names}')

    def not_writable(self, name):
        """A file, or a folder, that may not be written by who calls: refused by name, nothing changed; root calls as somebody else."""
        folder, is_root = f'/tmp/rooms-faults-{os.getpid()}', os.getuid() == 0
        who = {'user': 65534, 'group': 65534, 'extra_groups': []} if is_root else {}
        printed, _, after = self.whole(name)
        os.mkdir(folder, 0o755)
        usual, refused = (self.program, self.file), 0
        try:
            self.program, self.file = shutil.copy(self.program, folder), f'{folder}/tried.db'
            self.commands['import'] = ['import', shutil.copy(self.batch, folder)]
            os.chmod(f'{folder}/batch', 0o644)
            for mine, file_mode, folder_mode in ((True, 0o444, 0o777), (True, 0o644, 0o555), (True, 0o444, 0o555), (False, 0o400, 0o777),
                                                 (False, 0o644, 0o777), (False, 0o644, 0o555)):
                if not (mine or is_root):
                    continue
                copy_database(self.base, self.file)
                files = [self.file + end for end in ('', '-wal') if os.path.exists(self.file + end)]
                for file in files:
                    os.chmod(file, file_mode)
                    if mine and is_root:
                        os.chown(file, 65534, 65534)
                os.chmod(folder, folder_mode)
                told = call(*self.words(name), **who)
                os.chmod(folder, 0o755)
                told_of = f'{name}, {file_mode:o} of {"mine" if mine else "another"} in {folder_mode:o}'
                # a file that may be written needs no other place in the folder, as long as its log is there
                self.told(f'{told_of}: printed {told}', told == STORE or told == (printed, 0) and (mine, file_mode) == (True, 0o644))
                self.told(f'{told_of}: the rows', rows_of(self.file) == (self.before if told == STORE else after))
                refused += told == STORE
                for file in files:
                    os.chmod(file, 0o644)
                    if is_root:
                        os.chown(file, 0, 0)
                if told == STORE:
                    self.told(f'{told_of}, and then allowed', call(*self.words(name)) == (printed, 0) and rows_of(self.file) == after)
        finally:
            self.program, self.file = usual
            self.commands['import'] = ['import', self.batch]
            shutil.rmtree(folder)
        print(f'{name}: files and folders that may not be written, {refused} refused')


def main():
    program, folder, kills, seed = sys.argv[1:]
    faults = Faults(os.path.abspath(program), folder, int(kills), int(seed))
    for name in faults.commands:
        faults.killed(name)
    faults.killed_server()
    for name in ('book', 'import'):
        faults.full_disk(name)
        faults.small_disk(name)
        faults.closed_output(name)
        faults.not_writable(name)
    faults.at_once(2, 12)
    faults.at_once(24, 4)
    faults.different_at_once()
    print(f'{faults.passed} passed, {len(faults.failed)} failed; {faults.count["kills"]} kills, {faults.count["refused"]} refused for want of room')
    sys.exit(1 if faults.failed else 0)


if __name__ == '__main__':
    main()
