#!/usr/bin/env python3
"""Questions, as commands on a database, read its files and write none, make none, and stand beside each other.

    questions.py PROGRAM FOLDER

Each question is asked of the database as it is, of one that may not be written, on a disk with no room, beside commands that change it, and
of files that are no database's. After each the files have the bytes and the times that they had, and the folder has no file more.
"""

import fcntl
import os
import resource
import shutil
import signal
import sqlite3
import struct
import subprocess
import sys

sys.path.insert(0, os.path.join(os.path.dirname(os.path.abspath(__file__)), '..', 'oracle'))

from calls import Served, call, done, empty
from tables import KEPT, copy_database

STORE = (b'refused 25 Store\n', 1)
NONE = (b'refused 26 NotAReplica\n', 1)
POSITION = b'mp2 1 1\nK 1\nV 1 2\nE\n'
BATCH = b'mr2 1 1\nW 1 1 1 oak 60 1995-12-18 13:30 0 Alpha\nC 1 1 1\nW 1 2 2 oak 15 1995-12-18 14:00 0 Beta\nE\n'
SHEET = b'oak 1995-12-18 Monday\n13:30-14:30 C 1-1 Alpha\n'
# each question with its reply, in a database of one booking, which is committed, and a request that found no slot
REPLIES = {
    'position': POSITION,
    'sheet oak 1995-12-18': SHEET,
    'calendar oak full': b'oak full\n1995-12-18 13:30-14:30 C 1-1 Alpha\n',
    'calendar oak committed': b'oak committed\n1995-12-18 13:30-14:30 C 1-1 Alpha\n',
    'outcome oak 1-2': b'1-2 T logged\n',
    'errors oak': b'oak errors\nT 1-2 1995-12-18 14:00-14:15 Beta\n',
}
# the bytes of a file that SQLite's locks are of
LOCKED, LOCK_LENGTH = 1 << 30, 512


def lock(file, kind):
    """Locks these bytes for the open file, not for this process, which would lose a lock by closing the file elsewhere."""
    fcntl.fcntl(file, fcntl.F_OFD_SETLK, struct.pack('hhqqi4x', kind, os.SEEK_SET, LOCKED, LOCK_LENGTH, 0))


def no_room():
    """No file may be written."""
    signal.signal(signal.SIGXFSZ, signal.SIG_IGN)
    resource.setrlimit(resource.RLIMIT_FSIZE, (0, 0))


class Questions:
    def __init__(self, program, folder):
        self.program, self.folder = program, folder
        self.passed, self.failed = 0, []
        self.base, self.file = f'{folder}/base.db', f'{folder}/asked.db'
        for words in (['init', 1, 1], ['add-room', 'oak'], ['book', 'oak', 60, '1995-12-18', '13:30', 'Alpha'], ['commit', 1],
                      ['book', 'oak', 15, '1995-12-18', '14:00', 'Beta']):
            done(program, words[0], self.base, *words[1:])

    def told(self, name, is_right):
        if is_right:
            self.passed += 1
        else:
            self.failed.append(name)
            print(f'FAILED: {name}', flush=True)

    def anew(self):
        copy_database(self.base, self.file)

    def state(self):
        """What the folder has, and of the database's files the bytes, the times and the rights."""
        folder = os.path.dirname(self.file)
        files = {}
        for end in ('', '-wal'):
            if os.path.isfile(self.file + end):
                found = os.stat(self.file + end)
                with open(self.file + end, 'rb') as file:
                    files[end] = file.read(), found.st_mtime_ns, found.st_ctime_ns, found.st_ino, found.st_mode
        return sorted(os.listdir(folder)), files

    def ask(self, name, question='sheet oak 1995-12-18', wanted=None, **how):
        """The question has this reply, or the one that it has of the database, and leaves all as it is."""
        first, *rest = question.split(' ')
        before = self.state()
        told = call(self.program, first, self.file, *rest, **how)
        self.told(f'{name}: {question}: {told}', told == (wanted or (REPLIES[question], 0)))
        self.told(f'{name}: {question}: what is left', self.state() == before)

    def ask_all(self, name, wanted=None, **how):
        for question in REPLIES:
            self.ask(name, question, wanted, **how)

    def as_it_is(self):
        """With its log, without one, by a link, and with a batch to be written."""
        self.anew()
        self.ask_all('as it is')
        os.remove(self.file + '-wal')
        self.ask_all('without a log')
        self.anew()
        usual, self.file = self.file, f'{self.folder}/link.db'
        os.symlink('asked.db', self.file)
        self.ask_all('by a link')
        os.remove(self.file)
        self.file = usual
        with open(f'{self.folder}/none', 'wb') as position:
            position.write(b'mp2 2 1\nK 0\nE\n')
        with open(f'{self.folder}/batch', 'wb'):
            pass
        self.ask('for a batch', f'export {self.folder}/none {self.folder}/batch 9', (b'wrote %d bytes\n' % len(BATCH), 0))
        with open(f'{self.folder}/batch', 'rb') as batch:
            self.told('the batch', batch.read() == BATCH)

    def not_writable(self):
        """Whoever may only read, the file and the folder, is answered; root asks as somebody else."""
        folder, is_root = f'/tmp/rooms-questions-{os.getpid()}', os.getuid() == 0
        who = {'user': 65534, 'group': 65534, 'extra_groups': []} if is_root else {}
        os.mkdir(folder, 0o755)
        usual = self.program, self.file
        try:
            self.program, self.file = shutil.copy(self.program, folder), f'{folder}/asked.db'
            for has_log in (True, False):
                self.anew()
                if not has_log:
                    os.remove(self.file + '-wal')
                for end in ('', '-wal')[:1 + has_log]:
                    os.chmod(self.file + end, 0o444)
                os.chmod(folder, 0o555)
                self.ask_all('may not be written', **who)
                self.told('a booking there', call(self.program, 'book', self.file, 'oak', 15, '1995-12-18', '09:00', 'x', **who) == STORE)
                os.chmod(folder, 0o755)
                for end in ('', '-wal')[:1 + has_log] if is_root else ():
                    os.chmod(self.file + end, 0o000)
                    self.ask_all(f'{end or "the file"} may not be read', STORE, **who)
                    os.chmod(self.file + end, 0o644)
        finally:
            self.program, self.file = usual
            shutil.rmtree(folder)

    def full_disk(self):
        """No file may grow, and a file system with no room, where one may be mounted."""
        self.anew()
        self.ask_all('no file may be written', preexec_fn=no_room)
        disk = f'{self.folder}/disk'
        os.makedirs(disk)
        if os.getuid() != 0 or subprocess.run(['mount', '-t', 'tmpfs', '-o', 'size=1m', 'tmpfs', disk],
                                              stderr=subprocess.DEVNULL, check=False).returncode != 0:
            print('skipped: questions on a full file system (none may be mounted)')
        else:
            usual, self.file = self.file, f'{disk}/asked.db'
            try:
                self.anew()
                with open(f'{disk}/full', 'wb', buffering=0) as full:
                    try:
                        while full.write(bytes(4096)):
                            pass
                    except OSError:
                        pass
                self.ask_all('on a full disk')
                os.remove(self.file + '-wal')
                self.ask_all('on a full disk, without a log')
            finally:
                subprocess.run(['umount', disk], check=True)
                self.file = usual
        os.rmdir(disk)

    def at_once(self):
        """Eight at once, several times: each is answered."""
        self.anew()
        before, answered = self.state(), 0
        for _ in range(12):
            asked = [subprocess.Popen([self.program, 'sheet', self.file, 'oak', '1995-12-18'], stdin=subprocess.DEVNULL, stdout=subprocess.PIPE)
                     for _ in range(8)]
            answered += sum(process.communicate()[0] == SHEET for process in asked)
        self.told(f'eight sheets at once, twelve times: {answered} answered', answered == 96)
        self.told('eight sheets at once: what is left', self.state() == before)

    def beside_locks(self):
        """Beside whoever reads a question is answered and a booking isn't, and beside whoever writes neither is."""
        book = ['book', self.file, 'oak', 15, '1995-12-18', '09:00', 'x']
        for end in ('', '-wal'):
            self.anew()
            with open(self.file + end, 'r+b') as file:
                lock(file, fcntl.F_RDLCK)
                self.ask_all(f'beside a reader of {end or "the file"}')
                self.told(f'a booking beside a reader of {end or "the file"}', call(self.program, *book) == STORE)
            with open(self.file + end, 'r+b') as file:
                lock(file, fcntl.F_WRLCK)
                self.ask_all(f'beside a writer of {end or "the file"}', STORE)
            self.ask_all('once it is alone')

    def beside_server(self):
        """Beside `serve` it is refused. A copy of the files taken meanwhile, and the files once it was killed, have what was booked, which lies in
        the log alone."""
        self.anew()
        served = Served(self.program, self.file, f'{self.folder}/lines')
        self.ask_all('beside a server', STORE)
        body = b'{"day":"1995-12-18","length":30,"room":"oak","start":"09:00","title":"Gamma"}'
        reply = served.ask(b'POST /submit HTTP/1.1\r\nContent-Length: %d\r\n\r\n' % len(body) + body)
        self.told('a server books', b'"id":"1-3"' in reply)
        sheet = SHEET.replace(b'Monday\n', b'Monday\n09:00-09:30 T 1-3 Gamma\n'), 0
        position = POSITION.replace(b'V 1 2', b'V 1 3'), 0
        usual, self.file = self.file, f'{self.folder}/copied.db'
        copy_database(usual, self.file)
        self.ask('a copy from beside a server', wanted=sheet)
        self.ask('a copy from beside a server', 'position', position)
        served.end()
        self.file = usual
        self.ask('after the server was killed', wanted=sheet)
        self.ask('after the server was killed', 'position', position)
        self.ask('after the server was killed, no file may be written', wanted=sheet, preexec_fn=no_room)
        with open(self.file, 'rb') as file:
            self.told('what was booked lies in the log alone', b'Gamma' not in file.read())
        self.told('a booking after it', call(self.program, 'book', self.file, 'oak', 15, '1995-12-18', '08:00', 'x') == (b'1-4 T 1995-12-18 08:00-08:15\n', 0))

    def beside_sqlite(self):
        """SQLite has an index of the log beside it while it has the database open, and a question is refused then. Where it left one, the question
        opens the database as other commands do, and is answered."""
        self.anew()
        other = sqlite3.connect(self.file)
        other.execute('select * from meta').fetchall()
        self.told('SQLite has its index', os.path.exists(self.file + '-shm'))
        told = call(self.program, 'sheet', self.file, 'oak', '1995-12-18')
        self.told(f'beside SQLite: {told}', told == STORE)
        other.close()
        self.ask_all('after SQLite')
        with open(self.file + '-shm', 'wb'):
            pass
        told = call(self.program, 'sheet', self.file, 'oak', '1995-12-18')
        self.told(f'beside an index that was left: {told}', told == (SHEET, 0))
        os.remove(self.file + '-shm')

    def no_files(self):
        """What isn't opened, since somebody would have to come to its other end, and what isn't there: below a file."""
        self.anew()
        pipe, device = f'{self.folder}/pipe', f'{self.folder}/device'
        os.mkfifo(pipe)
        os.symlink('/dev/zero', device)
        for path, wanted in ((pipe, STORE), (device, STORE), (f'{self.file}/x', NONE)):
            for command in ('position', 'sheet oak 1995-12-18', 'add-room ash', 'commit 1', 'truncate 1', f'bridge {self.base}'):
                word, *more = command.split()
                try:
                    ran = subprocess.run([self.program, word, path, *more], stdin=subprocess.DEVNULL, stdout=subprocess.PIPE, timeout=20, check=False)
                    told = ran.stdout, ran.returncode
                except subprocess.TimeoutExpired:
                    told = None
                self.told(f'{command} of {path}: {told}', told == wanted)
        os.remove(pipe)
        os.remove(device)

    def other_files(self):
        """What a command that changes refuses, a question refuses too."""
        self.anew()
        for end in ('', '-wal'):
            os.link(self.file + end, f'{self.folder}/second')
            self.ask_all(f'a second name of {end or "the file"}', STORE)
            os.remove(f'{self.folder}/second')
        os.rename(self.file + '-wal', f'{self.folder}/second')
        os.symlink('second', self.file + '-wal')
        self.ask_all('a link in the place of the log', STORE)
        os.remove(self.file + '-wal')
        os.mkdir(self.file + '-wal')
        self.ask_all('a folder in the place of the log', STORE)
        os.rmdir(self.file + '-wal')
        with open(self.file + '-journal', 'wb') as journal:
            journal.write(b'\xd9')
        self.ask_all('beside a journal of SQLite', STORE)
        with open(self.file + '-journal', 'wb') as journal:
            journal.write(b'\0')
        self.ask_all('beside a journal that was played back')
        os.remove(self.file + '-journal')
        with open(self.file, 'wb'):
            pass
        self.ask_all('an empty file', NONE)
        os.remove(self.file)
        self.ask_all('no file', NONE)
        os.symlink('nothing', self.file)
        self.ask_all('a link to nothing', NONE)
        os.remove(self.file)
        os.mkdir(self.file)
        self.ask_all('a folder', STORE)
        os.rmdir(self.file)
        with open(self.file, 'wb') as file:
            file.write(b'no database' * 999)
        self.ask_all('no database', STORE)

    def first_schema(self):
        """Tables of the first schema are moved up in their file, by a question too, and the next one leaves it as it is."""
        copy_database(KEPT, self.file)
        before = self.state()
        wanted = b'mp2 7 3\nK 6\nV 3 3\nV 7 6\nE\n', 0
        self.told('a question of the first schema', call(self.program, 'position', self.file) == wanted)
        self.told('it is moved up', self.state() != before)
        self.ask('once it is moved up', 'position', wanted)


def main():
    program, folder = sys.argv[1:]
    questions = Questions(os.path.abspath(program), empty(folder))
    for kind in (questions.as_it_is, questions.not_writable, questions.full_disk, questions.at_once, questions.beside_locks, questions.beside_server,
                 questions.beside_sqlite, questions.no_files, questions.other_files, questions.first_schema):
        kind()
    print(f'{questions.passed} passed, {len(questions.failed)} failed')
    sys.exit(1 if questions.failed else 0)


if __name__ == '__main__':
    main()
