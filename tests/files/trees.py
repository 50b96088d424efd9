#!/usr/bin/env python3
"""A question about a room is answered from the trees of a copy of the database, or by SQL where these trees aren't taken. Both answer alike, and refuse
alike.

    trees.py PROGRAM FOLDER [DAMAGED]

How often a question opens the database file tells which way it went: once by the trees, and twice where these weren't taken. A twin of the database whose
pages are larger, made by SQLite, is asked by SQL. DAMAGED files (200 if it isn't given) have some bytes changed: what is refused for `position`, which SQL
opens, is refused for questions too.
"""

import contextlib
import ctypes
import os
import random
import sqlite3
import struct
import sys

HERE = os.path.dirname(os.path.abspath(__file__))
sys.path[1:1] = [os.path.join(HERE, 'damaged'), os.path.join(HERE, '..', 'oracle')]

from bases import DAY, LONG, OTHER, STEPS, step
from calls import call, done
from tables import KEPT, copy_database

SEED = 79
OPENED, CLOSED = 0x20, 0x18
BY_TREES, BY_SQL = 1, 2
STORE, NONE = b'refused 25 Store\n', b'refused 26 NotAReplica\n'
LIBC = ctypes.CDLL(None, use_errno=True)


class Watched:
    """How often a file is opened, as the kernel reports it."""

    def __init__(self, path):
        self.events = LIBC.inotify_init1(os.O_NONBLOCK)
        if self.events < 0 or LIBC.inotify_add_watch(self.events, os.fsencode(path), OPENED | CLOSED) < 0:
            raise OSError(ctypes.get_errno(), 'no watch')

    def opens(self):
        found = b''
        with contextlib.suppress(BlockingIOError):
            while more := os.read(self.events, 65536):
                found += more
        os.close(self.events)
        at, count = 0, 0
        while at < len(found):
            _, mask, _, length = struct.unpack_from('iIII', found, at)
            count += mask & OPENED != 0
            at += 16 + length
        return count


def changed(path, *statements):
    """Statements on the database, by SQLite; then it stands alone."""
    with contextlib.closing(sqlite3.connect(path, isolation_level=None)) as database:
        for statement in statements:
            database.execute(statement)
        database.execute('PRAGMA wal_checkpoint(TRUNCATE)')


def twin(source, target):
    """The same rows in pages of another size."""
    copy_database(source, target)
    changed(target, 'PRAGMA journal_mode = DELETE', 'PRAGMA page_size = 8192', 'VACUUM', 'PRAGMA journal_mode = WAL')


def beside_index(path, table, *statements):
    """Statements on a table whose index doesn't follow."""
    with contextlib.closing(sqlite3.connect(path)) as database:
        rows = list(database.execute('SELECT rowid, type, name, tbl_name, rootpage, sql FROM sqlite_schema WHERE tbl_name = ?', (table,)))
    loose = rows[0][5].replace(', PRIMARY KEY (server, n)', '').replace(' UNIQUE', '').replace(' PRIMARY KEY', '')
    changed(path, 'PRAGMA writable_schema = ON', f"DELETE FROM sqlite_schema WHERE type = 'index' AND tbl_name = '{table}'",
            f"UPDATE sqlite_schema SET sql = '{loose}' WHERE name = '{table}'")
    changed(path, *statements)
    index = rows[1]
    changed(path, 'PRAGMA writable_schema = ON', f"UPDATE sqlite_schema SET sql = '{rows[0][5]}' WHERE name = '{table}'",
            f"INSERT INTO sqlite_schema (rowid, type, name, tbl_name, rootpage, sql) VALUES ({index[0]}, 'index', '{index[2]}', '{table}', {index[4]}, NULL)")


QUESTIONS = [line.split(' ') for line in (
    *(f'{of} {room}{words}' for room in ('oak', 'elm', LONG, 'none-such') for of, words in
      (('calendar', ' full'), ('calendar', ' committed'), ('errors', ''), ('sheet', f' {DAY}'), ('sheet', f' {OTHER}'))),
    *(f'outcome oak {server}-{n}' for server in (1, 2, 3) for n in (1, 2, 3, 5, 7, 8)), 'outcome elm 2-3', 'outcome oak 1-x', 'sheet Oak 1995-12-18',
    'sheet oak 1995-02-30')]
A_SHEET = ['sheet', 'oak', DAY]

# what SQL refuses, or answers, of a database that isn't quite ours
TURNS = [
    ('a view', NONE, ['CREATE VIEW shown AS SELECT name FROM room']),
    ('a trigger', None, ['CREATE TRIGGER put AFTER INSERT ON room BEGIN SELECT 1; END']),
    ('another table', NONE, ['CREATE TABLE note (title TEXT)']),
    ('another index', NONE, ['CREATE INDEX by_room ON booking (room)']),
    ('another column', NONE, ['ALTER TABLE room ADD COLUMN size INTEGER']),
    ('another schema number', NONE, ['UPDATE meta SET schema = 3']),
    ('no row of meta', NONE, ['DELETE FROM meta']),
    ('two rows of meta', STORE, ['INSERT INTO meta SELECT 2, schema, server, prim, commits, dropped, clock FROM meta']),
    ('a row of write_log', STORE, ["INSERT INTO write_log VALUES (1, 1, 1, 'oak', 30, '', 'x', 0)"]),
    ('a row of undo', STORE, ['INSERT INTO undo VALUES (1, 1, 0)']),
    ('no clock', STORE, ['UPDATE meta SET clock = 0']),
    *((f'a row of {table} beyond its limits', STORE, [f'UPDATE {table} SET {column} = {value} WHERE rowid = (SELECT max(rowid) FROM {table})'])
      for table, column, value in (('room', 'name', "'Oak'"), ('vector', 'tm', 0), ('log', 'kind', 2), ('booking', 'stop', 1441), ('errorlog', 'title', "''"),
                                   ('cancelled', 'bn', 0), ('cancel', 'done', 2))),
]
# an entry that an index lacks or has too much, and two rows with one key
BESIDE = [('booking', ["DELETE FROM booking WHERE rowid = (SELECT max(rowid) FROM booking)"]),
          ('booking', ['INSERT INTO booking SELECT * FROM booking LIMIT 1']),
          ('log', ['UPDATE log SET n = n + 100 WHERE rowid = (SELECT min(rowid) FROM log)']),
          ('cancel', ['INSERT INTO cancel SELECT * FROM cancel LIMIT 1']),
          ('room', ["INSERT INTO room VALUES ('zoo')"]),
          ('vector', ['INSERT INTO vector SELECT * FROM vector LIMIT 1'])]


class Trees:
    def __init__(self, program, folder):
        self.program, self.folder, self.passed, self.failed = program, folder, 0, 0
        self.file, self.other = f'{folder}/asked.db', f'{folder}/other.db'

    def told(self, name, is_right):
        self.passed += is_right
        if not is_right:
            self.failed += 1
            print(f'FAILED: {name}', flush=True)

    def asked(self, path, words):
        """The reply with its status, and how often the file was opened."""
        watched = Watched(path)
        reply = call(self.program, words[0], path, *words[1:])
        return reply, watched.opens()

    def alike(self, name, path):
        """Each question of the database goes by its trees, and is answered as SQL answers it of the twin."""
        twin(path, self.other)
        for words in QUESTIONS:
            (reply, opened), (wanted, by_sql) = self.asked(path, words), self.asked(self.other, words)
            self.told(f'{name}: {" ".join(words)}: {reply}, and {wanted} by SQL', reply == wanted)
            self.told(f'{name}: {" ".join(words)}: opened {opened} and {by_sql} times', (opened, by_sql) == (BY_TREES, BY_SQL))

    def made(self):
        """After each command on databases of four offices, from the very first on."""
        for server in '1234':
            done(self.program, 'init', f'{self.folder}/{server}.db', server, 1)
        self.alike('just made', f'{self.folder}/1.db')
        for count, line in enumerate(STEPS.strip().splitlines()):
            step(self.program, self.folder, line)
            self.alike(f'after command {count}, {line}', f'{self.folder}/{line.split()[1 if line.startswith("bridge") else 0]}.db')

    def refused(self, name, wanted):
        """The turned database is asked by SQL in the end, and answers as it did before there were trees; `position` is asked by SQL alone."""
        (reply, status), opened = self.asked(self.file, A_SHEET)
        position = call(self.program, 'position', self.file)
        self.told(f'{name}: {reply}', wanted in (None, reply) and status == 1)
        self.told(f'{name}: opened {opened} times', opened == BY_SQL)
        self.told(f'{name}: {reply}, and {position} of a position', position == (reply, status))

    def turned(self):
        for name, wanted, statements in TURNS:
            copy_database(f'{self.folder}/2.db', self.file)
            changed(self.file, *statements)
            self.refused(name, wanted)
        for table, statements in BESIDE:
            copy_database(f'{self.folder}/2.db', self.file)
            beside_index(self.file, table, *statements)
            self.refused(f'{statements[0]}, and the index as it was', STORE)
        copy_database(KEPT, self.file)
        first = self.asked(self.file, ['calendar', 'oak', 'full'])
        self.told(f'a database of the first schema: {first}', first[0][1] == 0 and first[1] > BY_SQL)
        self.told('and once it is moved up', self.asked(self.file, ['calendar', 'oak', 'full']) == (first[0], BY_TREES))

    def damaged(self, count):
        """Bytes are changed anywhere in the file."""
        chance, refused = random.Random(SEED), 0
        changed(f'{self.folder}/2.db')
        with open(f'{self.folder}/2.db', 'rb') as file:
            whole = file.read()
        for number in range(count):
            damaged = bytearray(whole)
            for _ in range(chance.choice((1, 1, 2, 10, 100))):
                damaged[chance.randrange(len(damaged))] = chance.randrange(256)
            copy_database(f'{self.folder}/2.db', self.file)
            with open(self.file, 'wb') as file:
                file.write(damaged)
            position = call(self.program, 'position', self.file)
            refused += position[1] != 0
            for words in (A_SHEET, ['calendar', 'elm', 'full'], ['outcome', 'oak', '2-1'], ['errors', 'oak']):
                reply, status = call(self.program, words[0], self.file, *words[1:])
                is_right = (reply, status) == position if position[1] else status == 0 or reply.startswith(b'refused ') and reply not in (STORE, NONE)
                self.told(f'damaged file {number}: {words}: {reply}, {status}; of a position {position}', is_right)
        print(f'of {count} damaged files {refused} are refused', flush=True)


def main():
    program, folder = sys.argv[1:3]
    os.makedirs(folder, exist_ok=True)
    trees = Trees(program, folder)
    trees.made()
    trees.turned()
    trees.damaged(int(sys.argv[3]) if len(sys.argv) > 3 else 200)
    print(f'{trees.passed} passed, {trees.failed} failed')
    sys.exit(trees.failed != 0)


if __name__ == '__main__':
    main()
