"""Databases of the program as Python's sqlite3 reads them: copies with the store's log, all rows, and the rows that stand for a replica of
oracle.py. Rows are dictionaries from the name of a table to its rows, in order."""

import os
import shutil
import sqlite3

import oracle

# A database of the first schema.
KEPT = os.path.join(os.path.dirname(os.path.abspath(__file__)), '..', 'files', 'kept', 'first.sqlite')

# The columns of the tables of the first schema, and of the second one, which has `log` in place of `write_log` and `undo`: in a database
# of the second schema these two may be there, without rows.
COMMON = {'meta': 'one schema server prim commits dropped clock', 'room': 'name', 'vector': 'server n tm committed',
          'booking': 'room day start stop server n title committed', 'errorlog': 'room day start stop server n title tm seq'}
OLD = {'write_log': 'server n tm room length choices title seq', 'undo': 'server n place'}
NEW = {'log': 'server n tm room kind length choices title tserver tn place seq',
       'cancelled': 'room day start stop server n title committed bserver bn', 'cancel': 'server n room tserver tn done tm seq'}
PLACES = {'logged': -1, 'done': -2, 'void': -3}


def copy_database(source, target):
    """The file and the store's log; where there is no source, there is no target."""
    for end in ('', '-wal'):
        if os.path.exists(target + end):
            os.remove(target + end)
        if os.path.exists(source + end):
            shutil.copyfile(source + end, target + end)


def rows_of(path):
    """All rows of all tables, as the stock library reads them from a copy. Whole databases alone are read."""
    aside = path + '.aside'
    copy_database(path, aside)
    with sqlite3.connect(aside) as database:
        assert database.execute('PRAGMA integrity_check').fetchall() == [('ok',)], path
        names = {name for name, in database.execute("SELECT name FROM sqlite_schema WHERE type = 'table'")}
        tables = COMMON | NEW if 'log' in names else COMMON | OLD
        assert names in (set(tables), set(tables | OLD)), names
        rows = {name: sorted(database.execute(f'SELECT {columns.replace(" ", ", ")} FROM {name}')) for name, columns in tables.items()}
        assert 'log' not in tables or all(not database.execute(f'SELECT * FROM {name}').fetchall() for name in names & set(OLD))
    database.close()
    known = sum(count for _, count, _, _ in rows['vector'])
    assert sum(len(rows[name]) for name in ('booking', 'errorlog', 'cancelled', 'cancel') if name in rows) == known, rows
    assert rows['meta'][0][1] == (2 if 'log' in tables else 1), rows['meta']
    return rows


def rows_or_none(path):
    """The same; None where there is no file, or one with no table."""
    if not os.path.exists(path):
        return None
    aside = path + '.aside'
    copy_database(path, aside)
    with sqlite3.connect(aside) as database:
        has_tables = database.execute('SELECT count(*) FROM sqlite_schema').fetchone()[0] > 0
    database.close()
    return rows_of(path) if has_tables else None


def sequence_of(replica, write):
    """The commit number of a write, 0 where it is tentative."""
    return replica.commits.index(write.id()) + 1 if write.id() in replica.commits else 0


def slot_cells(write, choice):
    """A slot of a booking in cells: room, day, start, stop."""
    day, start = write.choices[choice]
    return write.room, day, start, start + write.length


def log_rows(replica, entries, schema):
    """The rows of the writes that are kept: those of `log`, or those of `write_log` and `undo`."""
    rows = []
    for entry in entries:
        write, place = entry.write, PLACES.get(entry.place, entry.place)
        is_cancel = isinstance(write, oracle.Cancel)
        choices = '' if is_cancel else ' '.join(f'{day} {oracle.time_text(start)}' for day, start in write.choices)
        length, title, target = (0, '', write.target) if is_cancel else (write.length, write.title, (0, 0))
        if write.id() not in replica.commits[:replica.dropped]:
            rows.append((*write.id(), write.time, write.room, int(is_cancel), length, choices, title, *target, place, sequence_of(replica, write)))
    if schema == 2:
        return {'log': rows}
    return {'write_log': [(*row[:4], *row[5:8], row[-1]) for row in rows], 'undo': [(*row[:2], row[-2]) for row in rows]}


def fate_rows(replica, entries, schema):
    """The rows that say what became of each known write."""
    rows = {'booking': [], 'errorlog': []} | ({'cancelled': [], 'cancel': []} if schema == 2 else {})
    for entry in entries:
        write, seq = entry.write, sequence_of(replica, entry.write)
        if isinstance(write, oracle.Cancel):
            rows['cancel'].append((*write.id(), write.room, *write.target, int(entry.place == 'done'), write.time, seq))
        elif entry.place == 'logged':
            rows['errorlog'].append((*slot_cells(write, 0), *write.id(), write.title, write.time, seq))
        else:
            row = (*slot_cells(write, entry.place), *write.id(), write.title, int(seq > 0))
            rows['cancelled' if entry.cancel else 'booking'].append(row + (entry.cancel.write.id() if entry.cancel else ()))
    return rows


def rows_for(replica, schema=2 if oracle.RULES.has_cancels else 1):
    """The rows that stand for a replica of oracle.py; in the first schema none has cancels."""
    entries = [entry for room in {write.room for write in replica.known.values()} for entry in replica.told(room)]
    rows = {'meta': [(1, schema, replica.server, replica.primary, len(replica.commits), replica.dropped, replica.clock())],
            'room': [(room,) for room in replica.rooms],
            'vector': [(server, count, replica.last_time(server), sum(1 for each, _ in replica.commits if each == server))
                       for server, count in replica.counts().items()]}
    rows |= log_rows(replica, entries, schema) | fate_rows(replica, entries, schema)
    return {name: sorted(each) for name, each in rows.items()}
