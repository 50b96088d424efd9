"""The replica of oracle.py for which the rows of a database stand.

Of what was dropped the rows don't say all: a booking's choices, commit number and time. Where there is a replica at all there is one that asked
for the slot that it has alone, at the first time that is left; so what is looked for is the order of these commits.
"""

import itertools
import re

import oracle
import wire
from stock import COLUMNS
from tables import rows_for
from turns import SERVER, TEXTS, TIME

FATES = ('booking', 'errorlog', 'cancelled', 'cancel')


def named(rows, table):
    return [dict(zip(COLUMNS[table], row)) for row in rows[table]]


def are_typed(rows):
    """Each cell is of the type of its column, and the first schema's tables have no rows."""
    return 'log' in rows and not rows['write_log'] and not rows['undo'] and len(rows['meta']) == 1 and all(
        isinstance(cell, str if column in TEXTS else int) for table, of in rows.items() for row in of for column, cell in zip(COLUMNS[table], row))


def as_second(rows):
    """Rows of the first schema as they are once they are moved up; others as they are. What has no partner stays where it is."""
    if 'log' in rows or [row[1] for row in rows['meta']] != [1]:
        return rows
    places = {tuple(row[:2]): row[2] for row in rows['undo']}
    both = [row for row in rows['write_log'] if tuple(row[:2]) in places]
    ids = {tuple(row[:2]) for row in both}
    return rows | {'meta': [(row[0], 2, *row[2:]) for row in rows['meta']], 'cancelled': [], 'cancel': [],
                   'log': [(*row[:4], 0, *row[4:7], 0, 0, places[tuple(row[:2])], row[7]) for row in both],
                   'write_log': [row for row in rows['write_log'] if row not in both],
                   'undo': [row for row in rows['undo'] if tuple(row[:2]) not in ids]}


def choices_of(text):
    slots = re.fullmatch(r'(\S{10} \d\d:\d\d)( \S{10} \d\d:\d\d)*', text) and re.findall(r'(\S{10}) (\d\d:\d\d)', text)
    return [(day, oracle.minute_of(time)) for day, time in slots or []]


def kept_write(row):
    if row['kind'] == 1:
        return oracle.Cancel(row['server'], row['n'], row['tm'], row['room'], (row['tserver'], row['tn']))
    return oracle.Booking(row['server'], row['n'], row['tm'], row['room'], row['length'], choices_of(row['choices']), row['title'])


def dropped_write(row):
    """Of a row of what became of it; the time is 0 where the row hasn't one."""
    stamp = row['server'], row['n'], row.get('tm', 0), row['room']
    if 'tserver' in row:
        return oracle.Cancel(*stamp, (row['tserver'], row['tn']))
    return oracle.Booking(*stamp, row['stop'] - row['start'], [(row['day'], row['start'])], row['title'])


def all_writes(rows):
    """Each write by its id, and the commit numbers that rows have; None where two rows have one id."""
    kept, fates = named(rows, 'log'), [row for table in FATES for row in named(rows, table)]
    writes = {(row['server'], row['n']): kept_write(row) for row in kept}
    dropped = [row for row in fates if (row['server'], row['n']) not in writes]
    numbers = {row['seq']: (row['server'], row['n']) for row in kept + dropped if row.get('seq', 0)}
    writes |= {(row['server'], row['n']): dropped_write(row) for row in dropped}
    # a committed booking that was dropped has a mark, but no number
    marked = sorted((row['server'], row['n']) for row in dropped if row.get('committed') == 1)
    return (writes, numbers, marked) if len(writes) == len(kept) + len(dropped) == len(fates) else None


def give_times(writes, last):
    """Whether times rise, once those that no row has are the first that are left."""
    before = {}
    for (server, n), write in sorted(writes.items()):
        is_last = (server, n + 1) not in writes
        write.time = write.time or (last.get(server, 0) if is_last else before.get(server, 0) + 1)
        if write.time <= before.get(server, 0):
            return False
        before[server] = write.time
    return True


def is_write(write):
    """It is within the limits of the exchange text."""
    try:
        line = write.line()
    except (IndexError, TypeError, ValueError):
        return False
    read = wire.read_item(line, 2)
    return isinstance(read, oracle.Write) and read.line() == line


def merged(of):
    """The lists as one list, in each order that keeps each of them as it is."""
    if not any(of):
        yield []
    for at, each in enumerate(of):
        if each:
            for rest in merged(of[:at] + [each[1:]] + of[at + 1:]):
                yield [each[0]] + rest


def are_counted_up(ids):
    """Those of each server are its 1, 2, 3 .."""
    counts = {}
    for server, n in ids:
        if n != counts.get(server, 0) + 1:
            return False
        counts[server] = n
    return True


def replica_of(rows):
    """The replica for which these rows stand, or None where there is none. Requests of the first schema have eight alternatives at most."""
    first, rows = 'log' not in rows, as_second(rows)
    found = all_writes(rows) if are_typed(rows) else None
    if not found or first and any(len(choices_of(row['choices'])) > 9 for row in named(rows, 'log')):
        return None
    writes, numbers, marked = found
    _, _, server, primary, commits, dropped, _ = rows['meta'][0]
    rooms = {name for name, in rows['room']}
    is_within = 1 <= server <= SERVER and 1 <= primary <= SERVER and all(map(oracle.is_room, rooms)) and all(map(is_write_or_timeless, writes.values()))
    if not is_within or commits != len(numbers) + len(marked) or not 0 <= dropped <= commits or server == primary and dropped:
        return None
    if not are_counted_up(sorted(writes)) or not give_times(writes, {row[0]: row[2] for row in rows['vector']}):
        return None
    if not all(is_write(write) and write.room in rooms for write in writes.values()):
        return None
    wanted = {table: of for table, of in rows.items() if table not in ('write_log', 'undo')}
    free = [number for number in range(1, commits + 1) if number not in numbers]
    servers = [list(of) for _, of in itertools.groupby(marked, key=lambda request: request[0])]
    if len(free) != len(marked):
        return None
    for order in itertools.islice(merged(servers), 3000):
        replica = oracle.Replica(server, primary)
        by_number = numbers | dict(zip(free, order))
        replica.known, replica.commits, replica.dropped, replica.rooms = writes, [by_number[number] for number in range(1, commits + 1)], dropped, rooms
        if are_counted_up(replica.commits) and rows_for(replica) == wanted:
            return replica
    return None


def is_write_or_timeless(write):
    return isinstance(write.time, int) and 0 <= write.time <= TIME
