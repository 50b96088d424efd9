"""What is turned in a database: a cell to another value, a row left out, a row put once more under another id.

A kind of turn is a word for how the new value comes of the old one. Each turn is a list of statements, for one database.
"""

import collections

from stock import COLUMNS, literal

# The greatest value that a column may have, and one beyond it.
TIME, COUNT, SERVER = 999999999999, 999999999, 99
SLOT = '2099-12-31 23:59'
NUMBERS = {'one': 1, 'schema': 2, 'server': SERVER, 'prim': SERVER, 'commits': TIME, 'dropped': TIME, 'clock': TIME, 'n': COUNT, 'tm': TIME,
           'kind': 1, 'length': 1440, 'tserver': SERVER, 'tn': COUNT, 'place': 16, 'seq': TIME, 'start': 1439, 'stop': 1440, 'committed': 1,
           'bserver': SERVER, 'bn': COUNT, 'done': 1}
TEXTS = {'name': ('r' * 16, 'r' * 17), 'room': ('r' * 16, 'r' * 17), 'title': ('t' * 60, 't' * 61), 'day': ('2099-12-31', '2100-01-01'),
         'choices': (' '.join([SLOT] * 17), ' '.join([SLOT] * 18))}
OTHERS = {'name': 'ash', 'room': 'elm', 'title': 'Another', 'day': '1995-12-20', 'choices': '1995-12-20 08:00'}

# `value` is the new one, of a cell; `loose` where the tables as they are don't take it
Turn = collections.namedtuple('Turn', 'table column kind row value statements loose')


def greatest(table, column):
    return COUNT if (table, column) == ('vector', 'committed') else NUMBERS[column]


def turned_numbers(value, limit):
    yield 'one more', value + 1
    yield 'one less', value - 1
    yield 'zero', 0
    yield 'a low bit', value ^ 2
    yield 'a high bit', value ^ 1 << 40
    yield 'the limit', limit
    yield 'beyond the limit', limit + 1
    yield 'the greatest number', 2 ** 63 - 1
    yield 'the least number', -2 ** 63


def turned_texts(value, limits, other):
    yield 'a letter more', value + 'x'
    yield 'a letter less', value[:-1]
    yield 'no letter', ''
    yield 'a low bit', value[:-1] + chr(ord(value[-1]) ^ 1) if value else '\x01'
    yield 'a high bit', (bytes([ord(value[0]) ^ 128]) if value else b'\x80').decode('utf-8', 'surrogateescape') + value[1:]
    yield 'a space before it', ' ' + value
    yield 'the limit', limits[0]
    yield 'beyond the limit', limits[1]
    yield 'another text', other


def turned_values(table, column, value, rows):
    """Each kind with the new value, and whether the tables as they are don't take it."""
    if column in TEXTS:
        kinds = turned_texts(value, TEXTS[column], OTHERS[column])
    else:
        kinds = turned_numbers(value, greatest(table, column))
    at = COLUMNS[table].index(column)
    others = sorted({row[at] for row in rows.values()} - {value})
    yield from ((kind, new, False) for kind, new in kinds)
    yield from (("another row's value", new, False) for new in others[:2] + others[-1:])
    yield 'another type', b'oak' if column in TEXTS else 'oak', True
    yield 'no value', None, True


def cell_turns(rows):
    """All cells, each to each of its values. `rows` has the number of each row beside it."""
    for table, of in rows.items():
        for number, row in of.items():
            for column, value in zip(COLUMNS[table], row):
                for kind, new, loose in turned_values(table, column, value, of):
                    if new != value and (isinstance(new, (str, bytes, type(None))) or -2 ** 63 <= new < 2 ** 63):
                        yield Turn(table, column, kind, row, new, [f'UPDATE {table} SET {column} = {literal(new)} WHERE rowid = {number}'], loose)


def other_keys(table, row, next_count):
    """The key of another row, as the columns that change."""
    if table == 'meta':
        return [{'one': 2}]
    if table == 'room':
        return [{'name': 'zoo'}, {'name': 'ash'}]
    if table == 'vector':
        return [{'server': 77}]
    return [{'n': next_count(row[COLUMNS[table].index('server')])}, {'server': 77, 'n': 1}, {'server': 77, 'n': row[COLUMNS[table].index('n')]}]


def row_turns(rows):
    """Each row left out, and each there once more. Tables without rows get those that they had in the first schema."""
    counts = {row[0]: row[1] for row in rows['vector'].values()}
    for table, of in rows.items():
        for number, row in of.items():
            yield Turn(table, '', 'left out', row, None, [f'DELETE FROM {table} WHERE rowid = {number}'], False)
            for key in other_keys(table, row, lambda server: counts.get(server, 0) + 1):
                cells = ', '.join(literal(key[column]) if column in key else column for column in COLUMNS[table])
                kind = 'once more, as ' + ' '.join(sorted(key))
                yield Turn(table, '', kind, row, None, [f'INSERT INTO {table} SELECT {cells} FROM {table} WHERE rowid = {number}'], False)
    for table in ('write_log', 'undo'):
        for row in rows.get('log', {}).values():
            cells = ', '.join(literal(dict(zip(COLUMNS['log'], row))[column]) for column in COLUMNS[table])
            yield Turn(table, '', 'a row of the log', row, None, [f'INSERT INTO {table} VALUES ({cells})'], False)
