"""Whether each row by itself is within the limits of its table: an open of a database, for a question too, tests all rows so."""

import oracle
from standing import named
from turns import TEXTS, greatest

# the least number that a column may have, where it isn't 0
LEAST = {'one': 1, 'server': 1, 'prim': 1, 'n': 1, 'tm': 1, 'bserver': 1, 'bn': 1, 'place': -3}
TABLES = ('meta', 'room', 'vector', 'log', 'booking', 'errorlog', 'cancelled', 'cancel')


def is_number(table, column, cell):
    return isinstance(cell, int) and LEAST.get(column, 0) <= cell <= greatest(table, column)


def are_choices(text, length):
    """The text of at most 17 slots that end on their days, parted by one space."""
    slots = [text[at:at + 17] for at in range(0, len(text), 17)]
    return (1 <= len(slots) <= 17 and all(slot[16:] == ' ' for slot in slots[:-1]) and len(slots[-1]) == 16
            and all(slot[10] == ' ' and oracle.day_of(slot[:10]) and (start := oracle.minute_of(slot[11:16])) is not None and start + length <= 1440
                    for slot in slots))


def is_of_kind(row):
    """A row of the log has what its kind of write has, and nothing of the other kind."""
    if row['kind'] == 0:
        return (row['length'] >= 1 and are_choices(row['choices'], row['length']) and oracle.is_title(row['title'])
                and row['tserver'] == row['tn'] == 0 and row['place'] >= -1)
    return (row['length'] == 0 and row['choices'] == row['title'] == '' and row['tserver'] >= 1 and row['tn'] >= 1
            and row['place'] in (-2, -3))


def is_within(table, row):
    if not all(isinstance(cell, str) if column in TEXTS else is_number(table, column, cell) for column, cell in row.items()):
        return False
    names = [row[column] for column in ('name', 'room') if column in row]
    if not all(map(oracle.is_room, names)):
        return False
    if table == 'log':
        return is_of_kind(row)
    if table == 'cancel':
        return row['tserver'] >= 1 and row['tn'] >= 1
    if 'day' in row:
        return row['start'] < row['stop'] and oracle.day_of(row['day']) is not None and oracle.is_title(row['title'])
    return True


def are_within_limits(rows):
    """Whether all rows are; of the first schema's logs only what `as_second` makes of them."""
    return all(is_within(table, row) for table in TABLES for row in named(rows, table))
