"""Databases by the stock `sqlite3`, or by Python's sqlite3 where that isn't there: statements, and all rows of all tables."""

import contextlib
import os
import shutil
import sqlite3
import subprocess

STOCK = shutil.which('sqlite3')

# The columns of each table, in their order.
COLUMNS = {name: columns.split() for name, columns in {
    'meta': 'one schema server prim commits dropped clock', 'room': 'name', 'vector': 'server n tm committed',
    'log': 'server n tm room kind length choices title tserver tn place seq',
    'booking': 'room day start stop server n title committed', 'errorlog': 'room day start stop server n title tm seq',
    'cancelled': 'room day start stop server n title committed bserver bn', 'cancel': 'server n room tserver tn done tm seq',
    'write_log': 'server n tm room length choices title seq', 'undo': 'server n place'}.items()}
# what the first schema hasn't
SECOND = ('log', 'cancelled', 'cancel')


class Refused(Exception):
    """The store doesn't take these statements."""


def run(path, *statements):
    """The lines that these statements print; each gives one column."""
    if STOCK:
        ran = subprocess.run([STOCK, '-batch', '-bail', path, ';\n'.join(statements)], stdin=subprocess.DEVNULL, stdout=subprocess.PIPE,
                             stderr=subprocess.STDOUT, close_fds=False, check=False)
        if ran.returncode:
            raise Refused(ran.stdout)
        return ran.stdout.decode('ascii').splitlines()
    with contextlib.closing(sqlite3.connect(path, isolation_level=None)) as database:
        try:
            return [row[0] for statement in statements for row in database.execute(statement)]
        except sqlite3.Error as error:
            raise Refused(error) from None


def reading(table):
    """A statement that prints each row of a table: its cells, each with its type and its bytes in hexadecimal."""
    cells = "||'|'||".join(f"typeof({column})||':'||hex({column})" for column in COLUMNS[table])
    return f"SELECT '{table}|'||rowid||'|'||{cells} FROM {table}"


def cell_of(text):
    kind, digits = text.split(':')
    value = bytes.fromhex(digits)
    if kind == 'null':
        return None
    return value if kind == 'blob' else value.decode('utf-8', 'surrogateescape') if kind == 'text' else int(value) if kind == 'integer' else float(value)


def numbered_rows(path):
    """The rows of each table, each with the number that the store has for it."""
    rows = {table: {} for table in COLUMNS}
    try:
        lines = run(path, *map(reading, rows))
    except Refused:
        rows = {table: {} for table in COLUMNS if table not in SECOND}
        lines = run(path, *map(reading, rows))
    for line in lines:
        table, number, *cells = line.split('|')
        rows[table][int(number)] = tuple(map(cell_of, cells))
    return rows


def order(row):
    """Rows in one order, whatever their cells are."""
    return [(type(cell).__name__, cell or 0) if not isinstance(cell, str) else ('str', cell) for cell in row]


def rows_of(path):
    return {table: sorted(rows.values(), key=order) for table, rows in numbered_rows(path).items()}


def literal(value):
    """A value in a statement. A text that isn't ASCII is made of its bytes."""
    if value is None:
        return 'NULL'
    if isinstance(value, int):
        return str(value)
    if isinstance(value, bytes):
        return f"x'{value.hex()}'"
    if value.isascii() and value.isprintable():
        return "'" + value.replace("'", "''") + "'"
    return f"CAST(x'{value.encode('utf-8', 'surrogateescape').hex()}' AS TEXT)"


def copy(source, target):
    """The file alone; what the store had beside the target goes."""
    for end in ('-wal', '-shm', '-journal'):
        if os.path.exists(target + end):
            os.remove(target + end)
    shutil.copyfile(source, target)


def bytes_of(path):
    """The file and the store's log beside it."""
    pieces = []
    for name in (path, path + '-wal'):
        if os.path.exists(name):
            with open(name, 'rb') as file:
                pieces.append(file.read())
        else:
            pieces.append(b'')
    return pieces


# A database whose columns take any type and NULL; the statements of its tables are put back behind a turn.
LOOSE = ['PRAGMA writable_schema = ON',
         "UPDATE sqlite_schema SET sql = replace(replace(sql, ' NOT NULL', ''), ') STRICT', ')') WHERE type = 'table'"]


def strict_again(base):
    return [f"ATTACH '{base}' AS kept", 'PRAGMA writable_schema = ON',
            "UPDATE main.sqlite_schema AS m SET sql = (SELECT k.sql FROM kept.sqlite_schema k WHERE k.type = m.type AND k.name = m.name) WHERE type = 'table'"]
