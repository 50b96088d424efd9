"""The grammars of batches and positions, and the replies to them, of a replica that keeps nothing but sets of writes.

The replica is that of oracle.py. Texts are read here as bytes from anybody: by the tables of docs/FORMATS.md and nothing else.
"""

import copy
import re

import oracle
from oracle import refused

SERVER, COUNT, TIME = r'([1-9][0-9]?)', r'([1-9][0-9]{0,8})', r'([1-9][0-9]{0,11})'
ROOM, SLOT = r'([a-z0-9-]{1,16})', r'([0-9]{4}-[0-9]{2}-[0-9]{2}) ([0-9]{2}:[0-9]{2})'
VERSION = '([12])' if oracle.RULES.version == 2 else '(1)'
HEADER = re.compile(rf'mr{VERSION} {SERVER} {SERVER}')
COMMIT = re.compile(rf'C {TIME} {SERVER} {COUNT}')
WRITE = re.compile(rf'W {SERVER} {COUNT} {TIME} {ROOM} ([1-9][0-9]{{0,3}}) {SLOT} (0|[1-9][0-9]?) ([ -~]*)')
CANCEL = re.compile(rf'X {SERVER} {COUNT} {TIME} {ROOM} {SERVER} {COUNT}')
PAIR = re.compile(rf'{SLOT} ')
POSITION = re.compile(rf'mp{VERSION} {SERVER} {SERVER}\nK (0|[1-9][0-9]{{0,11}})\n((?:V {SERVER} {COUNT}\n)*)E\n')


def read_cancel(line):
    """The write of an X line, or None."""
    match = CANCEL.fullmatch(line)
    if not match:
        return None
    server, n, time, room, *target = match.groups()
    return oracle.Cancel(int(server), int(n), int(time), room, tuple(map(int, target)))


def read_write(line, version):
    """The write of a W line, or None; each version of the text has so many alternatives at the most."""
    match = WRITE.fullmatch(line)
    if not match or int(match[8]) > oracle.MOST_TOLD[version]:
        return None
    server, n, time, room, length, day, start, extra, rest = match.groups()
    slots = [(day, start)]
    for _ in range(int(extra)):
        pair = PAIR.match(rest)
        if not pair:
            return None
        slots.append(pair.groups())
        rest = rest[pair.end():]
    choices = [(day, oracle.minute_of(start)) for day, start in slots]
    is_day = all(oracle.day_of(day) for day, _ in choices)
    is_slot = all(start is not None and start + int(length) <= 1440 for _, start in choices)
    if not (is_day and is_slot and oracle.is_title(rest)):
        return None
    return oracle.Booking(int(server), int(n), int(time), room, int(length), choices, rest)


def read_item(line, version):
    """A write, a commit's (number, id), 'end', or None."""
    if line in ('E', 'M'):
        return 'end'
    match = COMMIT.fullmatch(line)
    if match:
        return int(match[1]), (int(match[2]), int(match[3]))
    return version > 1 and read_cancel(line) or read_write(line, version)


def read_batch(text):
    """The primary and the items of a batch; the refusal where a line is bad; None where no line is whole."""
    lines = text.decode('latin-1').split('\n')[:-1]
    if not lines:
        return None
    header = HEADER.fullmatch(lines[0])
    if not header:
        return refused(15, 'BadLine', 1)
    items, is_over = [], False
    for number, line in enumerate(lines[1:], 2):
        item = None if is_over else read_item(line, int(header[1]))
        if item is None:
            return refused(15, 'BadLine', number)
        is_over = item == 'end'
        if not is_over:
            items.append(item)
    return int(header[3]), items


def receive(replica, text):
    """The reply to a batch's bytes; the replica is changed where they are taken."""
    batch = read_batch(text)
    if batch is None:
        return 'took 0 writes 0 commits'
    if isinstance(batch, str):
        return batch
    primary, items = batch
    if primary != replica.primary:
        return refused(16, 'WrongPrimary')
    new = copy.copy(replica)
    new.known, new.commits, new.rooms = dict(replica.known), list(replica.commits), set(replica.rooms)
    writes = commits = 0
    for number, item in enumerate(items, 2):
        taken = new.take_commit(number, *item) if isinstance(item, tuple) else new.take_write(number, item)
        if isinstance(taken, str):
            return taken
        writes, commits = writes + taken[0], commits + taken[1]
    replica.known, replica.commits, replica.rooms = new.known, new.commits, new.rooms
    return f'took {writes} writes {commits} commits'


class Claim:
    """What a position claims: a number of commits, and counts; and the version in which it is answered."""

    def __init__(self, commits, counts, version=oracle.RULES.version):
        self.commits, self.told, self.version = [None] * min(commits, 1000000), counts, version

    def counts(self):
        return self.told


def answer_position(replica, text, limit):
    """The reply to a position's bytes: a batch of at most this many lines, or a refusal."""
    match = POSITION.fullmatch(text.decode('latin-1'))
    rows = [tuple(map(int, row)) for row in re.findall(r'V (\d+) (\d+)\n', match[5])] if match else []
    servers = [server for server, _ in rows]
    if not match or servers != sorted(set(servers)):
        return refused(23, 'BadPosition')
    if int(match[3]) != replica.primary:
        return refused(16, 'WrongPrimary')
    lines = replica.batch_for(Claim(int(match[4]), dict(rows), int(match[1])), limit)
    return lines if isinstance(lines, str) else ''.join(line + '\n' for line in lines)


# What is answered over HTTP (docs/FORMATS.md, "HTTP").

REASONS = {200: 'OK', 400: 'Bad Request', 404: 'Not Found', 405: 'Method Not Allowed', 409: 'Conflict',
           413: 'Content Too Large', 503: 'Service Unavailable'}


def reply(status, body, is_text=False, allow=None):
    """The bytes of a whole reply."""
    body = body.encode('ascii')
    fields = [f'Content-Type: {"text/plain" if is_text else "application/json"}']
    fields += [f'Allow: {allow}'] if allow else []
    fields += [f'Content-Length: {len(body)}', 'Connection: close']
    head = [f'HTTP/1.1 {status} {REASONS[status]}'] + fields
    return ''.join(line + '\r\n' for line in head + ['']).encode('ascii') + body


def refusal_reply(text):
    """The reply for a line `refused ..`."""
    _, number, name, *line = text.split(' ')
    first = f'"line":{line[0]},' if line else ''
    number = int(number)
    status = 400 if number in (1, 2, 3, 4, 5, 6, 15, 23) else 404 if number in (7, 9) else 503 if number in (24, 25) else 409
    return reply(status, f'{{{first}"name":"{name}","refusal":{number}}}')


def text_reply(text):
    """The reply with this text, or with this refusal."""
    if text.startswith('refused '):
        return refusal_reply(text)
    return reply(200, text if text.endswith('\n') else text + '\n', is_text=True)
