"""What holds of every reply and every change, whatever the rows of the database were."""

import re

import wire
from limits import are_within_limits
from standing import FATES, named

# the refusals of docs/FORMATS.md, but 24: no memory is refused here
REFUSALS = {1: 'BadDay', 2: 'BadTime', 3: 'BadLength', 4: 'BadRoomName', 5: 'BadTitle', 6: 'TooManyAlternatives', 7: 'UnknownRoom', 8: 'RoomThere',
            9: 'NoSuchRequest', 10: 'NotPrimary', 11: 'PrimaryKeepsAll', 12: 'BeyondCommitted', 13: 'ClockExhausted', 14: 'CountExhausted',
            15: 'BadLine', 16: 'WrongPrimary', 17: 'Gap', 18: 'OutOfOrder', 19: 'Forged', 20: 'OwnWrite', 21: 'PrimaryOnly', 22: 'Truncated',
            23: 'BadPosition', 25: 'Store', 26: 'NotAReplica', 27: 'NeedsVersion2'}
SPAN = re.compile(r'(\d\d):(\d\d)-(\d\d):(\d\d)')
GIVEN = re.compile(r'(\d+)-(\d+) [CT] ')

# the forms of replies: of the first line, and of the others where there are some
ID, MARK, ROOM, TITLE = r'[1-9]\d?-[1-9]\d{0,8}', '[CT]', r'[a-z0-9-]{1,16}', r'[!-~](?:[ -~]{0,58}[!-~])?'
SLOT = r'\d\d:\d\d-\d\d:\d\d'
DAY = r'\d{4}-\d\d-\d\d'
OUTCOME = (rf'{ID} {MARK} (?:{DAY} {SLOT}|logged|cancelled {MARK} {ID}|(?:cancels|void) {ID})',)
FORMS = {'sheet': (rf'{ROOM} {DAY} [A-Z][a-z]+day', rf'{SLOT} {MARK} {ID} {TITLE}|\(no bookings\)'),
         'calendar': (rf'{ROOM} (?:full|committed)', rf'{DAY} {SLOT} {MARK} {ID} {TITLE}|\(no bookings\)'),
         'errors': (rf'{ROOM} errors', rf'{MARK} {ID} (?:{DAY} {SLOT} {TITLE}|cancel {ID})|\(no errors\)'),
         'outcome': OUTCOME, 'book': OUTCOME, 'cancel': OUTCOME, 'init': ('ok',), 'add-room': ('ok',), 'commit': (r'committed \d+',),
         'truncate': (r'dropped \d+',), 'import': (r'took \d+ writes \d+ commits',), 'export': (r'wrote \d+ bytes',), 'serve': (r'serving \S+',)}


def is_named(printed):
    match = re.fullmatch(r'refused (\d+) (\w+)( [1-9]\d*)?\n', printed)
    return match is not None and REFUSALS.get(int(match[1])) == match[2]


def is_store(printed):
    """Whether it is refused for the rows themselves."""
    return printed.startswith(('refused 25 ', 'refused 26 '))


def do_numbers_agree(rows):
    """`meta` and `vector` don't contradict each other."""
    if len(rows['meta']) != 1:
        return False
    cells = [cell for row in rows['meta'] + rows['vector'] for cell in row]
    if not all(isinstance(cell, int) for cell in cells):
        return False
    _, _, server, primary, commits, dropped, clock = rows['meta'][0]
    counted = all(n >= 1 and 0 <= committed <= n for _, n, _, committed in rows['vector'])
    return (counted and 0 <= dropped <= commits and not (server == primary and dropped)
            and commits == sum(row[3] for row in rows['vector']) and clock == max((row[2] for row in rows['vector']), default=0))


def is_in_form(line, printed):
    """Whether this is a reply to the command of this line."""
    command = line.split(' ')[0]
    if command == 'position':
        return wire.POSITION.fullmatch(printed) is not None
    first, *lines = printed.splitlines() or ['']
    forms = FORMS[command]
    return re.fullmatch(forms[0], first) is not None and bool(lines) == (len(forms) > 1) and all(re.fullmatch(forms[1], each) for each in lines)


def faults_of_reply(line, printed, batch):
    """What is wrong with a reply."""
    faults = [] if is_in_form(line, printed) else [f'prints what is no reply: {printed[:200]!r}']
    for each in printed.splitlines():
        match = SPAN.search(each)
        if match:
            start, stop = (60 * int(match[at]) + int(match[at + 1]) for at in (1, 3))
            if not start < stop <= 1440:
                faults.append(f'shows a slot that ends before it begins: {each!r}')
    if batch is not None and not isinstance(wire.read_batch(batch), tuple):
        faults.append(f'makes a batch that is none: {batch!r}')
    return faults


def faults_of_question(line, rows):
    # who asks `init` of a database that is there asks whose it is
    faults = [] if line.startswith('init ') or do_numbers_agree(rows) else ['is answered where `meta` and `vector` contradict each other']
    return faults + ([] if are_within_limits(rows) else ['is answered where a row is beyond its limits'])


def contents(rows):
    """What each write asked for, by its id: as the log has it, and as the rows have it that say what became of it."""
    asked = {tuple(row[:2]): row[2:10] for row in rows['log']}
    fates = {(row['server'], row['n']): (row['room'], row.get('title'), row.get('tserver'), row.get('tn')) for table in FATES for row in named(rows, table)}
    return asked, fates


def faults_of_change(before, after, printed):
    """Ids that are given out twice, and rows of writes that are lost or written over."""
    (asked, fates), (asked_after, fates_after) = contents(before), contents(after)
    faults = []
    match = GIVEN.match(printed)
    if match and (int(match[1]), int(match[2])) in asked | fates:
        faults.append(f'gives out an id a second time: {match[1]}-{match[2]}')
    if any(request in asked_after and asked_after[request] != row for request, row in asked.items()):
        faults.append('writes over rows of the log')
    if not printed.startswith('dropped ') and asked.keys() - asked_after.keys():
        faults.append('loses rows of the log')
    if fates.keys() - fates_after.keys():
        faults.append('loses what became of writes')
    if any(request in fates_after and fates_after[request] != row for request, row in fates.items()):
        faults.append('writes over what became of writes')
    return faults
