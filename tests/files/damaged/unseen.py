"""Which turned cells no other row contradicts, so that no command can refuse them (docs/DECISIONS.md, "What `from_tables` tests"): what one row
alone says of a dropped write, choices that weren't taken, a place of the same slot, and this office's number."""

import oracle
from limits import are_within_limits
from rules import do_numbers_agree
from standing import FATES, named
from stock import COLUMNS
from turns import COUNT, SERVER, TIME

ALONE = {'booking': ('room', 'day', 'start', 'stop', 'title'), 'errorlog': ('room', 'day', 'start', 'stop', 'title', 'tm', 'seq'),
         'cancelled': ('day', 'start', 'stop', 'title'), 'cancel': ('room', 'tserver', 'tn', 'tm', 'seq')}


def slot_at(choices, place):
    """The choice at this place; the wish of a request that found no slot."""
    first = 17 * max(place, 0)
    return choices[first:first + 16]


def is_slot_the_same(turn, rows, request):
    """The request has the choice that it had, or the wish. `rows` have its row of `log` as it was turned."""
    place, choices = next((row[10], row[6]) for row in rows['log'] if row[:2] == request)
    if turn.column == 'place':
        before = turn.row[COLUMNS[turn.table].index('place')]
        return min(place, before) >= 0 and slot_at(choices, place) == slot_at(choices, before)
    return place >= -1 and slot_at(choices, place) == slot_at(turn.row[COLUMNS[turn.table].index('choices')], place)


def is_slot(row):
    return 0 <= row['start'] < row['stop'] <= 1440 and oracle.day_of(row['day']) is not None and oracle.is_title(row['title'])


def is_apart(row, rows):
    """No other booking has a minute of this one."""
    others = [it for it in named(rows, 'booking') if (it['server'], it['n']) != (row['server'], row['n'])]
    return not any((it['room'], it['day']) == (row['room'], row['day']) and it['start'] < row['stop'] and row['start'] < it['stop'] for it in others)


def is_in_order(row, rows):
    """Its commit number is that of no other row; of its server's writes those behind it have later times and greater numbers."""
    notes = [it for table in ('log', 'errorlog', 'cancel') for it in named(rows, table) if (it['server'], it['n']) != (row['server'], row['n'])]
    own = [it for it in notes if it['server'] == row['server']]
    return (1 <= row['tm'] <= TIME and 1 <= row['seq'] <= rows['meta'][0][5] and row['seq'] not in [it['seq'] for it in notes]
            and all((it['tm'] < row['tm'] and it['seq'] < row['seq']) if it['n'] < row['n'] else
                    (it['tm'] > row['tm'] and (it['seq'] == 0 or it['seq'] > row['seq'])) for it in own))


def is_unseen(turn, rows):
    """Whether no row of these, the turned ones, shows the turn."""
    row = dict(zip(COLUMNS[turn.table], turn.row)) | {turn.column: turn.value}
    if (turn.table, turn.column) == ('meta', 'server'):
        return do_numbers_agree(rows) and 1 <= rows['meta'][0][2] <= SERVER
    if turn.loose or turn.column not in (*ALONE.get(turn.table, ()), 'choices', 'place') or not are_within_limits(rows):
        return False
    request = row['server'], row['n']
    if turn.column in ('choices', 'place'):
        return is_slot_the_same(turn, rows, request)
    if request in {kept[:2] for kept in rows['log']} or row['room'] not in {name for name, in rows['room']}:
        return False
    if turn.table in ('errorlog', 'cancel') and not is_in_order(row, rows):
        return False
    if turn.table == 'cancel':
        # of one that is done the booking shows the room and the target
        is_target = 1 <= row['tserver'] <= SERVER and 1 <= row['tn'] <= COUNT
        return is_target and (row['done'] == 0 or turn.column in ('tm', 'seq'))
    return is_slot(row) and (turn.table != 'booking' or is_apart(row, rows))
