"""The commands that are tried on a damaged database, with what a replica of oracle.py answers in the place of the program."""

import collections
import copy

import oracle
import wire

# A command in a line; `changes` where it changes the replica, or begins to serve it: then it has to test all rows. `words` has `@` for the
# database.
Command = collections.namedtuple('Command', 'line words changes')
CHANGES = ('add-room', 'book', 'cancel', 'commit', 'truncate', 'import', 'serve')

# of offices 1 and 2 (bases.py), and of the database of the first schema
LINES = {'made': """
sheet oak 1995-12-18
sheet a-room-of-16-byt 1995-12-19
calendar oak full
calendar oak committed
calendar elm full
outcome oak 1-1
outcome oak 1-2
outcome oak 1-3
outcome oak 1-5
outcome oak 1-6
outcome oak 1-12
outcome oak 2-7
outcome oak 2-8
errors oak
errors elm
position
init SERVER 1
init 9 1
export none 100000
export some 100000
export some 3
add-room new
book oak 30 1995-12-18 20:00 New
book elm 30 2099-12-31 23:15 New 1995-12-19T12:00
book oak 60 1995-12-18 09:15 Vain
cancel oak 1-2
cancel oak 1-3
cancel a-room-of-16-byt 1-4
cancel elm 2-6
commit 1
commit 100
truncate 3
truncate 14
import lacked
import all
serve PORT 0
""", 'first': """
sheet oak 2024-02-29
calendar oak full
calendar oak committed
calendar a-room-of-16-byt full
outcome oak 3-1
outcome elm-2 7-2
outcome oak 7-5
outcome oak 7-6
errors oak
errors elm-2
position
init SERVER 3
init 9 3
export none 100000
export some 100000
add-room new
book oak 30 2024-02-29 20:00 New
book oak 60 2024-02-29 09:15 Vain 2024-02-29T14:00
cancel oak 3-1
cancel oak 7-5
commit 1
truncate 5
import lacked
import all
serve PORT 0
"""}


def commands_for(name, server, port):
    """The commands for a database, of this office."""
    lines = LINES['first' if name == 'first' else 'made'].replace('SERVER', str(server)).replace('PORT', str(port))
    found = []
    for line in lines.strip().splitlines():
        first, *words = line.split(' ')
        found.append(Command(line, [first, '@', *words], first in CHANGES))
    return found


# ---- the answers

def init(replica, server, primary):
    is_it = (replica.server, replica.primary) == (int(server), int(primary))
    return 'ok' if is_it else oracle.refused(26, 'NotAReplica')


def book(replica, room, length, day, time, title, *others):
    return replica.book(room, length, [(day, time), *(tuple(other.split('T')) for other in others)], title)


def bytes_of(path):
    with open(path, 'rb') as file:
        return file.read()


def export(replica, position, limit):
    """What is printed, and the batch."""
    batch = wire.answer_position(replica, position, int(limit))
    return (batch, None) if batch.startswith('refused ') else (f'wrote {len(batch)} bytes', batch.encode('ascii'))


ANSWERS = {'sheet': oracle.Replica.sheet, 'calendar': oracle.Replica.calendar, 'outcome': oracle.Replica.outcome, 'errors': oracle.Replica.errors,
           'position': oracle.Replica.position, 'init': init, 'add-room': oracle.Replica.add_room, 'book': book, 'cancel': oracle.Replica.cancel,
           'commit': lambda replica, count: replica.commit(int(count)), 'truncate': lambda replica, count: replica.truncate(int(count)),
           'serve': lambda _, port, count: f'serving 127.0.0.1:{port}'}


def answered(command, replica, folder):
    """What a replica prints, the batch that it makes, and the replica behind the command. The files are in the folder."""
    behind, batch = copy.copy(replica), None
    behind.known, behind.commits, behind.rooms = dict(replica.known), list(replica.commits), set(replica.rooms)
    first, *words = command.line.split(' ')
    if first == 'export':
        reply, batch = export(behind, bytes_of(f'{folder}/{words[0]}'), words[1])
    elif first == 'import':
        reply = wire.receive(behind, bytes_of(f'{folder}/{words[0]}'))
    else:
        reply = ANSWERS[first](behind, *words)
    return reply if reply.endswith('\n') else reply + '\n', batch, behind


def words_for(command, database, folder, batch):
    """The words of a call; the files are in the folder, and the batch is made in a file of its own."""
    words = [database if word == '@' else word for word in command.words]
    if words[0] in ('export', 'import'):
        words[2] = f'{folder}/{words[2]}'
    if words[0] == 'export':
        words.insert(3, batch)
    return words
