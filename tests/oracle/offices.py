"""Offices: a database, and beside it the replica of oracle.py that it has to stand for, which keeps nothing but sets of writes."""

import wire
from calls import call, done
from oracle import MOST_TOLD, RULES, Booking, Replica, id_text
from tables import rows_for, rows_of

ROOMS = ['oak', 'elm', 'a-room-of-16-byt']
DAYS = ['1990-01-01', '2024-02-29', '2099-12-31']
TIMES = ['00:00', '09:00', '09:30', '10:00', '23:59']


class Difference(Exception):
    """The program did something else than the plain form."""


def batch_text(maker, commits, counts, limit):
    """The bytes of the batch that this replica makes for a claim, or None where it is refused."""
    lines = maker.batch_for(wire.Claim(commits, counts), limit)
    return None if isinstance(lines, str) else ''.join(line + '\n' for line in lines).encode('ascii')


class Office:
    def __init__(self, program, path, server, primary):
        self.program, self.path, self.replica = program, path, Replica(server, primary)
        done(program, 'init', path, server, primary)

    def is_told(self, *words):
        """The command prints the last word, with status 1 where it is a refusal."""
        *words, wanted = words
        status = 1 if wanted.startswith('refused ') else 0
        printed = call(self.program, words[0], self.path, *words[1:])
        wanted = (wanted if wanted.endswith('\n') else wanted + '\n').encode('ascii')
        if printed != (wanted, status):
            raise Difference(f'{words}: printed {printed}, wanted {wanted}')

    def book(self, rng):
        room, length = rng.choice(ROOMS[:2]), rng.choice([30, 60, 90])
        # at the most as many alternatives as the exchange text can say
        slots = [(rng.choice(DAYS), rng.choice(TIMES[:4])) for _ in range(rng.choice([1, 1, 2, 3, MOST_TOLD[RULES.version] + 1]))]
        if room not in self.replica.rooms:
            self.is_told('add-room', room, self.replica.add_room(room))
        title = rng.choice(['Alpha', 'Beta', 'a"b~c'])
        others = [f'{day}T{time}' for day, time in slots[1:]]
        self.is_told('book', room, length, *slots[0], title, *others, self.replica.book(room, str(length), slots, title))

    def cancel(self, rng):
        """A cancel of a booking that is known."""
        bookings = sorted((write for write in self.replica.known.values() if isinstance(write, Booking)), key=Booking.id)
        if bookings:
            write = rng.choice(bookings)
            request = id_text(write.id())
            self.is_told('cancel', write.room, request, self.replica.cancel(write.room, request))

    def import_bytes(self, text):
        """The batch with these bytes, through a file."""
        file = self.path + '.batch'
        with open(file, 'wb') as out:
            out.write(text)
        self.is_told('import', file, wire.receive(self.replica, text))

    def receive(self, maker, limit=100000):
        """What the other office has for this one, as it was made."""
        text = batch_text(maker.replica, len(self.replica.commits), self.replica.counts(), limit)
        if text is not None:
            self.import_bytes(text)

    def check_sheets(self):
        """The position, and for each room all of its days; a room that isn't known is refused."""
        self.is_told('position', self.replica.position())
        for room in ROOMS:
            self.is_told('calendar', room, 'full', self.replica.calendar(room, 'full'))

    def check(self):
        """All that the database shows, and its rows."""
        self.check_sheets()
        for room in ROOMS:
            self.is_told('errors', room, self.replica.errors(room))
            self.is_told('calendar', room, 'committed', self.replica.calendar(room, 'committed'))
            for day in DAYS:
                self.is_told('sheet', room, day, self.replica.sheet(room, day))
        for server, count in self.replica.counts().items():
            write = self.replica.known[(server, count)]
            self.is_told('outcome', write.room, f'{server}-{count}', self.replica.outcome_of(write.room, write.id()))
        rows, wanted = rows_of(self.path), rows_for(self.replica)
        if rows != wanted:
            raise Difference(f'the rows of {[name for name in wanted if rows.get(name) != wanted[name]]}: {rows}, wanted {wanted}')
