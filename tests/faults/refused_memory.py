#!/usr/bin/env python3
"""Memory that is refused: one allocation after the other of the built program, by a shim that is preloaded under it.

    refused_memory.py PROGRAM SERVED ASKED FOLDER SCRIPT..

Each script is run by `rehearse`, so over lists, with each of its allocations refused in turn: what is printed is that of its plain form,
in which the refused line is not done. It is run once more with each of its lines given twice and questions between, and with all
allocations refused from one on. Then its lines are commands on databases, with some of the allocations of each, most of them near
its end; a database of the first schema is moved up, with each fifth allocation; and a served database is sent requests, with each
allocation of each refused. SERVED is that of the tests of the crate mr_web_tests, one of which serves requests over lists: each of its allocations
is refused. ASKED is that of the tests of the crate mr_sql_tests, three of which ask the same scripts of replicas over lists and over databases in
memory, and move databases up: each allocation of each command is refused. After a refusal everything is as before, and what was asked is done when
it is asked again. A process that ends otherwise is reported. The last line counts. What would be asked of the program, or of SERVED and ASKED, is left out
where that is `-`.
"""

import itertools
import os
import socket
import sys
import time

sys.path.insert(0, os.path.join(os.path.dirname(os.path.abspath(__file__)), '..', 'oracle'))
sys.path.insert(0, os.path.join(os.path.dirname(os.path.abspath(__file__)), '..', 'files'))

import on_databases
import plain_script
from calls import Served, call, done, empty
from oracle import RULES
from plain_script import REFUSED
from refused_commands import END, Commands
from shim import Shim, compiler
from tables import KEPT, copy_database, rows_or_none

TEXT, JSON, NO_MEMORY = b'text/plain', b'application/json', b'{"name":"OutOfMemory","refusal":24}'
# Of a command on a database: its last allocations, of which one in OFTEN is refused, and of those before, one in SELDOM.
LAST, SELDOM, OFTEN = 700, 701, 23
# Of the command that moves a database up one in so many is refused.
MOVING = 5


class Tried:
    """Counts what was tried: allocations refused, and commands that were refused for it."""

    def __init__(self, program, folder):
        self.program, self.folder, self.shim = program, folder, Shim()
        self.allocations, self.refused, self.late, self.wrong = 0, 0, 0, 0
        self.run(0, 'nothing')
        self.told('the shim', None if self.shim.seen() else 'it sees no allocation')

    def told(self, name, fault):
        """Without a fault it is right."""
        if fault:
            self.wrong += 1
            print(f'FAILED: {name}: {fault}', flush=True)

    def run(self, nth, *words, has_more=False):
        """What the program prints, and its status, with this allocation refused."""
        self.shim.refuse(nth, has_more)
        return call(self.program, *words, env=self.shim.environment)


class Lists(Tried):
    """Scripts, by `rehearse`."""

    def doubled(self, lines):
        """Each line twice, between the two what the replica has that it changes; the first of two batches is the one to be delivered."""
        made = []
        for line in lines:
            kind, *words = line.split(' ')
            if kind == 'deliver':
                line = f'deliver {2 * int(words[0]) - 1} {words[1]} {words[2]}'
            if kind in ('replica', 'room', 'book', 'cancel', 'commit', 'truncate', 'deliver'):
                server = words[1] if kind == 'deliver' else words[0]
                made += [line, f'position {server}', f'calendar {server} oak full', line]
            else:
                made += [line, line]
        return made

    def fault_of(self, lines, told, has_more):
        """What is wrong with what was printed, or None."""
        printed, status = told
        if status == 0:
            refused = plain_script.refused_in(lines, printed)
            if isinstance(refused, str):
                return refused
            self.refused += len(refused)
            return None if has_more or len(refused) <= 1 else f'{len(refused)} lines are refused for one allocation'
        self.refused += 1
        whole = plain_script.printed_by(lines)
        is_ended = status == 1 and printed.endswith(REFUSED) and whole.startswith(printed[:-len(REFUSED)])
        return None if is_ended else f'status {status}, printed {printed[-300:]}'

    def each(self, name, lines, has_more=False):
        script = f'{self.folder}/script'
        with open(script, 'w', encoding='ascii') as out:
            out.write(''.join(line + '\n' for line in lines))
        nth, whole = 1, (plain_script.printed_by(lines), 0)
        while True:
            told = self.run(nth, 'rehearse', script, has_more=has_more)
            if self.shim.refused() == 0:
                break
            self.allocations += 1
            self.told(f'{name}, allocation {nth}', self.fault_of(lines, told, has_more))
            nth += 1
        self.told(f'{name}, with no refusal', None if told == whole else f'printed {told}')

    def script(self, name, lines):
        servers = [line.split(' ')[1] for line in lines if line.startswith('replica ')]
        self.each(name, lines + plain_script.questions(servers))
        self.each(f'{name}, each line twice', self.doubled(lines) + plain_script.questions(servers))
        self.each(f'{name}, all from there on', lines, has_more=True)


class Databases(Tried, on_databases.Offices):
    """The same lines as commands on databases: each call is tried before it is done."""

    def __init__(self, program, folder):
        Tried.__init__(self, program, folder)
        on_databases.Offices.__init__(self, program, folder)
        self.commands, self.is_moving = 0, False

    def state(self, words):
        """The rows of the database, and the batch that is written."""
        written = None
        if words[0] == 'export' and os.path.exists(words[3]):
            with open(words[3], 'rb') as file:
                written = file.read()
        return rows_or_none(words[1]), written

    def put_back(self, words):
        copy_database(words[1] + '.before', words[1])
        if words[0] == 'export' and os.path.exists(words[3]):
            os.remove(words[3])

    def numbers(self, count):
        """The allocations that are refused: others with each command, and the last one always."""
        if self.is_moving:
            return [*range(1, count, MOVING), count]
        seldom, often = SELDOM - self.commands % 7 * 20, OFTEN - self.commands % 5
        border = max(1, count - LAST)
        return [*range(1 + self.commands * 37 % seldom, border, seldom), *range(border + self.commands % often, count, often), count]

    def fault_of(self, words, told, whole, before, after):
        """What is wrong with what was printed, or None; and whether it was done."""
        state = self.state(words)
        if told == whole and state == after:
            return None, True
        if told == (REFUSED, 1) and state == before:
            self.refused += 1
            return None, False
        if told == (REFUSED, 1) and state == after:
            self.late += 1
            return None, True
        return f'status {told[1]}, printed {told[0]}; the rows are those {"before" if state == before else "after" if state == after else "of neither"}', True

    def call(self, *words):
        """Tries the command, and does it."""
        words = list(map(str, words))
        copy_database(words[1], words[1] + '.before')
        self.put_back(words)
        before = self.state(words)
        whole = self.run(0, *words)
        after, has_been_late = self.state(words), False
        for nth in self.numbers(self.shim.seen()):
            self.put_back(words)
            late = self.late
            told = self.run(nth, *words)
            self.allocations += 1
            fault, is_done = self.fault_of(words, told, whole, before, after)
            if has_been_late and not is_done:
                fault = 'it is not done, though it was with an earlier allocation refused'
            has_been_late = has_been_late or self.late > late
            self.told(f'{" ".join(words)}, allocation {nth}', fault)
            if not is_done:
                again = call(self.program, *words)
                self.told(f'{" ".join(words)}, again', None if (again, self.state(words)) == (whole, after) else f'printed {again}')
        self.put_back(words)
        self.commands += 1
        assert self.run(0, *words) == whole and self.state(words) == after
        return whole[0], whole[1] == 0

    def script(self, name, lines):
        empty(self.folder)
        on_databases.Offices.__init__(self, self.program, self.folder)
        printed = b''.join(map(self.take, lines))
        self.told(f'{name}, as commands', None if printed == plain_script.printed_by(lines) else f'printed {printed}')

    def moved_up(self):
        """A database of the first schema is moved up by its first command: where that is refused its tables are those of the first schema
        still, or it was moved up before, and the command given again does it."""
        database = f'{self.folder}/7.db'
        copy_database(KEPT, database)
        self.is_moving = True
        printed = self.call('position', database)[0]
        self.is_moving = False
        wanted = b'mp%d 7 3\nK 6\nV 3 3\nV 7 6\nE\n' % RULES.version
        self.told('a database is moved up', None if printed == wanted else f'printed {printed}')
        self.told('its schema', None if rows_or_none(database)['meta'][0][1] == 2 else 'is not the second')


class Requests(Tried):
    """Requests that are served over lists, by a test: a submission, the sheet, and the submission again."""

    def run(self, nth, *_, has_more=False):
        printed, status = super().run(nth, 'without_memory_tests::three_requests', has_more=has_more)
        return printed.removesuffix(END), status

    def ends(self):
        """What is printed of each request: where it is done, and where there is no memory for it or for its reply."""
        outcome = b'{"day":"1995-12-18","id":"1-1","mark":"T","start":"13:30","state":"booked","stop":"14:30"}'
        row = b'13:30-14:30 T 1-1 Budget Meeting\n'
        booked, logged = answer(outcome, JSON), answer(b'{"id":"1-2","mark":"T","state":"logged"}', JSON)
        sheet, empty_sheet = (answer(b'oak 1995-12-18 Monday\n' + rows, TEXT) for rows in (row, b'(no bookings)\n'))
        none = [answer(NO_MEMORY, JSON, b'503 Service Unavailable') + b'\nserved 503\n', b'\nfault Memory\n']
        return [reply + b'\nserved 200\n' for reply in (booked, sheet, logged, empty_sheet)], none

    def each(self, right, has_more):
        nth = 1
        while True:
            told = self.run(nth, has_more=has_more)
            if self.shim.refused() == 0:
                return told
            self.allocations, nth = self.allocations + 1, nth + 1
            self.refused += told[0] != right[0]
            self.late += told[0] == right[-1]
            is_right = told[1] == 0 and told[0] in right
            self.told(f'requests over lists, allocation {nth - 1}', None if is_right else f'status {told[1]}, printed {told[0]}')

    def requests(self):
        """With one allocation refused, and with all from one on."""
        (booked, sheet, logged, empty_sheet), none = self.ends()
        whole, closed = booked + sheet + logged, b'not opened\n'
        one = [end for no in none for end in (no + empty_sheet + booked, booked + no + logged, booked + sheet + no)]
        done_not_told = none[1] + sheet + logged
        told = self.each([whole, closed, *one, done_not_told], False)
        self.told('requests over lists, with no refusal', None if told == (whole, 0) else f'printed {told}')
        rest = [b''.join([booked, sheet, logged][:count]) + b''.join(ends) for count in range(3) for ends in itertools.product(none, repeat=3 - count)]
        self.each([whole, closed, *rest, None], True)


class Servers(Tried):
    """A served database: what is answered with each allocation of a request refused."""

    def __init__(self, program, folder):
        super().__init__(program, folder)
        self.base, self.file, self.served, self.answered, self.starts = f'{folder}/base.db', f'{folder}/tried.db', None, 0, 0

    def start(self, has_copy=True):
        """Serves, as it was before the request that is tried or as it is."""
        if self.served:
            self.served.end()
        if has_copy:
            copy_database(self.base, self.file)
        self.shim.refuse(0)
        self.served = Served(self.program, self.file, f'{self.folder}/lines', env=self.shim.environment)
        self.answered, self.starts = 0, self.starts + 1

    def ask(self, request, nth=0):
        """The reply, its line among what is printed, and how many allocations were refused meanwhile."""
        self.shim.refuse(nth)
        try:
            reply = self.served.ask(request)
        except OSError:
            reply = b''
        self.answered += 1
        line = self.line()
        refused = self.shim.refused()
        self.shim.refuse(0)
        return reply, line, refused

    def line(self):
        for _ in range(20000):
            with open(self.served.lines, 'rb') as told:
                lines = told.read().split(b'\n')[1:-1]
            if len(lines) >= self.answered and lines[self.answered - 1] + b'\n' != REFUSED:
                return lines[self.answered - 1]
            if self.served.process.poll() is not None:
                return b'status %d' % self.served.process.returncode
            time.sleep(0.0005)
        return b''

    def state(self):
        """What is answered to questions; None where the database is shut."""
        replies = [self.ask(b'GET %s HTTP/1.1\r\n\r\n' % path)[0] for path in (b'/position', b'/rooms/oak/errors', b'/rooms/oak/days/1995-12-18')]
        return None if any(b'"refusal":25' in reply for reply in replies) or self.served.process.poll() is not None else replies

    def fault_of(self, told, whole, state, before, after):
        """What is wrong with what was answered and printed, or None. Where there is no memory for the line, the server ends as refused."""
        reply, line, _ = told
        no_memory = b'HTTP/1.1 503 ' in reply and reply.endswith(b'\r\n\r\n' + NO_MEMORY)
        is_line = line in (reply.split(b' ')[1] if reply else b'fault', b'status 1')
        if is_line and reply == whole and state == after:
            return None
        if is_line and (no_memory and state == before or reply == b'' and state in (before, after)):
            self.refused += 1
            self.late += before != after and state == after
            return None
        return f'answered {reply}, printed {line}, state {"before" if state == before else "after" if state == after else state}'

    def with_refusal(self, request, nth):
        """The reply with this allocation refused. A server that has answered before takes less memory for some requests, so one
        that is just started is asked where that met no refusal."""
        told = self.ask(request, nth) if self.answered else None
        if told is None or told[2] == 0:
            self.start()
            told = self.ask(request, nth)
        return told

    def request(self, name, request, whole):
        """With each of its allocations refused in turn; then it is done, with the reply that is wanted."""
        self.start()
        before = self.state()
        self.told(name, None if self.ask(request)[0] == whole else 'another reply with no refusal')
        after, nth = self.state(), 1
        self.start()
        while (told := self.with_refusal(request, nth))[2]:
            self.allocations, nth = self.allocations + 1, nth + 1
            state = self.state()
            if state is None:
                self.start(has_copy=False)
                state = self.state()
            self.told(f'{name}, allocation {nth - 1}', self.fault_of(told, whole, state, before, after))
            if state != before:
                self.start()
        self.told(f'{name}, again', None if told[0] == whole and self.state() == after else f'answered {told[0]}')
        self.served.end()
        self.served = None
        copy_database(self.file, self.base)


def submission():
    body = b'{"day":"1995-12-18","length":60,"room":"oak","start":"13:30","title":"Budget Meeting"}'
    return b'POST /submit HTTP/1.1\r\nContent-Length: %d\r\n\r\n' % len(body) + body


def posted(path, body):
    return b'POST %s HTTP/1.1\r\nContent-Length: %d\r\n\r\n' % (path, len(body)) + body


def answer(body, kind, status=b'200 OK'):
    return b'HTTP/1.1 %s\r\nContent-Type: %s\r\nContent-Length: %d\r\nConnection: close\r\n\r\n' % (status, kind, len(body)) + body


def served(servers):
    """A submission, a batch that is taken and one that is handed out, the questions, and a cancellation."""
    done(servers.program, 'init', servers.base, 1, 1)
    done(servers.program, 'add-room', servers.base, 'oak')
    outcome = b'{"day":"1995-12-18","id":"1-1","mark":"T","start":"13:30","state":"booked","stop":"14:30"}'
    servers.request('a submission', submission(), answer(outcome, JSON))
    beta = b'mr1 2 1\nW 2 1 1 oak 60 1995-12-18 13:30 1 1995-12-18 15:00 Beta\nE\n'
    servers.request('a push', posted(b'/push', beta), answer(b'took 1 writes 0 commits\n', TEXT))
    both = b'mr1 1 1\nW 1 1 1 oak 60 1995-12-18 13:30 0 Budget Meeting\n' + beta[8:]
    servers.request('a pull', posted(b'/pull', b'mp1 9 1\nK 0\nE\n'), answer(both, TEXT))
    sheet = b'oak 1995-12-18 Monday\n13:30-14:30 T 1-1 Budget Meeting\n15:00-16:00 T 2-1 Beta\n'
    for path, reply in ((b'/rooms/oak/requests/7-1', answer(b'{"name":"NoSuchRequest","refusal":9}', JSON, b'404 Not Found')),
                        (b'/rooms/oak/requests/1-1', answer(outcome, JSON)), (b'/rooms/oak/errors', answer(b'oak errors\n(no errors)\n', TEXT)),
                        (b'/rooms/oak/days/1995-12-18', answer(sheet, TEXT)), (b'/position', answer(b'mp2 1 1\nK 0\nV 1 1\nV 2 1\nE\n', TEXT))):
        servers.request(path.decode(), b'GET %s HTTP/1.1\r\n\r\n' % path, reply)
    cancel = answer(b'{"id":"1-2","mark":"T","state":"cancels","target":"1-1"}', JSON)
    servers.request('a cancellation', posted(b'/cancel', b'{"id":"1-1","room":"oak"}'), cancel)


def start_of_server(databases):
    """A server that is started, and has nobody to serve."""
    with socket.create_server(('127.0.0.1', 0)) as listener:
        port = listener.getsockname()[1]
    printed = databases.call('serve', databases.database(1), port, 0)[0]
    databases.told('serving nobody', None if printed == b'serving 127.0.0.1:%d\n' % port else f'printed {printed}')


def main():
    program, small, asked, folder, *scripts = sys.argv[1:]
    if not compiler():
        print('skipped: memory that is refused (no C compiler)')
        return
    programs = {Lists: program, Databases: program, Servers: program, Requests: small, Commands: asked}
    programs, tried = {kind: it for kind, it in programs.items() if it != '-'}, {}
    for kind, its_program in programs.items():
        os.makedirs(f'{folder}/{kind.__name__}', exist_ok=True)
        tried[kind] = kind(os.path.abspath(its_program), empty(f'{folder}/{kind.__name__}'))
    scripts = {os.path.basename(script): plain_script.lines_in(script) for script in scripts}
    if program != '-':
        for name, lines in scripts.items():
            for kind in (Lists, Databases):
                tried[kind].script(name, lines)
        start_of_server(tried[Databases])
        tried[Databases].moved_up()
        served(tried[Servers])
    if small != '-':
        tried[Requests].requests()
    if asked != '-':
        tried[Commands].scripts(list(scripts.values()))
    counts = [f'{kind.__name__.lower()} {it.allocations} allocations, {it.refused} refused, {it.late} done and not told, {it.wrong} wrong'
              for kind, it in tried.items()]
    print('; '.join(counts))
    sys.exit(1 if any(it.wrong for it in tried.values()) else 0)


if __name__ == '__main__':
    main()
