#!/usr/bin/env python3
"""The front of the program (deploy/front), in a terminal and beside itself.

    front.py FRONT PROGRAM FOLDER

FRONT is the front as it is called, PROGRAM the program that it runs; files are made in FOLDER. What needs another user or a small disk is
tried where this is root. The last line counts what passed and failed.
"""
import contextlib
import fcntl
import os
import pty
import select
import shutil
import signal
import socket
import sqlite3
import subprocess
import sys
import time

HERE = os.path.dirname(os.path.realpath(__file__))
COMMANDS = 'init add-room book cancel sheet calendar outcome errors commit truncate position export import serve exchange bridge rehearse'
DAY = '2030-03-04'


class Tests:
    """The front and the program, and how many tests passed."""

    def __init__(self, front, program, folder):
        self.front, self.program, self.folder = os.path.realpath(front), os.path.realpath(program), os.path.realpath(folder)
        self.passed = self.failed = 0
        self.env = {name: value for name, value in os.environ.items() if not name.startswith('ROOMS_')}
        self.env.update(ROOMS_BINARY=self.program, LC_ALL='C.UTF-8')

    def same(self, name, found, wanted):
        self.passed, self.failed = self.passed + (found == wanted), self.failed + (found != wanted)
        if found != wanted:
            print(f'FAILED: {name}: {found!r}, wanted {wanted!r}')

    def has(self, name, text, *parts):
        """Each part stands in the text."""
        lacks = [part for part in parts if part not in text]
        self.passed, self.failed = self.passed + (not lacks), self.failed + bool(lacks)
        if lacks:
            print(f'FAILED: {name}: {lacks} in {text!r}')

    def path(self, name):
        return os.path.join(self.folder, name)

    def call(self, *words, program=None, **more):
        """The status, standard output and standard error; none of the three streams is a terminal."""
        env = {**self.env, **more.pop('env', {})}
        ran = subprocess.run([program or self.front, *words], cwd=self.folder, env=env, stdin=more.pop('stdin', subprocess.DEVNULL),
                             stdout=more.pop('stdout', subprocess.PIPE), stderr=subprocess.PIPE, timeout=60, **more)
        return ran.returncode, (ran.stdout or b'').decode(), ran.stderr.decode()

    def hinted(self, *words, **more):
        """As `call`, with hints."""
        return self.call(*words, env={'ROOMS_HINTS': '1', **more.pop('env', {})}, **more)

    def at_terminal(self, *words, keys=b'', env=None, seconds=30):
        """The status, and what a terminal shows of the front with these words."""
        child, terminal = pty.fork()
        if child == 0:
            os.chdir(self.folder)
            os.execvpe(self.front, [self.front, *words], {**self.env, **(env or {})})
        shown, end = b'', time.time() + seconds
        while time.time() < end:
            if select.select([terminal], [], [], 0.1)[0]:
                try:
                    piece = os.read(terminal, 4096)
                except OSError:
                    break
                if not piece:
                    break
                shown += piece
                if keys and b'serving ' in shown:
                    os.write(terminal, keys)
                    keys = b''
        else:
            os.kill(child, signal.SIGKILL)
        status = os.waitpid(child, 0)[1]
        os.close(terminal)
        return os.waitstatus_to_exitcode(status), shown.decode().replace('\r', '')

    def start(self, *words, program=None, env=None):
        return subprocess.Popen([program or self.front, *words], cwd=self.folder, env={**self.env, **(env or {})}, stdin=subprocess.DEVNULL,
                                stdout=subprocess.PIPE, stderr=subprocess.PIPE, text=True)

    def write(self, name, content):
        with open(self.path(name), 'wb') as it:
            it.write(content)

    def read(self, name):
        with open(self.path(name), 'rb') as it:
            return it.read()

    def make(self, name, server=1, room='oak'):
        for words in (['init', name, str(server), '1'], ['add-room', name, room]):
            subprocess.run([self.program, *words], cwd=self.folder, check=True, stdout=subprocess.DEVNULL)


def helps(t):
    status, table, err = t.call('--help')
    t.same('help that was asked for is output', (status, err), (0, ''))
    t.has('the table of commands', table, *(f'\n  {name} ' for name in COMMANDS.split()))
    for words in ['-h'], ['help'], ['help', 'help']:
        t.same(f'{words}', t.call(*words), (0, table, ''))
    for name in COMMANDS.split():
        status, said, err = t.call('help', name)
        t.same(f'help {name}', (status, err), (0, ''))
        t.has(f'help {name} has its words and an example', said, f'rooms {name} ', '\nFor instance:  rooms ')
        t.same(f'{name} --help', t.call(name, '--help'), (0, said, ''))
    t.same('--help behind other words', t.call('sheet', 'west.db', '-h'), t.call('help', 'sheet'))
    status, said, err = t.call('--version')
    t.same('the version', (status, err, said.startswith('rooms 0.')), (0, '', True))
    status, out, said = t.call('help', 'bok')
    t.same('help of no command', (status, out), (2, ''))
    t.has('what was meant', said, "there is no command 'bok'; did you mean `book`?")
    status, shown = t.at_terminal()
    t.same('no words at a terminal', (status, shown), (2, table))
    t.same('no words, and a script', t.call(input=b'replica 1\n', stdin=None), (0, 'ok\n', ''))
    # the examples can be copied
    t.make('west.db')
    with open(t.path('one.script'), 'w', encoding='ascii') as it:
        it.write('replica 1\n')
    for name in 'add-room', 'book', 'sheet', 'calendar', 'outcome', 'errors', 'cancel', 'commit', 'position':
        line = t.call('help', name)[1].rpartition('For instance:  ')[2].strip()
        ran = subprocess.run(['bash', '-c', f'rooms() {{ "{t.program}" "$@"; }}; {line}'], cwd=t.folder, capture_output=True, text=True, check=False)
        t.same(f'the example {line}', (ran.returncode, ran.stderr), (1 if name == 'add-room' else 0, ''))


def same_lines(t):
    """All command lines of tests/lines have the program's output and status, with hints and without, but for those that ask for help."""
    for hints in '0', '1':
        folder = t.path(f'lines{hints}')
        os.mkdir(folder)
        ran = subprocess.run([sys.executable, '-B', os.path.join(HERE, '../../tests/lines/lines.py'), t.front, folder], env={**t.env, 'ROOMS_HINTS': hints},
                             capture_output=True, text=True, check=False)
        failures = sorted(line.split(': (')[0] for line in ran.stdout.splitlines() if line.startswith('FAILED'))
        t.same('command lines through the front, which prints help that is asked for', failures, [f'FAILED: {it}' for it in (
            'limits_of_words: 2 --help', 'limits_of_words: 2 -h', 'limits_of_words: 2 help', 'limits_of_words: 2 help init', 'limits_of_words: 2 init --help',
            'without_databases: 2 --help', 'without_databases: 2 help')])
        t.passed += int(ran.stdout.splitlines()[-1].split()[0])


def same_outputs(t):
    """What takes no line, with hints and without."""
    t.make('out.db')
    for hints in '0', '1':
        env = {'ROOMS_HINTS': hints}
        with open('/dev/full', 'wb') as full:
            status, _, err = t.call('add-room', 'out.db', f'elm{hints}', stdout=full, env=env)
        t.same('a full output', (status, ('took no line' in err, 'done all the same' in err)), (3, (hints == '1', hints == '1')))
        t.same('what it did is done', t.call('sheet', 'out.db', f'elm{hints}', DAY)[0], 0)
        line = f'"{t.front}" position out.db >&-'
        t.same('a closed output', subprocess.run(['sh', '-c', line], cwd=t.folder, env={**t.env, **env}, stderr=subprocess.DEVNULL, check=False).returncode, 3)
        line = f'{{ "{t.front}" position out.db; echo $? > status; }} | true; cat status'
        said = subprocess.run(['bash', '-c', f'trap "" PIPE; {line}'], cwd=t.folder, env={**t.env, **env}, capture_output=True, text=True, check=False)
        t.same('an output that nobody reads, or read in time', said.stdout.strip() in ('0', '3'), True)
        with open(t.path('text'), 'wb') as it:
            t.same('a file', t.call('position', 'out.db', stdout=it, env=env)[0], 0)
        with open(t.path('text'), encoding='ascii') as it:
            t.same('what a file holds', it.read(), 'mp2 1 1\nK 0\nE\n')
    # a refusal that lands in a file is spoken of all the same
    with open(t.path('text'), 'ab') as it:
        status, _, err = t.hinted('position', 'absent.db', stdout=it)
    t.same('a refusal in a file', status, 1)
    t.has('it is said why', err, 'there is no absent.db')


WORDS = [
    # the words, the status, and what stands in the hint
    ('bok west.db', 2, 'did you mean `book`?'),
    ('sheet d.db oak', 2, 'sheet needs DATABASE ROOM DAY: DAY is missing'),
    ('sheet d.db 09:00', 2, "'09:00' is no name of a room"),
    (f'sheet d.db oak {DAY} more', 2, "'more' is a word too many"),
    ('init new.db abc 1', 2, "'abc' is no number of an office"),
    ('init new.db 100 1', 2, 'a number from 1 to 99'),
    ('init new.db 01 1', 2, 'without a zero before it'),
    ('serve d.db 99999 3', 2, "'99999' is no port"),
    ('serve d.db 0 3', 2, "'0' is no port"),
    ('calendar d.db oak half', 2, 'neither `full` nor `committed`'),
    ('exchange d.db 127.0.0.1:9', 2, 'http://127.0.0.1:9/'),
    ('exchange d.db https://127.0.0.1:9/', 2, 'rooms-courier'),
    (f'book d.db oak 60 {DAY} 09:00 -dash', 2, 'put the word -- behind `book`'),
    ('sheet d.db oak 09:00', 1, "'09:00' is no day: a day is YYYY-MM-DD"),
    ('sheet d.db oak 4.3.2030', 1, f'as {DAY}'),
    ('sheet d.db oak 2030-02-29', 1, 'no day of the calendar'),
    (f'book d.db oak 60 {DAY} 9:00 Title', 1, "'9:00' is no time: a time is HH:MM from 00:00 to 23:59, as 09:00"),
    (f'book d.db oak 60 {DAY} 2pm Title', 1, 'as 14:00'),
    (f'book d.db oak {DAY} 09:00 60 Title', 1, f"rooms book d.db oak 60 {DAY} 09:00 'Title'"),
    (f'book d.db oak 60 {DAY} 09:00 Budget Meeting', 1, "into quotes, as 'Budget Meeting'"),
    (f'book d.db oak 60 {DAY} 09:00 Title {DAY}T9:00', 1, "'9:00' is no time"),
    (f'book d.db oak 60 {DAY} 23:30 Title', 1, '60 minutes from 23:30 end after midnight'),
    (f'book d.db oak 0 {DAY} 23:30 Title', 1, "'0' is no length in minutes"),
    (f'book d.db Oak 60 {DAY} 09:00 Title', 1, "perhaps 'oak'"),
    (f'book d.db oak 60 {DAY} 09:00 Müller', 1, "write 'Mueller'"),
    (f'book d.db oak 60 {DAY} 09:00 Title ' + ' '.join([f'{DAY}T09:00'] * 17), 1, '17 alternatives are too many'),
    (f'book d.db oka 60 {DAY} 09:00 Title', 1, "did you mean 'oak'?"),
    ('add-room d.db oak', 1, "has the room 'oak' already"),
    ('cancel d.db oak 7', 1, "'7' is no id"),
    ('cancel d.db oak 1-7', 1, 'rooms calendar d.db oak full'),
    ('truncate d.db 1', 1, 'd.db is the primary'),
    ('commit e.db 1', 1, 'its primary is office 1'),
    ('truncate e.db 5', 1, 'which are 0'),
    ('init d.db 2 1', 1, 'is that of office 1'),
    ('init nofolder/x.db 1 1', 1, 'there is no folder nofolder/'),
    ('init . 1 1', 1, '. is a folder'),
    (f'sheet text oak {DAY}', 1, 'text is no database'),
    (f'sheet empty oak {DAY}', 1, 'empty is empty'),
    ('add-room empty oak', 1, 'empty has no tables yet: `rooms init empty SERVER PRIMARY` makes them'),
    (f'sheet other oak {DAY}', 1, 'other has other tables than those of rooms'),
    (f'sheet f.db oak {DAY}', 1, 'there is no f.db: did you mean d.db?'),
    ('bridge d.db d.db', 1, 'the same file'),
    ('export d.db text batch 10', 1, "begins with 'something else'"),
    ('import d.db text', 1, 'line 1 of text'),
    ('export d.db absent batch 10', 3, 'there is no file absent'),
    ('export d.db position nofolder/batch 10', 3, 'there is no folder nofolder/'),
    ('import d.db absent', 3, 'there is no file absent'),
    ('rehearse absent', 3, 'there is no file absent'),
    ('rehearse text', 1, 'line 1 of the script'),
    ('exchange d.db http://127.0.0.1:9/', 3, 'nothing serves at http://127.0.0.1:9/'),
]


def words(t):
    """Each fault has its hint, the program's own output and status; and no hint where none is wanted."""
    t.make('d.db')
    t.make('e.db', 2)
    with open(t.path('text'), 'w', encoding='ascii') as it:
        it.write('something else\n')
    open(t.path('empty'), 'w', encoding='ascii').close()
    with contextlib.closing(sqlite3.connect(t.path('other'))) as it:
        it.execute('CREATE TABLE other (it TEXT)')
    with open(t.path('position'), 'w', encoding='ascii') as it:
        it.write('mp2 9 1\nK 0\nE\n')
    for line, status, part in WORDS:
        asked = line.split(' ')
        plain = t.call(*asked, program=t.program)
        t.same(f'{line}: without hints', t.call(*asked), plain)
        found = t.hinted(*asked)
        t.same(f'{line}: with hints', found[:2], (status, plain[1]))
        t.has(f'{line}: the hint', found[2], part)
        t.same(f'{line}: one line', (found[2].count('\n'), found[2][:7]), (1, 'rooms: '))
    status, shown = t.at_terminal('sheet', 'd.db', 'oak', '09:00')
    t.same('a terminal', status, 1)
    t.has('what a terminal shows', shown, 'refused 1 BadDay\n', "rooms: '09:00' is no day: a day is YYYY-MM-DD")
    t.same('a terminal without hints', t.at_terminal('sheet', 'd.db', 'oak', '09:00', env={'ROOMS_HINTS': '0'}), (1, 'refused 1 BadDay\n'))


# what `export` may be told to write over: the bytes that are there, and what is said then, where it isn't done
OUTPUTS = {
    'text.out': (b'something else\n', 'text.out is there and is no batch'),
    'position.out': (b'mp2 9 1\nK 0\nE\n', 'position.out is there and is no batch'),
    'almost.out': (b'mr3 1 1\nE\n', 'almost.out is there and is no batch'),
    'short.out': (b'mx', 'short.out is there and is no batch'),
    'first.out': (b'mr1 9 1\nE\n', None),
    'second.out': (b'mr2 9 1\nE\n', None),
    'torn.out': (b'mr', None),
    'empty.out': (b'', None),
}


def outputs(t):
    """`export` writes over no database, and over no other file that is no batch; with hints and without, and at a terminal."""
    t.make('o.db')
    t.make('other.db', 2)
    t.write('o.position', b'mp2 9 1\nK 0\nE\n')
    os.symlink('other.db', t.path('link.out'))
    t.write('logged.out', b'')
    t.write('logged.out-wal', b'')
    # of the position's version
    batch = b'mr2 1 1\nE\n'
    wrote = (0, f'wrote {len(batch)} bytes\n', '')
    for ask in t.call, t.hinted:
        refused = [(name, part) for name, (_, part) in OUTPUTS.items() if part]
        refused += [('o.db', 'o.db is a database'), ('other.db', 'other.db is a database'), ('link.out', 'link.out is a database'),
                    ('logged.out', 'logged.out-wal is there, so logged.out is a database')]
        for name, (content, _) in OUTPUTS.items():
            t.write(name, content)
        for name, part in refused:
            before = t.read(name)
            status, out, said = ask('export', 'o.db', 'o.position', name, '10')
            t.same(f'export to {name}', (status, out, said.count('\n'), said[:7], t.read(name) == before), (3, '', 1, 'rooms: ', True))
            t.has(f'export to {name}', said, part, 'export would write over it')
        for name in [*(name for name, (_, part) in OUTPUTS.items() if not part), 'absent.out']:
            t.same(f'export to {name}', (ask('export', 'o.db', 'o.position', name, '10'), t.read(name)), (wrote, batch))
        os.remove(t.path('absent.out'))
        t.same('export to a device', ask('export', 'o.db', 'o.position', '/dev/null', '10'), wrote)
        t.same('export to a folder', ask('export', 'o.db', 'o.position', '.', '10')[:2], (3, 'fault file\n'))
        t.same('export with a word too few', ask('export', 'o.db', 'o.position', 'o.db')[:2], (2, 'bad command line\n'))
    status, shown = t.at_terminal('export', 'o.db', 'o.position', 'other.db', '10')
    t.same('export to a database, at a terminal', (status, shown), (3, 'rooms: other.db is a database: export would write over it; name another file for the batch\n'))
    t.same('the databases are as they were', [t.call('position', name)[0] for name in ('o.db', 'other.db')], [0, 0])


def rooms_taken(t):
    """A request that got no room, a cancel of nothing, and a day that is past."""
    t.make('r.db')
    t.same('a request', t.hinted('book', 'r.db', 'oak', '60', DAY, '09:00', 'First'), (0, f'1-1 T {DAY} 09:00-10:00\n', ''))
    status, out, err = t.hinted('book', 'r.db', 'oak', '60', DAY, '09:30', 'Second')
    t.same('no room: the reply is the program\'s', (status, out), (0, '1-2 T logged\n'))
    t.has('no room: what is in the way', err, 'NO ROOM for request 1-2', f'{DAY} 09:00-10:00 T 1-1 First is in the way', f'from {DAY} 10:00')
    t.has('no room: at a terminal', t.at_terminal('book', 'r.db', 'oak', '60', DAY, '09:30', 'Third')[1], '1-3 T logged\n', 'NO ROOM for request 1-3')
    t.has('no room, yet', err, 'while it is T it may still get a room: if you ask for another one, call rooms cancel r.db oak 1-2\n')
    t.has('what became of it', t.hinted('outcome', 'r.db', 'oak', '1-2')[2], 'NO ROOM', '1-1 First is in the way')
    status, out, err = t.hinted('cancel', 'r.db', 'oak', '1-3')
    t.same('a cancel of what has no room', (status, out, err), (0, '1-4 T void 1-3\n',
           'rooms: request 1-3 has no room, and now it gets none any more: the cancel takes it back if it were to get one\n'))
    t.same('a cancel', t.hinted('cancel', 'r.db', 'oak', '1-1'), (0, '1-5 T cancels 1-1\n', ''))
    status, out, err = t.hinted('cancel', 'r.db', 'oak', '1-1')
    t.same('a second cancel', (status, out), (0, '1-6 T void 1-1\n'))
    t.has('a second cancel', err, 'nothing was cancelled', 'cancel 1-5 has taken it back already')
    status, out, err = t.hinted('book', 'r.db', 'oak', '60', '2020-01-01', '09:00', 'Old')
    t.same('a day that is past', (status, out, err), (0, '1-7 T 2020-01-01 09:00-10:00\n', 'rooms: 2020-01-01 is past; the request stands all the same\n'))


def merges(t):
    """What an exchange does to the requests of the office itself is told: worked by hand, with requests of office 3 that go before."""
    t.make('m.db', 2)
    for hour, title, *more in ('13:00', 'East supplier'), ('16:00', 'Stays'), ('17:00', 'Planning', f'{DAY}T18:00'), ('13:30', 'Waits'):
        t.call('book', 'm.db', 'oak', '60', DAY, hour, title, *more)
    t.call('cancel', 'm.db', 'oak', '2-2')
    lines = ['mr2 1 1', f'W 1 1 1 oak 30 {DAY} 13:00 0 Earlier', f'W 1 2 2 oak 30 {DAY} 17:30 0 Late', 'X 1 3 99 oak 2 4', 'E']
    # the request 1-1 takes 13:00 to 13:30: 2-1 loses its room, 2-4 gets one, which the cancel 1-3 takes back in the second batch
    for name, part in ('batch1', [0, 1, 2, 4]), ('batch2', [0, 3, 4]):
        with open(t.path(name), 'w', encoding='ascii') as it:
            it.write(''.join(lines[n] + '\n' for n in part))
    shutil.copy(t.path('m.db'), t.path('m2.db'))
    wanted = f"""rooms: of the requests that this office made (m.db): 1 lost the room, 1 moved, 1 found a room
    2-1 East supplier lost its room oak on {DAY} at 13:00
    2-4 Waits has the room oak by now, on {DAY} at 13:30
    2-3 Planning in oak, which was on {DAY} at 17:00, moved to 18:00
"""
    t.same('an import', t.hinted('import', 'm.db', 'batch1'), (0, 'took 2 writes 0 commits\n', wanted))
    t.same('an import that changes nothing', t.hinted('import', 'm.db', 'batch1'), (0, 'took 0 writes 0 commits\n', ''))
    t.same('an import with a cancel', t.hinted('import', 'm.db', 'batch2'), (0, 'took 1 writes 0 commits\n',
           f'rooms: of the requests that this office made (m.db): 1 cancelled\n    2-4 Waits in oak, which was on {DAY} at 13:30, was cancelled by 1-3\n'))
    t.same('an import without hints', t.call('import', 'm2.db', 'batch1'), (0, 'took 2 writes 0 commits\n', ''))
    t.make('p.db', 1)
    for hour in range(24):
        t.call('book', 'p.db', 'oak', '60', '2030-03-05', f'{hour:02}:00', 'Of one')
    t.make('q.db', 3)
    for hour in range(24):
        t.call('book', 'q.db', 'oak', '60', '2030-03-05', f'{hour:02}:00', 'Of three')
    status, out, err = t.hinted('bridge', 'q.db', 'p.db')
    t.same('a bridge', (status, out), (0, 'pulled 24 writes 0 commits\npushed 24 writes 0 commits\n'))
    t.same('a bridge: the lines', (err.splitlines()[0], err.splitlines()[-1], err.count('\n')),
           ('rooms: of the requests that this office made (q.db): 24 lost the room', '    and 4 more', 22))
    t.make('four.db', 4)
    t.call('book', 'four.db', 'oak', '30', '2030-03-05', '00:00', 'Of four')
    t.has('a bridge at a terminal', t.at_terminal('bridge', 'q.db', 'four.db')[1], 'pushed 48 ', '(four.db): 1 lost the room\n    4-1 Of four lost its room oak on 2030-03-05 at 00:00\n')


def turns(t):
    """Commands wait for each other."""
    t.make('t.db')
    running = [t.start('book', 't.db', 'oak', '30', DAY, f'{hour:02}:00', 'At once') for hour in range(12)]
    t.same('twelve at once', [f' T {DAY} ' in it.communicate()[0] for it in running], [True] * 12)
    sheet = t.call('sheet', 't.db', 'oak', DAY)[1]
    t.same('all twelve are there', sheet.count('\n'), 13)
    loop = subprocess.Popen(['bash', '-c', f'for hour in {{10..23}}; do "{t.front}" book t.db oak 30 2030-03-05 $hour:00 Loop; done'], cwd=t.folder,
                            env=t.env, stdout=subprocess.PIPE, text=True)
    running = [t.start('sheet', 't.db', 'oak', DAY) for _ in range(80)]
    t.same('eighty questions beside a loop', [it.communicate()[0] for it in running].count(sheet), 80)
    t.same('the loop beside eighty questions', loop.communicate()[0].count(' T 2030-03-05 '), 14)
    t.same('nothing lies beside the database', sorted(it for it in os.listdir(t.folder) if it.startswith('t.db')), ['t.db', 't.db-wal'])
    # another program has it: the front waits as long as it is told, and then the program decides
    with open(t.path('t.db'), 'rb') as it:
        fcntl.flock(it, fcntl.LOCK_EX)
        began = time.time()
        t.same('a wait that ends', t.call('sheet', 't.db', 'oak', DAY, env={'ROOMS_WAIT': '1'})[1], sheet)
        t.same('it took about a second', 0.9 < time.time() - began < 5, True)
        waiting = t.start('sheet', 't.db', 'oak', DAY)
        time.sleep(0.3)
        t.same('it waits', waiting.poll(), None)
        fcntl.flock(it, fcntl.LOCK_UN)
        began = time.time()
        t.same('it is answered', waiting.communicate()[0], sheet)
        t.same('at once', time.time() - began < 0.8, True)
    # the program's own lock, without the front's
    with open(t.path('t.db'), 'rb') as it:
        fcntl.lockf(it, fcntl.LOCK_SH, 512, 1 << 30)
        status, out, err = t.hinted('book', 't.db', 'oak', '30', DAY, '20:00', 'Beside')
        t.same('a lock of another program', (status, out), (1, 'refused 25 Store\n'))
        t.has('who has it', err, 't.db is in use by `', f'process {os.getpid()}')
    t.make('u.db', 2)
    running = [t.start('bridge', *pair) for pair in [['t.db', 'u.db'], ['u.db', 't.db']] * 4]
    t.same('bridges both ways', [it.communicate()[0].count('ed ') for it in running], [2] * 8)


def served(t):
    """A served database: whoever comes is told so at once."""
    t.make('s.db')
    with socket.socket() as it:
        it.bind(('127.0.0.1', 0))
        port = str(it.getsockname()[1])
    for hints in '0', '1':
        server = t.start('serve', 's.db', port, '1000', env={'ROOMS_HINTS': hints})
        t.same('it serves', server.stdout.readline(), f'serving 127.0.0.1:{port}\n')
        began = time.time()
        for line in f'sheet s.db oak {DAY}', f'book s.db oak 60 {DAY} 09:00 Title', f'serve s.db {port} 1':
            status, out, err = t.hinted(*line.split(' '))
            t.same(f'{line} beside it', (status, out), (1, 'refused 25 Store\n'))
            t.has(f'{line}: by whom', err, f's.db is in use by `rooms serve s.db {port}`, process {server.pid}: ask http://127.0.0.1:{port}/')
        t.same('at once', time.time() - began < 9, True)
        t.make(f'other{hints}.db')
        status, out, err = t.hinted('serve', f'other{hints}.db', port, '1')
        t.same('a port that is taken', (status, out), (3, 'fault network\n'))
        t.has('by whom it is taken', err, f'port {port} is taken by `rooms serve s.db {port}`, process {server.pid}')
        # what serves has the front's own process, so that it ends with it
        os.kill(server.pid, signal.SIGTERM)
        t.same('it ends', server.wait(), -signal.SIGTERM)
        t.same('and answers again', t.call('sheet', 's.db', 'oak', DAY)[0], 0)
    status, shown = t.at_terminal('serve', 's.db', port, '9', keys=b'\x03')
    t.same('control-C at a terminal', (status, shown.startswith(f'serving 127.0.0.1:{port}\n')), (-signal.SIGINT, True))
    status, out, err = t.hinted('serve', 's.db', port, '0')
    t.same('nobody is served', (status, out), (0, f'serving 127.0.0.1:{port}\n'))
    t.has('it is said why it ends', err, 'no connection was asked for')
    t.same('the program itself, served', t.start('serve', 's.db', port, '0', program=t.program).communicate()[0], f'serving 127.0.0.1:{port}\n')


def room_names(t):
    """The reader of a database's rooms: of many pages, and of a log that nobody copied into the file."""
    reader = os.path.join(os.path.dirname(t.front), 'room_names.pl')
    names = [f'r{number:05}' for number in range(5000)]
    t.make('n.db')
    t.same('one room', t.call(reader, 'n.db', program='perl'), (0, 'oak\n', ''))
    with contextlib.closing(sqlite3.connect(t.path('n.db'))) as it:
        it.executemany('INSERT INTO room VALUES (?)', [[name] for name in names])
        it.commit()
        for name in 'n.db', 'n.db-wal':
            shutil.copy(t.path(name), t.path('copy-' + name))
    t.same('the log has many', os.path.getsize(t.path('copy-n.db-wal')) > 100000, True)
    for name in 'copy-n.db', 'n.db':
        t.same(f'many rooms in {name}', t.call(reader, name, program='perl')[1].split(), ['oak', *names])
    t.same('no database', t.call(reader, 'absent.db', program='perl')[0] != 0, True)


def itself(t):
    """A front that is told to run itself, or another front, doesn't go on for ever."""
    copy = t.path('copied')
    shutil.copytree(os.path.dirname(t.front), copy)
    front = os.path.join(copy, 'rooms')
    t.same('a front of no program', t.call('position', 'd.db', program=front, env={'ROOMS_BINARY': front})[0], 4)
    os.symlink(front, t.path('link'))
    t.same('by another name', t.call('position', 'd.db', program=front, env={'ROOMS_BINARY': t.path('link')})[0], 4)
    t.same('another front', t.call('position', 'd.db', env={'ROOMS_BINARY': front})[0], 4)
    t.same('the program', t.call('position', 'd.db', program=front)[0], 0)


def signals(t):
    """A signal to the front comes to the program, and the front ends as the program does."""
    for hints in '0', '1':
        reading, writing = os.pipe()
        ran = subprocess.Popen([t.front], stdin=reading, stdout=subprocess.DEVNULL, stderr=subprocess.DEVNULL, env={**t.env, 'ROOMS_HINTS': hints})
        time.sleep(0.3)
        ran.terminate()
        t.same('a signal', ran.wait(), -signal.SIGTERM)
        os.close(reading)
        os.close(writing)


def limits(t):
    """A limit of the shell doesn't kill the program in the middle."""
    t.make('x.db')
    for hints in '0', '1':
        ran = subprocess.run(['bash', '-c', f'ulimit -f 10; exec "{t.front}" book x.db oak 60 {DAY} 09:00 Title'], cwd=t.folder,
                             env={**t.env, 'ROOMS_HINTS': hints}, capture_output=True, text=True, check=False)
        t.same('a size limit', (ran.returncode, ran.stdout), (1, 'refused 25 Store\n'))
        t.same('it is said', 'this shell lets no file grow past' in ran.stderr, hints == '1')
    t.same('nothing was changed', t.call('sheet', 'x.db', 'oak', DAY)[1].splitlines()[1], '(no bookings)')


def rights(t):
    """Another user, who may read and may not write; and a disk that is full, or may only be read."""
    if os.geteuid() != 0:
        print('skipped: refused rights and full disks (not root)')
        return
    t.make('y.db')
    os.chmod(t.folder, 0o755)
    as_nobody = {'user': 65534, 'group': 65534, 'extra_groups': []}
    if subprocess.run(['test', '-x', t.front], cwd=t.folder, check=False, **as_nobody).returncode or not reachable(t, as_nobody):
        print('skipped: refused rights (another user reaches no such folder)')
    else:
        t.same('a question of another user', t.hinted('sheet', 'y.db', 'oak', DAY, **as_nobody)[0::2], (0, ''))
        status, out, err = t.hinted('book', 'y.db', 'oak', '60', DAY, '09:00', 'Title', **as_nobody)
        t.same('a change by another user', (status, out), (1, 'refused 25 Store\n'))
        t.has('whose it is', err, 'may not write y.db, which belongs to root')
        status, out, err = t.hinted('init', 'z.db', '1', '1', **as_nobody)
        t.same('a database in a folder of another', (status, out), (1, 'refused 25 Store\n'))
        t.has('whose folder it is', err, 'may not write in the folder')
        os.chmod(t.path('y.db'), 0o600)
        t.has('a database that may not be read', t.hinted('sheet', 'y.db', 'oak', DAY, **as_nobody)[2], 'may not read y.db, which belongs to root')
    disk = t.path('disk')
    os.mkdir(disk)
    if subprocess.run(['mount', '-t', 'tmpfs', '-o', 'size=800k', 'none', disk], check=False, stderr=subprocess.DEVNULL).returncode:
        print('skipped: a full disk (no mount)')
        return
    try:
        t.make('disk/a.db')
        left = os.statvfs(disk)
        with open(os.path.join(disk, 'rest'), 'wb') as it:
            it.write(b'x' * (left.f_bavail * left.f_frsize - 60000))
        status, out, err = t.hinted('book', 'disk/a.db', 'oak', '60', DAY, '09:00', 'Title')
        t.same('a full disk', (status, out), (1, 'refused 25 Store\n'))
        t.has('it is said', err, 'the disk is full: ', 'disk/a.db')
        subprocess.run(['mount', '-o', 'remount,ro', disk], check=True)
        t.same('a question on a disk for reading', t.hinted('sheet', 'disk/a.db', 'oak', DAY)[0::2], (0, ''))
        t.has('a change there', t.hinted('book', 'disk/a.db', 'oak', '60', DAY, '09:00', 'Title')[2], 'Read-only file system')
    finally:
        subprocess.run(['umount', disk], check=False)


def reachable(t, user):
    return subprocess.run(['test', '-r', t.path('y.db')], check=False, **user).returncode == 0 and \
        subprocess.run([t.program, '--help'], check=False, stdout=subprocess.DEVNULL, **user).returncode == 2


def main(arguments):
    if len(arguments) != 3:
        print(__doc__, file=sys.stderr)
        return 2
    t = Tests(*arguments)
    for group in helps, same_lines, same_outputs, words, outputs, rooms_taken, merges, turns, served, room_names, itself, signals, limits, rights:
        group(t)
    print(f'{t.passed} passed, {t.failed} failed')
    return 1 if t.failed else 0


if __name__ == '__main__':
    sys.exit(main(sys.argv[1:]))
