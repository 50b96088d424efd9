#!/usr/bin/env python3
"""A served database whose disk fails.

    failed_disk.py PROGRAM FOLDER

Each request that changes the replica is served with the first of its calls of the disk failing, then with the second, and so on, until none
fails (fail_nth.c). It is answered 503 then, and the disk is well again. Where the failure left the database open, nothing was changed, and
each later request has the reply that it always has. Where it shut the database, each later request is answered 503 with refusal 25, also a
question whose rows were in memory, until the database is served anew: then the change was made or it wasn't. Without a C compiler only
files that may not grow are tried, which leave the database open. The last line counts.
"""

import os
import resource
import signal
import sys

sys.path.insert(0, os.path.join(os.path.dirname(os.path.abspath(__file__)), '..', 'oracle'))

from calls import Served, done, empty
from shim import Shim, compiler
from tables import copy_database

BETA = b'mr1 2 1\nW 2 1 1 oak 60 1995-12-18 09:00 0 Beta\nE\n'
SHUT = b'{"name":"Store","refusal":25}'


def question(path):
    return b'GET %s HTTP/1.1\r\n\r\n' % path


def posted(path, body):
    return b'POST %s HTTP/1.1\r\nContent-Length: %d\r\n\r\n' % (path, len(body)) + body


QUESTIONS = [question(path) for path in (b'/rooms/oak/days/1995-12-18', b'/position', b'/rooms/oak/errors', b'/rooms/oak/requests/1-1')]
QUESTIONS.append(posted(b'/pull', b'mp2 9 1\nK 0\nE\n'))
CHANGES = {
    'a submission': posted(b'/submit', b'{"day":"1995-12-18","length":60,"room":"oak","start":"10:00","title":"Alpha"}'),
    'a push': posted(b'/push', BETA),
    'a cancel': posted(b'/cancel', b'{"id":"1-1","room":"oak"}'),
}


def status_of(reply):
    return reply.split(b' ')[1] if reply else b''


def is_shut(reply):
    return status_of(reply) == b'503' and reply.endswith(b'\r\n\r\n' + SHUT)


class Tried:
    def __init__(self, program, folder):
        self.program, self.folder = program, empty(folder)
        self.base, self.file = f'{folder}/base.db', f'{folder}/tried.db'
        self.passed, self.failed, self.fails, self.shut = 0, 0, 0, 0
        for words in (['init', self.base, 1, 1], ['add-room', self.base, 'oak'], ['book', self.base, 'oak', 60, '1995-12-18', '13:30', 'First']):
            done(program, *words)

    def told(self, name, is_right):
        self.passed += bool(is_right)
        self.failed += not is_right
        if not is_right:
            print(f'FAILED: {name}', flush=True)

    def serve(self, **more):
        return Served(self.program, self.file, f'{self.folder}/lines', **more)

    def answers(self, served):
        return [served.ask(request) for request in QUESTIONS]

    def anew(self):
        """What is answered to questions once the database is served anew."""
        served = self.serve()
        answers = self.answers(served)
        served.end()
        return answers

    def whole(self, request):
        """What is answered before the change and after it, where nothing fails; and the reply to the change."""
        copy_database(self.base, self.file)
        served = self.serve()
        before, reply = self.answers(served), served.ask(request)
        after = self.answers(served)
        served.end()
        return before, reply, after

    def after_failure(self, name, served, request, reply, whole):
        """After a change that was refused; the disk is well again. Returns whether the database was shut."""
        before, right, after = whole
        answers = self.answers(served)
        was_shut = is_shut(answers[0])
        self.told(f'{name}: answered {status_of(reply)}', is_shut(reply))
        if was_shut:
            again = [served.ask(request), *self.answers(served)]
            self.told(f'{name}: the database is shut, and not all is 503', all(map(is_shut, answers + again)))
            served.end()
            self.told(f'{name}: served anew', self.anew() in (before, after))
        else:
            self.told(f'{name}: the database is open, and something was changed', answers == before)
            self.told(f'{name}: the same again', served.ask(request) == right and self.answers(served) == after)
            served.end()
        return was_shut

    def failing_calls(self, name, request, whole, shim):
        nth = 1
        while True:
            copy_database(self.base, self.file)
            shim.refuse(0)
            served = self.serve(env=shim.environment)
            self.told(f'{name}: before', self.answers(served) == whole[0])
            shim.refuse(nth)
            reply = served.ask(request)
            has_failed = shim.refused()
            shim.refuse(0)
            if not has_failed:
                self.told(f'{name}: with no failure', reply == whole[1] and self.answers(served) == whole[2])
                served.end()
                return
            self.fails += 1
            self.shut += self.after_failure(f'{name}, call {nth} of the disk', served, request, reply, whole)
            nth += 1

    def full_files(self, name, request, whole):
        """No file may grow for a while."""
        copy_database(self.base, self.file)
        served = self.serve(preexec_fn=lambda: signal.signal(signal.SIGXFSZ, signal.SIG_IGN))
        self.told(f'{name}: before', self.answers(served) == whole[0])
        resource.prlimit(served.process.pid, resource.RLIMIT_FSIZE, (4096, resource.RLIM_INFINITY))
        reply = served.ask(request)
        resource.prlimit(served.process.pid, resource.RLIMIT_FSIZE, (resource.RLIM_INFINITY, resource.RLIM_INFINITY))
        self.fails += 1
        self.shut += self.after_failure(f'{name}, with no room for files', served, request, reply, whole)


def main():
    tried = Tried(sys.argv[1], sys.argv[2])
    shim = Shim('fail_nth.c') if compiler() else None
    for name, request in CHANGES.items():
        whole = tried.whole(request)
        tried.told(f'{name}: answered {status_of(whole[1])}', status_of(whole[1]) == b'200' and whole[0] != whole[2])
        if hasattr(resource, 'prlimit'):
            tried.full_files(name, request, whole)
        if shim:
            tried.failing_calls(name, request, whole, shim)
    if shim:
        tried.told('no failure shut the database', tried.shut)
    else:
        print('skipped: failing calls of the disk (no C compiler)')
    print(f'{tried.passed} passed, {tried.failed} failed; the disk failed {tried.fails} times, which shut the database {tried.shut} times')
    sys.exit(1 if tried.failed else 0)


if __name__ == '__main__':
    main()
