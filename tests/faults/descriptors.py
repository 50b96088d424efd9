#!/usr/bin/env python3
"""A served database whose process may open no more files.

    descriptors.py PROGRAM FOLDER

It serves who has come, and when the next connection can't be taken it says so and ends with status 3, instead of counting one connection
after the other that nobody made. What was answered is there. The last line counts.
"""

import os
import resource
import subprocess
import sys
import time

sys.path.insert(0, os.path.join(os.path.dirname(os.path.abspath(__file__)), '..', 'oracle'))

from calls import Served, done, empty

QUESTION = b'GET /position HTTP/1.1\r\n\r\n'
BODY = b'mr2 2 1\nW 2 1 1 oak 60 1995-12-18 13:30 0 Alpha\nE\n'
PUSH = b'POST /push HTTP/1.1\r\nContent-Length: %d\r\n\r\n' % len(BODY) + BODY


def main():
    program, folder = os.path.abspath(sys.argv[1]), empty(sys.argv[2])
    database, passed, failed = f'{folder}/served.db', 0, 0
    done(program, 'init', database, 1, 1)
    served = Served(program, database, f'{folder}/lines', 2000)
    replies = [served.ask(QUESTION)]
    # once it waits for the next connection, that one has its number already; the one behind it has none
    served.statuses(1)
    time.sleep(1)
    open_files = [int(name) for name in os.listdir(f'/proc/{served.process.pid}/fd')]
    resource.prlimit(served.process.pid, resource.RLIMIT_NOFILE, (max(open_files) + 1,) * 2)
    replies.append(served.ask(PUSH))
    try:
        status = served.process.wait(60)
    except subprocess.TimeoutExpired:
        status = None
        served.end()
    with open(served.lines, 'rb') as told:
        lines = told.read()
    wanted = b'serving 127.0.0.1:%d\n200\n200\nfault network\n' % served.port
    position = done(program, 'position', database)
    for name, is_right in ((f'the replies {replies}', all(reply.startswith(b'HTTP/1.1 200 OK') for reply in replies)),
                           (f'the status {status}', status == 3), (f'the lines {lines[:200]}', lines == wanted),
                           (f'the position {position}', position == b'mp2 1 1\nK 0\nV 2 1\nE\n')):
        passed += is_right
        failed += not is_right
        if not is_right:
            print(f'FAILED: {name}')
    print(f'{passed} passed, {failed} failed')
    sys.exit(1 if failed else 0)


if __name__ == '__main__':
    main()
