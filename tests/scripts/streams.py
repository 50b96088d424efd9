#!/usr/bin/env python3
"""Scripts from an input that fails after some bytes, and to an output that takes only some.

    streams.py PROGRAM FOLDER

The input is a socket whose other end was closed with bytes unread, so that what was written to it is read first, and the next read fails.
The output is a file that may not grow past a limit. The last line counts what is as it has to be.
"""

import resource
import signal
import socket
import subprocess
import sys

SCRIPT = b'replica 1\nroom 1 oak\n'
REPLIES = b'ok\nok\n'


def failing_input(given):
    """A socket that gives these bytes and then fails."""
    own, other = socket.socketpair()
    # closed with this byte unread, the other end has the next read fail in place of ending
    own.sendall(b'.')
    other.sendall(given)
    other.close()
    return own


def read(program, given):
    """What is printed, and the status, where the input fails behind these bytes."""
    with failing_input(given) as source:
        ran = subprocess.run([program], stdin=source, stdout=subprocess.PIPE, check=False, timeout=60)
    return ran.stdout, ran.returncode


def written(program, file, script, limit):
    """What of the output is in the file, and the status, where the file may have so many bytes."""
    def limited():
        signal.signal(signal.SIGXFSZ, signal.SIG_IGN)
        resource.setrlimit(resource.RLIMIT_FSIZE, (limit, limit))
    with open(file, 'w+b') as target:
        ran = subprocess.run([program], input=script, stdout=target, check=False, timeout=60, preexec_fn=limited)
        target.seek(0)
        return target.read(), ran.returncode


def rows(program, folder):
    """The name of each row, what came of it, and what was wanted."""
    # a read that fails at any place is a fault, and no line is run
    for count in range(len(SCRIPT) + 1):
        yield f'an input that fails after {count} bytes', read(program, SCRIPT[:count]), (b'fault file\n', 3)
    whole = subprocess.run([program], input=SCRIPT, stdout=subprocess.PIPE, check=False, timeout=60)
    yield 'an input that ends', (whole.stdout, whole.returncode), (REPLIES, 0)
    # a write that fails at any place is status 3, and what was taken before is a beginning of the replies
    file = f'{folder}/replies'
    for limit in range(len(REPLIES)):
        yield f'an output of {limit} bytes', written(program, file, SCRIPT, limit), (REPLIES[:limit], 3)
    yield 'an output of all bytes', written(program, file, SCRIPT, len(REPLIES)), (REPLIES, 0)
    yield 'a bad line, and an output of 3 bytes', written(program, file, b'replica\n', 3), (b'bad', 3)


def main():
    program, folder = sys.argv[1:]
    passed = failed = 0
    for name, found, wanted in rows(program, folder):
        passed, failed = passed + (found == wanted), failed + (found != wanted)
        if found != wanted:
            print(f'FAILED: {name}: {found}, and not {wanted}')
    print(f'{passed} passed, {failed} failed')
    return 1 if failed else 0


if __name__ == '__main__':
    sys.exit(main())
