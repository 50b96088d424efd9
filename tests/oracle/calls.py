"""Calls of the built program, for the tests in Python: one command, and a database that is served."""

import errno
import os
import random
import signal
import socket
import subprocess
import time

# the ports that are tried: those of this part of the tests (tests/part)
PORTS = range(int(os.environ.get('ROOMS_PORTS', 20000)),
              int(os.environ.get('ROOMS_PORTS', 20000)) + int(os.environ.get('PORTS_OF_PART', 12000)))


def call(program, *words, **more):
    """What one command prints, and its status."""
    ran = subprocess.run([program, *map(str, words)], stdin=subprocess.DEVNULL, stdout=subprocess.PIPE,
                         stderr=subprocess.DEVNULL, timeout=300, **more)
    return ran.stdout, ran.returncode


def done(program, *words):
    """What a command prints that has to be done."""
    printed, status = call(program, *words)
    assert status == 0, (words, status, printed)
    return printed


class Served:
    """A process that serves a database. Its lines go to a file, so that it never waits for somebody who reads them."""

    def __init__(self, program, database, lines, connections=999999999, **more):
        self.lines = lines
        for _ in range(20):
            self.port = random.SystemRandom().choice(PORTS)
            with open(lines, 'wb') as out:
                self.process = subprocess.Popen([program, 'serve', database, str(self.port), str(connections)],
                                                stdin=subprocess.DEVNULL, stdout=out, stderr=subprocess.DEVNULL, **more)
            if self.is_listening(lines):
                return
            self.end()
        raise RuntimeError(f'nothing serves {database}')

    def is_listening(self, lines):
        wanted = b'serving 127.0.0.1:%d\n' % self.port
        for _ in range(3000):
            with open(lines, 'rb') as told:
                if told.read().startswith(wanted):
                    return True
            if self.process.poll() is not None:
                return False
            time.sleep(0.02)
        return False

    def ask(self, *pieces):
        """The whole reply to these bytes, with nothing behind them. A piece goes out as soon as the one before it."""
        with socket.create_connection(('127.0.0.1', self.port), 60) as peer:
            peer.settimeout(60)
            peer.setsockopt(socket.IPPROTO_TCP, socket.TCP_NODELAY, 1)
            try:
                for piece in pieces:
                    peer.sendall(piece)
                peer.shutdown(socket.SHUT_WR)
            except OSError as fault:
                # a reply may come before all was sent: what stands behind a whole request isn't waited for
                if fault.errno not in (errno.EPIPE, errno.ECONNRESET, errno.ENOTCONN):
                    raise
            reply = b''
            while True:
                try:
                    piece = peer.recv(65536)
                except ConnectionResetError:
                    if not reply:
                        raise
                    return reply  # it came, and then the connection ended over what nobody read
                if not piece:
                    return reply
                reply += piece

    def statuses(self, wanted):
        """The lines of the connections, once there are so many: a line is printed after the reply is sent."""
        told = []
        for _ in range(1500):
            with open(self.lines, 'rb') as printed:
                told = printed.read().split(b'\n')[1:-1]
            if len(told) >= wanted:
                break
            time.sleep(0.02)
        return told

    def end(self):
        """The process is killed, as a power cut would."""
        self.process.send_signal(signal.SIGKILL)
        self.process.wait()


def empty(folder):
    """The folder, there and with nothing in it."""
    os.makedirs(folder, exist_ok=True)
    for name in os.listdir(folder):
        os.remove(os.path.join(folder, name))
    return folder
