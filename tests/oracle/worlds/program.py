"""The built program, called cheaply: many thousand short processes, and servers that end by themselves."""

import os
import signal
import socket


class Difference(Exception):
    """The program replied something else than the plain form."""


def expect(what, printed, wanted):
    if printed != wanted:
        raise Difference(f'{what:.20000}\n  printed {printed!r:.20000}\n  wanted  {wanted!r:.20000}')


class Program:
    """The program, in a folder of its own. What it prints, on its error output too, goes to one file, which is written and read from its
    beginning each time.

    Where `wrong` is a number, one bit of the reply of that number is turned, as if the program had replied so.
    """

    def __init__(self, path, folder, ports, wrong=0):
        self.path, self.folder, self.ports, self.wrong, self.replies, self.running = path, folder, ports, wrong, 0, set()
        self.none = os.open(os.devnull, os.O_RDONLY)
        self.out = os.open(f'{folder}/printed', os.O_RDWR | os.O_CREAT | os.O_TRUNC)

    def close(self):
        """Processes that still run are killed."""
        for process in list(self.running):
            os.kill(process, signal.SIGKILL)
            self.status(process)
        os.close(self.none)
        os.close(self.out)

    def start(self, words, out):
        """The process of a command line; `@name` is a file of the folder."""
        words = [f'{self.folder}/{word[1:]}' if word.startswith('@') else word for word in words]
        files = [(os.POSIX_SPAWN_DUP2, self.none, 0), (os.POSIX_SPAWN_DUP2, out, 1), (os.POSIX_SPAWN_DUP2, out, 2)]
        process = os.posix_spawn(self.path, [self.path, *words], os.environ, file_actions=files)
        self.running.add(process)
        return process

    def status(self, process):
        """How a process ended."""
        _, status = os.waitpid(process, 0)
        self.running.remove(process)
        return os.waitstatus_to_exitcode(status)

    def call(self, *words):
        """What a command prints, and its status."""
        status = self.status(self.start(words, self.out))
        size = os.lseek(self.out, 0, os.SEEK_CUR)
        os.lseek(self.out, 0, os.SEEK_SET)
        return self.reply(os.pread(self.out, size, 0)), status

    def reply(self, data):
        """What was replied, or what is taken for it."""
        self.replies += 1
        if self.replies != self.wrong or not data:
            return data
        at = len(data) // 2
        return data[:at] + bytes([data[at] ^ 1]) + data[at + 1:]

    def write(self, name, data):
        with open(f'{self.folder}/{name}', 'wb') as file:
            file.write(data)

    def read(self, name):
        """The bytes of a file, or None where there is none; it is taken away."""
        path = f'{self.folder}/{name}'
        if not os.path.exists(path):
            return None
        with open(path, 'rb') as file:
            data = file.read()
        os.remove(path)
        return data


class Server:
    """A process that serves so many connections, at a port that it could have."""

    def __init__(self, program, database, connections):
        self.program, self.lines = program, b''
        while not self.lines.startswith(b'serving '):
            self.port = next(program.ports)
            self.pipe, write = os.pipe()
            self.process = program.start(['serve', database, str(self.port), str(connections)], write)
            os.close(write)
            self.lines = os.read(self.pipe, 4096)
            if not self.lines.startswith(b'serving '):
                expect(f'serve {database}', self.end(), (b'fault network\n', 3))

    def ask(self, data):
        """The whole reply to these bytes, with nothing behind them."""
        with socket.socket() as peer:
            peer.connect(('127.0.0.1', self.port))
            peer.sendall(data)
            peer.shutdown(socket.SHUT_WR)
            pieces = []
            while piece := peer.recv(65536):
                pieces.append(piece)
        return self.program.reply(b''.join(pieces))

    def end(self):
        """All that it printed, and its status, once it has ended."""
        while piece := os.read(self.pipe, 65536):
            self.lines += piece
        os.close(self.pipe)
        return self.lines, self.program.status(self.process)
