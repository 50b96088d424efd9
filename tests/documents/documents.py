#!/usr/bin/env python3
"""The commands of docs/OPERATING.md, and those of the manual (deploy/package/rooms.1), each typed in in order in a folder, print what stands below them.

    documents.py ROOMS FOLDER

ROOMS is what is called as `./rooms`; the repository is the one that this file lies in. A block of lines that are indented is one of commands, where its
first line begins with `./rooms` or `curl`, and of what these printed, where it follows one of commands; empty lines don't count. What serves goes on until a
command names its database; its port is another than in the text. Loops and what needs another machine aren't run. The last line counts what passed and failed.
"""
import os
import re
import signal
import socket
import subprocess
import sys

ROOT = os.path.join(os.path.dirname(os.path.realpath(__file__)), '..', '..')
COMMAND = re.compile(r'(\./rooms|curl) ')


def blocks(text):
    """The indented blocks, each a list of lines."""
    found, last = [], False
    for line in text.splitlines():
        indented = line.startswith('    ')
        if indented and not last:
            found.append([])
        if indented:
            found[-1].append(line[4:])
        last = indented
    return found


def pairs(text):
    """The commands of a block, and the lines of the blocks behind it that are none."""
    found = []
    for block in blocks(text):
        if COMMAND.match(block[0]):
            found.append((block, []))
        elif found and not block[0].startswith(('while ', 'for ')):
            found[-1][1].extend(block)
    return found


def manual(text):
    """The commands of a manual's examples, and the lines below each; what serves prints on is left out."""
    found = []
    for block in re.findall(r'^\.EX\n(.*?)^\.EE', text, re.M | re.S):
        for line in block.replace('\\(aq', "'").splitlines():
            if line.startswith('$ '):
                found.append(([re.sub('^rooms ', './rooms ', line[2:])], []))
            elif not found[-1][0][0].startswith('./rooms serve '):
                found[-1][1].append(line)
    return found


def free_port():
    with socket.socket() as it:
        it.bind(('127.0.0.1', 0))
        return str(it.getsockname()[1])


class Typing:
    """A folder where commands are typed in, and what serves there."""

    def __init__(self, rooms, folder):
        self.folder, self.passed, self.failed, self.ports, self.serving = folder, 0, 0, {}, {}
        os.symlink(os.path.realpath(rooms), os.path.join(folder, 'rooms'))

    def count(self, name, found, wanted):
        self.passed, self.failed = self.passed + (found == wanted), self.failed + (found != wanted)
        if found != wanted:
            print(f'FAILED: {name}\nprinted: {found}\nwanted: {wanted}')

    def serve(self, words):
        database, port = words[2], words[3]
        self.end(database)
        self.ports[port] = free_port()
        words = ['./rooms', 'serve', database, self.ports[port], words[4]]
        self.serving[database] = subprocess.Popen(words, cwd=self.folder, stdin=subprocess.DEVNULL, stdout=subprocess.PIPE)
        self.count(f'{words}', self.serving[database].stdout.readline().decode(), f'serving 127.0.0.1:{self.ports[port]}\n')

    def end_all(self):
        for database in list(self.serving):
            self.end(database)

    def end(self, database):
        if database in self.serving:
            server = self.serving.pop(database)
            server.send_signal(signal.SIGTERM)
            server.wait()

    def run(self, line):
        """What a line of the document prints."""
        words = line.split(' ')
        if words[:2] == ['./rooms', 'serve']:
            self.serve(words)
            return ''
        if words[0] == './rooms':
            for database in words[2:]:
                self.end(database)
        for port, other in self.ports.items():
            line = line.replace(f':{port}/', f':{other}/')
        ran = subprocess.run(['bash', '-c', line.replace('curl ', 'curl -sS -m 30 ', 1)], cwd=self.folder, stdin=subprocess.DEVNULL,
                             capture_output=True, text=True, check=False)
        return ran.stdout + ran.stderr

    def block(self, commands, wanted):
        found = [line for command in commands for line in self.run(command).splitlines()]
        if all(line.startswith(('./rooms init', './rooms add-room')) for line in commands):
            wanted = ['ok'] * len(commands)
        self.count('; '.join(commands), found, [line for line in wanted if line])


def main(words):
    if len(words) != 2:
        print(__doc__, file=sys.stderr)
        return 2
    passed, failed = 0, 0
    for document, least, read in (('docs/OPERATING.md', 10, pairs), ('deploy/package/rooms.1', 15, manual)):
        folder = os.path.join(words[1], os.path.basename(document))
        os.mkdir(folder)
        typing = Typing(words[0], folder)
        with open(os.path.join(ROOT, document), encoding='utf-8') as it:
            found = read(it.read())
        typing.count(f'{document} has commands', len(found) >= least, True)
        for commands, wanted in found:
            typing.block(commands, wanted)
        typing.end_all()
        passed, failed = passed + typing.passed, failed + typing.failed
    print(f'{passed} passed, {failed} failed')
    return 1 if failed else 0


if __name__ == '__main__':
    sys.exit(main(sys.argv[1:]))
