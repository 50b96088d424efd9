#!/usr/bin/env python3
"""Command lines with their status and what they print, and lines of scripts that are not of the table.

    lines.py PROGRAM FOLDER     runs those of tests/lines; makes its files in FOLDER, and removes nothing there

A file of tests/lines but `bad_script_lines` has lines of these forms, and comments, which begin with `#`; `''` stands for an empty word.

    STATUS WORD ..      the program with these words ends with this status, and prints the lines `| TEXT` that follow, and nothing else
    file NAME           makes a file of the lines `| TEXT` that follow
    holds NAME          the file has these lines, and no others
    absent NAME         there is no such file

A line of `bad_script_lines` is a line of a script, written as a text of Python. The last line that is printed counts what passed and failed.
"""
import ast
import os
import subprocess
import sys

FOLDER = os.path.dirname(os.path.realpath(__file__))
BAD = 'bad_script_lines'
# A slot as it stands among the alternatives of a request.
SLOT = '1995-12-18 14:30'


class Tests:
    """The program, and how many of its replies were as they have to be."""

    def __init__(self, program, folder):
        self.program, self.folder, self.passed, self.failed = os.path.realpath(program), folder, 0, 0

    def ran(self, words, text=b''):
        """The status and what was printed."""
        ran = subprocess.run([self.program, *words], cwd=self.folder, input=text, stdout=subprocess.PIPE, stderr=subprocess.DEVNULL)
        return ran.returncode, ran.stdout

    def same(self, name, found, wanted):
        self.passed, self.failed = self.passed + (found == wanted), self.failed + (found != wanted)
        if found != wanted:
            print(f'FAILED: {name}: {found}, wanted {wanted}')

    def script(self, text, status, printed):
        """A script on standard input comes to this."""
        self.same(repr(text[:100]), self.ran([], text), (status, printed))

    def block(self, name, head, text):
        """One line of a file, with the lines that follow it."""
        word, *words = head.split(' ')
        path = os.path.join(self.folder, *words[:1])
        if word == 'file':
            with open(path, 'wb') as it:
                it.write(text)
        elif word == 'holds':
            self.same(f'{name}: {head}', read(path), text)
        elif word == 'absent':
            self.same(f'{name}: {head}', os.path.exists(path), False)
        else:
            words = ['' if it == "''" else it for it in words]
            self.same(f'{name}: {head}', self.ran(words), (int(word), text))

    def file(self, name):
        """All blocks of a file."""
        blocks = []
        for line in lines_of(name):
            if line.startswith('| '):
                blocks[-1][1].append(line[2:] + '\n')
            elif not line.startswith('#'):
                blocks.append((line, []))
        for head, texts in blocks:
            self.block(name, head, ''.join(texts).encode())

    def bad_lines(self):
        """A bad line is told where it stands, alone or among others, and nothing is run."""
        for line in map(ast.literal_eval, lines_of(BAD)):
            self.script(line.encode(), 1, b'bad script line 1\n')
            self.script(f'replica 1\n\n# two\n{line}\nroom 1 oak\nreplica 1 1\n'.encode(), 1, b'bad script line 4\n')
        self.script(b'replica 1\nroom 1 \xff\n', 1, b'bad script line 2\n')

    def many_alternatives(self):
        """99 alternatives are of the table, though 16 are the most that are taken."""
        request = f'replica 1\nroom 1 oak\nbook 1 oak 60 1995-12-18 13:30 99{f" {SLOT}" * 99}'
        self.script(f'{request}\n'.encode(), 1, b'bad script line 3\n')
        self.script(f'{request} Full\n'.encode(), 0, b'ok\nok\nrefused 6 TooManyAlternatives\n')

    def nothing_printed(self):
        """Scripts of comments and empty lines."""
        for text in b'', b'\n\n', b'# one\n#two\n#\n', b'# one':
            self.script(text, 0, b'')


def read(path):
    with open(path, 'rb') as it:
        return it.read()


def lines_of(name):
    with open(os.path.join(FOLDER, name), encoding='utf-8') as it:
        return it.read().splitlines()


def main(words):
    if len(words) != 2:
        print(__doc__, file=sys.stderr)
        return 2
    tests = Tests(*words)
    for name in sorted(it for it in os.listdir(FOLDER) if '.' not in it and not it.startswith('_') and it != BAD):
        tests.file(name)
    tests.bad_lines()
    tests.many_alternatives()
    tests.nothing_printed()
    print(f'{tests.passed} passed, {tests.failed} failed')
    return 1 if tests.failed else 0


if __name__ == '__main__':
    sys.exit(main(sys.argv[1:]))
