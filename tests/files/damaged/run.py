#!/usr/bin/env python3
"""Databases in which a cell was turned, a row left out, or a row put once more under another id, and what commands make of them.

    run.py PROGRAM FOLDER [--all] [--shown]

makes databases (bases.py), and turns cells of them by the stock sqlite3 (turns.py): one of each column in each way, chosen by a fixed seed; with
`--all` each cell. Each command (commands.py) is then given a copy. Rows that still stand for a replica (standing.py) are that replica's: the
reply and the rows behind it have to be those of oracle.py. What no replica has is refused by name, and nothing is changed; but

- a question may be answered if it doesn't read what was turned, or if no row shows the turn that it compares with what it reads;
- a command that changes may be done if no row at all shows the turn (unseen.py).

Then too a reply has its form, no id is given out twice, no write's row is lost or written over, no slot is shown that ends before it begins, and no
question is answered where `meta` and `vector` contradict each other, or a row is beyond its limits (rules.py, limits.py). Answers to questions that differ from those before the turn are
counted, and `--shown` lists them. The last line counts what passed and failed.
"""

import collections
import multiprocessing
import os
import random
import shutil
import socket
import subprocess
import sys

HERE = os.path.dirname(os.path.abspath(__file__))
sys.path[1:1] = [HERE, os.path.join(HERE, '..', '..', 'oracle')]

import stock
from commands import answered, commands_for, words_for
from bases import made
from calls import empty
from rules import faults_of_change, faults_of_question, faults_of_reply, is_named, is_store
from standing import as_second, replica_of
from tables import rows_for
from turns import cell_turns, row_turns
from unseen import is_unseen

SEED, OF_CELLS, OF_ROWS = 56, 1, 4
Case = collections.namedtuple('Case', 'base turn')
Reply = collections.namedtuple('Reply', 'printed status batch rows')


# ---- one command on one database

class Office:
    """One of the databases, as it was made: its folder, its rows, the commands, and what they print."""

    def __init__(self, program, folder, port):
        self.program, self.folder, self.name = program, folder, os.path.basename(folder)
        self.rows = stock.rows_of(f'{folder}/base.db')
        replica = replica_of(self.rows)
        self.commands = commands_for(self.name, replica.server, port)
        self.usual = {command.line: answered(command, replica, folder)[:2] for command in self.commands}

    def call(self, command, database, batch):
        """What is printed, errors too, and the status."""
        ran = subprocess.run([self.program, *words_for(command, database, self.folder, batch)], stdin=subprocess.DEVNULL, stdout=subprocess.PIPE,
                             stderr=subprocess.STDOUT, close_fds=False, check=False)
        return ran.stdout.decode('latin-1'), ran.returncode


class Turned:
    """A turned database, and the commands that are given copies of it."""

    def __init__(self, office, turn, folder):
        self.office, self.turn = office, turn
        self.file, self.copied, self.batch = f'{folder}/turned.db', f'{folder}/copy.db', f'{folder}/batch'
        base = f'{office.folder}/base.db'
        stock.copy(f'{office.folder}/loose.db' if turn.loose else base, self.file)
        stock.run(self.file, *turn.statements, *(stock.strict_again(base) if turn.loose else []))
        self.found, self.bytes = stock.rows_of(self.file), stock.bytes_of(self.file)
        self.rows = as_second(self.found)
        self.replica = replica_of(self.found)

    def given(self, command):
        """What comes of the command, given to a copy."""
        stock.copy(self.file, self.copied)
        if os.path.exists(self.batch):
            os.remove(self.batch)
        printed, status = self.office.call(command, self.copied, self.batch)
        batch = None
        if os.path.exists(self.batch):
            with open(self.batch, 'rb') as file:
                batch = file.read()
        rows = self.found if stock.bytes_of(self.copied) == self.bytes else stock.rows_of(self.copied)
        return Reply(printed, status, batch, rows)

    def tried(self, command):
        """What is wrong with what this command does; and whether what it shows is neither what it showed before nor a replica's."""
        reply = self.given(command)
        rows = as_second(reply.rows)
        if reply.status not in (0, 1) or reply.status == 1 and not is_named(reply.printed):
            return [f'ends strangely: with status {reply.status} and {reply.printed[:300]!r}'], False
        moved = reply.rows != self.found and is_store(reply.printed) and not is_unseen(self.turn, self.rows)
        if reply.status == 1 and (rows != self.rows or moved):
            # what isn't refused for the rows may be moved up, and so may what no row shows
            return [f'is refused and changes rows: {reply.printed!r}'], False
        if self.replica:
            return self.faults_of_replica(command, reply, rows), False
        if reply.status == 1:
            return [], False
        faults = faults_of_reply(command.line, reply.printed, reply.batch)
        if command.changes:
            faults += [] if is_unseen(self.turn, self.rows) else ['is done on rows that no replica has']
            return faults + faults_of_change(self.rows, rows, reply.printed), False
        faults += ['changes rows'] if rows != self.rows else []
        return faults + faults_of_question(command.line, self.rows), (reply.printed, reply.batch) != self.office.usual[command.line]

    def faults_of_replica(self, command, reply, rows):
        wanted, batch, behind = answered(command, self.replica, self.office.folder)
        if reply.printed != wanted:
            return [f'answers otherwise than the replica of these rows: {reply.printed[:300]!r}, wanted {wanted[:300]!r}']
        if reply.batch != batch:
            return [f'makes another batch than the replica of these rows: {reply.batch!r}, wanted {batch!r}']
        return [] if rows == rows_for(behind) | {'write_log': [], 'undo': []} else ['leaves other rows than the replica has then']


# ---- all cases

def chosen(cases, of_each):
    """Of each column and kind so many, by a fixed seed."""
    rng, by = random.Random(SEED), collections.defaultdict(list)
    for case in cases:
        by[case.turn.table, case.turn.column, case.turn.kind].append(case)
    return [case for of in by.values() for case in rng.sample(of, min(of_each, len(of)))]


def free_port():
    with socket.socket() as held:
        held.bind(('127.0.0.1', 0))
        return held.getsockname()[1]


def try_cases(program, folder, folders, cases):
    """How many commands passed; faults and what was shown, each with the case; how many turns the store didn't take; how many stand."""
    offices = {each: Office(program, each, free_port()) for each in folders}
    passed, faults, shown, untaken, standing = 0, [], [], 0, 0
    for case in cases:
        try:
            turned = Turned(offices[case.base], case.turn, folder)
        except stock.Refused:
            untaken += 1
            continue
        standing += turned.replica is not None
        for command in offices[case.base].commands:
            found, is_shown = turned.tried(command)
            passed += not found
            faults += [(fault, command.line, case) for fault in found]
            shown += [(command.line, case)] if is_shown else []
    return passed, faults, shown, untaken, standing


def place_of(case):
    turn = case.turn
    return f'{turn.table}.{turn.column}' if turn.column else turn.table


def print_groups(title, groups):
    """Each group in a line, with how often each kind of turn came, and one case of it."""
    print(title)
    for (what, where), cases in sorted(groups.items()):
        kinds = collections.Counter(kind for kind, _ in cases)
        print(f'  {what}: {where}: ' + ', '.join(f'{kind} {count}' for kind, count in sorted(kinds.items())) + f'; as {cases[0][1]}')


def example(line, case):
    return f'`{line}` of {os.path.basename(case.base)} behind {"; ".join(case.turn.statements)}'


def print_faults(faults):
    groups = collections.defaultdict(list)
    for fault, line, case in faults:
        what, _, details = fault.partition(': ')
        groups[what, place_of(case)].append((case.turn.kind, example(line, case) + (f': {details}' if details else '')))
    print_groups(f'{len(faults)} FAILED:', groups)


def print_shown(shown):
    groups = collections.defaultdict(list)
    for line, case in shown:
        groups[line.split(' ')[0], place_of(case)].append((case.turn.kind, example(line, case)))
    print_groups(f'{len(shown)} answers of turned rows that no replica has:', groups)


def main():
    program, folder, *options = sys.argv[1:]
    shutil.rmtree(folder, ignore_errors=True)
    folders = made(program, empty(folder))
    cells, rows = [], []
    for each in folders:
        numbered = stock.numbered_rows(f'{each}/base.db')
        cells += [Case(each, turn) for turn in cell_turns(numbered)]
        rows += [Case(each, turn) for turn in row_turns(numbered)]
    cases = cells + rows if '--all' in options else chosen(cells, OF_CELLS) + chosen(rows, OF_ROWS)
    at_once = min(4, os.cpu_count() or 1)
    with multiprocessing.Pool(at_once) as pool:
        results = pool.starmap(try_cases, [(os.path.abspath(program), empty(f'{folder}/at-{at}'), folders, cases[at::at_once]) for at in range(at_once)])
    passed, untaken, standing = (sum(result[at] for result in results) for at in (0, 3, 4))
    faults, shown = ([each for result in results for each in result[at]] for at in (1, 2))
    if shown and '--shown' in options:
        print_shown(shown)
    if faults:
        print_faults(faults)
    print(f'{len(cases) - untaken} turned databases, {standing} of which stand for a replica still ({untaken} turns more weren\'t taken by the store); '
          f'{len(shown)} answers of turned rows that no replica has')
    print(f'{passed} passed, {len(faults)} failed')
    sys.exit(1 if faults else 0)


if __name__ == '__main__':
    main()
