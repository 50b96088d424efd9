#!/usr/bin/env python3
"""Whether each name of a definition has one meaning, each lemma stands once, and lines of proofs are short enough to read.

    stated_once.py

tools/twice finds what isn't so; tests/documents/twice.tsv lists what is left of it: a name with two meanings, a statement that stands in two files, or a
crate with how many lines are too long, and why, or where. What is found and isn't listed fails, and so does a row of which nothing is left. The last line
counts what passed and failed.
"""
import collections
import importlib.machinery
import importlib.util
import os
import sys

sys.dont_write_bytecode = True
HERE = os.path.dirname(os.path.realpath(__file__))


def tool():
    loader = importlib.machinery.SourceFileLoader('twice', os.path.join(HERE, '..', '..', 'tools', 'twice'))
    found = importlib.util.module_from_spec(importlib.util.spec_from_loader('twice', loader))
    loader.exec_module(found)
    return found


def listed():
    """What tests/documents/twice.tsv allows, by kinds."""
    rows = collections.defaultdict(dict)
    with open(os.path.join(HERE, 'twice.tsv'), encoding='utf-8') as it:
        for line in it.read().splitlines()[1:]:
            kind, what, why = line.split('\t')
            rows[kind][what] = why
    return rows


def main():
    twice, allowed, failures, passed = tool(), listed(), [], 0
    for kind, asks in (('names', 'one of them needs another name'), ('lemmas', 'let it stand once')):
        found = twice.KINDS[kind]()
        for it, places in found.items():
            if it not in allowed[kind]:
                failures.append(f'{it}: stands in {", ".join(places)}: {asks}')
        failures += [f'{it}: it stands once now, and needs no row in tests/documents/twice.tsv' for it in allowed[kind] if it not in found]
        passed += len(set(found) & set(allowed[kind])) + 1
    lines = collections.defaultdict(list)
    for it in twice.lines():
        lines[it.split('/')[1]].append(it)
    for crate in sorted(set(lines) | set(allowed['lines'])):
        most, count = int(allowed['lines'].get(crate, '0')), len(lines[crate])
        if count > most:
            failures.append(f'{crate}: {count} lines of proofs above {twice.GREATEST_LINE} characters, at most {most}: break {", ".join(lines[crate][:5])} ..')
        elif not count:
            failures.append(f'{crate}: no line is too long now, and it needs no row in tests/documents/twice.tsv')
        passed += count <= most
    for it in failures:
        print(f'FAILED: {it}')
    print(f'{passed + 1 if not failures else passed} passed, {len(failures)} failed')
    return 1 if failures else 0


if __name__ == '__main__':
    sys.exit(main())
