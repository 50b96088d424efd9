#!/usr/bin/env python3
"""How many lines the table `cancel` costs in the crates over SQL, beside those that all tables share.

    table_cost.py [-v]   prints lines of source, of definitions and of proofs, and with -v those of each file

Whole files and items that have the table's name count whole, with the blank line behind them. Of other files those lines count that name
it and no other table, since a line that lists several tables would be there without it. `our_schema` is the schema that this table ends, and 18 its
tree. What asks the table for rows (ANSWERS) isn't counted.
"""
import os
import re
import sys

ROOT = os.path.realpath(os.path.join(os.path.dirname(os.path.realpath(__file__)), '..', '..'))
CRATES = ('mr_rows', 'mr_first', 'mr_sql', 'mr_disk')
KINDS = {'src': 'source', 'specs': 'definitions', 'proofs': 'proofs'}
# files that only answer questions
ANSWERS = re.compile(r'/(?:answers|questions|PlaceOfId|AnswerLemmas)\b')
FILE = re.compile(r'/cancel_rows\b|/CancelRow')
ITEM = re.compile(r'^(?:pub )?(?:abbrev |unfoldable |record )*(?:pub )?(?:cancel_\w+|is_cancel_row|put_cancels|no_index-18|our_schema) :|^impl \w+ for CancelRow|^    Wanted \{$')
LINE = re.compile(r'\bCancelRow\b|\b(?:(?<!is_)cancel_cells|(?:is_)?cancel_(?:form|table|text|of|made|facts|is|row|row_from|id|within|ruled|rows))\b|(?:^|[;{.,] ?|\bpub |^\s+)cancels\b(?! :.*Bool)|"cancel"|\bput_cancels\b|"CREATE TABLE cancel |\bno_index-18\b')
OTHERS = re.compile(r'\b(?:Booking|Error|Cancelled|Log|Vector|Meta|Write|FirstUndo)Row\b|\bRoomName\b|\b(?:is_)?(?:booking|error|errorlog|cancelled|log|vector|room|meta|undo|write|write_log)(?:_\w+)?\b')


def items(lines, is_source):
    """The lines in runs: an item of a source ends with its brace, one of another file before a blank line."""
    at = 0
    while at < len(lines):
        end = at + 1
        if is_source and re.search(r'\{$', lines[at]) and re.match(r'(?:    )?\S', lines[at]):
            close = lines[at][: len(lines[at]) - len(lines[at].lstrip())] + '}'
            while end < len(lines) and not lines[end - 1].rstrip(',;') == close:
                end += 1
        elif not is_source and lines[at].strip():
            while end < len(lines) and lines[end].strip():
                end += 1
        yield lines[at:end]
        at = end


def is_its_own(run):
    head = next((it for it in run if not it.startswith('--')), '')
    if head == '    Wanted {':
        return any('name: "cancel",' in it for it in run)
    return bool(ITEM.search(head))


def cost(path):
    with open(os.path.join(ROOT, path), encoding='utf-8') as it:
        lines = it.read().splitlines()
    if FILE.search('/' + path):
        return len(lines)
    count = 0
    for run in items(lines, path.endswith('.rt')):
        if is_its_own(run):
            count += len(run) + (not run[0].startswith('    Wanted'))
        else:
            count += sum(bool(LINE.search(it)) and not OTHERS.search(LINE.sub('', it)) for it in run)
    return count


def costs():
    """The lines of each file that has some, by kinds."""
    found = {kind: {} for kind in KINDS}
    for crate in CRATES:
        for kind in KINDS:
            for folder, _, names in os.walk(os.path.join(ROOT, 'crates', crate, kind)):
                for name in sorted(names):
                    path = os.path.relpath(os.path.join(folder, name), ROOT)
                    if name.endswith(('.rt', '.antt')) and not ANSWERS.search('/' + path):
                        lines = cost(path)
                        if lines:
                            found[kind][path] = lines
    return found


def totals():
    return {kind: sum(it.values()) for kind, it in costs().items()}


def main():
    found = costs()
    for kind, told in KINDS.items():
        if '-v' in sys.argv[1:]:
            for path, lines in sorted(found[kind].items(), key=lambda it: -it[1]):
                print(f'{lines:6} {path}')
        print(f'{sum(found[kind].values())} lines of {told}')
    print(f'{sum(totals().values())} lines in all')
    return 0


if __name__ == '__main__':
    sys.exit(main())
