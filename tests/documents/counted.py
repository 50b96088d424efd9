#!/usr/bin/env python3
"""Whether links and paths in documents lead somewhere, and what they count and list is what there is.

    counted.py [DOCUMENT..]   of these documents, or of all; needs no program

A count is found where a document has it in one of the forms of COUNTS, as `28 crates in all`, in figures or words; a document with none passes. Tables are
tested whole: that of refusals, of commands, of crates, of the files of tools/ and tests/. Each crate has a README, whose lines of use stand in the files
that it links to, and whose items and clauses its sources have; so do the crates of each section have what docs/PROMISES.md names there. The last line
counts what passed and failed.
"""
import os
import re
import subprocess
import sys

import table_cost

ROOT = os.path.realpath(os.path.join(os.path.dirname(os.path.realpath(__file__)), '..', '..'))
UNITS = 'no one two three four five six seven eight nine ten eleven twelve thirteen fourteen fifteen sixteen seventeen eighteen nineteen'.split()
TENS = 'twenty thirty forty fifty sixty seventy eighty ninety'.split()
NUMBER = rf'(\d[\d,]*|(?:{"|".join(TENS)})(?:-(?:{"|".join(UNITS[1:10])}))?|{"|".join(UNITS[2:])})'
# a path from the top of the repository; what has a capital word or `X` for a name stands for many
PATH = re.compile(r'(?<![\w/.{$<-])((?:docs|deploy|tests|tools|bench|examples|crates|\.ci)/[\w./-]*\w)(?![*{<$\w])')
# a path from the folder of a crate
OWN_PATH = re.compile(r'`((?:src|specs|proofs)/[\w./-]*\w)`')
STANDS_FOR_MANY = re.compile(r'/(?:X|[A-Z]{2,})(?:/|\.|_|$)|/out(?:/|$)')


def text_of(path):
    with open(os.path.join(ROOT, path), encoding='utf-8') as it:
        return it.read()


def files():
    """The files of the repository."""
    listed = subprocess.run(['git', 'ls-files'], cwd=ROOT, capture_output=True, text=True, check=False).stdout.split('\n')
    if any(listed):
        return [it for it in listed if it and os.path.isfile(os.path.join(ROOT, it))]
    return [os.path.relpath(os.path.join(folder, name), ROOT) for folder, _, names in os.walk(ROOT) for name in names]


FILES = files()


def crates():
    """The crates of crates.txt, each with those that it names."""
    rows = re.findall(r'^(\w+):(.*)$', text_of('crates.txt'), re.M)
    return {name: deps.split() for name, deps in rows}


def refusals():
    """The names of the refusals, in the order of their numbers."""
    body = text_of('crates/mr_base/src/refusals.rt').partition('pub enum Refusal {')[2].partition('}')[0]
    return re.findall(r'^    (\w+)', body, re.M)


def commands():
    """The names of the commands of the program."""
    return re.findall(r'^\w+_name = codes "([\w-]+)"$', text_of('crates/mr_words/specs/CommandNames.antt'), re.M)


def tried():
    """The rows of bugs that were tried, without their heads, by crates."""
    return {it: len(text_of(it).splitlines()) - 1 for it in FILES if re.fullmatch(r'crates/\w+/edits/tried\.tsv', it)}


def edits():
    return [it for it in FILES if re.fullmatch(r'crates/\w+/edits/[\w-]+\.edit', it)]


# What documents count: the words around the number, and what it has to be. Behind `some` and `about` it may be a twentieth off.
COUNTS = (
    (r'(?i:\b{} crates in all\b)', lambda: len(crates())),
    (r'(?i:\bcrates of their own above, {} in all\b)', lambda: sum(it.endswith('_tests') for it in crates())),
    (r'(?i:\b{} edits in all\b)', lambda: len(edits())),
    (r'(?i:\b{} edits in \w+ crates\b)', lambda: len(edits())),
    (r'(?i:\bedits in {} crates\b)', lambda: len({it.split('/')[1] for it in edits()})),
    (r'(?i:\btried\.tsv`, (?:some |about )?{} rows\b)', lambda: sum(tried().values())),
    (r'(?i:\brows in {} crates\b)', lambda: len(tried())),
    (r'(?i:\b{} refusals in all\b)', lambda: len(refusals())),
    (r'(?i:\brefusals, (?:from )?1 to {}\b)', lambda: len(refusals())),
    (r'(?i:\b{} of the type `mr_base::Refusal`)', lambda: len(refusals())),
    (r'(?i:\b{} commands in all\b)', lambda: len(commands())),
    (r'\bA table costs {} lines\b', lambda: sum(table_cost.totals().values())),
    (r'\(`cancel`: {} of source\b', lambda: table_cost.totals()['src']),
    (r'`cancel`: \d+ of source, {} of definitions\b', lambda: table_cost.totals()['specs']),
    (r'`cancel`: \d+ of source, \d+ of definitions, {} of proofs\b', lambda: table_cost.totals()['proofs']),
    (r'(?i:\b{} promises\b)', lambda: len(re.findall(r'^### \d+\. ', text_of('docs/PROMISES.md'), re.M))),
)


# The most words: of each of these documents; of those that stand at the top and in docs/ together, but for CHANGELOG.md, which grows; of these and the
# READMEs of crates; and of a promise.
MOST_WORDS = {'docs/DECISIONS.md': 5300, 'docs/PERFORMANCE.md': 3100, 'docs/PROMISES.md': 6800}
MOST_IN_ALL = 35_000
MOST_WITH_CRATES = 44_600
MOST_OF_A_PROMISE = 30


def number(word):
    word = word.lower().replace(',', '')
    if word.isdigit():
        return int(word)
    ten, _, unit = word.partition('-')
    return UNITS.index(word) if word in UNITS else 20 + 10 * TENS.index(ten) + (UNITS.index(unit) if unit else 0)


class Counted:
    """How much of the documents is right."""

    def __init__(self):
        self.passed, self.failed = 0, 0

    def same(self, name, found, wanted):
        self.passed, self.failed = self.passed + (found == wanted), self.failed + (found != wanted)
        if found != wanted:
            print(f'FAILED: {name}: {found}, and not {wanted}')

    def links(self, document, text):
        """Each link leads to a file, and to a heading of it; each path leads to a file or folder."""
        folder = os.path.dirname(document)
        for target in re.findall(r'\]\(([^)\s]+)\)', text):
            path, _, heading = target.partition('#')
            if '://' in target or target.startswith('mailto:'):
                continue
            there = os.path.normpath(os.path.join(folder, path)) if path else document
            self.same(f'{document}: the link to {path or "itself"} leads somewhere', os.path.exists(os.path.join(ROOT, there)), True)
            if heading and there.endswith('.md') and os.path.exists(os.path.join(ROOT, there)):
                self.same(f'{document}: {there} has the heading #{heading}', heading in headings(text_of(there)), True)
        for path in sorted(set(PATH.findall(text))):
            if not STANDS_FOR_MANY.search(path):
                is_there = any(os.path.exists(os.path.join(ROOT, it, path)) for it in ('', folder))
                self.same(f'{document}: {path} is there', is_there, True)

    def counts(self, document, text):
        flat = re.sub(r'\s+', ' ', text)
        for form, count in COUNTS:
            for found in re.finditer(form.replace('{}', NUMBER), flat):
                told, wanted = number(found[1]), count()
                is_about = re.search(r'\b(?:some|about)\s+$', flat[max(0, found.start(1) - 7) : found.start(1)])
                if not (is_about and abs(told - wanted) * 20 <= wanted):
                    self.same(f'{document}: "{found[0]}"', told, wanted)
                else:
                    self.passed += 1

    def names_of_refusals(self, document, text):
        """A refusal that is named with its number has that number."""
        names = refusals()
        for told, name in set(re.findall(rf'\b(\d+) ({"|".join(names)})\b', text)):
            self.same(f'{document}: the number of {name}', int(told), names.index(name) + 1)

    def words(self):
        """The documents aren't longer than somebody reads."""
        lengths = {it: len(text_of(it).split()) for it in FILES if re.fullmatch(r'(?:docs/)?\w+\.md', it) and it != 'CHANGELOG.md'}
        for document, most in MOST_WORDS.items():
            self.same(f'{document}: {lengths[document]} words, at most {most}', lengths[document] <= most, True)
        total = sum(lengths.values())
        self.same(f'the documents: {total} words, at most {MOST_IN_ALL}', total <= MOST_IN_ALL, True)
        total += sum(len(text_of(it).split()) for it in FILES if re.fullmatch(r'crates/\w+/README\.md', it))
        self.same(f'the documents and the READMEs of crates: {total} words, at most {MOST_WITH_CRATES}', total <= MOST_WITH_CRATES, True)

    def crate(self, crate):
        """What the README of a crate shows and names is there."""
        document = f'crates/{crate}/README.md'
        self.same(f'{document} is there', document in FILES, True)
        if document not in FILES:
            return
        text, folder = text_of(document), f'crates/{crate}'
        for path in sorted(set(OWN_PATH.findall(text))):
            self.same(f'{document}: {path} is there', os.path.exists(os.path.join(ROOT, folder, path)), True)
        linked = [os.path.normpath(os.path.join(folder, it)) for it in re.findall(r'\]\(([^)#\s]+\.rt)\)', text)]
        lines = {line.strip() for it in linked if it in FILES for line in text_of(it).splitlines()}
        for block in re.findall(r'^```rust\n(.*?)^```', text, re.M | re.S):
            self.same(f'{document}: lines of use that no linked file has', [it for it in block.splitlines() if it.strip() and it.strip() not in lines], [])
        source = '\n'.join(text_of(it) for it in FILES if it.startswith((f'{folder}/src/', f'{folder}/specs/')))
        for items, clauses in re.findall(r'^\| ((?:`[\w:]+`(?:,? |,? and )?)+) ?\| (.*) \|$', text, re.M):
            for item in re.findall(r'`(?:\w+::)*(\w+)`', items):
                self.same(f'{document}: {item} is declared', is_declared(item, source), True)
            for clause in re.findall(r'`([a-z_]+)`', ' '.join(re.findall(r'\(([^()]*)\)', clauses))):
                self.same(f'{document}: the clause {clause}', is_declared(clause, source), True)

    def promises(self):
        """A promise is short; the functions, clauses and definitions that carry it are there."""
        sources = {it: '' for it in crates()}
        for file in FILES:
            if re.fullmatch(r'crates/\w+/(?:src|specs)/.*\.(?:rt|antt)', file):
                sources[file.split('/')[1]] += text_of(file)
        sections = text_of('docs/PROMISES.md').partition('## Crate by crate')[2].partition('\n## ')[0].split('\n### ')[1:]
        for head, _, body in (it.partition('\n') for it in sections):
            for row in re.findall(r'^- (.*)', body, re.M):
                words = re.findall(r'\S*\w\S*', re.sub(r'\[[^\]]*\]', '', row))
                self.same(f'docs/PROMISES.md, {head}: {len(words)} words: {row[:60]}', len(words) <= MOST_OF_A_PROMISE, True)
            for carried in re.findall(r'\[(.*)\]$', body, re.M):
                named = [it for it in re.findall(r'`([^`]+)`', re.sub("the kit's `[^`]*`", '', carried)) if re.fullmatch(r'[\w:]+', it)]
                own = {it for it in re.findall(r'`(\w+)`', head) + [it.split('::')[0] for it in named if '::' in it] if it in sources}
                for name in sorted({it.split('::')[-1] for it in named if it not in sources}):
                    is_there = any(is_declared(name, sources[it]) for it in own) or is_declared(name, sources['mr_convergence'])
                    self.same(f'docs/PROMISES.md, {head}: {name} is there', is_there, True)

    def tables(self):
        formats = text_of('docs/FORMATS.md')
        rows = re.findall(r'^\| (\d+) \| (\w+) \|', formats, re.M)
        self.same('docs/FORMATS.md: the table of refusals', rows, [(str(at), name) for at, name in enumerate(refusals(), 1)])
        table = formats.partition('| Command | What it does | Prints |')[2].partition('\n\n')[0]
        named = {it for row in re.findall(r'^\| (`[^|]*`) \|', table, re.M) for it in re.findall(r'`([\w-]+) ', row)}
        self.same('docs/FORMATS.md: the table of commands', sorted(named), sorted(commands()))
        told = re.search(r"^COMMANDS = '([^']*)'", text_of('deploy/tests/front.py'), re.M)[1].split()
        self.same('deploy/tests/front.py: the commands', sorted(told), sorted(commands()))
        text = text_of('docs/ARCHITECTURE.md')
        named = set(re.findall(r'^\| `(\w+)` \|', text.partition('| Crate | What it is for')[2].partition('\n\n')[0], re.M))
        self.same('docs/ARCHITECTURE.md: the crates', sorted(named), sorted(it for it in crates() if not it.endswith('_tests')))
        self.same('docs/ARCHITECTURE.md: the crates of tests', [it for it in crates() if it.endswith('_tests') and f'`{it}`' not in text], [])
        self.same('docs/ARCHITECTURE.md: the files of tools/', [it for it in FILES if it.startswith('tools/') and f'`{it}`' not in text], [])
        text = text_of('tests/README.md')
        lacking = [it for it in FILES if re.fullmatch(r'tests/.*\.(?:py|sh|c|md)', it) and not re.search(rf'`{re.escape(os.path.basename(it))}`', text)]
        self.same('tests/README.md: the files of tests/', [it for it in lacking if it != 'tests/README.md'], [])
        self.same('README.md: at most 140 lines', len(text_of('README.md').splitlines()) <= 140, True)
        self.same('no edit in a folder `must-fail`, as CONTRIBUTING.md says', [it for it in FILES if '/must-fail/' in it], [])


def is_declared(name, source):
    """Whether a source has an item, a definition, a field or a clause of this name."""
    words = 'fn|struct|enum|trait|type|mod|record|data|abbrev pub|pub'
    return bool(re.search(rf'\b(?:{words}) {name}\b|\bensures {name} \{{|^\s*{name} :', source, re.M))


def headings(text):
    """The names by which links call the headings of a document."""
    found = re.findall(r'^#+ (.*)$', text, re.M)
    return {re.sub(r'[^\w\- ]', '', it.lower()).replace(' ', '-') for it in found}


def main(words):
    counted = Counted()
    documents = [os.path.relpath(os.path.realpath(it), ROOT) for it in words] or [it for it in FILES if it.endswith('.md')]
    for document in documents:
        text = text_of(document)
        counted.links(document, text)
        counted.counts(document, text)
        counted.names_of_refusals(document, text)
    if not words:
        counted.tables()
        counted.words()
        counted.promises()
        for crate in crates():
            counted.crate(crate)
    print(f'{counted.passed} passed, {counted.failed} failed')
    return 1 if counted.failed else 0


if __name__ == '__main__':
    sys.exit(main(sys.argv[1:]))
