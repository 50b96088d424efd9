#!/usr/bin/env python3
"""Whether the page's words are whole in each language: every sentence that the modules and the HTML say is there, with the same places and
forms, none is there for nothing, and what was converted has no words of its own.

    words.py FOLDER   the folder of the page; the last line counts what passed and failed; no browser is needed
"""
import html.parser
import os
import re
import sys

# what isn't converted yet: its English stands in it still
LEFT = set('''
'''.split())
# the plural categories that a template of several forms has in each language; 0 may stand beside them
CATEGORIES = {'en': {'one', 'other'}, 'de': {'one', 'other'}, 'fr': {'one', 'other'}}
# names of keys, of headers and of the browser's own things, which nobody reads
NAMES = {'ArrowUp', 'ArrowDown', 'ArrowLeft', 'ArrowRight', 'PageUp', 'PageDown', 'Home', 'End', 'Enter', 'Escape', 'GET', 'POST', 'PUT', 'UTC'}
# classes of elements, selectors, and what is looked for in texts of the office, module by module
CODE = {
    'texts.js': {'AE', 'Ae', 'Oe', 'Ue', 'SS', 'Th', 'EUR', 'GBP', 'T12:00:00Z', 'NFC', 'NFKD', 'en-CA', ' - '},
    'language.js': {'English', 'Français', 'Deutsch', 'CA', 'HK', 'IN', 'JM', 'PH', 'SG', 'US', 'ZA'},
    'office.js': {'not sent', 'no reply', 'bad request'},
    'errorlist.js': {'(no errors)'},
    'move.js': {'input, select'},
    'moving.js': {'old first', 'new first'},
    'readcsv.js': {'start date', 'start time', 'end date', 'end time'},
}
# names that another program gives
FOREIGN = {'zones.js'}

STRING = re.compile(r"//[^\n]*|/\*.*?\*/|'((?:[^'\\\n]|\\.)*)'|`((?:[^`\\]|\\.)*)`|\"((?:[^\"\\\n]|\\.)*)\"", re.S)
REGEX = re.compile(r'(?<=[(,=:!&|?{};\n ])/(?![/*])(?:[^/\\\n\[]|\\.|\[(?:[^\]\\\n]|\\.)*\])+/[a-z]*')
KEY = re.compile(r'[a-z]+\.[a-zA-Z0-9]+')
PLACE = re.compile(r'\{(\w+)\}')
CALL = re.compile(r"\b(?:say|pieces)\(")
passed = failed = 0


def check(name, held, seen=''):
    global passed, failed
    if held:
        passed += 1
        return
    failed += 1
    print(f'FAILED: {name}: {seen}')


# ---- the words

def words_of(path):
    """The templates of a language by their keys: each a text, or texts by their forms. A line has one key."""
    words = {}
    with open(path, encoding='utf-8') as it:
        lines = it.read().split('\n')
    inside = lines[lines.index('export default Object.freeze({') + 1:lines.index('});')]
    for line in inside:
        found = re.fullmatch(r"  '([\w.]+)': (?:'([^'\\]+)'|\{ ((?:\w+: '[^'\\]+'(?:, )?)+) \}),", line)
        if not found:
            check(f'{path}: a line of words', line == '' or line.startswith('  // ---- '), line)
            continue
        key, text, forms = found.groups()
        check(f'{path}: {key} stands once', key not in words)
        words[key] = text if text is not None else dict(re.findall(r"(\w+): '([^']+)'", forms))
    return words


def places(template):
    texts = [template] if isinstance(template, str) else template.values()
    return {place for text in texts for place in PLACE.findall(text)}


def check_languages(words):
    english = words['en']
    for language, own in words.items():
        lacks, more = sorted(english.keys() - own.keys()), sorted(own.keys() - english.keys())
        check(f'{language} has each sentence', not lacks, lacks)
        check(f'{language} has no sentence that English has not', not more, more)
        check(f'{language} has the order of English', [key for key in english if key in own] == [key for key in own if key in english])
        for key in english.keys() & own.keys():
            check_template(language, key, own[key], english[key])
        if language == 'fr':
            loose = sorted(key for key, text in own.items() if re.search(r' [:;?!»]|« ', str(text).replace("': '", '')))
            check('French signs stand behind a space that does not break', not loose, loose)


def check_template(language, key, own, english):
    check(f'{language}: {key} is a well-formed key', KEY.fullmatch(key) is not None)
    check(f'{language}: {key} has the places of English', places(own) == places(english) or (isinstance(own, dict) and places(own) | {'count'} == places(english) | {'count'}), sorted(places(own) ^ places(english)))
    check(f'{language}: {key} has forms where English has them', isinstance(own, dict) == isinstance(english, dict))
    if isinstance(own, dict) and isinstance(english, dict):
        wanted = CATEGORIES[language] | ({'0'} if '0' in english else set())
        check(f'{language}: {key} has the forms of its language', own.keys() == wanted, sorted(own))


# ---- the modules

def strings_of(text):
    """The texts in quotes of a module, without what stands in comments, in expressions to look for, and behind `from`."""
    text = REGEX.sub('0', re.sub(r"^(import|export) [^;]*? from '[^']*';", '', text, flags=re.M))
    return [one or two or three or '' for one, two, three in STRING.findall(text)]


def is_words(text):
    """Whether a text looks like words that somebody reads."""
    bare = PLACE.sub('', text)
    return re.search(r"[A-Za-z’]{2,}[,.;:?!]? +[A-Za-z(“]|^ ?[A-Z][a-z’]|[a-z]{2}[.:?!] ?$|^[,;] .*[a-z]|[a-z][,;] $", bare) is not None


def is_code(text):
    """A selector, classes of a style, a path, or an address."""
    return re.search(r'^[.#\[]|\[data-|querySelector|^/|^rooms\.|^\(max-|^https?:', text) is not None


def values_of(text, at):
    """The names of the values that a call gives: None where they can't be told, as behind dots."""
    depth, quote, words = 1, '', []
    start = at
    while depth and at < len(text):
        letter = text[at]
        if quote:
            if letter == '\\':
                at += 1
            elif letter == quote:
                quote = ''
        elif letter in '\'"`':
            quote = letter
        elif letter in '([{':
            depth += 1
        elif letter in ')]}':
            depth -= 1
        elif letter == ',' and depth == 1:
            words.append(text[start:at])
            start = at + 1
        at += 1
    words.append(text[start:at - 1])
    keys = re.findall(r"'([a-z]+\.[a-zA-Z0-9]+)'", words[0])
    if len(words) < 2:
        return keys, set()
    given = words[1].strip()
    if not given.startswith('{') or '...' in given:
        return keys, None
    return keys, names_of(given[1:-1])


def names_of(inside):
    """The names of an object's members at its top."""
    names, depth, quote, start = [], 0, '', 0
    for at, letter in enumerate(inside + ','):
        if quote:
            quote = '' if letter == quote and inside[at - 1] != '\\' else quote
        elif letter in '\'"`':
            quote = letter
        elif letter in '([{':
            depth += 1
        elif letter in ')]}':
            depth -= 1
        elif letter == ',' and depth == 0:
            names.append(inside[start:at].strip())
            start = at + 1
    return {re.match(r'\w+', name).group() for name in names if re.match(r'\w+', name)}


def check_module(name, text, english, sections):
    """The keys that a module uses; its calls have the values that the sentences want."""
    used = set()
    for literal in strings_of(text):
        if KEY.fullmatch(literal) and literal.split('.')[0] in sections and not literal.endswith(('.js', '.html', '.css', '.json')):
            used.add(literal)
            check(f'{name}: {literal} is there', literal in english)
        elif name not in LEFT and name not in FOREIGN and literal not in NAMES and literal not in CODE.get(name, ()) and not is_code(literal):
            check(f'{name}: no words of its own', not is_words(literal), literal)
    for call in CALL.finditer(text):
        keys, given = values_of(text, call.end())
        for key in keys:
            wanted = places(english.get(key, '')) | ({'count'} if isinstance(english.get(key), dict) else set())
            check(f'{name}: {key} is given its values', given is None or wanted <= given, sorted(wanted - (given or set())))
    return used


# ---- the HTML

class Page(html.parser.HTMLParser):
    """What a page says: each element's key and text, and the attributes that are read to people; and the languages of what it says before its modules run."""
    VOID = {'meta', 'link', 'input', 'br'}

    def __init__(self, text):
        super().__init__()
        self.open, self.said, self.loose, self.before = [], [], [], set()
        self.feed(text)

    def handle_starttag(self, tag, attributes):
        attributes = dict(attributes)
        node = {'tag': tag, 'language': attributes.get('lang') if tag != 'html' else None, 'key': attributes.get('data-words'), 'place': attributes.get('data-place'), 'text': '', 'whole': '', 'has_places': False}
        for name in ('aria-label', 'title', 'placeholder', 'data-none', 'alt'):
            key = attributes.get('data-words-' + name)
            if key:
                self.said.append((key, attributes.get(name, '')))
            elif re.search('[A-Za-z]', attributes.get(name, '')):
                self.loose.append(attributes[name])
        if self.open and node['place']:
            self.open[-1]['whole'] += '{' + node['place'] + '}'
            self.open[-1]['has_places'] = True
        if tag not in self.VOID:
            self.open.append(node)

    def handle_data(self, data):
        if not self.open or self.open[-1]['tag'] in ('script', 'style', 'noscript') or any(node['tag'] == 'noscript' for node in self.open):
            return
        if self.open[-1]['language']:
            self.before.add(self.open[-1]['language'])
            return
        node = self.open[-1]
        node['whole'] += data
        if data.strip() and not node['text']:
            node['text'] = data
        elif data.strip() and node['key'] and not node['has_places']:
            self.loose.append(data.strip())
        if re.search('[A-Za-z]{2}', data) and not node['key']:
            self.loose.append(data.strip())

    def handle_endtag(self, tag):
        node = self.open.pop()
        if node['key']:
            self.said.append((node['key'], ' '.join((node['whole'] if node['has_places'] else node['text']).split())))


def check_page(name, text, english, languages):
    """The keys that a page's HTML has; its own words are those of English, and all have a key, but for what it says in each language by itself."""
    page = Page(text)
    check(f'{name}: what is said while no module runs is said in each language', page.before == languages, sorted(page.before))
    for key, words in page.said:
        check(f'{name}: {key} is there', key in english)
        check(f'{name}: {key} has the words of English', words in ('', english.get(key)), words)
    if name not in LEFT:
        check(f'{name}: no words without a key', not page.loose, page.loose)
    return {key for key, _ in page.said}


def main():
    folder = sys.argv[1]
    words = {}
    for name in sorted(os.listdir(os.path.join(folder, 'words'))):
        words[name.split('.')[0]] = words_of(os.path.join(folder, 'words', name))
    check_languages(words)
    english = words['en']
    sections = {key.split('.')[0] for key in english}
    texts = {}
    for name in sorted(os.listdir(folder)):
        if name.endswith(('.js', '.html')):
            with open(os.path.join(folder, name), encoding='utf-8') as it:
                texts[name] = it.read()
    for name in sorted(os.listdir(folder)):
        if name.endswith('.css'):
            with open(os.path.join(folder, name), encoding='utf-8') as it:
                loose = re.findall(r'content: *"[^"]*[A-Za-z]{2}[^"]*"', it.read())
            check(f'{name}: no words of its own', not loose, loose)
    used = set()
    for name, text in texts.items():
        used |= check_module(name, text, english, sections) if name.endswith('.js') else check_page(name, text, english, words.keys())
    known = set(re.findall(r"(\w\w): \{ name:", texts['language.js']))
    check('each language that can be chosen has its words', known == words.keys(), sorted(known ^ words.keys()))
    check('no sentence is there for nothing', not english.keys() - used, sorted(english.keys() - used))
    gone = sorted(LEFT - texts.keys())
    check('what is left is there', not gone, gone)
    print(f'{passed} passed, {failed} failed')
    return 1 if failed else 0


if __name__ == '__main__':
    sys.exit(main())
