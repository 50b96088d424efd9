"""JSON texts that are submissions, or nearly: each function gives the bytes of one of its kind."""

import json

NUMBERS = ['0', '1', '60', '1440', '1441', '-1', '-0', '1.0', '6e1', '60.', '.6', '060', '18446744073709551615',
           '18446744073709551616', '1e400', '1e-400', '"60"', 'null', 'true', '[60]', 'NaN', '9' * 400, '6E+1', '0x3c', '60 0']
VALUES = ['null', '1', '"x"', '[]', '{}', 'true', '"\\ud800"', '"\\udc00x"', '"\\ud83d\\ude00"', '"\\u0041"', '"\u00e9"', '"\\x"',
          '"a\tb"', '"', '1e400', '"\\u00"', '"\\u0000"', '"\x7f"']
DEPTHS = [1, 125, 126, 127, 128, 129, 5000]
DAY, TIME, ROOM, LENGTH, TITLE = '1995-12-18', '13:30', 'oak', '30', 'Alpha'
# Texts at and over each limit of what is asked for.
LIMITS = {
    'day': ['1990-01-01', '1989-12-31', '2099-12-31', '2100-01-01', '2024-02-29', '2023-02-29', '1995-13-01', '95-12-18', '1995-12-18 ', ''],
    'start': ['00:00', '23:59', '23:30', '23:31', '24:00', '12:60', '9:00', '09:00 ', '', '09:00:00', '-1:00'],
    'room': ['oak', 'elm', 'o', 'a' * 16, 'a' * 17, '', 'Oak', 'oak ', 'o_k', '\u00e9', '-', '0'],
    'title': ['x', 'x' * 60, 'x' * 61, '', ' x', 'x ', '~', 'caf\u00e9', 'a\tb', '\x7f', 'a"b', '1995-12-18 10:00 x'],
    'length': ['0', '1', '30', '1440', '1441', '18446744073709551615'],
}


def members_of(rng):
    """The names and texts of a submission's members, in any order."""
    members = [('room', f'"{ROOM}"'), ('day', f'"{DAY}"'), ('start', f'"{rng.choice([TIME, "14:00", "00:00"])}"'), ('length', LENGTH),
               ('title', f'"{TITLE}"')]
    others = [{'day': DAY, 'start': rng.choice([TIME, '15:00', '23:00'])} for _ in range(rng.choice([0, 0, 1, 2]))]
    members += [('alternatives', json.dumps(others))] if others or rng.random() < 0.3 else []
    rng.shuffle(members)
    return members


def written(members, space=''):
    return '{' + ','.join(f'{space}"{name}"{space}:{space}{value}' for name, value in members) + '}'


def whole(rng):
    return written(members_of(rng), rng.choice(['', ' '])).encode('utf-8')


def replaced(members, name, value):
    return [(each, value if each == name else text) for each, text in members]


def without_a_member(rng):
    members = members_of(rng)
    del members[rng.randrange(len(members))]
    return written(members).encode('utf-8')


def with_a_member_twice(rng):
    """With the same value or with another one; the last of them stands."""
    members = members_of(rng)
    name, value = rng.choice(members)
    other = rng.choice([value, *VALUES, rng.choice(NUMBERS), '[' * 125 + ']' * 125, '[' * 128 + ']' * 128, f'"{ROOM}"', LENGTH])
    members.insert(rng.randrange(len(members) + 1), (name, other))
    return written(members).encode('utf-8')


def with_another_member(rng):
    members = members_of(rng)
    name = rng.choice(['by', 'Room', '', 'rooms', ' room', 'room\\u0000', 'Length', 'alternative', '\u00e9'])
    members.insert(rng.randrange(len(members) + 1), (name, rng.choice(VALUES[:6])))
    return written(members).encode('utf-8')


def with_a_member_of_another_kind(rng):
    members = members_of(rng)
    name, _ = rng.choice(members)
    return written(replaced(members, name, rng.choice(VALUES))).encode('utf-8')


def with_another_number(rng):
    return written(replaced(members_of(rng), 'length', rng.choice(NUMBERS))).encode('utf-8')


def with_other_alternatives(rng):
    slot = f'{{"day":"{DAY}","start":"{TIME}"}}'
    other = rng.choice([
        '[[]]', f'[{{"day":"{DAY}"}}]', f'[{{"start":"{TIME}"}}]', f'[{{"day":1,"start":"{TIME}"}}]', '{}', 'null', '[null]', '[{}]', '[,]',
        f'[{slot[:-1]},"x":""}}]', f'[{slot[:-1]},"day":"{DAY}"}}]', f'[{slot},]', f'[{slot} {slot}]', f'["{DAY}T{TIME}"]', slot,
        '[' + ','.join([slot] * rng.choice([7, 8, 9, 15, 16, 17, 1000])) + ']', f'[{{"day":"1995-13-01","start":"{TIME}"}}]',
        f'[{{"day":"{DAY}","start":"24:00"}}]', f'[{{"day":"{DAY}","start":"23:31"}}]'])
    members = [member for member in members_of(rng) if member[0] != 'alternatives'] + [('alternatives', other)]
    return written(members).encode('utf-8')


def deep(rng):
    """Lists or objects in one another: around it, in it, or alone."""
    text, depth = written(members_of(rng)), rng.choice(DEPTHS)
    name, _ = rng.choice(members_of(rng))
    return rng.choice(['[' * depth + text + ']' * depth, '[' * depth, '{"a":' * depth + '1' + '}' * depth, '{"a":' * depth,
                       text[:-1] + f',"{name}":' + '[' * depth + ']' * depth + '}',
                       f'{{"{name}":' + '[' * depth + ']' * depth + ',' + text[1:],
                       f'{{"{name}":' + '{"a":' * depth + '1' + '}' * depth + ',' + text[1:]]).encode('utf-8')


def framed(rng):
    """What doesn't belong stands around it, or it isn't whole."""
    text = written(members_of(rng))
    return rng.choice([text + text, text[:-1], text[1:], '\ufeff' + text, text + 'x', text + ',', text[:-1] + ',}', '{,' + text[1:],
                       text.replace('"', "'"), text.replace(':', '=', 1), text.replace(',', ';', 1), text + '//', '/**/' + text, '', ' ', 'null',
                       text + '\0', '"' + text.replace('"', '\\"') + '"', text[:rng.randrange(len(text))], '[' + text + ']']).encode('utf-8')


def spaced(rng):
    """With spaces of JSON, or what looks like one."""
    space = rng.choice([' ', '\t', '\n', '\r', '\r\n \t', '\f', '\v', '\u00a0', '\u2028', '\0', ' ' * 1000])
    return (space + written(members_of(rng), space) + space).encode('utf-8')


def escaped(rng):
    """Its letters are written in other ways."""
    text = written(members_of(rng))
    return rng.choice([text.replace('oak', 'o\\u0061k'), text.replace('oak', '\\u006F\\u0061\\u006b'), text.replace('room', 'r\\u006fom'),
                       text.replace('Alpha', 'a\\/b'), text.replace('Alpha', '\\"\\\\'), text.replace('Alpha', '\\n'), text.replace('Alpha', '\\u'),
                       text.replace('Alpha', '\\ud83d\\ude00'), text.replace('Alpha', '\\ude00\\ud83d'), text.replace('Alpha', '\\ud83dx'),
                       text.replace('Alpha', 'caf\u00e9'), text.replace('Alpha', '\\U0041'), text.replace('oak', '\\b\\f')]).encode('utf-8')


def no_text(rng):
    """Bytes that are no UTF-8 in it."""
    text = written(members_of(rng)).encode('utf-8')
    bad = rng.choice([b'\xff', b'\xc3', b'\xc0\x80', b'\xed\xa0\x80', b'\xf4\x90\x80\x80', b'\x80', b'\xe2\x82'])
    at = rng.choice([text.index(b'Alpha'), rng.randrange(len(text))])
    return text[:at] + bad + text[at:]


def at_a_limit(rng):
    """One or two of its values at the most or at the least, or just beyond."""
    members = members_of(rng)
    for name in rng.sample(sorted(LIMITS), rng.choice([1, 1, 2])):
        value = rng.choice(LIMITS[name])
        members = replaced(members, name, value if name == 'length' else json.dumps(value, ensure_ascii=rng.random() < 0.5))
    return written(members).encode('utf-8')


KINDS = [whole, without_a_member, with_a_member_twice, with_another_member, with_a_member_of_another_kind, with_another_number,
         with_other_alternatives, deep, framed, spaced, escaped, no_text, at_a_limit]
