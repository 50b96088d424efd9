"""Turned batches and positions: real ones, with what a broken line or a hostile hand makes of them."""

from offices import DAYS, ROOMS, TIMES, batch_text
from oracle import MOST_TOLD, RULES

NUMBERS = ['0', '1', '01', '2', '8', '9', '99', '100', '1440', '1441', '999999999', '1000000000', '999999999999',
           '1000000000000', '18446744073709551615', '18446744073709551616', '9' * 400, '-1', '+1', '1.0', '', 'x']
BYTES = [b' ', b'\n', b'\r', b'\t', b'\0', b'\x7f', b'\xff', b'0', b'9', b'-', b'A', b'a', b'~', b':']
TITLES = ['x', 'y' * 60, 'y' * 61, '', ' x', 'x ', 'a  b', '1995-12-18 10:00 x', 'caf\xe9', 'tab\t', '~!"\\']
WORDS = ['oak', 'a' * 16, 'a' * 17, 'Oak', '2023-02-29', '2024-02-30', '1989-12-31', '2100-01-01', '24:00', '23:60', '9:00',
         '1995-12-18', '14:00', 'W', 'C', 'E', 'M', 'X', 'mr1', 'mr2', 'mr3', 'mp1', 'mp2', 'K', 'V', 'w']

SERVERS, COUNTS, LATEST = ['0', '1', '99', '100'], ['0', '1', '999999999', '1000000000'], ['0', '1', '999999999999', '1000000000000']
NAMES, EXTRAS = ['', 'a', 'a' * 16, 'a' * 17], ['0', '8', '9', '10', '16', '17']
# What each word of a line may be at the most and at the least, and just beyond.
LIMITS = {
    'mr1': [SERVERS, SERVERS], 'mr2': [SERVERS, SERVERS],
    'W': [SERVERS, COUNTS, LATEST, NAMES, ['0', '1', '1440', '1441'],
          ['1989-12-31', '1990-01-01', '2099-12-31', '2100-01-01'], ['00:00', '23:59', '23:60', '24:00'], EXTRAS],
    'X': [SERVERS, COUNTS, LATEST, NAMES, SERVERS, COUNTS],
    'C': [LATEST, SERVERS, COUNTS],
    'mp1': [SERVERS, SERVERS], 'mp2': [SERVERS, SERVERS],
    'K': [LATEST],
    'V': [SERVERS, COUNTS],
}


def at_each_limit(line):
    """The line with each of its words at each limit, and just beyond it; a write has as many alternatives as it says."""
    words = line.split(' ')
    for at, limits in enumerate(LIMITS[words[0]], 1):
        for limit in limits:
            others = ' 2024-02-29 09:00' * int(limit) if (words[0], at) == ('W', 8) else ''
            yield ' '.join(words[:at] + [limit + others] + words[at + 1:])


def limit_batches():
    """For server 7 of the primary 3, which knows the writes 3-1, committed, and 5-1: lines that would be taken otherwise."""
    yield from first_limit_batches()
    for line in at_each_limit('mr2 5 3'):
        yield f'{line}\nW 9 2 1 elm 1 2024-02-29 00:00 0 x\nE\n'
    for server, line in enumerate(at_each_limit('X 75 1 1 elm 10 1'), 75):
        yield 'mr2 5 3\n' + line.replace('X 75 ', f'X {server} ') + '\nE\n'
    for server, extra in enumerate(EXTRAS, 50):
        yield f'mr2 5 3\nW {server} 1 1 elm 1 2024-02-29 00:00 {extra} {"2024-02-29 09:00 " * int(extra)}x\nE\n'
    yield 'mr1 5 3\nX 99 1 1 elm 10 1\nE\n'
    yield 'mr2 5 3\nX 99 1 1 elm 10 1\nX 99 2 2 elm 99 1\nX 99 3 3 elm 99 3\nE\n'
    yield 'mr2 5 3\nX 5 1 2 oak 3 1\nE\n'


def first_limit_batches():
    """Those of the first exchange text."""
    for server, line in enumerate(at_each_limit('W 10 1 1 elm 1 2024-02-29 00:00 0 x'), 10):
        yield 'mr1 5 3\n' + line.replace('W 10 ', f'W {server} ') + '\nE\n'
    for server, title in enumerate(TITLES, 60):
        yield f'mr1 5 3\nW {server} 1 1 elm 1 2024-02-29 00:00 0 {title}\nE\n'
    for line in at_each_limit('C 2 5 1'):
        yield f'mr1 5 3\n{line}\nE\n'
    for line in at_each_limit('mr1 5 3'):
        yield f'{line}\nW 9 2 1 elm 1 2024-02-29 00:00 0 x\nE\n'


def limit_positions():
    for word in ('mp1', 'mp2'):
        for line in at_each_limit(f'{word} 9 3'):
            yield f'{line}\nK 0\nE\n'
        for line in at_each_limit('K 1'):
            yield f'{word} 9 3\n{line}\nE\n'
        for line in at_each_limit('V 3 1'):
            yield f'{word} 9 3\nK 0\n{line}\nE\n'


def at_limit(rng, line):
    """One word of the line is at a limit, or just beyond it."""
    words = line.split(b' ')
    limits = LIMITS.get(words[0].decode('latin-1'), [])[:len(words) - 1]
    if limits:
        at = rng.randrange(len(limits))
        words[at + 1] = rng.choice(limits[at]).encode('ascii')
    if words[0] == b'W' and rng.random() < 0.2:
        words[-1] = b'y' * rng.choice([0, 1, 60, 61])
    return b' '.join(words)


def turn_word(rng, line):
    """One word of the line is another one."""
    words = line.split(b' ')
    at = rng.randrange(len(words))
    number = words[at].decode('latin-1')
    near = [str(int(number) + 1), str(int(number) - 1)] if number.isdecimal() and number.isascii() else []
    words[at] = rng.choice(near if near and rng.random() < 0.7 else NUMBERS + WORDS).encode('latin-1')
    if rng.random() < 0.1:
        words.insert(rng.randrange(len(words) + 1), rng.choice(NUMBERS + WORDS).encode('latin-1'))
    return b' '.join(words)


def place(rng, lines):
    """Mostly a line between the first and the last one."""
    return rng.randrange(1, len(lines) - 2) if len(lines) > 3 and rng.random() < 0.9 else rng.randrange(len(lines))


def turn_lines(rng, text, forge):
    """A line is doubled, dropped, swapped, changed, repeated, or a forged one comes in."""
    lines = text.split(b'\n')
    at, to = place(rng, lines), place(rng, lines)
    kind = rng.randrange(10)
    if kind == 0:
        lines.insert(to, lines[at])
    elif kind == 1:
        del lines[at]
    elif kind == 2:
        lines[at], lines[to] = lines[to], lines[at]
    elif kind == 3:
        lines[at] = turn_word(rng, lines[at])
    elif kind == 4:
        lines[at] = at_limit(rng, lines[at])
    elif kind == 5:
        lines[at:at] = [lines[to]] * rng.choice([1, 2, 9])
    else:
        lines.insert(max(1, len(lines) - 2) if rng.random() < 0.6 else at, forge().encode('latin-1'))
    return b'\n'.join(lines)


def turn_byte(rng, text):
    at = rng.randrange(len(text))
    byte = bytes([text[at] ^ 1 << rng.randrange(8)]) if rng.random() < 0.5 else rng.choice(BYTES)
    return text[:at] + byte + text[at + rng.choice([0, 1, 1]):]


def turn(rng, text, forge):
    """One to three turns of a text."""
    for _ in range(rng.choice([1, 1, 1, 1, 2, 3])):
        kind = rng.random()
        if kind < 0.1:
            text = text[:rng.randint(0, len(text))]
        elif kind < 0.18 and text:
            text = turn_byte(rng, text)
        else:
            text = turn_lines(rng, text, forge)
    return text


def forged_commit(rng, taker, server, n):
    """A commit that is the next one, or nearly."""
    number = rng.choice([len(taker.commits) + rng.choice([0, 1, 1, 1, 2]), taker.dropped, taker.dropped + 1])
    committed = sum(1 for each, _ in taker.commits if each == server)
    return f'C {max(0, number)} {server} {rng.choice([committed, committed + 1, committed + 1, n])}'


def forged_cancel(rng, taker, stamp, room):
    """A cancel of something that is known, or nearly."""
    server, n = rng.choice(sorted(taker.known) or [(taker.server, 1)])
    return f'X {stamp} {room} {server} {rng.choice([n, n, n, n + 1, 0])}'


def forged_line(rng, taker, other):
    """A line that follows on what the taker knows, or nearly does."""
    counts = taker.counts()
    server = rng.choice(list(counts) + [taker.server, other.server, rng.randint(1, 99)])
    n = max(0, counts.get(server, 0) + rng.choice([-1, 0, 1, 1, 1, 2]))
    if rng.random() < 0.35:
        return forged_commit(rng, taker, server, n)
    is_wild = rng.random() < 0.15
    time = max(0, taker.last_time(server) + rng.choice([0, 1, 1, 1, 5]))
    time = rng.choice([999999999999, 1000000000000]) if is_wild and rng.random() < 0.1 else time
    if rng.random() < (0.3 if RULES.version > 1 else 0.05):
        return forged_cancel(rng, taker, f'{server} {n} {time}', rng.choice(ROOMS))
    extra = rng.choice([0, MOST_TOLD[RULES.version] + 1] if is_wild else [0, 0, 1, 2, MOST_TOLD[RULES.version]])
    slots = [f'{rng.choice(DAYS)} {rng.choice(TIMES if is_wild else TIMES[:4])}' for _ in range(extra + 1)]
    line = f'W {server} {n} {time} {rng.choice(ROOMS)} {rng.choice([1, 30, 1440] if is_wild else [30, 60])} {slots[0]} {extra} '
    return line + ''.join(slot + ' ' for slot in slots[1:]) + rng.choice(TITLES if is_wild else ['x', 'Alpha', TITLES[1]])


def forged_batch(rng, taker, other):
    """A batch of one or a few lines, each of which follows on what the taker knows, or nearly does."""
    lines = [forged_line(rng, taker, other) for _ in range(rng.choice([1, 1, 1, 2, 3]))]
    version = rng.choice([1, 2, 2]) if RULES.version > 1 else 1
    return f'mr{version} {other.server} {taker.primary}\n{"".join(line + chr(10) for line in lines)}E\n'.encode('latin-1')


def turned_batch(rng, taker, offices):
    """A real batch for what the taker has, for nothing, or of another time, turned; or a forged one."""
    other = rng.choice(offices).replica
    if rng.random() < 0.35:
        text = forged_batch(rng, taker, other)
        if rng.random() < 0.7:
            return text
    else:
        commits, counts = (len(taker.commits), taker.counts()) if rng.random() < 0.5 else (rng.choice([0, other.dropped]), {})
        text = batch_text(other, commits, counts, rng.choice([1, 2, 5, 64])) or b''
    return turn(rng, text, lambda: forged_line(rng, taker, other))


def turned_position(rng, maker, offices):
    """A real position, or one that is near to what the maker has; turned, or as it is."""
    other = rng.choice(offices).replica
    text = (other.position() + '\n').encode('ascii')
    if rng.random() < 0.6:
        counts = ''.join(f'V {s} {max(rng.randint(0, 1), n + rng.choice([-1, 0, 0, 1]))}\n' for s, n in maker.counts().items())
        commits = max(0, rng.choice([maker.dropped, len(maker.commits)]) + rng.choice([-1, 0, 1]))
        version = rng.choice([1, 2]) if RULES.version > 1 else 1
        text = f'mp{version} {rng.randint(1, 99)} {maker.primary}\nK {commits}\n{counts}E\n'.encode('ascii')
        if rng.random() < 0.7:
            return text
    return turn(rng, text, lambda: f'V {rng.randint(0, 100)} {rng.choice(NUMBERS)}')
