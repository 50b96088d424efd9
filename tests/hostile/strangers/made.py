"""Requests of strangers: real ones, nearly real ones, and ones at each limit. Each function gives the bytes of one of its kind."""

import cancellations
import submissions
from oracle import RULES

ROOMS = ['oak', 'oak', 'elm', 'ash', 'a' * 16, 'a' * 17, 'Oak', '..', '%6fak', '\u00e9', 'o~k', 'days', 'errors']
DAYS = ['1995-12-18', '2099-12-31', '1990-01-01', '2023-02-29', '2100-01-01', '1995-12-18?x=1', '%31', '\u00e9', '1995-12-18#']
IDS = ['1-1', '1-2', '7-1', '01-1', '1-0', '99-999999999', '100-1', '1-1000000000', '1', '-', '1-1-1', '1-01', '0-1']
TARGETS = ['/', '/submit/', '//submit', '/Submit', '/rooms', '/rooms/oak', '/rooms//errors', '/rooms/oak/errors/', '*', '/pull?x',
           '/cancel', '/cancel/', '/Cancel', '/rooms/oak/days', '/rooms/oak/days/', '/rooms/oak/days/1995-12-18/x', '/rooms/a/b/errors', 'http://a/position', '/submit%20',
           '/position#x', '/p\u00e9', '/rooms/errors/errors', '/rooms/days/days/days', '/rooms/{room}/errors', 'position', '/./position']
METHODS = [b'GET', b'POST', b'PUT', b'HEAD', b'OPTIONS', b'get', b'Post', b'P@ST', b'', b'G T', b'DELETE', b'GET\t', b'G\xc3\x89T', b'A' * 300]
VERSIONS = [b'HTTP/1.0', b'HTTP/2', b'HTTP/1.2', b'HTTP/1.11', b'http/1.1', b'', b'HTTP/1.1 ', b' HTTP/1.1', b'HTTP/0.9', b'HTTP/1.', b'HTTPS/1.1',
            b'HTTP/1,1', b'HTTP/2.0']
LENGTHS = ['1', '0', '00', '0000000086', '00000000086', '-1', '+1', '1 ', '1\t', '', '1,1', '0x1', '1048576', '1048577', '1 1', '1;',
           '9999999999', '10000000000', '18446744073709551616', '4294967296', ' 5', '\u0661', '1e1', '1.0', 'x']
PUSHED = [b'mr1 2 1\nE\n', b'', b'mr1 2 3\nE\n', b'mr1 2 1\nW 2 1 1 elm 30 1995-12-18 09:00 0 Beta\nE\n', b'x\n', b'mr1 2 1', b'\n',
          b'mr1 2 1\nW 2 2 5 oak 30 1995-12-18 09:00 0 Caf\xc3\xa9\nE\n', b'mr1 2 1\nC 1 1 1\nE\n', b'mr1 2 1\r\nE\r\n', b'mr1 2 1\nE\nE\n',
          b'mr1 2 1\nW 1 1 1 oak 30 1995-12-18 09:00 0 Own\nE\n', b'mr1 2 1\nW 3 2 1 elm 30 1995-12-18 09:00 0 x\n', b'mr1 100 1\nE\n',
          b'mr1 2 1\nW 2 1 1 elm 30 1995-12-18 09:00 0 Other\nE\n', b'mr1 2 1\nM\n', b'mr1 2 1\n' + b'E' * 9000,
          b'mr2 2 1\nE\n', b'mr1 4 1\nX 4 1 1 oak 1 1\nE\n', b'mr2 4 1\nX 4 1 1 oak 1 1\nE\n', b'mr2 4 1\nX 4 1 1 oak 1 1\nX 4 2 2 elm 9 9\n',
          b'mr2 4 1\nX 4 1 1 oak 1 2\nE\n', b'mr2 4 1\nX 4 3 3 oak 01 1\nE\n', b'mr3 4 1\nE\n']
PULLED = [b'mp1 9 1\nK 0\nE\n', b'', b'mp1 9 1\nK 0\nE', b'mp1 9 2\nK 0\nE\n', b'mp1 9 1\nK 5\nV 1 3\nE\n', b'mp1 9 1\nK 0\nV 2 1\nV 1 1\nE\n',
          b'mp1 9 1\nK 999999999999\nE\n', b'mp1 9 1\nK 1000000000000\nE\n', b'mp1 9 1\nK 0\nV 1 999999999\nE\n', b'mp1 9 1\nK 00\nE\n',
          b'mp1 9 1\nK 0\nE\n\n', b'mp1 9 1\nK 0\nV 1 0\nE\n', b'mp2 9 1\nK 0\nE\n', b'mp2 9 1\nK 0\nV 1 2\nV 3 1\nE\n', b'mp3 9 1\nK 0\nE\n']


class Request:
    """What the bytes of a connection are made of; each part may be turned."""

    def __init__(self, method, target, body=b''):
        self.method, self.target, self.version, self.body = method, target.encode('utf-8'), b'HTTP/1.1', body
        self.fields = [b'Content-Length: %d' % len(body)] if method == b'POST' else []
        self.before, self.end, self.behind = b'', b'\r\n', b''

    def lines(self):
        return [b' '.join([self.method, self.target, self.version]), *self.fields]

    def head(self):
        return self.before + b''.join(line + self.end for line in self.lines()) + self.end

    def data(self):
        return self.head() + self.body + self.behind

    def lengthen(self, size):
        """One more field, so that the head has so many bytes."""
        self.fields.append(b'X: ')
        self.fields[-1] += b'y' * (size - len(self.head()))


def real(rng):
    """A request of some route."""
    room, day, request = rng.choice(['oak', 'oak', 'elm']), '1995-12-18', rng.choice(IDS[:3])
    cancels = [lambda: Request(b'POST', '/cancel', cancellations.whole(rng))] * 2 if RULES.version > 1 else []
    return rng.choice([
        lambda: Request(b'POST', '/submit', submissions.whole(rng)), lambda: Request(b'GET', f'/rooms/{room}/days/{day}'),
        lambda: Request(b'GET', f'/rooms/{room}/requests/{request}'), lambda: Request(b'GET', f'/rooms/{room}/errors'),
        lambda: Request(b'GET', '/position'), lambda: Request(b'POST', '/pull', PULLED[0]),
        lambda: Request(b'POST', '/push', rng.choice(PUSHED[:4])), *cancels])()


def posted(rng):
    """A request that has a body."""
    cancels = [Request(b'POST', '/cancel', cancellations.whole(rng))] if RULES.version > 1 else []
    return rng.choice([Request(b'POST', '/submit', submissions.whole(rng)), Request(b'POST', '/pull', PULLED[0]),
                       Request(b'POST', '/push', PUSHED[0]), *cancels])


def as_it_is(rng):
    return real(rng).data()


def cut_head(rng):
    request = real(rng)
    return request.head()[:rng.randrange(len(request.head()))]


def cut_body(rng):
    request = posted(rng)
    return request.head() + request.body[:rng.randrange(len(request.body))]


def turned_byte(rng):
    data = real(rng).data()
    at = rng.randrange(len(data))
    return data[:at] + bytes([rng.choice([rng.randrange(256), data[at] ^ 1 << rng.randrange(8)])]) + data[at + 1:]


def dropped_byte(rng):
    data = real(rng).data()
    at = rng.randrange(len(data))
    return data[:at] + rng.choice([b'', data[at:at + 1] * 2, b'\r', b'\n', b' ', b'\0']) + data[at + 1:]


def more_behind(rng):
    request = real(rng)
    request.behind = rng.choice([b'x', request.data(), b'\r\n\r\n', b'\0' * 9000])
    return request.data()


def more_before(rng):
    request = real(rng)
    request.before = rng.choice([b'\r\n', b'\n\n', b' ', b'\r', b'\r\n' * 50, b'\t', b'\xef\xbb\xbf', b'\r\n' * 4090])
    return request.data()


def method(rng):
    request = real(rng)
    request.method = rng.choice(METHODS)
    return request.data()


def version(rng):
    request = real(rng)
    request.version = rng.choice(VERSIONS)
    return request.data()


def target(rng):
    request = real(rng)
    request.target = rng.choice(TARGETS).encode('utf-8')
    return request.data()


def target_bytes(rng):
    """Bytes that no target has, or that are no UTF-8."""
    request = real(rng)
    at = rng.randrange(len(request.target) + 1)
    bad = rng.choice([b'\xff', b'\xc3', b' ', b'\t', b'\0', b'\x7f', b'\xed\xa0\x80', b'\xe2\x82\xac', b'"', b'\\', b'%', b'%zz'])
    request.target = rng.choice([b'', request.target[:at] + bad + request.target[at:]])
    return request.data()


def words_of_a_path(rng):
    room = rng.choice(ROOMS)
    return Request(b'GET', rng.choice([f'/rooms/{room}/days/{rng.choice(DAYS)}', f'/rooms/{room}/requests/{rng.choice(IDS)}',
                                       f'/rooms/{room}/errors'])).data()


def number_of_fields(rng):
    request = real(rng)
    request.fields += [rng.choice([b'X: y', b'X:'])] * (rng.choice([63, 64, 65, 66, 1000]) - len(request.fields))
    rng.shuffle(request.fields)
    return request.data()


def size_of_head(rng):
    request = real(rng)
    request.lengthen(rng.choice([8190, 8191, 8192, 8193, 8194, 20000]))
    return request.data()


def size_of_target(rng):
    size = rng.choice([8192, 8193, 20000])
    request = Request(b'GET', rng.choice(['/rooms/oak/errors', '/rooms/oak/days/1995-12-18', '/position']))
    more = size - len(request.head())
    at = rng.choice([len(request.target), request.target.find(b'oak') + 3])
    request.target = request.target[:at] + b'y' * more + request.target[at:]
    return request.data()


def head_without_end(rng):
    request = real(rng)
    request.lengthen(rng.choice([8192, 8193, 30000]))
    return request.head()[:-4]


def ends_of_lines(rng):
    request = real(rng)
    request.end = rng.choice([b'\n', b'\n', b'\r', b'\r\r\n', b'\n\r', b' \r\n', b'\0\r\n', b'\r\n\t'])
    return request.data()


def length_twice(rng):
    request = posted(rng)
    other = rng.choice([request.fields[0], b'content-length: %d' % len(request.body), b'Content-Length: 0', b'CONTENT-LENGTH: 5',
                        b'Content-Length: ' + rng.choice(LENGTHS).encode('utf-8')])
    request.fields.insert(rng.randint(0, 1), other)
    return request.data()


def length_spelled(rng):
    request = posted(rng)
    own = [str(len(request.body)).zfill(digits) for digits in (5, 10, 11)] + [f'{len(request.body)} ', f'\t {len(request.body)}']
    request.fields = [b'Content-Length:' + rng.choice(['', ' ']).encode() + rng.choice(LENGTHS + own).encode('utf-8')]
    return request.data()


def no_length(rng):
    request = posted(rng)
    request.fields = rng.choice([[], [b'Content-Lengt: 5'], [b'Content_Length: 5'], [b'Length: 5'], [b'X: Content-Length: 5']])
    return request.data()


def length_of_a_question(rng):
    request = Request(b'GET', '/position')
    request.fields = [b'Content-Length: ' + rng.choice(['0', '00', '0000000000', '1', '5', '1048577', *LENGTHS]).encode('utf-8')]
    request.body = rng.choice([b'', b'hello'])
    return request.data()


def transfer_encoding(rng):
    request = real(rng)
    coded = rng.choice([b'Transfer-Encoding: chunked', b'transfer-encoding:', b'TRANSFER-ENCODING: identity', b'Transfer-Encodin: chunked'])
    request.fields.insert(rng.randrange(len(request.fields) + 1), coded)
    request.fields = rng.choice([request.fields, [coded]])
    return request.data()


def length_beyond(rng):
    request = posted(rng)
    request.fields = [b'Content-Length: %d' % (len(request.body) + rng.choice([1, 2, 100, 1048576 - len(request.body)]))]
    return request.data()


def length_short(rng):
    request = posted(rng)
    request.fields = [b'Content-Length: %d' % rng.randrange(len(request.body))]
    return request.data()


def size_of_body(rng):
    request, size = posted(rng), rng.choice([1048575, 1048576, 1048577])
    request.body += rng.choice([b' ', b'y', b'\n']) * (size - len(request.body))
    request.fields = [b'Content-Length: %d' % size]
    return request.data()


def field_of_another_form(rng):
    request = real(rng)
    request.fields.insert(rng.randrange(len(request.fields) + 1), rng.choice(
        [b'X', b': y', b'X : y', b' X: y', b'X: \x01', b'X: \xc3\xa9', b'X: \xff', b'X:', b'X:\ty', b'X: a\rb', b'X: y\n', b'Host: a', b'X\xc3\xa9: y',
         b'Expect: 100-continue', b'X: a\x7fb', b'X@: y', b'X: y\r\n folded', b'\tX: y', b'X: \0', b'Connection: keep-alive', b'X(): y', b'\r\n']))
    return request.data()


def names_of_fields(rng):
    request = posted(rng)
    name = ''.join(rng.choice([letter.lower(), letter.upper()]) for letter in 'Content-Length')
    request.fields = [name.encode('ascii') + b':%d' % len(request.body), b'host:x', b'HOST: y'][:rng.choice([1, 3])]
    return request.data()


def two_faults(rng):
    """The first check that fails decides."""
    request = real(rng)
    turns = [('method', rng.choice(METHODS[:6])), ('version', rng.choice(VERSIONS)), ('target', rng.choice(TARGETS).encode('utf-8')),
             ('fields', [b'Content-Length: ' + rng.choice(LENGTHS).encode('utf-8')]), ('fields', [b'Transfer-Encoding: chunked']),
             ('fields', []), ('fields', [b'Content-Length: 1048577']), ('fields', [b'X: y'] * 65), ('body', b''), ('body', b'{')]
    for name, value in rng.sample(turns, 2):
        setattr(request, name, value)
    return request.data()


def push(rng):
    return Request(b'POST', '/push', rng.choice(PUSHED)).data()


def pull(rng):
    return Request(b'POST', '/pull', rng.choice(PULLED)).data()


def no_bytes(rng):
    return rng.choice([b'', b'\r\n', b'\0', b'\r\n\r\n', b'\xff' * 9000, b'\n' * 9000, b'\x16\x03\x01\x02\x00\x01'])


def posted_to(target, kind):
    """The bodies of this kind as requests."""
    def request(rng):
        return Request(b'POST', target, kind(rng)).data()
    request.__name__ = f'{target[1:]} {kind.__name__}'
    return request


KINDS = [as_it_is, cut_head, cut_body, turned_byte, dropped_byte, more_behind, more_before, method, version, target, target_bytes,
         words_of_a_path, number_of_fields, size_of_head, size_of_target, head_without_end, ends_of_lines, length_twice, length_spelled, no_length,
         length_of_a_question, transfer_encoding, length_beyond, length_short, size_of_body, field_of_another_form, names_of_fields, two_faults,
         push, pull, no_bytes, *[posted_to('/submit', kind) for kind in submissions.KINDS],
         *[posted_to('/cancel', kind) for kind in cancellations.KINDS if RULES.version > 1]]


def pieces(rng, data):
    """The bytes in pieces, as they may come."""
    kind = rng.randrange(4)
    if kind > 1 or len(data) > 100000:
        return [data]
    if kind == 1 and len(data) < 300:
        return [data[at:at + 1] for at in range(len(data))]
    places = sorted(rng.randint(0, len(data)) for _ in range(rng.randint(1, 6)))
    return [data[one:two] for one, two in zip([0] + places, places + [len(data)])]
