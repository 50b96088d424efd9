"""The reply to the bytes of a connection, by the table of checks in docs/FORMATS.md ("HTTP"); the first check that fails decides."""

import itertools
import json
import math
import re

import wire
from oracle import RULES
from wire import reply

TOKEN = rb"[!#$%&'*+\-.^_`|~0-9A-Za-z]+"
START = re.compile(rb'(?:\r?\n)*(' + TOKEN + rb') ([!-~\x80-\xff]+) HTTP/1\.([01])\r?\n')
FIELD = re.compile(rb'(' + TOKEN + rb'):([\t -~\x80-\xff]*)\r?\n')
END = re.compile(rb'\r?\n')
ROUTES = [('POST', rb'/submit', 'submit'), ('GET', rb'/rooms/([^/]+)/days/([^/]+)', 'sheet'),
          ('GET', rb'/rooms/([^/]+)/requests/([^/]+)', 'outcome'), ('GET', rb'/rooms/([^/]+)/errors', 'errors'),
          ('GET', rb'/position', 'position'), ('POST', rb'/pull', 'pull'), ('POST', rb'/push', 'push')]
ROUTES += [('POST', rb'/cancel', 'cancel')] if RULES.version > 1 else []
STRINGS = {'room', 'day', 'start', 'title'}
MOST_DEPTH = 127  # of the lists and objects that serde_json reads in one another


class NoSubmission(ValueError):
    pass


def error(status, words, allow=None):
    return reply(status, f'{{"error":"{words}"}}', allow=allow)


def read_head(data):
    """The method, target, fields and length of the head that the bytes begin with, or None."""
    data = data[:8192]
    start = START.match(data)
    if not start or start[3] != b'1':
        return None
    try:
        start[2].decode('utf-8')
    except UnicodeDecodeError:
        return None
    fields, at = [], start.end()
    while not (end := END.match(data, at)):
        field = FIELD.match(data, at)
        if not field:
            return None
        fields.append((field[1].lower(), field[2].strip(b' \t')))
        at = field.end()
    return (start[1], start[2], fields, end.end()) if len(fields) <= 64 else None


def length_of(method, fields):
    """The length of the body, or None where the fields fail the fourth check."""
    lengths = [value for name, value in fields if name == b'content-length']
    if len(lengths) > 1 or any(name == b'transfer-encoding' for name, _ in fields):
        return None
    if not lengths:
        return 0 if method == 'GET' else None
    if not re.fullmatch(rb'[0-9]{1,10}', lengths[0]) or method == 'GET' and int(lengths[0]) > 0:
        return None
    return int(lengths[0])


def pairs(members):
    """The value of an object. Half a surrogate is no text, in whatever place."""
    for member in members:
        check_text(member)
    return dict(members)


def check_text(value):
    if isinstance(value, (list, tuple)):
        for each in value:
            check_text(each)
    elif isinstance(value, str) and re.search('[\ud800-\udfff]', value):
        raise NoSubmission


def no_constant(word):
    raise NoSubmission(word)


def number(word):
    """A number keeps its spelling; one that is beyond all floats is none."""
    if math.isinf(float(word)):
        raise NoSubmission(word)
    return 'number', word


def depth_of(text):
    """How deep the lists and objects of a JSON text stand in one another."""
    marks = re.sub(r'"(?:[^"\\]|\\.)*"|[^][{}]', '', text)
    return max(itertools.accumulate((1 if mark in '[{' else -1 for mark in marks), initial=0))


def is_strings(value, names):
    return isinstance(value, dict) and set(value) == names and all(isinstance(each, str) for each in value.values())


def read_object(body):
    """The members of the object that is this JSON text, or None."""
    try:
        text = body.decode('utf-8')
        value = json.loads(text, object_pairs_hook=pairs, parse_constant=no_constant, parse_int=number, parse_float=number)
    except (ValueError, RecursionError):
        return None
    return value if isinstance(value, dict) and depth_of(text) <= MOST_DEPTH else None


def read_cancellation(body):
    """The room and the id of a cancellation, or None."""
    value = read_object(body)
    return (value['room'], value['id']) if is_strings(value, {'id', 'room'}) else None


def read_submission(body):
    """The room, length, slots and title of a submission, or None."""
    value = read_object(body)
    if value is None:
        return None
    length, others = value.pop('length', None), value.pop('alternatives', [])
    is_number = isinstance(length, tuple) and re.fullmatch(r'[0-9]+', length[1]) and int(length[1]) < 2 ** 64
    is_list = isinstance(others, list) and all(is_strings(other, {'day', 'start'}) for other in others)
    if not (is_number and is_list and is_strings(value, STRINGS)):
        return None
    slots = [(value['day'], value['start'])] + [(other['day'], other['start']) for other in others]
    return value['room'], length[1], slots, value['title']


def outcome_reply(text):
    if text.startswith('refused '):
        return wire.refusal_reply(text)
    request, mark, state, *more = text.split(' ')
    if state == 'logged':
        return reply(200, f'{{"id":"{request}","mark":"{mark}","state":"logged"}}')
    if state in ('cancels', 'void'):
        return reply(200, f'{{"id":"{request}","mark":"{mark}","state":"{state}","target":"{more[0]}"}}')
    if state == 'cancelled':
        return reply(200, f'{{"by":"{more[1]}","bymark":"{more[0]}","id":"{request}","mark":"{mark}","state":"cancelled"}}')
    start, stop = more[0].split('-')
    return reply(200, f'{{"day":"{state}","id":"{request}","mark":"{mark}","start":"{start}","state":"booked","stop":"{stop}"}}')


def command(replica, name, words, body):
    """The reply to a request that passed all checks but the last ones."""
    if name == 'submit':
        submission = read_submission(body)
        return error(400, 'bad request') if submission is None else outcome_reply(replica.book(*submission))
    if name == 'cancel':
        cancellation = read_cancellation(body)
        return error(400, 'bad request') if cancellation is None else outcome_reply(replica.cancel(*cancellation))
    if name == 'outcome':
        return outcome_reply(replica.outcome(*words))
    if name == 'pull':
        return wire.text_reply(wire.answer_position(replica, body, 64))
    if name == 'push':
        return wire.text_reply(wire.receive(replica, body))
    return wire.text_reply(getattr(replica, name)(*words))


def serve(replica, data):
    """The bytes of the reply to these bytes, after which nothing comes; the replica is changed as by the command."""
    head = read_head(data)
    if head is None:
        return error(400, 'bad request')
    method, target, fields, end = head
    found = [(at, name, match) for at, path, name in ROUTES if (match := re.fullmatch(path, target, re.DOTALL))]
    if not found:
        return error(404, 'not found')
    wanted, name, match = found[0]
    if method.decode('ascii') != wanted:
        return error(405, 'method not allowed', allow=wanted)
    length = length_of(wanted, fields)
    if length is None:
        return error(400, 'bad request')
    if length > 1048576:
        return error(413, 'too large')
    if len(data) < end + length:
        return error(400, 'bad request')
    return command(replica, name, [word.decode('utf-8') for word in match.groups()], data[end:end + length])
