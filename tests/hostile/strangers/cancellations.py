"""JSON texts that are cancellations, or nearly: each function gives the bytes of one of its kind."""

import json

from submissions import VALUES, written

ROOMS = ['oak', 'oak', 'elm', 'ash', 'Oak', '', 'oak ', 'a' * 16, 'a' * 17, '\u00e9']
REQUESTS = ['1-1', '1-2', '1-3', '1-4', '2-1', '7-1', '01-1', '1-01', '1-0', '0-1', '99-999999999', '100-1', '1-1000000000', '1', '', '-', '1-1-1', ' 1-1']


def members_of(rng):
    """The names and texts of a cancellation's members, in any order: mostly of a request that may be known."""
    members = [('room', f'"{rng.choice(ROOMS[:3])}"'), ('id', f'"{rng.choice(["1", "1", "2"])}-{rng.randint(1, rng.choice([4, 40]))}"')]
    rng.shuffle(members)
    return members


def whole(rng):
    return written(members_of(rng), rng.choice(['', ' '])).encode('utf-8')


def without_a_member(rng):
    return written(members_of(rng)[:rng.choice([0, 1, 1])]).encode('utf-8')


def with_a_member_twice(rng):
    """With the same value or with another one; the last of them stands."""
    members = members_of(rng)
    name, value = rng.choice(members)
    members.insert(rng.randrange(len(members) + 1), (name, rng.choice([value, '"1-1"', '"oak"', *VALUES])))
    return written(members).encode('utf-8')


def with_another_member(rng):
    members = members_of(rng)
    name = rng.choice(['title', 'by', 'mark', 'Id', 'ID', ' id', '', 'id\\u0000', 'target', 'request', '\u00e9'])
    members.insert(rng.randrange(len(members) + 1), (name, rng.choice(VALUES[:6])))
    return written(members).encode('utf-8')


def with_a_member_of_another_kind(rng):
    members = members_of(rng)
    at = rng.randrange(len(members))
    members[at] = (members[at][0], rng.choice([*VALUES, '11', '1-1', '["1-1"]', '[1,1]']))
    return written(members).encode('utf-8')


def at_a_limit(rng):
    members = [('room', json.dumps(rng.choice(ROOMS), ensure_ascii=rng.random() < 0.5)), ('id', json.dumps(rng.choice(REQUESTS)))]
    return written(members).encode('utf-8')


def framed(rng):
    """What doesn't belong stands around it, or it isn't whole, or its letters are written in other ways."""
    text = written(members_of(rng))
    return rng.choice([text + text, text[:-1], text[1:], text + 'x', text[:-1] + ',}', text.replace('"', "'"), '', 'null', '"1-1"', '[' + text + ']',
                       text.replace('oak', 'o\\u0061k'), text.replace('id', '\\u0069d'), text.replace('-', '\\u002d'),
                       text[:rng.randrange(len(text))], '[' * 5000, '{"id":' + '[' * 200 + ']' * 200 + ',' + text[1:]]).encode('utf-8')


KINDS = [whole, without_a_member, with_a_member_twice, with_another_member, with_a_member_of_another_kind, at_a_limit, framed]
