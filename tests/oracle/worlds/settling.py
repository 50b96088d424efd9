"""What is promised once no office accepts anything new: all come to the same, and then nothing moves any more.

An honest world goes on so: each office exchanges with the primary, in both directions, and then each once more. All are alike now, with what is
still tentative. The primary commits all, each office exchanges with it again, and all is settled: nothing is tentative, and each full calendar
is the committed one. What is done after that changes no answer, until something is booked or cancelled.
"""

from oracle import id_text

WANTED = ['all are alike with something tentative', 'all settle', 'all settle behind a truncation', 'settled with a cancelled booking', 'settled in batches of one line',
          'nothing moves behind a truncation']
# The most writes whose outcomes are asked.
OUTCOMES = 8


def expect(is_so, what):
    if not is_so:
        raise AssertionError(f'the plain form breaks what is promised: {what}')


def meet_primary(world):
    """Each office exchanges with the primary, in an order of its own; some of them twice."""
    primary, *offices = world.replicas
    order = offices + world.rng.sample(offices, world.rng.choice([0, 0, 1]))
    world.rng.shuffle(order)
    for office in order:
        world.meet(office, primary)


def answers(world, replica):
    """All that the replica answers about the rooms that it knows."""
    found = {}
    for room in replica.rooms:
        found |= {(room, part): replica.calendar(room, part) for part in ('full', 'committed')} | {(room, 'errors'): replica.errors(room)}
        found |= {(room, day): replica.sheet(room, day) for day in world.days}
        found |= {(room, entry.write.id()): (entry.mark, replica.fate(entry)) for entry in replica.told(room)}
    return found


def are_alike(world):
    """Whether all replicas know the same, and answer alike about each room that two know."""
    primary, *others = world.replicas.values()
    known = answers(world, primary)
    for replica in others:
        own = answers(world, replica)
        if (replica.commits, replica.counts()) != (primary.commits, primary.counts()) or any(known[it] != own[it] for it in known.keys() & own.keys()):
            return False
    return True


def ask_all(world, outcomes):
    """Every replica is asked about every room, and for these outcomes."""
    rooms = [(server, room) for server, replica in world.replicas.items() for room in sorted(replica.rooms)]
    for server, room in rooms:
        world.at(server, 'calendar', room, 'full')
    for server, room in rooms:
        world.at(server, 'errors', room)
    for server in world.replicas:
        for write in outcomes:
            world.at(server, 'outcome', write.room, id_text(write.id()))


def some_writes(world):
    writes = sorted(world.replicas[next(iter(world.replicas))].known.values(), key=lambda write: write.stamp())
    return world.rng.sample(writes, min(len(writes), OUTCOMES))


def has_truncated(world):
    return any(replica.dropped for replica in world.replicas.values())


def settle(world):
    """The steps, and what has to come of them."""
    primary = next(iter(world.replicas))
    for _ in range(world.rng.choice([0, 2, 4])):
        world.ask_truncate()
    meet_primary(world)
    meet_primary(world)
    expect(are_alike(world), 'all are alike')
    world.note(*['all are alike with something tentative'] * bool(world.replicas[primary].tentative()))
    ask_all(world, [])
    world.at(primary, 'commit', str(len(world.replicas[primary].tentative()) + world.rng.choice([0, 1])))
    meet_primary(world)
    expect_settled(world)
    ask_all(world, some_writes(world))
    stay(world)


def expect_settled(world):
    expect(are_alike(world), 'all are alike when all settle')
    for replica in world.replicas.values():
        expect(not replica.tentative(), 'nothing is tentative')
        for room in replica.rooms:
            full, committed = (replica.calendar(room, part).split('\n')[1:] for part in ('full', 'committed'))
            expect(full == committed, 'the full calendar is the committed one')
            marks = {told.mark for entry in replica.told(room) for told in (entry, entry.cancel) if told}
            expect(marks <= {'C'}, 'all marks are C')
            world.note(*['settled with a cancelled booking'] * any(entry.cancel for entry in replica.told(room)))
    world.note('all settle', *['all settle behind a truncation'] * has_truncated(world))


def stay(world):
    """Exchanges, old batches, truncations and commits: none of them changes an answer."""
    before = {server: answers(world, replica) for server, replica in world.replicas.items()}
    for _ in range(4):
        getattr(world, 'ask_' + world.rng.choice(['deliver', 'deliver', 'truncate', 'commit']))()
    meet_primary(world)
    for server, replica in world.replicas.items():
        after = answers(world, replica)
        expect(all(after[it] == reply for it, reply in before[server].items()), 'nothing moves')
    world.note(*['nothing moves behind a truncation'] * has_truncated(world))
    ask_all(world, [])
