"""Random recordings of several participants, for comparisons with the second implementation: what they announce of their hosts, their processes and
their endpoints, whom they name, which nodes they tell of, and what they say of few numbers, reliably and by best effort.
"""
from random_ends import PREFIXES, announced, some_nodes, some_participant, some_services
from random_events import some_shared
from random_nothing import some_nothing
from random_recordings import (TOPICS, A, B, Told, leaving, parameter, put, sn, some_announced, some_input, some_life, some_outage,
                               some_ranges, some_resends, some_two_ways, text_of_datagrams, u)

KINDS = b'Pose', b'Pose', b'Pose', b'nav_msgs::msg::dds_::Odometry_', b'a::dds_::b', b'\xff::dds_::_'
PARTITIONS = b'', b'a', b'a', b'ab', b'abc', b'a*', b'*', b'?', b'a?', b'[a-c]', b'a[!b]*', b'a[^b]', b'[]a]', b'a[', b'a[b-]', b'b\\', b'"\xff'
DURATIONS = (0, 0), (0, 1), (0, 1 << 31), (1, 0), (1, 1), (1, 429496730), (2, 0), (-1, 7), (0x7fffffff, 0xfffffffe), (0x7fffffff, 0xffffffff)

# ---- parameters


def some_duration(rng, order):
    seconds, fraction = rng.choice(DURATIONS)
    return u(order, 4, seconds) + u(order, 4, fraction)


def some_kind(rng, order, count):
    """a kind below a count, and now and then the one past it"""
    return u(order, 4, rng.choice([*range(count)] * 6 + [count]))


def text(order, name):
    return u(order, 4, len(name) + 1) + name + b'\0'


def some_partition(rng, order):
    names = [rng.choice(PARTITIONS) for _ in range(rng.choice([0, 1, 1, 1, 2, 3]))]
    texts = [text(order, name) if rng.random() < 0.97 else rng.choice([bytes(4), text(order, name)[:-1] + b'x']) for name in names]
    return u(order, 4, len(names) + rng.choice([0] * 20 + [1])) + b''.join(one + bytes(-len(one) % 4) for one in texts)


def some_representation(rng, order):
    ids = [rng.choice([0, 0, 1, 2, 2, 7, 0xffff]) for _ in range(rng.choice([0, 1, 1, 2, 3]))]
    return u(order, 4, len(ids) + rng.choice([0] * 20 + [1])) + b''.join(u(order, 2, one) for one in ids)


def some_presentation(rng, order):
    flags = [rng.choice([0, 0, 0, 1, 1, 2 if rng.random() < 0.2 else 0]) for _ in range(2)]
    return some_kind(rng, order, 3) + bytes(flags) + bytes(2)


POLICIES = [
    (0x23, some_duration), (0x27, some_duration), (0x1b, lambda rng, order: some_kind(rng, order, 3) + some_duration(rng, order)),
    (0x1f, lambda rng, order: some_kind(rng, order, 2)), (0x25, lambda rng, order: some_kind(rng, order, 2)), (0x21, some_presentation),
    (0x29, some_partition), (0x73, some_representation),
]


def some_policies(rng, order, often):
    """parameters of some policies; sometimes one is cut, or there are two of an id"""
    found = []
    for pid, some in POLICIES:
        for _ in range(rng.choice([1] * 9 + [2]) if rng.random() < often else 0):
            value = some(rng, order)
            found.append(parameter(order, pid, value[:rng.randrange(len(value))] if rng.random() < 0.05 else value))
    return found


# ---- announcements


class End:
    """a writer or a reader, as it announces itself"""

    def __init__(self, rng, k, topics, best_effort=False):
        self.rng, self.prefix, self.reads = rng, rng.choice(PREFIXES[:3]), rng.random() < 0.5
        self.entity, (self.topic, self.kind) = bytes([0, 0, k, 4 if self.reads else 3]), rng.choice(topics)
        self.kind = self.kind if rng.random() < 0.95 else rng.choice(KINDS)
        self.reliable = not best_effort and rng.random() < (0.6 if self.reads else 0.85)
        self.durability = rng.choice([None] * 3 + [0, 0, 0, 1] if self.reads else [None, 0, 1, 1, 2, 3])
        self.often = rng.choice([0, 0, 0, 0.06, 0.06, 0.4]) if not best_effort else rng.choice([0, 0, 0, 0.06])

    def announced(self):
        """with policies that may be others each time"""
        rng, order = self.rng, self.rng.choice(['be', 'le'])
        names = [parameter(order, pid, text(order, name)) for pid, name in ((5, self.topic), (7, self.kind))]
        found = [parameter(order, 0x5a, self.prefix + self.entity), *names, parameter(order, 0x1a, u(order, 4, 1 + self.reliable) + bytes(8))]
        found += [] if self.durability is None else [parameter(order, 0x1d, u(order, 4, self.durability))]
        return announced(rng, b'\0\0\4\xc2' if self.reads else b'\0\0\3\xc2', self.prefix, order, found + some_policies(rng, order, self.often))


# ---- what they say


def named(rng, source, dest):
    """an act of one participant that names another"""
    act = rng.choice([
        put('be', 7, 0, bytes(4) + b'\0\0\3\xc2' + sn('be', 1) + sn('be', 1) + u('be', 4, 1)),
        put('be', 6, 0, b'\0\0\3\xc7\0\0\3\xc2' + sn('be', rng.choice([0, 1, 1, 2])) + bytes(4) + u('be', 4, 1)),
        put('be', 0x12, 0, b'\0\0\1\4\0\0\1\3' + sn('be', 1) + u('be', 4, 1) + bytes(4) + u('be', 4, 1)), put('be', 0x80, 0, bytes(4)),
    ])
    return b'RTPS\2\5\0\0' + source + b'\x0e\0\0\x0c' + dest + act


def some_talk(rng, w, r):
    """what a writer and a reader of one topic say; of best effort mostly the writer alone, of which mostly some is not here"""
    told, is_named = Told(rng, w.entity, r.entity, rng.random() < 0.3), rng.random() < 0.7
    answers, part = w.reliable and r.reliable or rng.random() < 0.2, 1 if w.reliable and r.reliable else rng.choice([0.8, 1])
    for _ in range(rng.randrange(14)):
        octets, by_writer = told.next()
        if not answers and not by_writer or rng.random() >= part:
            continue
        source, dest = (w.prefix, r.prefix) if by_writer else (r.prefix, w.prefix)
        names = b'\x0e\0\0\x0c' + dest if is_named and (not by_writer or rng.random() < 0.5) else b''
        yield b'RTPS\2\5\0\0' + source + names + octets


def some_system(rng):
    """up to four participants with endpoints of up to three topics"""
    topics = [(rng.choice(TOPICS), rng.choice(KINDS)) for _ in range(rng.randrange(1, 4))] + (some_services(rng) if rng.random() < 0.15 else [])
    best_effort = rng.random() < 0.25
    ends = [End(rng, k, topics, best_effort) for k in range(1, rng.randrange(3, 9))]
    start = [d for prefix in PREFIXES if rng.random() < 0.7 for d in [some_participant(rng, prefix)] * rng.choice([1, 1, 1, 2])]
    start += [some_participant(rng, rng.choice(PREFIXES)) for _ in range(rng.choice([0, 0, 1]))]
    start += [d for end in ends for _ in range(rng.choice([1, 1, 1, 2])) for d in some_announced(rng, end.announced())]
    telling, samples = some_nodes(rng, PREFIXES[:3], [(end.prefix, end.entity) for end in ends]) if rng.random() < 0.5 else ([], [])
    start += telling
    rng.shuffle(start)
    said = [d for w in ends for r in ends if not w.reads and r.reads and w.topic == r.topic and rng.random() < 0.8 for d in some_talk(rng, w, r)]
    contacts = [(rng.choice(PREFIXES), rng.choice(PREFIXES)) for _ in range(rng.randrange(9))]
    contacts += [(r.prefix, w.prefix) for w in ends for r in ends if best_effort and r.reads and not w.reads]
    for d in samples + [named(rng, source, dest) for source, dest in contacts]:
        said.insert(rng.randrange(len(said) + 1), d)
    for end in ends:
        if rng.random() < 0.1:
            said.insert(rng.randrange(len(said) + 1), leaving(rng, end.prefix + end.entity, rng.choice(['be', 'le'])))
    late = rng.randrange(len(start) + 1) if rng.random() < 0.5 else len(start)
    datagrams = start[:late] + said
    for d in start[late:]:
        datagrams.insert(rng.randrange(late, len(datagrams) + 1), d)
    return datagrams


def some_recorded(rng):
    """a recording text of one of several kinds"""
    kind = rng.random()
    if kind < 0.8:
        kinds = (0.09, some_nothing), (0.25, some_system), (0.4, some_shared), (0.45, some_outage), (0.5, some_ranges), (0.61, some_resends), (0.8, some_life)
        return text_of_datagrams(next(some for most, some in kinds if kind < most)(rng))
    return some_input(rng)


# ---- two recordings of the same, at a writer's host and at a reader's


def some_both(rng):
    """what two participants say for a while"""
    kind = rng.random()
    kinds = [(0.3, lambda: some_life(rng, 60)), (0.4, lambda: some_ranges(rng)), (0.5, lambda: some_resends(rng)), (0.65, lambda: some_two_ways(rng)),
             (0.8, lambda: some_system(rng)), (0.93, lambda: some_shared(rng)), (1, lambda: some_life(rng))]
    return next(some for most, some in kinds if kind < most)()


def some_other(rng, datagrams):
    """two recordings of what was said, one of which is judged by the other: mostly made at two hosts, with loss on the way, in either order;
    sometimes the same one twice, or two of which one has by chance what the other has"""
    kind = rng.random()
    if kind < 0.1:
        return datagrams, list(datagrams)
    return some_hosts(rng, datagrams) if kind < 0.75 else (datagrams, by_chance(rng, datagrams))


def some_hosts(rng, datagrams):
    """what is sent at a host is there, and mostly at the other one; sometimes both begin or end at times of their own"""
    away, loss = rng.choice([B, B, B, A]), rng.choice([0, 0.1, 0.2, 0.3])
    here, there = ([d for d in datagrams if (d[8:20] == away) == is_there or rng.random() >= loss] for is_there in (False, True))
    if rng.random() < 0.3:
        here, there = (found[rng.randrange(3):len(found) - rng.randrange(3)] for found in (here, there))
    return (here, there) if rng.random() < 0.5 else (there, here)


def by_chance(rng, datagrams):
    """most of these datagrams, in an order of their own, some twice, and some that are in no other"""
    part = rng.choice([0.4, 0.8, 0.95, 1])
    found = [d for d in datagrams if rng.random() < part]
    if rng.random() < 0.2:
        absent = rng.choice(PREFIXES)
        found = [d for d in found if d[8:20] != absent]
    if rng.random() < 0.1:
        found = found[rng.randrange(len(found) + 1):]
    for _ in range(rng.choice([0, 0, 2, 5])):
        found.insert(rng.randrange(len(found) + 1), rng.choice(datagrams or [b'']))
    if rng.random() < 0.3:
        rng.shuffle(found)
    return found + (some_life(rng) if rng.random() < 0.1 else [])
