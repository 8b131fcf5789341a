"""Random recordings that mostly have no pair to judge, each for another cause."""
from random_ends import PREFIXES, parameter, put, sn, some_nodes, some_participant, some_ports, u
from random_recordings import RELIABLE, TOPICS, announced, names_of
from who import announced as shuffled

BEST_EFFORT = b'\0\x1a\0\x0c\0\0\0\1' + bytes(8)

# ---- who says something


def said(rng, prefix):
    """a HEARTBEAT or an ACKNACK of an endpoint of a user, of one that is built in, or of the participant itself; or nothing"""
    writer, reader = rng.choice([(b'\0\0\1\3', b'\0\0\1\4'), (b'\0\0\3\xc2', b'\0\0\3\xc7'), (b'\0\0\4\xc2', b'\0\0\4\xc7'), (b'\0\1\0\xc2', b'\0\1\0\xc7'),
                                 (b'\0\2\0\xc2', b'\0\2\0\xc7'), (b'\0\0\1\x43', b'\0\0\1\x44'), (b'\0\0\1\x83', b'\0\0\1\x84')])
    to = b'\x0e\0\0\x0c' + rng.choice(PREFIXES) if rng.random() < 0.3 else b''
    by = put('be', 0x0c, 0, bytes(4) + b'\2\5\1\2' + rng.choice(PREFIXES)) if rng.random() < 0.1 else b''
    act = rng.choice([
        put('be', 7, 0, reader + writer + sn('be', 1) + sn('be', 1) + u('be', 4, 1)), put('be', 6, 0, reader + writer + sn('be', 1) + bytes(4) + u('be', 4, 1)),
        put('be', 0x12, 0, reader + writer + sn('be', 1) + u('be', 4, 1) + bytes(4) + u('be', 4, 1)), put('be', 8, 0, reader + writer + sn('be', 1) + sn('be', 2) + bytes(4)),
        b''])
    return b'RTPS\2\5\0\0' + prefix + by + to + act


def host(rng, prefix, shared):
    """an announcement that has an address, mostly the one of all"""
    order = rng.choice(['be', 'le'])
    found = [parameter(order, 0x50, prefix + b'\0\0\1\xc1'), parameter(order, 0x31, u(order, 4, 1) + u(order, 4, 7411) + shared)]
    found += [parameter(order, 0x0f, u(order, 4, rng.choice([0, 7])))] if rng.random() < 0.3 else []
    return shuffled(rng, b'\0\1\0\xc2', prefix, order, found + (some_ports(rng, order) if rng.random() < 0.6 else []))


def ends(rng, prefixes):
    """endpoints of some topics, mostly of the one side or of best effort; sometimes of many topics"""
    found = []
    for k in range(1, rng.choice([1, 2, 3, 4, 4, 5, 16])):
        topic = rng.choice(TOPICS) if rng.random() < 0.8 else b'rt/t%d' % k
        reads, more = rng.random() < 0.5, rng.choice([RELIABLE, RELIABLE, BEST_EFFORT])
        found.append(announced(b'\0\0\4\xc2' if reads else b'\0\0\3\xc2', rng.choice(prefixes), bytes([0, 0, k, 4 if reads else 3]), more, names_of(topic)))
    return found


def some_nothing(rng):
    prefixes = rng.sample(PREFIXES, rng.choice([1, 2, 2, 3]))
    shared = bytes(12) + bytes([10, 0, 0, 1])
    is_shared = rng.random() < 0.25
    start = []
    for prefix in prefixes if rng.random() < 0.95 else prefixes[1:]:
        one = shared if is_shared or rng.random() < 0.3 else bytes(12) + bytes([10, 0, 0, rng.choice([1, 2, 3])])
        start.append(host(rng, prefix, one) if rng.random() < 0.85 else some_participant(rng, prefix))
    behind = ends(rng, prefixes) if rng.random() < 0.8 else []
    telling, samples = some_nodes(rng, prefixes, [(d[8:20], d[64:68]) for d in behind]) if rng.random() < 0.15 else ([], [])
    datagrams = start + behind + telling + samples + [said(rng, rng.choice(prefixes)) for _ in range(rng.choice([0, 0, 1, 2]))]
    if rng.random() < 0.25:
        datagrams.insert(rng.randrange(len(start) + 1), said(rng, rng.choice(prefixes)))
    if rng.random() < 0.06:
        return [rng.choice([b'', b'RTPX\2\5\0\0' + bytes(12), b'RTPS\2\5\0']) for _ in range(rng.randrange(3))]
    return datagrams
