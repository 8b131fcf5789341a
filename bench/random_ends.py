"""Who participants are, in random recordings: their hosts, their processes and their nodes of ROS 2, as either stack announces them. Some of it is
malformed, and some is told twice.
"""
import who
from random_recordings import A, B, C, parameter, put, sn, some_announced, u

PREFIXES = A, B, C, b'\xdd' * 12

# ---- processes

HOSTS = b'robot1', b'robot1', b'robot2', b'a "b"\\\xff', b'vm'
PROGRAMS = b'talker', b'ros2', b'component_container_mt', b'\x01\xfe'
PIDS = b'7', b'4711', b'4711', b'4712', b'4294967295'
NAMES = b'/', b'', b'RTPSParticipant', b'/talker', b'Participant_1'
ENCLAVES = b'enclave=/;', b'enclave=/robot;', b'x=1;enclave=/a"b;'


def texts(order, pairs):
    return who.u32(order, len(pairs)) + b''.join(who.cdr_text(order, text) for pair in pairs for text in pair)


def of_cyclone(rng):
    return [(b'__NetworkAddresses', b'10.0.0.1'), (b'__Pid', rng.choice(PIDS)), (b'__ProcessName', rng.choice(PROGRAMS)), (b'__Hostname', rng.choice(HOSTS))]


def of_fast(rng):
    return [(b'PARTICIPANT_TYPE', b'SIMPLE'), (b'fastdds.physical_data.host', rng.choice(HOSTS) + rng.choice([b'', b':default', b':0a:1'])),
            (b'fastdds.physical_data.user', b'u'), (b'fastdds.physical_data.process', rng.choice(PIDS))]


def some_process(rng, order):
    """parameters of a participant: mostly as a stack announces them, sometimes by chance, and sometimes none"""
    kind = rng.random()
    if kind < 0.2:
        return []
    if kind < 0.4:
        return who.process_parameters(rng, order)
    pairs = rng.choice([of_cyclone, of_fast])(rng)
    pairs = [pair for pair in pairs if rng.random() < 0.9]
    found = [parameter(order, 0x59, padded(who.damaged(rng, texts(order, pairs), 0.03)))]
    found += [parameter(order, 0x62, who.cdr_text(order, rng.choice(NAMES)))] if rng.random() < 0.6 else []
    data = rng.choice(ENCLAVES)
    return found + ([parameter(order, 0x2c, padded(who.u32(order, len(data)) + data))] if rng.random() < 0.6 else [])


def padded(octets):
    return octets + bytes(-len(octets) % 4)


# ---- participants


def some_locator(rng, order):
    address = rng.choice([bytes(12) + bytes([10, 0, 0, rng.choice([1, 1, 2])]), bytes.fromhex('20010db80000000000ab0000000000') + bytes([rng.choice([1, 2])])])
    value = u(order, 4, rng.choice([1, 1, 1, 2, 2, 16, -1])) + u(order, 4, 7400) + address
    return parameter(order, rng.choice([0x31] * 9 + [0x32]), value if rng.random() < 0.97 else value[:-1])


LEASES = (0, 0), (0, 1 << 31), (3, 0), (3, 0), (9, 1), (9, 2 ** 32 - 1), (10, 0), (10, 1), (20, 0), (-1, 5), (0x7fffffff, 0xffffffff)


def some_lease(rng, order):
    """how long a participant may say nothing, which sometimes cannot be read"""
    seconds, fraction = rng.choice(LEASES)
    return parameter(order, 2, (u(order, 4, seconds) + u(order, 4, fraction))[:rng.choice([8] * 12 + [7])])


PORTS = 7400, 7400, 7400, 7401, 7410, 7649, 7650, 7650, 7660, 7899, 7900, 7399, 0, 65150, 2 ** 32 - 1, 7400 + 250 * 17179800


def some_ports(rng, order):
    """a vendor, and locators by whose ports a domain is told"""
    found = []
    for _ in range(rng.choice([0, 1, 1, 1, 2])):
        found.append(parameter(order, 0x16, rng.choice([b'\1\x0f\0\0'] * 5 + [b'\1\x10\0\0', b'\1\x0f', b'\1', b'\x0f\1\0\0'])))
    for _ in range(rng.choice([0, 1, 1, 1, 2, 3])):
        kind, size = rng.choice([1] * 6 + [2, 15, 16, 17, -1]), rng.choice([24] * 20 + [23, 28])
        value = u(order, 4, kind) + u(order, 4, rng.choice(PORTS)) + bytes(20)
        found.append(parameter(order, rng.choice([0x31, 0x32, 0x32, 0x33, 0x33]), value[:size]))
    return found


def some_host(rng, order):
    """parameters of a participant: a domain, a lease and addresses, and mostly its process"""
    found = [parameter(order, 0x0f, u(order, 4, rng.choice([0, 0, 0, 1])))] if rng.random() < 0.55 else []
    found += [some_lease(rng, order) for _ in range(rng.choice([0, 1, 1, 2]))]
    found += some_process(rng, order) if rng.random() < 0.7 else []
    found += some_ports(rng, order) if rng.random() < 0.5 else []
    return found + [some_locator(rng, order) for _ in range(rng.choice([0, 1, 1, 1, 2]))]


def announced(rng, writer, source, order, parameters):
    parameters = list(parameters)
    rng.shuffle(parameters)
    value = (b'\0\2' if order == 'be' else b'\0\3') + bytes(2) + b''.join(parameters) + parameter(order, 1, b'')
    return b'RTPS\2\5\0\0' + source + put('be', 0x15, 4, b'\0\0\0\x10' + bytes(4) + writer + sn('be', 1) + value)


def some_participant(rng, prefix):
    order, source = rng.choice(['be', 'le']), prefix if rng.random() < 0.95 else rng.choice(PREFIXES)
    entity = b'\0\0\1\xc1' if rng.random() < 0.97 else b'\0\0\2\xc1'
    return announced(rng, b'\0\1\0\xc2', source, order, [parameter(order, 0x50, prefix + entity), *some_host(rng, order)])


# ---- nodes

# the writer of a participant that tells of its nodes
TELLER = b'\0\0\x30\3'


def told_nodes(rng, prefix, entities):
    """the announcement of a writer that tells of nodes, and its samples, of which the last one counts"""
    order, tells = rng.choice(['be', 'le']), [who.TOPIC, who.TYPE]
    names = [who.parameter(order, pid, who.cdr_text(order, name)) for pid, name in zip((5, 7), tells)]
    announcement = who.announced(rng, b'\0\0\3\xc2', prefix, order, [who.parameter(order, 0x5a, prefix + TELLER), *names])
    samples = [who.message(prefix, TELLER, who.some_sample(rng, prefix, entities or who.ENTITIES), k + 1) for k in range(rng.choice([1, 1, 1, 2, 3]))]
    return some_announced(rng, announcement, 0.05), [d for sample in samples for d in some_announced(rng, sample, 0.1)]


def some_nodes(rng, prefixes, ends):
    """of some participants the announcements and the samples; `ends` has prefixes and entity ids"""
    start, said = [], []
    for prefix in prefixes:
        if rng.random() < 0.6:
            announcements, samples = told_nodes(rng, prefix, [entity for source, entity in ends if source == prefix])
            start += announcements
            said += samples
    return start, said


def some_services(rng):
    """topics of parameter services, by which a participant has a node, too"""
    return [(rng.choice([b'rq/talker/get_parametersRequest', b'rr/talker/get_parametersReply', b'rq/ns/cam/get_parametersRequest']), b'T')]
