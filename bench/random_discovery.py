"""Random systems of which discovery is not complete, one participant has two lives, or pairs matched late, for comparisons with the second implementation:
with what two participants announce, whom they name, and what a reliable writer and its reader say.
"""
from known import PARTICIPANTS, PUBLICATIONS, READERS, SUBSCRIPTIONS, data, listed, message, some_system, text
from matched import stamped
from random_recordings import A, B, parameter, put, sn, u
from times import SECOND

WRITER, READER, PARTICIPANT = b'\0\0\7\3', b'\0\0\7\4', b'\0\0\1\xc1'
RELIABLE = parameter('be', 0x1a, u('be', 4, 2) + bytes(8))


def locator(octet):
    return parameter('be', 0x31, u('be', 4, 1) + u('be', 4, 7411) + bytes(12) + bytes([10, 0, 0, octet]))


def participant(rng, prefix, vendor, octet):
    where = [locator(octet)] if rng.random() < 0.8 else []
    stamp = (1, 0) if rng.random() < 0.9 else (2, rng.choice([0, 1 << 31]))
    return message(rng, prefix, [data(PARTICIPANTS, 1, listed([parameter('be', 0x50, prefix + PARTICIPANT), *where]))], stamp, None, vendor)


def endpoint(rng, prefix, built_in, entity, number):
    names = [parameter('be', 0x5a, prefix + entity), parameter('be', 5, text(b'rt/scan')), parameter('be', 7, text(b'T')), RELIABLE]
    return message(rng, prefix, [data(built_in, number, listed(names))])


def asked(entity, reader, last):
    return put('be', 0x07, 0, reader + entity + sn('be', 1) + sn('be', last) + u('be', 4, 1))


def answered(reader, writer, base):
    return put('be', 0x06, 0, reader + writer + sn('be', base) + u('be', 4, 0) + u('be', 4, 1))


def some_discovery_act(rng, source, dest, built_in):
    """what a participant says of the built-in writer of another, or of its own"""
    if rng.random() < 0.5:
        return message(rng, source, [answered(READERS[built_in], built_in, rng.choice([1, 1, 2, 3]))], None, dest)
    return message(rng, dest, [asked(built_in, READERS[built_in], rng.choice([1, 1, 2]))], None, source if rng.random() < 0.5 else None)


def some_sample(rng):
    kind, numbers = rng.random(), range(1, 4)
    if kind < 0.4:
        return message(rng, A, [data(WRITER, rng.choice(numbers), b'\0\1\0\0' + bytes(8))])
    if kind < 0.8:
        return message(rng, A, [asked(WRITER, READER, rng.choice(numbers))], None, B)
    return message(rng, B, [answered(READER, WRITER, rng.choice([1, 2, 3, 4]))], None, A)


def some_broken(rng):
    """datagrams, each with its time in nanoseconds"""
    vendors = {prefix: rng.choice([b'\1\x10', b'\1\x0f', b'\1\x0f', b'\1\3']) for prefix in (A, B)}
    octets = {A: 1, B: rng.choice([1, 2, 2, 2])}
    datagrams = [participant(rng, prefix, vendors[prefix], octets[prefix]) for prefix in (A, B)]
    datagrams += [endpoint(rng, A, PUBLICATIONS, WRITER, rng.choice([1, 1, 2])), endpoint(rng, B, SUBSCRIPTIONS, READER, 1)]
    says = [lambda: some_discovery_act(rng, *rng.choice([(A, B), (B, A), (B, A)]), rng.choice([PUBLICATIONS, SUBSCRIPTIONS]))] * rng.choice([0, 1, 2])
    says += [lambda: some_sample(rng)] * 3
    datagrams += [rng.choice(says)() for _ in range(rng.randrange(3, 12))]
    datagrams += [participant(rng, prefix, vendors[prefix], octets[prefix]) for prefix in (A, B) if rng.random() < 0.8]
    time, times = rng.randrange(9) * 10 ** 9, []
    for _ in datagrams:
        time += rng.choice([0, 10 ** 8, 10 ** 9 - 1, 10 ** 9, 10 ** 9, 10 ** 9 + 1])
        times.append(time)
    return datagrams, times


# ---- pairs that matched late


def announced_by(rng, source, built_in, entity, number, topic, stamp):
    """the datagrams that announce an endpoint: one, or sometimes one for each of two fragments"""
    names = [parameter('be', 0x5a, source + entity), parameter('be', 5, text(topic)), parameter('be', 7, text(b'T')), RELIABLE]
    dest, payload = rng.choice([None] * 8 + [A, B]), listed(names)
    if rng.random() < 0.9:
        return [message(rng, source, [data(built_in, number, payload)], stamp, dest)]
    size = (len(payload) // 2 + 3) // 4 * 4
    head = bytes(2) + u('be', 2, 28) + bytes(4) + built_in + sn('be', number)
    parts = [head + u('be', 4, k) + u('be', 2, 1) + u('be', 2, size) + u('be', 4, len(payload)) + payload[(k - 1) * size:k * size] for k in (1, 2)]
    return [message(rng, source, [put('be', 0x16, 0, part)], stamp, dest if rng.random() < 0.9 else B) for part in parts]


def some_word(rng):
    """what the writer says to the reader, or the reader to it"""
    kind, number = rng.random(), rng.choice([1, 2, 2, 3])
    if kind < 0.35:
        return message(rng, A, [data(WRITER, rng.choice([1, 1, 3, 3, 2]), b'\0\1\0\0' + bytes(8))])
    if kind < 0.55:
        return message(rng, A, [asked(WRITER, READER, rng.choice([2, 3, 3]))], None, B)
    if kind < 0.7:
        return message(rng, A, [put('be', 0x08, 0, READER + WRITER + sn('be', number) + sn('be', number + 1) + u('be', 4, 0))], None, B)
    if kind < 0.85:
        return message(rng, B, [answered(READER, WRITER, rng.choice([1, 2, 4, 4]))], None, A)
    return message(rng, B, [put('be', 0x06, 2, READER + WRITER + sn('be', number) + u('be', 4, 1) + u('be', 4, 2 ** 31) + u('be', 4, 1))], None, A)


def some_question(rng, source, dest, built_in):
    """a reader of endpoints asks for a number, or acknowledges some"""
    head, number, kind = READERS[built_in] + built_in, rng.choice([1, 1, 1, 2]), rng.random()
    if kind < 0.1:
        part = put('be', 0x12, 0, head + sn('be', number) + u('be', 4, 1) + u('be', 4, 1) + u('be', 4, 2 ** 31) + u('be', 4, 1))
    elif kind < 0.75:
        part = put('be', 0x06, 2, head + sn('be', number) + u('be', 4, 1) + u('be', 4, rng.choice([2 ** 31] * 4 + [0])) + u('be', 4, 1))
    else:
        part = answered(READERS[built_in], built_in, rng.choice([1, 1, 2, 3]))
    return message(rng, source, [part], None, dest)


class Late:
    """two participants, writers and readers of theirs of which they learn early or late, and what one pair says. What they announce has the source time at
    which it is said first, by clocks that mostly fit"""

    def __init__(self, rng):
        self.rng, self.sent, self.numbers = rng, {}, {}
        self.ahead = {prefix: rng.choice([0] * 8 + [SECOND // 10, -SECOND // 10, SECOND // 10 + 1, SECOND]) for prefix in (A, B)}
        self.octets = {A: 1, B: rng.choice([1, 2, 2])}
        self.ends = [(A, PUBLICATIONS, WRITER), (B, SUBSCRIPTIONS, READER)] + [(B, SUBSCRIPTIONS, b'\0\0\x09\4')] * rng.choice([0, 1])
        self.ends += [(A, SUBSCRIPTIONS, b'\0\0\x0a\4'), (B, PUBLICATIONS, b'\0\0\x0b\3')] * rng.choice([0, 0, 1])
        self.topics = {end: rng.choice([b'rt/scan', b'rt/scan', b'rt/map']) if end[2] not in (WRITER, READER) else b'rt/scan' for end in self.ends}

    def stamp(self, what, time):
        """the source time of what is announced"""
        return stamped(self.sent.setdefault(what, time) - self.ahead[what[0]])

    def host(self, time, prefix):
        where = [parameter('be', 0x50, prefix + PARTICIPANT), locator(self.octets[prefix])]
        return [message(self.rng, prefix, [data(PARTICIPANTS, 1, listed(where))], self.stamp((prefix,), time))]

    def tell(self, time, end):
        number = self.numbers.setdefault(end, 1 + sum(other[:2] == end[:2] for other in self.numbers))
        return announced_by(self.rng, *end, number, self.topics[end], self.stamp(end, time))

    def ask(self, time, end):
        return [some_question(self.rng, B if end[0] == A else A, *end[:2])]

    def word(self, time):
        return [some_word(self.rng)]

    def some_step(self):
        some = [(self.word,)] * 6 + [(self.ask, end) for end in self.ends[:2]] + [(self.tell, end) for end in self.ends[:2]]
        return self.rng.choice(some + [(self.host, self.rng.choice([A, B]))])

    def steps(self):
        """what is said, one after another: mostly who was told asks again, and is told again"""
        rng = self.rng
        steps = [(self.host, A), (self.host, B), *((self.tell, end) for end in self.ends)]
        if rng.random() < 0.3:
            rng.shuffle(steps)
        for end in self.ends:
            steps += [(self.ask, end), (self.tell, end)] if rng.random() < 0.6 else []
        for _ in range(rng.randrange(4, 16)):
            steps.insert(rng.randrange(len(steps) // 2, len(steps) + 1), self.some_step())
        return steps


def some_late(rng):
    """datagrams, each with its time in nanoseconds"""
    system, time, datagrams, times = Late(rng), 10 ** 9 * SECOND, [], []
    for say, *what in system.steps():
        for datagram in say(time, *what):
            datagrams.append(datagram)
            times.append(time if rng.random() < 0.99 else None)
            time += rng.choice([0, 0, 1, SECOND // 20, SECOND // 10, SECOND // 2, SECOND // 2, SECOND, SECOND + 1, 3 * SECOND])
    return datagrams, times


def some_told(rng):
    """a system of built-in endpoints alone, or one with a pair"""
    kind = rng.random()
    return some_system(rng) if kind < 0.2 else some_broken(rng) if kind < 0.6 else some_late(rng)
