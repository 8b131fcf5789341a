"""Random recordings, for comparisons with the second implementation: of any submessages, of what a writer and a reader say of few
numbers, of several topics, and of samples that are sent in fragments.
"""
from asked import GREATEST, Asked

A, B, C = b'\xaa' * 12, b'\xbb' * 12, b'\xcc' * 12


def u(order, width, value):
    return (value % 2 ** (8 * width)).to_bytes(width, 'big' if order == 'be' else 'little')


def sn(order, value):
    value %= 2 ** 64
    return u(order, 4, value >> 32) + u(order, 4, value)


def submessage(rng, sid, flags, body, order):
    length = len(body)
    if rng.random() < 0.03:
        length = rng.choice([0, length - 1, length + 1, rng.randrange(70)]) % 65536
    return bytes([sid, flags | (order == 'le')]) + u(order, 2, length) + body


def parameter(order, pid, value):
    return u(order, 2, pid) + u(order, 2, len(value)) + value


def some_text(rng, order):
    name = rng.choice([b'pose', b'pose', b'pose', b'Pose', b'a"\\\x01\xff', b''])
    text = u(order, 4, len(name) + 1) + name + b'\0'
    text += bytes(-len(text) % 4)
    return rng.choice([text] * 30 + [text[:3], u(order, 4, 0), u(order, 4, 99) + name, u(order, 4, len(name) + 1) + name + b'x'])


def some_announcement(rng, order):
    inner = rng.choice(['be', 'le'])
    what = rng.choice(['participant', 'writer', 'reader'])
    guid = rng.choice([A, B]) + {'participant': b'\0\0\x01\xc1', 'writer': b'\0\0\x01\x03', 'reader': b'\0\0\x01\x04'}[what]
    if rng.random() < 0.1:
        guid = rng.choice([A, B, C]) + rng.choice([b'\0\0\x01\x03', b'\0\0\x01\x04'])
    params = [parameter(inner, 0x50 if what == 'participant' else 0x5a, guid[:rng.choice([16] * 20 + [15])])]
    if what != 'participant':
        params += [parameter(inner, 5, some_text(rng, inner)), parameter(inner, 7, some_text(rng, inner))]
        if rng.random() < 0.8:
            params.append(parameter(inner, 0x1a, u(inner, 4, rng.choice([1, 2, 2, 2, 2, 2, 3])) + bytes(8)))
        if rng.random() < 0.4:
            params.append(parameter(inner, 0x1d, u(inner, 4, rng.choice([0, 0, 0, 1, 2, 3, 4]))))
    if rng.random() < 0.2:
        params.insert(rng.randrange(len(params) + 1), parameter(inner, rng.choice([0, 0x70, 0x5a, 5]), bytes(rng.randrange(9))))
    if rng.random() < 0.1:
        params.pop(rng.randrange(len(params)))
    tail = rng.choice([parameter(inner, 1, b'')] * 20 + [b'', b'\0\1'])
    kind = rng.choice([b'\0\2' if inner == 'be' else b'\0\3'] * 20 + [b'\0\0', b'\0'])
    payload = kind + bytes(2) + b''.join(params) + tail if len(kind) == 2 else kind
    entity = {'participant': b'\0\1\0\xc2', 'writer': b'\0\0\3\xc2', 'reader': b'\0\0\4\xc2'}[what]
    body = u(order, 2, 0) + u(order, 2, 16) + bytes(4) + entity + sn(order, 1) + payload
    return submessage(rng, 0x15, rng.choice([4, 4, 4, 4, 8]), body, order)


def some_set(rng, order, base):
    count = rng.choice([0, 0, 1, 2, 5, 33, 256, 257]) if base else rng.choice([0, 0, 0, 1])
    words = (count + 31) // 32
    return sn(order, base) + u(order, 4, count) + b''.join(u(order, 4, rng.getrandbits(32) & rng.getrandbits(32)) for _ in range(words))


def some_number(rng):
    return rng.choice([1, 1, 2, 2, 3, 3, 4, 5, 6]) if rng.random() < 0.97 else rng.choice([0, -1, GREATEST, GREATEST - 1, 2 ** 32])


def some_submessage(rng):
    order = rng.choice(['be', 'le'])
    reader = rng.choice([bytes(4), bytes(4), b'\0\0\1\4', b'\0\0\1\5'])
    writer = rng.choice([b'\0\0\1\3'] * 5 + [b'\0\0\1\2'])
    kind = rng.randrange(20)
    if kind < 6:
        flags = rng.choice([4, 4, 4, 4, 4, 0, 8, 6, 12])
        qos = b''
        if flags & 2:
            qos = parameter(order, 0x8001, bytes(rng.randrange(5))) + rng.choice([parameter(order, 1, b'')] * 5 + [b''])
        payload = bytes([rng.randrange(2)]) * rng.choice([8, 8, 8, 0, 3])
        body = u(order, 2, 0) + u(order, 2, rng.choice([16] * 30 + [15, 20, 40])) + reader + writer + sn(order, some_number(rng)) + qos + payload
        return submessage(rng, 0x15, flags, body, order)
    if kind < 9:
        first = some_number(rng)
        body = reader + writer + sn(order, first) + sn(order, first + rng.choice([-2, -1, 0, 0, 1, 2, 3])) + u(order, 4, rng.getrandbits(32))
        return submessage(rng, 0x07, rng.choice([0, 2, 4, 6]), body, order)
    if kind < 11:
        body = reader + writer + sn(order, some_number(rng)) + some_set(rng, order, max(0, some_number(rng)))
        return submessage(rng, 0x08, 0, body, order)
    if kind < 15:
        reader = rng.choice([b'\0\0\1\4'] * 6 + [b'\0\0\1\5'])
        body = reader + writer + some_set(rng, order, rng.choice([0, 1, 2, 2, 3, 3, 4, 5, 7])) + u(order, 4, rng.getrandbits(32))
        return submessage(rng, 0x06, rng.choice([0, 2]), body, order)
    if kind == 15:
        return submessage(rng, 0x09, rng.choice([0, 0, 2]), rng.choice([bytes(8), b'\0\0\0\5\x80\0\0\0', b'']), order)
    if kind == 16:
        return submessage(rng, 0x0e, 0, rng.choice([A, A, B, C, bytes(12), bytes(11)]), order)
    if kind == 17:
        return submessage(rng, 0x0c, 0, bytes(4) + b'\2\5\1\2' + rng.choice([A, B, C]), order)
    return submessage(rng, rng.choice([0x01, 0x80, 0x16, 0x12, 0x13, 0x0d, 0x0f, 0x00]), 0, bytes(rng.choice([0, 4, 8])), order)


def from_header(rng, prefix):
    header = b'RTPS\2\5\0\0' + prefix
    if rng.random() < 0.02:
        header = rng.choice([header[:19], b'RTPX' + header[4:], header[:4] + b'\1' + header[5:]])
    return header


def some_datagram(rng):
    kind = rng.random()
    if kind < 0.2:
        return from_header(rng, rng.choice([A, B])) + some_announcement(rng, rng.choice(['be', 'le']))
    if kind < 0.5:
        answers = b'\x0e\0\0\x0c' + A if rng.random() < 0.9 else b''
        return from_header(rng, B) + answers + b''.join(some_submessage(rng) for _ in range(rng.randrange(1, 3)))
    d = from_header(rng, A) + b''.join(some_submessage(rng) for _ in range(rng.randrange(1, 4)))
    return d[:rng.randrange(len(d))] if rng.random() < 0.03 else d


NAMES = b'\0\5\0\x0c\0\0\0\5pose\0\0\0\0\0\7\0\x0c\0\0\0\5Pose\0\0\0\0'


def announced(writer, prefix, entity, more, names=NAMES):
    value = b'\0\2\0\0' + b'\0\x5a\0\x10' + prefix + entity + names + more + b'\0\1\0\0'
    body = b'\0\0\0\x10' + bytes(4) + writer + bytes(7) + b'\1' + value
    return b'RTPS\2\5\0\0' + prefix + b'\x15\4' + len(body).to_bytes(2, 'big') + body


RELIABLE = b'\0\x1a\0\x0c\0\0\0\2' + bytes(8)
START = [announced(b'\0\0\3\xc2', A, b'\0\0\1\3', b''), announced(b'\0\0\4\xc2', B, b'\0\0\1\4', RELIABLE)]


def some_recording(rng):
    datagrams = [some_datagram(rng) for _ in range(rng.randrange(8))]
    for d in reversed(START) if rng.random() < 0.9 else []:
        # Mostly the two are announced first, and sometimes behind what they say.
        datagrams.insert(0 if rng.random() < 0.6 else rng.randrange(len(datagrams) + 1), d)
    lines = []
    for d in datagrams:
        line = d.hex().encode()
        if rng.random() < 0.1:
            line = line.upper()
        if rng.random() < 0.004:
            line = rng.choice([line[:-1], line + b'g0', b'\r' + line, line + b'\r\r'])
        lines.append(line + rng.choice([b'\n', b'\n', b'\r\n']))
        if rng.random() < 0.1:
            lines.append(rng.choice([b'\n', b'# a comment\n', b'\r\n']))
    text = b''.join(lines)
    return text[:-1] if text and rng.random() < 0.1 else text


class Told:
    """a writer and a reader that speak of few numbers, as a random recording has it. What the reader answers is mostly true,
    and what is lost on the way is as if it never came"""
    def __init__(self, rng, writer=b'\0\0\1\3', reader=b'\0\0\1\4', in_fragments=False, most=4):
        self.rng, self.first, self.last, self.held, self.most = rng, 1, 0, set(), most
        self.writer, self.reader = writer, reader
        self.in_fragments, self.sent, self.asked = in_fragments, {}, 0
        self.answers, self.skips, self.fragments = rng.choice([0, 0, 0, -3]), rng.choice([0, 0.1, 0.4]), rng.choice([0, 0, 0.1, 0.4])

    def counted(self):
        """the next count of a HEARTBEAT"""
        self.asked += 1
        return u('be', 4, self.asked)

    def counted_answer(self):
        """the next count of an ACKNACK; now and then some are left out, as if the answers that have them were lost, or it goes back"""
        left_out = self.rng.choice([1] * 6 + [2, 2, 3, 2 ** 31 - 1, 2 ** 31, -1, -2]) if self.rng.random() < self.skips else 0
        self.answers += 1 + left_out
        return u('be', 4, self.answers)

    def submessage(self, sid, flags, *parts):
        reader = self.rng.choice([bytes(4), bytes(4), self.reader] if sid not in (0x06, 0x12) else [self.reader])
        before = {0x15: b'\0\0\0\x10', 0x16: b'\0\0\0\x1c'}.get(sid, b'')
        body = before + reader + self.writer + b''.join(parts)
        return bytes([sid, flags]) + u('be', 2, len(body)) + body

    def take(self, numbers):
        if self.rng.random() < 0.7:
            self.held |= set(numbers)

    def data(self, n):
        if self.in_fragments and self.rng.random() < 0.7:
            return self.data_frags(n)
        self.take([n])
        flags, payload = (4, b'\0\0\0\0abcd') if self.rng.random() < 0.97 else (self.rng.choice([0, 4, 8]), b'\0\0\0\0ef')
        return self.submessage(0x15, flags, sn('be', n), payload if flags else b'')

    def data_frags(self, n):
        """a sample in fragments, which now and then lacks some; the reader takes it when each was sent"""
        sample = b'\0\0\0\0abcd'
        size = self.rng.choice([3, 4, 4, 8])
        last = (len(sample) + size - 1) // size
        numbers = [i for i in range(1, last + 1) if self.rng.random() < 0.85]
        if self.rng.random() < 0.2:
            self.rng.shuffle(numbers)
        sent = self.sent.setdefault((n, size), set())
        sent |= set(numbers)
        if len(sent) == last:
            self.take([n])
        return b''.join(self.data_frag(n, i, size, sample) for i in numbers)

    def data_frag(self, n, i, size, sample):
        octets = sample[(i - 1) * size:i * size]
        if self.rng.random() < 0.01:
            octets = octets[:-1] + b'x'
        return self.submessage(0x16, 0, sn('be', n), u('be', 4, i), u('be', 2, 1), u('be', 2, size), u('be', 4, len(sample)), octets)

    def heartbeat(self):
        self.take(range(1, min(self.first, 20)))
        return self.submessage(0x07, self.rng.choice([0, 0, 0, 2]), sn('be', self.first), sn('be', max(self.last, self.first - 1)), self.counted())

    def gap(self):
        start, base = sorted(self.rng.randrange(1, 5) for _ in range(2))
        listed = {base + i for i in range(2) if self.rng.random() < 0.3}
        self.take({*range(start, base), *listed})
        return self.submessage(0x08, 0, sn('be', start), self.set_of(base, listed))

    @staticmethod
    def set_of(base, numbers):
        bits = sum(1 << 31 - (n - base) for n in numbers)
        return sn('be', base) + (u('be', 4, 8) + u('be', 4, bits) if numbers else u('be', 4, 0))

    def answer(self):
        base = 1
        while base in self.held:
            base += 1
        if self.rng.random() < 0.1:
            base = self.rng.randrange(1, 6)
        lacked = {n for n in range(base, max(self.last + 1, base)) if n not in self.held and self.rng.random() < 0.8}
        if self.rng.random() < 0.05:
            lacked = {n for n in range(base, base + 3) if self.rng.random() < 0.5}
        return self.submessage(0x06, self.rng.choice([0, 2]), self.set_of(base, lacked), self.counted_answer())

    def nack_frag(self):
        number = self.rng.randrange(1, self.last + 2)
        return self.submessage(0x12, 0, sn('be', number), u('be', 4, 1), u('be', 4, 0), self.counted())

    def said_by_reader(self):
        """an answer, sometimes with a request for fragments beside it, or that alone, by which some readers count an answer, too"""
        if self.rng.random() >= self.fragments:
            return self.answer()
        if self.rng.random() < 0.4:
            return self.rng.choice([self.answer() + self.nack_frag(), self.nack_frag() + self.answer()])
        self.answers += self.rng.choice([0, 1, 1])
        return b''.join(self.nack_frag() for _ in range(self.rng.choice([1, 1, 2])))

    def next(self):
        """the next submessage, and whether the writer says it"""
        kind = self.rng.random()
        if kind < 0.3 and self.last < self.most:
            self.last += 1
            if self.rng.random() < 0.1:
                return self.heartbeat(), True
            return self.data(self.last), True
        if kind < 0.5 and self.first <= self.last:
            return self.data(self.rng.randrange(self.first, self.last + 1)), True
        if kind < 0.62:
            if self.rng.random() < 0.5 and self.first <= self.last:
                self.first += 1
            return self.heartbeat(), True
        return (self.gap(), True) if kind < 0.67 else (self.said_by_reader(), False)


def to_another_writer(rng):
    """an ACKNACK of the reader to a writer of another participant or of another name, or to everyone, or of another reader"""
    told, dest = Told(rng, *rng.choice([(b'\0\0\1\2',), (b'\0\0\1\2',), (), (b'\0\0\1\3', b'\0\0\1\5')])), rng.choice([A, A, C, b''])
    return b'RTPS\2\5\0\0' + B + (b'\x0e\0\0\x0c' + dest if dest else b'') + told.answer()


def some_delivery(rng, in_fragments=False, most=18):
    """what a writer and a reader say of the numbers 1 to 4, or to more in a long one, with resends, first numbers that move on, GAPs and
    what is asked for"""
    told, datagrams = Told(rng, in_fragments=in_fragments, most=max(4, most // 5)), []
    for _ in range(rng.randrange(most // 6, most)):
        octets, by_writer = told.next()
        prefix, dest = (A, rng.choice([b'', b'', b'\x0e\0\0\x0c' + B])) if by_writer else (B, b'\x0e\0\0\x0c' + A)
        if datagrams and rng.random() < 0.25 and datagrams[-1][8:20] == prefix:
            datagrams[-1] += dest + octets
        else:
            datagrams.append(b'RTPS\2\5\0\0' + prefix + dest + octets)
    if rng.random() < 0.1:
        datagrams.insert(rng.randrange(len(datagrams) + 1), to_another_writer(rng))
    for d in START if rng.random() < 0.5 else START[:1]:
        datagrams.insert(0 if rng.random() < 0.7 else rng.randrange(len(datagrams) + 1), d)
    if START[1] not in datagrams:
        datagrams.insert(rng.randrange(len(datagrams) + 1), START[1])
    return datagrams


TOPICS = b'pose', b'rt/odom', b'rt/odom', b'rt/scan', b'odom', b'/odom', b'a*b', b'aXbYbZc', b'', b'rt/\xff\x0a', b'rq/xRequest', b'rr/xReply', b'rq/xReply'
NODES = '*', '*', '/*', '/talker', '*cam', '/ns/*', '/', 'talker', '', '/x*'
PATTERNS = '*', '**', 'rt/*', '/*', '*/odom', '/odom', '*odom', 'a*b', 'a*b*c', 'pose', 'p*e', '', 'rt', '*o*o*', 'rt/*\n', 'a*bc', '* request', '/x reply', 'rq/*t'


def names_of(topic):
    """the parameters of a topic, and of its type"""
    text = (len(topic) + 1).to_bytes(4, 'big') + topic + b'\0'
    text += bytes(-len(text) % 4)
    return b'\0\5' + len(text).to_bytes(2, 'big') + text + NAMES[16:]


def some_network(rng):
    """some writers and readers of several topics in up to three participants, what they announce, and what they say of the
    numbers 1 to 4. Some name the participant that they speak to, and some do not"""
    datagrams, ends = [], []
    topics = [rng.choice(TOPICS) for _ in range(rng.randrange(1, 4))]
    for k in range(rng.randrange(2, 7)):
        prefix, topic, reads = rng.choice([A, B, B, C]), rng.choice(topics), rng.random() < 0.5
        entity = bytes([0, 0, k + 1, 4 if reads else 3])
        more = RELIABLE if reads else b''
        ends.append((prefix, entity, topic, reads))
        datagrams += some_announced(rng, announced(b'\0\0\4\xc2' if reads else b'\0\0\3\xc2', prefix, entity, more, names_of(topic)))
        if rng.random() < 0.03:
            datagrams.append(announced(b'\0\0\4\xc2', prefix, entity, more, names_of(rng.choice(TOPICS))))
    for w in ends:
        for r in ends:
            if w[3] or not r[3] or w[2] != r[2] or rng.random() < 0.2:
                continue
            told, named = Told(rng, w[1], r[1], rng.random() < 0.4), rng.random() < 0.7
            for _ in range(rng.randrange(1, 12)):
                octets, by_writer = told.next()
                source, dest = (w[0], r[0]) if by_writer else (r[0], w[0])
                names = b'\x0e\0\0\x0c' + dest if named and (not by_writer or rng.random() < 0.5) else b''
                datagrams.insert(rng.randrange(len(datagrams) + 1) if rng.random() < 0.05 else len(datagrams), b'RTPS\2\5\0\0' + source + names + octets)
    if rng.random() < 0.1:
        datagrams.append(b'RTPS\2\5\0\0' + rng.choice([A, B]) + bytes([rng.choice([0x16, 0x12, 0x80]), 0, 0, 4]) + bytes(4))
    return datagrams


# ---- samples that are sent in fragments

SHAPES = [(8, 4), (8, 4), (8, 8), (8, 3), (7, 4), (7, 7), (5, 2), (4, 4), (4, 9), (3, 1), (1, 1), (2, 1)]


def true_sample(n, size):
    """what the writer sends for n, where nothing is changed: equal in every shape of this size"""
    return bytes(7 * [0] + [n])[-size:] if size < 8 else bytes(7) + bytes([n])


def put(order, sid, flags, body):
    return bytes([sid, flags | (order == 'le')]) + u(order, 2, len(body)) + body


READERS = B + b'\0\0\1\4', B + b'\0\0\1\5', C + b'\0\0\1\4'
OTHER_READERS = [announced(b'\0\0\4\xc2', guid[:12], guid[12:], RELIABLE) for guid in READERS[1:]]


class Pieces:
    """submessages by chance, most of them DATA_FRAG, of few numbers and few shapes"""

    def __init__(self, rng):
        self.rng = rng
        self.shapes = rng.choices(SHAPES, k=rng.choice([1, 1, 1, 2, 2, 3]))
        self.numbers = rng.choice([[1], [1], [1, 2], [1, 2], [1, 2, 3]])
        self.key = rng.choice([0, 0, 0, 0, 0, 4])

    def order(self):
        return self.rng.choice(['be', 'be', 'be', 'le'])

    def entity(self):
        return self.rng.choice([bytes(4)] * 6 + [b'\0\0\1\4', b'\0\0\1\4', b'\0\0\1\5'])

    def writer(self):
        return self.rng.choice([b'\0\0\1\3'] * 30 + [b'\0\0\1\2'])

    def changed(self, octets):
        """mostly as they are, sometimes with another octet"""
        if self.rng.random() < 0.88 or not octets:
            return octets
        at = self.rng.randrange(len(octets))
        return octets[:at] + bytes([octets[at] ^ self.rng.choice([1, 1, 2])]) + octets[at + 1:]

    def piece(self):
        rng, order = self.rng, self.order()
        sample, size = rng.choice(self.shapes)
        last = (sample + size - 1) // size
        start = rng.randint(1, last)
        count = rng.randint(1, last + 1 - start) if rng.random() < 0.4 else 1
        n = rng.choice(self.numbers)
        octets = self.changed(true_sample(n, sample)[(start - 1) * size:(start + count - 1) * size])
        key = self.key if rng.random() < 0.9 else rng.choice([0, 4])
        return self.data_frag(order, key, n, start, count, size, sample, octets + bytes(rng.choice([0] * 9 + [1])), self.writer())

    def data_frag(self, order, key, n, start, count, size, sample, octets, writer):
        """mostly a piece as these say; sometimes one field is another or the submessage is cut"""
        rng, offset, qos = self.rng, 28, b''
        if rng.random() < 0.06:
            fault = rng.randrange(9)
            n = rng.choice([0, -1]) if fault == 0 else n
            start = rng.choice([0, start + 1, 2 ** 32 - 1]) if fault == 1 else start
            count = rng.choice([0, count + 1, 2 ** 16 - 1]) if fault == 2 else count
            size = rng.choice([0, size + 1, 2 ** 16 - 1]) if fault == 3 else size
            sample = rng.choice([0, sample + 1, max(1, sample - 1), 2 ** 32 - 1]) if fault == 4 else sample
            offset = rng.choice([0, 16, 27, 29, 32, 60]) if fault == 5 else offset
            octets = octets[:-1] if fault == 6 else octets
            qos = rng.choice([b'\0', bytes(4), b'\0\5\0\4']) if fault == 7 else qos
        elif rng.random() < 0.08:
            qos = parameter(order, 0x71, bytes(rng.randrange(5))) + parameter(order, 1, b'')
        gap = bytes(4) if offset == 28 and rng.random() < 0.03 else b''
        body = u(order, 2, 0) + u(order, 2, offset + len(gap)) + self.entity() + writer + sn(order, n)
        body += u(order, 4, start) + u(order, 2, count) + u(order, 2, size) + u(order, 4, sample) + gap + qos + octets
        body = body[:rng.randrange(36)] if rng.random() < 0.005 else body
        return put(order, 0x16, key | (2 if qos else 0) | rng.choice([0, 0, 0, 8]), body)

    def data(self):
        order, n = self.order(), self.rng.choice(self.numbers)
        payload = self.changed(true_sample(n, self.rng.choice(self.shapes)[0]))
        flags = self.rng.choice([4] * 12 + [8, 0])
        return put(order, 0x15, flags, u(order, 2, 0) + u(order, 2, 16) + self.entity() + self.writer() + sn(order, n) + payload)

    def heartbeat(self):
        order, first = self.order(), self.rng.choice([1, 1, 1, 1, 2, 3])
        last = max(0, first - 1 + self.rng.choice([0, 1, 1, 2, 3]))
        return put(order, 7, 0, self.entity() + self.writer() + sn(order, first) + sn(order, last) + u(order, 4, 1))

    def gap(self):
        order, start = self.order(), self.rng.choice([1, 2, 3])
        base = start + self.rng.choice([0, 0, 1])
        bits = self.rng.choice([0, 0, 1 << 31, 1 << 30])
        numbers = sn(order, start) + sn(order, base) + u(order, 4, 2) + u(order, 4, bits)
        return put(order, 8, 0, self.entity() + self.writer() + numbers)

    def to(self):
        return put(self.order(), 0x0e, 0, self.rng.choice([B, B, C, bytes(12)]))

    def other(self):
        return put('be', self.rng.choice([0x12, 0x13, 0x80]), 0, bytes(self.rng.choice([4, 8])))

    def by_writer(self):
        kinds = [self.piece] * 26 + [self.data] * 3 + [self.heartbeat, self.gap] + [self.to] * 5 + [self.other]
        parts = [self.rng.choice(kinds)() for _ in range(self.rng.choice([1, 1, 2, 2, 3, 4]))]
        return b'RTPS\2\5\0\0' + A + b''.join(parts)

    def whole(self):
        """each fragment of one sample, in some order, in a datagram or two"""
        rng, order = self.rng, self.order()
        sample, size = rng.choice(self.shapes)
        last, n = (sample + size - 1) // size, rng.choice(self.numbers)
        parts = []
        for start in range(1, last + 1):
            octets = self.changed(true_sample(n, sample)[(start - 1) * size:start * size])
            parts.append(self.data_frag(order, self.key, n, start, 1, size, sample, octets, b'\0\0\1\3'))
        rng.shuffle(parts)
        cut = rng.choice([0, 0, rng.randrange(last)])
        to = put('be', 0x0e, 0, rng.choice([B, B, C])) if rng.random() < 0.25 else b''
        sent = [b'RTPS\2\5\0\0' + A + b''.join(parts[:cut]), b'RTPS\2\5\0\0' + A + to + b''.join(parts[cut:])]
        return sent if cut else sent[1:]

    def by_reader(self):
        reader, order = self.rng.choice([*READERS[:1] * 4, *READERS]), self.order()
        base = self.rng.choice([0, 1, 2, 2, 2, 3, 3, 4])
        answer = put(order, 6, 0, reader[12:] + b'\0\0\1\3' + sn(order, base) + u(order, 4, 0) + u(order, 4, 1))
        return b'RTPS\2\5\0\0' + reader[:12] + put(order, 0x0e, 0, A) + answer


def some_announced(rng, d, part=0.15):
    """a datagram with an announcement in a DATA, sometimes in fragments: with their octets changed, or one of them absent"""
    if rng.random() > part:
        return [d]
    payload, writer, pieces = d[44:], d[32:36], Pieces(rng)
    size = rng.choice([len(payload), 16, 40, 60])
    last = (len(payload) + size - 1) // size
    parts = []
    for start in range(1, last + 1):
        octets = payload[(start - 1) * size:start * size]
        if rng.random() < 0.04:
            parts.append((1, start, 1, size, len(payload), pieces.changed(octets[:-1] + bytes([octets[-1] ^ 1]))))
        if rng.random() < 0.98:
            parts.append((1, start, 1, size, len(payload), octets))
    rng.shuffle(parts)
    sent = [pieces.data_frag('be', rng.choice([0] * 30 + [4]), *one, writer) for one in parts]
    cut = rng.choice([0, 0, rng.randrange(len(sent) + 1)])
    return [d[:20] + b''.join(some) for some in (sent[:cut], sent[cut:]) if some]


def some_pieces(rng):
    """what a writer sends in fragments, or whole, and what readers answer"""
    some, datagrams = Pieces(rng), []
    for _ in range(rng.randint(1, 6)):
        kind = rng.random()
        datagrams += some.whole() if kind < 0.3 else [some.by_writer() if kind < 0.65 else some.by_reader()]
    for at in range(len(datagrams) - 1, 0, -1):
        if rng.random() < 0.15:  # both in one datagram, the second by INFO_SRC
            d = datagrams.pop(at)
            source = put('be', 0x0c, 0, bytes(4) + b'\2\5\0\0' + d[8:20])
            datagrams[at - 1] += source + rng.choice([b'', put('be', 0x0e, 0, bytes(12))]) + d[20:]
    known = START if rng.random() < 0.95 else []
    for d in known + [reader for reader in OTHER_READERS if rng.random() < 0.3]:
        at = 0 if rng.random() < 0.8 else rng.randrange(len(datagrams) + 1)
        datagrams[at:at] = some_announced(rng, d, 0.4)
    return datagrams


# ---- readers that come and go

DURABLE = b'\0\x1d\0\4\0\0\0\1'


def leaving(rng, guid, order='be'):
    """a DATA that says that a reader, or its participant, leaves; sometimes it says no such thing, or of another one"""
    whole = rng.random() < 0.4
    writer, pid = (b'\0\1\0\xc2', 0x50) if whole else (b'\0\0\4\xc2', 0x5a)
    key = guid[:12] + b'\0\0\1\xc1' if whole else guid
    key = rng.choice([key] * 12 + [C + key[12:], key[:15] + b'\x09'])
    pid = rng.choice([pid] * 12 + [0x50, 0x5a, 0x70])
    status = bytes(3) + bytes([rng.choice([3, 3, 3, 1, 2, 0, 4])])
    status = rng.choice([status] * 12 + [status[1:], status + b'\0', status + bytes(4), b'\3\0\0\0'])
    inline, payload, flags = [parameter(order, 0x71, status)] if rng.random() < 0.97 else [], b'', 2
    in_payload = rng.random() < 0.5
    if in_payload:
        found = parameter(order, pid, key if rng.random() < 0.95 else key[:12])
        payload = (b'\0\2' if order == 'be' else b'\0\3') + bytes(2) + found + (parameter(order, 1, b'') if rng.random() < 0.95 else b'')
        payload = rng.choice([payload] * 20 + [b'\0\1' + payload[2:], b'\0'])
        flags |= rng.choice([8, 8, 8, 4])
    if not in_payload or rng.random() < 0.2:
        inline.insert(rng.randrange(len(inline) + 1), parameter(order, 0x70, rng.choice([key] * 8 + [key[:12], C + key[12:]])))
    if rng.random() < 0.1:
        inline.append(parameter(order, 0x71, bytes(4)))
    body = bytes(2) + u(order, 2, 16) + bytes(4) + writer + sn(order, rng.randrange(1, 9)) + b''.join(inline) + parameter(order, 1, b'') + payload
    source = rng.choice([guid[:12]] * 14 + [A, C])
    return b'RTPS\2\5\0\0' + source + (b'\x0e\0\0\x0c' + A if rng.random() < 0.3 else b'') + put(order, 0x15, flags, body)


def nack_frag(rng, n):
    """a NACK_FRAG, which sometimes cannot be read"""
    order, count = rng.choice(['be', 'be', 'le']), rng.choice([0, 1, 2, 33, 256, 257])
    base = rng.choice([1, 1, 2, 5, 0])
    body = b'\0\0\1\4' + b'\0\0\1\3' + sn(order, rng.choice([n] * 15 + [0, -1])) + u(order, 4, base) + u(order, 4, count)
    body += b''.join(u(order, 4, rng.getrandbits(32)) for _ in range((count + 31) // 32)) + u(order, 4, 1)
    return put(order, 0x12, 0, body[:rng.choice([len(body)] * 15 + [len(body) - 1, 10])])


def by_writer(octets, dest=b''):
    return b'RTPS\2\5\0\0' + A + (b'\x0e\0\0\x0c' + dest if dest else b'') + octets


def irrelevant(rng):
    """what a writer tells a reader that has just joined: a GAP or two, and sometimes up to the greatest number"""
    told, datagrams = Told(rng), []
    for _ in range(rng.choice([1, 1, 2])):
        base = rng.choice([2, 3, 3, 4, 5]) if rng.random() < 0.97 else GREATEST
        gap = told.submessage(0x08, 0, sn('be', rng.choice([1, 1, 1, base])), told.set_of(base, {base} if rng.random() < 0.3 else set()))
        datagrams.append(by_writer(gap, rng.choice([B, B, B, C])))
    return datagrams


def greatest_of_all(rng):
    """a writer announces the greatest number"""
    told = Told(rng)
    told.first, told.last = rng.choice([1, GREATEST]), GREATEST
    return by_writer(told.heartbeat() if rng.random() < 0.8 else told.data(GREATEST))


def outage(rng):
    """for a while no answer comes, and the writer asks again, until it has dropped what it asked about"""
    told = Told(rng)
    told.last = rng.randrange(1, 5)
    asked = [by_writer(told.heartbeat()) for _ in range(rng.randrange(1, 4))]
    told.first = rng.randrange(1, 6)
    return asked + [by_writer(told.heartbeat())]


def tail(rng):
    """what a writer sends, and nobody acknowledges"""
    told = Told(rng)
    told.last = rng.randrange(4, 8)
    return [by_writer(told.data(n)) for n in range(4, told.last + 1)] + ([by_writer(told.heartbeat())] if rng.random() < 0.3 else [])


def some_life(rng, most=18):
    """a delivery to a reader that joins late, mostly, and leaves, mostly, and that asks for fragments"""
    delivery = some_resends(rng) if rng.random() < 0.25 else some_delivery(rng, rng.random() < 0.5, most)
    datagrams = [d for d in delivery if d[32:36] != b'\0\0\4\xc2']
    guid, more = B + b'\0\0\1\4', RELIABLE + rng.choice([b'', b'', DURABLE])
    writer = announced(b'\0\0\3\xc2', A, b'\0\0\1\3', DURABLE)
    datagrams = [writer if d == START[0] else d for d in datagrams]
    if rng.random() < 0.4:
        lo = rng.randrange(len(datagrams))
        datagrams[lo:lo + 9] = [d for d in datagrams[lo:lo + 9] if d[8:20] != B] + outage(rng)
    for _ in range(rng.choice([0, 0, 1, 2])):
        d = b'RTPS\2\5\0\0' + B + b'\x0e\0\0\x0c' + rng.choice([A] * 9 + [C]) + nack_frag(rng, rng.randrange(1, 5))
        datagrams.insert(rng.randrange(len(datagrams) + 1), d)
    at = rng.randrange(len(datagrams) // 2 + 1)
    joins = some_announced(rng, announced(b'\0\0\4\xc2', B, b'\0\0\1\4', more), 0.1)
    joins = ([greatest_of_all(rng)] if rng.random() < 0.1 else []) + joins + (irrelevant(rng) if rng.random() < 0.3 else [])
    datagrams[at:at] = joins
    for _ in range(rng.choice([0, 0, 0, 1, 1, 1, 2])):
        at = rng.randrange(len(datagrams) // 2, len(datagrams) + 1) if rng.random() < 0.9 else rng.randrange(len(datagrams) + 1)
        datagrams.insert(at, leaving(rng, guid, rng.choice(['be', 'le'])))
    if rng.random() < 0.1:
        datagrams.append(announced(b'\0\0\4\xc2', B, b'\0\0\1\4', more))
    datagrams += tail(rng) if rng.random() < 0.2 else []
    for at in range(len(datagrams) - 1, 0, -1):
        if rng.random() < 0.1 and datagrams[at][8:20] == datagrams[at - 1][8:20]:
            datagrams[at - 1] += datagrams.pop(at)[20:]
    return datagrams


def answered(octets):
    return b'RTPS\2\5\0\0' + B + b'\x0e\0\0\x0c' + A + octets


def some_outage(rng):
    """a writer that asks about some numbers and mostly gets no answer, until it drops them, or until the end"""
    told, more = Told(rng), RELIABLE + rng.choice([b'', DURABLE])
    datagrams = [START[0], announced(b'\0\0\4\xc2', B, b'\0\0\1\4', more)]
    for n in range(1, rng.randrange(2, 6)):
        told.last = n
        datagrams.append(by_writer(told.data(n)))
        datagrams += [by_writer(told.heartbeat()) for _ in range(rng.choice([1, 1, 2]))]
        datagrams += [answered(told.answer())] if rng.random() < 0.08 else []
    if rng.random() < 0.8:
        told.first = rng.randrange(2, told.last + 2)
        datagrams.append(by_writer(told.heartbeat()))
    datagrams += [answered(told.answer())] if rng.random() < 0.8 else []
    return datagrams + [by_writer(told.heartbeat()) for _ in range(rng.choice([0, 0, 1, 2]))]


def set_of_any(base, numbers):
    """a number set of numbers up to 255 above its base"""
    count = max([n - base + 1 for n in numbers], default=0)
    words = [sum(1 << 31 - (n - base) % 32 for n in numbers if (n - base) // 32 == k) for k in range((count + 31) // 32)]
    return sn('be', base) + u('be', 4, count) + b''.join(u('be', 4, word) for word in words)


def some_ranges(rng):
    """many numbers, of which some are not sent, and of the others some are asked for in vain, or about in vain until they are dropped: many ranges"""
    told, last = Told(rng), rng.randrange(20, 120)
    sent = [n for n in range(1, last + 1) if rng.random() < 0.7]
    lacked = [n for n in range(1, last + 1) if rng.random() < rng.choice([0.1, 0.5])]
    datagrams = [START[0], announced(b'\0\0\4\xc2', B, b'\0\0\1\4', RELIABLE + rng.choice([b'', DURABLE]))]
    datagrams += [by_writer(told.data(n)) for n in sent]
    told.last = last
    datagrams += [by_writer(told.heartbeat()) for _ in range(rng.randrange(3))]
    base = rng.randrange(1, 4)
    datagrams.append(answered(told.submessage(0x06, 0, set_of_any(base, [n for n in lacked if n >= base]), told.counted_answer())))
    datagrams += [by_writer(told.data(n)) for n in lacked if rng.random() < 0.5]
    told.first = rng.randrange(1, last + 2)
    datagrams.append(by_writer(told.heartbeat()))
    base = rng.choice([told.first, last + 1])
    return datagrams + ([answered(told.submessage(0x06, 0, set_of_any(base, []), told.counted_answer()))] if rng.random() < 0.7 else [])


def some_resends(rng):
    """rounds in which a reader asks for numbers and these are sent again, until it claims all; some of its answers are left out, it asks for
    fragments too, and sometimes it answers another writer"""
    told, last, base = Told(rng, in_fragments=rng.random() < 0.2), rng.randrange(2, 7), 1
    told.skips = rng.choice([0.2, 0.5, 0.8])
    datagrams = [by_writer(told.data(n)) for n in range(1, last + 1)]
    told.last = last
    datagrams += [by_writer(told.heartbeat()) for _ in range(rng.choice([1, 1, 1, 2, 3]))]
    if rng.random() < 0.3:
        told.first = rng.randrange(2, last + 2)
        datagrams.append(by_writer(told.heartbeat()))
    for _ in range(rng.randrange(1, 4)):
        lacked = {n for n in range(base, last + 1) if rng.random() < 0.5}
        datagrams.append(answered(told.submessage(0x06, 0, set_of_any(base, lacked), told.counted_answer())))
        told.first = rng.choice([told.first, rng.randrange(told.first, last + 2), last + 1])
        said = [by_writer(told.data(n)) for n in sorted(lacked) if rng.random() < 0.8] + [by_writer(told.heartbeat())]
        for one in [answered(told.nack_frag()) for _ in range(rng.choice([0, 0, 0, 1, 2]))]:
            said.insert(rng.randrange(len(said) + 1), one)
        datagrams += said
        base = rng.choice([base, base, base, *range(base, last + 2)])
    datagrams += [answered(told.submessage(0x06, 0, set_of_any(n, set()), told.counted_answer())) for n in [last + 1] * rng.choice([0, 1, 1, 1, 1, 2])]
    if rng.random() < 0.15:
        datagrams.insert(rng.randrange(len(datagrams) + 1), to_another_writer(rng))
    for at in range(len(datagrams) - 1, 0, -1):
        if rng.random() < 0.15 and datagrams[at][8:20] == datagrams[at - 1][8:20]:
            datagrams[at - 1] += datagrams.pop(at)[20:]
    return [START[0], announced(b'\0\0\4\xc2', B, b'\0\0\1\4', RELIABLE + rng.choice([b'', DURABLE]))] + datagrams


def some_two_ways(rng):
    """two participants with a writer and a reader each, which say what they have to say at one time"""
    ends = [(A, B, b'\0\0\1\3', b'\0\0\1\4'), (B, A, b'\0\0\2\3', b'\0\0\2\4')]
    datagrams = [announced(b'\0\0\3\xc2', w, writer, b'') for w, _, writer, _ in ends]
    datagrams += [announced(b'\0\0\4\xc2', r, reader, RELIABLE) for _, r, _, reader in ends]
    told = [Told(rng, writer, reader, most=12) for _, _, writer, reader in ends]
    for _ in range(rng.randrange(40, 90)):
        k = rng.randrange(2)
        octets, by_the_writer = told[k].next()
        source, dest = ends[k][:2] if by_the_writer else ends[k][1::-1]
        datagrams.append(b'RTPS\2\5\0\0' + source + (b'\x0e\0\0\x0c' + dest if not by_the_writer or rng.random() < 0.5 else b'') + octets)
    return datagrams


# ---- what is asked

def tells_nodes(octets):
    """whether a text or a capture seems to have nodes of ROS 2"""
    topic = b'ros_discovery_info'
    return topic in octets or topic.hex().encode() in octets


def some_asked(rng, octets=b''):
    """what may be asked of a report of these octets"""
    topics = [rng.choice(PATTERNS) for _ in range(rng.choice([0] * 6 + [1, 1, 2, 3]))]
    nodes = [rng.choice(NODES) for _ in range(rng.choice([0, 0, 0, 0, 1, 2] if tells_nodes(octets) else [0] * 30 + [1]))]
    return Asked(rng.choice([1, 1, 1, 2, 3, 5]), topics, rng.choice([None, None, None, 0, 1, 2, 3, GREATEST]), tail=rng.choice([0, 0, 1, 2, 5]),
                 certain=rng.random() < 0.2, nodes=nodes)


def some_input(rng):
    """a recording text of one of four kinds"""
    kind = rng.random()
    if kind < 0.3:
        return some_recording(rng)
    if kind < 0.55:
        return text_of_datagrams(some_pieces(rng))
    return text_of_datagrams(some_delivery(rng, rng.random() < 0.5) if kind < 0.75 else some_network(rng))


def text_of_datagrams(datagrams):
    return b''.join(d.hex().encode() + b'\n' for d in datagrams)
