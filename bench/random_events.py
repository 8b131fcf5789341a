"""Random recordings of participants of which some lose numbers together: events of several pairs, of which two may be equally bad. Some participants fall
silent, while others ask them.
"""
from random_ends import PREFIXES, some_nodes, some_participant
from random_recordings import RELIABLE, Told, announced, leaving, names_of, set_of_any, sn, some_announced

TOPICS = b'rt/odom', b'rt/scan', b'rt/map', b'pose', b'rt/odom'

# ---- what a writer and a reader say, by what comes of it


def asked_in_vain(rng, told, last):
    """some numbers are asked for, and not sent again"""
    lacked = {n for n in range(1, last + 1) if rng.random() < 0.5} or {1}
    yield from ((told.data(n), True) for n in range(1, last + 1))
    yield told.heartbeat(), True
    yield told.submessage(0x06, 0, set_of_any(1, lacked), told.counted_answer()), False


def not_sent(rng, told, last):
    """some numbers are acknowledged, of which nothing is here"""
    yield from ((told.data(n), True) for n in range(1, last + 1) if rng.random() < 0.6)
    told.first = rng.choice([1, last + 1])
    yield told.heartbeat(), True
    yield told.submessage(0x06, 0, set_of_any(last + 1, set()), told.counted_answer()), False


def dropped(_, told, last):
    """numbers are asked about, and told gone before an answer comes"""
    for n in range(1, last + 1):
        told.last = n
        yield told.data(n), True
    yield told.heartbeat(), True
    yield told.heartbeat(), True
    told.first = last + 1
    yield told.heartbeat(), True
    yield told.submessage(0x06, 0, set_of_any(last + 1, set()), told.counted_answer()), False


def asked_again(rng, told, last):
    """the reader answers once, or never, and is asked until the end"""
    answer = rng.randrange(last + 1)
    for n in range(1, last + 1):
        told.last = n
        yield told.data(n), True
        yield told.heartbeat(), True
        if n == answer:
            yield told.submessage(0x06, 0, set_of_any(n + 1, set()), told.counted_answer()), False
    yield told.heartbeat(), True


def whole(_, told, last):
    """all is acknowledged"""
    yield from ((told.data(n), True) for n in range(1, last + 1))
    yield told.heartbeat(), True
    yield told.submessage(0x06, 0, set_of_any(last + 1, set()), told.counted_answer()), False


def by_chance(rng, told, last):
    told.last = last
    for _ in range(rng.randrange(8)):
        yield told.next()


KINDS = asked_in_vain, asked_in_vain, not_sent, dropped, dropped, asked_again, asked_again, whole, by_chance


class Ends:
    """a writer and a reader of one topic, and what they say to each other"""

    def __init__(self, rng, k, prefixes, writers, kind, last):
        self.topic, self.writer = writers
        self.source, self.rng = rng.choice(prefixes[:1] * 3 + prefixes), rng
        self.dest = rng.choice([prefix for prefix in prefixes if prefix != self.source])
        self.reader = bytes([0, 0, k, 4])
        told = Told(rng, self.writer, self.reader, in_fragments=rng.random() < 0.2)
        told.last = last
        self.script = list(kind(rng, told, last))

    def announced(self):
        names = names_of(self.topic)
        return [announced(b'\0\0\3\xc2', self.source, self.writer, b'', names), announced(b'\0\0\4\xc2', self.dest, self.reader, RELIABLE, names)]

    def datagrams(self):
        """what the writer says is for the reader's participant alone, sometimes"""
        for octets, by_writer in self.script:
            source, dest = (self.source, self.dest) if by_writer else (self.dest, self.source)
            to = b'\x0e\0\0\x0c' + dest if not by_writer or self.rng.random() < 0.4 else b''
            yield b'RTPS\2\5\0\0' + source + to + octets


def merged(rng, lists):
    """all of these, each list in its order"""
    lists, found = [list(one) for one in lists if one], []
    while lists:
        one = rng.choice(lists)
        found.append(one.pop(0))
        lists = [left for left in lists if left]
    return found


def some_pairs(rng, prefixes):
    """sometimes all lose the same"""
    alike, last = rng.random() < 0.4, rng.randrange(1, 5)
    kind, pairs = rng.choice(KINDS), []
    for k in range(1, rng.randrange(3, 8)):
        writers = rng.choice(TOPICS), bytes([0, 0, k if rng.random() < 0.8 else 1, 3])
        some = (kind, last) if alike else (rng.choice(KINDS), rng.randrange(1, 5))
        pairs.append(Ends(rng, k, prefixes, writers, *some))
    return pairs


def some_shared(rng):
    """two or three participants with several pairs, of which some fall silent or leave, while the others ask them"""
    prefixes = rng.sample(PREFIXES[:3], rng.choice([2, 3, 3]))
    pairs = some_pairs(rng, prefixes)
    start = [some_participant(rng, prefix) for prefix in prefixes if rng.random() < 0.85]
    start += [d for pair in pairs for d in pair.announced()]
    telling, samples = some_nodes(rng, prefixes, [end for pair in pairs for end in ((pair.source, pair.writer), (pair.dest, pair.reader))])
    start += telling if rng.random() < 0.6 else []
    datagrams = merged(rng, [list(pair.datagrams()) for pair in pairs] + [samples])
    if rng.random() < 0.6:
        datagrams = falling_silent(rng, prefixes, pairs, datagrams)
    start = [d for one in dict.fromkeys(start) for d in some_announced(rng, one, 0.03)] if rng.random() < 0.9 else start
    return start + datagrams


def falling_silent(rng, prefixes, pairs, datagrams):
    """from somewhere on some participants say nothing, or leave, and the writers of the others ask"""
    silent, at = rng.sample(prefixes, rng.choice([1, 1, 1, 2])), rng.randrange(len(datagrams) // 2, len(datagrams) + 1)
    found = [d for i, d in enumerate(datagrams) if i < at or d[8:20] not in silent]
    found += [leaving(rng, silent[0] + b'\0\0\1\4')] if rng.random() < 0.1 else []
    for pair in rng.sample(pairs, min(len(pairs), rng.randrange(1, 4))):
        if pair.source not in silent:
            body = bytes(4) + pair.writer + sn('be', 1) + sn('be', rng.randrange(1, 6)) + bytes(4)
            found.append(b'RTPS\2\5\0\0' + pair.source + b'\7' + bytes([rng.choice([0, 0, 2])]) + b'\0\x1c' + body)
    return found
