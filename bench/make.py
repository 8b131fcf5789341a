#!/usr/bin/env python3
"""Writes recordings to measure with.

    make.py heartbeats|packed|large|hostile|one_data|pairs FILE [MEGABYTES]
    make.py answers|readers|writers FILE [MEGABYTES]
                answers: ACKNACKs of one reader; readers: each ACKNACK of another reader; writers: HEARTBEATs, each of another
                writer
    make.py announced|announced_first FILE [MEGABYTES]
                writers that are announced, and a HEARTBEAT of each: in the same datagram, or after all announcements
    make.py one_topic|one_topic_volatile FILE [MEGABYTES]
                writers and as many readers of one topic, of which none is a pair: they are BEST_EFFORT, or the readers ask for
                more durability than the writers offer
    make.py named|unnamed FILE
                a writer with about 100,000 samples and 100 readers. Resends, GAPs and what a late reader needs are sent to one
                reader alone, or all to all readers
    make.py in_turns|not_in_turns FILE [MEGABYTES]
                a writer that sends even numbers to participants and odd numbers to entity ids, so that each of many readers
                hears its numbers from both in turns; or one that sends all numbers to all readers
    make.py opened|disputed FILE [MEGABYTES]
                a writer whose readers each acknowledge up to another number; or whose readers each are sent two payloads for
                another number
    make.py every_second|far_apart FILE [MEGABYTES]
                one pair: GAPs that each have every second one of 256 numbers; or GAPs of one number each, 1,000 apart, in no
                order
    make.py in_order|odd_then_even|random|descending|inside_out FILE [THOUSANDS]
                samples of one pair, in this order of their numbers
"""
import random
import sys

A, B = b'\xaa' * 12, b'\xbb' * 12
NAMES = b'\0\5\0\x0c\0\0\0\5pose\0\0\0\0\0\7\0\x0c\0\0\0\5Pose\0\0\0\0'


def header(prefix):
    return b'RTPS\2\5\0\0' + prefix


def data(writer, number, payload, reader=bytes(4), flags=4):
    body = b'\0\0\0\x10' + reader + writer + number.to_bytes(8, 'big') + payload
    return b'\x15' + bytes([flags]) + len(body).to_bytes(2, 'big') + body


def data_frag(writer, number, first, octets, size, total, reader=bytes(4), flags=0):
    """The fragments from `first` on that these octets have, each of `size` octets, of a sample of `total` octets."""
    count = (len(octets) + size - 1) // size
    shape = first.to_bytes(4, 'big') + count.to_bytes(2, 'big') + size.to_bytes(2, 'big') + total.to_bytes(4, 'big')
    body = b'\0\0\0\x1c' + reader + writer + number.to_bytes(8, 'big') + shape + octets
    return b'\x16' + bytes([flags]) + len(body).to_bytes(2, 'big') + body


def data_frags(writer, number, sample, size, reader=bytes(4), flags=0):
    """Each fragment of a sample, in a submessage of its own."""
    places = range(0, len(sample), size)
    return [data_frag(writer, number, at // size + 1, sample[at:at + size], size, len(sample), reader, flags) for at in places]


def heartbeat(writer, first, last, reader=bytes(4), flags=0):
    return b'\x07' + bytes([flags]) + b'\0\x1c' + reader + writer + first.to_bytes(8, 'big') + last.to_bytes(8, 'big') + b'\0\0\0\1'


def listed(base, numbers):
    """The words of a list that has these numbers, from `base` on, and of how many it is."""
    count = max(numbers, default=base - 1) + 1 - base
    words = [0] * ((count + 31) // 32)
    for number in numbers:
        words[(number - base) // 32] |= 1 << 31 - (number - base) % 32
    return words, count


def ack_nack(reader, writer, base, words=(), count=0, flags=0):
    """Of the numbers below `base`. It asks for those from there on that a list of so many has."""
    body = reader + writer + base.to_bytes(8, 'big') + count.to_bytes(4, 'big')
    body += b''.join(word.to_bytes(4, 'big') for word in words) + b'\0\0\0\1'
    return b'\x06' + bytes([flags]) + len(body).to_bytes(2, 'big') + body


def nack_frag(reader, writer, number, base, words, count):
    """It asks for the fragments of a sample from `base` on that a list of so many has."""
    body = reader + writer + number.to_bytes(8, 'big') + base.to_bytes(4, 'big') + count.to_bytes(4, 'big')
    body += b''.join(word.to_bytes(4, 'big') for word in words) + b'\0\0\0\1'
    return b'\x12\0' + len(body).to_bytes(2, 'big') + body


def gap(writer, start, base, words, count=256, reader=bytes(4)):
    """Of the numbers from `start` on and below `base`, and of those from there on that a list of so many has."""
    body = reader + writer + start.to_bytes(8, 'big') + base.to_bytes(8, 'big') + count.to_bytes(4, 'big')
    body += b''.join(word.to_bytes(4, 'big') for word in words)
    return b'\x08\0' + len(body).to_bytes(2, 'big') + body


def announced(built_in, prefix, entity, more):
    value = b'\0\2\0\0' + b'\0\x5a\0\x10' + prefix + entity + NAMES + more + b'\0\1\0\0'
    return header(prefix) + data(built_in, 1, value)


def to(prefix):
    """For whom the next ones are."""
    return b'\x0e\0\0\x0c' + prefix


def by(prefix):
    """Who says the next ones."""
    return b'\x0c\0\0\x14' + bytes(4) + b'\2\5\0\0' + prefix


WRITER, READER = b'\0\0\1\3', b'\0\0\1\4'
RELIABLE = b'\0\x1a\0\x0c\0\0\0\2' + bytes(8)
BEST_EFFORT = b'\0\x1a\0\x0c\0\0\0\1' + bytes(8)
VOLATILE, TRANSIENT_LOCAL = b'\0\x1d\0\4\0\0\0\0', b'\0\x1d\0\4\0\0\0\1'


def announcements(pairs):
    for i in range(pairs):
        yield announced(b'\0\0\3\xc2', A, (0x103 + 256 * i).to_bytes(4, 'big'), b'').replace(b'pose', b'po%02d' % i)
        yield announced(b'\0\0\4\xc2', B, (0x104 + 256 * i).to_bytes(4, 'big'), RELIABLE).replace(b'pose', b'po%02d' % i)


# Of writers and of readers of one topic, what they offer and ask for: of none of them two are a pair.
OF_ONE_TOPIC = {
    'one_topic': (BEST_EFFORT, BEST_EFFORT),
    'one_topic_volatile': (RELIABLE + VOLATILE, RELIABLE + TRANSIENT_LOCAL),
}


def of_one_topic(kind, count):
    return ends_of_one_topic(*OF_ONE_TOPIC[kind], count)


def ends_of_one_topic(offered, asked, count):
    """So many writers of one topic, and then as many readers of it."""
    for i in range(1, count + 1):
        yield announced(b'\0\0\3\xc2', A, scattered(i), offered)
    for i in range(1, count + 1):
        yield announced(b'\0\0\4\xc2', B, scattered(i), asked)


def samples(numbers, total, writer=WRITER, reader=READER):
    for n in numbers:
        yield header(A) + data(writer, n, bytes(64))
    yield header(A) + heartbeat(writer, 1, total)
    yield header(B) + to(A) + ack_nack(reader, writer, total + 1)


ORDERS = {
    'in_order': lambda n: range(1, n + 1),
    'odd_then_even': lambda n: [*range(1, n + 1, 2), *range(2, n + 1, 2)],
    'random': lambda n: random.Random(n).sample(range(1, n + 1), n),
    'descending': lambda n: range(n, 0, -1),
    'inside_out': lambda n: sorted(range(1, n + 1), key=lambda number: abs(2 * number - n)),
}


def numbers(order, total):
    """A recording of one pair whose writer sends this many numbers in this order."""
    return (*announcements(1), *samples(ORDERS[order](total), total))


def datagrams(kind, octets):
    if kind == 'heartbeats':
        one = header(A) + heartbeat(WRITER, 1, 3)
        return (one for _ in range(min(1000000, octets // (2 * len(one) + 1))))
    if kind == 'packed':
        one = header(A) + heartbeat(WRITER, 1, 3) * 40
        return (one for _ in range(octets // (2 * len(one) + 1)))
    if kind == 'large':
        one = header(A) + data(WRITER, 7, bytes(range(256)) * 4 + bytes(132))
        assert len(one) == 1200, len(one)
        return (one for _ in range(octets // (2 * len(one) + 1)))
    if kind == 'hostile':
        return (header(A) + b'\1\0\0\0' * 16378 + b'\0\0\0' for _ in range(octets // 131071))
    if kind == 'one_data':
        return (header(A) + data(WRITER, 7, bytes(65535 - 44)) for _ in range(octets // 131071))
    if kind == 'pairs':
        sent = []
        for i in range(20):
            sent += samples(range(1, 10001), 10000, (0x103 + 256 * i).to_bytes(4, 'big'), (0x104 + 256 * i).to_bytes(4, 'big'))
        return (*announcements(20), *sent)
    if kind in ONE_EACH:
        return one_each(ONE_EACH[kind], octets)
    if kind == 'announced':
        entities = [scattered(i) for i in range(1, octets // 273 + 1)]
        return (announcement(entity) + heartbeat(entity, 1, 3) for entity in entities)
    if kind == 'announced_first':
        entities = [scattered(i) for i in range(1, octets // 274 + 1)]
        spoken = (header(A) + b''.join(heartbeat(entity, 1, 3) for entity in entities[i:i + 40]) for i in range(0, len(entities), 40))
        return (*map(announcement, entities), *spoken)
    if kind in ('named', 'unnamed'):
        return of_named(kind == 'named')
    if kind in ('in_turns', 'not_in_turns'):
        return of_turns(kind, octets)
    if kind in ('every_second', 'far_apart'):
        return of_gaps(kind, octets)
    if kind in ('opened', 'disputed'):
        return of_rows(kind, octets)
    if kind in OF_ONE_TOPIC:
        one, other = (next(of_one_topic(kind, 1)) for _ in range(2))
        return of_one_topic(kind, octets // (2 * (len(one) + 1) * 2))
    raise SystemExit(__doc__)


def scattered(place):
    """Entity ids in no order."""
    return (place * 0x9e3779b1 % (1 << 32)).to_bytes(4, 'big')


def announcement(entity):
    return announced(b'\0\0\3\xc2', A, entity, b'')


ONE_EACH = {
    'answers': lambda entity: ack_nack(READER, WRITER, 1),
    'readers': lambda entity: ack_nack(entity, WRITER, 1),
    'writers': lambda entity: heartbeat(entity, 1, 3),
}


def one_each(submessage, octets):
    """Datagrams full of submessages, each made with another entity id, in no order."""
    place = 0
    for _ in range(octets // 130112):
        sent = header(B) + to(A)
        for _ in range(2032):
            place += 1
            sent += submessage(scattered(place))
        yield sent


def of_named(is_named, last=99_000, step=20_000):
    """A writer of numbers up to a last one, and 100 readers. At each step each reader acknowledges all but the latest 100, and is sent
    that one again, and a GAP of the number before it; the last reader comes late, and is told what it will not get. That is said to
    the reader alone, or to all."""
    readers = [(b'\xbb' * 8 + (i // 10).to_bytes(4, 'big'), (0x104 + 256 * i).to_bytes(4, 'big')) for i in range(100)]

    def said(reader, *acts):
        prefix, entity = reader if is_named else (bytes(12), bytes(4))
        return header(A) + to(prefix) + b''.join(act(entity) for act in acts)

    yield announced(b'\0\0\3\xc2', A, WRITER, b'')
    for prefix, entity in readers:
        yield announced(b'\0\0\4\xc2', prefix, entity, RELIABLE)
    for number in range(1, last + 1):
        yield header(A) + data(WRITER, number, bytes(64))
        if number == last // 2:
            yield said(readers[-1], lambda entity: gap(WRITER, 1, number, [], 0, entity), lambda entity: heartbeat(WRITER, number, number, entity))
        if number % step == 0:
            missed = number - 100
            yield header(A) + heartbeat(WRITER, 1, number)
            for prefix, entity in readers if number > last // 2 else readers[:-1]:
                yield header(prefix) + to(A) + ack_nack(entity, WRITER, missed)
                yield said((prefix, entity), lambda entity: data(WRITER, missed, bytes(64), entity), lambda entity: gap(WRITER, missed - 1, missed, [], 0, entity))
    yield header(A) + heartbeat(WRITER, 1, last)
    yield from (header(prefix) + to(A) + ack_nack(entity, WRITER, last + 1) for prefix, entity in readers)


def of_turns(kind, octets):
    """A writer, participants of which each has readers of the same entity ids, and what each of both is told, or all are."""
    count = max(2, int((octets // 512) ** 0.5))
    prefixes = [b'\xbb' * 8 + i.to_bytes(4, 'big') for i in range(count)]
    entities = [(0x104 + 256 * i).to_bytes(4, 'big') for i in range(count)]
    pieces = max(1, octets // 4 // count // 136)
    even, odd, everyone = [0x55555555] * 8, [0xaaaaaaaa] * 8, (bytes(12), bytes(4))
    audiences = [*((prefix, bytes(4), even) for prefix in prefixes), *((bytes(12), entity, odd) for entity in entities)]
    if kind == 'not_in_turns':
        audiences = [(*everyone, [0xffffffff] * 8)] * (2 * count)
    yield announced(b'\0\0\3\xc2', A, WRITER, b'')
    for prefix in prefixes:
        yield from (announced(b'\0\0\4\xc2', prefix, entity, RELIABLE) for entity in entities)
    for prefix, entity, words in audiences:
        yield header(A) + to(prefix) + b''.join(gap(WRITER, 1 + 256 * i, 1 + 256 * i, words, 256, entity) for i in range(pieces))
    yield header(A) + heartbeat(WRITER, 1, 256 * pieces)
    for prefix in prefixes:
        yield header(prefix) + to(A) + b''.join(ack_nack(entity, WRITER, 256 * pieces + 1) for entity in entities)


def of_gaps(kind, octets):
    """One pair, and GAPs that tell its reader of numbers in many ranges."""
    if kind == 'every_second':
        numbers = [1 + 256 * i for i in range(octets // 2 // 68)]
        gaps = [gap(WRITER, number, number, [0xaaaaaaaa] * 8) for number in numbers]
    else:
        numbers = [1 + 1000 * i for i in range(octets // 2 // 32)]
        random.Random(len(numbers)).shuffle(numbers)
        gaps = [gap(WRITER, number, number + 1, [], 0) for number in numbers]
    packed = (header(A) + b''.join(gaps[i:i + 900]) for i in range(0, len(gaps), 900))
    return (*announcements(1), *packed, *samples([], max(numbers)))


def of_rows(kind, octets):
    """A writer, readers of its topic in half of the octets, and samples for all of them; each reader's row has another number."""
    readers = [scattered(i) for i in range(1, octets // 1024 + 1)]
    last = octets // 4 // 64
    numbers_of = {reader: 1 + i * last // len(readers) for i, reader in enumerate(readers)}
    yield announced(b'\0\0\3\xc2', A, WRITER, b'')
    for reader in readers:
        yield announced(b'\0\0\4\xc2', B, reader, RELIABLE)
    for i in range(1, last + 1, 1000):
        yield header(A) + b''.join(data(WRITER, number, bytes(8)) for number in range(i, min(i + 1000, last + 1)))
    for i in range(0, len(readers), 500):
        some = readers[i:i + 500]
        if kind == 'disputed':
            yield header(A) + to(B) + b''.join(data(WRITER, numbers_of[reader], b'\1' * 8, reader) for reader in some)
        yield header(B) + to(A) + b''.join(ack_nack(reader, WRITER, last + 1 if kind == 'disputed' else numbers_of[reader]) for reader in some)


def lines(sent):
    """The lines of a text of these datagrams."""
    return (datagram.hex().encode() + b'\n' for datagram in sent)


def write(path, sent):
    with open(path, 'wb') as f:
        f.writelines(lines(sent))


def main():
    kind, path = sys.argv[1:3]
    size = int(sys.argv[3] if len(sys.argv) > 3 else 200)
    write(path, numbers(kind, size * 1000) if kind in ORDERS else datagrams(kind, size * 1000000))


if __name__ == '__main__':
    main()
