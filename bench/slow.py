#!/usr/bin/env python3
"""Recordings that are made to be slow, and how much more a program takes for twice the size.

    slow.py make NAME SIZE >FILE
                            writes the recording of this name and size, as a text
    slow.py measure PROGRAM [BESIDE] [-- NAME[=SIZE] ..]
                            measures `check` and `audit` of each recording, of its size and of twice it, and prints a table: processor
                            time, the greatest memory, and how many times as much twice the size takes; with BESIDE also what part that is
                            of what this other program takes in the same run

A NAME is one of RECORDINGS, which has a size for each. Recordings stay in the folder RTPS_BENCH_DIR, where that is set. A time is the least of
some runs that take turns. A run that takes more than LIMIT seconds is ended. Nothing here passes or fails.
"""
import os
import random
import signal
import sys
import tempfile
from typing import Callable, NamedTuple, Sequence

import make
from figures import announcement, frame, prefix, reader_at, size_text, writer_at
from make import A, B, RELIABLE, WRITER, ack_nack, data, data_frag, gap, header, heartbeat, to
from option_figures import CLASSIC, of_audiences, run_of
from random_recordings import parameter, u
from random_systems import text

RUNS, LIMIT = 3, 120
KIB = 1 << 10

# ---- recordings, by their sizes


def readers(count):
    """one writer, and so many readers of its topic, each in a participant of its own"""
    yield announcement('writer', A, WRITER)
    yield from (announcement('reader', prefix(i), reader_at(i)) for i in range(count))


def answers(count, base):
    return (header(prefix(i)) + to(A) + ack_nack(reader_at(i), WRITER, base) for i in range(count))


def packed(start, submessages, most):
    """datagrams that begin so, each with up to so many submessages"""
    return (start + b''.join(submessages[i:i + most]) for i in range(0, len(submessages), most))


def last_fragments(count, samples=10):
    """samples whose first two fragments are for everyone, and the last one for so many participants and the readers of so many entity ids"""
    yield from readers(count)
    for number in range(1, samples + 1):
        yield header(A) + data_frag(WRITER, number, 1, bytes(16), 8, 24)
        for i in range(count):
            yield header(A) + to(prefix(i)) + data_frag(WRITER, number, 3, bytes(8), 8, 24)
            yield header(A) + data_frag(WRITER, number, 3, bytes(8), 8, 24, reader_at(i))
    yield header(A) + heartbeat(WRITER, 1, samples)
    yield from answers(count, samples + 1)


def asked(count, asking=20):
    """readers of which each asks for every second one of 256 numbers, so many times, where none of them is sent"""
    last = 256 * count
    yield from readers(asking)
    yield header(A) + gap(WRITER, 1, last + 1, [], 0) + heartbeat(WRITER, 1, last)
    for i in range(asking):
        sets = [ack_nack(reader_at(i), WRITER, base, [0xaaaaaaaa] * 8, 256) for base in range(1, last, 256)]
        yield from packed(header(prefix(i)) + to(A), sets, 900)
    yield from answers(asking, last + 1)


def scattered_gaps(count, hearing=100):
    """so many GAPs that list numbers by chance, in no order, and then as many of the numbers between them; and many rows"""
    rng, last = random.Random(count), 256 * count
    lists = [(base, rng.getrandbits(256)) for base in range(1, last, 256)]
    yield from readers(hearing)
    for flip in (0, (1 << 256) - 1):
        rng.shuffle(lists)
        gaps = [gap(WRITER, base, base, [(bits ^ flip) >> 32 * i & 0xffffffff for i in range(8)]) for base, bits in lists]
        yield from packed(header(A), gaps, 900)
    yield header(A) + heartbeat(WRITER, 1, last)
    yield from answers(hearing, last + 1)


def partition(name):
    return parameter('be', 0x29, u('be', 4, 1) + text('be', name) + bytes(-(len(name) + 1) % 4))


def partitions(length, ends=8):
    """writers whose partition is a pattern that nearly fits everywhere in a name of so many octets, and readers with this name"""
    pattern, name = b'*' + b'a' * (length // 2) + b'b', b'a' * length
    for i in range(ends):
        yield make.announced(b'\0\0\3\xc2', A, writer_at(i), partition(pattern))
        yield make.announced(b'\0\0\4\xc2', B, reader_at(i), RELIABLE + partition(name))


def silent_pairs(count):
    """so many writers and readers of one topic, and none of the pairs says anything"""
    return make.ends_of_one_topic(RELIABLE, RELIABLE, count)


def talking_pairs(count, rounds=5):
    """so many writers and readers of one topic; each writer sends some samples, and each reader acknowledges each of them to each writer"""
    for i in range(count):
        yield announcement('writer', A, writer_at(i))
        yield announcement('reader', B, reader_at(i))
    for number in range(1, rounds + 1):
        yield from (header(A) + data(writer_at(i), number, bytes(8)) + heartbeat(writer_at(i), 1, number) for i in range(count))
        for k in range(count):
            yield from packed(header(B) + to(A), [ack_nack(reader_at(k), writer_at(i), number + 1) for i in range(count)], 900)


# ---- discovery

# Who tells of its endpoints by which writer, and to which reader.
TELLING = {A: (b'\0\0\3\xc2', b'\0\0\3\xc7'), B: (b'\0\0\4\xc2', b'\0\0\4\xc7')}


def stamp(place):
    """a source time: milliseconds, each later than the one before"""
    return b'\x09\0\0\x08' + (place // 1000).to_bytes(4, 'big') + (place % 1000 * 4294967).to_bytes(4, 'big')


def told(source, place, number):
    """the DATA by which a participant tells of the endpoint with this number"""
    entity = (writer_at if source == A else reader_at)(number)
    value = b'\0\2\0\0' + b'\0\x5a\0\x10' + source + entity + make.NAMES + RELIABLE + b'\0\1\0\0'
    return header(source) + stamp(place) + data(TELLING[source][0], number, value)


def joining(source):
    value = b'\0\2\0\0' + b'\0\x50\0\x10' + source + b'\0\0\1\xc1' + b'\0\1\0\0'
    return header(source) + stamp(1) + data(b'\0\1\0\xc2', 1, value)


def answered(source, number, asked=0):
    """the other participant acknowledges what is before a number, and asks for this and so many in all"""
    writer, reader = TELLING[source]
    return header(B if source == A else A) + to(source) + ack_nack(reader, writer, number, [(1 << 32) - (1 << 32 - asked)] if asked else [], asked)


def announced(count, ends=100, asks=False):
    """as many writers in a participant as readers in another, of one topic; each endpoint is announced again and again, so often in all, with
    HEARTBEATs and answers; or each of these is asked for before"""
    yield joining(A)
    yield joining(B)
    for place in range(max(count, 2 * ends)):
        source, number = (A, B)[place % 2], place // 2 % ends + 1
        if asks and place >= 2 * ends:
            yield answered(source, number, 1)
        yield told(source, place, number)
        if place % 10 < 2:
            yield header(source) + heartbeat(TELLING[source][0], 1, min(place // 2 + 1, ends))
    yield from (answered(source, ends + 1) for source in (A, B) for _ in range(1 + count // 100))


class Slow(NamedTuple):
    """a recording by its size, the size that is measured, and options of `audit`; one with times is measured as a capture"""
    size: int
    datagrams: Callable
    words: Sequence = ()
    timed: bool = False


# The size of those that make.py makes by octets is in thousands of them.
RECORDINGS = {
    'last_fragments': Slow(150, last_fragments, ['--fragments']),
    'many_audiences': Slow(400, of_audiences, ['--fragments']),
    'asked': Slow(4000, asked),
    'scattered_gaps': Slow(1000, scattered_gaps),
    'opened': Slow(3000, lambda size: make.of_rows('opened', size * 1000)),
    'disputed': Slow(3000, lambda size: make.of_rows('disputed', size * 1000)),
    'in_turns': Slow(500, lambda size: make.of_turns('in_turns', size * 1000)),
    'partitions': Slow(5000, partitions),
    'silent_pairs': Slow(400, silent_pairs),
    'talking_pairs': Slow(150, talking_pairs),
    'announced': Slow(20000, announced, timed=True),
    'asked_again': Slow(20000, lambda size: announced(size, asks=True), timed=True),
    'many_announced': Slow(200, lambda size: announced(0, size), timed=True),
    'alike': Slow(200000, lambda size: make.of_named(False, size, 5000)),
    'named': Slow(200000, lambda size: make.of_named(True, size, 5000)),
}

# ---- measuring


def write_timed(path, datagrams):
    """a capture of datagrams, a millisecond between two"""
    with open(path, 'wb') as f:
        f.write(CLASSIC)
        for place, datagram in enumerate(datagrams):
            f.write((place // 1000).to_bytes(4, 'little') + (place % 1000 * 1000).to_bytes(4, 'little') + frame(datagram)[8:])


def path_of(name, size, folder):
    """the file of a recording, which is made if it is not there"""
    slow = RECORDINGS[name]
    write, ending = (write_timed, 'pcap') if slow.timed else (make.write, 'rec')
    path = os.path.join(folder, f'slow_{name}_{size}.{ending}')
    if not os.path.exists(path):
        write(path + '.part', slow.datagrams(size))
        os.rename(path + '.part', path)
    return path


def ratio_text(one, other):
    return f'{one / other:,.0f}' if one >= 100 * other else f'{one / other:.1f}' if one >= other else f'{one / other:.2f}'


class Cost(NamedTuple):
    """the least processor time of some runs, and the greatest memory; there is no time where the runs fail"""
    seconds: float = float('inf')
    octets: int = 0

    def text(self):
        if self.seconds == float('inf'):
            return 'fails'
        return f'{self.seconds:.2f} s, {size_text(self.octets)}' if self.seconds < LIMIT else f'over {LIMIT} s'

    def times(self, other):
        """how many times as much it is: time and memory"""
        if max(self.seconds, other.seconds) >= LIMIT:
            return ''
        return f'{ratio_text(self.seconds, max(other.seconds, 0.001))}, {ratio_text(self.octets, other.octets)}'


def with_run(cost, command):
    """what a command costs with one more run, which is left out where an earlier one was ended"""
    if cost.seconds == LIMIT:
        return cost
    seconds, memory, status = run_of(command, LIMIT)
    if status == -signal.SIGXCPU:
        return Cost(LIMIT)
    return Cost(min(seconds, cost.seconds), max(memory * KIB, cost.octets)) if status in (0, 1) else Cost()


def costs_of(commands):
    """of each command, which take turns"""
    costs = [Cost()] * len(commands)
    for _ in range(RUNS):
        costs = [with_run(cost, command) for cost, command in zip(costs, commands)]
    return costs


def columns_of(programs, words, paths):
    """what a command of the first program costs with a recording of a size and with one of twice it, and beside that of the other program"""
    costs = costs_of([[program, *words, path] for path in paths for program in programs])
    once, twice = costs[:len(programs)], costs[len(programs):]
    beside = [own.times(other) for own, other in (once, twice)] if len(programs) > 1 else []
    return [once[0].text(), twice[0].text(), twice[0].times(once[0]), *beside]


def measure(programs, chosen):
    columns = ['Recording', 'Command', 'Size', 'Time, memory', 'At twice the size', 'Times as much']
    columns += ['Times the other', 'At twice the size'] if len(programs) > 1 else []
    print('|', ' | '.join(columns), '|\n' + '|---' * len(columns) + '|')
    with tempfile.TemporaryDirectory() as room:
        folder = os.environ.get('RTPS_BENCH_DIR', room)
        for name, size in chosen.items():
            paths = [path_of(name, one, folder) for one in (size, 2 * size)]
            for words in ['check'], ['audit', *RECORDINGS[name].words]:
                print('|', ' | '.join([name, f'`{" ".join(words)}`', f'{size:,}', *columns_of(programs, words, paths)]), '|', flush=True)


def chosen_by(words):
    """by name the sizes that are measured: all, or those that NAME or NAME=SIZE say"""
    found = {name: int(size) if size else None for name, _, size in (word.partition('=') for word in words)}
    if not RECORDINGS.keys() >= found.keys():
        raise SystemExit(__doc__)
    return {name: found.get(name) or slow.size for name, slow in RECORDINGS.items() if name in found or not found}


def main():
    words, names = sys.argv[1:], []
    if '--' in words:
        words, names = words[:words.index('--')], words[words.index('--') + 1:]
    if words[:1] == ['make'] and len(words) == 3 and words[1] in RECORDINGS:
        sys.stdout.buffer.writelines(make.lines(RECORDINGS[words[1]].datagrams(int(words[2]))))
    elif words[:1] == ['measure'] and len(words) in (2, 3):
        measure(words[1:], chosen_by(names))
    else:
        raise SystemExit(__doc__)


if __name__ == '__main__':
    main()
