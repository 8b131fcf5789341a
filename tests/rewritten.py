#!/usr/bin/env python3
"""Tests that messages are written: each is read, and written again from its items.

    tests/rewritten.py TRIALS RECORDING..     TRIALS is the built program of crates/rtps_trials

It is run on the messages of tests/messages, each of which has its result beside it, and on each recording: at least one
message of it has to be written with the same octets. Then it is run on 1,000
random messages, which are the same in each run: all seven submessages in both orders, with random fields, sets and inline
lists, some with flags and octets that are ignored. Each prints a line with what was counted. The result for each random
message is worked out here: it is written with the same octets if nothing in it is ignored, and it is not written if a body
that is not the last is no multiple of 4 octets. The last line is 'N passed, M failed'.
"""
import collections
import os
import random
import subprocess
import sys

sys.dont_write_bytecode = True
from program import Counts, file_of

COUNT = 1000
SEED = 20250


class Maker:
    """random messages; `plain` tells of the latest whether a reader ignores nothing in it, `aligned` whether each body but
    the last is a multiple of 4 octets when it is written"""

    def __init__(self):
        self.random = random.Random(SEED)
        self.plain = self.aligned = True
        self.order = 'big'

    def octets(self, count):
        return self.random.randbytes(count)

    def chance(self, percent):
        return self.random.randrange(100) < percent

    def unsigned(self, value, size=4):
        return value.to_bytes(size, self.order)

    def number(self, value):
        """a sequence number: its high half, then its low half"""
        return self.unsigned(value >> 32) + self.unsigned(value & 0xffffffff)

    def positive(self):
        return self.random.choice([1, 2, 5, 1 << 32, (1 << 63) - 300, self.random.randrange(1, 1 << 62)])

    def set(self, least):
        base = 0 if least == 0 and self.chance(30) else self.positive()
        bits = 0 if base == 0 else self.random.choice([0, 1, 31, 32, 33, 64, 255, 256, self.random.randrange(257)])
        value = self.random.getrandbits(bits) << (-bits % 32) if bits else 0
        if bits % 32 and self.chance(10):
            value, self.plain = value | 1, False
        words = value.to_bytes((bits + 31) // 32 * 4, 'big')
        words = b''.join(self.unsigned(int.from_bytes(words[i:i + 4], 'big')) for i in range(0, len(words), 4))
        return self.number(base) + self.unsigned(bits) + words

    def parameters(self):
        found = b''
        for _ in range(self.random.randrange(4)):
            pid = self.random.choice([0, 5, 0x70, 0x71, 0x8001, self.random.randrange(2, 1 << 16)])
            size = self.random.choice([0, 4, 8, 12, self.random.randrange(40)])
            found += self.unsigned(pid, 2) + self.unsigned(size, 2) + self.octets(size)
        return found + self.unsigned(1, 2) + self.unsigned(self.random.choice([0, 0, 4]), 2)

    def ids(self):
        return self.octets(8)

    def data(self):
        flags = self.random.choice([0, 4, 8])
        more, offset = b'', 16
        if self.chance(10):
            more, offset, self.plain = self.octets(4), 20, False
        listed = self.chance(30)
        extra = b'\0\0' if self.chance(90) else b'\1\2'
        self.plain &= extra == b'\0\0'
        body = extra + self.unsigned(offset, 2) + self.ids() + self.number(self.positive()) + more
        if listed:
            flags |= 2
            body += self.parameters()
        written = len(body) - len(more)
        if flags & 12:
            payload = self.octets(self.random.choice([0, 4, 8, 64, self.random.randrange(80)]))
            body += payload
            written += len(payload)
        return 0x15, flags, 0x0e, body, written

    def heartbeat(self):
        first = self.positive()
        last = self.random.choice([first - 1, first, first + 7])
        body = self.ids() + self.number(first) + self.number(last) + self.octets(4)
        return 7, self.random.choice([0, 2, 4, 6]), 6, body, len(body)

    def ack_nack(self):
        body = self.ids() + self.set(0) + self.octets(4)
        return 6, self.random.choice([0, 2]), 2, body, len(body)

    def gap(self):
        body = self.ids() + self.number(self.positive()) + self.set(1)
        return 8, 0, 0, body, len(body)

    def info_ts(self):
        if self.chance(30):
            return 9, 2, 2, b'', 0
        return 9, 0, 2, self.octets(8), 8

    def info_dst(self):
        return 0xe, 0, 0, self.random.choice([bytes(12), self.octets(12)]), 12

    def info_src(self):
        unused = bytes(4) if self.chance(80) else self.octets(4)
        self.plain &= unused == bytes(4)
        return 0xc, 0, 0, unused + self.octets(16), 20

    def submessage(self, is_last):
        self.order = self.random.choice(['big', 'little'])
        kinds = [self.data, self.data, self.heartbeat, self.ack_nack, self.gap, self.info_ts, self.info_dst, self.info_src]
        sid, flags, named, body, written = self.random.choice(kinds)()
        self.aligned &= is_last or written % 4 == 0
        if self.chance(5):
            others = self.octets(1)[0] & ~(named | 1)
            # Of a DATA the flags that tell what follows stay as they are; N, which has no effect, is one of the others.
            others &= 0xf0 if sid == 0x15 else 0xfe
            flags, self.plain = flags | others, self.plain and others == 0
        if sid != 0x15 and self.chance(5):
            body, self.plain = body + self.octets(4), False
        declared = len(body)
        if is_last and body and self.chance(20) and sid != 9:
            declared, self.plain = 0, False
        head = bytes([sid, flags | (self.order == 'little')]) + self.unsigned(declared, 2)
        return head + body

    def message(self):
        self.plain = self.aligned = True
        found = b'RTPS\2' + self.octets(15)
        count = self.random.randrange(6)
        for place in range(count):
            found += self.submessage(place + 1 == count)
        return found


def outcomes(trials, text):
    """what becomes of each message, and the status"""
    done = subprocess.run([trials, 'rewrite'], input=text, capture_output=True)
    return done.stdout.decode().splitlines(), done.returncode


def told(name, found):
    counts = collections.Counter(found)
    return f'written again, {name}: ' + '; '.join(f'{what} {counts[what]}' for what in sorted(counts))


def vectors(tests, trials):
    """the messages of the file, each behind a comment that says what it is"""
    lines = file_of('tests', 'messages').decode().splitlines()
    cases = [line.split(' -> ') for line in lines if not line.startswith('#')]
    found, status = outcomes(trials, '\n'.join(message for message, _ in cases).encode())
    print(told('test vectors', found))
    tests.holds('test vectors', (0, [wanted for _, wanted in cases]), (status, found))


def recordings(tests, trials, paths):
    for path in paths:
        with open(path, 'rb') as f:
            found, status = outcomes(trials, f.read())
        name = os.path.basename(path)
        print(told(name, found))
        tests.holds(f'{name}: some are the same', (0, True), (status, 'the same octets' in found))


def random_messages(tests, trials):
    maker = Maker()
    text, wanted = [], []
    for _ in range(COUNT):
        text.append(maker.message().hex())
        wanted.append('not written, Unaligned' if not maker.aligned else 'the same octets' if maker.plain else 'other octets')
    found, status = outcomes(trials, '\n'.join(text).encode())
    print(told(f'{COUNT} random messages', found))
    tests.holds('random messages', (0, []), (status, [one for one in zip(text, wanted, found) if one[1] != one[2]]))
    tests.holds('an outcome for each of them', COUNT, len(found))


def main():
    if len(sys.argv) < 3:
        raise SystemExit(__doc__)
    tests, trials = Counts(), os.path.realpath(sys.argv[1])
    vectors(tests, trials)
    recordings(tests, trials, sys.argv[2:])
    random_messages(tests, trials)
    return tests.told()


if __name__ == '__main__':
    sys.exit(main())
