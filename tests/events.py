#!/usr/bin/env python3
"""Tests the verdicts of the program on small recordings, by trying everything that can have happened.

    tests/events.py PROGRAM

Each recording is about one pair and the numbers 1 to 3. It has at most four datagrams of at most three acts. It is audited
from each of the numbers 1 to 5 on. The right verdict is found by trying all that the reader can receive between two sends.
It prints a line with what was counted. The last line is 'N passed, M failed'.
"""
import random
import sys

sys.dont_write_bytecode = True
import program
import make
import reference
from program import text_of

A, B, WRITER, READER = make.A, make.B, make.WRITER, make.READER
RECORDINGS, GREATEST, FROM = 300, 3, range(1, 6)

# A message of neither participant, in which each act has its source and its destination before it.
HEADER = make.header(b'\xcc' * 12)
BY_WRITER = b'\x0c\0\0\x14' + bytes(4) + b'\2\5\0\0' + A + make.to(bytes(12))
BY_READER = b'\x0c\0\0\x14' + bytes(4) + b'\2\5\0\0' + B + make.to(A)


def gap(start, base):
    return b'\x08\0\0\x1c' + READER + WRITER + start.to_bytes(8, 'big') + base.to_bytes(8, 'big') + bytes(4)


def heartbeat(last):
    return make.heartbeat(WRITER, 1, last).replace(bytes(4) + WRITER, READER + WRITER, 1)


def some_act(rng):
    kind = rng.randrange(7)
    if kind < 4:
        payload = b'\0\1\0\1' if rng.randrange(5) == 0 else b'\0\1\0\0'
        return BY_WRITER + make.data(WRITER, rng.randint(1, GREATEST), payload, READER)
    if kind == 4:
        return BY_WRITER + gap(rng.randint(1, GREATEST), rng.randint(1, GREATEST + 1))
    if kind == 5:
        return BY_READER + make.ack_nack(READER, WRITER, rng.randint(0, GREATEST + 1))
    return BY_WRITER + heartbeat(rng.randint(0, GREATEST))


def some_recording(rng):
    said = [HEADER + b''.join(some_act(rng) for _ in range(rng.randrange(4))) for _ in range(rng.randrange(5))]
    return [*make.announcements(1), *said]


def small_recordings(tests):
    rng, seen = random.Random(1), {}
    guids = f'{A.hex()}.{WRITER.hex()} {B.hex()}.{READER.hex()}'
    for place in range(RECORDINGS):
        datagrams = some_recording(rng)
        acts = [reference.acts_of(datagram) for datagram in datagrams]
        for first in FROM:
            verdict = reference.verdict_by_runs(acts, A + WRITER, B + READER, GREATEST + 1, first)
            wanted = f'pairs 1\n{guids} {verdict}\ndatagrams {len(datagrams)} refused 0 skipped 0 fragments 0 undirected 0 unsettled 0\n'
            kind = verdict.split(' ')[0]
            tests.answers(f'recording {place} from {first}', 'audit', text_of(datagrams), wanted, int(kind != 'complete'), ('--from', str(first)))
            seen[kind] = seen.get(kind, 0) + 1
    tests.holds('verdicts of each kind', [], [kind for kind in ('unfounded', 'conflict', 'open', 'complete') if seen.get(kind, 0) < 50])
    told = ', '.join(f'{number} {kind}' for kind, number in sorted(seen.items()))
    print(f'verdicts by every event: {told}, of {RECORDINGS} recordings')


if __name__ == '__main__':
    sys.exit(program.main(__doc__, (small_recordings,)))
