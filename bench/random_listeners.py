#!/usr/bin/env python3
"""Participants whose samples of `ros_discovery_info` come in fragments for several listeners, for comparisons with the second implementation.

    random_listeners.py PROGRAM [COUNT [SEED]]
                    runs PROGRAM with `check --json` on COUNT random recordings, and says where it tells other nodes of a participant

A recording has twenty participants. Each sends up to three samples of one shape under two numbers: in fragments, to all, to a participant or to one
reader there, in any order, so that fragments come again with the same octets or with others. Sometimes one of them is whole in a DATA.
"""
import json
import random
import subprocess
import sys

import make
import reference
from fuzz_who import start
from random_recordings import text_of_datagrams
from who import ENTITIES, PARTICIPANT, Who, cdr_text, message, u32

PARTICIPANTS = 20
TELLER = ENTITIES[0]
# to whom a fragment is sent: no participant is all of them, and so is no reader
DESTINATIONS = [None, None] + [b'\1\x0f' + bytes([octet]) * 10 for octet in (0xd0, 0xd1, 0xd2)]
READERS = bytes(4), bytes(4), b'\0\0\1\4', b'\0\0\2\4'


def sample(prefix, name):
    """one node, which has the writer that tells of it"""
    node = cdr_text('be', b'/') + cdr_text('be', name) + u32('be', 0) + u32('be', 1) + prefix + TELLER
    return bytes(4) + prefix + PARTICIPANT + u32('be', 1) + node


def some_sent(rng, prefix):
    """the fragments of some samples, to some listeners"""
    samples, size, sent = [sample(prefix, b'n%d' % k) for k in range(rng.choice([1, 2, 2, 3]))], rng.choice([16, 24, 32]), []
    for _ in range(rng.choice([6, 10, 16])):
        number, reader, dest = rng.choice([1, 1, 1, 2]), rng.choice(READERS), rng.choice(DESTINATIONS)
        fragments = make.data_frags(TELLER, number, rng.choice(samples), size, reader)
        chosen = [rng.choice(fragments)] if rng.random() < 0.7 else fragments[:rng.choice([2, 9])]
        sent += [make.header(prefix) + (make.to(dest) if dest else b'') + fragment for fragment in chosen]
    if rng.random() < 0.2:
        sent.insert(rng.randrange(len(sent) + 1), message(prefix, TELLER, rng.choice(samples), 3))
    return sent


def some_recording(rng):
    prefixes = [b'\1\x0f' + bytes(6) + k.to_bytes(4, 'big') for k in range(PARTICIPANTS)]
    return [d for prefix in prefixes for d in start(prefix)[:2]] + [d for prefix in prefixes for d in some_sent(rng, prefix)]


def nodes_of(program, octets):
    """by the prefix of a participant its nodes, as the program tells them"""
    done = subprocess.run([program, 'check', '--json', '-'], input=octets, capture_output=True, check=False)
    return {one['guid'][:24]: one['nodes'] for one in json.loads(done.stdout)['participants']}


def compare(program, count, seed):
    rng, differing, told = random.Random(seed), 0, 0
    for k in range(count):
        datagrams = some_recording(rng)
        octets = text_of_datagrams(datagrams)
        who, got = Who([reference.acts_of(d, True) for d in datagrams], by_writer=True), nodes_of(program, octets)
        wanted = {prefix: [reference.name_text(name) for name in who.nodes_in(bytes.fromhex(prefix))] for prefix in got}
        told += sum(map(bool, wanted.values()))
        if wanted != got:
            differing += 1
            which = [f'{prefix} {wanted[prefix]} and not {got[prefix]}' for prefix in got if wanted[prefix] != got[prefix]]
            print(f"check --json tells other nodes of recording {k}, kept in {reference.kept(octets)}: {'; '.join(which)}")
    print(f'{count} recordings, {differing} differences; {told} of {count * PARTICIPANTS} participants tell a node')
    return int(differing > 0)


def main():
    if len(sys.argv) < 2:
        raise SystemExit(__doc__)
    count, seed = (int(word) for word in sys.argv[2:] + ['100', '1'][len(sys.argv[2:]):])
    return compare(sys.argv[1], count, seed)


if __name__ == '__main__':
    sys.exit(main())
