#!/usr/bin/env python3
"""Tries damaged samples of `ros_discovery_info`, and random participants, through the reader of the libraries (crates/rtps_who).

    fuzz_who.py try TRIALS KIND COUNT SEED      compares the built program of crates/rtps_trials with the second implementation (bench/who.py)
    fuzz_who.py ask KIND COUNT SEED >FILE       writes what that program would be asked, as `rtps_trials who` reads it
    fuzz_who.py judge KIND COUNT SEED <FILE     compares what it told of it
    fuzz_who.py check PROGRAM COUNT SEED        compares the nodes of participants in `check --json` of PROGRAM: one damaged sample each, 500 a recording

KIND is `samples`, recordings of one damaged sample each, or `people`, of random participants, endpoints and samples. By the last two the libraries
are tried before they are proved, as far as 64 MiB go:

    bench/fuzz_who.py ask samples 50000 1 >asked && (cd crates/rtps_trials && rt try -- who) <asked >told
    bench/fuzz_who.py judge samples 50000 1 <told
"""
import json
import os
import random
import subprocess
import sys

sys.dont_write_bytecode = True
import who
from random_recordings import text_of_datagrams
from reference import name_text

PREFIX = who.PREFIXES[0]
EDGES = [0, 1, 2, 3, 4, 5, 7, 8, 15, 16, 24, 255, 256, 65535, (1 << 31) - 1, 1 << 31, (1 << 32) - 4, (1 << 32) - 1]


def with_number(rng, octets):
    """a number of four octets that is another, mostly one at a bound or as large as what is left"""
    if len(octets) < 8:
        return octets
    at = 4 * rng.randrange(1, len(octets) // 4)
    left = len(octets) - at - 4
    value = rng.choice([*EDGES, left, left + 1, left // 16, left // 24, max(left - 3, 0)])
    return octets[:at] + who.u32('be' if octets[1:2] == b'\0' else 'le', value) + octets[at + 4:]


def with_octet(rng, octets):
    if not octets:
        return octets
    at = rng.randrange(len(octets))
    return octets[:at] + bytes([rng.choice([0, 1, 255, octets[at] ^ 1 << rng.randrange(8), rng.randrange(256)])]) + octets[at + 1:]


def without_some(rng, octets):
    at = rng.randrange(len(octets) + 1)
    return octets[:at] + octets[at + rng.choice([1, 2, 4, 8, 16]):]


def with_more(rng, octets):
    at = rng.choice([rng.randrange(len(octets) + 1), len(octets)])
    return octets[:at] + bytes(rng.choice([0, 0, 255, rng.randrange(256)]) for _ in range(rng.choice([1, 2, 3, 4, 5, 8]))) + octets[at:]


def cut(rng, octets):
    return octets[:rng.randrange(len(octets) + 1)]


def of_other_form(rng, octets):
    """with another representation, or as if its gids had the other width"""
    if rng.random() < 0.5:
        return rng.choice([b'\0\0', b'\0\1', b'\0\2', b'\0\3', b'\1\0']) + octets[2:]
    return octets[:20] + octets[28:] if rng.random() < 0.5 else octets[:20] + bytes(8) + octets[20:]


DAMAGES = with_number, with_number, with_octet, without_some, with_more, cut, of_other_form


def damaged_sample(rng):
    octets = who.some_sample(rng, PREFIX)
    for _ in range(rng.choice([1, 1, 1, 1, 2, 3])):
        octets = rng.choice(DAMAGES)(rng, octets)
    return octets


def start(prefix=PREFIX):
    """a participant with a writer that tells of nodes, and a reader of something else"""
    rng, (teller, reader, *_) = random.Random(0), who.ENTITIES
    told = [who.parameter('be', 5, who.cdr_text('be', who.TOPIC)), who.parameter('be', 7, who.cdr_text('be', who.TYPE))]
    other = [who.parameter('be', pid, who.cdr_text('be', b'x')) for pid in (5, 7)]
    return [
        who.announced(rng, b'\0\1\0\xc2', prefix, 'be', [who.parameter('be', 0x50, prefix + who.PARTICIPANT)]),
        who.announced(rng, b'\0\0\3\xc2', prefix, 'be', [who.parameter('be', 0x5a, prefix + teller), *told]),
        who.announced(rng, b'\0\0\4\xc2', prefix, 'be', [who.parameter('be', 0x5a, prefix + reader), *other]),
    ]


START = start()


def some_samples(rng):
    return [*START, who.message(PREFIX, who.ENTITIES[0], damaged_sample(rng))]


KINDS = {'samples': some_samples, 'people': who.some_recording}


def recordings(kind, count, seed):
    rng = random.Random(seed)
    return (KINDS[kind](rng) for _ in range(count))


def ask(asked):
    sys.stdout.write('\n'.join(''.join(f'{datagram.hex()}\n' for datagram in datagrams) for datagrams in asked))
    return 0


def judge(asked):
    """the status is 1 if they differ, or say nothing worth it"""
    answers, count, told, lines = sys.stdin.read(), 0, 0, set()
    at = 0
    for datagrams in asked:
        wanted = who.told_of(datagrams)
        if not answers.startswith(wanted, at):
            print('\n'.join(d.hex() for d in datagrams), f'-- wanted\n{wanted}-- got\n{answers[at:at + len(wanted) + 200]}', sep='\n')
            return 1
        at += len(wanted)
        count += 1
        told += ' node ' in wanted
        lines.add(wanted)
    print(f'{count} recordings agree, {told} of them tell a node, and there are {len(lines)} answers')
    return 0 if answers[at:].strip() == '' and 0 < told < count else 1


def checked(program, samples):
    """the nodes of participants, each of which sends one of these samples, as the program tells them"""
    prefixes = [b'\1\x0f' + bytes(6) + k.to_bytes(4, 'big') for k in range(len(samples))]
    datagrams = [d for prefix, octets in zip(prefixes, samples) for d in (*start(prefix)[:2], who.message(prefix, who.ENTITIES[0], octets))]
    done = subprocess.run([program, 'check', '--json', '-'], input=text_of_datagrams(datagrams), capture_output=True, check=False)
    nodes = {one['guid'][:24]: one['nodes'] for one in json.loads(done.stdout)['participants']}
    return [nodes[prefix.hex()] for prefix in prefixes]


def check(program, count, seed):
    """the status is 1 if they differ, or say nothing worth it"""
    rng, told, differing = random.Random(seed), 0, 0
    for begin in range(0, count, 500):
        samples = [damaged_sample(rng) for _ in range(min(500, count - begin))]
        for octets, got in zip(samples, checked(program, samples)):
            wanted = [name_text(name) for name, _ in who.nodes_of(octets) or []]
            told += bool(wanted)
            if wanted != got:
                differing += 1
                print(f'{octets.hex()}\n-- wanted {wanted}\n-- got    {got}')
    print(f'{count} samples, {differing} differences, {told} of them tell a node')
    return int(differing > 0 or not 0 < told < count)


def main():
    if len(sys.argv) == 5 and sys.argv[1] == 'check':
        return check(os.path.realpath(sys.argv[2]), int(sys.argv[3]), int(sys.argv[4]))
    *words, kind, count, seed = sys.argv[1:] if len(sys.argv) > 4 else ['', '', 0, 0]
    if kind not in KINDS or len(words) != (2 if words[0] == 'try' else 1) or words[0] not in ('try', 'ask', 'judge'):
        raise SystemExit(__doc__)
    count, seed = int(count), int(seed)
    if words[0] == 'try':
        return who.compare(os.path.realpath(words[1]), count, seed, KINDS[kind])
    return (ask if words[0] == 'ask' else judge)(recordings(kind, count, seed))


if __name__ == '__main__':
    sys.exit(main())
