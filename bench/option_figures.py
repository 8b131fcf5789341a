#!/usr/bin/env python3
"""Measures what `audit` takes with `--any` or `--fragments` beside another `audit`, and prints rows of tables of
docs/PERFORMANCE.md.

    option_figures.py [--program PROGRAM] [--runs RUNS] [NAME ..]

A NAME is that of a row; without one all are measured. PROGRAM is the built program of this repository if none is given. A row
has two runs of `audit`, each on a recording that is made as a capture. The captures stay in the folder RTPS_BENCH_DIR, if
that is set. A time is the least processor time of RUNS runs that take turns (5 if none is given), and memory the greatest
that a run took. Nothing here passes or fails.
"""
import ctypes
import os
import subprocess
import sys
import tempfile
from typing import Callable, NamedTuple

from capture_writer import summed
from figures import PROGRAM, announcement, frame, one_pair, reader_at, robot
from make import A, B, WRITER, ack_nack, header, heartbeat, to

MIB = 1 << 20
CLASSIC = bytes.fromhex('d4c3b2a1020004000000000000000000ffff000001000000')
SECTION = bytes.fromhex('0a0d0d0a 1c000000 4d3c2b1a 01000000 ffffffffffffffff 1c000000')
INTERFACE = bytes.fromhex('01000000 14000000 01000000 00000000 14000000')
RECORD, LINK, PACKET = 16, 14, 20        # octets of the headers in front of a frame, of Ethernet and of IPv4
ANY, FRAGMENTS, LIMIT = ['--any'], ['--fragments'], ['--max-octets', str(1 << 33)]
SAMPLE, FRAGMENT = 100000, 1344          # octets of a sample and of a fragment
CHILD_SUBREAPER = 36                     # of prctl


def classic(number, datagram):
    return frame(datagram)


def block(number, datagram):
    """an Enhanced Packet Block"""
    octets = frame(datagram)[RECORD:]
    size = (32 + len(octets) + -len(octets) % 4).to_bytes(4, 'little')
    words = b''.join(word.to_bytes(4, 'little') for word in (0, 0, 0, len(octets), len(octets)))
    return b'\6\0\0\0' + size + words + octets + bytes(-len(octets) % 4) + size


def parts_of(number, datagram):
    """two frames, each with half of a packet whose UDP checksum is right"""
    whole = frame(datagram)[RECORD:]
    link, packet, inner = whole[:LINK], whole[LINK:LINK + PACKET], whole[LINK + PACKET:]
    inner = summed(inner, packet[12:16], packet[16:20])
    half = len(inner) // 16 * 8
    for place, part in ((0x2000, inner[:half]), (half // 8, inner[half:])):
        head = packet[:2] + (PACKET + len(part)).to_bytes(2, 'big') + (number % 65536).to_bytes(2, 'big') + place.to_bytes(2, 'big') + packet[8:]
        octets = link + head + part
        yield bytes(8) + len(octets).to_bytes(4, 'little') * 2 + octets


def halves(number, datagram):
    return b''.join(parts_of(number, datagram))


def limit():
    return one_pair('in_order', 999996, 164)


def large():
    """datagrams of 1,400 octets"""
    return one_pair('in_order', 200000, 1400 - 44)


# ---- samples in DATA_FRAG: one writer and three readers

def piece(number, start, octets, size=FRAGMENT, sample=SAMPLE):
    """a DATA_FRAG with one fragment"""
    body = b'\0\0\0\x1c' + bytes(4) + WRITER + number.to_bytes(8, 'big') + start.to_bytes(4, 'big') + b'\0\1'
    body += size.to_bytes(2, 'big') + sample.to_bytes(4, 'big') + octets
    return b'\x16\0' + len(body).to_bytes(2, 'big') + body


def three_readers(last, datagrams):
    yield announcement('writer', A, WRITER)
    yield from (announcement('reader', B, reader_at(k)) for k in range(3))
    yield from datagrams
    yield header(A) + heartbeat(WRITER, 1, last)
    yield header(B) + to(A) + b''.join(ack_nack(reader_at(k), WRITER, last + 1) for k in range(3))


def samples(count, in_fragments):
    """samples of SAMPLE octets in fragments; or as many octets in DATA, each as large as a fragment"""
    each = -(-SAMPLE // FRAGMENT)
    if not in_fragments:
        return one_pair('in_order', count * each, FRAGMENT)
    sizes = [FRAGMENT] * (each - 1) + [SAMPLE - FRAGMENT * (each - 1)]
    pieces = (header(A) + piece(number, start + 1, bytes(size)) for number in range(1, count + 1) for start, size in enumerate(sizes))
    return three_readers(count, pieces)


def sent_again(readers=10, sample=4 * MIB):
    """one large sample for everyone, such as a map, of which one fragment is sent again to each of some readers in hosts of their own"""
    hosts = [bytes([0xb0 + k]) * 12 for k in range(readers)]
    last = -(-sample // FRAGMENT)
    sizes = [FRAGMENT] * (last - 1) + [sample - FRAGMENT * (last - 1)]
    yield announcement('writer', A, WRITER)
    yield from (announcement('reader', host, reader_at(k)) for k, host in enumerate(hosts))
    yield from (header(A) + piece(1, start + 1, bytes(size), sample=sample) for start, size in enumerate(sizes))
    for k, host in enumerate(hosts):
        again = piece(1, 2 + k, bytes(FRAGMENT), sample=sample)
        yield header(A) + to(host) + again[:8] + reader_at(k) + again[12:]
    yield header(A) + heartbeat(WRITER, 1, 1)
    yield from (header(host) + to(A) + ack_nack(reader_at(k), WRITER, 2) for k, host in enumerate(hosts))


def of_audiences(count):
    """fragments of one sample, each for another host and another reader"""
    yield announcement('writer', A, WRITER)
    for k in range(count):
        sent = piece(1, 1 + k, bytes(FRAGMENT), sample=4 * MIB)
        yield header(A) + to(b'\xb0' + k.to_bytes(4, 'big') + bytes(7)) + sent[:8] + reader_at(k) + sent[12:]


def of_pieces(count, one):
    """so many DATA_FRAG, each by its place"""
    return three_readers(count, (header(A) + piece(*one(place)) for place in range(count)))


# Hostile ones, by the place of a DATA_FRAG: its number, its fragment, its octets, and the sizes of fragment and sample.
NUMBERS = lambda place: (place + 1, 1, bytes(4), 4, 8)
PROMISES = lambda place: (place + 1, 1 + place % 65535, bytes(8), 8, (1 << 32) - 1)
SHAPES = lambda place: (1, 1, bytes(8), 8, 9 + place)
VARIANTS = lambda place: (1, 1, place.to_bytes(8, 'big'), 8, 16)


class Run(NamedTuple):
    """the options of `audit`, and its recording: the name of the file, its datagrams, how it begins, and what a datagram is in it"""
    words: list
    name: str
    datagrams: Callable
    begin: bytes = CLASSIC
    form: Callable = classic


def hostile(name, count, one):
    """the same in half as many DATA_FRAG and in all of them"""
    return tuple(Run(FRAGMENTS, f'{name}_{part}', lambda part=part: of_pieces(count // part, one)) for part in (2, 1))


# By name: the run that another is beside, and that other one.
ROWS = {
    'robot': (Run([], 'robot', robot), Run(ANY, 'robot', robot)),
    'limit': (Run([], 'limit', limit), Run(ANY, 'limit', limit)),
    'robot_pcapng': (Run([], 'robot', robot), Run(ANY, 'robot_pcapng', robot, SECTION + INTERFACE, block)),
    'limit_pcapng': (Run([], 'limit', limit), Run(ANY, 'limit_pcapng', limit, SECTION + INTERFACE, block)),
    'halves': (Run([], 'large', large), Run(ANY, 'summed_halves', large, CLASSIC, halves)),
    'robot_fragments': (Run([], 'robot', robot), Run(FRAGMENTS, 'robot', robot)),
    'limit_fragments': (Run([], 'limit', limit), Run(FRAGMENTS, 'limit', limit)),
    'fragments': (Run(LIMIT, 'gibibyte', lambda: samples(10737, False)), Run(LIMIT + FRAGMENTS, 'gibibyte_in_fragments', lambda: samples(10737, True))),
    'sent_again': (Run([], 'sent_again', sent_again), Run(FRAGMENTS, 'sent_again', sent_again)),
    'many_numbers': hostile('many_numbers', 999994, NUMBERS),
    'promises': hostile('promises', 999994, PROMISES),
    'many_shapes': hostile('many_shapes', 65535, SHAPES),
    'many_audiences': tuple(Run(FRAGMENTS, f'many_audiences_{count}', lambda count=count: of_audiences(count)) for count in (200, 400)),
    'many_variants': hostile('many_variants', 65535, VARIANTS),
}


def made(run, folder):
    path = os.path.join(folder, f'{run.name}.capture')
    if not os.path.exists(path):
        with open(path + '.part', 'wb') as f:
            f.write(run.begin)
            f.writelines(run.form(number, datagram) for number, datagram in enumerate(run.datagrams()))
        os.rename(path + '.part', path)
    return path


# Starts a command with a limit of processor time, and tells its id at once; the command waits until its input ends.
STARTED = 'ulimit -S -t "$0"; exec 3<&0; { read go; exec "$@" 3<&- </dev/null >/dev/null 2>&1; } <&3 & echo $!'


def run_of(command, limit='unlimited'):
    """processor time, the greatest memory in KiB, and the status; more seconds than the limit end the run. A shell starts it, since a process
    counts the memory of the one that starts it; when the shell has ended, the run is this process's own child"""
    ctypes.CDLL(None).prctl(CHILD_SUBREAPER, 1)
    with subprocess.Popen(['sh', '-c', STARTED, str(limit), *command], stdin=subprocess.PIPE, stdout=subprocess.PIPE) as shell:
        child = int(shell.stdout.readline())
        shell.wait()
    _, status, usage = os.wait4(child, 0)
    return usage.ru_utime + usage.ru_stime, usage.ru_maxrss, os.waitstatus_to_exitcode(status)


def measured(name, program, runs, folder):
    commands = [[program, 'audit', *run.words, made(run, folder)] for run in ROWS[name]]
    times, peaks = {}, {}
    for _ in range(runs):
        for place, words in enumerate(commands):
            seconds, memory, status = run_of(words)
            if status > 1:
                raise SystemExit(f'option_figures.py: {" ".join(words)} ends with status {status}')
            times[place] = min(seconds, times.get(place, seconds))
            peaks[place] = max(memory, peaks.get(place, 0))
    told = ' | '.join(f'{times[place]:.2f} s, {peaks[place] * 1024 / MIB:.0f} MiB' for place in (0, 1))
    return f'| {name} | {told} | {times[1] / times[0]:.2f} times the time, {peaks[1] / peaks[0]:.2f} times the memory |'


def main():
    words, options = sys.argv[1:], {'--program': PROGRAM, '--runs': '5'}
    while words and words[0] in options:
        options[words[0]] = words[1]
        words = words[2:]
    if any(word not in ROWS for word in words):
        raise SystemExit(__doc__)
    print('| Recording | `audit` | beside it | |\n|---|---|---|---|')
    with tempfile.TemporaryDirectory() as room:
        folder = os.environ.get('RTPS_BENCH_DIR', room)
        for name in words or ROWS:
            print(measured(name, options['--program'], int(options['--runs']), folder), flush=True)


if __name__ == '__main__':
    main()
