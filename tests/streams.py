#!/usr/bin/env python3
"""Tests the program where its input gives one octet at a time, its output takes one at a time, and either fails.

    tests/streams.py PROGRAM

Of `show`, each read fails once, and the output has room for each number of octets below all. Of the other commands, and of
outputs that take none in place of failing, some are tried. A run whose read fails has written nothing. One that cannot write has
written what there was room for. Captures of all forms, and random ones, tell octet by octet what they tell at once. The last line is
'N passed, M failed'.

tests/fail_streams.c does this to the program. It is built with the compiler of the toolchain.
"""
import os
import random
import subprocess
import sys
import tempfile

sys.dont_write_bytecode = True
import program
from program import Counts, file_of
from refused import built

sys.path.insert(0, os.path.join(program.ROOT, 'bench'))
from random_captures import some_capture

RUNS = [['show'], ['show', '--any'], ['list'], ['audit'], ['audit', '--from', '2'], ['audit', '--json'], ['why'], ['check'],
        ['check', '--json'], ['page']]
CAPTURES = [('examples', 'loopback.pcap'), ('examples', 'ipv6.pcapng'), *(('tests', 'captures', name) for name in (
    'cooked1.pcap', 'cooked2.pcap', 'loopback.pcapng', 'vlan.pcap'))]
# how many random captures are read octet by octet
DRAWN = 300
READ = 'rtps-audit: -: Connection reset by peer\nrtps-audit: cannot read input\n'
WRITE = 'rtps-audit: cannot write output\n'


def some(most):
    """places below this one, with the first and the last"""
    return sorted({*range(0, most, max(1, most // 12)), most - 1})


class Streams(Counts):
    """tests of a program with a library that is preloaded"""

    def __init__(self, library, program):
        super().__init__()
        self.library, self.program = library, program

    def run(self, words, octets, **settings):
        """standard output, standard error and the status"""
        told = {name: str(value) for name, value in settings.items()}
        done = subprocess.run([self.program, *words, '-'], input=octets, capture_output=True,
                              env={**os.environ, 'LD_PRELOAD': self.library, **told})
        return done.stdout, done.stderr.decode(), done.returncode

    def is_whole(self, words, octets, name=''):
        """what a run prints, which is the same where it is given one octet at a time"""
        whole = subprocess.run([self.program, *words, '-'], input=octets, capture_output=True)
        wanted = whole.stdout, whole.stderr.decode(), whole.returncode
        self.holds(f'{words}{name}: octet by octet', wanted, self.run(words, octets))
        return whole.stdout

    def fails(self, words, octets):
        """how many reads and how many writes of a run are tried"""
        text = self.is_whole(words, octets)
        reads, writes = (range(most) if words == RUNS[0] else some(most) for most in (len(octets) + 1, len(text)))
        for place in reads:
            self.holds(f'{words}: read {place + 1} fails', (b'', READ, 3), self.run(words, octets, FAILED_READ=place + 1))
        for room in writes:
            kept = text[:room], WRITE, 3
            self.holds(f'{words}: write {room + 1} fails', kept, self.run(words, octets, OUTPUT_ROOM=room))
        for room in some(len(text)):
            kept = text[:room], WRITE, 3
            self.holds(f'{words}: write {room + 1} takes none', kept, self.run(words, octets, OUTPUT_ROOM=room, OUTPUT_STOPS=1))
        return len(reads), len(writes) + len(some(len(text)))


def captures(tests):
    """captures of all forms and random ones, of which many have faults: blocks of one octet tell what the whole file tells"""
    rng = random.Random(0)
    stored = [file_of(*path) for path in CAPTURES]
    drawn = [some_capture(rng) for _ in range(DRAWN)]
    for place, octets in enumerate(stored + drawn):
        tests.is_whole(['show', '--any'], octets, f', capture {place}')
    print(f'captures octet by octet: {len(stored)} and {DRAWN} random ones')


def main():
    if len(sys.argv) != 2:
        raise SystemExit(__doc__)
    with tempfile.TemporaryDirectory() as folder:
        tests = Streams(built(folder, 'fail_streams'), os.path.realpath(sys.argv[1]))
        for form, octets in (('a text', file_of('examples', 'pose.rec')), ('a capture', file_of('examples', 'loopback.pcap'))):
            tried = [tests.fails(words, octets) for words in RUNS]
            reads, writes = (sum(one) for one in zip(*tried))
            print(f'{form}: {reads} reads and {writes} writes that fail')
        captures(tests)
    return tests.told()


if __name__ == '__main__':
    sys.exit(main())
