#!/usr/bin/env python3
"""Tests the program where it reads a file again: `audit` and `list`, which keep no datagram.

    tests/passes.py PROGRAM

What they print of a file is what they print of the same octets from standard input, which are held in memory: of each example, each row of
tests/rows, each recording of real stacks, captures that have faults, and random ones, also where each read gives one octet. A file that
changes, shrinks or fails between two passes is told; one that grows is read as far as it was. A capture of 2 GiB, most of which is a
hole of the file, is read within 256 MiB of address space. The last line is 'N passed, M failed'.

tests/change_files.c does this to the program. It is built with the compiler of the toolchain.
"""
import os
import random
import resource
import subprocess
import sys
import tempfile

sys.dont_write_bytecode = True
import program
from program import Counts, file_of
from refused import built

sys.path.insert(0, os.path.join(program.ROOT, 'bench'))
import capture_writer as writer
import crossing
import reference
from random_captures import some_capture
from random_recordings import some_input, text_of_datagrams
from random_systems import some_recorded

RUNS = [['audit'], ['list'], ['audit', '--any'], ['list', '--any'], ['audit', '--from', '2'], ['audit', '--fragments'], ['audit', '--json']]
LIMITS = [[view, *words] for view in ('list', 'audit') for words in (
    ['--max-datagrams', '5'], ['--max-datagrams', '6'], ['--max-datagrams', '7'], ['--max-octets', '99'], ['--any', '--max-octets', '900'])]
# texts that are short, empty, long or faulty
TEXTS = [b'', b'5', b'52', b'52\r', b'#', b'\r\n', b'zz\n', b'52\n5\n', b'\n\n\n\n', b'5254\nzz', b'52\n' * 8, b'#' + b'5' * 200000 + b'\n52', b'5' * 131070,
         b'5' * 131072, b'#\n' * 70000 + b'5']
FOLDERS = 'examples', 'tests/rows', 'tests/stacks', 'tests/captures'
# how many random recordings are read so, each as a text, a classic capture and a pcapng file
DRAWN = 60
CHANGED = b'', 'rtps-audit: the file changed while it was read\n', 3
GIB = 1 << 30
# what the program may take beyond its own octets and those of the libraries that it is loaded with
ROOM, LIBRARIES = 256 << 20, 8 << 20


def stored():
    """recordings of the repository, by their names"""
    for folder in FOLDERS:
        for name in sorted(os.listdir(os.path.join(program.ROOT, folder))):
            if name.endswith(('.rec', '.pcap', '.pcapng')):
                yield name, file_of(folder, name)


def classic(datagrams):
    """a classic capture of these datagrams"""
    return writer.capture([writer.packet(datagram) for datagram in datagrams])


def drawn(rng):
    """a random recording in each form; some are cut"""
    text = rng.choice([some_recorded, some_input, lambda rng: text_of_datagrams(crossing.some_crossing(rng))])(rng)
    datagrams = reference.recording_of(text)
    yield text
    yield some_capture(rng)
    if isinstance(datagrams, list):
        octets = classic(datagrams)
        yield octets if rng.random() < 0.7 else octets[:rng.randrange(len(octets) + 1)]
        yield writer.pcapng([writer.packet(datagram) for datagram in datagrams])


class Passes(Counts):
    """tests of a program with a library that is preloaded"""

    def __init__(self, library, tested, folder):
        super().__init__()
        self.library, self.program, self.file = library, tested, os.path.join(folder, 'file')

    def write(self, octets):
        with open(self.file, 'wb') as file:
            file.write(octets)

    def run(self, words, **settings):
        """standard output, standard error and the status of a run on the file"""
        told = {name: str(value) for name, value in settings.items()}
        done = subprocess.run([self.program, *words, self.file], capture_output=True, stdin=subprocess.DEVNULL,
                              env={**os.environ, 'LD_PRELOAD': self.library, **told})
        return done.stdout, done.stderr.decode(), done.returncode

    def held(self, words, octets):
        """the same of standard input, by the name of the file"""
        done = subprocess.run([self.program, *words, '-'], input=octets, capture_output=True)
        return done.stdout, done.stderr.decode().replace('audit: -:', f'audit: {self.file}:'), done.returncode

    def agrees(self, name, octets, runs):
        """from a file as from standard input, and octet by octet"""
        self.write(octets)
        for words in runs:
            wanted = self.held(words, octets)
            self.holds(f'{words}: {name}', wanted, self.run(words))
            if len(octets) < 20000:
                self.holds(f'{words}: {name}, octet by octet', wanted, self.run(words, SHORT_READS=1))


def recordings(tests):
    found = list(stored())
    for name, octets in found:
        tests.agrees(name, octets, RUNS[:4])
    for place, octets in enumerate(TEXTS):
        tests.agrees(f'text {place}', octets, RUNS[:2] + LIMITS)
    rng = random.Random(1)
    for place in range(DRAWN):
        for form, octets in enumerate(drawn(rng)):
            tests.agrees(f'random recording {place}, form {form}', octets, rng.sample(RUNS + LIMITS, 4))
    print(f'from a file as from standard input: {len(found)} recordings and {DRAWN} random ones')


def twice_sent():
    """a recording in which a payload came again, so that there is a third pass"""
    datagrams = reference.recording_of(file_of('examples', 'open.rec'))
    return datagrams[:3] + [datagrams[2]] + datagrams[3:]


def changes(tests):
    """what happens between two passes"""
    datagrams = twice_sent()
    for octets in classic(datagrams), text_of_datagrams(datagrams):
        tests.write(octets)
        whole = tests.run(['audit'])
        tests.holds('audit: nothing happens', tests.held(['audit'], octets), whole)
        for number in 2, 3:
            tests.holds(f'an octet is another one in pass {number}', CHANGED, tests.run(['audit'], CHANGED_PASS=number, CHANGED_AT=len(octets) - 30))
            tests.holds(f'the file is cut before pass {number}', CHANGED, tests.run(['audit'], CUT_PASS=number, CUT_AT=len(octets) // 2))
            failed = b'', f'rtps-audit: {tests.file}: Input/output error\nrtps-audit: cannot read input\n', 3
            tests.holds(f'a read of pass {number} fails', failed, tests.run(['audit'], FAILED_PASS=number))
            tests.holds(f'pass {number} cannot begin', failed, tests.run(['audit'], UNSOUGHT_PASS=number))
            with tempfile.NamedTemporaryFile() as more:
                more.write(octets[24:] if octets[0] != ord('5') else octets)
                more.flush()
                tests.holds(f'the file grows before pass {number}', whole, tests.run(['audit'], GROWN_PASS=number, GROWN_BY=more.name, GROWN_FILE=tests.file))
                tests.write(octets)


def large(tests):
    """a capture of 2 GiB: the datagrams of a recording, each behind a frame that is a hole of the file"""
    datagrams = twice_sent()
    hole = 2 * GIB // len(datagrams) // 65535
    with open(tests.file, 'wb') as file:
        file.write(writer.start())
        for datagram in datagrams:
            for _ in range(hole):
                file.write(writer.record(b'', size=65535))
                file.seek(65535, os.SEEK_CUR)
            file.write(writer.record(writer.packet(datagram)))
        size = file.tell()
    words = ['audit', '--max-octets', str(4 * GIB)]
    own = os.path.getsize(tests.program) + LIBRARIES

    def bound():
        resource.setrlimit(resource.RLIMIT_AS, (ROOM + own, ROOM + own))
    done = subprocess.run([tests.program, *words, tests.file], capture_output=True, preexec_fn=bound)
    rows = tests.held(['audit'], classic(datagrams))[0].decode()
    rows = rows[:rows.rindex('ignored')] + f'ignored {hole * len(datagrams)}\n'
    tests.holds(f'a capture of {size} octets', (rows, '', 1), (done.stdout.decode(), done.stderr.decode(), done.returncode))


def main():
    if len(sys.argv) != 2:
        raise SystemExit(__doc__)
    with tempfile.TemporaryDirectory() as folder:
        tests = Passes(built(folder, 'change_files'), os.path.realpath(sys.argv[1]), folder)
        recordings(tests)
        changes(tests)
        large(tests)
    return tests.told()


if __name__ == '__main__':
    sys.exit(main())
