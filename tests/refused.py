#!/usr/bin/env python3
"""Tests that refused memory is reported, and that a refusal changes nothing.

    tests/refused.py PROGRAM CALLS

PROGRAM is rtps-audit, and CALLS the built program of crates/rtps_trials. Each call that CALLS knows, and each subcommand
of PROGRAM, is run once for each request for memory that it makes, and this request is refused. A call has to return that
memory was refused. When it is made again, it has to return what it returns without a refusal. A subcommand has to end with
status 3, and must not have written anything. Reading the command line may succeed all the same; then it has to choose the same.
A request for a smaller block gives room back. It may be refused too, and then has to change nothing at all.
Each prints a line with how many requests were refused. The last line is 'N passed, M failed'.

One request is refused by tests/refuse_requests.c, which is built with the compiler of the toolchain.
"""
import os
import shutil
import subprocess
import sys
import tempfile

sys.dont_write_bytecode = True
from any_captures import fragment
from captures import capture, udp
from program import ROOT, VIEWS, Counts, file_of, text_of
from reference import recording_of, words_of
import make

# The calls of the libraries, and those of them that hear what a writer says to readers that it names.
CALLS = ['judge_plain', 'judge_merged', 'write_list', 'write_message']
OF_NAMED = ['judge_plain', 'judge_merged']

# What the library says of a request that it refuses: that it is one, or one for a smaller block.
REFUSED, GIVEN_BACK = 'refused', 'given back'

# Any request may go on.
ALL = 1 << 62

# The size of the requests between which CALLS has its requests counted, as in its source.
MARK = 7654321


def built(folder, name='refuse_requests'):
    """the library that refuses a request, or another one of this folder"""
    rt = shutil.which('rt')
    kit = os.path.join(os.path.dirname(os.path.dirname(os.path.realpath(rt))), 'toolchain', 'bin', 'clang') if rt else ''
    compiler = [kit, '-nostdlib', '-fuse-ld=lld'] if os.path.exists(kit) else ['cc']
    library = os.path.join(folder, f'{name}.so')
    subprocess.run([*compiler, '-O2', '-shared', '-fPIC', '-o', library, os.path.join(ROOT, 'tests', f'{name}.c')], check=True)
    return library


def run(library, words, request, text, mark):
    """standard output, standard error without what the library says, the status, and what it says, if a request was refused"""
    settings = {**os.environ, 'LD_PRELOAD': library, 'REFUSED_REQUEST': str(request), 'REFUSED_MARK': str(mark)}
    done = subprocess.run(words, input=text, capture_output=True, env=settings)
    lines = done.stderr.decode().splitlines()
    said = [line for line in lines if line in (REFUSED, GIVEN_BACK)]
    told = [line for line in lines if line not in said]
    return (done.stdout.decode(), told, done.returncode), ''.join(said)


def requests_of(library, words):
    """how many requests a run makes"""
    request = 1
    while run(library, words, request, b'', 0)[1]:
        request += 1
    return request - 1


def sweep(library, words, text, wanted, may_go_on, mark=0):
    """Refuses each request in turn: how many times that is answered as wanted, how many times as with ample memory, which
    so many of the first may do and each for a smaller block has to, and how often otherwise."""
    ample, _ = run(library, words, 0, text, mark)
    told = went_on = failed = request = 0
    while True:
        request += 1
        answer, said = run(library, words, request, text, mark)
        if not said:
            return told, went_on, failed + (answer != ample)
        if answer == wanted and said == REFUSED:
            told += 1
        elif answer == ample and (said == GIVEN_BACK or request <= may_go_on):
            went_on += 1
        else:
            failed += 1
            print(f'-- request {request} of {words[1:]}: {answer}'[:500])


def many_endpoints():
    """a recording of 12 participants, writers and readers, of which one pair speaks"""
    datagrams = []
    for i in range(12):
        prefixes = bytes([0xaa - i]) * 12, bytes([0xbb + i]) * 12
        for built_in, prefix, entity in ((b'\0\0\3\xc2', prefixes[0], make.WRITER), (b'\0\0\4\xc2', prefixes[1], make.READER)):
            datagrams.append(make.announced(built_in, prefix, entity, make.RELIABLE).replace(b'pose', b'po%02d' % (i % 7)))
        payload = b'\0\2\0\0\0\x50\0\x10' + prefixes[0] + b'\0\0\1\xc1\0\1\0\0'
        datagrams.append(make.header(prefixes[0]) + make.data(b'\0\1\0\xc2', 1, payload))
    datagrams += make.samples([*range(1, 40, 2), *range(2, 40, 2)], 39)
    return text_of(datagrams)


def many_ranges():
    """a recording of one pair, with a GAP whose list has 128 ranges, and of the numbers between them the first, and all"""
    datagrams = [*make.announcements(1), make.header(make.A) + make.gap(make.WRITER, 1, 1000, [0xaaaaaaaa] * 8)]
    datagrams += make.samples([1001], 1002)
    datagrams += make.samples(range(1003, 1256, 2), 1255)
    return text_of(datagrams)


def named_readers():
    """a recording of a writer and four readers of two participants, which are told numbers by name, by participant and by
    entity id, with rows in conflict, open and unfounded; and of what somebody says that nobody announces"""
    others = bytes([0xcc]) * 12
    second = b'\0\0\2\4'
    readers = [(make.B, make.READER), (make.B, second), (others, make.READER), (others, second)]
    datagrams = [make.announced(b'\0\0\3\xc2', make.A, make.WRITER, b'')]
    datagrams += [make.announced(b'\0\0\4\xc2', prefix, entity, make.RELIABLE) for prefix, entity in readers]
    said = make.data(make.WRITER, 1, bytes(8)) + make.gap(make.WRITER, 4, 8, [0xaaaaaaaa] * 2, 64)
    named = make.data(make.WRITER, 1, bytes([1] * 8), make.READER) + make.data(make.WRITER, 2, bytes(8))
    datagrams.append(make.header(make.A) + said + make.data(make.WRITER, 3, bytes(8), second))
    datagrams.append(make.header(make.A) + make.to(make.B) + named + make.gap(make.WRITER, 3, 4, [1], 32, make.READER))
    datagrams.append(make.header(make.A) + make.to(others) + make.data(make.WRITER, 2, bytes(8), second) + make.heartbeat(make.WRITER, 2, 9))
    datagrams += [make.header(prefix) + make.to(make.A) + make.ack_nack(entity, make.WRITER, base) for (prefix, entity), base in zip(readers, (4, 3, 6, 2))]
    datagrams.append(make.header(b'\xdd' * 12) + make.data(make.WRITER, 1, bytes(8)) + make.heartbeat(make.WRITER, 1, 1))
    return text_of(datagrams)


def in_fragments():
    """a recording of a writer and two readers of two participants, whose announcements and samples come in fragments: for all,
    for a participant and for a reader; of one number in two shapes, of one with other octets, and of one that is never whole"""
    others = bytes([0xcc]) * 12
    datagrams = [make.announced(b'\0\0\3\xc2', make.A, make.WRITER, b'')]
    for prefix in (make.B, others):
        known = make.announced(b'\0\0\4\xc2', prefix, make.READER, make.RELIABLE)
        datagrams += [known[:20] + b''.join(make.data_frags(known[32:36], 1, known[44:], 30))]
    sample = bytes(range(1, 17))
    one, two, three = (make.data_frags(make.WRITER, n, sample, 6) for n in (1, 2, 3))
    named, other = make.data_frags(make.WRITER, 2, sample, 4, make.READER), make.data_frags(make.WRITER, 1, bytes(16), 6)
    parts = [one[2] + one[0], make.to(make.B) + one[1], make.to(others) + one[1] + two[0], two[1] + two[2] + b''.join(named), other[1] + three[0]]
    datagrams += [make.header(make.A) + part for part in parts]
    datagrams += [make.header(prefix) + make.to(make.A) + make.ack_nack(make.READER, make.WRITER, 3) for prefix in (make.B, others)]
    return text_of(datagrams)


def packets_in_fragments(datagrams):
    """a capture in which each datagram comes in two fragments of its packet"""
    frames = []
    for number, datagram in enumerate(datagrams):
        frames += [fragment(udp(datagram), place, size, number) for place, size in ((0, 16), (16, 1 << 16))]
    return capture(frames)


def of_calls(calls, recording):
    """what is tried of the libraries: a name, the words, the input, what is wanted, how many requests may go on, and the mark"""
    for names, name, text in ((CALLS, '', recording), (OF_NAMED, ' of readers that are named', named_readers())):
        for call in names:
            yield f'{call}{name}', [calls, 'refuse', call], text, (f'{call}: Memory, and then as if it were the first\n', [], 0), 0, MARK


def written(folder, octets):
    """the name of a file of these octets"""
    handle, name = tempfile.mkstemp(dir=folder)
    with os.fdopen(handle, 'wb') as file:
        file.write(octets)
    return name


def of_files(folder, recording):
    """runs of files, which are read two or three times: a name, the words, and standard input"""
    names = {text: written(folder, text) for text in (recording, many_endpoints(), named_readers(), file_of('examples', 'loopback.pcap'))}
    return [(f' of a file, {place}', [command, name], b'') for place, name in enumerate(names.values()) for command in ('audit', 'list')]


def of_program(library, program, recording, folder):
    """what is tried of the program: of a run on a recording, the requests may go on that are made until the FILE is opened"""
    nothing = '', ['rtps-audit: out of memory'], 3
    refused = [['--help'], ['audit', '--help'], ['--version'], ['audit'], [], ['show', '--quiet'], ['audit', '--from', '0', '-']]
    for words in refused:
        yield f"rtps-audit {' '.join(words)}", [program, *words], recording, nothing, ALL
    for words in ['audit', 'absent.rec'], ['audit', '--from', '2', 'absent.rec'], ['sample']:
        yield f"rtps-audit {' '.join(words)}", [program, *words], b'', nothing, ALL
    loopback = file_of('examples', 'loopback.pcap')
    runs = [('', [*words_of(view), '-'], recording) for view in VIEWS]
    runs.append((' from 3 on', ['why', '--from', '3', '-'], recording))
    runs.append((' of a GAP whose list has 128 ranges', ['audit', '-'], many_ranges()))
    for words in ['list', '-'], ['audit', '-']:
        runs.append((' of 24 endpoints', words, many_endpoints()))
    for words in ['audit', '--json', '-'], ['why', '-']:
        runs.append((' of readers that are named', words, named_readers()))
    runs.append((' with missed numbers', ['why', '-'], file_of('examples', 'missed.rec')))
    for words in ['page'], ['check'], ['check', '--json']:
        runs.append(('', [*words, '-'], recording))
    runs.append((' of readers that are named', ['page', '-'], named_readers()))
    for words in ['check'], ['check', '--json']:
        runs.append((' of readers that are named', [*words, '--topic', 'p*', '--expect', '5', '-'], named_readers()))
    for words in ['show', '--fragments'], ['list', '--fragments'], ['audit', '--fragments'], ['audit', '--json', '--fragments'], ['why'], ['page'], ['check']:
        runs.append((' of samples in fragments', [*words, '-'], in_fragments()))
    runs.append((' of a capture', ['audit', '--max-datagrams', '6', '--max-octets', '100000', '-'], loopback))
    runs.append((' of a capture', ['show', '-'], loopback))
    runs.append((' of any capture', ['audit', '--any', '-'], file_of('examples', 'ipv6.pcapng')))
    runs.append((' of packets in fragments', ['show', '--any', '-'], packets_in_fragments(recording_of(recording))))
    runs += of_files(folder, recording)
    for name, words, text in runs:
        of_words = requests_of(library, [program, *words[:-1], 'absent.rec'])
        yield f"rtps-audit {' '.join(words[:-1])} {'-' if words[-1] == '-' else 'FILE'}{name}", [program, *words], text, nothing, of_words


def main():
    if len(sys.argv) != 3:
        raise SystemExit(__doc__)
    program, calls = map(os.path.realpath, sys.argv[1:])
    recording = file_of('examples', 'pose.rec')
    tests = Counts()
    with tempfile.TemporaryDirectory() as folder:
        library = built(folder)
        for name, *one in (*of_calls(calls, recording), *of_program(library, program, recording, folder)):
            told, went_on, others = sweep(library, *one)
            tests.count(told, others + (told == 0))
            print(f'{name}: {told} requests refused' + (f', and {went_on} that changed nothing' if went_on else ''))
    return tests.told()


if __name__ == '__main__':
    sys.exit(main())
