#!/usr/bin/env python3
"""Tests the program on samples that come in DATA_FRAG submessages: what it answers with `--fragments`, and `check` always.

    tests/in_fragments.py PROGRAM

What is wanted was worked out, is what the second implementation, bench/reference.py, says, or is the verdict of all runs of
a reader that takes fragments one by one, bench/fragment_runs.py. Each group prints a line with what was counted. The last line
is 'N passed, M failed'.
"""
import random
import resource
import subprocess
import sys

sys.dont_write_bytecode = True
import program
import fragment_runs
import make
import reference
from fragment_runs import PIECES, PIECE_ROWS, ROWS, row_datagrams
from make import ack_nack, data_frag, data_frags, header, to
from program import VIEWS, file_of, text_of
from random_recordings import START, some_pieces

A, B, WRITER, READER = make.A, make.B, make.WRITER, make.READER
FRAGMENTS = ('--fragments',)
GUIDS = f'{A.hex()}.{WRITER.hex()} {B.hex()}.{READER.hex()}'
NAME = bytes.fromhex(PIECES['HA'])


def pieces_by_table(tests):
    """what is a piece, and what it is shown as"""
    text = text_of([NAME + bytes.fromhex(octets) for octets, _ in PIECE_ROWS])
    wanted = []
    for place, (octets, fields) in enumerate(PIECE_ROWS, 1):
        wanted += [f'datagram {place} version 2.5 vendor 0000 prefix {A.hex()}', fragment_runs.piece_line(octets, fields)]
    tests.answers('submessages that are pieces, or not', 'show', text, ''.join(line + '\n' for line in wanted), words=FRAGMENTS)
    print(f'submessages that are pieces, or not: {len(PIECE_ROWS)}')


def rows_in_each_view(tests):
    """the worked rows, whose audits are stored in tests/rows"""
    for row, _, _ in ROWS:
        tests.agrees(row, text_of(row_datagrams(row)), words=FRAGMENTS)
        tests.agrees(row, text_of(row_datagrams(row)), ('why',))
    print(f'worked rows, in each view: {len(ROWS)}')


# ---- verdicts by runs

def verdict_by_runs(recording, w, r, first):
    """the verdict of all runs, where there are not too many"""
    told = fragment_runs.Told(recording, w, r, first, fragment_runs.BOUND)
    return fragment_runs.Runs(told).verdict() if len(told.things) <= fragment_runs.MOST_THINGS else None


def small_recordings(tests):
    rng, seen, count = random.Random(1), {}, 300
    for place in range(count):
        datagrams = some_pieces(rng)
        recording = [reference.acts_of(datagram, True) for datagram in datagrams]
        for first in (1, rng.randint(2, 5)):
            rows = tests.run('audit', text_of(datagrams), (*FRAGMENTS, '--from', str(first)))[0].splitlines()[1:-1]
            for row in rows:
                writer, reader, *verdict = row.split()
                guids = [bytes.fromhex(guid.replace('.', '')) for guid in (writer, reader)]
                wanted = verdict_by_runs(recording, *guids, first)
                if wanted is not None:
                    tests.holds(f'recording {place} from {first} on, {reader}', wanted, ' '.join(verdict))
                    seen[verdict[0]] = seen.get(verdict[0], 0) + 1
    tests.holds('verdicts of each kind', [], [kind for kind in ('unfounded', 'conflict', 'open', 'complete') if seen.get(kind, 0) < 20])
    told = ', '.join(f'{number} {kind}' for kind, number in sorted(seen.items()))
    print(f'verdicts by every run: {told}, of {count} recordings')


def random_recordings(tests):
    rng, count = random.Random(2), 150
    for place in range(count):
        text = text_of(some_pieces(rng))
        tests.agrees(f'random recording {place}', text, words=FRAGMENTS)
        tests.agrees(f'random recording {place}', text, ('check', 'why'))
    print(f'random recordings in each view, and check: {count}')


# ---- cut and changed

def cut_and_changed(tests):
    datagrams = row_datagrams('HA+G+H, HA+TB+GK+ONE+MORE')[2:]
    cuts = [datagram[:length] for datagram in datagrams for length in range(1, len(datagram))]
    changes = [datagram[:at] + bytes([value]) + datagram[at + 1:] for datagram in datagrams for at, octet in enumerate(datagram)
               for value in (0, 0xff, octet ^ 1)]
    tests.agrees('datagrams that are cut', text_of(cuts), ('show', 'audit'), FRAGMENTS)
    tests.agrees('datagrams with a changed octet', text_of(changes), ('show', 'audit'), FRAGMENTS)
    print(f'cuts: {len(cuts)} of {len(datagrams)} datagrams with fragments; changed octets: {len(changes)}')


def audits_of_changed(tests):
    recording, count = row_datagrams('HA+G, HA+TB+H, HB+TA+A2'), 0
    for place, datagram in enumerate(recording[2:], 2):
        for at, octet in enumerate(datagram):
            for value in {0, 0xff, octet ^ 1} - {octet}:
                changed = datagram[:at] + bytes([value]) + datagram[at + 1:]
                text = text_of(recording[:place] + [changed] + recording[place + 1:])
                tests.agrees(f'octet {at} of datagram {place + 1} is {value}', text, ('why',))
                count += 1
    print(f'why of changed octets: {count}')


# ---- many fragments, and large samples

def packed(submessages, before=header(A)):
    """datagrams of these submessages, as large as they may be"""
    datagrams = [before]
    for submessage in submessages:
        if len(datagrams[-1]) + len(submessage) > 65000:
            datagrams.append(before)
        datagrams[-1] += submessage
    return datagrams


def answered(datagrams, base):
    return [*START, *datagrams, header(B) + to(A) + ack_nack(READER, WRITER, base)]


def audited(row, datagrams, fragments=0):
    return f'pairs 1\n{GUIDS} {row}\ndatagrams {len(datagrams)} refused 0 skipped 0 fragments {fragments} undirected 0 unsettled 0\n'


def many_fragments(tests):
    """one sample in 100,000 fragments of one octet: in order, from the last to the first, each twice, with one that is absent, and
    with one of other octets"""
    count = 100000
    parts = data_frags(WRITER, 1, bytes(count), 1)
    other = data_frag(WRITER, 1, 7, b'x', 1, count)
    for name, sent in (('in order', parts), ('from the last', parts[::-1]), ('each twice', parts * 2), ('in two parts', parts[::2] + parts[1::2])):
        datagrams = answered(packed(sent), 2)
        tests.answers(f'fragments {name}', 'audit', text_of(datagrams), audited('complete 1', datagrams), words=FRAGMENTS)
    datagrams = answered(packed(parts[:500] + parts[501:]), 2)
    tests.answers('one fragment is absent', 'audit', text_of(datagrams), audited(f'unfounded {len(datagrams)} 1', datagrams, count - 1), 1, FRAGMENTS)
    datagrams = answered(packed([*parts, other]), 2)
    tests.answers('one fragment has other octets', 'audit', text_of(datagrams), audited('conflict 1', datagrams), 1, FRAGMENTS)
    print(f'one sample in {count} fragments: 6 ways')


def many_samples(tests):
    """20,000 samples in two fragments, of which the first ones come before all second ones"""
    count = 20000
    samples = [data_frags(WRITER, n, n.to_bytes(8, 'big'), 4) for n in range(1, count + 1)]
    orders = {'one by one': [part for sample in samples for part in sample], 'first halves first': [sample[k] for k in (0, 1) for sample in samples]}
    for name, sent in orders.items():
        datagrams = answered(packed(sent), count + 1)
        tests.answers(f'samples, {name}', 'audit', text_of(datagrams), audited(f'complete {count}', datagrams), words=FRAGMENTS)
    print(f'samples in two fragments: {count}, in {len(orders)} orders')


def samples_that_are_named(tests):
    """samples of 4 GiB, of which two octets come, take no memory for what does not"""
    most = 2 ** 32 - 1
    sent = [data_frag(WRITER, n, first, b'x', 1, most) for n in range(1, 1001) for first in (1, most)]
    datagrams = answered(packed(sent), 1)
    limit = lambda: resource.setrlimit(resource.RLIMIT_AS, (64 << 20, 64 << 20))
    done = subprocess.run([tests.program, 'audit', *FRAGMENTS, '-'], input=text_of(datagrams), capture_output=True, preexec_fn=limit)
    wanted = audited('open 1', datagrams, len(sent)), '', 1
    tests.holds('samples of 4 GiB', wanted, (done.stdout.decode(), done.stderr.decode(), done.returncode))
    print(f'samples of 4 GiB of which two octets come: {len(sent) // 2}')


def without_fragments(tests):
    """the examples that have no DATA_FRAG are answered as without the option"""
    count = 0
    for name in ('pose', 'open', 'missed', 'gone', 'conflict', 'unfounded', 'cyclone_reliable'):
        octets = file_of('examples', f'{name}.rec')
        for view in VIEWS:
            tests.holds(f'{view} of {name}.rec', tests.run(view, octets), tests.run(view, octets, FRAGMENTS))
            count += 1
    print(f'answers without DATA_FRAG: {count}')


if __name__ == '__main__':
    sys.exit(program.main(__doc__, (pieces_by_table, rows_in_each_view, small_recordings, random_recordings, cut_and_changed, audits_of_changed,
                                    many_fragments, many_samples, samples_that_are_named, without_fragments)))
