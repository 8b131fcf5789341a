#!/usr/bin/env python3
"""Measures the figures of docs/PERFORMANCE.md and of the README, and prints their tables, ready to paste.

    figures.py [--program PROGRAM] [--beside PLAIN] [--runs RUNS] [NAME ..]

A NAME is that of a row: a recording, or a recording and a command, as robot or robot_why; without a command it is `audit`.
Without a NAME all rows are measured, which takes some minutes. PROGRAM is the built program of this repository if none is
given. PLAIN is another program with the commands show, list and audit; without it, its column is empty.

Other programs are run on the same file: `cat`; `tshark` on a capture, if it is installed; `xxd -r -p` on a text. Recordings
are made in the folder RTPS_BENCH_DIR, if that is set, and stay there; else in a folder that is removed. A time is the least
wall time of RUNS runs that take turns (3 if none is given). Memory is the greatest that a run took. Nothing here passes or
fails.
"""
import os
import shutil
import sys
import tempfile
from dataclasses import dataclass

import make
from make import READER, WRITER, ack_nack, announced, data, gap, header, heartbeat, to
from measure import run

ROOT = os.path.dirname(os.path.dirname(os.path.realpath(__file__)))
PROGRAM = os.path.join(ROOT, 'crates', 'rtps_main', 'out', 'rtps_main')
COMMANDS = {'show': ['show'], 'list': ['list'], 'audit': ['audit'], 'why': ['why'], 'json': ['audit', '--json'], 'page': ['page'], 'check': ['check']}
PLAIN_COMMANDS = 'show', 'list', 'audit'
KIB, MIB, GIB = 1 << 10, 1 << 20, 1 << 30


def prefix(place):
    return b'\xcc' * 8 + place.to_bytes(4, 'big')


def writer_at(place):
    return (0x103 + 256 * place).to_bytes(4, 'big')


def reader_at(place):
    return (0x104 + 256 * place).to_bytes(4, 'big')


def announcement(side, source, entity, topic=0):
    """the announcement of a RELIABLE writer or reader of the topic with this number"""
    built_in = b'\0\0\3\xc2' if side == 'writer' else b'\0\0\4\xc2'
    return announced(built_in, source, entity, make.RELIABLE).replace(b'pose', b'po%02d' % topic)


def robot(datagrams=300000, octets=100):
    """60 writers in 20 participants, each with three readers in others. Every tenth sample of a writer has a HEARTBEAT that
    asks, and each reader answers it."""
    writers = [(prefix(i % 20), writer_at(i), [(prefix((i + k) % 20), reader_at(i)) for k in (1, 2, 3)]) for i in range(60)]
    for topic, (source, entity, readers) in enumerate(writers):
        yield announcement('writer', source, entity, topic)
        yield from (announcement('reader', *reader, topic) for reader in readers)
    for number in range(1, datagrams // 780 * 10 + 1):
        asks = number % 10 == 0
        for source, entity, readers in writers:
            asking = heartbeat(entity, 1, number) if asks else b''
            yield header(source) + data(entity, number, bytes(octets)) + asking
            if asks:
                yield from (header(reader) + to(source) + ack_nack(id, entity, number + 1) for reader, id in readers)


def one_pair(order, total, octets=64):
    yield from make.announcements(1)
    for number in make.ORDERS[order](total):
        yield header(make.A) + data(WRITER, number, bytes(octets))
    yield header(make.A) + heartbeat(WRITER, 1, total)
    yield header(make.B) + to(make.A) + ack_nack(READER, WRITER, total + 1)


def pairs(count=300):
    """writers of one topic in one participant, as many readers in another; each reader acknowledges each writer"""
    for i in range(count):
        yield announcement('writer', make.A, writer_at(i))
        yield announcement('reader', make.B, reader_at(i))
    for i in range(count):
        yield header(make.A) + data(writer_at(i), 1, bytes(64)) + heartbeat(writer_at(i), 1, 1)
    for k in range(count):
        for i in range(0, count, 45):
            answers = b''.join(ack_nack(reader_at(k), writer_at(j), 2) for j in range(i, min(i + 45, count)))
            yield header(make.B) + to(make.A) + answers


def sets(count=100000):
    """numbers that are told gone by sets of 256 bits, to three readers"""
    yield announcement('writer', make.A, WRITER)
    for k in range(3):
        yield announcement('reader', make.B, reader_at(k))
    for i in range(count):
        yield header(make.A) + gap(WRITER, 1 + 256 * i, 1 + 256 * i, [0xffffffff] * 8)
    last = 256 * count
    yield header(make.A) + heartbeat(WRITER, 1, last)
    yield header(make.B) + to(make.A) + b''.join(ack_nack(reader_at(k), WRITER, last + 1) for k in range(3))


def of_kind(kind, megabytes):
    return make.datagrams(kind, megabytes * 1000000)


# By name: the ending of the file, and its datagrams.
RECORDINGS = {
    'small': ('pcap', lambda: one_pair('in_order', 1000)),
    'robot': ('pcap', robot),
    'robot_text': ('rec', robot),
    'limit': ('pcap', lambda: one_pair('in_order', 999996, 164)),
    'pairs': ('pcap', pairs),
    'scatter': ('rec', lambda: one_pair('odd_then_even', 500000)),
    'sets': ('rec', sets),
    'unnamed': ('rec', lambda: of_kind('unnamed', 0)),
    'named': ('rec', lambda: of_kind('named', 0)),
    'smallest': ('rec', lambda: of_kind('hostile', 200)),
    'in_turns': ('rec', lambda: of_kind('in_turns', 2)),
    'not_in_turns': ('rec', lambda: of_kind('not_in_turns', 2)),
    'opened': ('rec', lambda: of_kind('opened', 2)),
    'one_topic': ('rec', lambda: of_kind('one_topic', 2)),
    'every_second': ('rec', lambda: of_kind('every_second', 8)),
    'answers': ('rec', lambda: of_kind('answers', 20)),
}


@dataclass
class Row:
    """a row of a table: its name, what its first columns say, and whether other programs, `audit` of the same recording, or
    the same command on another recording are run beside it"""
    name: str
    said: str
    others: bool = False
    audit: bool = False
    recording: str = ''


# The tables of docs/PERFORMANCE.md: heading, first columns, the heading of the last but one column, rows.
TABLES = [
    ('`audit`', 'Recording', '`tshark`, `cat`, `xxd`', [
        Row('small', 'one pair, 1,000 samples, a capture', others=True),
        Row('robot', 'a robot: 60 writers, 180 readers, 300,000 datagrams, a capture of {size}', others=True),
        Row('robot_text', 'the same as a text of {size}', others=True),
        Row('limit', '1,000,000 datagrams, the default limit, a capture of {size}', others=True),
        Row('pairs', '300 writers and 300 readers of one topic: 90,000 pairs', others=True),
        Row('scatter', '500,000 samples of one writer, the odd numbers first', others=True),
        Row('sets', '25.6 million numbers, said to be gone by sets of 256 bits', others=True),
        Row('unnamed', '100,000 samples to 100 readers', others=True),
        Row('named', 'the same, and each reader is sent four of them again by its name', others=True),
        Row('smallest', 'the smallest submessages, a text of {size}', others=True),
    ]),
    ('Other commands', 'Command', '`audit`', [
        Row('robot_list', "`list` of the robot's capture", audit=True),
        Row('robot_show', "`show` of the robot's capture", audit=True),
        Row('robot_why', "`why` of the robot's capture", audit=True),
        Row('robot_json', "`audit --json` of the robot's capture", audit=True),
        Row('robot_check', "`check` of the robot's capture", audit=True),
        Row('pairs_why', '`why` of 90,000 pairs', audit=True),
    ]),
    ('Slow inputs', 'Input | What is slow', 'Compared with', [
        Row('in_turns', '3,844 readers that are sent numbers in turns, in {size} | `audit`: readers times submessages', recording='not_in_turns'),
        Row('opened_why', 'one writer with many submessages and many rows that are not `complete`, in {size} | `why`, `audit --json`: rows times submessages', audit=True),
        Row('smallest_show', 'the smallest submessages, in {size} | `show`: a line for each submessage, so six octets of text for each octet read', audit=True),
        Row('one_topic_list', 'many writers and many readers of one topic, in {size} | `list`: a line for each two that match, best-effort ones too', audit=True),
        Row('every_second', 'sets of 256 bits with every second bit set, in {size} | `audit`: each set is added range by range'),
        Row('answers', 'nearly all ACKNACKs, in {size} | memory of `audit`: an ACKNACK is kept whole'),
    ]),
]

# The rows of the table of the README: by name, what the first column says.
README = {
    'robot': "`audit` of a robot's capture: 300,000 datagrams, 180 pairs",
    'robot_text': '`audit` of the same as a text',
    'limit': '`audit` of a capture of 1,000,000 datagrams, the default limit',
    'pairs': '`audit` of 90,000 pairs of one topic',
    'robot_why': "`why` of the robot's capture, in another run",
}


def frame(datagram):
    """a record of a capture: an Ethernet frame with the datagram, by UDP over IPv4"""
    udp = b'\x1d\0\x1d\0' + (8 + len(datagram)).to_bytes(2, 'big') + b'\0\0' + datagram
    packet = b'\x45\0' + (20 + len(udp)).to_bytes(2, 'big') + b'\0\0\0\0\x40\x11\0\0' + b'\x0a\0\0\1\x0a\0\0\2' + udp
    whole = b'\2\0\0\0\0\2\2\0\0\0\0\1\x08\0' + packet
    return bytes(8) + len(whole).to_bytes(4, 'little') * 2 + whole


def write(path, datagrams):
    if path.endswith('.rec'):
        return make.write(path, datagrams)
    with open(path, 'wb') as f:
        f.write(bytes.fromhex('d4c3b2a1020004000000000000000000ffff000001000000'))
        f.writelines(map(frame, datagrams))


def path_of(recording, folder):
    """the file of a recording, which is made if it is not there"""
    ending, datagrams = RECORDINGS[recording]
    path = os.path.join(folder, f'{recording}.{ending}')
    if not os.path.exists(path):
        write(path + '.part.' + ending, datagrams())
        os.rename(path + '.part.' + ending, path)
    return path


def split(name):
    """the recording and the command that a name says"""
    recording, _, view = (name, '', 'audit') if name in RECORDINGS else name.rpartition('_')
    if recording not in RECORDINGS or view not in COMMANDS:
        raise SystemExit(__doc__)
    return recording, view


def beside_of(row, path, view, program, folder):
    """what is run beside a row: the name of each, and its words"""
    if row.audit:
        yield '`audit`', [program, 'audit', path]
    if row.recording:
        yield f'`{row.recording}`', [program, *COMMANDS[view], path_of(row.recording, folder)]
    if row.others and path.endswith('.rec'):
        yield '`xxd`', ['xxd', '-r', '-p', path]
    elif row.others and shutil.which('tshark'):
        yield '`tshark`', ['tshark', '-r', path, '-T', 'fields', '-e', 'rtps.sm.id']
    if row.others:
        yield '`cat`', ['cat', path]


def time_text(seconds):
    if seconds < 0.005:
        return 'under 0.01 s'
    return f'{seconds:.2f} s' if seconds < 10 else f'{seconds:.1f} s'


def size_text(octets):
    for unit, name in ((GIB, 'GiB'), (MIB, 'MiB')):
        if octets >= unit:
            return f'{octets / unit:.1f} {name}' if octets < 10 * unit else f'{octets / unit:.0f} {name}'
    return f'{octets / KIB:.0f} KiB'


def measured(row, program, plain, runs, folder):
    """what a row says first; its time and memory; those of the plain program, or nothing; and what is compared, by name"""
    recording, view = split(row.name)
    path = path_of(recording, folder)
    commands = {'': [program, *COMMANDS[view], path]}
    if plain and view in PLAIN_COMMANDS:
        commands['plain'] = [plain, *COMMANDS[view], path]
    commands |= beside_of(row, path, view, program, folder)
    times, peaks = {}, {}
    for _ in range(runs):
        for label, words in commands.items():
            seconds, memory, status = run(words)
            if status > 1:
                raise SystemExit(f'figures.py: {" ".join(words)} ends with status {status}')
            times[label] = min(seconds, times.get(label, seconds))
            peaks[label] = max(memory * KIB, peaks.get(label, 0))
    texts = {label: f'{time_text(times[label])}, {size_text(peaks[label])}' for label in commands if label in ('', 'plain')}
    compared = {label: time_text(times[label]) for label in commands if label not in ('', 'plain')}
    said = row.said.format(size=size_text(os.path.getsize(path)))
    return said, texts[''], texts.get('plain', ''), compared


def print_table(table, names, results, measure):
    """prints the rows of a table that are wanted, each as soon as it is measured"""
    heading, first, compared_heading, rows = table
    wanted = [row for row in rows if not names or row.name in names]
    if not wanted:
        return
    columns = f'{first} | Time, memory | Plain program | {compared_heading} | Measured by'
    print(f'\n## {heading}\n\n| {columns} |\n{"|---" * (columns.count("|") + 1)}|')
    for row in wanted:
        said, own, plain, compared = results[row.name] = measure(row)
        is_one = heading == 'Other commands'
        text = ', '.join(time if is_one else f'{label} {time}' for label, time in compared.items())
        print(f'| {said} | {own} | {plain} | {text} | `bench/figures.py {row.name}` |', flush=True)


def print_readme(results):
    """prints the rows of the README of what was measured"""
    shown = [name for name in README if name in results]
    if shown:
        print('\n## README.md\n\n| Run | Time | Compared with | Command |\n|---|---|---|---|')
    for name in shown:
        own, compared = results[name][1], results[name][3]
        text = next((f'{label} {time}' for label, time in compared.items() if label != '`cat`'), '')
        print(f'| {README[name]} | {own.split(",")[0]} | {text} | `bench/figures.py {name}` |')


def main():
    words, options = sys.argv[1:], {'--program': PROGRAM, '--beside': None, '--runs': '3'}
    while len(words) > 1 and words[0] in options:
        options[words[0]] = words[1]
        words = words[2:]
    listed = [row.name for table in TABLES for row in table[3]]
    if any(word.startswith('-') for word in words):
        raise SystemExit(__doc__)
    if not os.path.exists(options['--program']):
        raise SystemExit(f'figures.py: there is no program {options["--program"]}: bin/build makes it')
    more = [Row(name, f'`{name}`', others=True) for name in words if split(name) and name not in listed]
    results = {}
    with tempfile.TemporaryDirectory() as room:
        folder = os.environ.get('RTPS_BENCH_DIR', room)

        def measure(row):
            return measured(row, options['--program'], options['--beside'], int(options['--runs']), folder)

        for table in [*TABLES, ('Others', 'Recording and command', 'Compared with', more)]:
            print_table(table, words, results, measure)
        print_readme(results)


if __name__ == '__main__':
    main()
