#!/usr/bin/env python3
"""Tests the report that the program prints as JSON.

    tests/reports.py PROGRAM

What is wanted is what the second implementation, bench/reference.py, says, as Python writes it; and what Python reads back
has to be what `list` and `audit` print. Each group prints a line with what was counted. The last line is 'N passed, M
failed'.
"""
import json
import os
import subprocess
import sys
import xml.etree.ElementTree

sys.dont_write_bytecode = True
import program
import reference
import report as reports
from capture_writer import capture, packet
from program import ROOT, file_of, text_of
from random_recordings import A, B, parameter, u
from reference import GREATEST

WRITER, READER = b'\0\0\1\3', b'\0\0\1\4'


def recordings():
    """names and octets of the recordings of the repository"""
    for folder in ('examples',), ('tests', 'rows'):
        for name in sorted(os.listdir(os.path.join(ROOT, *folder))):
            if name.endswith(('.rec', '.pcap')):
                yield '/'.join((*folder, name)), file_of(*folder, name)


def text(name):
    value = u('be', 4, len(name) + 1) + name + b'\0'
    return value + bytes(-len(value) % 4)


def announced(writer, prefix, entity, topic, kind):
    reliable = parameter('be', 0x1a, u('be', 4, 2) + bytes(8))
    names = parameter('be', 5, text(topic)) + parameter('be', 7, text(kind))
    value = b'\0\2\0\0' + parameter('be', 0x5a, prefix + entity) + names + reliable + parameter('be', 1, b'')
    body = b'\0\0\0\x10' + bytes(4) + writer + bytes(7) + b'\1' + value
    return b'RTPS\2\5\0\0' + prefix + b'\x15\4' + u('be', 2, len(body)) + body


def pair(topic=b'pose', kind=b'Pose'):
    return [announced(b'\0\0\3\xc2', A, WRITER, topic, kind), announced(b'\0\0\4\xc2', B, READER, topic, kind)]


def data(number, payload=bytes(8)):
    body = b'\0\0\0\x10' + bytes(4) + WRITER + u('be', 8, number) + payload
    return b'RTPS\2\5\0\0' + A + b'\x15\4' + u('be', 2, len(body)) + body


def heartbeat(first, last):
    return b'RTPS\2\5\0\0' + A + b'\7\0\0\x1c' + bytes(4) + WRITER + u('be', 8, first) + u('be', 8, last) + u('be', 4, 1)


def answer(base, asked=b''):
    """an ACKNACK; the words that are asked hold one bit, for the base"""
    numbers = u('be', 8, base) + u('be', 4, len(asked) // 4) + asked
    body = READER + WRITER + numbers + bytes(4)
    return b'RTPS\2\5\0\0' + B + b'\x0e\0\0\x0c' + A + b'\6\0' + u('be', 2, len(body)) + body


def asking(base):
    return answer(base, b'\x80\0\0\0')


def agrees(tests, name, octets, first=None):
    """the program prints what the second implementation does, and what is read back has the rows of `audit`"""
    words = ('--from', str(first)) if first else ()
    wanted, status = reference.answer('json', octets, first or 1)
    tests.answers(f'{name} {" ".join(words)}', 'json', octets, wanted, status, words)
    report = json.loads(tests.run('json', octets, words)[0])
    lines = tests.run('audit', octets, words)[0].splitlines()
    rows = [' '.join(f'{row[key]}' for key in ('writer', 'reader', 'verdict', 'datagram', 'number') if key in row)
            for row in report['pairs']]
    counts = ' '.join(f'{key} {count}' for key, count in report.items() if key != 'pairs')
    tests.holds(f'the rows of audit: {name}', lines, [f'pairs {len(rows)}', *rows, counts])
    return report


def of_recordings(tests):
    count = 0
    for name, octets in recordings():
        for first in (None, 2):
            agrees(tests, name, octets, first)
            count += 1
    print(f'reports: {count} of recordings of the repository')


def of_names(tests):
    """topics and types of any octet, and of those that JSON writes otherwise"""
    octets = bytes(range(1, 256))
    names = [octets[i:i + 16] for i in range(0, 255, 16)] + [b'', b'a"b\\c', b'\\u0041\\n', b'\xc3\xa9t\xc3\xa9', b'\xff\xfe', b'\0x', b'/' * 300]
    for name in names:
        octets = text_of([*pair(name, name[::-1]), data(1), heartbeat(1, 1), answer(2)])
        report = agrees(tests, f'the name {name[:20]}', octets)
        listed = [line for line in tests.run('list', octets)[0].splitlines() if line.startswith('writer ')]
        row = report['pairs'][0]
        tests.holds(f'the name {name[:20]} as list writes it', True, f' topic "{row["topic"]}" type "{row["type"]}" ' in listed[0])
    print(f'reports: {len(names)} names')


def of_great_numbers(tests):
    for n in (2 ** 53, 2 ** 53 + 1, GREATEST - 1, GREATEST):
        for rest in ([answer(2)], [answer(n)], [data(n), data(n, b'other')], [heartbeat(n, n), answer(n)]):
            report = agrees(tests, f'the number {n}', text_of([*pair(), data(1), heartbeat(1, n), *rest]))
            tests.holds(f'{n} is read back', n, report['pairs'][0]['announced']['number'])
    print('reports: 16 of great numbers')


def of_statuses(tests):
    for name, octets, status in (('complete', file_of('examples', 'pose.rec'), 0), ('open', file_of('examples', 'open.rec'), 1),
                                 ('bad hex', b'525', 2)):
        output, _, got = tests.run('json', octets)
        tests.holds(f'status {status}: {name}', (status, status < 2), (got, output != ''))
    for words in ((), ('--from', '0', os.devnull), (os.path.join(tests.file.name, 'absent'),), ('--max-octets', '1', os.path.join(ROOT, 'examples', 'pose.rec'))):
        done = subprocess.run([tests.program, 'audit', '--json', *words], capture_output=True, stdin=subprocess.DEVNULL)
        tests.holds(f'nothing is printed: {words}', (3 if 'absent' in ''.join(words) else 2, b''), (done.returncode, done.stdout))
    print('reports: 7 with a status')


def of_captures(tests):
    pose = reference.recording_of(file_of('examples', 'pose.rec'))
    for ignored in range(3):
        report = agrees(tests, f'a capture, {ignored} ignored', capture([b''] * ignored + [packet(d) for d in pose]))
        tests.holds('ignored', ignored, report.get('ignored'))
    tests.holds('a text has none', None, agrees(tests, 'no datagrams', b'').get('ignored'))
    print('reports: 4 with and without ignored frames')


def suite_of(output):
    """what examples/junit.py makes of a report: how many tests, how many of them fail, and its status; and the last failure"""
    script = os.path.join(ROOT, 'examples', 'junit.py')
    made = subprocess.run([sys.executable, script], input=output.encode(), capture_output=True)
    suite = xml.etree.ElementTree.fromstring(made.stdout)
    failures = suite.findall('testcase/failure')
    return (len(suite.findall('testcase')), len(failures), made.returncode), failures[-1].get('message') if failures else None


def of_junit(tests):
    """what examples/junit.py makes of the reports of `audit` and of `check`"""
    for name, octets in recordings():
        if not name.startswith('examples/'):
            continue
        output, _, status = tests.run('json', octets)
        rows = json.loads(output)['pairs']
        failures = sum(row['verdict'] != 'complete' for row in rows)
        tests.holds(f'junit.py of {name}', (len(rows), failures, status), suite_of(output)[0])
        output, _, status = reports.answer('json', octets)
        report = json.loads(output)
        failures = sum(not row['clean'] for row in report['pairs'])
        other = any(not any(word in reason for word in ('complete', 'missed', 'unsent', 'unanswered')) for reason in report['because'])
        tests.holds(f'junit.py of {name}, checked', (len(report['pairs']) + other, failures + other, status), suite_of(output)[0])
    print('reports: those of examples/ in the form of JUnit')


def of_other_reasons(tests):
    """examples/junit.py where `check` gives reasons beside its pairs: one more test, which fails with all of them"""
    pose, alone = file_of('examples', 'pose.rec'), text_of(pair()[:1])
    dropped = text_of([*pair(), data(1), data(2), heartbeat(1, 2), asking(2), heartbeat(3, 2), answer(3)])
    for name, octets, expected, wanted, told in (
            ('one row of two', pose, 2, (2, 1, 1), '1 pair of 2 expected'),
            ('no row', alone, None, (1, 1, 1), 'there is no pair'),
            ('no row of three', alone, 3, (1, 1, 1), 'there is no pair; 0 pairs of 3 expected'),
            ('missed', dropped, None, (1, 1, 1), 'complete 2, missed 1'),
            ('missed, and one row of two', dropped, 2, (2, 2, 1), '1 number was missed in 1 pair; 1 pair of 2 expected')):
        output, _, _ = reports.answer('json', octets, reference.Asked(expect=expected))
        tests.holds(f'junit.py, {name}', (wanted, told), suite_of(output))
    print('reports: 5 in the form of JUnit with other reasons')


if __name__ == '__main__':
    sys.exit(program.main(__doc__, [of_recordings, of_names, of_great_numbers, of_statuses, of_captures, of_junit, of_other_reasons]))
