#!/usr/bin/env python3
"""Reads what `rtps-audit check --json FILE` or `rtps-audit audit --json FILE` prints, and writes a JUnit file: a test for
each pair, which fails if the pair is not complete; of `check`, and of rows in spans, if it is not clean. Of `check` there is one more
test, which fails, if the recording is not clean for another reason. The status is 1 if a test fails.

    rtps-audit check --json --expect 8 test.pcap | junit.py > delivery.xml
"""
import json
import sys
from xml.etree.ElementTree import Element, SubElement, tostring


# the outcomes of numbers that are no good news; likely ones are so of a pair that is held against a second recording
LOST = 'missed', 'unsent', 'unanswered', 'likely'


def is_failed(row):
    return not row.get('clean', row['verdict'] == 'complete')


def lost(row):
    """how many numbers of a pair were lost, by kind"""
    if 'outcomes' not in row:
        return {'missed': row['missed']}
    outcomes = row['outcomes']
    is_held = outcomes.get('arrived') is not None
    return {kind: outcomes[kind] for kind in LOST if kind != 'likely' or is_held}


def told(row):
    """the verdict of a pair, and how many numbers were lost"""
    return ', '.join([f"{row['verdict']} {row['number']}", *(f'{kind} {count}' for kind, count in lost(row).items() if count)])


def has_other_reasons(report):
    """whether `check` gives more reasons than its pairs do: one if some are not clean for their verdict, and one for each kind of
    numbers that some lost"""
    rows = report['pairs']
    of_pairs = any(is_failed(row) and row['verdict'] != 'complete' for row in rows) + sum(any(lost(row).get(kind) for row in rows) for kind in LOST)
    return len(report.get('because', ())) > of_pairs


def add_test(suite, place, name, failure, details):
    """a test; it fails if there is a failure, which the details explain"""
    test = SubElement(suite, 'testcase', classname=place, name=name)
    if failure:
        SubElement(test, 'failure', message=failure).text = details


def suite_of(report):
    suite = Element('testsuite', name='delivery')
    for row in report['pairs']:
        failure = told(row) if is_failed(row) else None
        add_test(suite, row['topic'], f"{row['writer']} {row['reader']}", failure, json.dumps(row, indent=1))
    if has_other_reasons(report):
        add_test(suite, 'recording', 'not clean', '; '.join(report['because']), '\n'.join(report['because']))
    suite.set('tests', str(len(suite.findall('testcase'))))
    suite.set('failures', str(len(suite.findall('testcase/failure'))))
    return suite


suite = suite_of(json.load(sys.stdin))
print(tostring(suite, encoding='unicode'))
sys.exit(suite.get('failures') != '0')
