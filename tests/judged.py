#!/usr/bin/env python3
"""Tests that the libraries agree on recordings: each is judged by the audit, by the judges with each kind of set, and by the index.

    tests/judged.py TRIALS RECORDING..     TRIALS is the built program of crates/rtps_trials

Of some recordings each octet is changed, too: to 00, to ff, and in its lowest bit. What becomes of a pair as a recording goes on (`account`)
is held against the second implementation of each recording that ends earlier. The last line is 'N passed, M failed'.
"""
import os
import subprocess
import sys

sys.dont_write_bytecode = True
from hostile import changed
from program import Counts, file_of, text_of
from reference import recording_of
from report import Report

FOLLOWED = ['missed', 'open', 'gone', 'fragments', 'complete', 'cyclone_reliable']
OUTCOMES = 'missed', 'unsent', 'unanswered', 'likely', 'unconfirmed'
CHANGED = ['complete', 'complete_with_a_gap', 'conflict', 'two_claims_in_one_datagram', 'readers_that_are_told_apart']


def changes(recording):
    """the recordings in which one octet is another"""
    for place, datagram in enumerate(recording):
        for one in changed(datagram):
            if one != datagram:
                yield text_of(recording[:place] + [one] + recording[place + 1:])


def judged(tests, trials, name, texts):
    """Has each recording judged, which has to find nothing wrong; prints how many there are, and how many rows they have."""
    done = subprocess.run([trials, 'judge'], input=b'\n'.join(texts), capture_output=True)
    rows = [int(line) for line in done.stdout.split()]
    tests.holds(name, (len(texts), '', 0), (len(rows), done.stderr.decode(), done.returncode))
    return sum(rows)


def state_of(row):
    """the verdict, and how many numbers are received and have each other outcome, in the words of the program"""
    return [row.verdict, f"received {row.counts['received']}", f'from {row.first}', *(f'{kind} {row.counts[kind]}' for kind in OUTCOMES)]


def followed(tests, trials, path):
    """Has the first pair of a recording followed. Each line holds from its datagram on, and before the next one; before the pair matches, nothing is compared."""
    with open(path, 'rb') as f:
        recording = recording_of(f.read())
    row = Report(recording).rows[0]
    done = subprocess.run([trials, 'account', f'{row.w.hex()}/{row.r.hex()}'], input=text_of(recording), capture_output=True)
    states = dict(line.split(': ', 1) for line in done.stdout.decode().splitlines())
    said, compared = [], 0
    for count in range(1, len(recording) + 1):
        said = states.get(str(count), ', '.join(said)).split('; ')[0].split(', ')
        wanted = [state_of(one) for one in Report(recording[:count]).rows if (one.w, one.r) == (row.w, row.r)]
        for state in wanted:
            compared += 1
            tests.holds(f'{os.path.basename(path)} up to datagram {count}', state, [word for word in said if word in state])
    tests.holds(f'{os.path.basename(path)} is followed', (True, '', 0), (compared > 0, done.stderr.decode(), done.returncode))


def main():
    if len(sys.argv) < 3:
        raise SystemExit(__doc__)
    tests, trials = Counts(), os.path.realpath(sys.argv[1])
    rows = 0
    for path in sys.argv[2:]:
        with open(path, 'rb') as f:
            rows += judged(tests, trials, os.path.basename(path), [text_of(recording_of(f.read()))])
    print(f'judged by the audit, the judges and the index: {len(sys.argv) - 2} recordings, with {rows} rows')
    for path in sys.argv[2:]:
        if os.path.basename(path).rpartition('.')[0] in FOLLOWED:
            followed(tests, trials, path)
    for name in CHANGED:
        texts = [*changes(recording_of(file_of('tests', 'rows', f'{name}.rec')))]
        rows = judged(tests, trials, f'{name} with a changed octet', texts)
        print(f'{name}: judged with {len(texts)} changed octets, with {rows} rows')
    return tests.told()


if __name__ == '__main__':
    sys.exit(main())
