#!/usr/bin/env python3
"""Tests by which names people know who writes and who reads, as the libraries find them.

    tests/named.py TRIALS     TRIALS is the built program of crates/rtps_trials

Of the recordings that two stacks made (tests/stacks) it has to tell what is stored beside them, and so has the second implementation. Of random
participants and of random samples it has to tell what that one tells. The last line is 'N passed, M failed'.
"""
import os
import subprocess
import sys

sys.dont_write_bytecode = True
from program import ROOT, Counts, file_of, text_of
import who
from reference import input_of


def main():
    if len(sys.argv) != 2:
        raise SystemExit(__doc__)
    tests, trials = Counts(), os.path.realpath(sys.argv[1])
    for name in sorted(os.listdir(os.path.join(ROOT, 'tests', 'stacks'))):
        if not name.endswith('.pcap'):
            continue
        wanted = file_of('tests', 'stacks', name.replace('.pcap', '.who')).decode()
        datagrams = input_of(file_of('tests', 'stacks', name), any_form=True)[0]
        done = subprocess.run([trials, 'who'], input=text_of(datagrams), capture_output=True)
        tests.holds(name, (wanted, '', 0), (done.stdout.decode(), done.stderr.decode(), done.returncode))
        tests.holds(f'{name} by the second implementation', wanted, who.told_of(datagrams))
    tests.holds('random participants', 0, who.compare(trials, 1000, 1, who.some_recording))
    tests.holds('random samples', 0, who.compare(trials, 3000, 1, who.some_sampled))
    return tests.told()


if __name__ == '__main__':
    sys.exit(main())
