#!/usr/bin/env python3
"""Tests what rtps_known finds of discovery in recordings with times.

    tests/known.py TRIALS     TRIALS is the built program of crates/rtps_trials

Of random systems it has to tell what the second implementation tells: who was never told of which endpoints, and who has two lives; and of each writer
and each reader where they matched, and how late, or that the recording does not tell. The last line is 'N passed, M failed'.
"""
import sys

sys.dont_write_bytecode = True
from program import Counts
import known
import matched

COUNT, SEED = 300, 1


def main():
    if len(sys.argv) != 2:
        raise SystemExit(__doc__)
    tests = Counts()
    for one in (known.COMPARISON, matched.COMPARISON):
        systems = one.systems(COUNT, SEED)
        done = one.answered(sys.argv[1], systems)
        tests.holds(f'{one.mode}: the status', (0, ''), (done.returncode, done.stderr))
        tests.holds(f'{one.mode}: random systems', 0, one.judged(done.stdout, systems))
    return tests.told()


if __name__ == '__main__':
    sys.exit(main())
