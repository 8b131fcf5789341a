#!/usr/bin/env python3
"""Measures the program beside other programs on the same files in the same run, and prints the ratios.

    ratios.py list PROGRAM FILE.. [-- OTHER]    `list` beside `cat`, `xxd -r -p` and `list` of another program, with the
                                                peak memory and what the octets of the datagrams allow
    ratios.py orders PROGRAM [N] [-- OTHER]     `audit` of n, 2n and 4n numbers that come in different orders, beside
                                                `show` of the same file and `audit` of another program

    ratios.py beside PROGRAM OTHER MAKER [NAME ..]
                                                `show`, `list` and `audit` beside those of a plain program OTHER, on
                                                recordings that MAKER writes by name (`MAKER NAME > FILE`), as rows of a
                                                table: seconds, MB, and the ratios. Recordings stay in the folder
                                                RTPS_BENCH_DIR, where that is set

    ratios.py kinds PROGRAM [MEGABYTES [WORD..]] [-- OTHER]
                                                `audit` of recordings that could cost much, or what the WORDs say in its
                                                place, beside that of HEARTBEATs of one writer in as many octets, and
                                                beside the same of another program

    ratios.py writing TRIALS FILE..             writing messages beside reading the same ones, by the program of
                                                crates/rtps_trials: each message of FILE many times, less what it takes
                                                to read the recording and do neither

Each figure is the best of some runs that take turns. Nothing here passes or fails.
"""
import os
import subprocess
import sys
import tempfile

import make
from measure import run

RUNS = 5
NAMES = ['W-small', 'W-robot', 'W-limit', 'W-manypairs', 'W-scatter', 'W-bigset', 'W-hostile']
MIB = 1 << 20


def best(commands, runs=RUNS):
    """The least time and the greatest memory of each command."""
    times, peaks = [float('inf')] * len(commands), [0] * len(commands)
    for _ in range(runs):
        for i, command in enumerate(commands):
            seconds, peak, _ = run(command)
            times[i], peaks[i] = min(times[i], seconds), max(peaks[i], peak * 1024)
    return times, peaks


def octets_of(path):
    """The octets of the datagrams of a recording."""
    with open(path, 'rb') as f:
        return sum(len(line.strip()) // 2 for line in f if not line.startswith(b'#'))


def lists(program, paths, other):
    for path in paths:
        others = [[other, 'list', path]] if other else []
        commands = [[program, 'list', path], ['cat', path], ['xxd', '-r', '-p', path]] + others
        times, peaks = best(commands)
        allowed = octets_of(path) * 5 / 4 + 32 * MIB
        beside = ', '.join(f'{times[0] / t:.2f} of {c[0] if c[0] != other else "the other"}'
                           for c, t in zip(commands[1:], times[1:]))
        print(f'{os.path.basename(path)}: {times[0] * 1000:.1f} ms, {beside}; '
              f'{peaks[0] / MIB:.0f} MiB, {peaks[0] / allowed:.2f} of what is allowed'
              + (f', {peaks[0] / peaks[3]:.2f} of the other' if other else ''))


def orders(program, n, other):
    with tempfile.TemporaryDirectory() as folder:
        for order in make.ORDERS:
            ratios = []
            for total in (n, 2 * n, 4 * n):
                path = os.path.join(folder, 'numbers')
                make.write(path, make.numbers(order, total))
                others = [[other, 'audit', path]] if other else []
                times, _ = best([[program, 'audit', path], [program, 'show', path]] + others)
                ratios.append(f'{times[0] / times[1]:.2f}' + (f' ({times[0] / times[2]:.2f})' if other else ''))
            print(f'{order}: {", ".join(ratios)}', flush=True)


def writing(trials, paths, rounds=50000):
    for path in paths:
        calls = [('read', 0), ('read', rounds), ('write', rounds)]
        times, _ = best([['sh', '-c', '"$0" "$1" "$2" <"$3"', trials, call, str(count), path] for call, count in calls])
        reading, written = times[1] - times[0], times[2] - times[0]
        print(f'{os.path.basename(path)}: reading {rounds} times {reading:.3f} s, writing {written:.3f} s, {written / reading:.2f} of it')


KINDS = ['packed', 'answers', 'readers', 'writers', 'announced', 'announced_first', 'unnamed', 'named', 'not_in_turns', 'in_turns',
         'opened', 'disputed', 'every_second', 'far_apart', *make.OF_ONE_TOPIC, 'hostile', 'one_data', 'pairs']


def kinds(program, megabytes, other, view):
    """What each octet of a recording of some kind costs, in nanoseconds, and the ratios."""
    plain = None
    with tempfile.TemporaryDirectory() as folder:
        path = os.path.join(folder, 'recording')
        for kind in KINDS:
            make.write(path, make.datagrams(kind, megabytes * 1000000))
            others = [[other, *view, path]] if other else []
            times, _ = best([[program, *view, path]] + others, 3)
            cost = times[0] * 1e9 / os.path.getsize(path)
            plain = plain or cost
            print(f'{kind}: {cost:.1f} ns an octet, {cost / plain:.1f} of packed'
                  + (f', {times[0] / times[1]:.2f} of the other' if other else ''), flush=True)


def beside(program, other, maker, names, folder):
    print('| Recording | Run | Time, peak memory | Times the other\'s time | Times its memory |')
    print('|---|---|---|---|---|')
    for name in names:
        path = os.path.join(folder, name + '.rec')
        if not os.path.exists(path):
            with open(path, 'wb') as f:
                subprocess.run([maker, name], stdout=f, stderr=subprocess.DEVNULL, check=True)
        for run_name in ('show', 'list', 'audit'):
            times, peaks = best([[program, run_name, path], [other, run_name, path]], 3)
            print(f'| {name} | `{run_name}` | {times[0]:.2f} s, {peaks[0] / MIB:.0f} MiB '
                  f'| {times[0] / times[1]:.2f} | {peaks[0] / peaks[1]:.2f} |', flush=True)


def main():
    words = sys.argv[1:]
    other = None
    if '--' in words:
        cut = words.index('--')
        words, other = words[:cut], words[cut + 1]
    if words[:1] == ['list'] and len(words) > 2:
        lists(words[1], words[2:], other)
    elif words[:1] == ['beside'] and len(words) > 3:
        with tempfile.TemporaryDirectory() as folder:
            beside(words[1], words[2], words[3], words[4:] or NAMES, os.environ.get('RTPS_BENCH_DIR', folder))
    elif words[:1] == ['kinds'] and len(words) > 1:
        kinds(words[1], int(words[2]) if len(words) > 2 else 200, other, words[3:] or ['audit'])
    elif words[:1] == ['writing'] and len(words) > 2:
        writing(words[1], words[2:])
    elif words[:1] == ['orders'] and len(words) in (2, 3):
        orders(words[1], int(words[2]) if len(words) == 3 else 50000, other)
    else:
        raise SystemExit(__doc__)


if __name__ == '__main__':
    main()
