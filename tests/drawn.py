#!/usr/bin/env python3
"""Tests that draw anew: the program beside the second implementation, on random recordings that are others each day.

    tests/drawn.py [--seconds N] [--seed S] PROGRAM

Each comparison of bench/ that is named in the head of its script, as `NAME.py [WORD] PROGRAM [COUNT [SEED]]`, is run for N seconds. Without
--seconds all of them together take less than a minute; as many run side by side as there are processors. A comparison is run again and again
on a few recordings. The seeds of its runs are S000, S001 and so on, where S is the day, such as 20261129,
if it is not given. So a line that tells what failed is a command that shows it again.

What failed is kept in a folder, whose path is printed: what each failing run said, the recordings in which the two differ, and of these
FILE.wanted and FILE.got, with the status in the last line. Each comparison counts: the last line is 'N passed, M failed'.
"""
import argparse
import os
import re
import shutil
import subprocess
import sys
import tempfile
import time
from concurrent.futures import ThreadPoolExecutor

import program

BENCH = os.path.join(program.ROOT, 'bench')
# so many recordings a run, and so many lines that are shown of one that failed
COUNT, MOST_LINES = 10, 5
# how long all may take, in seconds, but for their last runs
ALL = 45


def comparisons():
    """the words of each, up to PROGRAM"""
    for name in sorted(os.listdir(BENCH)):
        if name.endswith('.py'):
            head = program.file_of('bench', name).decode().split('"""')[1:2]
            for words in re.findall(rf'^ +{re.escape(name)} ((?:\w+ )?)PROGRAM \[COUNT \[SEED\]\]', ''.join(head), re.MULTILINE):
                yield [name, *words.split()]


class Comparison:
    """the runs of a comparison, each on recordings of its own; the first one that fails is the last one"""

    def __init__(self, words, tested, seed, room):
        self.words, self.tested, self.seed, self.said, self.runs = words, tested, seed, '', 0
        self.room = os.path.join(room, '_'.join(words))

    def command(self, run):
        return [f'bench/{self.words[0]}', *self.words[1:], self.tested, str(COUNT), f'{self.seed}{run:03}']

    def run(self, seconds):
        until = time.monotonic() + seconds
        while not self.said and (self.runs == 0 or time.monotonic() < until):
            self.run_once()
        return self

    def run_once(self):
        """what comparisons keep they keep in the folder for temporary files"""
        os.makedirs(self.room)
        command = self.command(self.runs)
        done = subprocess.run([sys.executable, os.path.join(program.ROOT, command[0]), *command[1:]], stdin=subprocess.DEVNULL,
                              stdout=subprocess.PIPE, stderr=subprocess.STDOUT, env=os.environ | {'TMPDIR': self.room}, check=False)
        self.runs += 1
        if done.returncode == 0:
            shutil.rmtree(self.room)
            return
        self.said = f"{' '.join(command)}\n{done.stdout.decode(errors='replace')}"
        with open(os.path.join(self.room, 'said'), 'w', encoding='utf-8') as said:
            said.write(self.said)

    def told(self):
        name = ' '.join(self.words)
        if not self.said:
            return f'drawn, {name}: {self.runs} runs, {self.runs * COUNT} recordings'
        lines = [line.replace(f'{self.room}/', '')[:200] for line in self.said.rstrip().split('\n')]
        shown = lines[:MOST_LINES] + (['..', lines[-1]] if len(lines) > MOST_LINES + 1 else lines[MOST_LINES:])
        return '\n'.join([f'FAILED: drawn, {name}, kept in {self.room}', *shown])


def asked():
    words = argparse.ArgumentParser(description=__doc__, formatter_class=argparse.RawDescriptionHelpFormatter)
    words.add_argument('--seconds', type=float)
    words.add_argument('--seed', type=int, default=int(time.strftime('%Y%m%d', time.gmtime())))
    words.add_argument('program')
    return words.parse_args()


def main():
    words, found, processors = asked(), list(comparisons()), len(os.sched_getaffinity(0))
    seconds = words.seconds or ALL / -(-len(found) // processors)
    room = tempfile.mkdtemp(prefix=f'rtps_drawn_{words.seed}_')
    print(f'drawn: seed {words.seed}, {seconds:.0f} s for each of {len(found)} comparisons')
    counts = program.Counts()
    with ThreadPoolExecutor(processors) as pool:
        runs = [Comparison(it, os.path.realpath(words.program), words.seed, room) for it in found]
        for done in pool.map(lambda it: it.run(seconds), runs):
            print(done.told(), flush=True)
            counts.count(not done.said, bool(done.said))
    if not counts.failed:
        os.rmdir(room)
    return counts.told()


if __name__ == '__main__':
    sys.exit(main())
