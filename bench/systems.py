"""Random systems with times, and what a mode of the program of crates/rtps_trials tells of each, beside the second implementation.

A system is its datagrams and their times. The program reads each as lines: a time in nanoseconds, or a dash, and the digits of a datagram. An empty line
stands between two systems.
"""
import os
import random
import subprocess
import sys


def asked_text(system):
    datagrams, times = system
    return ''.join(f"{'-' if time is None else time} {d.hex()}\n" for d, time in zip(datagrams, times))


class Comparison:
    """a mode of the program; what makes a random system, and what is wanted of one; and what counts that of all systems, and says whether it is worth it"""

    def __init__(self, mode, some_system, told_of, counted):
        self.mode, self.some_system, self.told_of, self.counted = mode, some_system, told_of, counted

    def systems(self, count, seed):
        rng = random.Random(seed)
        return [self.some_system(rng) for _ in range(count)]

    def answered(self, program, systems):
        """the program's run on these systems"""
        asked = '\n'.join(map(asked_text, systems))
        return subprocess.run([os.path.realpath(program), self.mode], input=asked, capture_output=True, check=False, text=True)

    def differing(self, answers, systems):
        """the first system of which the two say something else, with both answers; None where there is none"""
        at = 0
        for system in systems:
            wanted = self.told_of(*system)
            if not answers.startswith(wanted, at):
                return system, wanted, answers[at:at + len(wanted) + 200]
            at += len(wanted)
        return None if answers[at:].strip() == '' else (systems[-1], '', answers[at:])

    def judged(self, answers, systems):
        """the status is 1 if they differ, or say nothing worth it"""
        found = self.differing(answers, systems)
        if found:
            system, wanted, got = found
            print(asked_text(system), f'-- wanted\n{wanted}-- got\n{got}', sep='\n')
            return 1
        counts, is_enough = self.counted([self.told_of(*system) for system in systems])
        print(f'{len(systems)} systems agree; of so many it is said: {counts}')
        return 0 if is_enough else 1

    def run(self, words, usage):
        """compare PROGRAM COUNT SEED, ask COUNT SEED, judge COUNT SEED"""
        if len(words) != (4 if words[:1] == ['compare'] else 3) or words[0] not in ('compare', 'ask', 'judge'):
            raise SystemExit(usage)
        systems = self.systems(int(words[-2]), int(words[-1]))
        if words[0] == 'compare':
            done = self.answered(words[1], systems)
            done.check_returncode()
            return self.judged(done.stdout, systems)
        if words[0] == 'judge':
            return self.judged(sys.stdin.read(), systems)
        sys.stdout.write('\n'.join(map(asked_text, systems)))
        return 0
