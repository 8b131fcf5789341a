#!/usr/bin/env python3
"""Measures commands side by side: the best wall time of some runs, and the peak memory.

    measure.py [RUNS] -- COMMAND .. -- COMMAND ..     each runs with its output thrown away
"""
import os
import subprocess
import sys
import time


def run(command):
    before = time.monotonic()
    child = subprocess.Popen(command, stdout=subprocess.DEVNULL, stderr=subprocess.PIPE)
    _, status, usage = os.wait4(child.pid, 0)
    return time.monotonic() - before, usage.ru_maxrss, os.waitstatus_to_exitcode(status)


def main():
    words, commands = sys.argv[1:], []
    runs = int(words.pop(0)) if words and words[0] != '--' else 3
    for word in words:
        if word == '--':
            commands.append([])
        else:
            commands[-1].append(word)
    for command in commands:
        results = [run(command) for _ in range(runs)]
        seconds, peak = min(r[0] for r in results), max(r[1] for r in results)
        print(f'{seconds:8.3f} s {peak / 1000:9.1f} MB status {results[0][2]}  {" ".join(command)}')


if __name__ == '__main__':
    main()
