#!/usr/bin/env python3
"""Tests what the program shows on a terminal if a run takes longer than a second, and that it clears this at the end.

    tests/terminal.py PROGRAM

The last line is 'N passed, M failed'.
"""
import os
import pty
import subprocess
import sys
import threading
import time
import tty

sys.dont_write_bytecode = True
from captures import DATAGRAM
from capture_writer import capture, packet
from make import of_rows
from program import ROOT, Counts, text_of

# How many seconds a run waits that is to be long, also where the machine is slow to start it.
LONG = 2.5
WIPE = b'\r\x1b[K'
READING = WIPE + b'rtps-audit: reading, 0 MiB'
JUDGING = WIPE + b'rtps-audit: judging, 1 of 1 pairs'
EXPLAINING = WIPE + b'rtps-audit: explaining, '
WRITING = WIPE + b'rtps-audit: writing'


def run(program, recording, wait, words=('audit', '-'), both=False, kind='xterm'):
    """Runs the program on this recording, of which the second half comes after so many seconds: its status, what it wrote
    on standard output, and what it wrote on the terminal of this kind that standard error is, and standard output too if asked"""
    terminal, end = pty.openpty()
    tty.setraw(end)
    told = []

    def listen():
        try:
            while octets := os.read(terminal, 65536):
                told.append(octets)
        except OSError:
            pass

    listener = threading.Thread(target=listen)
    listener.start()
    output = end if both else subprocess.PIPE
    with subprocess.Popen([program, *words], stdin=subprocess.PIPE, stdout=output, stderr=end, env={**os.environ, 'TERM': kind}) as running:
        os.close(end)
        half = len(recording) // 2
        running.stdin.write(recording[:half])
        running.stdin.flush()
        time.sleep(wait)
        running.stdin.write(recording[half:])
        running.stdin.close()
        written = b'' if both else running.stdout.read()
        status = running.wait()
    listener.join()
    os.close(terminal)
    return status, written, b''.join(told)


def many_pairs():
    """a recording whose pairs take a while to explain"""
    return text_of(of_rows('opened', 2_000_000))


def short_run(program, recording):
    """what a run answers that took less than a second; on a machine with much else to do the first may not"""
    for _ in range(20):
        begin = time.monotonic()
        answer = run(program, recording, 0)
        if time.monotonic() - begin < 1:
            return answer
    return 'no run was short'


def on_a_terminal(tests, program, sample, report):
    tests.holds('a short run', (0, report, b''), short_run(program, sample))
    status, written, told = run(program, sample, LONG)
    tests.holds('a long run: its status and its text', (0, report), (status, written))
    tests.holds('a long run: that it reads is told', True, told.startswith(READING))
    tests.holds('a long run: then that it judges, and all is wiped', True, told.endswith(JUDGING + WIPE))
    status, _, told = run(program, sample, LONG, both=True)
    tests.holds('a long run whose text goes to the terminal', (0, True), (status, told.endswith(JUDGING + WIPE + report)))
    status, written, told = run(program, sample + b'0', LONG)
    tests.holds('a long run with a fault: its status and its text', (2, b''), (status, written))
    tests.holds('a long run with a fault: all is wiped before that is told', True,
                told.startswith(READING) and told.endswith(WIPE + b'rtps-audit: line 7: bad hex\n'))
    status, _, told = run(program, sample, LONG, ('why', '-'))
    tests.holds('a long run of why', (0, True), (status, told.startswith(READING) and JUDGING in told and told.endswith(WRITING + WIPE)))
    octets = capture([packet(DATAGRAM), b'', b''])
    for words, line in ((('audit', '-'), b'rtps-audit: -: ignored 2; --any may read these frames\n'), (('audit', '--any', '-'), b'')):
        status, _, told = run(program, octets, 0, words)
        tests.holds(f'{" ".join(words)} of a capture with ignored frames', (0, True, bool(line)), (status, told.endswith(line), b'ignored' in told))
    status, _, told = run(program, many_pairs(), LONG, ('page', '-'))
    tests.holds('a long run of page, of many pairs', (1, True), (status, told.startswith(READING) and EXPLAINING in told and told.endswith(WRITING + WIPE)))
    tests.holds('a long run on a terminal that clears no line', (0, report, b''), run(program, sample, LONG, kind='dumb'))
    status, _, told = run(program, octets, 0, kind='dumb')
    tests.holds('a capture with ignored frames, on such a terminal', (0, b'rtps-audit: -: ignored 2; --any may read these frames\n'), (status, told))
    status, _, told = run(program, sample, LONG, ('list', '-'))
    tests.holds('a long run of list', (0, True), (status, told.startswith(READING) and told.endswith(WIPE)))


def page_to_a_terminal(tests, program, sample):
    """nothing is read, and nothing is written but what to do; a file or a pipe gets the page"""
    told = b'rtps-audit: page does not write to a terminal: rtps-audit page FILE > report.html\n'
    pose = os.path.join(ROOT, 'examples', 'pose.rec')
    for words in (('page', pose), ('page', '--tail', '3', pose)):
        tests.holds(f'{" ".join(words[:-1])} to a terminal', (2, b'', told), run(program, b'', 0, words, both=True))
    status, written, _ = run(program, sample, 0, ('page', '-'))
    tests.holds('page to a pipe', (0, True), (status, written.startswith(b'<!DOCTYPE html>')))


def has_terminals():
    """whether the system gives pseudo-terminals"""
    try:
        ends = pty.openpty()
    except OSError:
        return False
    for end in ends:
        os.close(end)
    return True


def main():
    program = os.path.realpath(sys.argv[1])
    tests = Counts()
    sample = subprocess.run([program, 'sample'], stdout=subprocess.PIPE, check=True).stdout
    report = subprocess.run([program, 'audit', '-'], input=sample, stdout=subprocess.PIPE, check=True).stdout

    if has_terminals():
        on_a_terminal(tests, program, sample, report)
        page_to_a_terminal(tests, program, sample)
    else:
        print('terminal: this system gives none, so what is told on one was not tried')
    slow = f'"$1" sample | (head -c 100; sleep {LONG}; cat) | "$1" audit - 2>&1 >/dev/null'
    told = subprocess.run(['sh', '-c', slow, 'sh', program], stdout=subprocess.PIPE, check=True).stdout
    tests.holds('a long run with no terminal', b'', told)
    return tests.told()


if __name__ == '__main__':
    sys.exit(main())
