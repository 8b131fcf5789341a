"""What the tests of this folder share: counts of what holds, and the program run on a file."""
import os
import subprocess
import sys
import tempfile

ROOT = os.path.dirname(os.path.dirname(os.path.realpath(__file__)))
sys.dont_write_bytecode = True
sys.path.insert(0, os.path.join(ROOT, 'bench'))
import page
import reference
import report
from asked import asked_by

# those that are no forms of the report that `check` gives
VIEWS = reference.VIEWS


def file_of(*names):
    """the octets of a file of the repository"""
    with open(os.path.join(ROOT, *names), 'rb') as f:
        return f.read()


def text_of(datagrams):
    """a recording of these datagrams, as text"""
    return b''.join(datagram.hex().encode() + b'\n' for datagram in datagrams)


def first_difference(wanted, got):
    """the first line in which two answers differ, of both"""
    for one, other in zip(f'{wanted}'.split('\\n'), f'{got}'.split('\\n')):
        if one != other:
            return f'-- wanted {one[:400]}\n-- got    {other[:400]}'
    return f'-- wanted {len(f"{wanted}")} characters, got {len(f"{got}")}'


def answer_of(view, octets, words=(), name='-'):
    """text, lines on standard error and status by the second implementation; `check`, `why` and `page` are forms of one report"""
    asked = asked_by(list(words))
    if view in ('check', 'why'):
        return report.answer('json' if '--json' in words else view, octets, asked, name)
    if view == 'page':
        return page.answer(octets, asked, name)
    return reference.answer_as(view, octets, asked, any_form='--any' in words, name=name)


class Counts:
    """how many tests passed, and how many failed"""

    def __init__(self):
        self.passed = self.failed = 0

    def count(self, passed, failed):
        self.passed += passed
        self.failed += failed

    def holds(self, name, wanted, got):
        self.count(wanted == got, wanted != got)
        if wanted != got:
            print(f'FAILED: {name}\n{first_difference(wanted, got)}')

    def told(self):
        """prints the last line, and answers the status"""
        print(f'{self.passed} passed, {self.failed} failed')
        return 0 if self.passed and not self.failed else 1


class Tests(Counts):
    """tests of the program, which is run on one file whose octets are changed"""

    def __init__(self, program):
        super().__init__()
        self.program = os.path.realpath(program)
        self.file = tempfile.NamedTemporaryFile()

    def run(self, view, octets, words=()):
        """standard output, standard error and the status of the program, which is given these words before the FILE"""
        self.file.seek(0)
        self.file.truncate()
        self.file.write(octets)
        self.file.flush()
        done = subprocess.run([self.program, *reference.words_of(view), *words, self.file.name], capture_output=True)
        return done.stdout.decode(), done.stderr.decode(), done.returncode

    def answers(self, name, view, octets, wanted, status=0, words=()):
        self.holds(f'{view}: {name}', (wanted, '', status), self.run(view, octets, words))

    def refuses(self, name, octets, fault, reason='', words=(), views=VIEWS):
        """in these views, with the reason in front, if there is one"""
        told = reason.replace('FILE', self.file.name)
        for view in views:
            self.holds(f'{view}: {name}', ('', f'{told}rtps-audit: {fault}\n', 2), self.run(view, octets, words))

    def passes(self, name, octets, most, what, words=(), views=VIEWS):
        """in these views, the most octets or datagrams"""
        told = f'rtps-audit: FILE: more than {most} {what}; --max-{what} N raises this limit\n'
        self.refuses(name, octets, 'too many datagrams', told, words, views)

    def agrees(self, name, octets, views=VIEWS, words=()):
        """each view is what the second implementation says, with standard error and the status"""
        for view in views:
            wanted, told, ended = answer_of(view, octets, words, self.file.name)
            self.holds(f'{view}: {name}', (wanted, ''.join(line + '\n' for line in told), ended), self.run(view, octets, words))


def main(document, groups):
    """runs groups of tests of the program that the one word names"""
    if len(sys.argv) != 2:
        raise SystemExit(document)
    tests = Tests(sys.argv[1])
    for group in groups:
        group(tests)
    return tests.told()
