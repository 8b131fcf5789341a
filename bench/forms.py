#!/usr/bin/env python3
"""Runs the forms of one report on each capture of a folder, and says where their statuses or last lines differ.

    forms.py FOLDER PROGRAM
                    runs PROGRAM with `check`, `check --json`, `why` and `page`, and says where they are not one

The last line of `check` and of `why` are one, and so is that of the text in the page. What JSON and the data of the page say is its status and the
reasons; where there are none, the last line begins with `clean`. The last line is how many captures differ, and how many of them are clean.
"""
import html
import json
import os
import re
import subprocess
import sys

CAPTURES = '.pcap', '.pcapng', '.rec'
TEXT, DATA = re.compile(r'<pre [^>]*>\n(.*?)</pre>', re.DOTALL), re.compile(r'<script type="application/json" id="data">(.*?)</script>', re.DOTALL)


def ran(program, words, path):
    """standard output and the status"""
    done = subprocess.run([program, *words, path], capture_output=True)
    return done.stdout.decode(), done.returncode


def last_line(text):
    return (text.splitlines() or ['nothing'])[-1]


def part_of(pattern, page):
    found = pattern.search(page)
    return html.unescape(found[1]) if found else ''


def ending_of(text):
    """what an object of JSON says: the reasons, or `clean`"""
    if not text:
        return 'nothing'
    report = json.loads(text)
    because = '; '.join(report['because'])
    assert (report['status'] == 'clean') == (not because), report['status']
    return f'not clean: {because}' if because else 'clean'


def endings(program, path):
    """of each form its status and its last line"""
    checked, status = ran(program, ['check'], path)
    yield 'check', status, last_line(checked)
    text, status = ran(program, ['check', '--json'], path)
    yield 'check --json', status, ending_of(text)
    text, status = ran(program, ['why'], path)
    yield 'why', status, last_line(text)
    text, status = ran(program, ['page'], path)
    yield 'page', status, last_line(part_of(TEXT, text))
    yield 'data of page', status, ending_of(part_of(DATA, text))


def differing(found):
    """the forms that do not end as `check` does. JSON says of a clean report no more than that it is so"""
    _, status, line = found[0]
    for form, ended, said in found:
        if ended != status or said != line and not (said == 'clean' and line.startswith('clean') and form in ('check --json', 'data of page')):
            yield f'  {form}: status {ended}, {said}'


def main():
    folder, program = sys.argv[1:]
    names = sorted(name for name in os.listdir(folder) if name.endswith(CAPTURES))
    different = clean = 0
    for name in names:
        found = list(endings(os.path.realpath(program), os.path.join(folder, name)))
        lines = list(differing(found))
        different += bool(lines)
        clean += found[0][1] == 0
        for line in ([f'{name}: check: status {found[0][1]}, {found[0][2]}', *lines] if lines else []):
            print(line)
    print(f'{len(names)} captures, {different} differences; {clean} are clean')
    return int(different > 0 or not names)


if __name__ == '__main__':
    sys.exit(main())
