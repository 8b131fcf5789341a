#!/usr/bin/env python3
"""One report of a recording, and three of its forms: the second implementation of `check`, `check --json` and `why`. The page is a fourth
one, by page.py. All read any capture and samples in fragments, judge rows in their spans, take the same options, and have one last line
and one status.

    report.py check|json|why [OPTION ..] FILE
                            prints what `rtps-audit` should print; `json` is `check --json`. An OPTION is one of `check`
    report.py laws [COUNT [SEED]]
                            compares outcomes with all runs, on COUNT random recordings, and says where they differ
    report.py compare PROGRAM [COUNT [SEED]]
                            runs PROGRAM on COUNT random recordings, and says where it differs
    report.py rules [COUNT [SEED]]
                            says how many of COUNT random recordings meet each rule

The last line is `clean` where each number of each row is received for certain, or arrived.
"""
import random
import sys

import arrived
import check
import kinds
import reference
from asked import PLAIN, asked_by
from happened import events_of
from random_recordings import some_asked, some_life, text_of_datagrams
from random_systems import some_recorded
from spans import rows_of
from times import NO_TIMES, behind, json_text, timed_line
from told import talk_members

FORMS = 'check', 'json', 'why'


class Report:
    """what is said of a recording: of a capture `ignored` has the frames that gave nothing by their reasons, and `link` is the link type of
    the first one of a link that is not read"""
    def __init__(self, datagrams, asked=PLAIN, ignored=None, link=None, times=NO_TIMES, other=None):
        self.datagrams, self.asked, self.ignored = datagrams, asked, ignored
        self.rows, self.talk, counted = rows_of(datagrams, asked, times, other)
        self.sides = arrived.BothSides(self.rows, self.talk, other, (datagrams, times)) if other else None
        self.counted = counted | (ignored or {})
        # A datagram of one octet is refused, and is no reason to look at it.
        self.counts = self.counted | {'link': link, 'refused': counted['refused'] - sum(len(d) < 2 for d in datagrams)}
        self.events = events_of(self.talk, self.rows, lambda row: check.is_told(row, self))
        self.because = check.because(self)
        self.status = int(bool(self.because))

    def text(self):
        return lines_text(check.check_lines(self))

    def members(self):
        """those of `check --json`"""
        head = {'status': 'unclean' if self.because else 'clean', 'because': self.because}
        pairs = [row.values(self.counts) for row in self.rows]
        wrong_way = {'wrong_way': self.sides.wrong} if self.sides else {}
        return head | {'pairs': pairs} | self.counted | talk_members(self.talk, self.sides) | wrong_way | {
            'events': [event.values() for event in self.events], 'notes': check.note_sentences(self)}

    def json(self):
        return json_text(self.members()) + '\n'

    def why(self):
        """every row with all its evidence"""
        counts = {name: count for name, count in self.counted.items() if self.ignored is None or name not in self.ignored or name == 'ignored'}
        return lines_text([f'pairs {len(self.rows)}', *(line for row in self.rows for line in why_lines(row, self)),
                           ' '.join(f'{name} {count}' for name, count in counts.items()), check.ending(self)])


def lines_text(lines):
    return ''.join(line + '\n' for line in lines)


def why_lines(row, report):
    names, ends = row.names(), ' '.join(report.talk.end(guid).text_in_a_pair() for guid in (row.w, row.r))
    until = f' until datagram {row.until[0]}{behind(row.times, row.until[0])}' if row.until else ''
    lines = [f"pair {ends} {row.verdict}", f"  topic \"{names['topic']}\" type \"{names['type']}\"",
             f'  from {row.first}{until}', *('  ' + timed_line(row.times, line) for line in with_outcomes(row))]
    lost = [] if row.is_clean() else ['    ' + line for line in kinds.lines(row)]
    said = ([check.wait_line(row.times, row.wait)] if row.wait else []) + ([row.late.line(row.times)] if row.late else []) + row.silence_lines()
    return lines + lost + ['  ' + line for line in said] + ([] if row.is_clean() else ['  -> ' + row.advice(report.counts)])


def with_outcomes(row):
    """the lines of its evidence, and behind that of received numbers how many have each other outcome; what is missed has its own lines"""
    at = 1 + [line.split()[0] for line in row.lines].index('received')
    others = [f'{kind} {row.counts[kind]}' for kind in check.COLUMNS if row.counts[kind] and kind not in ('received', 'missed')]
    return row.lines[:at] + others + row.lines[at:]


# ---- what a command prints


class Refused(Exception):
    """there is no report: the lines on standard error, and the status"""

    def __init__(self, lines, status):
        self.lines, self.status = lines, status


def other_of(asked, limits, view):
    """the other recording that is asked for, or None"""
    if asked.arrived is None:
        return None
    try:
        with open(asked.arrived, 'rb') as f:
            found = arrived.other_of(f.read(), asked.arrived, limits, view)
    except OSError as error:
        name = reference.name_text(asked.arrived.encode())
        raise Refused([f'rtps-audit: {name}: {error.strerror}', f'rtps-audit: {name}: cannot read input'], 3) from error
    if isinstance(found, list):
        raise Refused(found, 2)
    return found


def report_of(octets, asked=PLAIN, name='-', limits=reference.USUAL, view='check'):
    """the report of an input of this name"""
    if name == asked.arrived == '-':
        raise Refused(arrived.TWICE, 2)
    read = reference.input_of(octets, limits, True)
    if isinstance(read, str):
        raise Refused(reference.told_of(name, octets, limits, True, f'{view} -'), 2)
    link = reference.first_link(octets, limits) if read[1] and read[1]['links'] else None
    return Report(read[0], asked, read[1], link, reference.times_of(octets, limits, True), other_of(asked, limits, view))


def answer(form, octets, asked=PLAIN, name='-', limits=reference.USUAL):
    """text, lines on standard error and status of a form of the report of an input of this name"""
    try:
        report = report_of(octets, asked, name, limits, words_of(form)[0])
    except Refused as refused:
        return '', refused.lines, refused.status
    return {'check': report.text, 'json': report.json, 'why': report.why}[form](), [], report.status


def words_of(form):
    """the subcommand and the flag that print a form"""
    return ['check', '--json'] if form == 'json' else [form]


# ---- random recordings

def differing_from_runs(row):
    """where the outcomes of a row are not what all its runs say, of numbers below 12"""
    delivery, found = row.delivery, []
    kinds = {n: delivery.kind(n) for n in range(row.first, min(row.last, 11) + 1)}
    counted = {kind: sum(one == kind for one in kinds.values()) for kind in check.KINDS}
    if row.last < 12 and counted != row.counts:
        found.append('counts of kinds')
    if sum(row.counts.values()) != row.asked_about():
        found.append('sum of the kinds')
    told = {act['number'] for _, act, words in delivery.told if words.payload is not None}
    states = reference.ends_of_runs(row.datagrams, row.w, row.r, 12, row.first) if row.last < 12 else 'no runs'
    if not isinstance(states, str):
        ends = {n for state in states for n, word in state if word != 'gone'}
        if any(n not in told and n in ends for n in kinds):
            found.append('numbers without a payload')
        certain = {n for n in kinds if all(any(m == n and word != 'gone' for m, word in state) for state in states)}
        if certain != {n for n, kind in kinds.items() if kind == 'received'}:
            found.append('received numbers')
    return found


def laws(count, seed):
    rng, differing, tried = random.Random(seed), 0, 0
    kinds = dict.fromkeys(['rows', 'clean', 'left', 'joined here', 'late', *check.KINDS], 0)
    for k in range(count):
        datagrams = some_life(rng)
        for row in rows_of(datagrams, some_asked(rng))[0]:
            told = {(n, words.payload) for _, _, words in row.delivery.told for lo, hi in words.spans for n in range(max(lo, row.first), min(hi, 12))}
            if len(told) < 10:
                for what in differing_from_runs(row):
                    differing += 1
                    print(f'the {what} of recording {k} differ, kept in {reference.kept(text_of_datagrams(datagrams))}')
                tried += 1
            more = {'rows': 1, 'clean': row.is_clean(), 'left': row.until is not None, 'joined here': row.joined_here, 'late': row.before > 0}
            for name, count_of in (more | row.counts).items():
                kinds[name] += count_of
    print(f'{count} recordings, {differing} differences in {tried} rows; {kinds}')
    return int(differing > 0)


def differing_forms(rng, program, octets, where):
    """how many forms of the report differ, each asked for what comes by chance"""
    differing = 0
    for form in FORMS:
        asked = some_asked(rng, octets)
        printed, _, status = answer(form, octets, asked)
        differing += reference.differs(program, octets, (words_of(form) + asked.words(), printed, status), where)
    return differing


def compare(program, count, seed):
    rng = random.Random(seed)
    differing = sum(differing_forms(rng, program, some_recorded(rng), (f'recording {k}', '.rec')) for k in range(count))
    print(f'{count} recordings, {differing} differences')
    return int(differing > 0)


def main():
    if sys.argv[1] in ('laws', 'compare'):
        at = 3 if sys.argv[1] == 'compare' else 2
        count, seed = (int(word) for word in sys.argv[at:at + 2] + ['1000', '1'][len(sys.argv[at:at + 2]):])
        return laws(count, seed) if at == 2 else compare(sys.argv[2], count, seed)
    form, words, path = sys.argv[1], sys.argv[2:-1], sys.argv[-1]
    with open(path, 'rb') as f:
        text, told, status = answer('json' if '--json' in words else form, f.read(), asked_by(words), path)
    sys.stdout.write(text)
    sys.stderr.write(lines_text(told))
    return status


if __name__ == '__main__':
    sys.exit(main())
