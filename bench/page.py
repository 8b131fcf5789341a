#!/usr/bin/env python3
"""The page of a recording, as `rtps-audit page` should write it, by the second implementation.

    page.py [OPTION ..] FILE > report.html
    page.py data [OPTION ..] FILE        the data of the page alone: one object of JSON on one line
    page.py stored [OPTION ..] FILE      the page of the working copy, page.html, with this recording in it
    page.py compare PROGRAM [COUNT [SEED]]
                                         runs PROGRAM on COUNT random recordings, and says where its page differs

An OPTION is one of `check`, but for limits and --json. The page is a form of the report of report.py: its text is that of `check`, and its data
has the members of `check --json`.
"""
import os
import random
import sys
from importlib import import_module

sys.dont_write_bytecode = True
ROOT = os.path.dirname(os.path.dirname(os.path.abspath(__file__)))
sys.path[:0] = [os.path.join(ROOT, 'bench'), os.path.join(ROOT, 'crates', 'rtps_page', 'page')]
import parts
import reference
import report as reports
from asked import PLAIN, asked_by
from fragments import by_writer, is_for, payloads_told
from random_recordings import some_asked, text_of_datagrams
from random_systems import some_both, some_other, some_recorded
from report import Report
from times import json_text

# The version of the program.
VERSION = '0.2.0'

# So many entries of acts and answers a page has room for.
ENTRIES = 200000


def named(dest, reader):
    """whom an act names: nothing where that is everyone, else a participant, an entity id, or both as in a GUID"""
    prefix = dest.hex() if dest else ''
    entity = f'.{reader.hex()}' if any(reader) else ''
    return [prefix + entity] if prefix or entity else []


def entries_of(datagram, act, samples):
    """what an act of a writer says, each behind its place. A DATA_FRAG sends fragments from one on, so many, and behind them it has an entry for each
    sample that is complete by it; `samples` has whom these name"""
    place, to = [datagram, act['at']], named(act['dest'], act['reader'])
    if act['kind'] == 'data':
        return [place + ['data', act['number']] + to]
    if act['kind'] == 'data_frag':
        return [place + ['piece', act['number'], act['start'], act['count']] + to] + [
            place + ['sample', act['number']] + to for to in samples]
    if act['kind'] == 'heartbeat':
        gone = [place + ['gone', 1, act['first'] - 1] + to] if act['first'] > 1 else []
        return gone + [place + ['announced', act['last']] + to]
    base, count, bits, _ = act['set']
    gone = [place + ['gone', act['start'], base - 1] + to] if act['start'] < base else []
    return gone + [place + ['gone', n, n] + to for n in reference.members(base, count, bits)]


def octets_of(guid):
    return bytes.fromhex(guid.replace('.', ''))


def samples_of(piece, everything, each):
    """whom the samples of a piece name: `everything` are told to one who hears everything, and `each` has the readers of the writer's rows that hear
    it, and how many are told to each. Where all are told as many, the samples name whom the piece names, and else these readers"""
    if all(count == everything for _, count in each):
        return [named(piece['dest'], piece['reader'])] * everything
    return [named(reader[:12], reader[12:]) for reader, count in each for _ in range(count)]


def samples_by_piece(pieces, readers):
    """whom the samples name that each of these pieces tells the readers of the rows of a writer, which sent them in this order"""
    each = {id(piece): [] for piece in pieces}
    for reader in readers:
        heard = [piece for piece in pieces if is_for((piece['dest'], piece['reader']), (reader[:12], reader[12:]))]
        for piece, told in zip(heard, payloads_told(heard)):
            each[id(piece)].append((reader, len(told)))
    return {id(piece): samples_of(piece, len(told), each[id(piece)]) for piece, told in zip(pieces, payloads_told(pieces))}


class Traffic:
    """what the writers of rows say, to whichever reader, and what the readers of rows answer, as entries"""
    def __init__(self, recording, rows):
        self.acts = {octets_of(row['writer']): [] for row in rows}
        self.bases = {(octets_of(row['writer']), octets_of(row['reader'])): [] for row in rows}
        self.samples = {}
        for (source, entity), pieces in by_writer(recording).items():
            readers = [reader for writer, reader in self.bases if writer == source + entity]
            self.samples |= samples_by_piece(pieces, readers)
        for datagram, acts in enumerate(recording, 1):
            for act in acts:
                self.take(datagram, act)

    def take(self, datagram, act):
        if act['kind'] == 'acknack':
            if act['dest'] is not None:
                answers = self.bases.get((act['dest'] + act['writer'], act['source'] + act['reader']))
                if answers is not None:
                    base, count, bits, _ = act['set']
                    answers.append([datagram, act['at'], base, reference.members(base, count, bits)])
            return
        writer = act['source'] + act['writer']
        if writer in self.acts and act['kind'] != 'nack_frag':
            self.acts[writer] += entries_of(datagram, act, self.samples.get(id(act), []))

    def bases_of(self, row):
        return self.bases[octets_of(row['writer']), octets_of(row['reader'])]

    def charted(self, rows):
        """the rows for which there is room: those that are not clean first, each in their order. A row takes its answers, each with the
        numbers that it asks for, and, if the row that was given room last is not of its writer, what its writer says; one that takes too
        much is left out"""
        last, used, found = None, 0, []
        for row in sorted(rows, key=lambda row: row['clean']):
            takes = sum(1 + len(asked) for *_, asked in self.bases_of(row)) + (0 if row['writer'] == last else len(self.acts[octets_of(row['writer'])]))
            if used + takes <= ENTRIES:
                used += takes
                last = row['writer']
                found.append(row)
        return found


def endpoint_values(endpoint):
    guid, side, topic, kind, reliability, durability = endpoint
    return {'guid': reference.guid_text(guid), 'side': side, 'topic': reference.name_text(topic), 'type': reference.name_text(kind),
            'reliability': reference.RELIABILITY_WORDS[reliability], 'durability': reference.DURABILITY_WORDS[durability]}


def option_values(asked):
    return {'from': asked.first, 'topics': asked.topics, 'nodes': asked.nodes, 'expect': asked.expect, 'tail': asked.tail, 'certain': asked.certain}


# ---- the page

def times_in(times, writers, answers):
    """the second and the frame of each datagram that has a second and stands in an entry, in order"""
    named = {entry[0] for one in writers for entry in one['acts']} | {entry[0] for one in answers for entry in one['bases']}
    return [[datagram, times.second(datagram), *([] if times.frame(datagram) is None else [times.frame(datagram)])]
            for datagram in sorted(named) if times.second(datagram)]


def recording_values(times, name):
    """which recording it is, and when it begins and ends, in milliseconds"""
    begin, end = (None if time is None else time // 1000000 for time in (times.of(1), times.last))
    return {'name': name, 'version': VERSION, 'begin': begin, 'end': end}


def joined_values(times, row):
    """where the reader of a row joins, if it does so in this recording"""
    return [*row.since, times.second(row.since[0]) or None] if row.joined_here else None


def parts_of(report, name):
    """the text and the data of the page of a report on a recording of this name, as Python has it"""
    _, endpoints, _, _, _ = reference.discovery(report.datagrams, True)
    rows = [row.names() | {'clean': row.is_clean()} for row in report.rows]
    traffic = Traffic(report.talk.recording, rows)
    pairs = {(row['writer'], row['reader']) for row in traffic.charted(rows)}
    shown = [row for row in rows if (row['writer'], row['reader']) in pairs]
    writers = [{'guid': guid, 'acts': traffic.acts[octets_of(guid)]} for guid in dict.fromkeys(row['writer'] for row in shown)]
    answers = [{'writer': row['writer'], 'reader': row['reader'], 'bases': traffic.bases_of(row)} for row in shown]
    times = report.talk.times
    return report.text(), report.members() | {
        'recording': recording_values(times, name),
        'options': option_values(report.asked),
        'endpoints': [endpoint_values(endpoint) for endpoint in endpoints],
        'joined': [joined_values(times, row) for row in report.rows],
        'writers': writers,
        'answers': answers,
    } | ({'times': times_in(times, writers, answers)} if times.are_there() else {})


def page_of(datagrams, asked=PLAIN, name='-'):
    """the text and the data of the page of a text of these datagrams"""
    return parts_of(Report(datagrams, asked), name)


def data_text(values):
    """the object on one line, with no octet by which a tag or an entity could begin"""
    text = json_text(values, ensure_ascii=False)
    return text.replace('<', '\\u003c').replace('>', '\\u003e').replace('&', '\\u0026')


def escaped(text):
    """a text as it stands in HTML"""
    return text.replace('&', '&amp;').replace('<', '&lt;').replace('>', '&gt;')


def page_text(text, values):
    head, middle, tail = parts.parts()
    return head + escaped(text) + middle + data_text(values) + tail


def read_page(octets, asked=PLAIN, name='-'):
    """the text and the data of the page of an input of this name"""
    return parts_of(reports.report_of(octets, asked, name, view='page'), name)


def answer(octets, asked=PLAIN, name='-'):
    """text, lines on standard error and status of `page`"""
    try:
        text, values = read_page(octets, asked, name)
    except reports.Refused as refused:
        return '', refused.lines, refused.status
    return page_text(text, values), [], int(values['status'] != 'clean')


# ---- random recordings


def some_run(rng):
    """the octets of a recording, of which some have times, and what is asked of it. Of some another recording is kept in a file"""
    chance = rng.random()
    if chance < 0.4:
        return import_module('random_times').some_asked_of(rng)
    if chance < 0.7:
        octets = some_recorded(rng)
        return octets, some_asked(rng, octets)
    datagrams, there = some_other(rng, some_both(rng))
    octets = text_of_datagrams(datagrams)
    asked = some_asked(rng, octets)
    asked.arrived = reference.kept(text_of_datagrams(there) + (b'0\n' if rng.random() < 0.03 else b''))
    return octets, asked


def compare(program, count, seed):
    rng, differing = random.Random(seed), 0
    seen = dict.fromkeys(('"times":[[', '"wait":{', '"silence":["', '"arrived":', '"not_arrived":[', '"arrived":[{'), 0)
    for k in range(count):
        octets, asked = some_run(rng)
        wanted = answer(octets, asked)
        gave = reference.given_by(program, ['page', *asked.words()], octets)
        if gave != wanted:
            differing += 1
            print(f'page {" ".join(asked.words())} differs on recording {k}, kept in {reference.kept(octets, ".rec", wanted, gave)}')
        elif asked.arrived is not None:
            os.unlink(asked.arrived)
        for what in seen:
            seen[what] += what in wanted[0]
    print(f'{count} recordings, {differing} differences; {seen}')
    return int(differing > 0)


def main():
    words = sys.argv[1:]
    if words[0] == 'compare':
        count, seed = (int(word) for word in words[2:] + ['1000', '1'][len(words) - 2:])
        return compare(words[1], count, seed)
    view = words.pop(0) if words[0] in ('data', 'stored', 'page') else 'page'
    with open(words[-1], 'rb') as f:
        octets = f.read()
    try:
        text, values = read_page(octets, asked_by(words[:-1]), words[-1])
    except reports.Refused as refused:
        sys.stderr.write(reports.lines_text(refused.lines))
        return refused.status
    if view == 'stored':
        sys.stdout.write(parts.stored(escaped(text), data_text(values)))
    else:
        sys.stdout.write(page_text(text, values) if view == 'page' else data_text(values) + '\n')
    return int(values['status'] != 'clean')


if __name__ == '__main__':
    sys.exit(main())
