#!/usr/bin/env python3
"""What arrived at the reader's host, by a second recording: a part of the second implementation, of `check FILE --arrived OTHER`.

    arrived.py truth FILE OTHER TRUTH
                            compares the numbers that did not arrive with those that the application did not take, which the JSON
                            file TRUTH has, and says where they differ
    arrived.py laws [COUNT [SEED]]
                            checks laws of what arrived on COUNT random recordings, each with another, and says where they fail
    arrived.py compare PROGRAM [COUNT [SEED]]
                            runs PROGRAM on COUNT random recordings, each with another, and says where it differs

FILE is the recording that is judged. OTHER is one that was made at the host of readers, in the same time.

How the two are read
- OTHER is read as FILE is: a text, or a capture of any form, with fragments of IP put together and with samples in fragments.
- Limits are each recording's own: each may have as many datagrams and as many octets as is asked for.
- FILE is read first, and its errors are told first. What is wrong with OTHER is told with its name, in the last line too, and ends
  the run in the same way: with status 2 where it is refused, and with 3 where it cannot be read. Nothing is printed of FILE then.
- One of the two may be standard input. Both may not: the words are refused.

What the terms mean
- Held against OTHER is a pair where OTHER has an act whose source is the reader's participant and whose destination is the writer's, and
  which is not the wrong way round (way.py). Only such a reader is at that host. Who joins, leaves or matches is a matter of FILE: what
  OTHER announces counts for nothing.
- The numbers of a pair are those that FILE asks about: from its first one up to the greatest one before the reader left. A number
  that OTHER alone has is none of them.
- A number arrived where it is not received for certain and the reader is told a payload of it in OTHER: by a DATA, or by fragments
  from which a sample can be put together. Any payload will do. It may stand anywhere in OTHER: two hosts have two clocks, so no
  place and no time of the one is compared with one of the other. It arrived whatever else its kind were, gone ones too.
- Of a pair that is held against OTHER each number is of one of seven kinds, the first of these that fits: received, arrived, missed,
  unsent, unanswered, likely, unconfirmed. The seven add up to the numbers that are asked about.
- A number lacks where it is neither received nor arrived. It did not reach the reader's host, if OTHER has all that did.
- The tail of a pair that is held: it is open, its reader acknowledged something, each number below the greatest base of the answers
  is received or arrived, and each other one is arrived or unconfirmed.
- A row that is held is clean where it is complete or open and no number lacks, or where only a tail does, and either the reader left
  or no more numbers lack than --tail allows. A conflict or an unfounded answer is in FILE, and stays.
- All other rows are as without OTHER. A note says how many pairs are so.
- The numbers that are missed of a row that is held, the first of them, and the advice are those that did not arrive.
- The two recordings look swapped where some pair is the wrong way round, and none the right way round: a reason and a note. Where some are
  the one way and some the other, a note says how many are judged by FILE alone. Where some pair is asked, and all are alike, a note says
  that nothing tells the two apart; it is a reason, and no note, where they have equal datagrams at equal times, and each has a time.

What is proved, and what is counted
- Verdicts, received numbers and all evidence but for missed numbers are those of FILE, as without OTHER, and so is what `--certain` asks for.
- What arrived is what stands in OTHER. It is no premise of a verdict, and no consequence of one. A note says how many numbers are
  received for certain and not in OTHER: then OTHER lacks something, and others that lack may have arrived.

Pairs of best effort
- Those that match and are observed in FILE, and are held against OTHER, are counted: of how many of their numbers OTHER has a payload
  that the reader is told. Their numbers go from the first one of the pair up to the greatest one of which the writer sent a DATA or
  a DATA_FRAG in FILE. They are told and no reason.

What is printed
- The first line says how many numbers arrived beside those that are received. The table has a column `arrived` behind `received`.
  A row that is told has the ranges of the numbers that lack (kinds.py), and each best-effort pair of which some lack the first ten.
- In JSON `"outcomes"` has a member `"arrived"` behind `"received"`, null in a row that is not held. Behind `"outcomes"` stands
  `"not_arrived"`: the first ten numbers that lack, or null. The object has behind `"best_effort"` the member `"arrived"`: of each
  best-effort pair that is held its topic, writer and reader, its numbers, how many of them arrived, and the first ten that lack. Before
  `"notes"` stands `"wrong_way"`: how many pairs are the wrong way round.
"""
import json
import os
import random
import sys
from importlib import import_module
from itertools import islice

import reference
import sentences
from asked import Asked
from random_recordings import some_asked, text_of_datagrams
from random_systems import some_both, some_other
from reference import acts_of, guid_text, name_text, told_to
from talk import named_by
from times import NO_TIMES
from way import entries, way
from wording import amount, grouped, in_pairs, of

# So many numbers that did not arrive are named.
NAMED = 10

# What is told where both recordings are standard input.
TWICE = ["error: the argument '--arrived <OTHER>' cannot be standard input: FILE is", '', "For more information, try '--help'."]

# What weakens OTHER: its name among the counts of a capture, text of one, text of many, what to do.
UNREAD = [(name.lower(), *sentences.noted.words(name), sentences.noted[f'{name}_THERE']) for name in ('PIECES', 'CUT', 'LINKS')]

# ---- the other recording


class Other:
    """a recording that was made at the host of readers"""

    def __init__(self, datagrams, ignored=None, times=NO_TIMES):
        self.datagrams, self.ignored, self.times = datagrams, ignored or {}, times
        self.recording = [acts_of(d, True) for d in datagrams]
        self.namings = named_by(self.recording)

    def holds(self, w, r):
        """whether it has an act of the reader's participant that names the writer's"""
        return (r[:12], w[:12]) in self.namings

    def way(self, recording, w, r):
        """which way round a recording and this one are, by a pair; None where this one has nothing of the reader to the writer"""
        return way(entries(recording, w, r), entries(self.recording, w, r)) if self.holds(w, r) else None

    def told(self, w, r):
        """the numbers of which the reader is told a payload"""
        return {act['number'] for _, act, words in told_to(self.recording, w, r) if words.payload is not None}

    def equals(self, datagrams, times):
        """whether these datagrams are its own, each at the same time"""
        places = range(1, len(datagrams) + 1)
        return self.datagrams == datagrams and all(times.of(i) is not None and times.of(i) == self.times.of(i) for i in places)


def other_of(octets, name, limits=reference.USUAL, view='check'):
    """the other recording, which is read as the one that is judged, or the lines of standard error, each with its name"""
    read = reference.input_of(octets, limits, True)
    if not isinstance(read, str):
        return Other(*read, reference.times_of(octets, limits, True))
    *reasons, _ = reference.told_of(name, octets, limits, True, f'{view} --arrived - FILE')
    return [*reasons, f'rtps-audit: {name_text(name.encode())}: {read}']


# ---- numbers that did not arrive


def first_named(numbers):
    """the first ten of some numbers in their order"""
    return list(islice(numbers, NAMED))


def listed(named, count):
    """some numbers, and how many more there are"""
    return ', '.join(map(str, named)) + (f' and {grouped(count - len(named))} more' if count > len(named) else '')


def more_arrived(rows):
    """what the first line says of what arrived"""
    return f", {grouped(sum(row.counts['arrived'] for row in rows))} more arrived"


def lost_reasons(rows):
    """why rows are not clean that would be so without the other recording"""
    some = [row for row in rows if row.held and row.counts['likely']]
    total = sum(row.counts['likely'] for row in some)
    return [in_pairs(total, *sentences.reason.words('LOST'), len(some))] if some else []


# ---- pairs of best effort


class BestEffort:
    """a pair of best effort that is held: how many numbers it has, how many arrived, and the first that did not"""

    def __init__(self, talk, w, r, told):
        self.w, self.r = w, r
        self.asked_about = talk.numbers(w, r)
        self.told = {n for n in told if n in self.asked_about}
        self.first, self.numbers, self.arrived = self.asked_about.start, len_of(self.asked_about), len(self.told)
        self.lacking = first_named(n for n in self.asked_about if n not in self.told)

    def all_lacking(self):
        return set(self.asked_about) - self.told

    def values(self):
        return {'topic': name_text(self.w[2]), 'writer': guid_text(self.w[0]), 'reader': guid_text(self.r[0]), 'numbers': self.numbers,
                'arrived': self.arrived, 'not_arrived': self.lacking}


def len_of(numbers):
    """how many numbers a range has, which may be more than `len` can say"""
    return max(0, numbers.stop - numbers.start)


class BothSides:
    """what the other recording shows beside the rows: pairs of best effort, which way round the two are, and what weakens it. `first` has
    the datagrams and the times of the recording that is judged"""

    def __init__(self, rows, talk, other, first):
        self.other, self.rows, self.is_twice = other, rows, other.equals(*first)
        ways = [(w, r, other.way(talk.recording, w[0], r[0])) for w, r in talk.best_effort]
        self.best_effort = [BestEffort(talk, w, r, other.told(w[0], r[0])) for w, r, found in ways if found not in (None, 'wrong')]
        self.alone = [row.key for row in rows if row.way is None]
        self.ways = [found for found in [row.way for row in rows] + [found for _, _, found in ways] if found is not None]
        self.wrong, self.right = self.ways.count('wrong'), self.ways.count('right')

    def are_alike(self):
        """some pair is asked, and none has a difference"""
        return bool(self.ways) and set(self.ways) == {'alike'}

    def swapped(self):
        return sentences.ways.SWAPPED + amount(self.wrong, *sentences.ways.words('WRONG'))

    def reasons(self):
        """why no report by these two recordings is clean"""
        return ([self.swapped()] if self.wrong and not self.right else []) + ([sentences.ways.TWICE] if self.are_alike() and self.is_twice else [])

    def order_notes(self):
        if self.wrong and not self.right:
            yield self.swapped(), None, sentences.ways.SWAPPED_REMEDY
        elif self.wrong:
            yield amount(self.wrong, *sentences.ways.words('MIXED')), None, sentences.ways.MIXED_REMEDY
        elif self.are_alike() and not self.is_twice:
            yield sentences.ways.UNTOLD, None, None

    def by_topic(self):
        """by topic how many numbers of best-effort pairs there are, and how many arrived"""
        topics = {}
        for pair in self.best_effort:
            counts = topics.setdefault(pair.w[2], [0, 0])
            counts[0] += pair.numbers
            counts[1] += pair.arrived
        return sorted(topics.items())

    def notes(self, topic_text):
        """what is told, the topics that it is about, or None, and what to do, or None"""
        if self.best_effort:
            numbers, arrived = (sum(counts[i] for _, counts in self.by_topic()) for i in (0, 1))
            pairs = amount(len(self.best_effort), *sentences.noted.words('BEST_EFFORT'))
            one, many = sentences.noted.words('HELD')
            by_topic = ', '.join(f'{topic_text(topic)} {of(arrived, numbers)}' for topic, (numbers, arrived) in self.by_topic())
            yield f'{pairs}{of(arrived, numbers)}{one if numbers == 1 else many}', by_topic, None
        if self.alone:
            topics = ', '.join(topic_text(topic) for topic, _ in sorted(set(self.alone)))
            yield amount(len(self.alone), *sentences.noted.words('ALONE')), topics, sentences.noted.ALONE_REMEDY
        absent = [row for row in self.rows if row.absent]
        if absent:
            told = in_pairs(sum(row.absent for row in absent), *sentences.noted.words('ABSENT'), len(absent))
            topics = ', '.join(topic_text(topic) for topic, _ in sorted({row.key for row in absent}))
            yield told + sentences.noted.ABSENT, topics, sentences.noted.ABSENT_REMEDY
        for name, one, many, advice in UNREAD:
            if self.other.ignored.get(name, 0):
                yield sentences.noted.THERE + amount(self.other.ignored[name], one, many), None, advice
        yield from self.order_notes()

    def lines(self, hosted, topic_text):
        """the best-effort pairs of which numbers did not arrive, by topic"""
        pairs = [pair for pair in self.best_effort if pair.lacking]
        if not pairs:
            return []
        numbers = amount(sum(pair.numbers - pair.arrived for pair in pairs), 'number', 'numbers')
        lines, last = [f"{numbers} of {amount(len(pairs), 'best-effort pair', 'best-effort pairs')} did not arrive"], None
        for pair in sorted(pairs, key=lambda pair: pair.w[2]):
            lines += [] if pair.w[2] == last else [topic_text(pair.w[2])]
            last = pair.w[2]
            shares = f'arrived {of(pair.arrived, pair.numbers)}, not {listed(pair.lacking, pair.numbers - pair.arrived)}'
            lines += [f'  writer {hosted(pair.w[0])}', f'  reader {hosted(pair.r[0])}', f'    {shares}']
        return lines + ['  -> ' + sentences.block.LOST_REMEDY]

    def members(self):
        return {'arrived': [pair.values() for pair in self.best_effort]}




# ---- what applications took


def guid_of(text):
    return bytes.fromhex(text.replace('.', ''))


def not_arrived(report):
    """of each pair that is held its writer, its reader, its first number, and all numbers that did not arrive"""
    for row in report.rows:
        if row.held:
            yield row.w, row.r, row.first, set(row.lacking())
    for pair in report.sides.best_effort:
        yield pair.w[0], pair.r[0], pair.first, pair.all_lacking()


def truth(path, other_path, truth_path):
    """whether the numbers that did not arrive are those that the application did not take"""
    with open(path, 'rb') as f, open(truth_path) as h:
        octets, ends = f.read(), json.load(h)['eps']
    named, differing, pairs = {guid_of(end['guid']): (name, end) for name, end in ends.items()}, 0, 0
    for w, r, first, lacking in not_arrived(report_module().report_of(octets, Asked(arrived=other_path))):
        (name, writer), (_, reader) = named[w], named[r]
        untaken = set(range(first, writer['wrote'] + 1)) - set(reader['took'].get(name, []))
        pairs += 1
        differing += lacking != untaken
        print(f"{writer['topic']} {guid_text(w)} {guid_text(r)}: {len(lacking)} did not arrive, {len(untaken)} were not taken")
        for what, numbers in ('took what did not arrive', lacking - untaken), ('did not take what arrived', untaken - lacking):
            if numbers:
                print(f'  {what}: {listed(sorted(numbers), len(numbers))}')
    print(f'{pairs} pairs, {differing} differences')
    return int(differing > 0 or pairs == 0)


# ---- random recordings


def without_other(row, plain):
    """where a row that is held is not what the same row without the other recording says of it"""
    ours, theirs = ([line for line in one.lines if 'missed' not in line and not line.startswith('  ')] for one in (row, plain))
    if (row.verdict, ours, row.first, row.until) != (plain.verdict, theirs, plain.first, plain.until):
        yield 'evidence'
    for n in range(row.first, min(row.last, 11) + 1):
        kind, other_kind = row.delivery.kind(n), plain.delivery.kind(n)
        if kind != other_kind and (kind != 'arrived' or other_kind == 'received'):
            yield f'kind of number {n}'


def failing(report, plain_rows):
    """the laws that rows by another recording do not keep"""
    other, tail = report.sides.other, report.asked.tail
    backwards = Other(other.datagrams[::-1])
    for row, plain in zip(report.rows, plain_rows):
        yield from without_other(row, plain) if row.held else []
        if sum(row.counts.values()) != row.asked_about():
            yield 'sum of the kinds'
        if not row.held and (row.counts, row.is_clean()) != (plain.counts, plain.is_clean()):
            yield 'row that is not held'
        if (row.way is not None) != any(act['source'] == row.r[:12] and act['dest'] == row.w[:12] for acts in other.recording for act in acts):
            yield 'row that is held'
        if row.held and other.told(row.w, row.r) != backwards.told(row.w, row.r):
            yield 'order of the other recording'
        if row.held and other.told(row.w, row.r) != in_whole(other.recording, row.w, row.r):
            yield 'numbers that are told'
        if row.held and row.is_clean() and row.lacking_count() > max(tail, 0 if row.until is None else row.lacking_count()):
            yield 'clean row that lacks numbers'
        if row.held and row.kind in ('complete', 'open') and not row.lacking_count() and not row.is_clean():
            yield 'row that lacks nothing'


def in_whole(recording, w, r):
    """the numbers of which a reader hears a DATA, or each fragment of one shape"""
    heard = [act for acts in recording for act in acts if reference.brings(act, w, r)]
    whole = {act['number'] for act in heard if act['kind'] == 'data'}
    parts = {}
    for act in heard:
        if act['kind'] == 'data_frag':
            shape = act['number'], act['sample'], act['size'], act['key']
            parts.setdefault(shape, set()).update(range(act['start'], act['start'] + act['count']))
    return whole | {n for (n, sample, size, _), found in parts.items() if len(found) * size >= sample}


def failing_best_effort(sides):
    """the laws that pairs of best effort do not keep"""
    for pair in sides.best_effort:
        there = in_whole(sides.other.recording, pair.w[0], pair.r[0])
        arrived = [n for n in pair.asked_about if n in there]
        if (pair.arrived, pair.lacking) != (len(arrived), [n for n in pair.asked_about if n not in there][:NAMED]):
            yield 'best effort'


SWAPS = {'right': 'wrong', 'wrong': 'right'}


def failing_ways(report, datagrams):
    """whether the two recordings are the other way round where they are given in the other order"""
    recording, other = report.talk.recording, report.sides.other
    swapped = Other(datagrams)
    for row in report.rows:
        if row.way is not None and swapped.holds(row.w, row.r):
            if swapped.way(other.recording, row.w, row.r) != SWAPS.get(row.way, row.way):
                yield 'order of the two'
        if row.way is not None and Other(other.datagrams).way(other.recording, row.w, row.r) != 'alike':
            yield 'one recording twice'
    if recording != [acts_of(d, True) for d in datagrams]:
        yield 'recording'


def laws(count, seed):
    names = 'rows', 'held', 'clean', 'clean by it', 'unclean by it', 'arrived', 'lacking', 'best effort', 'right', 'wrong', 'both', 'alike'
    rng, failed, tried = random.Random(seed), 0, dict.fromkeys(names, 0)
    for k in range(count):
        asked, (datagrams, there) = some_asked(rng), some_other(rng, some_both(rng))
        report, plain = (report_module().Report(datagrams, asked, other=one) for one in (Other(there), None))
        found = [*failing(report, plain.rows), *failing_best_effort(report.sides), *failing_ways(report, datagrams)]
        if bool(check_reasons(report.rows)) != any(not row.is_clean() for row in report.rows):
            found.append('reasons')
        for what in found:
            failed += 1
            print(f'the law on {what} fails on recording {k}, kept in {reference.kept(text_of_datagrams(datagrams))}')
        count_laws(tried, report, plain)
    print(f'{count} recordings, {failed} failures; {tried}')
    return int(failed > 0)


def count_laws(tried, report, plain):
    """adds what was tried"""
    tried['best effort'] += len(report.sides.best_effort)
    for row, old in zip(report.rows, plain.rows):
        clean = row.is_clean(), old.is_clean()
        more = {'rows': 1, 'held': row.held, 'clean': clean[0], 'clean by it': clean == (True, False), 'unclean by it': clean == (False, True),
                'arrived': row.counts['arrived'], 'lacking': row.lacking_count() if row.held else 0}
        for name, count in (more | {row.way: 1} if row.way else more).items():
            tried[name] += count


def check_reasons(rows):
    return import_module('check').row_reasons(rows)


def compare(program, count, seed):
    rng, differing = random.Random(seed), 0
    for k in range(count):
        datagrams, there = some_other(rng, some_both(rng))
        octets = text_of_datagrams(datagrams)
        name = reference.kept(text_of_datagrams(there) + (b'0\n' if rng.random() < 0.03 else b''))
        differs = False
        for form in report_module().FORMS:
            asked = some_asked(rng, octets)
            asked.arrived = name
            want = report_module().answer(form, octets, asked)
            words = report_module().words_of(form) + asked.words()
            gave = reference.given_by(program, words, octets)
            if gave != want:
                differs = True
                differing += 1
                print(f"{' '.join(words)} differs on recording {k}, kept in {reference.kept(octets, '.rec', want, gave)}")
        if not differs:
            os.unlink(name)
    print(f'{count} recordings, {differing} differences')
    return int(differing > 0)


def report_module():
    """the report, which needs this file"""
    return import_module('report')


def main():
    if sys.argv[1] == 'truth':
        return truth(*sys.argv[2:5])
    at = 3 if sys.argv[1] == 'compare' else 2
    count, seed = (int(word) for word in sys.argv[at:at + 2] + ['1000', '1'][len(sys.argv[at:at + 2]):])
    return laws(count, seed) if at == 2 else compare(sys.argv[2], count, seed)


if __name__ == '__main__':
    sys.exit(main())
