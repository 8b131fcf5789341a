"""Rows in spans, and outcomes of numbers, for the second implementation.

A row in a span is the verdict of the datagrams before the reader left, from the first number on that is for the reader. Each number
that is asked about is in one of seven kinds, the first of KINDS that fits; in `arrived` only where the row is held against another
recording.
"""
import arrived
import kinds
import reference
from check import KINDS, advice_of
from ends import node_members
from known import Known, vendors_of
from life import Life, Span
from reference import Delivery, acts_of, guid_text, last_number, name_text
from talk import Talk
from times import NO_TIMES, SHORT, alone, longest_wait, silence_line, timed_values, wait_values
from whole import WholeMatches

# ---- outcomes


class Outcome(Delivery):
    """what a writer and a reader said to each other from a number on, with the kind of each number. `told_there` has the numbers of
    which the reader is told a payload in another recording, where the pair is held against one"""
    def __init__(self, recording, w, r, first, since, told_there=None, times=NO_TIMES):
        super().__init__(recording, w, r, first, since)
        self.times = times
        self.arrived = {n for n in told_there or () if first <= n <= self.last} - self.received
        # Of a row that is held against another recording numbers that arrived are not missed.
        self.missed = [n for n in self.missed if n not in self.arrived]
        self.questions = [(place, act) for place, act, _ in self.told if act['kind'] == 'heartbeat' and not act['final'] and place > since]
        self.counts = self.count()

    def is_unanswered(self, n):
        gone = self.gone(n, lambda place: True)
        if gone is None:
            return False
        asked = [place for place, act in self.questions if place < gone[1] and act['first'] <= n <= act['last']]
        if len(asked) < 2 or any(asked[0] < place < gone[1] for place, _ in self.answers):
            return False
        waited = self.times.between(asked[0][0], gone[1][0])
        return waited is None or waited >= SHORT

    def kind(self, n):
        if n in self.received:
            return 'received'
        if n in self.arrived:
            return 'arrived'
        if self.is_wanting(n):
            return 'likely' if self.is_excused(n) else 'missed'
        if not self.brought_since(n):
            return 'unsent'
        if self.is_unanswered(n):
            return 'unanswered'
        return 'likely' if self.claim(n) is not None else 'unconfirmed'

    def bounds(self):
        """the numbers from which on the kind may be another: between those that some act names, all are of one kind"""
        bounds = {self.first, self.last + 1} | {n + k for n in [*self.asked, *self.brought, *self.received, *self.arrived] for k in (0, 1)}
        bounds |= {end for _, _, words in self.told for span in words.spans for end in span}
        bounds |= {end for _, act in self.questions for end in (act['first'], act['last'] + 1)} | {base for _, (base, *_) in self.answers}
        return sorted(n for n in bounds if self.first <= n <= self.last + 1)

    def count(self):
        """how many numbers are of each kind"""
        bounds, counts = self.bounds(), dict.fromkeys(KINDS, 0)
        for lo, hi in zip(bounds, bounds[1:]):
            counts[self.kind(lo)] += hi - lo
        return counts

    def base(self):
        """the greatest base of all answers"""
        return max([0] + [base for _, (base, *_) in self.answers])

    def announced(self):
        """the greatest number that the writer announced; 0 where there is none"""
        return max([0] + [last_number(act) for _, act in self.said])


# ---- rows

class Row:
    """a row of a report. One that is held against another recording tells what arrived by that one"""
    def __init__(self, recording, talk, w, r, asked, other=None):
        self.w, self.r, self.key, self.asked = w[0], r[0], w[2:4], asked
        span = Span(recording, talk.life, self.w, self.r, asked.first)
        self.first, self.until, self.joined_here, self.since = span.first, span.until, span.joined_here, span.since
        self.datagrams = span.datagrams(recording)
        # which way round the two recordings are, by this row; None where the other one has nothing of it
        self.way = other.way(recording, self.w, self.r) if other else None
        self.beside, self.held = other is not None, self.way not in (None, 'wrong')
        told_there = other.told(self.w, self.r) if self.held else None
        self.times, self.who = talk.times, talk.who
        self.delivery = Outcome(self.datagrams, self.w, self.r, self.first, span.since, told_there, self.times)
        # how many numbers are received for certain though the other recording has none of them
        self.absent = len(self.delivery.received - told_there) if self.held else 0
        self.verdict = reference.judge(self.datagrams, self.w, self.r, self.first)
        self.kind, self.last, self.counts = self.verdict.split()[0], self.delivery.last, self.delivery.counts
        self.lines = reference.evidence_lines(self.delivery, self.verdict)
        # where there are times, the longest that the reader let the writer wait, and whose participants are silent
        self.silences = talk.silences(self.w, self.r)
        # whether it is of two lives, and the reader's participant was never told of endpoints of the writer's
        self.is_mixture, self.is_not_told = talk.is_mixture(w, r), talk.is_not_told(w, r)
        # that the two matched late, or None
        self.late = talk.late(w, r)
        questions, answers = [place for place, _ in self.delivery.questions], [place for place, _ in self.delivery.answers]
        self.wait = longest_wait(self.times, questions, answers, len(self.datagrams))
        # how many of the numbers that are asked for stand before the first of the row
        self.before = self.first - asked.first

    def wrote_before_alone(self):
        """all numbers that the writer announced stand before the first one that is for the reader, and no answer claims a later one"""
        return self.before > 0 and 0 < self.delivery.announced() < self.first and self.delivery.base() <= self.first

    def asked_about(self):
        return self.last + 1 - self.first

    def is_tail(self):
        """the numbers that lack are those behind what the reader acknowledged, and nothing shows that they did not come"""
        base = self.delivery.base()
        if self.kind != 'open' or base <= 1 or base < self.first:
            return False
        kinds = {n: self.delivery.kind(n) for n in self.delivery.bounds() if n <= self.last}
        below, behind = (('received', 'arrived'), ('arrived', 'unconfirmed')) if self.held else (('received', 'likely'), ('unconfirmed',))
        return all(kind in (below if n < base else behind) for n, kind in kinds.items())

    def tail(self):
        return self.counts['unconfirmed']

    def lacking_count(self):
        """how many numbers are neither received nor arrived"""
        return self.asked_about() - self.counts['received'] - self.counts['arrived']

    def lacking(self):
        """these numbers, in their order"""
        bounds = self.delivery.bounds()
        return (n for lo, hi in zip(bounds, bounds[1:]) if self.delivery.kind(lo) not in ('received', 'arrived') for n in range(lo, hi))

    def is_clean(self):
        lost = ('missed', 'unsent', 'unanswered', 'likely') if self.held else ('missed', 'unsent', 'unanswered')
        if any(self.counts[kind] for kind in lost):
            return False
        if self.held and self.kind == 'open' and not self.lacking_count():
            return True
        return self.kind == 'complete' or self.is_tail() and (self.until is not None or self.tail() <= self.asked.tail)

    def is_clean_with_a_tail(self):
        return self.is_clean() and self.kind == 'open' and self.tail() > 0

    def asked_since(self):
        """the places where the writer asks for an answer behind the last one"""
        return reference.asked_since(self.delivery)

    def silence_lines(self):
        return [silence_line(self.times, side, last) for side, last in self.silences]

    def names(self):
        """the members that name it"""
        return {'writer': guid_text(self.w), 'reader': guid_text(self.r), 'topic': name_text(self.key[0]), 'type': name_text(self.key[1])}

    def evidence(self):
        """the members that a row of `audit` has, too"""
        return timed_values(self.times, reference.evidence_values(self.verdict.split(), self.lines))

    def outcomes(self):
        """how many numbers are of each kind; how many arrived is told where there is another recording"""
        return {kind: None if kind == 'arrived' and not self.held else count for kind, count in self.counts.items() if self.beside or kind != 'arrived'}

    def values(self, counts):
        """all members; `counts` are those of the whole recording"""
        until = self.until and self.until[0]
        not_arrived = {'not_arrived': self.first_lacking() if self.held else None} if self.beside else {}
        wait, said = ({'wait': wait_values(self.times, self.wait)}, {'silence': self.silence_lines()}) if self.times.are_there() else ({}, {})
        return self.names() | self.evidence() | {'from': self.first, 'until': until} | alone(self.times, until=until) | {
            'outcomes': self.outcomes(), **not_arrived, 'clean': self.is_clean(), **wait, 'numbers': kinds.values(self), **said, 'advice': self.advice(counts), **node_members(self.who, self.w, self.r)}

    def first_lacking(self):
        return arrived.first_named(self.lacking())

    def advice(self, counts):
        """what to do, or None"""
        return None if self.is_clean() else advice_of(self, counts)


def rows_of(datagrams, asked, times=NO_TIMES, other=None):
    """the rows that are asked for, who talks, and the counts of the whole recording. Rows are held against another recording, where
    there is one"""
    recording = [acts_of(d, True) for d in datagrams]
    headers = [reference.read(d)[0] for d in datagrams]
    _, settled, matched, unsettled, _ = reference.discovery(datagrams, True)
    prefixes, life = [header and header['prefix'] for header in headers], Life(recording)
    vendors = [vendors_of(d) for d in datagrams]
    known, matches = (Known(recording, vendors, prefixes, times, life), WholeMatches(recording, vendors, prefixes, times)) if times.are_there() else (None, None)
    talk = Talk(recording, prefixes, settled, matched, life, asked, times, known, matches)
    rows = [Row(recording, talk, w, r, asked, other) for w, r in talk.judged]
    line = reference.counts_line(datagrams, recording, unsettled, True).split()
    return rows, talk, dict(zip(line[::2], map(int, line[1::2])))
