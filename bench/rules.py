#!/usr/bin/env python3
"""How many random recordings meet each rule of a report, so that comparisons with the second implementation try all of them.

    rules.py [COUNT [SEED]]
                    prints of COUNT random texts, of as many captures with times and of as many with another recording, how many meet
                    each rule
"""
import random
import sys
from copy import copy

import arrived
import check
import nothing
import report
from asked import GREATEST
from known import PUBLICATIONS, SUBSCRIPTIONS
from life import Span
from random_recordings import some_asked, text_of_datagrams
from random_systems import some_both, some_other, some_recorded
from random_times import some_asked_of
from sentences import advice as said, no_pair
from times import NO_TIMES, SILENCE


def spans_of(found):
    return [Span(found.talk.recording, found.talk.life, row.w, row.r, found.asked.first) for row in found.rows]


def by_irrelevant(span, first):
    """the first number is another one for what was told gone before anything was sent"""
    return span.joined_here and span.first > first and span.irrelevant() >= max(first, span.announced_before() + 1)


def without_times(row):
    """the numbers that are no outage for a short time alone"""
    delivery = row.delivery
    times, delivery.times = delivery.times, NO_TIMES
    unanswered = [delivery.kind(n) for n in delivery.bounds() if n <= row.last].count('unanswered')
    delivery.times = times
    return unanswered > [delivery.kind(n) for n in delivery.bounds() if n <= row.last].count('unanswered')


def excused(row, answers_others=None, fragments_alone=None):
    """the numbers of a row that are no loss by a lost answer, or would be where these were as said"""
    delivery = row.delivery
    lost, wanting = copy(delivery.lost_answers), [n for n in delivery.asked if row.first <= n <= row.last and delivery.is_wanting(n)]
    lost.answers_others = lost.answers_others if answers_others is None else answers_others
    lost.fragments_alone = lost.fragments_alone if fragments_alone is None else fragments_alone
    return {n for n in wanting if lost.excuses(n, delivery.asked_by_answers.get(n, []), delivery.brought.get(n, []))}


def rules_of(found):
    """the rules that a report meets"""
    rows, talk, last = found.rows, found.talk, check.ending(found)
    by_lease = [guid for guid, when in talk.silent.items() if talk.times.last - talk.times.of(when) <= SILENCE]
    advice = [row.advice(found.counts) or '' for row in rows]
    return {
        'irrelevant before anything is sent': any(by_irrelevant(span, found.asked.first) for span in spans_of(found)),
        'from is 2^63': any(row.first > GREATEST for row in rows),
        'wrote nothing since it joined': any(row.wrote_before_alone() for row in rows),
        'unanswered': any(row.counts['unanswered'] for row in rows),
        'no outage by the 100 ms': any(map(without_times, rows)),
        'no loss by a lost answer': any(map(excused, rows)),
        'a loss, since another writer is answered': any(excused(row, answers_others=False) - excused(row) for row in rows),
        'a loss by NACK_FRAGs alone': any(excused(row, fragments_alone=()) - excused(row) for row in rows),
        'a tail': any(row.is_tail() and row.tail() for row in rows),
        'a tail from its first number': any(row.is_tail() and row.delivery.base() == row.first for row in rows),
        'clean with a tail': any(row.is_clean_with_a_tail() for row in rows),
        'talks and does not match': bool(talk.talking),
        'talks, of two domains': any(talk.announced.two_domains(row.w, row.r) and row.delivery.base() > 1 for row in rows),
        'does not match': bool(talk.unmatched),
        'best effort, left out': any(not reliable for reliable in (w[4] == r[4] == 1 for w, r in talk.unobserved)),
        'best effort alone, clean': 'clean: no reliable' in last and not found.because,
        'best effort alone, not clean': 'no reliable pair' in last and bool(found.because),
        'silent': bool(talk.silent),
        'silent by its lease': bool(by_lease),
        'silent by a frame that gives nothing': any(talk.times.end(len(found.datagrams)) - talk.times.of(when) <= SILENCE for when in talk.silent.values()),
        'advice on who is silent': any(one.startswith((said.READER_ENDED, said.WRITER_ENDED)) for one in advice),
        'record longer': said.JUST_ASKED in advice,
        'never asked, and left': said.LEFT in advice,
        'none is known to be lost': 'none is known' in last,
        'clean': last == 'clean',
        'a row has a node': any(talk.who.node(guid) for row in rows for guid in (row.w, row.r)),
        'nodes are asked for': bool(rows and found.asked.nodes),
        'no node is asked for': bool(found.asked.nodes) and not rows,
        **rules_of_discovery(found, advice),
        **rules_of_events(found),
        **rules_of_nothing(found),
    } | (rules_of_sides(found) if found.sides else {})


def rules_of_discovery(found, advice):
    rows, talk = found.rows, found.talk
    return {
        'not told': bool(talk.not_told), 'not told of what is not named': any(one.unnamed for one in talk.not_told),
        'not told of a writer': any(one.named[PUBLICATIONS] for one in talk.not_told), 'not told of a reader': any(one.named[SUBSCRIPTIONS] for one in talk.not_told),
        'several were not told': len({one.dest for one in talk.not_told}) > 1, 'one was not told of several': len(talk.not_told) > len({one.dest for one in talk.not_told}),
        'two lives': bool(talk.lives), 'a row of two lives': said.TWO_LIVES in advice,
        'matched late': any(row.late for row in rows), 'several matched late': sum(bool(row.late) for row in rows) > 1,
        'matched late, and clean': any(row.late and row.is_clean() for row in rows), 'matched late, and not clean': any(row.late and not row.is_clean() for row in rows),
        'numbers before one that matched late': any(row.late and row.before for row in rows),
        'advice on what matched late': said.MATCHED_LATE in advice,
        'nothing comes back': any(talk.address_behind(one.source, one.dest) for one in talk.not_told), 'lost on the way': said.NOT_ANNOUNCED in advice,
    }


def rules_of_events(found):
    events = found.events
    silent, between = ([event for event in events if bool(event.silent) == is_silent] for is_silent in (True, False))
    numbers = [event.numbers() for event in events]
    return {
        'an event of two participants': bool(between),
        'an event of one that is silent': bool(silent),
        'an event of several pairs': any(len(event.rows) > 1 for event in events),
        'several events': len(events) > 1,
        'two events with as many numbers': len(set(numbers)) < len(numbers),
        'an event that is not the first one by its rows': [event.rows[0][0] for event in events] != sorted(event.rows[0][0] for event in events),
        'an event without numbers': 0 in numbers,
        'who is silent was asked': any(event.asked() for event in silent),
        'who is silent was not asked': any(event.asked() is None for event in silent),
        'both are silent': any(row.w[:12] != event.silent[:12] and len(row.silences) > 1 for event in silent for _, row in event.rows),
        'sent first at one time': any('first sent at' in event.text() for event in between),
        'sent first between two times': any('first sent between' in event.text() for event in between),
        'a process': any('process' in event.text() for event in events),
    }


def rules_of_nothing(found):
    """by which cause there is no pair to judge"""
    told = '' if found.rows else nothing.cause(found.talk)
    causes = {
        'nothing of RTPS': told == no_pair.NO_RTPS, 'it began late, by several': no_pair.EARLY_MANY in told, 'it began late, by one': no_pair.EARLY_ONE in told,
        'one host': told == no_pair.ONE_HOST, 'shared memory': told == no_pair.SHARED_MEMORY, 'two domains': 'in domain' in told,
        'not told': told == no_pair.NOT_TOLD, 'one way': told == no_pair.ONE_WAY, 'no match': told == no_pair.UNMATCHED, 'nothing seen': told == no_pair.LEFT_OUT,
        'best effort alone': told == no_pair.BEST_EFFORT, 'a topic of one side': ' and no ' in told, 'more than ten topics': told.endswith(' more'),
        'no cause': told == no_pair.UNKNOWN,
    }
    return {f'no pair: {cause}': is_met for cause, is_met in causes.items()}


def rules_of_sides(found):
    sides = found.sides
    ways = {f'a pair is {name}': name in sides.ways for name in ('right', 'wrong', 'both', 'alike')}
    return ways | {
        'held': any(row.held for row in found.rows),
        'looks swapped': sides.wrong > 0 and not sides.right,
        'some each way': sides.wrong > 0 and sides.right > 0,
        'given twice': sides.are_alike() and sides.is_twice,
        'nothing tells apart': sides.are_alike() and not sides.is_twice,
        'missed, and some of these arrived': any(row.counts['missed'] and set(row.delivery.asked) & row.delivery.arrived for row in found.rows),
    }


def some_text(rng):
    octets = some_recorded(rng)
    return octets, some_asked(rng, octets), None


def some_timed(rng):
    octets, asked = some_asked_of(rng)
    return octets, asked, None


def some_two(rng):
    datagrams, there = some_other(rng, some_both(rng))
    octets = text_of_datagrams(datagrams)
    return octets, some_asked(rng, octets), arrived.Other(there)


def main():
    count, seed = (int(word) for word in sys.argv[1:] + ['1000', '1'][len(sys.argv) - 1:])
    for name, some in (('texts', some_text), ('captures', some_timed), ('two texts', some_two)):
        rng, met, refused = random.Random(seed), {}, 0
        for _ in range(count):
            octets, asked, other = some(rng)
            try:
                found = report.report_of(octets, asked)
            except report.Refused:
                refused += 1
                continue
            found = report.Report(found.datagrams, asked, times=found.talk.times, other=other) if other else found
            for rule, is_met in rules_of(found).items():
                met[rule] = met.get(rule, 0) + is_met
        print(f'{name}: {count}, of which {refused} are refused')
        for rule, times in met.items():
            print(f'  {times:6} {rule}')


if __name__ == '__main__':
    sys.exit(main())
