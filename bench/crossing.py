#!/usr/bin/env python3
"""Random recordings of crossing audiences: writers of several participants that speak, in one datagram, to everyone, to a participant, to one
reader of it, and to the readers of one entity id in all participants; and answers in the datagrams of the words that they acknowledge.

    crossing.py compare PROGRAM [COUNT [SEED]]
                            runs PROGRAM on COUNT random recordings, and says where it differs
    crossing.py mistakes [COUNT [SEED]]
                            plants mistakes into the second implementation, and says in how many of COUNT random recordings each gives
                            another verdict, or another row: in these recordings, and beside them in those of other comparisons

`mistakes` fails where a mistake is seen in fewer than one of 100 of these recordings.
"""
import random
import sys
from itertools import product
from typing import Callable, NamedTuple
from unittest.mock import patch

import make
import reference
import report
from asked import PLAIN, Asked
from fragments import payloads_told
from life import Life, Span
from random_ends import PREFIXES, some_participant
from random_recordings import DURABLE, RELIABLE, announced, leaving, names_of, some_announced, some_input, text_of_datagrams, true_sample
from random_systems import some_recorded

WRITERS, READERS, UNKNOWN = (b'\0\0\1\3', b'\0\0\2\3'), (b'\0\0\1\4', b'\0\0\2\4'), bytes(4)
# octets of a sample, and of its fragments
SAMPLE, SIZES = 8, (3, 4, 4, 8)
# how many samples a writer sends at most
MOST = 4

# ---- who speaks, and who hears


class Writer:
    def __init__(self, prefix, entity):
        self.prefix, self.entity, self.first, self.last = prefix, entity, 1, 0


class Hearing:
    """which numbers a reader is told of by a writer: in earlier datagrams, and in this one; and of samples the fragments that it heard"""

    def __init__(self):
        self.before, self.now, self.fragments = set(), set(), {}

    def add_fragments(self, n, size, numbers):
        heard = self.fragments.setdefault((n, size), set())
        heard |= set(numbers)
        if len(heard) == len(range(0, SAMPLE, size)):
            self.now.add(n)

    def settle(self):
        """the datagram ends"""
        self.before |= self.now
        self.now = set()


def least_outside(numbers):
    return next(n for n in range(1, len(numbers) + 2) if n not in numbers)


def packed(parts):
    """a datagram of submessages, each with who says it, and with the participant that it is for, or None"""
    speaker, dest = parts[0][0], None
    octets = make.header(speaker)
    for source, to_whom, submessage in parts:
        octets += make.by(source) if source != speaker else b''
        octets += make.to(to_whom or bytes(12)) if to_whom != dest else b''
        octets += submessage
        speaker, dest = source, to_whom
    return octets


class Crossing:
    """what writers and readers of one topic say, whose participants and entity ids cross. What readers answer is mostly true"""

    def __init__(self, rng):
        self.rng, self.datagrams, self.parts = rng, [], []
        hosts = rng.sample(PREFIXES, rng.randint(2, 4))
        writers = [(host, WRITERS[0]) for host in hosts[:rng.randint(2, len(hosts))]] + [(hosts[0], WRITERS[1])]
        self.writers = [Writer(*writer) for writer in writers[:rng.choice([len(writers), len(writers) - 1])]]
        self.readers = rng.sample([(host, entity) for host in hosts for entity in READERS], rng.randint(2, min(5, 2 * len(hosts))))
        self.hearing = {(w, r): Hearing() for w in self.writers for r in self.readers}
        # how often a sample comes in fragments, an answer counts its own datagram, or claims what its reader was not told, and a sample changes
        self.in_fragments = rng.choice([0, 0.4, 0.8])
        self.early, self.bold = rng.choice([0, 0.1, 0.5]), rng.choice([0, 0, 0.1, 0.3])
        self.changed = rng.choice([0, 0, 0.05, 0.15])
        self.unannounced = [*self.announcements()]
        rng.shuffle(self.unannounced)

    def announcements(self):
        """of each writer and reader its announcement, and sometimes of each participant"""
        more = self.rng.choice([b'', DURABLE])
        for w in self.writers:
            yield announced(b'\0\0\3\xc2', w.prefix, w.entity, DURABLE, names_of(b'pose'))
        for prefix, entity in self.readers:
            topic = b'pose' if self.rng.random() < 0.95 else b'odom'
            yield announced(b'\0\0\4\xc2', prefix, entity, RELIABLE + more if self.rng.random() < 0.95 else b'', names_of(topic))
        for prefix in PREFIXES if self.rng.random() < 0.3 else ():
            yield some_participant(self.rng, prefix)

    # ---- datagrams

    def close(self, more=b''):
        """ends the datagram, with more octets behind it"""
        if self.parts:
            self.datagrams.append(packed(self.parts) + more)
        self.parts = []
        for hearing in self.hearing.values():
            hearing.settle()

    def audience(self, reader=None):
        """a participant or none, and an entity id or none: mostly such that this reader is one of those who hear"""
        prefix, entity = reader or self.rng.choice(self.readers)
        if self.rng.random() < 0.03:
            prefix = self.rng.choice(PREFIXES)
        return self.rng.choice([None, prefix]), self.rng.choice([UNKNOWN, entity])

    def say(self, w, audience, submessage):
        self.parts.append((w.prefix, audience[0], submessage))
        return [self.hearing[w, r] for r in self.readers if reference.heard({'dest': audience[0], 'reader': audience[1]}, b''.join(r))]

    # ---- what writers say

    def sample_of(self, n):
        sample = true_sample(n, SAMPLE)
        return sample[:-1] + b'x' if self.rng.random() < self.changed else sample

    def send(self, w, n, audience):
        if self.rng.random() < self.in_fragments:
            return self.send_pieces(w, n, audience)
        for hearing in self.say(w, audience, make.data(w.entity, n, self.sample_of(n), audience[1])):
            hearing.now.add(n)

    def send_pieces(self, w, n, audience):
        """each fragment to this audience, or each to one of its own; some are not sent, and sometimes all are in one submessage"""
        sample, size, is_one = self.sample_of(n), self.rng.choice(SIZES), self.rng.random() < 0.6
        if self.rng.random() < 0.2:
            pieces = [(1, sample)]
        else:
            pieces = [(at // size + 1, sample[at:at + size]) for at in range(0, SAMPLE, size) if self.rng.random() < 0.9]
        self.rng.shuffle(pieces)
        for first, octets in pieces:
            to_whom = audience if is_one else self.audience()
            submessage = make.data_frag(w.entity, n, first, octets, size, SAMPLE, to_whom[1])
            for hearing in self.say(w, to_whom, submessage):
                hearing.add_fragments(n, size, range(first, first + len(range(0, len(octets), size))))

    def send_next(self, w):
        """the next sample, to some audiences one after another"""
        if w.last == MOST:
            return self.send_again(w)
        w.last += 1
        for _ in range(self.rng.choice([1, 1, 2, 3])):
            self.send(w, w.last, self.rng.choice([(None, UNKNOWN), self.audience()]))

    def lacking(self, w, r):
        """the numbers that a writer sent, and a reader was not told of"""
        return sorted({*range(1, w.last + 1)} - self.hearing[w, r].before)

    def send_again(self, w):
        """mostly what a reader lacks, to it alone or to more"""
        r = self.rng.choice(self.readers)
        lacking = self.lacking(w, r)
        if w.last:
            n = self.rng.choice(lacking) if lacking and self.rng.random() < 0.8 else self.rng.randint(1, w.last)
            self.send(w, n, r if self.rng.random() < 0.5 else self.audience(r))

    def heartbeat(self, w, audience=None):
        audience = audience or self.audience()
        if self.rng.random() < 0.2 and w.first <= w.last:
            w.first += 1
        submessage = make.heartbeat(w.entity, w.first, max(w.last, w.first - 1), audience[1], self.rng.choice([0, 0, 0, 2]))
        for hearing in self.say(w, audience, submessage):
            hearing.now |= {*range(1, w.first)}

    def gap(self, w):
        audience, (start, base) = self.audience(), sorted(self.rng.randint(1, MOST + 1) for _ in range(2))
        numbers = {base + k for k in range(3) if self.rng.random() < 0.3}
        for hearing in self.say(w, audience, make.gap(w.entity, start, base, *make.listed(base, numbers), audience[1])):
            hearing.now |= {*range(start, base), *numbers}

    # ---- what readers say

    def base(self, w, hearing):
        """the least number that a reader lacks, or now and then another one"""
        told = hearing.before | hearing.now if self.rng.random() < self.early else hearing.before
        least = least_outside(told)
        if self.rng.random() < self.bold:
            return max(least, self.rng.randint(1, w.last + 1))
        return self.rng.randint(1, least) if self.rng.random() < 0.1 else least

    def answer(self, w, r, dest=None):
        base, told = self.base(w, self.hearing[w, r]), self.hearing[w, r].before
        lacked = {n for n in range(base, w.last + 1) if n not in told and self.rng.random() < 0.8}
        dest = dest or self.rng.choice([w.prefix] * 30 + [None, self.rng.choice(PREFIXES)])
        part = r[0], dest, make.ack_nack(r[1], w.entity, base, *make.listed(base, lacked), self.rng.choice([0, 2]))
        self.parts.insert(len(self.parts) if self.rng.random() < 0.8 else self.rng.randrange(len(self.parts) + 1), part)

    def ask(self, w, r):
        """for fragments"""
        numbers = {k for k in range(1, 4) if self.rng.random() < 0.5}
        submessage = make.nack_frag(r[1], w.entity, self.rng.randint(1, MOST), 1, *make.listed(1, numbers))
        self.parts.append((r[0], w.prefix, submessage))

    # ---- who joins and leaves

    def join(self):
        """announced in a datagram with what others say"""
        if self.unannounced:
            d = self.unannounced.pop(self.rng.randrange(len(self.unannounced)))
            self.parts += [(d[8:20], None, part[20:]) for part in some_announced(self.rng, d, 0.1)]

    def leave(self):
        """as the last words of a datagram"""
        d = leaving(self.rng, b''.join(self.rng.choice(self.readers)))
        if self.parts:
            self.close(make.by(d[8:20]) + d[20:])
        else:
            self.datagrams.append(d)

    # ---- the recording

    def ends(self):
        """a writer and a reader, often such that the reader is told something by it in this datagram"""
        telling = [ends for ends, hearing in self.hearing.items() if hearing.now]
        return self.rng.choice(telling if telling and self.rng.random() < 0.6 else [*self.hearing])

    def go_on(self):
        """something is said, and mostly more in the same datagram"""
        (w, r), kind = self.ends(), self.rng.random()
        if kind < 0.25:
            self.send_next(w)
        elif kind < 0.5:
            self.send_again(w)
        elif kind < 0.6:
            self.heartbeat(w)
        elif kind < 0.66:
            self.gap(w)
        elif kind < 0.9:
            self.answer(w, r)
        elif kind < 0.93:
            self.ask(w, r)
        elif kind < 0.975:
            self.join()
        else:
            self.leave()
        if self.rng.random() < 0.3:
            self.close()

    def end(self):
        """what readers lack is sent to them alone, mostly, and all answer"""
        for w in self.writers:
            for r in self.readers if self.rng.random() < 0.7 else []:
                for n in self.lacking(w, r):
                    self.send(w, n, r)
            self.heartbeat(w, (None, UNKNOWN))
            self.close()
            for r in self.readers:
                self.answer(w, r, w.prefix)
            self.close()


def some_crossing(rng):
    crossing = Crossing(rng)
    for _ in range(rng.choice([len(crossing.unannounced), rng.randrange(len(crossing.unannounced))])):
        crossing.join()
        crossing.close()
    for _ in range(rng.randint(12, 45)):
        crossing.go_on()
    crossing.close()
    if rng.random() < 0.7:
        crossing.end()
    while crossing.unannounced and rng.random() < 0.9:
        crossing.join()
    if rng.random() < 0.3:
        crossing.leave()
    crossing.close()
    return crossing.datagrams


# ---- mistakes, as one may make them in a judge


def words_in_front(recording, w, r, first=1, plain=reference.judge):
    """the words in front of an answer count for it, also those of its own datagram"""
    places = [i for i, acts in enumerate(recording, 1) for _ in acts]
    kind, *numbers = plain([[act] for acts in recording for act in acts], w, r, first).split()
    if kind == 'unfounded':
        numbers[0] = str(places[int(numbers[0]) - 1])
    return ' '.join([kind, *numbers])


def own_words(recording, w, r, first=1):
    """all words of a datagram count for its own answers"""
    return words_in_front([sorted(acts, key=lambda act: act['kind'] == 'acknack') for acts in recording], w, r, first)


def told_once(recording, w, r, plain=reference.told_to):
    """what some audience is told is not told to another one: any audience is wider than any other"""
    acts_of = [act for acts in recording for act in acts if reference.spoken(act, w)]
    known, audiences = {}, product({act['dest'] or bytes(12) for act in acts_of} | {r[:12]}, {act['reader'] for act in acts_of} | {r[12:]})
    for audience in audiences:
        for i, act, words in plain(recording, w, b''.join(audience)):
            known.setdefault((*words.spans, words.payload), set()).add((i, act['at']))
    for i, act, words in plain(recording, w, r):
        if min(known[(*words.spans, words.payload)]) == (i, act['at']):
            yield i, act, words


def fragments_of_all(recording, w, r):
    """a sample is whole once all its fragments were sent, to whomever"""
    sent = [(i, act) for i, acts in enumerate(recording, 1) for act in acts if reference.spoken(act, w)]
    payloads = iter(payloads_told([act for _, act in sent if act['kind'] == 'data_frag']))
    for i, act in sent:
        told = [reference.Words(act)] if act['kind'] != 'data_frag' else [
            reference.Words({'kind': 'data', 'number': act['number'], 'payload': payload}) for payload in next(payloads)]
        for words in told if reference.heard(act, r) else []:
            yield i, act, words


def without_dest(act, r, plain=reference.heard):
    """a reader that is named hears where its participant is named, too"""
    return plain(act, r) and (act['dest'] is not None or act['reader'] == UNKNOWN)


def by_the_header(d, fragments=False, plain=reference.acts_of):
    """INFO_SRC is not looked at"""
    return [{**act, 'source': d[8:20]} for act in plain(d, fragments)]


def to_all_again(d, fragments=False, plain=reference.read):
    """behind an INFO_SRC all is for everyone"""
    header, items, refusal = plain(d, fragments)
    ends = [{**item, 'kind': 'info_dst', 'prefix': bytes(12)} for item in items if item['kind'] == 'info_src']
    return header, sorted([*items, *ends], key=lambda item: item['at']), refusal


def joined_with_all(self, r, plain=Life.joins):
    """a reader joins in front of all that is said in the datagram in which it does"""
    place, said = plain(self, r)
    return place and (place[0], 0), said


def joined_behind_all(self, r, plain=Life.joins):
    place, said = plain(self, r)
    return place and (place[0] + 1, 0), said


def left_behind_all(self, recording):
    """what is said in the datagram in which a reader leaves counts for it"""
    return recording if self.until is None else recording[:self.until[0]]


def verdicts(datagrams):
    """of each pair, without and with samples in fragments"""
    return [reference.audit(datagrams, asked)[1:-1] for asked in (PLAIN, Asked(fragments=True))]


def rows(datagrams):
    """all that is told of each row"""
    return report.Report(datagrams).why()


class Mistake(NamedTuple):
    """what stands in the place of a function of the second implementation, and where it has to be seen"""
    owner: object
    function: str
    wrong: Callable
    seen: Callable = verdicts


MISTAKES = {
    "a datagram's own words count for an answer in it": Mistake(reference, 'judge', own_words),
    'those in front of the answer do': Mistake(reference, 'judge', words_in_front),
    'what one audience is told, all hear': Mistake(reference, 'heard', lambda act, r: True),
    'what one audience is told, no other is told again': Mistake(reference, 'told_to', told_once),
    'a participant hears what is for another one': Mistake(reference, 'heard', lambda act, r: act['reader'] in (UNKNOWN, r[12:])),
    'a reader hears what is for another one of its participant': Mistake(reference, 'heard', lambda act, r: act['dest'] in (None, r[:12])),
    'fragments for others count for a sample': Mistake(reference, 'told_to', fragments_of_all),
    'a reader that is named hears only where its participant is': Mistake(reference, 'heard', without_dest),
    'INFO_SRC is not looked at': Mistake(reference, 'acts_of', by_the_header),
    'INFO_SRC ends what INFO_DST says': Mistake(reference, 'read', to_all_again),
    'a reader joins in front of its datagram': Mistake(Life, 'joins', joined_with_all, rows),
    'a reader joins behind its datagram': Mistake(Life, 'joins', joined_behind_all, rows),
    'a reader leaves behind its datagram': Mistake(Span, 'datagrams', left_behind_all, rows),
}


def found(datagrams):
    """the mistakes that are seen"""
    right = {seen: seen(datagrams) for seen in (verdicts, rows)}
    for name, (owner, function, wrong, seen) in MISTAKES.items():
        with patch.object(owner, function, wrong):
            if seen(datagrams) != right[seen]:
                yield name


def found_in(some, count, seed):
    """by mistake, in how many recordings of a kind it is found"""
    rng, counts = random.Random(seed), dict.fromkeys(MISTAKES, 0)
    for _ in range(count):
        datagrams = some(rng)
        for name in found(datagrams) if not isinstance(datagrams, str) else ():
            counts[name] += 1
    return counts


def mistakes(count, seed):
    kinds = {
        'crossing': some_crossing,
        'reference.py compare': lambda rng: reference.recording_of(some_input(rng)),
        'report.py compare': lambda rng: reference.recording_of(some_recorded(rng)),
    }
    counts = {kind: found_in(some, count, seed) for kind, some in kinds.items()}
    print(f'seen in so many of {count} recordings of {", ".join(kinds)}')
    for name in MISTAKES:
        print(f"{', '.join(str(of_kind[name]) for of_kind in counts.values()):>16}  {name}")
    return int(any(100 * times < count for times in counts['crossing'].values()))


# ---- comparisons


def differing(rng, program, octets, where):
    """how many answers of a program are others"""
    count = report.differing_forms(rng, program, octets, where)
    for asked in (PLAIN, Asked(fragments=True)):
        text, _, status = reference.answer_as('audit', octets, asked)
        count += reference.differs(program, octets, (['audit', *asked.words()], text, status), where)
    return count


def compare(program, count, seed):
    rng = random.Random(seed)
    differences = sum(differing(rng, program, text_of_datagrams(some_crossing(rng)), (f'recording {k}', '.rec')) for k in range(count))
    print(f'{count} recordings, {differences} differences')
    return int(differences > 0)


def main():
    if sys.argv[1:2] not in (['compare'], ['mistakes']):
        raise SystemExit(__doc__)
    at = 3 if sys.argv[1] == 'compare' else 2
    count, seed = (int(word) for word in sys.argv[at:at + 2] + ['1000', '1'][len(sys.argv[at:at + 2]):])
    return mistakes(count, seed) if at == 2 else compare(sys.argv[2], count, seed)


if __name__ == '__main__':
    sys.exit(main())
