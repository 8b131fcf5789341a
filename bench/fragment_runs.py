#!/usr/bin/env python3
"""The verdict by runs in which a reader takes fragments one by one, compared with reference.py, which goes by rules.

    fragment_runs.py rows                  the rows below: what is wanted, what the rules say and what the runs say; and which
                                           submessages are pieces
    fragment_runs.py runs [COUNT [SEED]]   the same on COUNT small random recordings, from some numbers on, and the numbers that
                                           are received

What a submessage says, who speaks it and who hears it is read by reference.py. What a reader may take and hold, which
payloads it can put together, and which verdict follows are worked out here, from these definitions:

- A *thing* is what a reader takes for a number at once: a payload of a DATA, the word that the number is gone, or one
  fragment with its octets and the shape of its sample (the size of the sample, the size of a fragment, key or not).
- A *state* is how many datagrams are sent and which (number, thing) the reader holds. At first there are none of either.
- An *event* sends the next datagram, or takes a thing that an act of a datagram already sent tells the reader. A datagram is
  sent only where, for each answer in it, the reader has a word for each number from N on that the answer claims.
- A reader *has a word* for a number where it holds a payload of it or that it is gone, or of one shape each fragment from the
  first to the last one. Its *payloads* of a number are those that it holds, and all that it can put together: of one shape,
  each fragment with some octets that it holds for it.
- A *run* is a list of allowed events that sends every datagram. The verdict is `unfounded` where there is none: the first
  datagram that no list of allowed events sends, and the least number claimed in it for which all that the datagrams before
  it tell is no word. Else it is `conflict`: the least number of which some run ends with two payloads; else `open`: the
  least number from N to the last announced one for which some run ends without a word; else `complete`.
"""
import itertools
import random
import sys

import reference
from asked import GREATEST, Asked
from fragments import payloads_told
from random_recordings import A, READERS, START, some_delivery, some_pieces, text_of_datagrams
from reference import answered, heard, kept, spoken

GONE = ('gone',)
# Recordings that tell a reader more things than this are not tried: each set of things is a state.
MOST_THINGS = 11
# On recordings that tell at most this many things the shorter way is compared with the search over all events.
FEW_THINGS = 5


# ---- what a recording tells

def things_of(act, bound):
    """each (number, thing) of an act; numbers from `bound` on are left out"""
    kind = act['kind']
    if kind == 'data':
        return [(act['number'], ('payload', act['payload']))]
    if kind == 'data_frag':
        shape = act['sample'], act['size'], act['key']
        cut = [act['octets'][at:at + act['size']] for at in range(0, len(act['octets']), act['size'])]
        return [(act['number'], ('fragment', shape, act['start'] + k, octets)) for k, octets in enumerate(cut)]
    if kind == 'heartbeat':
        return [(n, GONE) for n in range(1, min(act['first'], bound))]
    base, count, bits, _ = act['set']
    told = list(range(act['start'], min(base, bound))) + [n for n in reference.members(base, count, bits) if n < bound]
    return [(n, GONE) for n in told]


def announced(act):
    """the number that an act of a writer announces, or 0"""
    return {'heartbeat': act.get('last'), 'gap': 0}.get(act['kind'], act.get('number'))


class Told:
    """what a recording says of a writer and a reader about the numbers from `first` on: of each datagram the things that the
    reader hears and the numbers that it claims, and the last announced number. All numbers that are told or claimed are below
    `bound`"""

    def __init__(self, recording, w, r, first, bound):
        self.first, self.last = first, first - 1
        self.gives, self.claims = [], []
        for acts in recording:
            gives, claims = set(), set()
            for act in acts:
                if spoken(act, w):
                    self.last = max(self.last, announced(act))
                    if heard(act, r):
                        gives |= {(n, thing) for n, thing in things_of(act, bound) if n >= first}
                elif answered(act, w, r):
                    claims |= set(range(first, min(act['set'][0], bound)))
            self.gives.append(gives)
            self.claims.append(claims)
        self.things = sorted(set().union(*self.gives), key=repr)


# ---- what a reader has

def samples(held, n):
    """for each shape of which each fragment of n is held, the variants of each fragment"""
    fragments = {}
    for m, thing in held:
        if m == n and thing[0] == 'fragment':
            _, shape, i, octets = thing
            fragments.setdefault(shape, {}).setdefault(i, set()).add(octets)
    for shape, found in fragments.items():
        sample, size, key = shape
        last = (sample + size - 1) // size
        if all(i in found for i in range(1, last + 1)):
            yield 'key' if key else 'whole', [sorted(found[i]) for i in range(1, last + 1)]


def payloads(held, n):
    """the payloads of n that a reader that holds these things was given or can put together"""
    given = {thing[1] for m, thing in held if m == n and thing[0] == 'payload'}
    return given | {(form, b''.join(parts)) for form, variants in samples(held, n) for parts in itertools.product(*variants)}


def has_word(held, n):
    return (n, GONE) in held or bool(payloads(held, n))


# ---- runs

def reached_by_events(told):
    """all states that lists of allowed events lead to, by following each event from each state"""
    start = 0, frozenset()
    states, todo = {start}, [start]
    while todo:
        sent, held = todo.pop()
        new = [(sent, held | {thing}) for gives in told.gives[:sent] for thing in gives]
        if sent < len(told.gives) and all(has_word(held, n) for n in told.claims[sent]):
            new.append((sent + 1, held))
        for state in new:
            if state not in states:
                states.add(state)
                todo.append(state)
    return states


def reached(told):
    """the same states, found in the order of sending: for each count of datagrams sent, what may be held.

    Whether an event is allowed depends on the state alone, so lists of events need not be kept, only the states they lead to.
    A take needs nothing but that its datagram was sent, and adds to what is held. So the states with `sent` datagrams are
    those in which the last one was just sent, and all that have more of what these datagrams tell. Where a state may send
    the next datagram, each one that holds more may, too: a word stays a word. So what may be held just after a send has,
    with each of its members, all that have more of what the datagrams before it tell, and only what the new datagram tells
    is left to add."""
    held = {frozenset()}
    yield held
    for gives, claims in zip(told.gives, told.claims):
        held = {s for s in held if all(has_word(s, n) for n in claims)}
        for thing in gives:
            held = held | {s | {thing} for s in held}
        yield held


class Runs:
    """the same as `reached`, with a set of things as the bits of a number, and what a set has of one number worked out once"""

    def __init__(self, told):
        self.told = told
        self.bit = {thing: 1 << k for k, thing in enumerate(told.things)}
        self.of = {}
        for (n, _), bit in self.bit.items():
            self.of[n] = self.of.get(n, 0) | bit
        self.known = {}

    def held(self, bits):
        return frozenset(thing for thing, bit in self.bit.items() if bits & bit)

    def has(self, bits, n):
        """whether a set has a word for n, and two payloads"""
        bits &= self.of.get(n, 0)
        if (n, bits) not in self.known:
            held = self.held(bits)
            self.known[n, bits] = has_word(held, n), len(payloads(held, n)) > 1
        return self.known[n, bits]

    def reached(self):
        states = {0}
        yield states
        for gives, claims in zip(self.told.gives, self.told.claims):
            states = {s for s in states if all(self.has(s, n)[0] for n in claims)}
            for thing in gives:
                states |= {s | self.bit[thing] for s in states}
            yield states

    def verdict(self):
        """the verdict by the definitions above"""
        told = self.told
        for j, states in enumerate(self.reached()):
            if not states:  # datagram j, from 1, is the first one that is never sent
                earlier = set().union(*told.gives[:j - 1])
                return f'unfounded {j} {min(n for n in told.claims[j - 1] if not has_word(earlier, n))}'
        conflicts = [n for n in self.of if any(self.has(s, n)[1] for s in states)]
        if conflicts:
            return f'conflict {min(conflicts)}'
        for n in range(told.first, told.last + 1):
            if any(not self.has(s, n)[0] for s in states):
                return f'open {n}'
        return f'complete {told.last}'

    def received(self):
        """the numbers from `first` to the last one for which every run ends with a payload, or None where there is no run"""
        *_, ends = self.reached()
        if not ends:
            return None
        return {n for n in range(self.told.first, self.told.last + 1) if all(payloads(self.held(s & self.of.get(n, 0)), n) for s in ends)}

    def agrees_with_events(self):
        """whether the three ways reach the same states"""
        by_events = reached_by_events(self.told)
        counts = range(len(self.told.gives) + 1)
        in_order = [{held for sent, held in by_events if sent == j} for j in counts]
        return in_order == list(reached(self.told)) == [{self.held(s) for s in states} for states in self.reached()]


# ---- what `why` shows, by what was told before each place

def shown(recording, w, r, first, bound, verdict):
    """the lines that `why` has of the words of a pair, where all numbers from `first` on are below `bound`"""
    last = max([first - 1] + [announced(act) for acts in recording for act in acts if spoken(act, w)])
    held, tellers, sent = set(), {}, {}
    for i, acts in enumerate(recording, 1):
        for act in acts:
            if not (spoken(act, w) and heard(act, r)):
                continue
            held |= set(things_of(act, bound))
            for n in {n for n, _ in things_of(act, bound) if n >= first}:
                place = f'in datagram {i} at {act["at"]}'
                if has_word(held, n):
                    tellers.setdefault(n, f'number {n} told by {act["kind"]} {place}')
                # A payload of the first place that has one, and another of the first place by which there are two. All that
                # are new at a place are of one kind and size, since a piece is of one shape.
                before = sent.setdefault(n, [])
                for payload in payloads(held, n):
                    if len(before) < 2 and all(payload != other for other, _ in before):
                        before.append((payload, place))
    asked = range(first, min(last, bound) + 1)
    with_payload = sum(bool(payloads(held, n)) for n in asked)
    gone = sum(has_word(held, n) and not payloads(held, n) for n in asked)
    lines = [f'payloads {with_payload} gone {gone} untold {last + 1 - first - with_payload - gone}']
    kind, *numbers = verdict.split()
    n = int(numbers[-1])
    if kind in ('open', 'unfounded'):
        lines.append(tellers.get(n, f'number {n} told nowhere'))
    if kind == 'conflict':
        lines += [f'number {n} payload {reference.payload_words(payload)} {place}' for payload, place in sent[n]]
    return lines


def pieces_of(recording):
    """the pieces of a recording by writer, and the things of each writer's pieces, whoever hears them"""
    pieces, held = {}, {}
    for act in (act for acts in recording for act in acts if act['kind'] == 'data_frag'):
        pieces.setdefault((act['source'], act['writer']), []).append(act)
        held.setdefault((act['source'], act['writer']), set()).update(things_of(act, GREATEST + 1))
    return pieces, held


def pieces_without_sample(recording):
    """how many pieces are of numbers of which no whole sample is in the recording"""
    pieces, held = pieces_of(recording)
    return sum(not any(samples(held[writer], act['number'])) for writer in pieces for act in pieces[writer])


def announces_fitly(recording):
    """whether what a reader that hears everything is told of a number is something that it can put together: nothing just
    where that is nothing, and two payloads just where there are two"""
    pieces, held = pieces_of(recording)
    for writer in pieces:
        told = {}
        for act, more in zip(pieces[writer], payloads_told(pieces[writer])):
            told.setdefault(act['number'], set()).update(more)
        for n in told:
            possible = payloads(held[writer], n)
            if not told[n] <= possible or min(2, len(told[n])) != min(2, len(possible)):
                return False
    return True


# ---- the rows

def piece(n, start, count, size, sample, octets, flags=0, offset=28):
    """a DATA_FRAG in hexadecimal, big-endian"""
    body = f'0000{offset:04x}0000000000000103{n:016x}{start:08x}{count:04x}{size:04x}{sample:08x}{octets}'
    return f'16{flags:02x}{len(body) // 2:04x}{body}'


D1 = '1504001c000000100000000000000103' + 2 * f'{1:016x}'
PIECES = {
    'HA': '5254505302050000' + 'aa' * 12, 'HB': '5254505302050000' + 'bb' * 12,
    'TA': '0e00000c' + 'aa' * 12, 'TB': '0e00000c' + 'bb' * 12, 'TC': '0e00000c' + 'cc' * 12,
    'D1': D1, 'E1': D1[:-2] + '09',
    'A1': f'060000180000010400000103{1:016x}0000000000000001', 'A2': f'060000180000010400000103{2:016x}0000000000000001',
    'G': piece(1, 1, 1, 4, 8, '00000000'), 'H': piece(1, 2, 1, 4, 8, '00000001'),
    'GK': piece(1, 1, 1, 4, 8, '00000000', 4), 'HK': piece(1, 2, 1, 4, 8, '00000001', 4),
    'V': piece(1, 2, 1, 4, 8, '00000009'), 'GH': piece(1, 1, 2, 4, 8, '0000000000000001'),
    'PAST': piece(1, 1, 2, 8, 8, '0000000000000001'), 'ONE': piece(1, 1, 1, 8, 8, '0000000000000001'),
    'MORE': piece(1, 1, 2, 4, 7, '00000000000000ff'), 'FEW': piece(1, 1, 2, 4, 7, '000000000000'),
}

# Datagrams behind START, and what audit says of W and R with the six counts.
ROWS = [
    ('HA+G+H, HB+TA+A2', 'complete 1', '4 0 0 0 0 0'),
    ('HA+G, HA+H, HB+TA+A2', 'complete 1', '5 0 0 0 0 0'),
    ('HA+H, HA+G, HB+TA+A2', 'complete 1', '5 0 0 0 0 0'),
    ('HA+G, HB+TA+A2, HA+H', 'unfounded 4 1', '5 0 0 0 0 0'),
    ('HA+G, HB+TA+A1', 'open 1', '4 0 0 1 0 0'),
    ('HA+G+H', 'open 1', '3 0 0 0 0 0'),
    ('HA+G+H, HA+D1, HB+TA+A2', 'complete 1', '5 0 0 0 0 0'),
    ('HA+G+H, HA+E1, HB+TA+A2', 'conflict 1', '5 0 0 0 0 0'),
    ('HA+G+H, HA+V, HB+TA+A2', 'conflict 1', '5 0 0 0 0 0'),
    ('HA+V, HA+G+H, HB+TA+A2', 'conflict 1', '5 0 0 0 0 0'),
    ('HA+V, HA+H, HB+TA+A1', 'open 1', '5 0 0 2 0 0'),
    ('HA+G+H, HA+PAST, HB+TA+A2', 'complete 1', '5 0 0 1 0 0'),
    ('HA+G+H, HA+ONE, HB+TA+A2', 'complete 1', '5 0 0 0 0 0'),
    ('HA+TC+G+H, HB+TA+A2', 'unfounded 4 1', '4 0 0 0 0 0'),
    ('HA+G+TB+H, HB+TA+A2', 'complete 1', '4 0 0 0 0 0'),
    ('HA+G+TC+H, HB+TA+A2', 'unfounded 4 1', '4 0 0 0 0 0'),
    ('HA+GH, HB+TA+A2', 'complete 1', '4 0 0 0 0 0'),
    ('HA+MORE, HB+TA+A2', 'complete 1', '4 0 0 0 0 0'),
    ('HA+FEW, HB+TA+A1', 'complete 0', '4 0 0 1 0 0'),
    ('HA+GK+HK, HA+D1, HB+TA+A2', 'conflict 1', '5 0 0 0 0 0'),
]

# A submessage behind HA, and what show says of it: the line from `number` on, or None where it is skipped.
EIGHT = '0000000000000001'
GREATEST_FRAGMENT = 2 ** 32 - 1
PIECE_ROWS = [
    (piece(1, 1, 2, 4, 8, EIGHT), 'be number 1 start 1 count 2 size 4 sample 8 qos 0 key 0 octets 8'),
    ('16012800 00001c00 00000000 00000103 00000000 01000000 01000000 0200 0400 08000000' + EIGHT,
     'le number 1 start 1 count 2 size 4 sample 8 qos 0 key 0 octets 8'),
    ('16000000' + piece(1, 1, 2, 4, 8, EIGHT)[8:], 'be number 1 start 1 count 2 size 4 sample 8 qos 0 key 0 octets 8'),
    (piece(2 ** 63 - 1, 2, 1, 4, 5, '01'), 'be number 9223372036854775807 start 2 count 1 size 4 sample 5 qos 0 key 0 octets 1'),
    (piece(1, 1, 2, 4, 8, EIGHT, 4), 'be number 1 start 1 count 2 size 4 sample 8 qos 0 key 1 octets 8'),
    (piece(1, 1, 2, 4, 8, EIGHT, 0xf8), 'be number 1 start 1 count 2 size 4 sample 8 qos 0 key 0 octets 8'),
    (piece(1, 1, 2, 4, 8, '8001000401020304' + '00010000' + EIGHT, 2),
     'be number 1 start 1 count 2 size 4 sample 8 qos 12 key 0 octets 8'),
    (piece(1, 1, 2, 4, 8, '80010004' + EIGHT, 2), None),  # no sentinel: the list does not end
    (piece(1, 1, 2, 4, 8, '00010000' + EIGHT[2:], 2), None),  # too few octets behind the list
    (piece(1, 1, 2, 4, 8, 'ffffffff' + EIGHT, 0, 32), 'be number 1 start 1 count 2 size 4 sample 8 qos 0 key 0 octets 8'),
    (piece(1, 1, 2, 4, 8, EIGHT, 0, 27), None),
    (piece(1, 1, 2, 4, 8, EIGHT, 0, 29), None),
    (piece(1, 1, 2, 4, 8, EIGHT, 0, 37), None),
    (piece(1, 1, 2, 4, 8, EIGHT + 'ff'), None),  # more octets than two fragments may have
    (piece(1, 1, 2, 4, 7, EIGHT), 'be number 1 start 1 count 2 size 4 sample 7 qos 0 key 0 octets 7'),
    (piece(1, 1, 2, 4, 8, EIGHT[2:]), None),
    (piece(1, 1, 2, 4, 7, EIGHT[2:]), 'be number 1 start 1 count 2 size 4 sample 7 qos 0 key 0 octets 7'),
    (piece(1, 2, 1, 4, 8, EIGHT[8:]), 'be number 1 start 2 count 1 size 4 sample 8 qos 0 key 0 octets 4'),
    (piece(1, 2, 1, 4, 8, EIGHT[6:]), None),
    (piece(1, 2, 2, 4, 8, EIGHT), None),
    (piece(1, 3, 1, 4, 8, EIGHT), None),
    (piece(1, 1, 3, 4, 8, EIGHT + '00000000'), None),
    (piece(1, 1, 1, 8, 8, EIGHT), 'be number 1 start 1 count 1 size 8 sample 8 qos 0 key 0 octets 8'),
    (piece(1, 1, 1, 9, 8, EIGHT), None),  # a fragment is greater than the sample
    (piece(1, 1, 1, 65535, 1, '00'), None),
    (piece(1, GREATEST_FRAGMENT, 1, 1, GREATEST_FRAGMENT, '00'),
     'be number 1 start 4294967295 count 1 size 1 sample 4294967295 qos 0 key 0 octets 1'),
    (piece(1, GREATEST_FRAGMENT, 2, 1, GREATEST_FRAGMENT, '0000'), None),
    (piece(0, 1, 2, 4, 8, EIGHT), None),
    (piece(2 ** 64 - 1, 1, 2, 4, 8, EIGHT), None),
    (piece(1, 0, 2, 4, 8, EIGHT), None),
    (piece(1, 1, 0, 4, 8, EIGHT), None),
    (piece(1, 1, 2, 0, 8, EIGHT), None),
    (piece(1, 1, 2, 4, 0, EIGHT), None),
    ('1600001f' + piece(1, 1, 1, 1, 1, '')[8:-2], None),
    ('16000004 00000000', None),
    # under the id of NACK_FRAG the same words are a reader, a writer, a number, a set of one fragment whose bit is 0, and a count
    ('12' + piece(1, 1, 2, 4, 8, EIGHT)[2:],
     f'nack_frag 20 be reader 0000001c writer 00000000 number {0x103 << 32} base 1 bits 1 00000000 count 8'),
    ('13' + piece(1, 1, 2, 4, 8, EIGHT)[2:], None),
]

W, R = A + b'\0\0\1\3', READERS[0]


def piece_line(octets, wanted):
    """the line of show for a submessage behind HA"""
    if wanted is None:
        return f'skipped 20 id {octets[:2]}'
    if wanted.startswith('nack_frag'):
        return f'{wanted} from {A.hex()} to all time none'
    order, fields = wanted.split(' ', 1)
    return f'data_frag 20 {order} reader 00000000 writer 00000103 {fields} from {A.hex()} to all time none'


def row_datagrams(row):
    return START + [bytes.fromhex(''.join(PIECES[name] for name in words.split('+'))) for words in row.split(', ')]


def rows():
    differing = 0
    for row, verdict, counts in ROWS:
        datagrams = row_datagrams(row)
        recording = [reference.acts_of(d, True) for d in datagrams]
        by_rules = reference.audit(datagrams, Asked(fragments=True))[1:]
        runs = Runs(Told(recording, W, R, 1, 5))
        said = ' '.join(by_rules[0].split()[2:]), ' '.join(by_rules[1].split()[1::2]), runs.verdict()
        fits = said == (verdict, counts, verdict) and runs.agrees_with_events()
        differing += not fits
        print(f'{"agree " if fits else "DIFFER"} {row}: wanted {verdict}; {counts}, rules {said[0]}; {said[1]}, runs {said[2]}')
    for octets, wanted in PIECE_ROWS:
        shown_line = reference.show([bytes.fromhex(PIECES['HA'] + octets)], True)[1]
        if shown_line != piece_line(octets, wanted):
            differing += 1
            print(f'DIFFER {octets}: wanted {piece_line(octets, wanted)}, rules {shown_line}')
    print(f'{len(ROWS)} rows and {len(PIECE_ROWS)} submessages, {differing} differences')
    return int(differing > 0)


# ---- the comparison

BOUND = 6


class Comparison:
    """how often rules and runs were compared, and what was seen"""

    def __init__(self):
        self.differing, self.verdicts, self.by_events, self.fragmented = 0, {}, 0, 0

    def differs(self, what, datagrams):
        self.differing += 1
        print(f'{what}, kept in {kept(text_of_datagrams(datagrams))}')

    def of_pair(self, k, datagrams, recording, reader, first):
        told = Told(recording, W, reader, first, BOUND)
        if len(told.things) > MOST_THINGS:
            return False
        runs = Runs(told)
        by_runs, by_rules = runs.verdict(), reference.judge(recording, W, reader, first)
        name = f'recording {k} for {reference.guid_text(reader)} from {first} on'
        if by_runs != by_rules:
            self.differs(f'{name}: runs say {by_runs}, rules {by_rules}', datagrams)
        lines = reference.evidence(recording, W, reader, first)
        wanted = shown(recording, W, reader, first, BOUND, by_runs)
        if [line for line in lines if line.startswith(('payloads ', 'number ')) and 'may not be received' not in line] != wanted:
            self.differs(f'{name}: runs show {wanted}, rules {lines}', datagrams)
        received = runs.received()
        if received is not None and received != reference.Delivery(recording, W, reader, first).received:
            self.differs(f'{name}: by runs it received {received}', datagrams)
        if len(told.things) <= FEW_THINGS:
            self.by_events += 1
            if not runs.agrees_with_events():
                self.differs(f'{name}: other states by events', datagrams)
        kind = by_runs.split()[0]
        self.verdicts[kind] = self.verdicts.get(kind, 0) + 1
        without = [[act for act in acts if act['kind'] != 'data_frag'] for acts in recording]
        self.fragmented += by_runs != reference.judge(without, W, reader, first)
        return True

    def of_recording(self, k, datagrams, recording, first):
        counted = reference.audit(datagrams, Asked(first, fragments=True))[-1].split()[7]
        skipped = sum(item['kind'] == 'skipped' and item['id'] == 0x16 for d in datagrams for item in reference.read(d, True)[1])
        if int(counted) != skipped + pieces_without_sample(recording):
            self.differs(f'recording {k}: another count of fragments', datagrams)
        if not announces_fitly(recording):
            self.differs(f'recording {k}: other payloads of a writer', datagrams)
        ids = {item['id'] for d in datagrams for item in reference.read(d)[1] if item['kind'] == 'skipped'}
        text = text_of_datagrams(datagrams)
        for view in reference.WITH_FRAGMENTS:
            with_option = reference.answer_as(view, text, Asked(first, fragments=True))
            if not ids & reference.FRAGMENTS and with_option != reference.answer_as(view, text, Asked(first)):
                self.differs(f'recording {k}: {view} is another without fragments', datagrams)


def runs(count, seed):
    rng, comparison, tried, passed_over = random.Random(seed), Comparison(), 0, 0
    while tried < count:
        datagrams = some_pieces(rng) if rng.random() < 0.7 else some_delivery(rng, True)
        recording = [reference.acts_of(d, True) for d in datagrams]
        asked = {1, rng.randint(2, 5)}
        if not all([comparison.of_pair(tried, datagrams, recording, reader, first) for first in asked for reader in READERS]):
            passed_over += 1
            continue
        comparison.of_recording(tried, datagrams, recording, max(asked))
        tried += 1
    print(f'{count} recordings, {comparison.differing} differences; verdicts {comparison.verdicts}, of which {comparison.fragmented} '
          f'are others without pieces and {comparison.by_events} were found by events too; {passed_over} recordings passed over, '
          f'which tell too much')
    return int(comparison.differing > 0)


def main():
    command, *words = sys.argv[1:]
    if command == 'rows':
        return rows()
    count, seed = (int(word) for word in words + ['1000', '1'][len(words):])
    return runs(count, seed)


if __name__ == '__main__':
    sys.exit(main())
