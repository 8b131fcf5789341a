#!/usr/bin/env python3
"""When a writer and a reader matched, for the second implementation: where each participant learned of the other's endpoint, and how long after
both were there that was.

    matched.py tell FILE..                  what captures say, one after another: who matched late
    matched.py truth TRUTH FILE..           compares captures with what the applications' own status said, in a JSON file with `events`
    matched.py compare TRIALS COUNT SEED    compares with the built program of crates/rtps_trials on random systems
    matched.py ask COUNT SEED >FILE         writes what that program would be asked, as `rtps_trials matched` reads it
    matched.py judge COUNT SEED <FILE       compares what it told of it

An endpoint is announced by a number of the built-in writer of its participant, one for writers and one for readers: that of the first DATA of this
writer that announces it without a fault. Another participant **learns** of it at the first sending of that number that it hears behind its last
request for it, both before it acknowledges the number; where it hears none there, at the first that it hears at all. A sending is a DATA, or the
DATA_FRAG that completes a sample. A participant hears what is sent to everyone or to it. It requests a number where its built-in reader asks this
writer for it, by an ACKNACK's list or a NACK_FRAG, and acknowledges it by an ACKNACK with a base above it.

A writer and a reader of two participants **matched** at the latest of four places: where each participant learned of the other's endpoint, and where
each is announced first. Nothing is said where one of the four is wanting; where an ACKNACK of one's built-in reader of endpoints to the other's
built-in writer has a base above 1 and stands before the two announcements, since the recording began in the middle; and of a participant with two
lives.

An endpoint **was there** at the source time of the DATA that announces it. The clock of a participant **fits** where the least difference between the
time of a datagram and the source time of a DATA in it, of all that it sends, lies between -0.1 s and 0.1 s. Where both clocks fit, and the times are
known, it is said how long behind the later of the two the match is, and 0 where it is before that.
"""
import json
import sys

sys.dont_write_bytecode = True
import known
from fragments import by_writer, payloads_told
from known import PREFIXES, PUBLICATIONS, READERS, SUBSCRIPTIONS, Known
from random_recordings import parameter, put, sn, u
from reference import guid_text, input_of, members, times_of
from systems import Comparison
from talk import PARTICIPANT
from times import SECOND

NEAR = SECOND // 10         # a clock fits that is not further away
LATE = SECOND               # a match that is later is told


def nanoseconds(stamp):
    """a source time, cut off"""
    return stamp[0] * SECOND + stamp[1] * SECOND // 2 ** 32


class Matches:
    """what a recording says of it"""

    def __init__(self, recording, vendors, prefixes, times):
        self.known = Known(recording, vendors, prefixes, times)
        self.times = times
        self.acts = [((i, act['at']), act) for i, acts in enumerate(recording, 1) for act in acts]
        whole = set()
        for pieces in by_writer(recording).values():
            whole |= {id(piece) for piece, told in zip(pieces, payloads_told(pieces)) if told}
        self.sendings = [(place, act) for place, act in self.acts if act['kind'] == 'data' or id(act) in whole]
        self.announced = {}
        for place, act in self.acts:
            if act['kind'] == 'data' and act['writer'] in READERS:
                guid = known.endpoint_of(act)
                if guid is not None and guid[:12] == act['source']:
                    self.announced.setdefault(guid, (act['writer'], act['number'], act['time']))
        self.participants = {guid[:12]: place for guid, (place, *_) in self.known.announced.participants.items() if guid[12:] == PARTICIPANT}

    def asks(self, prefix, source, entity):
        """what the built-in reader of a participant says to a built-in writer of another"""
        return [(place, act) for place, act in self.acts if act['kind'] in ('acknack', 'nack_frag') and act['source'] == prefix
                and act['dest'] == source and act['writer'] == entity and act['reader'] == READERS[entity]]

    def learned(self, prefix, guid):
        """where a participant learned of an endpoint"""
        entity, number, _ = self.announced[guid]
        heard = [place for place, act in self.sendings if act['source'] == guid[:12] and act['writer'] == entity
                 and act['number'] == number and act['dest'] in (None, prefix)]
        said = self.asks(prefix, guid[:12], entity)
        has = min((place for place, act in said if act['kind'] == 'acknack' and act['set'][0] > number), default=(2 ** 64, 0))
        asked = max((place for place, act in said if place < has and
                     (act['number'] == number if act['kind'] == 'nack_frag' else number in members(*act['set'][:3]))), default=(0, 0))
        there = [place for place in heard if asked < place < has]
        return min(there or heard, default=None)

    def began_in_the_middle(self, one, other):
        both = max(self.participants[one], self.participants[other])
        said = [found for entity in READERS for pair in ((one, other), (other, one)) for found in self.asks(*pair, entity)]
        return any(place < both and act['kind'] == 'acknack' and act['set'][0] > 1 for place, act in said)

    def matched(self, w, r):
        """the place; None where nothing is said"""
        one, other = w[:12], r[:12]
        if one == other or not {one, other} <= set(self.participants) or not {w, r} <= set(self.announced):
            return None
        if self.announced[w][0] != PUBLICATIONS or self.announced[r][0] != SUBSCRIPTIONS:
            return None
        if {one, other} & self.known.twice or self.began_in_the_middle(one, other):
            return None
        places = [self.learned(other, w), self.learned(one, r), self.participants[one], self.participants[other]]
        return None if None in places else max(places)

    def fits(self, prefix):
        apart = [self.times.of(place[0]) - nanoseconds(act['time']) for place, act in self.acts if act['kind'] == 'data' and act['source'] == prefix
                 and act['time'] is not None and self.times.of(place[0]) is not None]
        return bool(apart) and -NEAR <= min(apart) <= NEAR

    def delay(self, w, r, place):
        """how long behind the later of the two, in nanoseconds; None where that is not known"""
        created = [self.announced[guid][2] for guid in (w, r)]
        time = self.times.of(place[0])
        if None in created or time is None or not self.fits(w[:12]) or not self.fits(r[:12]):
            return None
        return max(0, time - max(map(nanoseconds, created)))

    def pairs(self):
        """each writer and reader that are announced, in order, whatever their topics"""
        writers, readers = (sorted(guid for guid, one in self.announced.items() if one[0] == entity) for entity in (PUBLICATIONS, SUBSCRIPTIONS))
        return ((w, r) for w in writers for r in readers)

    def lines(self):
        for w, r in self.pairs():
            place = self.matched(w, r)
            if place is None:
                yield f'matched {w.hex()} {r.hex()} -'
            else:
                delay = self.delay(w, r, place)
                yield f"matched {w.hex()} {r.hex()} {place[0]} {place[1]} {'-' if delay is None else delay}"


def matches_of(datagrams, times):
    return known.said_by(Matches, datagrams, times)


def told_of(datagrams, times):
    return known.told_by(Matches, datagrams, times)


# ---- random systems

BASE = 10 ** 9 * SECOND        # about when random systems run
THERE = PREFIXES[:2]


def stamped(nanos):
    """a source time"""
    return nanos // SECOND, -(-(nanos % SECOND) * 2 ** 32 // SECOND)


def some_endpoint(rng, prefix):
    writer = rng.choice([PUBLICATIONS, SUBSCRIPTIONS])
    number = rng.choice([1, 1, 2, 2, 3])
    kind = 3 if writer == PUBLICATIONS else 4
    entity = bytes([0, 0, number if rng.random() < 0.95 else rng.randrange(1, 4), kind if rng.random() < 0.98 else 7 - kind])
    owner = prefix if rng.random() < 0.97 else rng.choice(PREFIXES)
    names = endpoint_names(owner + entity)
    names = names if rng.random() < 0.96 else names[:2]
    return known.data(writer, number, known.listed(names), 4 if rng.random() < 0.97 else 8)


def endpoint_names(guid):
    return [parameter('be', 0x5a, guid), parameter('be', 5, known.text(b'x')), parameter('be', 7, known.text(b'T'))]


def answer(writer, reader, base, count, words):
    return put('be', 0x06, 2, reader + writer + sn('be', base) + u('be', 4, count) + words + u('be', 4, 1))


def fragments_asked(writer, reader, number):
    return put('be', 0x12, 0, reader + writer + sn('be', number) + u('be', 4, 1) + u('be', 4, 1) + u('be', 4, 2 ** 31) + u('be', 4, 1))


def some_answer(rng):
    writer = rng.choice([PUBLICATIONS, SUBSCRIPTIONS])
    reader = READERS[writer] if rng.random() < 0.95 else rng.choice(list(READERS.values()))
    if rng.random() < 0.1:
        return fragments_asked(writer, reader, rng.choice([1, 2, 3]))
    base = rng.choice([1, 1, 1, 1, 1, 2, 2, 3, 4])
    count = rng.choice([0, 1, 2, 3, 3, 40])
    words = b''.join(u('be', 4, rng.choice([2 ** 32 - 1, rng.randrange(2 ** 32)])) for _ in range((count + 31) // 32))
    return answer(writer, reader, base, count, words)


class Talk:
    """what one participant sends of a number of a built-in writer, and what the other says of it, again and again"""

    def __init__(self, rng, there):
        self.one, self.other = rng.sample(there, 2)
        self.writer, self.number = rng.choice([PUBLICATIONS, SUBSCRIPTIONS]), rng.choice([1, 1, 2, 3])
        self.begun = False

    def announces(self, prefix, writer):
        entity = bytes([0, 0, self.number, 3 if writer == PUBLICATIONS else 4])
        return known.data(writer, self.number, known.listed(endpoint_names(prefix + entity)))

    def some_step(self, rng):
        """its source, its destination and the act; at first an endpoint of the other that can match"""
        if not self.begun:
            self.begun = True
            return self.other, None, self.announces(self.other, SUBSCRIPTIONS if self.writer == PUBLICATIONS else PUBLICATIONS)
        kind, reader = rng.random(), READERS[self.writer] if rng.random() < 0.95 else rng.choice(list(READERS.values()))
        if kind < 0.45:
            return self.one, rng.choice([None, self.other]), self.announces(self.one, self.writer)
        if kind < 0.55:
            return self.other, self.one, fragments_asked(self.writer, reader, self.number)
        if kind < 0.8:
            base = rng.randrange(1, self.number + 1)
            return self.other, self.one, answer(self.writer, reader, base, self.number + 1 - base, u('be', 4, 2 ** 32 - 1))
        return self.other, self.one, answer(self.writer, reader, self.number + 1, 0, b'')


def some_act(rng, source):
    kind = rng.random()
    if kind < 0.5:
        return some_endpoint(rng, source)
    if kind < 0.92:
        return some_answer(rng)
    if kind < 0.95:
        return known.some_piece(rng)
    return known.some_heartbeat(rng) if kind < 0.98 else known.some_participant(rng, source)


def some_parts(rng, source, there, talk):
    """the source, the destination and the acts of a datagram that announces no participant at its first"""
    if talk is not None and rng.random() < 0.8:
        source, dest, act = talk.some_step(rng)
        return source, dest, [act]
    return source, rng.choice([None, None, *there]), [some_act(rng, source) for _ in range(rng.choice([1, 1, 2]))]


def some_system(rng):
    """the datagrams of a system, and their times"""
    there = PREFIXES[:rng.choice([2, 2, 2, 2, 3])]
    ahead = {prefix: rng.choice([0] * 8 + [SECOND // 20, -SECOND // 20, NEAR, -NEAR, NEAR + 1, SECOND, -SECOND]) for prefix in PREFIXES}
    vendors = {prefix: rng.choice([b'\1\x10', b'\1\x0f']) for prefix in PREFIXES}
    has_times, time, datagrams, times = rng.random() < 0.95, BASE, [], []
    firsts, kept = [prefix for prefix in there if rng.random() < 0.98], {}
    talk = Talk(rng, there) if rng.random() < 0.4 else None
    for _ in range(rng.randrange(6, 26)):
        time += rng.choice([0, 1, SECOND // 20, NEAR, SECOND // 2, SECOND, SECOND * 3])
        known_time = has_times and rng.random() < 0.99
        first = bool(firsts) and rng.random() < 0.7
        source = firsts.pop(0) if first else rng.choice(there)
        dest, parts = None, [known.some_participant(rng, source)]
        if not first:
            source, dest, parts = some_parts(rng, source, there, talk)
        sent = time + ahead[source] - rng.choice([0, 0, 0, SECOND // 10, SECOND])
        stamp = stamped(kept.setdefault(source, sent) if first else sent) if rng.random() < 0.95 else None
        datagrams.append(known.message(rng, source, parts, stamp, dest, vendors[source]))
        times.append(time if known_time else None)
    return datagrams, times


def counted(told):
    lines = [line.split() for one in told for line in one.splitlines() if line]
    counts = {'pairs': len(lines), 'matched': sum(len(line) == 6 for line in lines), 'with a delay': sum(len(line) == 6 and line[5] != '-' for line in lines),
              'late': sum(len(line) == 6 and line[5] != '-' and int(line[5]) > LATE for line in lines)}
    return counts, counts['late'] > 0


COMPARISON = Comparison('matched', some_system, told_of, counted)


# ---- captures


def opened(name):
    with open(name, 'rb') as f:
        octets = f.read()
    return matches_of(input_of(octets, any_form=True)[0], times_of(octets, any_form=True))


def tell(names):
    for name in names:
        found = opened(name)
        told = [(w, r, place, found.delay(w, r, place)) for w, r in found.pairs() for place in [found.matched(w, r)] if place is not None]
        late = [one for one in told if one[3] is not None and one[3] > LATE]
        print(f"{name}: {len(told)} of {len(list(found.pairs()))} with a place, {sum(one[3] is not None for one in told)} with a delay, {len(late)} late")
        for w, r, place, delay in sorted(late, key=lambda one: -one[3])[:5]:
            print(f'  {guid_text(w)} {guid_text(r)}: {delay / SECOND:.3f} s after both were there, in datagram {place[0]} at {place[1]}, {found.times.second(place[0])} s')
    return 0


def truth(name, names):
    """matches of the truth: the later of the two applications' first words that they matched"""
    with open(name) as f:
        said = json.load(f)
    guid = lambda text: bytes.fromhex(text.replace('.', ''))
    ends = {number: guid(end['guid']) for number, end in said['eps'].items()}
    created, seen = {}, {}
    for time, number, what in said.get('events', []):
        end = ends.get(str(number))
        if what == 'created' and end:
            created.setdefault(end, time)
        if what.startswith('matched ') and end:
            seen.setdefault((end, guid(what.split()[1])), time)
    wanted = {}
    for (one, other), time in seen.items():
        if (other, one) in seen and one[15] in (0x03, 0x02):
            wanted[one, other] = max(time, seen[other, one])
    for capture in names:
        found = opened(capture)
        near = right = false = missed = silent = 0
        for (w, r), time in wanted.items():
            place = found.matched(w, r)
            at = None if place is None else found.times.of(place[0])
            if at is None:
                silent += 1
                continue
            near += abs(at / SECOND - time) <= 0.1
            if abs(at / SECOND - time) > 0.1:
                print(f'    {guid_text(w)} {guid_text(r)}: at {at / SECOND:.3f}, truth {time:.3f}')
            delay, really = found.delay(w, r, place), time - max(created[w], created[r])
            is_late = delay is not None and delay > LATE
            right, false, missed = right + (is_late and really > 1), false + (is_late and really <= 1), missed + (not is_late and really > 1)
        print(f'{capture}: {len(wanted)} matches, {near} within 0.1 s, {silent} with nothing said; late: {right} right, {false} false, {missed} missed')
    return 0


def main():
    words = sys.argv[1:]
    if len(words) > 1 and words[0] == 'tell':
        return tell(words[1:])
    if len(words) > 2 and words[0] == 'truth':
        return truth(words[1], words[2:])
    return COMPARISON.run(words, __doc__)


if __name__ == '__main__':
    sys.exit(main())
