#!/usr/bin/env python3
"""What discovery has told whom, for the second implementation: of each two participants the endpoints of the one that the other was never told
of, and participants of which two lives have one GUID.

    known.py tell FILE..                    what captures say, one after another
    known.py compare TRIALS COUNT SEED      compares with the built program of crates/rtps_trials on random systems
    known.py ask COUNT SEED >FILE           writes what that program would be asked, as `rtps_trials known` reads it
    known.py judge COUNT SEED <FILE         compares what it told of it

A participant A tells a participant B of its endpoints by two built-in writers, one of its writers and one of its readers. Such a writer tells
a number by a DATA or a DATA_FRAG of it, or by a HEARTBEAT from whose first to whose last it lies, to everyone or to B. A number counts if some
act tells it in time: a second before A leaves, before B leaves, and before the last datagram of B; and both are announced so early, too. No
number counts of which a DATA says that something is disposed or unregistered. It is known to B where an ACKNACK of B's reader to the writer has
a base above it. The numbers that count and are not known are told as the endpoints that their DATA announce, and as a count of the others.

That is said of two participants that are announced, of which one names the other as a destination, which are not in two domains, and neither of
which has two lives. A participant has two lives where two DATA of its writer of participants have one number and two source times. That is said
of two vendors alone, whose stacks repeat the source time of a number.

Sets of numbers are lists of pieces here, from a number to one before another.
"""
import sys

sys.dont_write_bytecode = True
from life import Life, value_of
from policies import address_text
from random_recordings import parameter, put, sn, u
from reference import BUILTIN, acts_of, announcement, guid_text, input_of, read, times_of
from systems import Comparison
from talk import PARTICIPANT, Announced, datagrams_by, named_by
from times import SECOND, Times

# the entity ids of built-in writers, and of their readers
PARTICIPANTS, PUBLICATIONS, SUBSCRIPTIONS = b'\0\1\0\xc2', b'\0\0\3\xc2', b'\0\0\4\xc2'
READERS = {PUBLICATIONS: b'\0\0\3\xc7', SUBSCRIPTIONS: b'\0\0\4\xc7'}
GRACE = SECOND
VENDORS = b'\1\x10', b'\1\x0f'        # for which two lives were tried


def is_ending(act):
    """a DATA says that something is disposed or unregistered"""
    status = value_of(act['inline'], 0x71)
    return status is not None and len(status) == 4 and status[3] & 3 != 0


def told_range(act):
    """the numbers that an act tells, from the first one to one before the second"""
    if act['kind'] in ('data', 'data_frag'):
        return act['number'], act['number'] + 1
    return (act['first'], act['last'] + 1) if act['kind'] == 'heartbeat' else (0, 0)


def endpoint_of(act):
    """the endpoint that a DATA announces without a fault, or None"""
    form, octets = act['payload']
    said = announcement(octets, BUILTIN[act['writer']]) if form == 'whole' else ''
    return None if isinstance(said, str) else said[0]


class Untold:
    """what a participant was not told of another one's endpoints"""

    def __init__(self, source, dest):
        self.source, self.dest, self.named, self.unnamed = source, dest, {PUBLICATIONS: set(), SUBSCRIPTIONS: set()}, 0

    def count(self):
        return sum(map(len, self.named.values())) + self.unnamed

    def line(self):
        writers, readers = (','.join(one.hex() for one in sorted(self.named[w])) or '-' for w in (PUBLICATIONS, SUBSCRIPTIONS))
        return f'untold {(self.source + PARTICIPANT).hex()} {(self.dest + PARTICIPANT).hex()} writers {writers} readers {readers} unnamed {self.unnamed}'


class Known:
    """what a recording says of it. `prefixes` has the one in the header of each datagram, or None"""

    def __init__(self, recording, vendors, prefixes, times, life=None):
        life = life or Life(recording)
        self.recording, self.times = recording, times
        self.acts = [(times.of(i), act) for i, acts in enumerate(recording, 1) for act in acts]
        self.announced, self.namings = Announced(life.announced), set(named_by(recording))
        sent = datagrams_by(prefixes)
        self.since, self.left, self.last = {}, {}, {}
        for guid, (place, *_) in self.announced.participants.items():
            if guid[12:] != PARTICIPANT:
                continue
            prefix, left = guid[:12], life.leaves(guid, place)
            self.since[prefix] = times.of(place[0])
            self.left[prefix] = () if left is None else (times.of(left[0]),)
            own = [times.of(datagram) for datagram in sent.get(prefix, [])]
            self.last[prefix] = max(own) if own and None not in own else None
        self.lives = self.two_lives(vendors)
        self.twice = {prefix for prefix, _ in self.lives}

    # ---- one GUID, two lives

    def two_lives(self, vendors):
        """by prefix and number the source times of each number of which there are two: the first one, and the first other one"""
        first, found = {}, {}
        for i, acts in enumerate(self.recording):
            for act, vendor in zip(acts, vendors[i]):
                if act['kind'] != 'data' or act['writer'] != PARTICIPANTS or vendor not in VENDORS or act['time'] is None:
                    continue
                told = first.setdefault((act['source'], act['number']), act['time'])
                if told != act['time']:
                    found.setdefault((act['source'], act['number']), (told, act['time']))
        return found

    def lives_by_participant(self):
        """of each participant with two lives the source times of the least number that has two, in seconds and parts of 2^32"""
        found = {}
        for (prefix, _), sent in sorted(self.lives.items()):
            found.setdefault(prefix, sent)
        return found

    # ---- what is told

    def qualify(self, one, other):
        return (one != other and ((one, other) in self.namings or (other, one) in self.namings) and not self.announced.two_domains(one, other)
                and one not in self.twice and other not in self.twice)

    def end(self, one, other):
        """the time up to which what the one tells counts for the other; None where that is not known, or they were announced too late"""
        ends = [*self.left[one], *self.left[other], self.last[other]]
        starts = [self.since[one], self.since[other]]
        if None in ends or None in starts:
            return None
        end = min(ends) - GRACE
        return end if max(starts) <= end else None

    def pieces(self, writer, dest, end):
        """what a writer tells a participant in time, in pieces of which each is told whole or not at all"""
        told = [told_range(act) for time, act in self.acts if act['kind'] in ('data', 'data_frag', 'heartbeat') and act['source'] + act['writer'] == writer
                and act['dest'] in (None, dest) and time is not None and time <= end]
        base = max((act['set'][0] for _, act in self.acts if act['kind'] == 'acknack' and act['source'] == dest and act['dest'] == writer[:12]
                    and act['writer'] == writer[12:] and act['reader'] == READERS[writer[12:]]), default=0)
        told = [(max(lo, base), hi) for lo, hi in told if hi > max(lo, base)]
        cuts = sorted({at for one in told for at in one})
        return [(lo, hi) for lo, hi in zip(cuts, cuts[1:]) if any(a <= lo and hi <= b for a, b in told)]

    def untold_of(self, one, other):
        found, end = Untold(one, other), self.end(one, other)
        for entity, named in found.named.items() if end is not None else ():
            data = [act for _, act in self.acts if act['kind'] == 'data' and act['source'] == one and act['writer'] == entity]
            ended = {act['number'] for act in data if is_ending(act)}
            lacking = self.pieces(one + entity, other, end)
            lacks = lambda n: n not in ended and any(lo <= n < hi for lo, hi in lacking)
            names = [(act['number'], endpoint_of(act)) for act in data if lacks(act['number']) and endpoint_of(act) is not None]
            named.update(guid for _, guid in names)
            without = {n for n in ended | {n for n, _ in names} if any(lo <= n < hi for lo, hi in lacking)}
            found.unnamed += sum(hi - lo for lo, hi in lacking) - len(without)
        return found

    def untold(self):
        """in the order of participants"""
        pairs = ((one, other) for one in sorted(self.since) for other in sorted(self.since) if self.qualify(one, other))
        return [found for found in (self.untold_of(*pair) for pair in pairs) if found.count() > 0]

    def lines(self):
        for (prefix, number), (one, other) in sorted(self.lives.items()):
            yield f'lives {prefix.hex()} {number} {one[0]}.{one[1]} {other[0]}.{other[1]}'
        for found in self.untold():
            yield found.line()


def vendors_of(datagram):
    """the vendor of each act: of the last INFO_SRC before it, or else of the header"""
    header, items, _ = read(datagram, True)
    found = []
    for k, item in enumerate(items):
        if item['kind'] in ('data', 'data_frag', 'heartbeat', 'acknack', 'gap', 'nack_frag'):
            sources = [i for i in items[:k] if i['kind'] == 'info_src']
            found.append(sources[-1]['vendor'] if sources else header['vendor'])
    return found


def said_by(kind, datagrams, times):
    """what datagrams say of discovery, of this kind"""
    headers = [read(d)[0] for d in datagrams]
    prefixes = [header and header['prefix'] for header in headers]
    return kind([acts_of(d, True) for d in datagrams], [vendors_of(d) for d in datagrams], prefixes, times)


def known_of(datagrams, times):
    return said_by(Known, datagrams, times)


def told_by(kind, datagrams, times):
    return ''.join(f'{line}\n' for line in said_by(kind, datagrams, Times(of_datagrams=times)).lines()) + '\n'


def told_of(datagrams, times):
    return told_by(Known, datagrams, times)


# ---- random systems

PREFIXES = [bytes([k]) * 12 for k in (0xaa, 0xbb, 0xcc)]
HUGE = 2 ** 63 - 2


def message(rng, source, parts, stamp=None, dest=None, vendor=b'\1\x10'):
    """a datagram of submessages, with INFO_TS and INFO_DST in front of them"""
    head = b'' if stamp is None else put('be', 0x09, 0, u('be', 4, stamp[0]) + u('be', 4, stamp[1]))
    head += b'' if dest is None else put('be', 0x0e, 0, dest)
    if rng.random() < 0.03:
        parts = [put('be', 0x0c, 0, bytes(4) + b'\2\5' + vendor + rng.choice(PREFIXES)), *parts]
    return b'RTPS\2\5' + vendor + source + head + b''.join(parts)


def data(writer, number, payload, flags=4, inline=b'', reader=bytes(4)):
    return put('be', 0x15, flags, bytes(2) + u('be', 2, 16) + reader + writer + sn('be', number) + inline + payload)


def listed(parameters):
    return b'\0\2\0\0' + b''.join(parameters) + parameter('be', 1, b'')


def text(octets):
    octets = u('be', 4, len(octets) + 1) + octets + b'\0'
    return octets + bytes(-len(octets) % 4)


def some_number(rng):
    return rng.choice([1, 1, 2, 2, 3, 4, 5, 6, 8, 13])


def some_participant(rng, prefix):
    domain = [parameter('be', 0x0f, u('be', 4, rng.choice([0] * 9 + [1])))] if rng.random() < 0.5 else []
    guid = parameter('be', 0x50, prefix + (PARTICIPANT if rng.random() < 0.97 else b'\0\0\2\xc1'))
    return data(PARTICIPANTS, rng.choice([1, 1, 1, 2]), listed([guid, *domain]))


def some_endpoint(rng, prefix):
    """a DATA that announces an endpoint, or says that one ends"""
    writer, number = rng.choice([PUBLICATIONS, SUBSCRIPTIONS]), some_number(rng)
    entity = bytes([0, 0, number if rng.random() < 0.8 else rng.randrange(1, 4), 3 if writer == PUBLICATIONS else 4])
    if rng.random() < 0.15:
        status = parameter('be', 0x71, bytes(3) + bytes([rng.choice([1, 2, 3, 3, 3, 0, 4])]))
        status = status if rng.random() < 0.9 else parameter('be', 0x71, b'\3')
        ends = status + parameter('be', 0x70, prefix + entity) + parameter('be', 1, b'')
        whole = rng.random() < 0.2
        names = [parameter('be', 0x5a, prefix + entity), parameter('be', 5, text(b'x')), parameter('be', 7, text(b'T'))] if whole else []
        return data(writer, number, listed(names) if whole else b'', 6 if whole else 2, ends)
    names = [parameter('be', 0x5a, prefix + entity), parameter('be', 5, text(b'x')), parameter('be', 7, text(b'T'))]
    names = names if rng.random() < 0.93 else names[:2]
    return data(writer, number, listed(names), rng.choice([4] * 19 + [8]))


def some_piece(rng):
    head = bytes(2) + u('be', 2, 28) + bytes(4) + rng.choice([PUBLICATIONS, SUBSCRIPTIONS]) + sn('be', some_number(rng))
    return put('be', 0x16, 0, head + u('be', 4, 1) + u('be', 2, 1) + u('be', 2, 4) + u('be', 4, 8) + b'abcd')


def some_heartbeat(rng):
    first, last = some_number(rng), rng.choice([0, *range(1, 9)] * 6 + [1000, HUGE, HUGE + 1])
    first = 1 if rng.random() < 0.6 else first
    last = max(last, first - 1)
    return put('be', 0x07, rng.choice([0, 2]), bytes(4) + rng.choice([PUBLICATIONS, SUBSCRIPTIONS]) + sn('be', first) + sn('be', last) + u('be', 4, 1))


def some_answer(rng):
    writer = rng.choice([PUBLICATIONS, SUBSCRIPTIONS])
    reader = READERS[writer] if rng.random() < 0.95 else rng.choice(list(READERS.values()))
    base = rng.choice([1, 1, 2, 3, 4, 5, 6, 7, 9, 9, 14, 14] * 8 + [0, 1001, HUGE + 1])
    return put('be', 0x06, 2, reader + writer + sn('be', base) + u('be', 4, 0) + u('be', 4, 1))


def some_leaving(rng, prefix):
    status = parameter('be', 0x71, bytes(3) + bytes([rng.choice([3, 3, 1, 2])]))
    return data(PARTICIPANTS, rng.choice([1, 9]), b'', 2, status + parameter('be', 0x70, prefix + PARTICIPANT) + parameter('be', 1, b''))


def some_act(rng, source):
    kind = rng.random()
    if kind < 0.35:
        return some_endpoint(rng, source)
    if kind < 0.4:
        return some_piece(rng)
    if kind < 0.6:
        return some_heartbeat(rng)
    return some_answer(rng) if kind < 0.95 else some_participant(rng, source)


def some_message(rng, vendors, source):
    dest = rng.choice([None, None, *PREFIXES])
    stamp = rng.choice([None, (1, 0), (1, 0), (1, 0), (1, 0), (1, 1), (2, 0)]) if rng.random() < 0.15 else (1, 0)
    parts = [some_act(rng, source) for _ in range(rng.choice([1, 1, 1, 2, 3]))]
    return message(rng, source, parts, stamp, dest, vendors[source])


def some_steps(rng, count):
    """times of datagrams in nanoseconds, mostly in order; some have none"""
    time, times, lacks = SECOND * rng.randrange(9), [], rng.random() < 0.1
    for _ in range(count):
        step = rng.choice([0, 1, SECOND // 10, SECOND // 4, SECOND // 2, SECOND - 1, SECOND, SECOND, SECOND + 1])
        time = max(0, time + (step if rng.random() < 0.98 else -step))
        times.append(None if lacks and rng.random() < 0.1 else time)
    return times


def some_system(rng):
    """the datagrams of a system, and their times"""
    vendors = {prefix: rng.choice([b'\1\x10', b'\1\x0f', b'\1\x03']) for prefix in PREFIXES}
    there = PREFIXES[:rng.choice([2, 2, 2, 3])]
    datagrams = [message(rng, prefix, [some_participant(rng, prefix)], (1, 0), None, vendors[prefix]) for prefix in there if rng.random() < 0.97]
    datagrams += [some_message(rng, vendors, rng.choice(there)) for _ in range(rng.randrange(1, 16))]
    if rng.random() < 0.3:
        prefix = rng.choice(there)
        datagrams.insert(rng.randrange(1, len(datagrams) + 1), message(rng, prefix, [some_leaving(rng, prefix)], (3, 0), None, vendors[prefix]))
    return datagrams, some_steps(rng, len(datagrams))


# ---- comparing


def counted(told):
    counts = {word: sum(word in one for one in told) for word in ('untold', 'lives', 'unnamed 0', ' writers a', ' readers a')}
    return counts, 0 < counts['untold'] < len(told)


COMPARISON = Comparison('known', some_system, told_of, counted)


def tell(names):
    for name in names:
        with open(name, 'rb') as f:
            octets = f.read()
        datagrams, times = input_of(octets, any_form=True)[0], times_of(octets, any_form=True)
        known = known_of(datagrams, times)
        print(name)
        for (prefix, _), both in sorted(known.lives.items()):
            seconds = [one[0] + one[1] / 2 ** 32 for one in both]
            address = known.announced.address(prefix)
            print(f"  {guid_text(prefix + PARTICIPANT)} at {address and address_text(address)} has two lives: sent at {seconds[0]:.3f} and {seconds[1]:.3f}")
        for found in known.untold():
            print(f'  {guid_text(found.dest + PARTICIPANT)} was not told by {guid_text(found.source + PARTICIPANT)} of {found.count()} endpoints:',
                  *(guid_text(guid) for named in found.named.values() for guid in sorted(named)), f'and {found.unnamed} more' if found.unnamed else '')
    return 0


def main():
    words = sys.argv[1:]
    if len(words) > 1 and words[0] == 'tell':
        return tell(words[1:])
    return COMPARISON.run(words, __doc__)


if __name__ == '__main__':
    sys.exit(main())
