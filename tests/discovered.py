#!/usr/bin/env python3
"""Tests what the program says of discovery: who was never told of whose endpoints, who has two lives under one GUID, and which pairs matched late.

    tests/discovered.py [PROGRAM]

Each rule is tried alone and at its edge, on captures of a few datagrams. What is wanted was worked out by hand. It is held to the second
implementation, bench/known.py, bench/matched.py, bench/late.py and bench/told.py, and where a PROGRAM is given to that. The last line is 'N passed, M failed'.
"""
import json
import sys

sys.dont_write_bytecode = True
import program
from capture_writer import NANOSECONDS, packet, record, start
from known import PARTICIPANTS, PUBLICATIONS, READERS, SUBSCRIPTIONS, listed
from program import answer_of, text_of
from random_recordings import parameter, put, sn, u

SECOND = 10 ** 9
FAST, CYCLONE, OTHER_VENDOR = b'\1\x0f', b'\1\x10', b'\1\2'
A, B, C = (bytes([1, 0x0f]) + bytes([k]) * 10 for k in (0xaa, 0xbb, 0xcc))
PARTICIPANT, UNKNOWN = b'\0\0\1\xc1', bytes(4)
WRITER, READER = b'\0\0\7\3', b'\0\0\7\4'


def name(guid):
    return f'{guid[:12].hex()}.{guid[12:].hex()}'


def text(octets):
    octets = u('be', 4, len(octets) + 1) + octets + b'\0'
    return octets + bytes(-len(octets) % 4)


# ---- what is sent


def said(source, *parts, dest=None, stamp=None, vendor=FAST):
    head = b'' if stamp is None else put('be', 0x09, 0, u('be', 4, stamp[0]) + u('be', 4, stamp[1]))
    head += b'' if dest is None else put('be', 0x0e, 0, dest)
    return b'RTPS\2\5' + vendor + source + head + b''.join(parts)


def data(writer, number, payload, flags=4, inline=b'', reader=UNKNOWN):
    return put('be', 0x15, flags, bytes(2) + u('be', 2, 16) + reader + writer + sn('be', number) + inline + payload)


def status(octets, guid):
    """the inline QoS of a DATA that says with these octets that something ends"""
    return parameter('be', 0x71, octets) + parameter('be', 0x70, guid) + parameter('be', 1, b'')


def locator(address):
    return parameter('be', 0x31, u('be', 4, 1) + u('be', 4, 7411) + bytes(12) + address)


def participant(prefix, *more, number=1, **words):
    return said(prefix, data(PARTICIPANTS, number, listed([parameter('be', 0x50, prefix + PARTICIPANT), *more])), **words)


def domain(number):
    return parameter('be', 0x0f, u('be', 4, number))


def endpoint(prefix, number=1, built_in=PUBLICATIONS, entity=WRITER, **words):
    names = [parameter('be', 0x5a, prefix + entity), parameter('be', 5, text(b'rt/scan')), parameter('be', 7, text(b'a::msg::dds_::B_')),
             parameter('be', 0x1a, u('be', 4, 2) + bytes(8))]
    return said(prefix, data(built_in, number, listed(names)), **words)


def ended(prefix, octets=b'\0\0\0\3', number=1, **words):
    return said(prefix, data(PUBLICATIONS, number, b'', 2, status(octets, prefix + WRITER)), **words)


def leaving(prefix):
    return said(prefix, data(PARTICIPANTS, 2, b'', 2, status(b'\0\0\0\3', prefix + PARTICIPANT)))


def heartbeat(prefix, first, last, built_in=PUBLICATIONS, **words):
    return said(prefix, put('be', 0x07, 0, UNKNOWN + built_in + sn('be', first) + sn('be', last) + u('be', 4, 1)), **words)


def fragment(prefix, number, **words):
    body = bytes(2) + u('be', 2, 28) + UNKNOWN + PUBLICATIONS + sn('be', number) + u('be', 4, 1) + u('be', 2, 1) + u('be', 2, 4) + u('be', 4, 8)
    return said(prefix, put('be', 0x16, 0, body + b'abcd'), **words)


def answer(source, dest, base, built_in=PUBLICATIONS, reader=None):
    return said(source, put('be', 0x06, 2, (reader or READERS[built_in]) + built_in + sn('be', base) + u('be', 4, 0) + u('be', 4, 1)), dest=dest)


def asking(source, dest, number, built_in=PUBLICATIONS, reader=None):
    """an ACKNACK whose list has one number, which is its base"""
    return said(source, put('be', 0x06, 2, (reader or READERS[built_in]) + built_in + sn('be', number) + u('be', 4, 1) + u('be', 4, 2 ** 31) + u('be', 4, 1)), dest=dest)


def asking_fragments(source, dest, number):
    return said(source, put('be', 0x12, 0, READERS[PUBLICATIONS] + PUBLICATIONS + sn('be', number) + u('be', 4, 1) + u('be', 4, 1) + u('be', 4, 2 ** 31) + u('be', 4, 1)), dest=dest)


def pieces(datagram, **words):
    """the DATA of a datagram in two DATA_FRAG, each in a datagram of its own"""
    header, item = datagram[:20], datagram.index(b'\x15\4')
    reader, writer, number, payload = datagram[item + 8:item + 12], datagram[item + 12:item + 16], datagram[item + 16:item + 24], datagram[item + 24:]
    size = (len(payload) // 2 + 3) // 4 * 4
    for k, part in enumerate((payload[:size], payload[size:]), 1):
        body = bytes(2) + u('be', 2, 28) + reader + writer + number + u('be', 4, k) + u('be', 2, 1) + u('be', 2, size) + u('be', 4, len(payload))
        yield said(header[8:20], put('be', 0x16, 0, body + part), **words)


def capture(*timed):
    """a classic capture of datagrams, each behind its time in nanoseconds"""
    return start(magic=NANOSECONDS) + b''.join(record(packet(d), time=divmod(time, SECOND)) for time, d in timed)


def at(second, nanosecond=0):
    return (100 + second) * SECOND + nanosecond


# ---- what is told


class Discovered(program.Counts):
    """tests of the second implementation, and of a program where there is one"""

    def __init__(self, path):
        super().__init__()
        self.runs = {'bench': answer_of} | ({path: program.Tests(path).run} if path else {})

    def tells(self, group, title, octets, member, wanted):
        """a member of `check --json` is this"""
        for by, run in self.runs.items():
            self.holds(f'{group}: {title}, by {by}', wanted, json.loads(run('check', octets, ('--json',))[0])[member])

    def prints(self, group, title, octets, *wanted):
        """these lines stand in the text of `check`, in this order"""
        for by, run in self.runs.items():
            lines = iter(run('check', octets)[0].splitlines())
            self.holds(f'{group}: {title}, by {by}', list(wanted), [line for line in wanted if line in lines])

    def explains(self, group, title, octets, *wanted):
        """the same of `why`"""
        for by, run in self.runs.items():
            lines = iter(run('why', octets)[0].splitlines())
            self.holds(f'{group}: {title}, by {by}', list(wanted), [line for line in wanted if line in lines])

    def lacks(self, group, title, octets, words):
        """these words stand nowhere in the text of `check`"""
        for by, run in self.runs.items():
            self.holds(f'{group}: {title}, by {by}', False, words in run('check', octets)[0])


def untold(writers=(), readers=(), unnamed=0, source=A, dest=B):
    return [{'from': name(source + PARTICIPANT), 'to': name(dest + PARTICIPANT), 'writers': [name(guid) for guid in writers],
             'readers': [name(guid) for guid in readers], 'unnamed': unnamed}]


NAMED = untold([A + WRITER])


def told_of(tests):
    """A tells B of a writer at 2 s, B asks for it at 3 s and is last heard at 8 s, unless something else is said"""
    both = [(at(0), participant(A)), (at(1), participant(B))]
    asks, last = (at(3), answer(B, A, 1)), (at(8), participant(B))
    tells = (at(2), endpoint(A))
    late, soon = participant(B, number=1), at(9)
    other = [(at(0), participant(C))]
    rows = {
        'not known': ([*both, tells, asks, last], NAMED),
        'known': ([*both, tells, (at(3), answer(B, A, 2)), last], []),
        'known before it is told': ([*both, (at(1), answer(B, A, 2)), tells, asks, last], []),
        'a reader': ([*both, (at(2), endpoint(A, built_in=SUBSCRIPTIONS, entity=READER)), asks, last], untold(readers=[A + READER])),
        'the answer of another reader': ([*both, tells, (at(3), answer(B, A, 2, reader=READERS[SUBSCRIPTIONS])), last], NAMED),
        'an answer to the other writer': ([*both, tells, (at(3), answer(B, A, 2, SUBSCRIPTIONS)), last], NAMED),
        'the answer of another participant': ([*both, *other, tells, asks, (at(4), answer(C, A, 2)), last], NAMED),
        # to whom
        'told to it alone': ([*both, (at(2), endpoint(A, dest=B)), last], NAMED),
        'told to another one alone': ([*both, *other, (at(2), endpoint(A, dest=C)), asks, (at(4), answer(C, A, 2)), last], []),
        # when
        'a second before it is last heard': ([*both, asks, (at(4), endpoint(A)), (at(5), participant(B))], NAMED),
        'a nanosecond less': ([*both, asks, (at(4), endpoint(A)), (at(5, -1), participant(B))], []),
        'a second before the first leaves': ([*both, asks, (at(4), endpoint(A)), (at(5), leaving(A)), last], NAMED),
        'a nanosecond less before that': ([*both, asks, (at(4), endpoint(A)), (at(5, -1), leaving(A)), last], []),
        'a second before the other leaves': ([*both, asks, (at(4), endpoint(A)), (at(5), leaving(B)), last], NAMED),
        'a nanosecond less before that one': ([*both, asks, (at(4), endpoint(A)), (at(5, -1), leaving(B)), last], []),
        'announced a second before it is last heard': ([(at(0), participant(A)), tells, asks, (at(7), late), last], NAMED),
        'announced a nanosecond later': ([(at(0), participant(A)), tells, asks, (at(7, 1), late), last], []),
        'the first is announced a second before': ([(at(1), participant(B)), tells, asks, (at(7), participant(A)), last], NAMED),
        'it is announced a nanosecond later': ([(at(1), participant(B)), tells, asks, (at(7, 1), participant(A)), last], []),
        'a number that comes again': ([*both, tells, asks, (soon, endpoint(A)), (soon, participant(B))], NAMED),
        'a number that comes again to it alone, too late': ([*both, *other, (at(2), endpoint(A, dest=C)), asks, (at(8), endpoint(A, dest=B)), last], []),
        'a number that comes again too early by its time': ([*both, asks, (at(8), endpoint(A)), (at(2), endpoint(A)), last], NAMED),
        # which numbers
        'a disposal': ([*both, (at(2), ended(A)), asks, last], []),
        'disposed alone': ([*both, (at(2), ended(A, b'\0\0\0\1')), asks, last], []),
        'unregistered alone': ([*both, (at(2), ended(A, b'\0\0\0\2')), asks, last], []),
        'another status': ([*both, (at(2), ended(A, b'\0\0\0\4')), asks, last], untold(unnamed=1)),
        'a status of eight octets': ([*both, (at(2), ended(A, b'\0\0\0\3' * 2)), asks, last], untold(unnamed=1)),
        'a disposal that a HEARTBEAT has, too': ([*both, (at(2), heartbeat(A, 1, 2)), asks, (at(7), ended(A, number=2)), last], untold(unnamed=1)),
        'a HEARTBEAT': ([*both, (at(2), heartbeat(A, 2, 4)), asks, last], untold(unnamed=3)),
        'a HEARTBEAT of nothing': ([*both, (at(2), heartbeat(A, 1, 0)), asks, last], []),
        'a HEARTBEAT of which some is known': ([*both, (at(2), heartbeat(A, 1, 4)), (at(3), answer(B, A, 3)), last], untold(unnamed=2)),
        'a HEARTBEAT of what is named, too': ([*both, tells, (at(2), heartbeat(A, 1, 3)), asks, last], untold([A + WRITER], unnamed=2)),
        'a HEARTBEAT of another writer': ([*both, (at(2), heartbeat(A, 1, 4, WRITER)), asks, last], []),
        'a fragment': ([*both, (at(2), fragment(A, 1)), asks, last], untold(unnamed=1)),
        'two numbers of one endpoint': ([*both, tells, (at(2), endpoint(A, 2)), asks, last], NAMED),
        # of which participants
        'neither names the other': ([*both, tells, last], []),
        'the first names the other': ([*both, tells, (at(2), heartbeat(A, 1, 1, dest=B)), last], NAMED),
        'two domains': ([(at(0), participant(A, domain(0))), (at(1), participant(B, domain(1))), tells, asks, last], []),
        'one domain': ([(at(0), participant(A, domain(1))), (at(1), participant(B, domain(1))), tells, asks, last], NAMED),
        'a domain that is not known': ([(at(0), participant(A, domain(1))), (at(1), participant(B)), tells, asks, last], NAMED),
        'the other is not announced': ([(at(0), participant(A)), tells, asks, (at(8), heartbeat(B, 1, 0))], []),
        'the first is not announced': ([(at(1), participant(B)), tells, asks, last], []),
        'the first has two lives': ([(at(0), participant(A, stamp=(1, 0))), (at(1), participant(B)), (at(1), participant(A, stamp=(2, 0))), tells, asks, last], []),
        'the other has two lives': ([(at(0), participant(A)), (at(1), participant(B, stamp=(1, 0))), (at(1), participant(B, stamp=(2, 0))), tells, asks, last], []),
        'nothing is told': ([*both, asks, last], []),
    }
    for title, (timed, wanted) in rows.items():
        tests.tells('not told', title, capture(*timed), 'untold', wanted)
    datagrams = [d for _, d in rows['not known'][0]]
    tests.tells('not told', 'a text', text_of(datagrams), 'untold', [])
    print(f'not told: {len(rows) + 1}')


def two_lives(tests):
    def lives(*timed):
        return capture((at(0), heartbeat(C, 1, 0)), *timed)

    first, other = (100, 1 << 31), (104, 0)
    wanted = [{'participant': name(A + PARTICIPANT), 'address': None, 'sent': [0.5, 4.0]}]
    where = wanted[0] | {'address': '10.0.0.1'}
    rows = {
        'two source times of one number': (lives((at(1), participant(A, stamp=first)), (at(4), participant(A, stamp=other))), wanted),
        'with its address': (lives((at(1), participant(A, locator(b'\x0a\0\0\1'), stamp=first)), (at(4), participant(A, stamp=other))), [where]),
        'of Cyclone DDS': (lives((at(1), participant(A, stamp=first, vendor=CYCLONE)), (at(4), participant(A, stamp=other, vendor=CYCLONE))), wanted),
        'of another vendor': (lives((at(1), participant(A, stamp=first, vendor=OTHER_VENDOR)), (at(4), participant(A, stamp=other, vendor=OTHER_VENDOR))), []),
        'one source time': (lives((at(1), participant(A, stamp=first)), (at(4), participant(A, stamp=first))), []),
        'a part of a second apart': (lives((at(1), participant(A, stamp=(104, 1))), (at(4), participant(A, stamp=other))), [wanted[0] | {'sent': [4.0, 4.0]}]),
        'two numbers': (lives((at(1), participant(A, stamp=first)), (at(4), participant(A, stamp=other, number=2))), []),
        'without a source time': (lives((at(1), participant(A, stamp=first)), (at(4), participant(A))), []),
        'of two participants': (lives((at(1), participant(A, stamp=first)), (at(4), participant(B, stamp=other))), []),
        'of another writer': (lives((at(1), endpoint(A, stamp=first)), (at(4), endpoint(A, stamp=other))), []),
        'three source times': (lives((at(1), participant(A, stamp=first)), (at(4), participant(A, stamp=other)), (at(5), participant(A, stamp=(105, 0)))), wanted),
        'by two numbers': (lives(*((at(k), participant(A, stamp=(100 + k, 0), number=n)) for k, n in enumerate((2, 1, 2, 1)))),
                           [wanted[0] | {'sent': [1.0, 3.0]}]),
        'before the recording': (lives((at(1), participant(A, stamp=(98, 0))), (at(4), participant(A, stamp=other))), [wanted[0] | {'sent': [-2.0, 4.0]}]),
    }
    for title, (octets, found) in rows.items():
        tests.tells('two lives', title, octets, 'lives', found)
    tests.tells('two lives', 'a text', text_of([participant(A, stamp=first), participant(A, stamp=other)]), 'lives', [])
    print(f'two lives: {len(rows) + 1}')


def pairs(tests):
    """a reader of B that acknowledges nothing of a writer of A, whose announcement B never acknowledges"""
    sample = data(WRITER, 1, b'\0\1\0\0' + bytes(8))
    asks = put('be', 0x07, 0, READER + WRITER + sn('be', 1) + sn('be', 1) + u('be', 4, 1))

    def system(*more, first=(), second=(), names=()):
        return capture((at(0), participant(A, *first)), (at(0), participant(B, *second)), (at(1), endpoint(A)),
                       (at(1), endpoint(B, built_in=SUBSCRIPTIONS, entity=READER)), (at(2), answer(A, B, 2, SUBSCRIPTIONS)), *names,
                       (at(3), said(A, sample)), (at(3), said(A, asks, dest=B)), *more, (at(9), participant(B)), (at(9), participant(A)))

    named = [(at(2), answer(B, A, 1))]
    lost = '    -> its announcements are lost on the way: look at large announcements in IP fragments, and at multicast'
    line = f'  participant {name(B + PARTICIPANT)} was never told of the writer of /scan {name(A + WRITER)}'
    tests.prints('pairs', 'lost on the way', system(names=named), lost, 'discovery is not complete', line, lost[2:],
                 'not clean: 1 pair is not complete; 1 participant was not told of 1 endpoint')
    tests.prints('pairs', 'it acknowledges a number', system((at(4), said(B, put('be', 0x06, 0, READER + WRITER + sn('be', 2) + u('be', 4, 0) + u('be', 4, 1)), dest=A)),
                 names=named), '1 of 1 pair is clean, 1 of 1 number received', 'not clean: 1 participant was not told of 1 endpoint')
    here, there = (locator(b'\x0a\0\0' + bytes([k])) for k in (1, 2))
    back = '  -> nothing comes back from 10.0.0.2: a firewall, or another interface'
    tests.prints('pairs', 'nothing comes back', system(first=[here], second=[there]), '  -> discovery is not complete: see below who was never told of what',
                 'discovery is not complete', f'  10.0.0.2 was never told of the writer of /scan {name(A + WRITER)} at 10.0.0.1', back)
    tests.prints('pairs', 'one address', system(first=[here], second=[here], names=named), lost)
    twice = [(at(1), participant(A, stamp=(1, 0))), (at(2), participant(A, stamp=(2, 0)))]
    tests.prints('pairs', 'two lives', system(names=named + twice),
                 '    -> two processes use the GUID of a participant of this pair, as after a copied disk image or a restart: the pair is a mixture of both',
                 '1 participant has two lives under one GUID', f'  participant {name(A + PARTICIPANT)}, announced by one number at -99.000 s and at -98.000 s of its clock',
                 '  -> two processes use one GUID, as after a copied disk image or a restart: give each its own, and record again',
                 'not clean: 1 pair is not complete; 1 participant has two lives under one GUID')
    print('pairs: 5')


EARLY = (100, 0), (101, 0)        # the source times of participants and of endpoints


def late_system(source=EARLY, **timed):
    """what discovery says between A, which has a writer, and B, which has a reader: at 0 s they announce themselves, and at 1 s the two; B asks again at 2 s,
    and is told at 9 s. A keyword gives another step of its name, at its time, or none of it"""
    born, there = source
    steps = {
        'a': (at(0), participant(A, stamp=born)), 'b': (at(0), participant(B, stamp=born)),
        'writer': (at(1), endpoint(A, stamp=there)), 'reader': (at(1), endpoint(B, built_in=SUBSCRIPTIONS, entity=READER, stamp=there)),
        'asks': (at(2), asking(B, A, 1)), 'again': (at(9), endpoint(A, stamp=there)),
        'has': (at(9, 1), answer(B, A, 2)), 'also': (at(9, 1), answer(A, B, 2, SUBSCRIPTIONS)),
    } | timed
    listed = [step for one in steps.values() if one is not None for step in (one if isinstance(one, list) else [one])]
    return sorted(listed, key=lambda step: step[0])


def matched(seconds, datagram, when, place=32):
    return [{'topic': 'rt/scan', 'writer': name(A + WRITER), 'reader': name(B + READER), 'seconds': seconds,
             'matched': {'datagram': datagram, 'at': place, 'time': when, 'frame': datagram}}]


def matched_late(tests):
    told = matched(8.0, 6, 9.0)
    reader, writer = (lambda **words: endpoint(B, built_in=SUBSCRIPTIONS, entity=READER, **words)), (lambda **words: endpoint(A, **words))
    there = EARLY[1]
    # all that A sends is so much behind its source time
    def behind_by(nanoseconds, **timed):
        return late_system(a=(at(0) + nanoseconds, participant(A, stamp=EARLY[0])), writer=(at(1) + nanoseconds, writer(stamp=there)), **timed)

    tenth = SECOND // 10
    rows = {
        'it is told again': (late_system(), told),
        'a second behind': (late_system(asks=(at(1), asking(B, A, 1)), again=(at(2), writer(stamp=there))), []),
        'a nanosecond more': (late_system(asks=(at(1), asking(B, A, 1)), again=(at(2, 1), writer(stamp=there))), matched(1.0, 6, 2.0)),
        'behind the later of the two': (late_system(reader=(at(8, 1), reader(stamp=(108, 0)))), []),
        # what it asks for, and what it hears
        'it does not ask again': (late_system(asks=None), []),
        'it asks by a NACK_FRAG': (late_system(asks=(at(2), asking_fragments(B, A, 1))), told),
        'it asks for another number': (late_system(asks=(at(2), asking(B, A, 2))), []),
        'it asks when it has it': (late_system(has=(at(1, 5), answer(B, A, 2))), []),
        'it asks twice': (late_system(more=[(at(5), asking(B, A, 1)), (at(4), writer(stamp=there))]), matched(8.0, 8, 9.0)),
        'it is told before it asks once more': (late_system(more=[(at(5), writer(stamp=there))], has=(at(6), answer(B, A, 2))), matched(4.0, 6, 5.0)),
        'it is never told again': (late_system(again=None), []),
        'another reader asks': (late_system(asks=(at(2), asking(B, A, 1, reader=READERS[SUBSCRIPTIONS]))), []),
        'another participant asks': (late_system(asks=(at(2), asking(C, A, 1))), []),
        'it is told alone': (late_system(again=(at(9), writer(stamp=there, dest=B))), matched(8.0, 6, 9.0, 48)),
        'another one is told': (late_system(again=[(at(8), writer(stamp=there, dest=C)), (at(9), writer(stamp=there))]), matched(8.0, 7, 9.0)),
        'the first one to be told is another': (late_system(asks=None, writer=(at(1), writer(stamp=there, dest=C))), matched(8.0, 5, 9.0)),
        # what is late
        'the reader is told late': (late_system(asks=None, reader=(at(9), reader(stamp=there))), matched(8.0, 4, 9.0)),
        'a participant is told late': (late_system(asks=None, a=(at(9), participant(A, stamp=EARLY[0]))), matched(8.0, 4, 9.0)),
        'a participant is never told': (late_system(a=None), []),
        # the recording
        'it began in the middle': (late_system(more=[(at(0, -1), answer(B, A, 2))]), []),
        'it began in the middle, by the other way': (late_system(more=[(at(0, -1), answer(A, B, 2, SUBSCRIPTIONS))]), []),
        'nothing is acknowledged before them': (late_system(more=[(at(0, -1), answer(B, A, 1))]), matched(8.0, 7, 9.0)),
        'something is, of another writer': (late_system(more=[(at(0, -1), answer(B, A, 2, WRITER, READER))]), matched(8.0, 7, 9.0)),
        'something is, of another one': (late_system(more=[(at(0, -1), answer(C, A, 2))]), matched(8.0, 7, 9.0)),
        'between the two of them': (late_system(b=(at(0, 5), participant(B, stamp=EARLY[0])), more=[(at(0, 3), answer(B, A, 2))]), []),
        'behind them': (late_system(more=[(at(0, 3), answer(A, B, 2, SUBSCRIPTIONS))]), matched(8.0, 7, 9.0)),
        # clocks
        'a clock fits': (behind_by(tenth), matched(8.0, 6, 9.0)),
        'a nanosecond more of it': (behind_by(tenth + 1), []),
        'a clock is ahead and fits': (behind_by(-tenth), matched(8.0, 6, 9.1)),
        'it is ahead a nanosecond more': (behind_by(-tenth - 1), []),
        'one of its DATA fits': (behind_by(tenth + 1, more=[(at(3), heartbeat(A, 1, 1)), (at(3), writer(number=7, stamp=(103, 0)))]), matched(8.0, 8, 9.0)),
        'without a source time': (late_system(writer=(at(1), writer())), []),
        'the source time of the first': (late_system(again=(at(9), writer(stamp=(109, 0)))), told),
        # two lives
        'two lives': (late_system(more=[(at(3), participant(A, stamp=(103, 0)))]), []),
        'two lives of the other': (late_system(more=[(at(3), participant(B, stamp=(103, 0)))]), []),
        'two lives of a third one': (late_system(more=[(at(3), participant(C, stamp=(103, 0))), (at(3), participant(C, stamp=(104, 0)))]), matched(8.0, 8, 9.0)),
        # fragments
        'it is told in fragments': (late_system(again=list(zip((at(8), at(9)), pieces(writer(), stamp=there)))), matched(8.0, 7, 9.0)),
        'in fragments alone': (late_system(asks=None, again=None, writer=list(zip((at(8), at(9)), pieces(writer(), stamp=there)))), matched(8.0, 5, 9.0)),
        'in fragments for it': (late_system(again=list(zip((at(8), at(9)), pieces(writer(), stamp=there, dest=B)))), matched(8.0, 7, 9.0, 48)),
        'in fragments for another': (late_system(again=[*zip((at(7), at(8)), pieces(writer(), stamp=there, dest=C)), (at(9), writer(stamp=there))]), matched(8.0, 8, 9.0)),
        'a fragment lacks': (late_system(again=[(at(8), next(pieces(writer(), stamp=there))), (at(9), writer(stamp=there))]), matched(8.0, 7, 9.0)),
    }
    for title, (timed, wanted) in rows.items():
        tests.tells('matched late', title, capture(*timed), 'late', wanted)
    tests.tells('matched late', 'a text', text_of([d for _, d in late_system()]), 'late', [])
    print(f'matched late: {len(rows) + 1}')


def late_rows(tests):
    """what a writer of A says to a reader of B that matched 8 s late"""
    def sample(number):
        return said(A, data(WRITER, number, b'\0\1\0\0' + bytes(8)))

    def took(base, *lacks):
        return said(B, put('be', 0x06, 2, READER + WRITER + sn('be', base) + u('be', 4, len(lacks)) + (u('be', 4, 2 ** 31) if lacks else b'') + u('be', 4, 1)), dest=A)

    def has(last):
        return said(A, put('be', 0x07, 0, UNKNOWN + WRITER + sn('be', 1) + sn('be', last) + u('be', 4, 1)))

    note = ['1 pair matched late', '  /scan: matched 8.000 s after both were there (9.000 s, frame 6)']
    sentence = 'the two matched late: what was written before that was not for it; use transient local, or wait for the match'
    # number 2 is announced, told gone, and never sent
    gap = said(A, put('be', 0x08, 0, READER + WRITER + sn('be', 2) + sn('be', 3) + u('be', 4, 0)))
    after = [(at(10), sample(1)), (at(10), gap), (at(10), sample(3)), (at(10), has(3))]
    tests.prints('rows', 'nothing lacks', capture(*late_system(), (at(10), sample(1)), (at(10), has(1)), (at(11), took(2))), *note, '', 'clean')
    unsent = capture(*late_system(), *after, (at(11), took(4)))
    tests.prints('rows', 'unsent', unsent, f'    -> {sentence}', *note, '', 'not clean: 1 number was unsent in 1 pair')
    tests.explains('rows', 'why', unsent, '  matched 8.000 s after both were there, in datagram 6 at 32, frame 6, 9.000 s', f'  -> {sentence}')
    missed = capture(*late_system(), *after, (at(11), took(2, 2)), (at(12), has(3)), (at(13), took(4)))
    tests.prints('rows', 'missed with none in the recording', missed, f'    -> {sentence}', *note)
    again = capture(*late_system(), (at(10), sample(1)), (at(10), has(1)), (at(11), took(1, 1)), (at(12), has(1)), (at(13), took(2)))
    tests.prints('rows', 'missed and sent', again, *note)
    tests.lacks('rows', 'missed and sent has its own advice', again, sentence)
    # number 1 is announced before the reader
    before = late_system(more=[(at(0, 5), has(1)), (at(0, 5), sample(1))])
    told = [note[0], note[1].replace('frame 6', 'frame 8'), f'  -> {sentence}']
    tests.prints('rows', 'all numbers are before from', capture(*before), *told, '', 'clean')
    tests.lacks('rows', 'it is told once', capture(*before), 'the writer wrote nothing')
    since = [(at(10), sample(2)), (at(10), has(2)), (at(11), took(3))]
    tests.prints('rows', 'numbers are before from', capture(*before, *since), *told, '', 'clean')
    soon = late_system(asks=None, more=[(at(0, 5), has(1)), (at(0, 5), sample(1))])
    tests.prints('rows', 'before from, of a pair that is not late', capture(*soon), 'the writer wrote nothing since the reader joined: 1 pair: /scan')
    print('rows: 9')


def latest(tests):
    """several readers of B, each announced later than the one before; the five that matched latest are named"""
    def reader(k):
        names = [parameter('be', 0x5a, B + bytes([0, 0, k, 4])), parameter('be', 5, text(b'rt/scan')), parameter('be', 7, text(b'a::msg::dds_::B_')),
                 parameter('be', 0x1a, u('be', 4, 2) + bytes(8))]
        return said(B, data(SUBSCRIPTIONS, k, listed(names)), stamp=EARLY[1])

    def system(count):
        return late_system(asks=None, reader=[(at(9 + k // 2), reader(k)) for k in range(1, count + 1)])

    def line(k, frame):
        return f'  /scan: matched {8 + k // 2}.000 s after both were there ({9 + k // 2}.000 s, frame {frame})'

    # 9 s: reader 1; 10 s: readers 2 and 3; 11 s: 4 and 5; 12 s: 6 and 7. Frames 4, 7, 8, 9, ..
    frames = {one: k for k, (_, one) in enumerate(system(7), 1)}
    lines = [line(k, frames[reader(k)]) for k in (6, 7, 4, 5, 2)]
    tests.prints('latest', 'seven', capture(*system(7)), '7 pairs matched late', *lines, '  and 2 more')
    frames = {one: k for k, (_, one) in enumerate(system(5), 1)}
    five = capture(*system(5))
    tests.prints('latest', 'five', five, '5 pairs matched late', *(line(k, frames[reader(k)]) for k in (4, 5, 2, 3, 1)))
    tests.lacks('latest', 'no more than five', five, 'more')
    print('latest: 3')


def main():
    tests = Discovered(sys.argv[1] if len(sys.argv) > 1 else None)
    for group in (told_of, two_lives, pairs, matched_late, late_rows, latest):
        group(tests)
    return tests.told()


if __name__ == '__main__':
    sys.exit(main())
