#!/usr/bin/env python3
"""Tests what the program says of times: of captures in all units, of times that go back, of who is silent, of how long a reader let its writer
wait, and of what happened to several pairs.

    tests/timed.py [PROGRAM]

What is wanted was worked out by hand. It is held to the second implementation, bench/times.py, and where a PROGRAM is given to that. Each
group prints a line with what was counted. The last line is 'N passed, M failed'.
"""
import re
import sys
import tempfile

sys.dont_write_bytecode = True
import program
from make import ack_nack, to
from capture_writer import (NANOSECONDS, enhanced, fragment, interface, old, option, packet, record, section, simple,
                            start, udp_4)
from program import answer_of, text_of
from recorded import Participant, Topic, parameter

# The built-in readers and writers of endpoints: publications and subscriptions.
BUILT_IN = (b'\0\0\3\xc7', b'\0\0\3\xc2'), (b'\0\0\4\xc7', b'\0\0\4\xc2')
SECOND, MILLISECOND = 10 ** 9, 10 ** 6
# How a frame is told: in lines, and in JSON.
FRAME = r', frame \d+|,"(\w+_)?frame":(\d+|null)'
TCP = packet(b'', protocol=6)          # a frame that gives no datagram


class Answers:
    """what is said of an input by the second implementation, as the tests of a program ask it"""

    def run(self, view, octets, words=()):
        return answer_of(view, octets, words)


class Timed(program.Counts):
    """tests of the second implementation, and of a program where there is one"""

    def __init__(self, path):
        super().__init__()
        self.runs = {'bench/times.py': Answers().run} | ({path: program.Tests(path).run} if path else {})

    def says(self, name, view, octets, wanted, seen=lambda text: text, words=()):
        """what is seen in the answer, without the frames in it, is what is wanted"""
        self.shows(name, view, octets, wanted, lambda text: seen(re.sub(FRAME, '', text)), words)

    def shows(self, name, view, octets, wanted, seen, words=()):
        """what is seen in the answer is what is wanted"""
        for by, run in self.runs.items():
            self.holds(f'{view}: {name}, by {by}', wanted, seen(run(view, octets, words)[0]))

    def checks(self, name, octets, *lines, words=()):
        """these lines stand in the text of `check`, and no other one speaks of times"""
        self.says(name, 'check', octets, list(lines), of_times, words)

    def tells(self, name, octets, pattern, *found, words=('--json',)):
        """what a pattern finds in `check --json`"""
        self.says(name, 'check', octets, list(found), lambda text: re.findall(pattern, text), words)


def of_times(text):
    """the lines that have a second"""
    return [line.strip() for line in text.splitlines() if re.search(r'\d\.\d{3} s', line)]


# ---- captures

def at(second, nanosecond=0):
    return second * SECOND + nanosecond


def nanoseconds(frames):
    """a classic capture of raw IP of frames, each behind its time in nanoseconds"""
    return start(magic=NANOSECONDS) + b''.join(record(frame, time=divmod(time, SECOND)) for time, frame in frames)


def known(datagrams):
    """the same, where each participant acknowledges what the others announce of their endpoints, behind all else in its first datagram: discovery is complete"""
    first = {}
    for place, datagram in enumerate(datagrams):
        first.setdefault(datagram[8:20], place)
    heard = list(datagrams)
    for prefix, place in first.items():
        for other in first.keys() - {prefix}:
            heard[place] += to(other) + b''.join(ack_nack(reader, writer, 100, flags=2) for reader, writer in BUILT_IN)
    return heard


def timed(datagrams, times):
    assert len(datagrams) == len(times)
    return nanoseconds([(time, packet(d)) for time, d in zip(times, known(datagrams))])


def told(code, *octets):
    return option(code, bytes(octets))


def offset(seconds):
    return option(14, seconds.to_bytes(8, 'little', signed=True))


def blocks(options, *ticks, write=enhanced):
    """a section of one interface: a frame that gives nothing, and the datagrams of TWO, each with its ticks"""
    return section() + interface(options=options) + b''.join(write(frame, time=time) for frame, time in zip(FRAMES, ticks))


ONE, OTHER = Participant(1), Participant(2)
TWO = [ONE.announced(), OTHER.announced()]
FRAMES = [TCP, *map(packet, TWO)]


def classic(order, *times):
    return start(order=order) + b''.join(record(frame, order, time=time) for frame, time in zip(FRAMES, times))


# ---- the second of each of two datagrams

def units(tests):
    first, second = FRAMES[1:]
    inner = udp_4(TWO[0])
    head, rest = fragment(inner, 0, 40), fragment(inner, 40, len(inner))
    usb = section() + interface(189) + interface() + enhanced(b'usb', 0, time=3000000)
    on_two = section() + interface(options=offset(1000)) + interface(options=offset(1001))
    rows = {
        'microseconds': (classic('little', (1700000000, 0), (1700000000, 999999), (1700000001, 1000)), '0.999', '1.001'),
        'microseconds, big': (classic('big', (1700000000, 0), (1700000000, 999999), (1700000001, 1000)), '0.999', '1.001'),
        'a fraction above a second': (classic('little', (10, 0), (10, 1500000), (10, 4294967295)), '1.500', '4294.967'),
        'nanoseconds': (nanoseconds(zip((at(7, 999999999), at(8), at(8, 999999)), FRAMES)), '0.000', '0.001'),
        'pcapng': (blocks(b'', 1000000, 2234567, 2 ** 40), '1.234', '1099510.627'),
        'pcapng in nanoseconds': (blocks(told(9, 9), 5, 1000004, 1000005), '0.000', '0.001'),
        'pcapng in milliseconds': (blocks(told(9, 3), 5, 1239, 1240), '1.234', '1.235'),
        'pcapng in seconds': (blocks(told(9, 0), 7, 9, 10), '2.000', '3.000'),
        'pcapng in picoseconds': (blocks(told(9, 12), 0, 1999999999, 2000000000), '0.001', '0.002'),
        'pcapng in 1024ths': (blocks(told(9, 138), 0, 1, 1023), '0.000', '0.999'),
        'pcapng in seconds, by a power of 2': (blocks(told(9, 128), 1, 2, 3), '1.000', '2.000'),
        'a resolution of two octets': (blocks(told(9, 3, 0), 0, 1000, 2000), '0.001', '0.002'),
        'two resolutions': (blocks(told(9, 3) + told(9, 9), 0, 1, 2), '0.001', '0.002'),
        'a resolution behind the end of the options': (blocks(told(0) + told(9, 9), 0, 1000, 2000), '0.001', '0.002'),
        'two offsets': (on_two + enhanced(TCP) + enhanced(first, 1) + enhanced(second, 0, time=1500000), '1.000', '1.500'),
        'an offset of four octets': (blocks(told(14, 9, 9, 9, 9), 0, 1000, 2000), '0.001', '0.002'),
        'an offset below 0': (blocks(offset(-5), 5000000, 6000000, 7000000), '1.000', '2.000'),
        'before 1970': (blocks(offset(-5), 5000000, 4999999, 5001000), 'null', '0.001'),
        'the greatest second of 64 bits': (blocks(told(9, 0), 18446744000, 18446744073, 18446744074), '73.000', 'null'),
        'the greatest nanosecond': (blocks(told(9, 9), 2 ** 64 - 10 ** 6, 2 ** 64 - 1, 2 ** 64 - 10 ** 6), '0.000', '0.000'),
        'a Simple Packet': (blocks(b'', 0) + simple(first) + enhanced(second, time=2000), 'null', '0.002'),
        'the old block': (blocks(told(9, 3), 5, 1239, 1240, write=old), '1.234', '1.235'),
        'the start is of a link that is not read': (usb + enhanced(first, 1, time=4000000) + enhanced(second, 1, time=5000000), '1.000', '2.000'),
        'the start is behind a Simple Packet': (section() + interface() + simple(TCP) + enhanced(first, time=7000) + enhanced(second, time=9000), '0.000', '0.002'),
        'no frame in front': (timed(TWO, [at(5), at(6, 500000)]), '0.000', '1.000'),
        'before the start': (nanoseconds(zip((at(9), at(8, 650000000), at(8, 999000001)), FRAMES)), '-0.350', '0.000'),
        'a second before the start': (nanoseconds(zip((at(9), at(8), at(7, 999999999)), FRAMES)), '-1.000', '-1.000'),
    }
    for name, (octets, *wanted) in rows.items():
        tests.tells(name, octets, r'"first_time":([^,]*)', *wanted)
        tests.tells(name, octets, r'"last_time":([^,]*)', *wanted)
    # A packet in pieces has the time of the frame that completes it.
    for order in ((head, rest), (rest, head)):
        pieces = nanoseconds(zip((at(0), at(3), at(4)), (*order, second)))
        tests.tells('pieces', pieces, r'"guid":"010f(..).*?"first_time":([^,]*)', ('01', '3.000'), ('02', '4.000'))
    for name, octets in (('Simple Packets alone', section() + interface() + b''.join(map(simple, FRAMES))), ('a text', text_of(TWO))):
        tests.tells(name, octets, r'_time|"time|"silent|"silence|"wait')
        tests.tells(name, octets, r'"last":(\d)', '1', '2')
    print(f'units: {len(rows) + 4}')


# ---- a writer and a reader: number 2 is lost twice, and the writer drops it

def pair():
    return Topic(b'rt/chatter', b'std_msgs::msg::dds_::String_', Participant(1), Participant(2))


def lost():
    topic = pair()
    return [*TWO, *topic.announced, topic.sent(1), topic.asks(1, 1), topic.answers(2), topic.sent(2), topic.asks(1, 2), topic.answers(2, 2),
            topic.resent(2), topic.asks(3, 2), topic.answers(3)]


# One datagram each 100 ms, the tenth 200 ns before its time.
STEADY = [at(1700000000) + 100 * MILLISECOND * k for k in range(13)]
STEADY[9] -= 200

WRITER, READER = '010f01010101010101010101.00000103', '010f02020202020202020202.00000104'
SAID = f'''0 of 1 pair is clean, 1 of 2 numbers received

topic     pairs  clean  before  received  missed
/chatter      1      0       0         1       1

from participant {WRITER[:24]}.000001c1 to participant {READER[:24]}.000001c1, first sent at 0.700 s: 1 pair, 1 number

/chatter std_msgs/msg/String
  writer {WRITER}
  reader {READER}, from 1
  complete 2, received 1, missed 1
    missed 2 (0.700 s)
    number 2 asked for in datagram 10 at 36, 0.899 s, sent again in datagram 11 at 36, 1.000 s, told gone by heartbeat in datagram 12 at 20, 1.100 s
    -> it was sent again, and nothing shows that it arrived: look at the network; a recording at the reader's side tells

not clean: 1 number was missed in 1 pair
'''
WHY = f'''pairs 1
pair {WRITER} {READER} complete 2
  topic "rt/chatter" type "std_msgs::msg::dds_::String_"
  from 1
  announced 2 by data in datagram 8 at 20, 0.700 s
  acknowledged below 3 in datagram 13 at 36, 1.200 s
  payloads 2 gone 0 untold 0
  received 1 of 2
  missed 1
    number 2 asked for in datagram 10 at 36, 0.899 s, sent again in datagram 11 at 36, 1.000 s, told gone by heartbeat in datagram 12 at 20, 1.100 s
  number 2 may not be received: told gone by heartbeat in datagram 12 at 20, 1.100 s, acknowledged in datagram 13 at 36, 1.200 s
    missed 2 (0.700 s)
  -> it was sent again, and nothing shows that it arrived: look at the network; a recording at the reader's side tells
datagrams 13 refused 0 skipped 0 fragments 0 undirected 0 unsettled 0 ignored 0
not clean: 1 number was missed in 1 pair
'''
PLACES = (
    '"announced":{"number":2,"by":"data","datagram":8,"at":20,"time":0.700}',
    '"acknowledged":{"below":3,"datagram":13,"at":36,"time":1.200}',
    '"gone":{"by":"heartbeat","datagram":12,"at":20,"time":1.100}',
    '"acknowledged":{"datagram":13,"at":36,"time":1.200}',
    '"asked":{"datagram":10,"at":36,"time":0.899}',
    '"again":{"datagram":11,"at":36,"time":1.000}',
    '"gone":{"by":"heartbeat","datagram":12,"at":20,"time":1.100}',
)
SENT = '"sent":{"datagram":8,"at":20,"time":0.700}'
FIRST_AND_LAST = [SENT.replace('sent', name, 1) for name in ('first', 'last')]
NO_SECOND = r', (first sent at )?\d\.\d{3} s| \(\d\.\d{3} s\)'


def places(tests):
    octets = timed(lost(), STEADY)
    tests.says('each place', 'check', octets, SAID)
    for name, view, words, more in (('each place', 'json', (), []), ('of check', 'check', ('--json',), [SENT, *FIRST_AND_LAST])):
        tests.says(name, view, octets, [*PLACES, *more], lambda text: re.findall(r'"\w+":{[^{}]*"at"[^{}]*}', text), words)
    tests.tells('the row', octets, r'"from":1,.*?"outcomes"|"clean":false,.*"advice":', '"from":1,"until":null,"until_time":null,"outcomes"',
                f'"clean":false,"wait":null,"numbers":{{"missed":{{"ranges":[{{"first":2,"last":2,{SENT}}}],"more":0}}}},"silence":[],"advice":')
    tests.says('places with no time', 'check', text_of(lost()), re.sub(NO_SECOND, '', SAID))
    for view in ('show', 'list', 'audit'):
        tests.says('no seconds', view, octets, [], of_times)
    tests.says('each place', 'why', octets, WHY)
    tests.says('places with no time', 'why', text_of(lost()), re.sub(NO_SECOND + '| ignored 0', '', WHY))
    for name, (datagrams, *lines) in verdicts().items():
        tests.checks(name, timed(datagrams, STEADY[:9][:len(datagrams)]), *lines)
    print(f'places: {len(verdicts()) + 10}')


def frames(tests):
    """the frame of each datagram: the frame that gave or completed it, counted with all frames of the file"""
    datagrams = lost()
    inner = udp_4(datagrams[0])
    head, rest = fragment(inner, 0, 40), fragment(inner, 40, len(inner))
    given = [packet(d) for d in datagrams]
    usb = section() + interface(189) + interface()
    rows = {
        'one frame each': (nanoseconds(zip(STEADY, given)), 8),
        'frames in front that give nothing': (nanoseconds([(STEADY[0], TCP), (STEADY[0], TCP), *zip(STEADY, given)]), 10),
        'a packet in pieces': (nanoseconds([(STEADY[0], head), (STEADY[0], TCP), (STEADY[0], rest), *zip(STEADY[1:], given[1:])]), 10),
        'Simple Packets': (section() + interface() + b''.join(simple(frame) for frame in given), 8),
        'old blocks': (section() + interface() + b''.join(old(frame, time=k) for k, frame in enumerate(given)), 8),
        'a link that is not read': (usb + enhanced(b'usb', 0) + b''.join(enhanced(frame, 1, time=k) for k, frame in enumerate(given)), 9),
        'two sections': (section() + interface() + enhanced(TCP) + section() + interface() + b''.join(enhanced(frame, time=k) for k, frame in enumerate(given)), 9),
    }
    for name, (octets, frame) in rows.items():
        tests.shows(name, 'check', octets, [str(frame), str(frame + 2), str(frame + 3), str(frame + 4)], lambda text: re.findall(r'frame (\d+)', text))
        tests.shows(name, 'why', octets, [str(frame), str(frame + 5)], lambda text: re.findall(r'(?:announced 2|acknowledged below 3).*?frame (\d+)', text))
        tests.shows(name, 'check', octets, [str(frame)], lambda text: re.findall(r'"announced":{"number":2,[^{}]*"frame":(\d+)}', text), ('--json',))
        for view in ('show', 'list', 'audit', 'json'):
            tests.shows(name, view, octets, [], lambda text: re.findall('frame"?[ :][0-9]', text))
    octets = rows['a packet in pieces'][0]
    tests.shows('alone', 'check', octets, ['"first_frame":3,"last_frame":14,"left_frame":null', '"first_frame":4,"last_frame":15,"left_frame":null'],
                lambda text: re.findall(r'"first_frame":.*?"left_frame":\w+', text), ('--json',))
    tests.shows('alone', 'check', octets, ['"until":null,"until_time":null,"until_frame":null'], lambda text: re.findall(r'"until":.*?_frame":\w+', text), ('--json',))
    tests.shows('without times', 'check', rows['Simple Packets'][0], [], lambda text: re.findall(r'_frame', text), ('--json',))
    tests.shows('without times', 'check', rows['Simple Packets'][0], ['    missed 2 (frame 8)'], lambda text: re.findall(r'    missed 2.*', text))
    tests.shows('a text', 'check', text_of(datagrams), [], lambda text: re.findall('frame', text))
    print(f'frames: {7 * len(rows) + 5}')


def verdicts():
    """rows of each other verdict, a datagram each 100 ms, with the lines that have a place"""
    topic = pair()
    begun = [*TWO, *topic.announced]
    changed = topic.sent(1)[:-1] + b'\7'
    return {
        'open': ([*begun, topic.sent(1), topic.asks(1, 1), topic.answers(1), topic.asks(1, 1), topic.asks(1, 1)],
                 'number 1 told by data in datagram 5 at 20, 0.400 s', 'asked 2 times since its last answer, last in datagram 9 at 20, 0.800 s'),
        'conflict': ([*begun, topic.sent(1), changed, topic.answers(2)], 'number 1 payload whole 20 in datagram 5 at 20, 0.400 s',
                     'number 1 payload whole 20 in datagram 6 at 20, 0.500 s'),
        'unfounded': ([*begun, topic.asks(1, 1), topic.answers(2), topic.sent(1)], 'announced 1 by heartbeat in datagram 5 at 20, 0.400 s',
                      'claimed below 2 in datagram 6 at 36, 0.500 s', 'number 1 told by data in datagram 7 at 20, 0.600 s'),
    }


def page_data(tests):
    """the seconds and frames that the page has for its chart: of each datagram that stands in it, once"""
    topic = pair()
    octets = timed(lost()[:-1] + [topic.answers(3) + topic.answers(3)[20:]], STEADY)
    wanted = ['"times":[[5,0.400,5],[6,0.500,6],[7,0.600,7],[8,0.700,8],[9,0.800,9],[10,0.899,10],[11,1.000,11],[12,1.100,12],[13,1.200,13]]']
    tests.says('the chart', 'page', octets, wanted, lambda text: re.findall(r'"times":\[\[.*?\]\]', text))
    tests.says('a text', 'page', text_of(lost()), [], lambda text: re.findall(r'"times":\[[\[\]]', text))
    print('data of the page: 2')


# ---- times that go back

BACK = 'times go back by up to {} s'


def going_back(tests):
    rows = {
        'by nothing': ([0, 0, 0], None), 'by a millisecond': ([0, 5 * MILLISECOND, 4 * MILLISECOND], None),
        'by a nanosecond more': ([0, 5 * MILLISECOND, 4 * MILLISECOND - 1], '0.001'), 'by two milliseconds': ([0, 5 * MILLISECOND, 3 * MILLISECOND], '0.002'),
        'in two steps of a millisecond': ([2 * MILLISECOND, MILLISECOND, 0], '0.002'),
        'the greatest of three': ([at(9), at(8, 500000000), at(9), at(2), at(9), at(5)], '7.000'),
        'behind one that is far ahead': ([0, at(3600), at(1), at(2)], '3599.000'),
    }
    for name, (times, step) in rows.items():
        datagrams = (TWO * 3)[:len(times)]
        tests.checks(name, timed(datagrams, [at(100) + time for time in times]), *([BACK.format(step)] if step else []))
    octets = timed(TWO, [at(9), at(8)])
    tests.tells('its advice', octets, r'"times go back[^"]*"', '"times go back by up to 1.000 s -> the datagrams are out of order: reordercap FILE OUT '
                'sorts them by time, and OUT can be checked"')
    tests.says('it stands first', 'check', octets, BACK.format('1.000'), lambda text: text.splitlines()[3])
    without = section() + interface() + enhanced(FRAMES[1], time=9000000) + simple(FRAMES[2]) + enhanced(FRAMES[1], time=8000000)
    tests.checks('past one without a time', without, BACK.format('1.000'))
    ignored = nanoseconds([(at(9), TCP), (at(5), packet(TWO[0])), (at(6), packet(TWO[1]))])
    tests.checks('a frame that gives nothing', ignored)
    print(f'times that go back: {len(rows) + 4}')


# ---- how long the reader let the writer wait

WAIT = 'let the writer wait {} s: asked in datagram {} at 20, {} s, {}'


def of_waits(text):
    return [line.strip() for line in text.splitlines() if 'let the writer wait' in line]


def waiting(tests):
    topic = pair()
    begun = [*TWO, *topic.announced, topic.sent(1)]

    def after(*more):
        """the announcements and number 1, in five datagrams, and more, each behind its time"""
        return timed(begun + [d for _, d in more], [at(50)] * 5 + [at(50) + time for time, _ in more])

    # The reader lacks number 1, and so no row is clean in which it acknowledges nothing more.
    ask, lacks = topic.asks(1, 1), topic.answers(1, 1)
    rows = {
        'a second': ([(0, ask), (at(1), lacks)], None),
        'a nanosecond more': ([(0, ask), (at(1, 1), lacks)], ('1.000', 6, '0.000', 'answered in datagram 7 at 36, 1.000 s')),
        'asked twice': ([(0, ask), (at(2), ask), (at(3, 5), lacks)], ('3.000', 6, '0.000', 'answered in datagram 8 at 36, 3.000 s')),
        'the greatest': ([(0, ask), (at(2), lacks), (at(2), ask), (at(5), lacks), (at(5), ask), (at(6), lacks)],
                         ('3.000', 8, '2.000', 'answered in datagram 9 at 36, 5.000 s')),
        'the first of equal ones': ([(0, ask), (at(2), lacks), (at(2), ask), (at(4), lacks)], ('2.000', 6, '0.000', 'answered in datagram 7 at 36, 2.000 s')),
        'to the end': ([(0, lacks), (0, ask), (at(4), topic.sent(2))], ('4.000', 7, '0.000', 'not answered')),
        'a second to the end': ([(0, lacks), (0, ask), (at(1), topic.sent(2))], None),
        'to the end, which is no datagram of the two': ([(0, lacks), (0, ask), (at(9), TWO[0])], ('9.000', 7, '0.000', 'not answered')),
        'an answer that is earlier by its time': ([(at(7), ask), (at(5), lacks)], None),
        'asked behind the last answer, by its place': ([(at(1), lacks), (at(0), ask), (at(3), topic.sent(2))], ('3.000', 7, '0.000', 'not answered')),
        'the end is the greatest time': ([(0, lacks), (0, ask), (at(6), topic.sent(2)), (at(2), topic.sent(3))], ('6.000', 7, '0.000', 'not answered')),
        'an answer that acknowledges nothing new': ([(0, ask), (at(2), topic.answers(1))], ('2.000', 6, '0.000', 'answered in datagram 7 at 36, 2.000 s')),
        'the final flag': ([(0, ask[:21] + b'\2' + ask[22:]), (at(4), lacks)], None),
        'a clean row': ([(0, ask), (at(2), topic.answers(2))], None),
    }
    for name, (more, wanted) in rows.items():
        tests.says(name, 'check', after(*more), [WAIT.format(*wanted)] if wanted else [], of_waits)
    early = timed([*TWO, topic.announced[0], topic.sent(1), ask, topic.announced[1], topic.sent(2), topic.answers(3)], [at(50)] * 5 + [at(59)] * 3)
    tests.tells('asked before the reader joined', early, r'"from":\d|"wait":[^,]*', '"from":2', '"wait":null')
    clean = after(*rows['a clean row'][0])
    wanted = '"wait":{"seconds":2.000,"asked":{"datagram":6,"at":20,"time":0.000},"answered":{"datagram":7,"at":36,"time":2.000}}'
    tests.tells('a clean row', clean, r'"wait":.*?}}', wanted)
    tests.says('an audit', 'json', clean, [], lambda text: re.findall('"wait"|"silence"|_time', text))
    tests.tells('to the end', after(*rows['to the end'][0]), r'"wait":.*?"answered":null}',
                '"wait":{"seconds":4.000,"asked":{"datagram":7,"at":20,"time":0.000},"answered":null}')
    tests.tells('a second', after(*rows['a second'][0]), r'"wait":[^,]*', '"wait":null')
    # An answer without a time ends the wait, and is none.
    frames = [*map(packet, begun), packet(ask), packet(lacks), packet(ask), packet(lacks)]
    without = section() + interface() + b''.join(simple(frame) if k == 6 else enhanced(frame, time=2000000 * k) for k, frame in enumerate(frames))
    tests.says('an answer without a time', 'check', without, [WAIT.format('2.000', 8, '14.000', 'answered in datagram 9 at 36, 16.000 s')], of_waits)
    print(f'waits: {len(rows) + 6}')


# ---- who is silent

def leaving(topic):
    """the reader's participant leaves: status info in the inline QoS, and its GUID as the key"""
    inline = b'\0\x71\0\4\0\0\0\3' + b'\0\x70\0\x10' + topic.reader + b'\0\0\1\xc1' + b'\0\1\0\0'
    body = b'\0\0\0\x10' + bytes(4) + b'\0\1\0\xc2' + bytes(7) + b'\2' + inline
    return b'RTPS\2\5\0\0' + topic.reader + b'\x15\2' + len(body).to_bytes(2, 'big') + body


LAST_HEARD = 'participant {}.000001c1 was last heard at {} s, and did not leave: 1 pair'
SILENT = "the {}'s participant is silent since datagram {}, {} s, and did not leave: it was killed, or cut off"


def silence(tests):
    topic = pair()
    begun = [*TWO, *topic.announced, topic.sent(1), topic.asks(1, 1), topic.answers(2)]

    def ending(time, *more):
        """the reader is last heard at 2 s, and the writer's participant at a time: with what is between them"""
        datagrams = [*begun, *more, topic.sent(2)]
        return timed(datagrams, [at(90)] * 5 + [at(92)] * (2 + len(more)) + [at(90) + time])

    acknowledged, number = 'acknowledged below 2 in datagram 7 at 36, 2.000 s', 'number 2 told by data in datagram 8 at 20, {} s'
    tests.checks('ten seconds', ending(at(12)))
    tests.checks('a nanosecond more', ending(at(12, 1)), LAST_HEARD.format(READER[:24], '2.000'), acknowledged, number.format('12.000'), SILENT.format('reader', 7, '2.000'), SEE.format('reader', '2.000'))
    tests.tells('ten seconds', ending(at(12)), r'"(?:first|last|left)_time":[^,]*,?|"silent":\w+|"silence":\[.*?\]', '"silence":[]',
                '"first_time":0.000,', '"last_time":12.000,', '"left_time":null,', '"silent":false',
                '"first_time":0.000,', '"last_time":2.000,', '"left_time":null,', '"silent":false')
    tests.tells('a nanosecond more', ending(at(12, 1)), r'"silent":\w+|"silence":\[.*?\]', f'"silence":["{SILENT.format("reader", 7, "2.000")}"]',
                '"silent":false', '"silent":true')
    # A tail is told in a line that rows share, and so is not that of a row whose participant is silent; --tail lets both pass.
    shared = lambda text: re.findall('1 pair lacks only a tail|-> .*', text)
    tests.says('a tail', 'check', ending(at(12)), ['1 pair lacks only a tail', '-> stop publishing some seconds before the recording ends, or allow a tail '
                                                   '(--tail)'], shared)
    tests.says('a tail of a silent reader', 'check', ending(at(12, 1)), [SEE.format('reader', '2.000')], shared)
    tests.says('a tail that may be', 'check', ending(at(12, 1)), [f'clean: 1 of 2 numbers are {CERTAIN}'], lambda text: text.splitlines()[-1:], ('--tail', '1'))
    left = ending(at(30), leaving(topic))
    tests.checks('the reader left', left)
    tests.tells('the reader left', left, r'"until":8,"until_time":[^,]*|"left":8.*', '"until":8,"until_time":2.000',
                '"left":8,"first_time":0.000,"last_time":2.000,"left_time":2.000,"silent":false,"host":null,"process":null,"pid":null,"name":null,"enclave":null,"nodes":[]}],"events":[],"notes":[]}')
    lacking = [*TWO, *topic.announced, topic.sent(1), topic.asks(1, 1), topic.answers(1, 1), topic.resent(1), topic.asks(2, 1), leaving(topic), topic.sent(2)]
    tests.says('the reader left behind a miss', 'check', timed(lacking, [at(90)] * 10 + [at(140)]), [f'reader {READER}, from 1, left in datagram 10, 0.000 s'],
               lambda text: [line for line in of_times(text) if 'left' in line])
    writer = timed(begun + [topic.sent(2), topic.answers(2)], [at(90)] * 7 + [at(91), at(101, 1)])
    tests.checks('the writer', writer, LAST_HEARD.format(WRITER[:24], '1.000'), acknowledged.replace('2.000', '0.000'), number.format('1.000'), SILENT.format('writer', 8, '1.000'),
                 SEE.format('writer', '1.000'))
    both = timed(begun + [topic.sent(2), TWO[0][:8] + b'\3' * 12], [at(90)] * 6 + [at(91), at(92), at(103, 1)])
    tests.says('both', 'check', both, [SEE.format('reader', '1.000')], shared)
    # Nobody is announced as a participant.
    octets = timed(begun[2:] + [topic.sent(2)], [at(90)] * 5 + [at(140)])
    tests.checks('participants that are not announced', octets)
    print('silence: 15')


SEE = "-> the {}'s process ended without leaving, or was cut off: see what it did at {} s"
CERTAIN = 'received for certain, none is known to be lost'


def told_silent(text):
    """whose participants are silent, and since when"""
    return re.findall(r"the (\w+)'s participant is silent since datagram (\d+, [0-9.]+) s", text)


def silence_by_headers(tests):
    """the reader's participant is last heard by an answer, at 2 s; number 2 is sent at 15 s"""
    topic = pair()
    begun = [*TWO, *topic.announced, topic.sent(1), topic.asks(1, 1), topic.answers(2)]

    def heard(*more):
        """more datagrams, at 3 s"""
        return timed([*begun, *more, topic.sent(2)], [at(90)] * 6 + [at(92)] + [at(93)] * len(more) + [at(105)])

    header = topic.answers(2)[:20]
    rows = {
        'nothing more': ((), [('reader', '7, 2.000')]),
        'a header alone': ((header,), [('reader', '8, 3.000')]),
        'a header and what is not read': ((header + b'\x80\0\0\4aaaa',), [('reader', '8, 3.000')]),
        'a header in front of a fault': ((header + b'\6\0\0\4aaaa',), [('reader', '8, 3.000')]),
        'a header that is cut': ((header[:19],), [('reader', '7, 2.000')]),
        'a header of version 1': ((header[:4] + b'\1' + header[5:],), [('reader', '7, 2.000')]),
        'its words in a datagram of the writer': ((topic.sent(1)[:20] + b'\x0c\0\0\x14' + bytes(4) + b'\2\5\0\0' + topic.reader + topic.answers(2)[20:],),
                                                  [('reader', '7, 2.000')]),
    }
    for name, (more, wanted) in rows.items():
        tests.says(name, 'check', heard(*more), wanted, told_silent)
    words = rows['its words in a datagram of the writer'][0]
    tests.tells('its words in a datagram of the writer', heard(*words), r'"last":(\d+)', '9', '7')
    print(f'silence by headers: {len(rows) + 1}')


def lease(seconds, fraction):
    return parameter(2, seconds.to_bytes(4, 'big', signed=True) + fraction.to_bytes(4, 'big'))


def silence_by_leases(tests):
    """the reader's participant has a lease, and is last heard at 2 s; the end of the recording comes later by so many nanoseconds"""
    rows = {
        'three seconds': ([lease(3, 0)], at(3), at(3, 1)), 'half a second more': ([lease(3, 1 << 31)], at(3, 500000000), at(3, 500000001)),
        'a fraction of less than a nanosecond': ([lease(3, 4)], at(3), at(3, 1)), 'a fraction of a nanosecond': ([lease(3, 5)], at(3, 1), at(3, 2)),
        'nothing': ([lease(0, 0)], 0, 1), 'ten seconds': ([lease(10, 0)], at(10), at(10, 1)), 'longer': ([lease(11, 0)], at(10), at(10, 1)),
        'without an end': ([lease(0x7fffffff, 0xffffffff)], at(10), at(10, 1)), 'below 0': ([lease(-1, 0)], at(10), at(10, 1)),
        'cut': ([parameter(2, b'\0\0\0\3')], at(10), at(10, 1)), 'two': ([lease(4, 0), lease(3, 0)], at(4), at(4, 1)),
    }
    for name, (parameters, most, more) in rows.items():
        for since, wanted in ((most, []), (more, [('reader', '7, 2.000')])):
            topic = pair()
            begun = [TWO[0], OTHER.announced(*parameters), *topic.announced, topic.sent(1), topic.asks(1, 1), topic.answers(2), topic.sent(2)]
            tests.says(f'a lease of {name}, {since}', 'check', timed(begun, [at(90)] * 6 + [at(92), at(92) + since]), wanted, told_silent)
    print(f'silence by leases: {2 * len(rows)}')


def silence_to_the_last_frame(tests):
    """the end is the greatest time of any frame: one that gives no datagram, or of an interface whose link is not read"""
    topic = pair()
    begun = [*TWO, *topic.announced, topic.sent(1), topic.asks(1, 1), topic.answers(2), topic.sent(2)]
    frames = [*zip([at(90)] * 6 + [at(92), at(93)], map(packet, begun))]
    silent = [('reader', '7, 2.000'), ('writer', '8, 3.000')]
    for name, octets, wanted in (
            ('a frame behind all', nanoseconds([*frames, (at(103, 1), TCP)]), silent[::-1]),
            ('a frame ten seconds behind the reader', nanoseconds([*frames, (at(102), TCP)]), []),
            ('a frame before all', nanoseconds([(at(103, 1), TCP), *frames]), [('writer', '8, -10.000'), ('reader', '7, -11.000')]),
            ('a link that is not read', section() + interface(options=told(9, 9)) + interface(189, options=told(9, 9)) +
             b''.join(enhanced(frame, time=time) for time, frame in frames) + enhanced(b'usb', 1, time=at(103, 1)), silent[::-1])):
        tests.says(name, 'check', octets, wanted, lambda text: re.findall(
            r"the (\w+)'s participant is silent since datagram (\d+, -?[0-9.]+) s", text))
    print('silence to the last frame: 4')


# ---- what happened to several pairs

def locator(octet):
    return parameter(0x31, (1).to_bytes(4, 'big') + (7411).to_bytes(4, 'big') + bytes(12) + bytes([10, 0, 0, octet]))


def properties(**named):
    texts = [word + bytes(-len(word) % 4) for pair in named.items() for word in (text('__' + pair[0]), text(pair[1]))]
    return parameter(0x59, len(named).to_bytes(4, 'big') + b''.join(texts))


def text(word):
    return (len(word) + 1).to_bytes(4, 'big') + word.encode() + b'\0'


def heads(text):
    """the heads of events"""
    return [line for line in text.splitlines() if line.startswith('from ') or 'was last heard at' in line]


class Robot:
    """a process that sends three topics: two to a process that is killed, and one to a process of another host"""

    def __init__(self, *hosts):
        one, killed, other = self.processes = [Participant(octet) for octet in (1, 2, 3)]
        self.first, self.second = (Topic(name, b'T', one, killed) for name in (b'rt/a', b'rt/b'))
        self.third = Topic(b'rt/c', b'T', one, other)
        self.start = [process.announced(*more) for process, more in zip(self.processes, hosts)]
        self.start += [d for topic in (self.first, self.second, self.third) for d in topic.announced]

    def killed(self, missed=2):
        """the second process is last heard at 2 s. Number 2 of the first topic is asked about from 4 s on, and dropped; number 1 of the second topic
        is asked about from 3.5 s on. The third process lacks some numbers of the third topic, and is there until the end"""
        first, second, third = self.first, self.second, self.third
        said = [(0.1, first.sent(1)), (0.2, third.sent(1)), (0.3, second.sent(1)), (1, first.asks(1, 1)), (2, first.answers(2)), (3, first.sent(2)),
                (3.2, third.sent(2)), (3.5, second.asks(1, 1)), (4, first.asks(1, 2)), (5, first.asks(1, 2)), (5.5, third.asks(1, 2)),
                (6, third.answers(1, *[1, 2][:missed])), (7, first.asks(3, 2)), (20, third.asks(1, 2)), (20.5, third.answers(1, *[1, 2][:missed]))]
        return [at(50)] * len(self.start) + [at(50) + round(time * 1000) * MILLISECOND for time, _ in said], self.start + [d for _, d in said]


NAMED = [[properties(Hostname='robot1', ProcessName='driver', Pid='4711'), locator(1)], [properties(Pid='12', Hostname='robot2')], [locator(3)]]
ASKED = ' was last heard at 2.000 s, was asked from 3.500 s on, and did not leave: 2 pairs, 1 number'


def events(tests):
    times, datagrams = Robot(*NAMED).killed()
    octets = timed(datagrams, times)
    between = 'from process 4711 on robot1 to 10.0.0.3, first sent between 0.200 s and 3.200 s: 1 pair, 2 numbers'
    silent = 'process 12 on robot2' + ASKED
    tests.says('the worst first', 'check', octets, [between, silent], heads)
    blocks = [between, '/c T', silent, '/a T', '/b T']
    tests.says('rows under their event', 'check', octets, blocks, lambda text: [part.split('\n')[0] for part in text.split('\n\n')[2:-1]])
    ends = ['  writer driver (pid 4711 on robot1, 10.0.0.1) 010f01010101010101010101.00000303', '  reader 010f03030303030303030303.00000104 at 10.0.0.3, from 1',
            '  writer driver (pid 4711 on robot1, 10.0.0.1) 010f01010101010101010101.00000103', '  reader (pid 12 on robot2) 010f02020202020202020202.00000104, from 1']
    tests.says('ends', 'check', octets, ends, lambda text: re.findall('^  (?:writer|reader) .*', text, re.M)[:4])
    values = ('"events":[{"event":"between","participants":["010f01010101010101010101.000001c1","010f03030303030303030303.000001c1"],"pairs":[2],"numbers":2,'
              '"first":{"datagram":11,"at":20,"time":0.200},"last":{"datagram":16,"at":20,"time":3.200},"asked":null,"text":"%s"},'
              '{"event":"silent","participants":["010f02020202020202020202.000001c1"],"pairs":[0,1],"numbers":1,"first":{"datagram":15,"at":20,"time":3.000},'
              '"last":{"datagram":15,"at":20,"time":3.000},"asked":{"datagram":17,"at":20,"time":3.500},"text":"%s"}]') % (between, silent)
    tests.tells('the worst first', octets, r'"events":.*\]', values + ',"notes":[]')
    tests.says('the worst first', 'why', octets, [], heads)
    # As many numbers: the first row decides.
    times, datagrams = Robot(*NAMED).killed(missed=1)
    tests.says('as many numbers', 'check', timed(datagrams, times), [silent, 'from process 4711 on robot1 to 10.0.0.3, first sent at 0.200 s: 1 pair, 1 number'], heads)
    # By what is known of the two.
    hosts = {
        'an address': ([locator(2)], '10.0.0.2'), 'a process and an address': ([properties(Pid='7'), locator(2)], 'process 7 at 10.0.0.2'),
        'a process': ([properties(Pid='7')], 'process 7'), 'a host alone': ([properties(Hostname='robot2')], 'participant 010f02020202020202020202.000001c1'),
        'a host and an address': ([properties(Hostname='robot2'), locator(2)], '10.0.0.2'),
        'a process of both stacks': ([properties(Pid='7', Hostname='a"b'), locator(2)], 'process 7 on a\\x22b'),
    }
    for name, (parameters, wanted) in hosts.items():
        times, datagrams = Robot(NAMED[0], parameters, NAMED[2]).killed()
        tests.says(name, 'check', timed(datagrams, times), [between, wanted + ASKED], heads)
    # Where a sending or a question has no time, nothing is said of when it was.
    times, datagrams = Robot(*NAMED).killed()
    no_time = lambda at: section() + interface(options=told(9, 9)) + b''.join(
        simple(packet(d)) if k == at else enhanced(packet(d), time=time) for k, (time, d) in enumerate(zip(times, datagrams), 1))
    tests.says('a sending without a time', 'check', no_time(16), ['from process 4711 on robot1 to 10.0.0.3: 1 pair, 2 numbers', silent], heads)
    tests.says('a question without a time', 'check', no_time(17), [between, silent.replace(', was asked from 3.500 s on', '')], heads)
    # In a text nobody is silent.
    tests.says('a text', 'check', text_of(datagrams), ['from process 4711 on robot1 to 10.0.0.3: 1 pair, 2 numbers',
                                                       'from process 4711 on robot1 to process 12 on robot2: 2 pairs, 1 number'], heads)
    print(f'what happened: {len(hosts) + 9}')


SILENT_READER = 'participant 010f02020202020202020202.000001c1'


def silent_events(tests):
    """the reader is last heard at 2 s; the writer sends number 2 at 3 s, asks for an answer at 4 s and 5 s, and sends number 3 at 20 s"""
    topic = pair()
    begun = [*topic.announced, topic.sent(1), topic.asks(1, 1)]
    asks, final = topic.asks(1, 2), topic.asks(1, 2)[:21] + b'\2' + topic.asks(1, 2)[22:]
    nothing = topic.answers(1)[:20]

    def ending(*asked):
        last = [topic.sent(2), *asked, topic.sent(3)]
        datagrams = [ONE.announced(), OTHER.announced(), *begun, topic.answers(2), *last]
        return timed(datagrams, [at(50)] * 6 + [at(52), at(53), *(at(54 + k) for k in range(len(asked))), at(70)])

    end = ', and did not leave: 1 pair'
    rows = {
        'asked': (ending(asks, asks), f'{SILENT_READER} was last heard at 2.000 s, was asked from 4.000 s on{end}'),
        'asked with the final flag first': (ending(final, asks), f'{SILENT_READER} was last heard at 2.000 s, was asked from 5.000 s on{end}'),
        'asked with the final flag alone': (ending(final), f'{SILENT_READER} was last heard at 2.000 s{end}'),
        'asked before its last answer alone': (ending(), f'{SILENT_READER} was last heard at 2.000 s{end}'),
        'heard behind its last answer': (ending(asks, nothing), f'{SILENT_READER} was last heard at 5.000 s, was asked from 4.000 s on{end}'),
    }
    for name, (octets, wanted) in rows.items():
        tests.says(name, 'check', octets, [wanted], heads)
        tests.tells(name, octets, r'"event":.*?"text":"(.*?)"', wanted)
    tests.tells('asked', rows['asked'][0], r'"event":.*?"text"',
                '"event":"silent","participants":["010f02020202020202020202.000001c1"],"pairs":[0],"numbers":0,"first":null,"last":null,'
                '"asked":{"datagram":9,"at":20,"time":4.000},"text"')
    print(f'silent events: {2 * len(rows) + 1}')


def events_of_pairs(tests):
    """two readers of one participant, and one of another one, each lack numbers of one writer; one of the former is silent in some recordings"""
    one, two, other = Participant(1), Participant(2), Participant(3)
    odom, scan = Topic(b'rt/odom', b'Odom', one, two), Topic(b'rt/scan', b'Scan', one, two)
    third = Topic(b'rt/map', b'Map', one, other)
    known = [p.announced(locator(p.prefix[2])) for p in (one, two, other)]
    topics = odom, scan, third
    begun = [*known, *(d for topic in topics for d in topic.announced)]
    sent = [topic.sent(n) for n in range(1, 5) for topic in topics]

    def ending(*answers, more=()):
        """a datagram each 100 ms: what is announced, numbers 1 to 4 of each topic, and answers"""
        datagrams = [*begun, *sent, *answers]
        return timed([*datagrams, *more], [at(50) + 100 * MILLISECOND * k for k in range(len(datagrams))] + [at(80)] * len(more))

    # Of number n of topic k the datagram is the (9 + 3 * (n - 1) + k + 1)th, at 0.1 * (9 + 3 * (n - 1) + k) s.
    few = odom.answers(4, 4), scan.answers(3, 3, 4), third.answers(3, 3)
    many = odom.answers(4, 4), scan.answers(4, 4), third.answers(2, 2, 3, 4)
    both = odom.answers(4, 4), scan.answers(5), third.answers(4, 4)
    rows = {
        'more of the first': (ending(*few), ['from 10.0.0.1 to 10.0.0.2, first sent between 1.600 s and 1.900 s: 2 pairs, 3 numbers',
                                             'from 10.0.0.1 to 10.0.0.3, first sent at 1.700 s: 1 pair, 1 number']),
        'more of the second': (ending(*many), ['from 10.0.0.1 to 10.0.0.3, first sent between 1.400 s and 2.000 s: 1 pair, 3 numbers',
                                               'from 10.0.0.1 to 10.0.0.2, first sent between 1.800 s and 1.900 s: 2 pairs, 2 numbers']),
        'as many': (ending(*both), ['from 10.0.0.1 to 10.0.0.2, first sent at 1.800 s: 1 pair, 1 number',
                                    'from 10.0.0.1 to 10.0.0.3, first sent at 2.000 s: 1 pair, 1 number']),
        'the first is silent': (ending(*few, more=[third.sent(5), third.answers(4)[:20]]),
                                ['10.0.0.2 was last heard at 2.200 s, and did not leave: 2 pairs, 3 numbers',
                                 'from 10.0.0.1 to 10.0.0.3, first sent at 1.700 s: 1 pair, 1 number']),
        'the writer is silent': (ending(*few, more=[odom.answers(1)[:20], third.answers(1)[:20]]),
                                 ['10.0.0.1 was last heard at 2.000 s, and did not leave: 3 pairs, 4 numbers']),
        'the writer is silent, and the second reader': (ending(*few, more=[odom.answers(1)[:20]]),
                                                        ['10.0.0.1 was last heard at 2.000 s, and did not leave: 2 pairs, 3 numbers',
                                                         '10.0.0.3 was last heard at 2.300 s, and did not leave: 1 pair, 1 number']),
    }
    for name, (octets, wanted) in rows.items():
        tests.says(name, 'check', octets, wanted, heads)
        tests.tells(name, octets, r'"text":"(.*?)"', *wanted)
    tests.tells('more of the second', rows['more of the second'][0], r'"event":.*?"text"',
                '"event":"between","participants":["010f01010101010101010101.000001c1","010f03030303030303030303.000001c1"],"pairs":[2],"numbers":3,'
                '"first":{"datagram":15,"at":20,"time":1.400},"last":{"datagram":21,"at":20,"time":2.000},"asked":null,"text"',
                '"event":"between","participants":["010f01010101010101010101.000001c1","010f02020202020202020202.000001c1"],"pairs":[0,1],"numbers":2,'
                '"first":{"datagram":19,"at":20,"time":1.800},"last":{"datagram":20,"at":20,"time":1.900},"asked":null,"text"')
    print(f'events of pairs: {2 * len(rows) + 1}')


# ---- outages: what is told gone soon was none

def outages(tests):
    """number 1 is asked about twice, and told gone so many nanoseconds behind the first question; then number 2 is acknowledged"""
    topic = pair()

    def dropped(*times):
        datagrams = [*TWO, *topic.announced, topic.sent(1), topic.asks(1, 1), topic.asks(1, 1), topic.sent(2), topic.asks(2, 2), topic.answers(3)]
        return timed(datagrams, [at(50)] * 5 + [at(50) + time for time in times])

    def counted(text):
        return re.findall(r'"unanswered":(\d),"likely":(\d)', text)

    soon, late = [('0', '1')], [('1', '0')]
    rows = {
        'a nanosecond less': ((0, 0, 0, 99999999, at(1)), soon), '100 ms': ((0, 0, 0, 100000000, at(1)), late),
        'counted from the first question': ((0, 90000000, 95000000, 100000000, at(1)), late),
        'of the second question alone': ((5000000, 5000000, 5000000, 100000000, at(1)), soon),
        'by times that go back': ((at(2), at(2), at(2), at(1), at(3)), soon), 'at one time': ((0, 0, 0, 0, at(1)), soon),
    }
    for name, (times, wanted) in rows.items():
        tests.says(name, 'check', dropped(*times), wanted, counted, ('--json',))
    ends = {'a nanosecond less': ['clean: 1 of 2 numbers are ' + CERTAIN], '100 ms': ['not clean: 1 number was unanswered in 1 pair']}
    for name, wanted in ends.items():
        for view, words in (('check', ()), ('why', ())):
            tests.says(name, view, dropped(*rows[name][0]), wanted, lambda text: text.splitlines()[-1:], words)
    # A datagram without a time is no reason to say that it was soon.
    datagrams = [*TWO, *topic.announced, topic.sent(1), topic.asks(1, 1), topic.asks(1, 1), topic.sent(2), topic.asks(2, 2), topic.answers(3)]
    for name, place in (('the first question without a time', 5), ('what tells it gone without a time', 8)):
        octets = section() + interface() + b''.join(simple(packet(d)) if k == place else enhanced(packet(d), time=k) for k, d in enumerate(datagrams))
        tests.says(name, 'check', octets, late, counted, ('--json',))
    tests.says('a text', 'check', text_of(datagrams), late, counted, ('--json',))
    print(f'outages: {len(rows) + 7}')


# ---- who is asked only at the end

def asked_at_the_end(tests):
    """the reader lacks number 1, or acknowledged nothing, and the writer asks again: so many nanoseconds before the end"""
    topic = pair()
    begun = [*TWO, *topic.announced, topic.sent(1)]
    ask, final = topic.asks(1, 1), topic.asks(1, 1)[:21] + b'\2' + topic.asks(1, 1)[22:]
    longer, asked = ['-> record longer'], ['-> the reader was asked and acknowledged nothing: see that it runs, and record both directions']
    not_asked = ['-> the reader may have all: stop publishing, wait some seconds, and only then end the recording']

    def ending(*more):
        return nanoseconds([(at(50), packet(d)) for d in known(begun)] + [(at(50) + time, packet(d) if d else TCP) for time, d in more])

    nothing = topic.answers(1)
    rows = {
        'a second': ([(0, nothing), (at(1), ask), (at(2), topic.sent(2))], longer),
        'a nanosecond more': ([(0, nothing), (at(1), ask), (at(2, 1), topic.sent(2))], asked),
        'the last datagram': ([(0, nothing), (at(9), ask)], longer),
        'a frame behind it': ([(0, nothing), (at(1), ask), (at(2, 1), None)], asked),
        'asked before, and answered': ([(0, ask), (at(1), nothing), (at(5), ask), (at(6), topic.sent(2))], longer),
        'asked twice': ([(0, nothing), (at(1), ask), (at(2, 5), ask), (at(3), topic.sent(2))], asked),
        'asked with the final flag before': ([(0, nothing), (at(1), final), (at(2, 5), ask), (at(3), topic.sent(2))], longer),
        'not asked': ([(0, nothing), (at(9), topic.sent(2))], not_asked),
    }
    for name, (more, wanted) in rows.items():
        tests.says(name, 'check', ending(*more), wanted, lambda text: re.findall('-> .*', text)[:1])
    tests.tells('a second', ending(*rows['a second'][0]), r'"advice":"record longer"', '"advice":"record longer"')
    # Who is silent is told first, and nothing else; and a tail is told as one, also where it is asked about at the end.
    silent = ending((0, nothing), (at(12), ask), (at(12), topic.sent(2)))
    tests.says('a silent reader', 'check', silent, [SEE.format('reader', '0.000')], lambda text: re.findall('-> .*', text))
    tail = ending((0, topic.answers(2)), (at(1), topic.sent(2)), (at(1), topic.asks(1, 2)))
    tests.says('a tail', 'check', tail, ['-> stop publishing some seconds before the recording ends, or allow a tail (--tail)'],
               lambda text: re.findall('-> .*', text))
    print(f'asked at the end: {len(rows) + 3}')


# ---- one recording given twice

def given_twice(tests):
    """by a second file with the same datagrams at the same times"""
    topic = pair()
    said = [d for n in range(1, 9) for d in (topic.sent(n), topic.asks(1, n), topic.answers(n + 1))]
    datagrams = [*TWO, *topic.announced, *said]
    times = [at(50) + MILLISECOND * k for k in range(len(datagrams))]
    octets, later = timed(datagrams, times), timed(datagrams, [*times[:-1], times[-1] + 1])
    blocks_of = section() + interface(options=told(9, 9)) + b''.join(enhanced(packet(d), time=time) for time, d in zip(times, known(datagrams)))
    half = section() + interface() + b''.join(map(simple, map(packet, datagrams)))
    twice, apart = ['not clean: one recording was given twice'], ['nothing tells the two recordings apart: nothing was lost, or both were made at one place', 'clean']
    rows = {'the same file': (octets, octets, twice), 'a file of another form': (octets, blocks_of, twice), 'a nanosecond later': (octets, later, apart),
            'without times': (half, half, apart), 'one without times': (octets, half, apart), 'with a frame more': (octets, octets + record(TCP), twice)}
    for name, (one, other, wanted) in rows.items():
        with tempfile.NamedTemporaryFile() as file:
            file.write(other)
            file.flush()
            tests.says(name, 'check', one, wanted, lambda text: text[:-1].split('\n\n')[2:], ('--arrived', file.name))
    print(f'one recording given twice: {len(rows)}')


def main():
    if len(sys.argv) > 2:
        raise SystemExit(__doc__)
    tests = Timed(sys.argv[1] if len(sys.argv) == 2 else None)
    for group in (units, places, frames, page_data, going_back, waiting, silence, silence_by_headers, silence_by_leases, silence_to_the_last_frame, events, silent_events,
                  events_of_pairs, outages, asked_at_the_end, given_twice):
        group(tests)
    return tests.told()


if __name__ == '__main__':
    sys.exit(main())
