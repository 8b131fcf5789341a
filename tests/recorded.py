#!/usr/bin/env python3
"""Recordings for the tests of the page, each as its datagrams; and rows of which no recording is made, since they are too many.

    recorded.py robot > robot.rec       writes one of these recordings
"""
import os
import sys

sys.path.insert(0, os.path.join(os.path.dirname(os.path.dirname(os.path.realpath(__file__))), 'bench'))
import make
from make import ack_nack, data, data_frag, gap, header, heartbeat, to
from sentences import advice as said

RELIABLE, BEST_EFFORT = 2, 1
VOLATILE, TRANSIENT_LOCAL = 0, 1
WRITERS, READERS = b'\0\0\3\xc2', b'\0\0\4\xc2'


def parameter(pid, value):
    value += bytes(-len(value) % 4)
    return pid.to_bytes(2, 'big') + len(value).to_bytes(2, 'big') + value


def text(name):
    return (len(name) + 1).to_bytes(4, 'big') + name + b'\0'


def announced(built_in, prefix, *parameters):
    value = b'\0\2\0\0' + b''.join(parameters) + b'\0\1\0\0'
    return header(prefix) + data(built_in, 1, value)


class Participant:
    """a process, whose endpoints have entity ids in order"""
    def __init__(self, octet):
        self.prefix, self.count = bytes([1, 0x0f, octet]) + bytes([octet]) * 9, 0

    def announced(self, *parameters):
        return announced(b'\0\1\0\xc2', self.prefix, parameter(0x50, self.prefix + b'\0\0\1\xc1'), *parameters)

    def endpoint(self, built_in, topic, kind, reliability=RELIABLE, durability=VOLATILE):
        """its announcement, and its entity id"""
        self.count += 1
        entity = self.count.to_bytes(3, 'big') + (b'\3' if built_in == WRITERS else b'\4')
        return announced(built_in, self.prefix, parameter(0x5a, self.prefix + entity), parameter(5, text(topic)), parameter(7, text(kind)),
                         parameter(0x1a, reliability.to_bytes(4, 'big') + bytes(8)), parameter(0x1d, durability.to_bytes(4, 'big'))), entity


class Topic:
    """a writer and a reader of one topic, and what they send"""
    def __init__(self, name, kind, writer, reader):
        self.writer, self.reader = writer.prefix, reader.prefix
        first, self.sender = writer.endpoint(WRITERS, name, kind)
        second, self.receiver = reader.endpoint(READERS, name, kind)
        self.announced = [first, second]

    def sent(self, number):
        return header(self.writer) + data(self.sender, number, b'\0\1\0\0' + number.to_bytes(8, 'big') * 2)

    def resent(self, number):
        return header(self.writer) + to(self.reader) + data(self.sender, number, b'\0\1\0\0' + number.to_bytes(8, 'big') * 2, self.receiver)

    def asks(self, first, last):
        return header(self.writer) + heartbeat(self.sender, first, last)

    def part(self, number, *fragments, reader=bytes(4)):
        """fragments of a sample of 24 octets, of 8 octets each, which follow each other"""
        sample = b'\0\1\0\0' + number.to_bytes(4, 'big') * 5
        octets = b''.join(sample[8 * (k - 1):8 * k] for k in fragments)
        return header(self.writer) + (to(self.reader) if any(reader) else b'') + data_frag(self.sender, number, fragments[0], octets, 8, 24, reader)

    def gap(self, start, base):
        return header(self.writer) + to(self.reader) + gap(self.sender, start, base, [], 0, self.receiver)

    def answers(self, base, *lacked):
        if not lacked:
            return header(self.reader) + to(self.writer) + ack_nack(self.receiver, self.sender, base)
        bits = sum(1 << 31 - (number - base) for number in lacked)
        body = self.receiver + self.sender + base.to_bytes(8, 'big') + (8).to_bytes(4, 'big') + bits.to_bytes(4, 'big') + b'\0\0\0\1'
        return header(self.reader) + to(self.writer) + b'\6\0' + len(body).to_bytes(2, 'big') + body


def parameters_of(participant, node):
    """the reader by which a node answers what is asked of its parameters"""
    return participant.endpoint(READERS, b'rq/' + node + b'/get_parametersRequest', b'rcl_interfaces::srv::dds_::GetParameters_Request_')[0]


def odometry(topic):
    """60 samples with a history of 10: the reader lacks 19, and is told that it is gone before it is sent again"""
    for number in range(1, 61):
        yield topic.sent(number)
        if number % 5 == 0:
            yield topic.asks(max(1, number - 9), number)
            yield topic.answers(19, 19) if number in (20, 25) else topic.answers(number + 1)


def scans(topic):
    """40 samples, of which the reader acknowledges 23, and then answers no more"""
    for number in range(1, 41):
        yield topic.sent(number)
        if number % 4 == 0:
            yield topic.asks(1, number)
        if number in (4, 8, 12, 16):
            yield topic.answers(number + 1)
        if number == 20:
            yield topic.answers(18, 18)
            yield topic.resent(18)
        if number == 24:
            yield topic.answers(24)


def transforms(topic):
    """30 samples, of which 12 is not in the recording"""
    for number in range(1, 31):
        if number != 12:
            yield topic.sent(number)
        if number % 10 == 0:
            yield topic.asks(1, number)
            yield topic.answers(number + 1)


def commands(topic):
    for number in range(1, 21):
        yield topic.sent(number)
        yield topic.asks(1, number)
        yield topic.answers(number + 1)


def in_turns(*parts):
    """what some send, one of each in turn"""
    parts = [list(part) for part in parts]
    most = max(map(len, parts))
    placed = sorted((at * most / len(part), k, sent) for k, part in enumerate(parts) for at, sent in enumerate(part))
    return [sent for _, _, sent in placed]


def robot():
    """four topics between three nodes: one has a sample that was missed, one a reader that answers no more, one a sample that is
    not in the recording, and one is well. A fifth has a reader that asks for more than its writer offers"""
    driver, localizer, viewer = (Participant(octet) for octet in (0x0a, 0x1b, 0x2c))
    odom = Topic(b'rt/odom', b'nav_msgs::msg::dds_::Odometry_', driver, localizer)
    scan = Topic(b'rt/scan', b'sensor_msgs::msg::dds_::LaserScan_', driver, localizer)
    tf = Topic(b'rt/tf', b'tf2_msgs::msg::dds_::TFMessage_', localizer, viewer)
    cmd = Topic(b'rt/cmd_vel', b'geometry_msgs::msg::dds_::Twist_', viewer, driver)
    start = [participant.announced() for participant in (driver, localizer, viewer)]
    start += [sent for topic in (odom, scan, tf, cmd) for sent in topic.announced]
    start += [parameters_of(driver, b'base_driver'), parameters_of(localizer, b'amcl'), parameters_of(viewer, b'teleop')]
    start += [localizer.endpoint(WRITERS, b'rt/map', b'nav_msgs::msg::dds_::OccupancyGrid_')[0],
              viewer.endpoint(READERS, b'rt/map', b'nav_msgs::msg::dds_::OccupancyGrid_', durability=TRANSIENT_LOCAL)[0]]
    return start + in_turns(odometry(odom), scans(scan), transforms(tf), commands(cmd))


# Names that would be markup, code or an end of what they stand in, if they were not text; and one of all octets.
NAMES = [
    b'</script><img src=x onerror=alert(1)>', b'<!--<script>', b'--></pre></noscript><script>alert(2)</script>', b'&lt;b&gt;&#0;',
    b'"},{"topic":"x","number":12345678901234567', b'__proto__', b'constructor', b'\xe2\x80\xae\xe2\x80\xa8 line', b"javascript:alert('3')",
    b'rt/<b>bold</b>', b'rq/</style>Request', b'\\u003c\\x3c\\', b'x' * 300, b'', bytes(range(1, 256)), b'a b\tc\nd',
]


def hostile():
    """a pair for each hostile name, as a topic and as a type"""
    one, other = Participant(0x0a), Participant(0x1b)
    found = []
    for at, name in enumerate(NAMES):
        topic = Topic(name, NAMES[-1 - at], one, other)
        found += [*topic.announced, topic.sent(1), topic.asks(1, 1), *([topic.answers(2)] if at % 2 else [])]
    return found


def greatest():
    """numbers that JavaScript cannot hold: a pair whose numbers end with the greatest that there is"""
    topic = Topic(b'rt/far', b'A', Participant(0x0a), Participant(0x1b))
    last = 2 ** 63 - 1
    large = 2 ** 53 + 1
    return [*topic.announced, topic.sent(large), topic.asks(large - 1, last - 1), topic.sent(last - 1), topic.answers(large)]


def chatty():
    """three topics, of one of which more is said than a page has room for"""
    one, other = Participant(0x0a), Participant(0x1b)
    few, many, later = (Topic(name, b'Sample', one, other) for name in (b'few', b'many', b'later'))
    heard = header(many.writer) + gap(many.sender, 5, 5, [0xffffffff] * 8) * 100
    sent = [few.sent(1), *[heard] * 8, many.sent(9), few.answers(2), later.sent(1), later.sent(2)]
    return [*few.announced, *many.announced, *later.announced, *sent]


def pieces():
    """samples in fragments. The reader gets 1 as it is sent, of 2 a fragment again before it is complete, of 3 one again behind that, and 4 whole
    again; 5 lacks a fragment, 6 is complete by two fragments in one submessage, of which one came before, and 7 is no sample in fragments"""
    topic = Topic(b'rt/image', b'sensor_msgs::msg::dds_::Image_', Participant(0x0a), Participant(0x1b))
    part, reader = topic.part, topic.receiver
    sent = [part(1, 1), part(1, 2), part(1, 3), part(2, 1), part(2, 1), part(2, 2, 3), part(3, 1), part(3, 2), part(3, 3), part(3, 2, reader=reader)]
    sent += [part(4, 1, 2, 3), part(4, 1, 2, 3), part(5, 1), part(5, 3), part(6, 1, 2), part(6, 2, 3), topic.sent(7), topic.asks(1, 7)]
    return [*topic.announced, *sent, topic.answers(5, 5), topic.answers(5, 5, 6), topic.resent(7), topic.asks(1, 7)]


def crowded():
    """two topics, each with more than half of what a page has room for: of the first one all is well, of the second one the reader acknowledged all,
    and a number that it asked for never came"""
    one, other = Participant(0x0a), Participant(0x1b)
    well, lost = (Topic(name, b'Sample', one, other) for name in (b'a_well', b'b_lost'))

    def gone(topic):
        return header(topic.writer) + to(topic.reader) + gap(topic.sender, 1, 1, [0xffffffff] * 8, 256, topic.receiver) * 100

    sent = [topic.sent(number) for topic in (well, lost) for number in range(1, 257)]
    sent += [well.asks(1, 256), well.answers(257), lost.answers(1, 1), lost.asks(2, 256), lost.answers(257)]
    return [*well.announced, *lost.announced, *sent, *(gone(topic) for topic in (well, lost) for _ in range(6))]


def lost_on_the_way():
    """a recording and another one, made at the host of its readers. Of 1,500 numbers five are in the first one, and 2 more arrived. By best
    effort one of three that JavaScript cannot hold did, and none of another topic"""
    one, other = Participant(0x0a), Participant(0x1b)
    odom = Topic(b'rt/odom', b'A', one, other)
    (imu_told, imu), (gps_told, gps) = (one.endpoint(WRITERS, topic, b'B', BEST_EFFORT) for topic in (b'rt/imu', b'rt/gps'))
    imu_heard, gps_heard = (other.endpoint(READERS, topic, b'B', BEST_EFFORT)[0] for topic in (b'rt/imu', b'rt/gps'))
    by_best_effort = [header(one.prefix) + data(imu, 2 ** 53 + k, b'\0\1\0\0') for k in range(4)]
    here = [one.announced(), other.announced(), *odom.announced, imu_told, gps_told, by_best_effort[0], imu_heard, gps_heard, *by_best_effort[1:]]
    here += [header(one.prefix) + data(gps, 1, b'\0\1\0\0'), *map(odom.sent, (1, 2, 3, 7, 1500)), odom.asks(1, 1500), odom.answers(3)]
    return here, [odom.answers(1), odom.sent(1), odom.sent(7), odom.sent(1500), by_best_effort[2]]


def lost_of_many():
    """another two, of numbers that JavaScript cannot hold: none arrived"""
    far = Topic(b'rt/far', b'A', Participant(0x0a), Participant(0x1b))
    return greatest(), [far.answers(1)]


def unmatched():
    """writers and readers of which no two are a pair"""
    one, other = Participant(0x0a), Participant(0x1b)
    ends = [
        (b'rt/scan', b'A', BEST_EFFORT, VOLATILE, RELIABLE, VOLATILE), (b'rt/map', b'B', RELIABLE, VOLATILE, RELIABLE, TRANSIENT_LOCAL),
        (b'rt/both', b'C', BEST_EFFORT, VOLATILE, RELIABLE, TRANSIENT_LOCAL), (b'rt/images', b'D', BEST_EFFORT, VOLATILE, BEST_EFFORT, VOLATILE),
    ]
    found = [one.announced(), other.announced()]
    for topic, kind, *qos in ends:
        found += [one.endpoint(WRITERS, topic, kind, *qos[:2])[0], other.endpoint(READERS, topic, kind, *qos[2:])[0]]
    typed = one.endpoint(WRITERS, b'rt/typed', b'E')[0], other.endpoint(READERS, b'rt/typed', b'F')[0]
    return [*found, *typed, one.endpoint(WRITERS, b'rt/alone', b'G')[0]]


# ---- many rows

def many(side, names, verdict_of):
    """the data of a page of as many writers as readers of each topic, and of all their rows. Each writer says 20 things"""
    endpoints, pairs, writers, answers = [], [], [], []
    for k, (topic, kind) in enumerate(names):
        prefixes = [f'{0x10f0a0a0a << 56 | k << 32 | i:024x}.{0x100 + i:06x}' for i in range(side)]
        ends = {'writer': [f'{prefix}03' for prefix in prefixes], 'reader': [f'{prefix}04' for prefix in prefixes]}
        qos = {'topic': topic, 'type': kind, 'reliability': 'reliable', 'durability': 'volatile'}
        endpoints += [{'guid': guid, 'side': what, **qos} for what in ends for guid in ends[what]]
        acts = [[i + 1, 20, 'data', i + 1] for i in range(18)] + [[19, 20, 'announced', 18]]
        writers += [{'guid': guid, 'acts': acts} for guid in ends['writer']]
        for writer in ends['writer']:
            for reader in ends['reader']:
                pairs.append({'writer': writer, 'reader': reader, 'topic': topic, 'type': kind} | verdict_of(len(pairs)))
                answers.append({'writer': writer, 'reader': reader, 'bases': [[20, 36, pairs[-1]['acknowledged']['below'], []]]})
    endpoints.sort(key=lambda endpoint: endpoint['guid'])
    incomplete = sum(row['verdict'] != 'complete' for row in pairs)
    return {
        'status': 'unclean', 'because': [f'{incomplete:,} pairs are not complete'], 'pairs': pairs,
        'datagrams': 20, 'refused': 0, 'skipped': 0, 'fragments': 0, 'undirected': 0, 'unsettled': 0,
        'unmatched': [], 'talking': [], 'unobserved': [], 'one_way': [], 'best_effort': [], 'participants': [], 'notes': [],
        'options': {'from': 1, 'topics': [], 'expect': None, 'tail': 0, 'certain': False},
        'endpoints': endpoints, 'writers': writers, 'answers': answers,
    }


def text_of(row):
    """a text as long as that of `check` on a row that is not clean"""
    judged = f"  {row['writer']} {row['reader']} {row['verdict']} {row['number']}, received {row['received']} of 18\n"
    lines = ['acknowledged below 12 in datagram 20 at 36', 'number 12 told by data in datagram 12 at 20', 'not asked since its last answer']
    return '' if row['advice'] is None else judged + ''.join(f'    {line}\n' for line in [*lines, f"-> {row['advice']}"])


def some_verdict(at):
    """an open row, and now and then one of another kind"""
    place = {'datagram': 18, 'at': 20}
    common = {
        'announced': {'number': 18, 'by': 'data', **place}, 'acknowledged': {'below': 12, 'datagram': 20, 'at': 36},
        'payloads': 18, 'gone': 0, 'untold': 0, 'received': 11, 'not_received': {'number': 12, 'gone': None, 'acknowledged': None}, 'missed': 0,
    }
    if at % 3 == 2:
        claim = {'below': 19, 'datagram': 20, 'at': 36}
        return {'verdict': 'complete', 'number': 18} | common | {'acknowledged': claim, 'received': 18, 'not_received': None} | spanned(18, True, None)
    told = {'by': 'data', 'datagram': 12, 'at': 20}
    if at % 1000 == 1:
        claim = {'below': 13, 'datagram': 11, 'at': 36}
        late = {'claimed': claim, 'told': told} | spanned(11, False, said.LATE)
        return {'verdict': 'unfounded', 'number': 12, 'datagram': 11} | common | late
    return {'verdict': 'open', 'number': 12} | common | {'told': told, 'asked_since': 0, 'last_asked': None} | spanned(11, False, said.NOT_ASKED)


def spanned(received, is_clean, advice):
    """the members of a row of 18 numbers that tell its span, what became of them, and what to do"""
    outcomes = {'received': received, 'missed': 0, 'unsent': 0, 'unanswered': 0, 'likely': 0, 'unconfirmed': 18 - received}
    return {'from': 1, 'until': None, 'outcomes': outcomes, 'clean': is_clean, 'numbers': {}, 'advice': advice}


RECORDINGS = {'robot': robot, 'hostile': hostile, 'greatest': greatest, 'chatty': chatty, 'unmatched': unmatched}

if __name__ == '__main__':
    for datagram in RECORDINGS[sys.argv[1]]():
        print(datagram.hex())
