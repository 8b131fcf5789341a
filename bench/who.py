#!/usr/bin/env python3
"""By which names people know who writes and who reads, for the second implementation: hosts, processes and nodes of ROS 2.

    who.py tell FILE                        what a recording or a capture tells of participants and endpoints
    who.py compare TRIALS COUNT SEED        compares with the built program of crates/rtps_trials on random participants and samples
    who.py samples TRIALS COUNT SEED        the same on single samples with any octets

Participants: of the first announcement without a fault the property list, the entity name and the user data. Nodes: the last sample of
`ros_discovery_info` that can be read, of a writer of the participant's prefix; or else the topics of parameter services. An endpoint is of the
node that listed it last. In a report samples are taken writer by writer, of writers whose announcements agree. Texts are octets.
"""
import os
import random
import subprocess
import sys

sys.dont_write_bytecode = True
from fragments import payloads_told
from policies import fields_of
from reference import BUILTIN, acts_of, announcement, input_of, number, text_of

TOPIC, TYPE = b'ros_discovery_info', b'rmw_dds_common::msg::dds_::ParticipantEntitiesInfo_'
PARTICIPANT = b'\0\0\1\xc1'

# ---- a participant


class Cut(Exception):
    """the octets end before what is read of them"""


class Octets:
    """octets that are read from the front; numbers and texts begin at multiples of four"""

    def __init__(self, octets, order):
        self.octets, self.order, self.at = octets, order, 0

    def left(self):
        return len(self.octets) - self.at

    def take(self, count):
        if self.left() < count:
            raise Cut
        self.at += count
        return self.octets[self.at - count:self.at]

    def align(self):
        self.at = min((self.at + 3) // 4 * 4, len(self.octets))

    def number(self):
        self.align()
        return number(self.take(4), self.order)

    def text(self):
        """a length with the NUL, and the octets; 0 is the empty text"""
        self.align()
        octets = self.take(number(self.take(4), self.order))
        if octets and octets[-1] != 0:
            raise Cut
        return octets[:-1]


def properties_of(value, order):
    """the properties of a list; none where it cannot be read"""
    octets, found = Octets(value, order), {}
    try:
        for _ in range(octets.number()):
            name = octets.text()
            found.setdefault(name, octets.text())
    except Cut:
        return {}
    return found


def pid_of(text):
    """decimal digits below 2^32"""
    if not text or any(octet not in b'0123456789' for octet in text):
        return None
    pid = int(text)
    return pid if pid < 1 << 32 else None


def enclave_of(value, order):
    """what `enclave=` names in user data, up to the semicolon"""
    if len(value) < 4 or len(value) < 4 + number(value[:4], order):
        return None
    *parts, _ = value[4:4 + number(value[:4], order)].split(b';')
    named = [part[8:] for part in parts if part.startswith(b'enclave=')]
    return named[0] if named and named[0] not in (b'', b'/') else None


def first_field(pairs, pid):
    return next((value for at, value in pairs if at == pid), None)


class Process:
    """what an announcement of a participant says of its process"""

    def __init__(self, payload=None):
        self.host = self.program = self.pid = self.name = self.enclave = None
        if payload is None:
            return
        order, pairs = fields_of(payload)
        value = first_field(pairs, 0x0059)
        properties = {} if value is None else properties_of(value, order)
        fast_host = properties.get(b'fastdds.physical_data.host', b'').split(b':')[0]
        self.host = properties.get(b'__Hostname') or fast_host or None
        self.program = properties.get(b'__ProcessName') or None
        pids = [pid_of(properties.get(name)) for name in (b'__Pid', b'fastdds.physical_data.process')]
        self.pid = next((pid for pid in pids if pid is not None), None)
        value = first_field(pairs, 0x0062)
        name = None if value is None else text_of(value, order)
        self.name = None if name in (None, b'', b'/', b'RTPSParticipant') else name
        value = first_field(pairs, 0x002c)
        self.enclave = None if value is None else enclave_of(value, order)


# ---- nodes


def full_name(namespace, name):
    return namespace + (b'' if namespace.endswith(b'/') else b'/') + name


def nodes_of(payload):
    """the nodes of a sample, each with the GUIDs of its endpoints; None where it cannot be read"""
    if len(payload) < 4 or payload[:2] not in (b'\0\0', b'\0\1'):
        return None
    order, body = 'be' if payload[1] == 0 else 'le', payload[4:]
    size = 24 if len(body) >= 28 and body[16:24] == bytes(8) else 16
    octets, nodes = Octets(body, order), []

    def gid():
        octets.align()
        found = octets.take(size)
        if found[16:] != bytes(size - 16):
            raise Cut
        return found[:16]

    try:
        octets.take(size)
        for _ in range(octets.number()):
            namespace, name = octets.text(), octets.text()
            ends = [gid() for _ in range(2) for _ in range(octets.number())]
            nodes.append((full_name(namespace, name), ends))
    except Cut:
        return None
    # The padding that a text would need is no node's, so what is left is counted from where the last item ends.
    return nodes if octets.left() <= 3 else None


def service_of(side, topic):
    """the name of the node whose parameter service an endpoint is of"""
    begins, ends = (b'rq/', b'/get_parametersRequest') if side == 'reader' else (b'rr/', b'/get_parametersReply')
    if topic.startswith(begins) and topic.endswith(ends) and len(topic) > len(begins) + len(ends):
        return topic[len(begins):-len(ends)]
    return None


def samples_in(recording):
    """each sample of a recording in order: the prefix that sends it, the entity of its writer, and its octets. One in pieces stands where it
    is whole, whoever hears them"""
    pieces, places = {}, {}
    for acts in recording:
        for act in acts:
            if act['kind'] == 'data_frag':
                pieces.setdefault((act['source'], act['writer']), []).append(act)
    for sent in pieces.values():
        for piece, told in zip(sent, payloads_told(sent)):
            places[id(piece)] = told
    for acts in recording:
        for act in acts:
            told = [act['payload']] if act['kind'] == 'data' else places.get(id(act), [])
            for form, octets in told:
                if form == 'whole':
                    yield act['source'], act['writer'], octets


class Who:
    """what a recording tells of the names of participants and endpoints. A recording is a list of datagrams, each a list of acts"""

    def __init__(self, recording, by_writer=False):
        samples = [*samples_in(recording)]
        self.processes, self.endpoints, self.nodes, self.listed = {}, [], {}, {}
        services, tellers, announced = {}, set(), {}
        for _, writer, octets in samples:
            side = BUILTIN.get(writer)
            said = announcement(octets, side) if side else ''
            if isinstance(said, str):
                continue
            if side == 'participant':
                self.processes.setdefault(said[0], Process(octets))
                continue
            self.endpoints.append(said[0])
            announced.setdefault(said[0], set()).add((side, said))
            if side == 'writer' and said[2:4] == (TOPIC, TYPE):
                tellers.add(said[0])
            name = service_of(side, said[2])
            if name is not None:
                services.setdefault(said[0][:12], set()).add(name)
        if by_writer:
            tellers = {guid for guid in tellers if len(announced[guid]) == 1}
            samples.sort(key=lambda sample: sample[0] + sample[1])
        for source, writer, octets in samples:
            nodes = nodes_of(octets) if source + writer in tellers else None
            if nodes is not None:
                self.nodes[source] = nodes
                self.listed |= {guid: name for name, ends in nodes for guid in ends if guid[:12] == source}
        for prefix, names in services.items():
            if prefix not in self.nodes and len(names) == 1:
                self.nodes[prefix] = [(b'/' + name, []) for name in names]

    def nodes_in(self, prefix):
        return [name for name, _ in self.nodes.get(prefix, [])]

    def only_node(self, prefix):
        names = self.nodes_in(prefix)
        return names[0] if len(names) == 1 else None

    def node(self, guid):
        """the one whose list had it last, or else the only one of its participant"""
        listing = self.listed.get(guid)
        return self.only_node(guid[:12]) if listing is None else listing

    def process(self, prefix):
        return self.processes.get(prefix + PARTICIPANT, Process())

    def title(self, prefix, node):
        process = self.process(prefix)
        titles = [('node', node), ('program', process.program), ('name', process.name)]
        return next((f'{word} {text.hex()}' for word, text in titles if text is not None), '-')

    def lines(self):
        for guid in sorted(self.processes):
            prefix, process = guid[:12], self.process(guid[:12])
            pid = '-' if process.pid is None else process.pid
            texts = [hex_or(text) for text in (process.host, process.program, process.name, process.enclave)]
            nodes = ''.join(f' {node.hex()}' for node in self.nodes_in(prefix))
            yield f'{guid.hex()} {" ".join(texts)} {pid} {self.title(prefix, self.only_node(prefix))} nodes{nodes}'
        for guid in self.endpoints:
            yield f'{guid.hex()} {self.title(guid[:12], self.node(guid))}'


def hex_or(text):
    return '-' if text is None else f'={text.hex()}'


def told_of(datagrams):
    return ''.join(f'{line}\n' for line in Who([acts_of(d) for d in datagrams]).lines()) + '\n'


# ---- random ones


def u32(order, value):
    return value.to_bytes(4, 'big' if order == 'be' else 'little')


def cdr_text(order, text):
    octets = u32(order, len(text) + 1) + text + b'\0'
    return octets + bytes(-len(octets) % 4)


WORDS = b'', b'/', b'/', b'camera_driver', b'/perception', b'ns/', b'robot1', b'robot1:9', b':', b'4711', b'0', b'007', b'4294967295', b'4294967296', \
    b'12a', b'+1', b'-1', b'00000000000000000001', b'99999999999999999999999', b'RTPSParticipant', b'talker', b'\xff\0\n"', b';', b'enclave=/x;'
NAMES = b'__Hostname', b'__ProcessName', b'__Pid', b'fastdds.physical_data.host', b'fastdds.physical_data.process', b'__hostname', b''
DATA = b'enclave=/;', b'enclave=/a/b;', b'enclave=;', b'enclave=/a', b'x=1;enclave=/c;', b'xenclave=/d;', b';;enclave=/e;enclave=/f;', b'enclave=\xff=;', b''


def damaged(rng, octets, often=0.1):
    """mostly as they are; sometimes cut, with an octet changed, or with more behind"""
    if rng.random() >= often:
        return octets
    kind = rng.randrange(3)
    if kind == 0:
        return octets[:rng.randrange(len(octets) + 1)]
    if kind == 1 and octets:
        at = rng.randrange(len(octets))
        return octets[:at] + bytes([rng.choice([0, 1, 255, octets[at] ^ 1])]) + octets[at + 1:]
    return octets + bytes(rng.randrange(9))


def some_properties(rng, order):
    pairs = [(rng.choice(NAMES), rng.choice(WORDS)) for _ in range(rng.randrange(7))]
    octets = u32(order, len(pairs) + rng.choice([0] * 12 + [1, -1 if pairs else 0])) + b''.join(cdr_text(order, text) for pair in pairs for text in pair)
    return damaged(rng, octets)


def parameter(order, pid, value):
    value += bytes(-len(value) % 4)
    ends = 'big' if order == 'be' else 'little'
    return pid.to_bytes(2, ends) + len(value).to_bytes(2, ends) + value


def announced(rng, writer, source, order, parameters):
    parameters = list(parameters)
    rng.shuffle(parameters)
    value = (b'\0\2' if order == 'be' else b'\0\3') + bytes(2) + b''.join(parameters) + parameter(order, 1, b'')
    return message(source, writer, value)


def message(source, writer, value, number=1, fragment=None):
    """a DATA, or the DATA_FRAG of one fragment"""
    head, sid = bytes(4) + writer + number.to_bytes(8, 'big'), 0x15
    octets = value
    if fragment is not None:
        first, size = fragment
        sid = 0x16
        octets = value[(first - 1) * size:first * size]
        head += first.to_bytes(4, 'big') + b'\0\1' + size.to_bytes(2, 'big') + len(value).to_bytes(4, 'big')
    body = b'\0\0' + (b'\0\x10' if fragment is None else b'\0\x1c') + head + octets
    return b'RTPS\2\5\0\0' + source + bytes([sid, 4 if fragment is None else 0]) + len(body).to_bytes(2, 'big') + body


PREFIXES = [bytes([k]) * 12 for k in (0xaa, 0xbb, 0xcc)]


def process_parameters(rng, order):
    """parameters that say of which process a participant is, by chance"""
    found = []
    for _ in range(rng.choice([0, 1, 1, 1, 2])):
        found.append(parameter(order, 0x59, some_properties(rng, order)))
    for _ in range(rng.choice([0, 1, 1, 2])):
        found.append(parameter(order, 0x62, damaged(rng, cdr_text(order, rng.choice(WORDS)))))
    for _ in range(rng.choice([0, 1, 1, 2])):
        data = rng.choice(DATA)
        found.append(parameter(order, 0x2c, u32(order, len(data) + rng.choice([0] * 9 + [1, 5])) + data))
    return found


def some_participant(rng, prefix):
    order = rng.choice(['be', 'le'])
    return announced(rng, b'\0\1\0\xc2', prefix, order, [parameter(order, 0x50, prefix + PARTICIPANT), *process_parameters(rng, order)])


def some_topic(rng):
    """side, topic and type"""
    node = rng.choice([b'talker', b'talker', b'ns/cam', b'', b'x'])
    kind = rng.random()
    if kind < 0.35:
        return rng.choice(['writer'] * 7 + ['reader']), rng.choice([TOPIC] * 9 + [TOPIC + b'_']), rng.choice([TYPE] * 9 + [TYPE[:-1]])
    if kind < 0.75:
        side = rng.choice(['reader', 'writer'])
        begins, ends = (b'rq/', b'/get_parametersRequest') if (side == 'reader') == (rng.random() < 0.9) else (b'rr/', b'/get_parametersReply')
        return side, begins + node + ends if rng.random() < 0.9 else rng.choice([begins + ends[1:], b'rt' + node + ends, begins + node]), b'T'
    return rng.choice(['reader', 'writer']), b'rt/x', b'T'


def some_endpoint(rng, prefix, entity):
    order, (side, topic, kind) = rng.choice(['be', 'le']), some_topic(rng)
    found = [parameter(order, 0x5a, prefix + entity), parameter(order, 5, cdr_text(order, topic)), parameter(order, 7, cdr_text(order, kind))]
    return announced(rng, b'\0\0\3\xc2' if side == 'writer' else b'\0\0\4\xc2', prefix, order, found)


ENTITIES = [bytes([0, 0, k, kind]) for k in (1, 2) for kind in (3, 4)]


def some_gid(rng, prefix, size, entities):
    gid = rng.choice([prefix] * 5 + PREFIXES) + rng.choice(entities)
    return gid + (bytes(size - 16) if rng.random() < 0.98 else b'\1' * (size - 16))


def some_sample(rng, prefix, entities=tuple(ENTITIES)):
    order, size = rng.choice(['be', 'le']), rng.choice([16, 24])
    nodes = rng.choice([0, 1, 1, 1, 2, 2, 3])
    body = prefix + PARTICIPANT + bytes(size - 16) + u32(order, nodes + rng.choice([0] * 15 + [1]))
    for _ in range(nodes):
        for text in (rng.choice([b'/', b'/', b'/ns', b'', b'a/']), rng.choice([b'talker', b'cam', b'', b'abc', b'x\xff'])):
            body += cdr_text(order, text) if text or rng.random() < 0.5 else u32(order, 0)
        for _ in range(2):
            count = rng.choice([0, 1, 1, 2])
            body += u32(order, count) + b''.join(some_gid(rng, prefix, size, entities) for _ in range(count))
    body += bytes(rng.choice([0, 0, 0, 1, 3, 4]))
    head = b'\0\0' if order == 'be' else b'\0\1'
    head = head if rng.random() < 0.95 else rng.choice([b'\0\2', b'\0\6', b'\1\0'])
    return damaged(rng, head + b'\0\0' + body, 0.2)


def some_recording(rng):
    datagrams = []
    for prefix in PREFIXES:
        datagrams += [some_participant(rng, prefix) for _ in range(rng.choice([0, 1, 1, 1, 2]))]
        datagrams += [some_endpoint(rng, prefix, rng.choice(ENTITIES)) for _ in range(rng.randrange(5))]
    rng.shuffle(datagrams)
    for k in range(rng.randrange(6)):
        prefix = rng.choice(PREFIXES)
        datagrams.insert(rng.randrange(len(datagrams) + 1), message(prefix, rng.choice(ENTITIES), some_sample(rng, prefix), k + 1))
    return datagrams


def fixed_start():
    """a participant with a writer that tells of nodes, and a reader"""
    rng, prefix = random.Random(0), PREFIXES[0]
    names = [parameter('be', 5, cdr_text('be', TOPIC)), parameter('be', 7, cdr_text('be', TYPE))]
    return [
        announced(rng, b'\0\1\0\xc2', prefix, 'be', [parameter('be', 0x50, prefix + PARTICIPANT)]),
        announced(rng, b'\0\0\3\xc2', prefix, 'be', [parameter('be', 0x5a, prefix + ENTITIES[0]), *names]),
        announced(rng, b'\0\0\4\xc2', prefix, 'be', [parameter('be', 0x5a, prefix + ENTITIES[1]), *names]),
    ]


def some_octets(rng):
    """a sample of any octets: one that is well formed and changed at some places, or none at all"""
    kind = rng.random()
    if kind < 0.1:
        return bytes(rng.randrange(256) for _ in range(rng.randrange(90)))
    octets = some_sample(rng, PREFIXES[0])
    for _ in range(rng.choice([0, 1, 1, 2, 5])):
        octets = damaged(rng, octets, 1)
    return octets


def some_sampled(rng):
    """one sample of any octets"""
    return [*fixed_start(), message(PREFIXES[0], ENTITIES[0], some_octets(rng))]


def differing(trials, recordings):
    """the first recording of which the two say something else, with both answers; None where there is none"""
    text = b'\n'.join(b''.join(d.hex().encode() + b'\n' for d in datagrams) for datagrams in recordings)
    done = subprocess.run([trials, 'who'], input=text, capture_output=True, check=True)
    got = done.stdout.decode()
    wanted = [told_of(datagrams) for datagrams in recordings]
    if got == ''.join(wanted):
        return None
    at = 0
    for datagrams, one in zip(recordings, wanted):
        if not got.startswith(one, at):
            return datagrams, one, got[at:at + len(one) + 200]
        at += len(one)
    return recordings[-1], '', got[at:]


def compare(trials, count, seed, some):
    rng, told = random.Random(seed), 0
    for begin in range(0, count, 500):
        recordings = [some(rng) for _ in range(min(500, count - begin))]
        found = differing(trials, recordings)
        if found:
            datagrams, wanted, got = found
            print('\n'.join(d.hex() for d in datagrams), f'-- wanted\n{wanted}-- got\n{got}', sep='\n')
            return 1
        told += sum(' node ' in told_of(datagrams) for datagrams in recordings)
    print(f'{count} recordings agree, {told} of them tell a node')
    return 0


def main():
    if len(sys.argv) == 3 and sys.argv[1] == 'tell':
        with open(sys.argv[2], 'rb') as f:
            print(told_of(input_of(f.read(), any_form=True)[0]), end='')
        return 0
    if len(sys.argv) != 5 or sys.argv[1] not in ('compare', 'samples'):
        raise SystemExit(__doc__)
    trials, count, seed = os.path.realpath(sys.argv[2]), int(sys.argv[3]), int(sys.argv[4])
    if sys.argv[1] == 'compare':
        return compare(trials, count, seed, some_recording)
    return compare(trials, count, seed, some_sampled)


if __name__ == '__main__':
    sys.exit(main())
