#!/usr/bin/env python3
"""A second reading of captures, apart from the proved program: one reader with a mode.

`read_capture` gives the datagrams of a capture with their times, and why frames gave none, or the fault for which the capture
is refused. The mode ANY is what `--any` reads. PLAIN is the same with less: classic files of Ethernet or raw IP, and of their
frames the whole packets of IPv4 that stand right behind the link's header.

It is written for clearness, by whole lists: frames first, then what each of them has, then the packets of each key, as long as it is remembered.
"""
from typing import NamedTuple, Optional

PLAIN, ANY = 'plain', 'any'

# A classic file by its first octets: the order of its numbers, and how many nanoseconds the fraction of a second counts.
CLASSIC = {b'\xa1\xb2\xc3\xd4': ('big', 1000), b'\xd4\xc3\xb2\xa1': ('little', 1000),
           b'\xa1\xb2\x3c\x4d': ('big', 1), b'\x4d\x3c\xb2\xa1': ('little', 1)}
SECTION = b'\x0a\x0d\x0d\x0a'
SECTION_ORDERS = {b'\x1a\x2b\x3c\x4d': 'big', b'\x4d\x3c\x2b\x1a': 'little'}
LOOPBACK, ETHERNET, RAW, RAW_4, RAW_6, COOKED_1, COOKED_2 = (0, 108), 1, 101, 228, 229, 113, 276
LINKS = {PLAIN: (ETHERNET, RAW), ANY: (*LOOPBACK, ETHERNET, RAW, RAW_4, RAW_6, COOKED_1, COOKED_2)}
TAGS = (0x8100, 0x88a8, 0x9100)
PASSED = (0, 43, 60)          # IPv6: hop-by-hop options, routing, destination options
FRAGMENT, UDP = 44, 17
MOST_CAPTURED = 262144        # octets of a frame: a length above it is damage
MOST_OF_PACKET = 65535
MOST_OTHERS = 64              # keys of the same hosts behind the last piece of one that is forgotten
SECOND = 10 ** 9
BAD_CAPTURE, TOO_MANY = 'bad capture', 'too many datagrams'


class Fault(Exception):
    """Why a capture is refused: the last line on standard error, and the frame that is damaged, if one is."""

    def __init__(self, line, damaged=None):
        self.line, self.damaged = line, damaged


class Frame(NamedTuple):
    """The link type is None where its interface is not declared. The time is None where its block has none, and where it is before
    1970 or needs more than 64 bits."""
    link: Optional[int]
    octets: bytes
    time: Optional[int]


class Rest(NamedTuple):
    """What is left of a file that ends within a record or a block."""


def is_capture(file, mode):
    return file[:4] in CLASSIC or (mode == ANY and file[:4] == SECTION)


def big(octets):
    return int.from_bytes(octets, 'big')


# ---- frames of a classic file

def link_type_of(file):
    """the link type that the header of a classic file names, if it has a header"""
    order, _ = CLASSIC.get(file[:4], (None, None))
    if order is None or len(file) < 24 or int.from_bytes(file[4:6], order) != 2:
        return None
    return int.from_bytes(file[20:24], order) % 65536


def classic_frames(file, mode):
    order, unit = CLASSIC[file[:4]]
    link = link_type_of(file)
    if link not in LINKS[mode]:
        raise Fault(BAD_CAPTURE)
    at, number = 24, 0
    while at < len(file):
        number += 1
        header = file[at:at + 16]
        seconds, fraction, size = (int.from_bytes(header[i:i + 4], order) for i in (0, 4, 8))
        if mode == ANY and len(header) == 16 and size > MOST_CAPTURED:
            raise Fault(BAD_CAPTURE, number)
        if len(header) < 16 or at + 16 + size > len(file):
            if mode == PLAIN:
                raise Fault(f'frame {number}: cut')
            yield Rest()
            return
        yield Frame(link, file[at + 16:at + 16 + size], seconds * SECOND + fraction * unit)
        at += 16 + size


# ---- frames of a pcapng file

SECTION_HEADER, INTERFACE, OLD_PACKET, SIMPLE_PACKET, ENHANCED_PACKET = 0x0a0d0d0a, 1, 2, 3, 6
FIXED = {SECTION_HEADER: 16, INTERFACE: 8, OLD_PACKET: 20, SIMPLE_PACKET: 4, ENHANCED_PACKET: 20}     # octets of a body


class Block(NamedTuple):
    kind: int
    order: str
    body: bytes

    def number(self, at, size=4):
        return int.from_bytes(self.body[at:at + size], self.order)


class Interface(NamedTuple):
    """How many of its units a second has, and what is added to its seconds."""
    link: int
    snap: int
    units: int
    offset: int


def section_order(file, at, order):
    """the order of the block that begins there; None where the file ends before a section header tells it"""
    if file[at:at + 4] != SECTION:
        return order
    magic = file[at + 8:at + 12]
    if len(magic) == 4 and magic not in SECTION_ORDERS:
        raise Fault(BAD_CAPTURE)
    return SECTION_ORDERS.get(magic)


def whole_blocks(file):
    """the blocks of a file, and the rest where it ends within one"""
    at, order = 0, None
    while at < len(file):
        order = section_order(file, at, order)
        if order is None or len(file) < at + 8:
            yield Rest()
            return
        kind, length = (int.from_bytes(file[i:i + 4], order) for i in (at, at + 4))
        if length % 4 or length < 12 + FIXED.get(kind, 0):
            raise Fault(BAD_CAPTURE)
        if len(file) < at + length:
            yield Rest()
            return
        if int.from_bytes(file[at + length - 4:at + length], order) != length:
            raise Fault(BAD_CAPTURE)
        yield Block(kind, order, file[at + 8:at + length - 4])
        at += length


def options_of(block, at):
    """the first option of each code, from a place in a body on; one that passes the body ends them"""
    options = {}
    while at + 4 <= len(block.body):
        code, size = block.number(at, 2), block.number(at + 2, 2)
        if code == 0 or at + 4 + size > len(block.body):
            break
        options.setdefault(code, block.body[at + 4:at + 4 + size])
        at += 4 + size + -size % 4
    return options


def interface_of(block):
    options = options_of(block, 8)
    resolution, offset = options.get(9, b''), options.get(14, b'')
    units = 10 ** 6
    if len(resolution) == 1:
        units = 2 ** (resolution[0] - 128) if resolution[0] >= 128 else 10 ** resolution[0]
    seconds = int.from_bytes(offset, block.order, signed=True) if len(offset) == 8 else 0
    return Interface(block.number(0, 2), block.number(4), units, seconds)


def frame_of(block, interfaces, number):
    """the frame of a packet block"""
    begin = FIXED[block.kind]
    room = len(block.body) - begin
    place = {OLD_PACKET: block.number(0, 2), SIMPLE_PACKET: 0, ENHANCED_PACKET: block.number(0)}[block.kind]
    interface = interfaces[place] if place < len(interfaces) else None
    size = block.number(12)
    if block.kind == SIMPLE_PACKET:
        size = min(block.number(0), room, interface.snap if interface and interface.snap else room)
    if size > MOST_CAPTURED:
        raise Fault(BAD_CAPTURE, number)
    if size > room:
        raise Fault(f'frame {number}: cut')
    octets = block.body[begin:begin + size]
    if interface is None:
        return Frame(None, octets, None)
    if block.kind == SIMPLE_PACKET:
        return Frame(interface.link, octets, None)
    units = block.number(4) * 2 ** 32 + block.number(8)
    time = units * SECOND // interface.units + interface.offset * SECOND
    return Frame(interface.link, octets, time if 0 <= time < 2 ** 64 else None)


def block_frames(file):
    number, interfaces = 0, []
    for place, block in enumerate(whole_blocks(file)):
        if isinstance(block, Rest):
            if place == 0:
                raise Fault(BAD_CAPTURE)
            yield block
        elif block.kind == SECTION_HEADER:
            if block.number(4, 2) != 1:
                raise Fault(BAD_CAPTURE)
            interfaces = []
        elif block.kind == INTERFACE:
            interfaces.append(interface_of(block))
        elif block.kind in FIXED:
            number += 1
            yield frame_of(block, interfaces, number)


# ---- what a frame has

class Other(Exception):
    """The frame carries no UDP over IP, or cannot."""


class Cut(Exception):
    """The captured octets end before the packet does."""


class Key(NamedTuple):
    """What the pieces of one packet have in common."""
    version: int
    source: bytes
    destination: bytes
    identification: bytes

    @property
    def hosts(self):
        return self.version, self.source, self.destination


class Piece(NamedTuple):
    """A fragment of an IP packet: its octets from `start` on. The last one has no `more`."""
    key: Key
    start: int
    more: bool
    octets: bytes

    @property
    def end(self):
        return self.start + len(self.octets)


def need(octets, size):
    if len(octets) < size:
        raise Cut


def typed(octets, type_at, rest_at):
    """of a header with a type: the type, and what stands behind it"""
    need(octets, rest_at)
    return big(octets[type_at:type_at + 2]), octets[rest_at:]


def packet_of(link, frame, tags):
    """the version of IP of a frame's packet, and the packet with what stands behind it; these tags are passed"""
    if link in (*LOOPBACK, RAW, RAW_4, RAW_6):
        rest = frame[4:] if link in LOOPBACK else frame
        need(rest, 1)
        version = rest[0] >> 4
        if version not in {RAW_4: (4,), RAW_6: (6,)}.get(link, (4, 6)):
            raise Other
        return version, rest
    kind, rest = typed(frame, *{ETHERNET: (12, 14), COOKED_1: (14, 16), COOKED_2: (0, 20)}[link])
    while kind in tags:
        kind, rest = typed(rest, 2, 4)
    if kind not in (0x0800, 0x86dd):
        raise Other
    return (4 if kind == 0x0800 else 6), rest


def piece_of(key, start, more, octets):
    if start + len(octets) > MOST_OF_PACKET or (more and (not octets or len(octets) % 8)):
        raise Other
    return Piece(key, start, more, octets)


def within_ipv4(packet):
    """what stands behind the header of a whole packet, from the UDP header on, or a piece of a packet"""
    need(packet, 20)
    header, total, place = 4 * (packet[0] & 15), big(packet[2:4]), big(packet[6:8])
    if packet[0] >> 4 != 4 or header < 20 or packet[9] != UDP or total < header:
        raise Other
    need(packet, total)
    offset, more = 8 * (place & 0x1fff), bool(place & 0x2000)
    if not offset and not more:
        return packet[header:total]
    return piece_of(Key(4, packet[12:16], packet[16:20], packet[4:6]), offset, more, packet[header:total])


def within_ipv6(packet):
    need(packet, 40)
    size, following = big(packet[4:6]), packet[6]
    if packet[0] >> 4 != 6 or following not in (UDP, FRAGMENT, *PASSED):
        raise Other
    need(packet, 40 + size)
    rest = packet[40:40 + size]
    while following != UDP:
        length = 8 * (1 + rest[1]) if following in PASSED and len(rest) > 1 else 8
        if following not in (FRAGMENT, *PASSED) or len(rest) < length:
            raise Other
        offset, more = big(rest[2:4]) & 0xfff8, bool(rest[3] & 1)
        if following == FRAGMENT and (offset or more):
            if rest[0] != UDP:
                raise Other
            return piece_of(Key(6, packet[8:24], packet[24:40], rest[4:8]), offset, more, rest[8:])
        following, rest = rest[0], rest[length:]
    return rest


def datagram_of(octets):
    """the datagram behind the UDP header that begins these octets"""
    if len(octets) < 8 or not 8 <= big(octets[4:6]) <= len(octets):
        raise Other
    return octets[8:big(octets[4:6])]


def contents_of(frame, mode):
    """the datagram of a frame, or a piece"""
    version, packet = packet_of(frame.link, frame.octets, TAGS if mode == ANY else ())
    if mode == PLAIN and version != 4:
        raise Other
    found = within_ipv4(packet) if version == 4 else within_ipv6(packet)
    return found if isinstance(found, Piece) else datagram_of(found)


# ---- pieces

def clash(one, other):
    """the two are not of one packet"""
    if one.start < other.end and other.start < one.end:
        return True
    if not one.more and not other.more:
        return one.end != other.end
    return (not one.more and other.end > one.end) or (not other.more and one.end > other.end)


def joined(pieces):
    """the octets of a packet that is whole, or None. Of its pieces none overlaps another or reaches past its end"""
    ends = [piece.end for piece in pieces if not piece.more]
    if not ends or sum(len(piece.octets) for piece in pieces) != ends[0]:
        return None
    return b''.join(piece.octets for piece in sorted(pieces, key=lambda piece: piece.start))


def is_right(key, octets):
    """the UDP header that begins a packet has a length that can be, and the right checksum (RFC 768; RFC 8200, 8.1)"""
    if len(octets) < 8 or not 8 <= big(octets[4:6]) <= len(octets):
        return False
    if key.version == 4 and octets[6:8] == b'\0\0':
        return True
    return is_summed(key.source, key.destination, octets[:big(octets[4:6])])


def is_summed(source, destination, octets):
    """the words of the pseudo-header and of these octets have the ones' complement sum of no ones: their number is a multiple of
    65,535 (RFC 1071)"""
    header = source + destination + bytes([0, UDP]) + len(octets).to_bytes(2, 'big')
    return big(header + octets + bytes(len(octets) % 2)) % 0xffff == 0


def remembered(arrivals):
    """the pieces of one key between which it is not forgotten, of all pieces of the same hosts. A key is forgotten once pieces of so many other
    keys stand behind its last piece; then it is as if the file ended there, and what comes later begins anew"""
    keys, last, runs = [piece.key for _, piece in arrivals], {}, {}
    for place, (number, piece) in enumerate(arrivals):
        runs_of_key = runs.setdefault(piece.key, [])
        if piece.key not in last or are_many(keys, last[piece.key] + 1, place):
            runs_of_key.append([])
        runs_of_key[-1].append((number, piece))
        last[piece.key] = place
    return [run for runs_of_key in runs.values() for run in runs_of_key]


def are_many(keys, begin, end):
    """from one place to another stand so many different keys that one which stands before and behind them is forgotten"""
    different = set()
    for place in range(begin, end):
        different.add(keys[place])
        if len(different) == MOST_OTHERS:
            return True
    return False


def packets_of(arrivals):
    """of the pieces of one key that is not forgotten between them, each with the number of its frame: the packets by the frame that completes
    them, and the frames of pieces that are of no packet and no repeats"""
    making, given, packets, ignored = [], [], {}, []

    def drop_oldest():
        number, piece = making.pop(0)
        if piece not in given:
            ignored.append(number)

    for number, piece in arrivals:
        if any(piece == other for _, other in making):
            continue
        while any(clash(piece, other) for _, other in making):
            drop_oldest()
        making.append((number, piece))
        octets = joined([other for _, other in making])
        if octets is not None and is_right(piece.key, octets):
            packets[number] = octets
            given, making = [other for _, other in making], []
        elif octets is not None:
            drop_oldest()
    while making:
        drop_oldest()
    return packets, ignored


# ---- a capture

class Reading:
    """The datagrams of a capture, their times, in nanoseconds since 1970 or None, the frames that gave or completed them, counted from 1
    with all frames of the file, the time of the first frame that has one, and the greatest time of a frame; and of the frames that gave no datagram how many there are for each reason, and the link type of the first
    one of a link that is not read."""

    def __init__(self, mode):
        self.mode, self.datagrams, self.times, self.frames, self.start, self.end = mode, [], [], [], None, None
        self.pieces = self.cut = self.other = self.links = 0
        self.link = None

    def ignored(self):
        return self.pieces + self.cut + self.other + self.links

    def counts(self):
        """as a report in JSON has them"""
        told = {'ignored': self.ignored()}
        if self.mode == PLAIN:
            return told
        return told | {'pieces': self.pieces, 'cut': self.cut, 'other': self.other, 'links': self.links}


def frames_of(file, mode):
    """the frames before the first fault, and this fault or None"""
    frames = []
    try:
        for frame in block_frames(file) if file[:4] == SECTION else classic_frames(file, mode):
            frames.append(frame)
    except Fault as fault:
        return frames, fault
    return frames, None


def read_frames(frames, mode):
    reading, given, pieces = Reading(mode), {}, {}
    times = [frame.time for frame in frames if isinstance(frame, Frame) and frame.time is not None]
    reading.start, reading.end = next(iter(times), None), max(times, default=None)
    for number, frame in enumerate(frames):
        if isinstance(frame, Rest):
            reading.cut += 1
            continue
        if frame.link not in LINKS[mode]:
            reading.link = frame.link if reading.links == 0 else reading.link
            reading.links += 1
            continue
        try:
            found = contents_of(frame, mode)
        except Other:
            reading.other += 1
        except Cut:
            reading.cut += 1
        else:
            if isinstance(found, Piece):
                pieces.setdefault(found.key.hosts, []).append((number, found))
            else:
                given[number] = found
    for arrivals in pieces.values():
        for run in remembered(arrivals) if mode == ANY else ():
            packets, ignored = packets_of(run)
            given |= {number: datagram_of(octets) for number, octets in packets.items()}
            reading.pieces += len(ignored)
        if mode == PLAIN:
            reading.pieces += len(arrivals)
    for number in sorted(given):
        reading.datagrams.append(given[number])
        reading.times.append(frames[number].time)
        reading.frames.append(number + 1)
    return reading


def read_capture(file, mode, most=1000000):
    """the reading of a capture, or its first fault"""
    frames, fault = frames_of(file, mode)
    reading = read_frames(frames, mode)
    if len(reading.datagrams) > most:
        return Fault(TOO_MANY)
    return fault or reading
