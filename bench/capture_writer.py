"""Writes captures: files of both forms, the headers in front of a packet, packets of both versions of IP, and their pieces.

Nothing here looks at what it writes: a length, a sum or a flag may be given that is not right.
"""
MICROSECONDS, NANOSECONDS = 0xa1b2c3d4, 0xa1b23c4d
ETHERNET, RAW_IP = 1, 101
IPV4, IPV6 = 0x0800, 0x86dd
HOST, HOST_6 = b'\x7f\0\0\1', bytes(15) + b'\1'          # the loopback's addresses
UDP, FRAGMENT = 17, 44


def numbers(order, *pairs):
    """numbers, each of so many octets"""
    return b''.join(value.to_bytes(size, order) for value, size in pairs)


# ---- a classic file

def start(link=RAW_IP, order='little', magic=MICROSECONDS, major=2, minor=4):
    return numbers(order, (magic, 4), (major, 2), (minor, 2), (0, 4), (0, 4), (65535, 4), (link, 4))


def record(frame, order='little', size=None, original=None, time=(0, 0)):
    """`time` is seconds, and what the magic counts of the next one"""
    size = len(frame) if size is None else size
    original = len(frame) if original is None else original
    return numbers(order, (time[0], 4), (time[1], 4), (size, 4), (original, 4)) + frame


def capture(frames, link=RAW_IP, order='little', magic=MICROSECONDS):
    return start(link, order, magic) + b''.join(record(frame, order) for frame in frames)


# ---- a pcapng file

def block(kind, body, order='little', size=None):
    body += bytes(-len(body) % 4)
    size = (len(body) + 12 if size is None else size).to_bytes(4, order)
    return kind.to_bytes(4, order) + size + body + size


def section(order='little', major=1, options=b''):
    return block(0x0a0d0d0a, numbers(order, (0x1a2b3c4d, 4), (major, 2), (0, 2)) + b'\xff' * 8 + options, order)


def option(code, octets, order='little'):
    return numbers(order, (code, 2), (len(octets), 2)) + octets + bytes(-len(octets) % 4)


def interface(link=RAW_IP, order='little', snap=0, options=b''):
    return block(1, numbers(order, (link, 2), (0, 2), (snap, 4)) + options, order)


def enhanced(frame, number=0, order='little', size=None, time=0, options=b''):
    """`time` is in units of the interface"""
    size = len(frame) if size is None else size
    words = numbers(order, (number, 4), (time >> 32, 4), (time % 2 ** 32, 4), (size, 4), (len(frame), 4))
    return block(6, words + frame + (bytes(-len(frame) % 4) + options if options else b''), order)


def simple(frame, order='little', original=None):
    return block(3, numbers(order, (len(frame) if original is None else original, 4)) + frame, order)


def old(frame, number=0, order='little', size=None, time=0):
    size = len(frame) if size is None else size
    words = numbers(order, (number, 2), (0, 2), (time >> 32, 4), (time % 2 ** 32, 4), (size, 4), (len(frame), 4))
    return block(2, words + frame, order)


def pcapng(frames, link=RAW_IP, order='little', write=enhanced):
    return section(order) + interface(link, order) + b''.join(write(frame, order=order) for frame in frames)


# ---- what stands in front of a packet

def ethernet(inner, kind=IPV4):
    return b'\xff' * 6 + b'\2\0\0\0\0\1' + kind.to_bytes(2, 'big') + inner


def tagged(inner, kinds=(0x8100,), kind=IPV4):
    tags = b''.join(tag.to_bytes(2, 'big') + b'\0\7' for tag in kinds)
    return b'\xff' * 6 + b'\2\0\0\0\0\1' + tags + kind.to_bytes(2, 'big') + inner


def cooked_1(inner, kind=IPV4):
    return b'\0\0\0\1\0\6\2\0\0\0\0\1\0\0' + kind.to_bytes(2, 'big') + inner


def cooked_2(inner, kind=IPV4):
    return kind.to_bytes(2, 'big') + bytes(18) + inner


# ---- UDP

def udp(payload, size=None, checksum=0):
    """a UDP header and its octets; over IPv4 the checksum 0 is none"""
    size = len(payload) + 8 if size is None else size
    return (7400).to_bytes(2, 'big') * 2 + numbers('big', (size, 2), (checksum, 2)) + payload


def summed(inner, source, destination):
    """a UDP header and octets that have as many as it says, with the right checksum between these addresses (RFC 768, RFC 1071)"""
    header = source + destination + bytes([0, UDP]) + inner[4:6]
    octets = header + inner[:6] + b'\0\0' + inner[8:] + bytes(len(inner) % 2)
    # The sum of 16-bit words with the carry added at the other end is the number of all octets by 65,535.
    checksum = 0xffff - int.from_bytes(octets, 'big') % 0xffff
    return inner[:6] + checksum.to_bytes(2, 'big') + inner[8:]


def udp_4(payload, source=HOST):
    return summed(udp(payload), source, HOST)


def udp_6(payload, source=HOST_6):
    return summed(udp(payload), source, HOST_6)


# ---- packets of IP

def packet(payload, options=b'', total=None, fragment=0, protocol=UDP, version=4, words=None, size=None):
    """a packet of version 4 with a datagram"""
    words = 5 + len(options) // 4 if words is None else words
    inner = udp(payload, size)
    total = 20 + len(options) + len(inner) if total is None else total
    return (bytes([version * 16 + words, 0]) + numbers('big', (total, 2), (0, 2), (fragment, 2))
            + bytes([64, protocol]) + b'\0\0' + HOST + HOST + options + inner)


def packet_6(rest, following=UDP, size=None, source=HOST_6):
    size = len(rest) if size is None else size
    return b'\x60\0\0\0' + size.to_bytes(2, 'big') + bytes([following, 64]) + source + HOST_6 + rest


def extension(following, rest, units=0):
    """a header that is passed by its length, before the rest"""
    return bytes([following, units]) + bytes(6 + 8 * units) + rest


def fragment(octets, at, size, identification=1, more=None, source=HOST, offset=None, protocol=UDP):
    """a packet of version 4 with so many octets of another one's, from a place on"""
    part = octets[at:at + size]
    more = at + size < len(octets) if more is None else more
    place = (at // 8 if offset is None else offset) | (0x2000 if more else 0)
    return b'\x45\0' + numbers('big', (20 + len(part), 2), (identification, 2), (place, 2)) + bytes([64, protocol]) + b'\0\0' + source + HOST + part


def fragment_6(octets, at, size, identification=1, more=None, following=UDP, source=HOST_6, offset=None):
    part = octets[at:at + size]
    more = at + size < len(octets) if more is None else more
    place = (at if offset is None else 8 * offset) | more
    return packet_6(bytes([following, 0]) + numbers('big', (place, 2), (identification, 4)) + part, FRAGMENT, source=source)
