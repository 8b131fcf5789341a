"""Random captures, for comparisons with the second implementation: files of both forms with whole packets, pieces in every
disorder and what is no UDP, some of them cut or changed.
"""
from capture_writer import (ETHERNET, HOST, HOST_6, IPV4, IPV6, MICROSECONDS, NANOSECONDS, block, cooked_1, cooked_2, enhanced,
                            extension, fragment, fragment_6, interface, old, option, packet, packet_6, record, section, simple, start,
                            summed, tagged, udp)
from random_recordings import A, some_delivery

READ = (0, 108, 1, 101, 113, 276, 228, 229)
UNREAD = (189, 147, 65535)
MOST_CAPTURED = 262144
SOURCES = {4: HOST[:3] + b'\2', 6: HOST_6[:15] + b'\2'}


# ---- what is sent

def some_payload(rng):
    """a message of some HEARTBEATs, of which `show` prints each octet that differs; or what is none"""
    if rng.random() < 0.12:
        return rng.choice([b'', b'RTPS\2\5\0\0' + A, rng.randbytes(rng.randrange(60))])
    beats = b''.join(b'\7\0\0\x1c' + bytes(4) + b'\0\0\1\3' + bytes(7) + bytes([rng.randrange(1, 9)]) + bytes(7) + bytes([rng.randrange(9, 99)])
                     + rng.randbytes(4) for _ in range(rng.randrange(1, 5)))
    return b'RTPS\2\5\0\0' + rng.randbytes(12) + beats + bytes(rng.choice([0, 0, 0, 1, 2, 3]))


def some_inner(rng, version, source, payload):
    """a UDP header and its octets: mostly with the right checksum, else with none or another, or with another length"""
    chance = rng.random()
    inner = summed(udp(payload), source, {4: HOST, 6: HOST_6}[version])
    if chance < 0.12:
        return udp(payload)
    if chance < 0.2:
        return udp(payload, checksum=rng.choice([1, 0xffff, rng.randrange(65536)]))
    if chance < 0.26:
        return summed(udp(payload, size=max(0, len(inner) + rng.choice([-1, -2, -20, 1, 8, -len(inner), 7 - len(inner)]))), source, {4: HOST, 6: HOST_6}[version])
    return inner


def some_whole(rng, payload):
    """the version of a packet in one frame, and this packet"""
    if rng.random() < 0.5:
        words = {name: rng.randrange(values) for name, values in
                 (('total', 80), ('fragment', 65536), ('protocol', 256), ('version', 16), ('words', 16), ('size', 80)) if rng.random() < 0.05}
        if rng.random() < 0.06:
            # What is no UDP, or cannot be, is so also where its captured octets end.
            words |= {'total': rng.choice([19, 20, 24, 65535]), rng.choice(['protocol', 'words', 'fragment']): rng.choice([1, 4, 5, 6, 17])}
            if 'words' in words:
                words['words'] = min(words['words'], 15)
        return 4, packet(payload, options=bytes(4 * rng.choice([0, 0, 0, 1, 10])), **words)
    rest, following = some_inner(rng, 6, HOST_6, payload), 17
    for _ in range(rng.choice([0, 0, 1, 1, 2, 3])):
        kind = rng.choice([0, 43, 60, 44])
        units = 0 if kind == 44 else rng.choice([0, 0, 1, 2, rng.randrange(256) if rng.random() < 0.05 else 0])
        rest, following = extension(following, rest, units), kind
    following = rng.choice([6, 58, 59, 44, 0]) if rng.random() < 0.08 else following
    size = rng.choice([rng.randrange(200), 65535]) if rng.random() < 0.08 else None
    return 6, packet_6(rest, following, size)


# ---- pieces

def some_places(rng, size):
    """where pieces of so many octets begin, and how many they have"""
    inner = range(8, size, 8)
    cuts = sorted(rng.sample(inner, min(len(inner), rng.choice([1, 1, 1, 2, 2, 3, 4]))))
    return list(zip([0] + cuts, [to - at for at, to in zip([0] + cuts, cuts + [size])]))


def some_pieces(rng, key, payload):
    """the pieces of a packet of this key: now and then one is lost, comes again, or reaches over another one; the last one is
    none, or lies elsewhere"""
    version, source, identification = key
    inner = some_inner(rng, version, source, payload)
    write = fragment if version == 4 else fragment_6
    places = some_places(rng, len(inner))
    if rng.random() < 0.06:
        places.append((len(inner) - len(inner) % 8, 0))
    pieces = []
    for at, size in places:
        change, more = rng.random(), None
        if change < 0.05:
            at, size = max(0, at - 8 * rng.randrange(3)), size + 8 * rng.randrange(3)
        elif change < 0.08:
            more = rng.random() < 0.5
        elif change < 0.1:
            at, size = at, max(0, size - rng.randrange(9))
        octets, words = inner, {}
        if change > 0.95 and size:
            spoilt = at + rng.randrange(size) if at + size <= len(inner) else 0
            octets = inner[:spoilt] + bytes([inner[spoilt] ^ rng.choice([1, 1, 0x80])]) + inner[spoilt + 1:]
        elif change > 0.94:
            words = {'offset': rng.choice([8191, 8190, 8191 - len(inner) // 8, rng.randrange(8192)])}
        elif change > 0.935:
            words = {'protocol': 6} if version == 4 else {'following': 60}
        pieces.append(write(octets, at, size, identification, more, source=source, **words))
    return pieces


def in_disorder(rng, pieces):
    """as they are sent, in turns or mixed; each of them twice; or some of them lost"""
    chance = rng.random()
    if chance < 0.3:
        rng.shuffle(pieces)
    elif chance < 0.4:
        pieces.reverse()
    how = rng.random()
    if how < 0.25:
        return [piece for piece in pieces for _ in range(2)]
    if how < 0.32:
        return pieces * 2
    lost, again = (0.1, 0.1) if how < 0.7 else (0, 0)
    return [piece for piece in pieces if rng.random() >= lost for _ in range(2 if rng.random() < again else 1)]


def some_packets_in_pieces(rng):
    """packets of few keys, so that identifications come again, each as the frames that carry it"""
    keys = [(version, SOURCES[version] if rng.random() < 0.3 else {4: HOST, 6: HOST_6}[version], rng.choice([1, 1, 65535]))
            for version in rng.choices([4, 4, 6], k=rng.choice([1, 1, 2, 3]))]
    return [[(key[0], piece) for piece in in_disorder(rng, some_pieces(rng, key, some_payload(rng)))]
            for key in rng.choices(keys, k=rng.randrange(1, 6))]


def some_crowd(rng):
    """pieces of many packets of one version, between one host and another or two, in turns: about 64 other keys stand between two pieces of one"""
    version, parts = rng.choice([4, 4, 6]), rng.choice([2, 2, 3, 4])
    sources = [{4: HOST, 6: HOST_6}[version], SOURCES[version]][:rng.choice([1, 1, 2])]
    identifications = rng.choice([10 ** 4, 10 ** 4, 66, 65, 64, 130])
    # Of each key that comes in this time about so many pieces come.
    apart = len(sources) * (64 // parts + rng.choice([-6, -2, -1, 0, 0, 1, 2, 6, 30]))
    haste = rng.choice([0, 0, 1, 3])
    placed = []
    for number in range(rng.choice([70, 140, 260])):
        pieces = some_pieces(rng, (version, rng.choice(sources), number % identifications), some_payload(rng))
        for place, piece in enumerate(pieces):
            for _ in range(rng.choice([1, 1, 1, 1, 2]) if rng.random() < 0.97 else 0):
                placed.append((number + place * apart + haste * rng.random(), len(placed), piece))
    return [piece for _, _, piece in sorted(placed)]


def some_traffic(rng):
    """packets with their versions, in the order in which they come"""
    if rng.random() < 0.1:
        return [(4, packet(payload)) for payload in some_delivery(rng)]
    groups = some_packets_in_pieces(rng) if rng.random() < 0.75 else []
    groups += [[some_whole(rng, some_payload(rng))] for _ in range(rng.randrange(5))]
    if rng.random() < 0.7:
        rng.shuffle(groups)
    sent = [one for group in groups for one in group]
    if rng.random() < 0.25:
        # what is sent at one time comes in turns
        sent = [one for _, one in sorted(enumerate(sent), key=lambda placed: placed[0] + rng.random() * rng.choice([3, 12]))]
    return sent


def some_frame(rng, link, version, octets):
    """a packet with what stands in front of it on this link"""
    kind = {4: IPV4, 6: IPV6}[version] if rng.random() < 0.97 else rng.choice([IPV4, IPV6, 0x0806, 0x8100, 0x0040])
    tags = tuple(rng.choice([0x8100, 0x88a8, 0x9100]) for _ in range(rng.choice([0, 0, 0, 1, 2])))
    octets += bytes(rng.choice([0, 0, 0, 0, 4, 18]))
    if link == ETHERNET:
        frame = tagged(octets, tags, kind)
    elif link in (113, 276):
        write, (type_at, rest_at) = {113: (cooked_1, (14, 16)), 276: (cooked_2, (0, 20))}[link]
        # A tag begins with the octets that the type of the header stands for.
        frame = write(octets, kind) if not tags else write(tagged(octets, tags, kind)[14:], tags[0])
    else:
        frame = {0: rng.choice([b'\2\0\0\0', b'\0\0\0\x1e']), 108: b'\0\0\0\2'}.get(link, b'') + octets
    if rng.random() < 0.02 and frame:
        at = rng.randrange(min(len(frame), 60))
        frame = frame[:at] + bytes([rng.choice([0, 0xff, frame[at] ^ 1, rng.randrange(256)])]) + frame[at + 1:]
    return frame[:rng.randrange(len(frame) + 1)] if rng.random() < 0.02 else frame


# ---- files

def some_classic(rng, traffic):
    order, magic = rng.choice(['little', 'big']), rng.choice([MICROSECONDS, NANOSECONDS])
    link = rng.choice([1, 1, 1, 101, 101, *READ]) if rng.random() < 0.97 else rng.choice(UNREAD)
    major = 2 if rng.random() < 0.99 else rng.choice([1, 3, 512])
    octets = start(link + 65536 * rng.choice([0, 0, 0, 0xf000]), order, magic, major, rng.choice([4, 4, 4, 3, 0]))
    for version, sent in traffic:
        frame = some_frame(rng, link, version, sent)
        size = some_size(rng, len(frame))
        octets += record(frame, order, size, rng.choice([None, None, 0, 1500]), (rng.getrandbits(32), rng.getrandbits(rng.choice([20, 30, 32]))))
    return octets


def some_size(rng, size):
    """a captured length, which seldom lies"""
    if rng.random() < 0.996:
        return size
    return rng.choice([size + 1, max(0, size - 1), size + 16, 0, MOST_CAPTURED, MOST_CAPTURED + 1, rng.getrandbits(32)])


def some_options(rng, order):
    """of an interface: mostly what tells its time, sometimes what breaks a rule"""
    options = [rng.choice([
        lambda: option(9, bytes([rng.choice([6, 9, 3, 0, 12, 18, 20, 127, 128, 128 + 10, 128 + 32, 255])]), order),
        lambda: option(14, rng.choice([1000, -1, -2 ** 63, 2 ** 63 - 1]).to_bytes(8, order, signed=True), order),
        lambda: option(2, b'eth0'[:rng.randrange(5)], order), lambda: option(1, b'a comment', order),
        lambda: option(9, bytes(rng.choice([0, 2, 4])), order), lambda: option(14, bytes(rng.choice([0, 4, 9])), order)])()
        for _ in range(rng.choice([0, 0, 1, 1, 2, 3]))]
    if options and rng.random() < 0.05:
        options[-1] = options[-1][:-4] or options[-1]
    return b''.join(options) + (option(0, b'', order) if options and rng.random() < 0.8 else b'')


def some_section(rng, traffic):
    order = rng.choice(['little', 'big'])
    links = [rng.choice([1, 1, 101, *READ]) if rng.random() < 0.9 else rng.choice(UNREAD) for _ in range(rng.choice([1, 1, 1, 2, 3]))]
    octets = section(order, 1 if rng.random() < 0.997 else rng.choice([0, 2, 256]), rng.choice([b'', b'', option(3, b'Linux', order)]))
    declared = [interface(link, order, rng.choice([0, 0, 0, 60, 65535]), some_options(rng, order)) for link in links]
    late = declared.pop() if len(declared) > 1 and rng.random() < 0.1 else b''
    octets += b''.join(declared)
    for version, sent in traffic:
        number = rng.randrange(len(links)) if rng.random() < 0.97 else rng.choice([len(links), 65535, 65536, 2 ** 32 - 1])
        frame = some_frame(rng, links[number] if number < len(links) else 1, version, sent)
        if rng.random() < 0.1:
            octets += some_other_block(rng, order, frame)
        octets += some_packet_block(rng, order, number, frame) + late
        late = b''
    return octets + (some_other_block(rng, order, b'') if rng.random() < 0.3 else b'')


def some_packet_block(rng, order, number, frame):
    size, time = some_size(rng, len(frame)), rng.getrandbits(rng.choice([0, 31, 51, 61, 64]))
    if rng.random() < 0.2:
        return simple(frame, order, rng.choice([None, None, None, 0, 40, 1500, 2 ** 32 - 1]))
    if rng.random() < 0.3:
        return old(frame, number % 65536, order, size, time)
    return enhanced(frame, number, order, size, time, rng.choice([b'', b'', b'', option(2, bytes(4), order) + option(0, b'', order)]))


def some_other_block(rng, order, octets):
    """a block that is passed over; or one whose length or repetition cannot be"""
    chance = rng.random()
    if chance < 0.03:
        return block(rng.choice([1, 2, 3, 5, 6, 0x0a0d0d0a]), b'', order)
    if chance < 0.06:
        return block(rng.choice([5, 6]), bytes(24), order, rng.choice([0, 8, 11, 34, 37, 40, 2 ** 32 - 4]))
    if chance < 0.08:
        whole = block(5, bytes(12), order)
        return whole[:-4] + rng.randbytes(4)
    return block(rng.choice([4, 5, 9, 10, 0xbad, 0x40000bad, 0x80000001]), octets, order)


def some_pcapng(rng, traffic):
    cuts = sorted(rng.randrange(len(traffic) + 1) for _ in range(rng.choice([0, 0, 0, 1, 2])))
    return b''.join(some_section(rng, traffic[at:to]) for at, to in zip([0] + cuts, cuts + [len(traffic)]))


def some_capture(rng):
    """the octets of a file that is mostly a capture"""
    write = some_classic if rng.random() < 0.55 else some_pcapng
    octets = write(rng, some_traffic(rng))
    chance = rng.random()
    if chance < 0.04:
        octets += write(rng, some_traffic(rng))        # two captures in one file
    elif chance < 0.08:
        octets += rng.randbytes(rng.randrange(1, 40))
    elif chance < 0.12 and octets:
        at = rng.randrange(len(octets)) if rng.random() < 0.5 else rng.randrange(min(60, len(octets)))
        octets = octets[:at] + bytes([rng.choice([0, 0xff, octets[at] ^ 1, rng.randrange(256)])]) + octets[at + 1:]
    return octets[:rng.randrange(len(octets) + 1)] if rng.random() < 0.1 else octets
