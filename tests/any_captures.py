#!/usr/bin/env python3
"""Tests the program with any capture: what it answers with `--any`.

    tests/any_captures.py PROGRAM

What is wanted was worked out, or is what the second implementation, bench/capture_reader.py, says. Each group prints a line
with what was counted. The last line is 'N passed, M failed'.
"""
import glob
import itertools
import json
import os
import random
import shutil
import subprocess
import sys

sys.dont_write_bytecode = True
import program
import capture_reader
import reference
from capture_writer import (ETHERNET, HOST, block, capture, cooked_1, cooked_2, enhanced, ethernet, extension, fragment, fragment_6,
                            interface, old, packet, packet_6, pcapng, record, section, simple, start, summed, tagged, udp, udp_4, udp_6)
from captures import BASE, DATAGRAM, FRAMED, HEADER, SHOWN, audited, with_octets
from program import ROOT, file_of, text_of
from random_captures import SOURCES, some_capture, some_crowd

ANY = ('--any',)
DAMAGED = 'rtps-audit: FILE: frame {} is damaged, or two captures are in one file (mergecap joins them)\n'
MOST_CAPTURED = 262144


# ---- what was worked out by hand

# The UDP header of the base packet and its octets, and the same with their checksum; so over IPv6.
INNER, SUMMED, SUMMED_6 = udp(DATAGRAM), udp_4(DATAGRAM), udp_6(DATAGRAM)


def halves(inner, identification=1):
    return [fragment(inner, at, size, identification) for at, size in ((0, 40), (40, 20))]


def thirds(inner, identification=1):
    return [fragment(inner, at, size, identification) for at, size in ((0, 24), (24, 24), (48, len(inner) - 48))]


def pieces_by_name(inner, write):
    """fragments F1, F2 and their kin: of another identification, with another end, with other octets in both, with another last
    octet, with a checksum that is wrong. `write` gives the checksum, or leaves it out"""
    changed = write(inner[:20] + b'\x7f' + inner[21:-1] + b'\x7f')
    wrong = inner[:6] + bytes([inner[6] ^ 1, 1]) + inner[8:]
    whole = {'F': halves(inner), 'G': halves(inner, 2), 'H': halves(inner[:39] + b'\x7f' + inner[40:]), 'I': halves(changed),
             'J': halves(inner[:-1] + b'\x7f'), 'K': halves(wrong)}
    return {f'{name}{place}': piece for name, pieces in whole.items() for place, piece in enumerate(pieces, 1)}


# Names of frames, and how many datagrams they give and how many are ignored: with the checksum 0, and with the right one.
PIECES = (
    ('F1 F2', (1, 0), (1, 0)), ('F2 F1', (1, 0), (1, 0)), ('F1', (0, 1), (0, 1)), ('F1 F1 F2 F2', (1, 0), (1, 0)),
    ('F1 G2', (0, 2), (0, 2)), ('H1 F1 F2', (1, 1), (1, 1)), ('F1 F2 I1 I2', (2, 0), (2, 0)), ('F1 F2 F1 F2', (2, 0), (2, 0)),
    ('F1 F2 F2', (1, 0), (1, 0)), ('F1 F2 F1 J2', (2, 0), (1, 1)), ('K1 F2', (0, 2), (0, 2)), ('F1 J2', (1, 0), (0, 2)),
    # The two of one packet and then those of another, each twice: the copy of the first one's end is not taken for the other's.
    ('F1 F1 F2 F2 I1 I1 I2 I2', None, (2, 0)), ('F2 F2 F1 F1 I2 I2 I1 I1', None, (2, 0)),
    # A head is lost. The end that stands alone is dropped, for it comes first.
    ('F2 I1 I2', None, (1, 1)), ('F1 I1 I2', (1, 1), (1, 1)), ('F2 F2 I1 I1 I2 I2 F1 F2', None, (2, 1)),
    # Wrong sums drop one piece each time.
    ('J2 F1 F2', None, (1, 1)), ('F2 J2 F1', (1, 1), (0, 3)), ('F1 J2 F2', None, (0, 3)), ('K1 F2 F1', (1, 1), (1, 1)),
)


def agreed(tests, name, octets, counts):
    """an audit says that so many datagrams came, so many of them refused, and so many frames were ignored"""
    tests.answers(name, 'audit', octets, audited(*counts), words=ANY)
    tests.agrees(name, octets, words=ANY)


def rows(tests):
    for name, octets in (('a raw IP packet', BASE), ('an Ethernet frame', FRAMED)):
        tests.answers(name, 'show', octets, SHOWN, words=ANY)
        agreed(tests, name, octets, (1, 0, 0))
    agreed(tests, 'a header alone', BASE[:24], (0, 0, 0))
    good, six = packet(DATAGRAM), packet_6(INNER)
    for kinds in ((0x8100,), (0x88a8, 0x8100), (0x9100,) * 5):
        agreed(tests, f'tags {kinds}', capture([tagged(good, kinds)], ETHERNET), (1, 0, 0))
    agreed(tests, 'ARP', with_octets(FRAMED, 24 + 16 + 12, '0806'), (0, 0, 1))
    sixes = {'raw IP': capture([six]), 'raw IPv6': capture([six], 229), 'Ethernet': capture([ethernet(six, 0x86dd)], ETHERNET),
             'hop-by-hop': capture([packet_6(extension(17, INNER), 0)]),
             'fragments': capture([fragment_6(SUMMED_6, 40, 20), fragment_6(SUMMED_6, 0, 40)]),
             'a fragment alone that is whole': capture([packet_6(bytes([17, 0, 0, 6, 0, 0, 0, 9]) + INNER, 44)])}
    for name, octets in sixes.items():
        agreed(tests, f'IPv6: {name}', octets, (1, 0, 0))
        tests.answers(f'IPv6: {name}', 'show', octets, SHOWN, words=ANY)
    for link, frame in ((113, cooked_1(good)), (276, cooked_2(good)), (0, b'\2\0\0\0' + good), (0, b'\0\0\0\2' + good),
                        (108, b'\0\0\0\2' + good), (228, good)):
        agreed(tests, f'link type {link}', capture([frame], link), (1, 0, 0))
    for order, write in itertools.product(('little', 'big'), (enhanced, simple, old)):
        agreed(tests, f'pcapng, {order}, {write.__name__}', pcapng([good], order=order, write=write), (1, 0, 0))
    agreed(tests, 'base without its last octet', BASE[:-1], (0, 0, 1))
    agreed(tests, 'pcapng without its last octet', pcapng([good])[:-1], (0, 0, 1))
    tests.refuses('a section alone that is none', bytes.fromhex('0a0d0d0a'), 'bad capture', words=ANY)
    tests.holds('the reasons', {'ignored': 4, 'pieces': 1, 'cut': 2, 'other': 1, 'links': 0},
                counts_of(tests, capture([halves(INNER)[0], good[:-1], b'\x50']) + b'\0' * 3))
    tests.answers('a text', 'audit', text_of([DATAGRAM]), audited(1, 0, 0).replace(' ignored 0', ''), words=ANY)
    print('rows worked out by hand')


def pieces(tests):
    # The words of the pseudo-header, of the UDP header and of the octets are 0x60307 in all, so 0x030d with the carry.
    tests.holds('the checksum of the base packet', 0xffff - 0x030d, int.from_bytes(SUMMED[6:8], 'big'))
    plain, right = pieces_by_name(INNER, lambda inner: inner), pieces_by_name(SUMMED, lambda inner: summed(inner, HOST, HOST))
    for names, without, with_sum in PIECES:
        for what, known, counts in (('no checksum', plain, without), ('a checksum', right, with_sum)):
            if counts is not None:
                agreed(tests, f'{names} with {what}', capture([known[name] for name in names.split()]), (counts[0], 0, counts[1]))
    for inner in (INNER, SUMMED):
        tests.answers('F1 F2', 'show', capture(halves(inner)), SHOWN, words=ANY)
    lying = [udp(DATAGRAM, size) for size in (0, 7, 61, 65535)]
    for inner in (*lying, *(summed(one, HOST, HOST) for one in lying)):
        agreed(tests, f'a UDP length of {inner[4:6].hex()}', capture(halves(inner)), (0, 0, 2))
    shorter = summed(udp(DATAGRAM[:-12], 48) + DATAGRAM[-12:], HOST, HOST)
    agreed(tests, 'a UDP length that is shorter', capture(halves(shorter[:6] + summed(shorter[:48], HOST, HOST)[6:8] + shorter[8:])), (1, 1, 0))
    agreed(tests, 'IPv6 without a checksum', capture([fragment_6(INNER, 0, 40), fragment_6(INNER, 40, 20)]), (0, 0, 2))
    three = [udp_4(DATAGRAM[:-1] + bytes([number])) for number in range(3)]
    sent = [piece for inner in three for piece in thirds(inner) for _ in range(2)]
    agreed(tests, 'three packets of three pieces, each frame twice', capture(sent), (3, 0, 0))
    agreed(tests, 'the same without the first piece of the first', capture(sent[2:]), (2, 0, 2))
    print(f'rows of pieces: {len(PIECES)}')


def pieces_of_other_sizes(tests):
    """two packets of one identification, of which the first lacks a piece and has more octets than the other, or fewer"""
    rng = random.Random(6)
    short, long = udp_4(rng.randbytes(52)), udp_4(rng.randbytes(72))
    for first, second in ((short, long), (long, short)):
        for lacking in range(3):
            sent = [piece for place, piece in enumerate(thirds(first)) if place != lacking] + thirds(second)
            agreed(tests, f'{len(first)} octets without piece {lacking}, then {len(second)}', capture(sent), (1, 1, 2))
    print('pieces of packets of two sizes: 6')


# ---- a key is forgotten once pieces of 64 other keys of the same hosts stand behind its last piece

def others(count, first=1000, times=1, source=HOST):
    """the first piece of so many other packets, so many times"""
    return [fragment(SUMMED, 0, 40, first + number, source=source) for _ in range(times) for number in range(count)]


def forgotten(tests):
    (f1, f2), good = halves(SUMMED), packet(DATAGRAM)
    whole = [piece for number in range(64) for piece in halves(SUMMED, 2000 + number)]
    sixes = [fragment_6(SUMMED_6, 0, 40, number) for number in range(64)]
    known = {
        '63 others': ([f1] + others(63) + [f2], 1, 63),
        '64 others': ([f1] + others(64) + [f2], 0, 66),
        '64 others of another source': ([f1] + others(64, source=SOURCES[4]) + [f2], 1, 64),
        '64 others over IPv6': ([f1] + sixes + [f2], 1, 64),
        '63 others, and 64 of another source': ([f1] + others(63) + others(64, source=SOURCES[4]) + [f2], 1, 127),
        '64 packets that are given': ([f1] + whole + [f2], 64, 2),
        '64 packets in one frame': ([f1] + [good] * 64 + [f2], 65, 0),
        '63 others, each three times': ([f1] + others(63, times=3) + [f2], 1, 63),
        '32 others twice, then 32 more': ([f1] + others(32, times=2) + others(32, 3000) + [f2], 0, 66),
        '63 others, a piece again, 63 others': ([f1] + others(63) + [f1] + others(63, 3000) + [f2], 1, 126),
        'the other piece behind 63 others, and its copy behind 63 more': ([f1] + others(63) + [f2] + others(63, 3000) + [f2], 1, 126),
        'a copy of the last piece behind 63 others': ([f1, f2] + others(63) + [f2], 1, 63),
        'a copy of the last piece behind 64 others': ([f1, f2] + others(64) + [f2], 1, 65),
        'copies of both behind 64 others': ([f1, f2] + others(64) + [f1, f2], 2, 64),
        'both behind 64 others, the first one before them, too': ([f1] + others(64) + [f1, f2], 1, 65),
        'the first one behind 64 others twice, and its other piece': ([f1] + others(64) + [f1, f1, f2], 1, 65),
        'forgotten twice': ([f1] + others(64) + [f1] + others(64) + [f2], 0, 131),
        '64 keys in turn': ([half for place in (0, 1) for half in (halves(SUMMED, number)[place] for number in range(64))], 64, 0),
        '65 keys in turn': ([half for place in (0, 1) for half in (halves(SUMMED, number)[place] for number in range(65))], 0, 130),
    }
    for name, (frames, datagrams, ignored) in known.items():
        agreed(tests, name, capture(frames), (datagrams, 0, ignored))
        tests.agrees(name, capture(frames), ('json',), ANY)
    print(f'what is forgotten: {len(known)}')


def crowds(tests):
    rng = random.Random(57)
    for i in range(60):
        tests.agrees(f'crowd {i}', capture(some_crowd(rng)), ('show', 'json'), ANY)
    print('crowds: 60')


def counts_of(tests, octets):
    told = json.loads(tests.run('json', octets, ANY)[0])
    return {name: told[name] for name in ('ignored', 'pieces', 'cut', 'other', 'links')}


# ---- each fragment recorded twice, as on a bond, a bridge or a VLAN; identifications that come again

def recorded_twice(tests):
    rng = random.Random(64)
    for lacking in (None, 0, 1):
        frames, wanted, ignored = [], [], 0
        for turn in range(4):
            for identification in range(64):
                # In each of its pieces are octets that no other packet has.
                payload = DATAGRAM[:8] + rng.randbytes(12) + DATAGRAM[20:-4] + rng.randbytes(4 + rng.randrange(40))
                sent = thirds(udp_4(payload), identification)
                if lacking is not None and rng.random() < 0.3:
                    del sent[lacking]
                    ignored += 2
                else:
                    wanted.append(payload)
                frames += [piece for piece in sent for _ in range(2)]
        octets = capture(frames)
        name = f'64 identifications four times, each frame twice, some packets without piece {lacking}'
        tests.holds(name, (len(wanted), ignored), counted(tests, octets))
        tests.holds(name, tests.run('show', text_of(wanted)), tests.run('show', octets, ANY))
        tests.agrees(name, octets, ('json',), ANY)
    print('recorded twice: 3 captures of 256 packets')


# ---- links that are not read

def links(tests):
    good = packet(DATAGRAM)
    two = section() + interface(ETHERNET) + interface(189) + enhanced(ethernet(good)) + enhanced(b'usb', 1)
    undeclared = section() + interface() + enhanced(good) + enhanced(good, 1) + enhanced(good, 2 ** 32 - 1)
    forgotten = section() + interface() + enhanced(good) + section('big') + simple(good, 'big') + interface(147, 'big') + enhanced(good, 0, 'big')
    for name, octets, datagrams, count, number in (('USB', two, 1, 1, 189), ('an interface that is not declared', undeclared, 1, 2, None),
                                                   ('interfaces of a section before', forgotten, 1, 2, None)):
        agreed(tests, name, octets, (datagrams, 0, count))
        tests.holds(name, {'ignored': count, 'pieces': 0, 'cut': 0, 'other': 0, 'links': count}, counts_of(tests, octets))
        told = ('1 frame is of a link that is not read, of type {}' if count == 1 else '{} frames are of links that are not read').format(number or count)
        tests.holds(f'check: {name}', f'not clean: there is no pair; {told}', tests.run('check', octets)[0].splitlines()[-1])
        checks(tests, name, octets)
    print('links: 3')


def checks(tests, name, octets):
    """`check`, `check --json` and `why` are what the second implementation says"""
    tests.agrees(name, octets, ('check', 'why'))
    tests.agrees(f'JSON of {name}', octets, ('check',), ('--json',))


# ---- damage: a captured length that no recorder writes

def damage(tests):
    good, long = packet(DATAGRAM), bytes(MOST_CAPTURED)
    agreed(tests, 'a frame of the most octets', capture([good, long]), (1, 0, 1))
    agreed(tests, 'a block of the most octets', pcapng([good, long]), (1, 0, 1))
    one_capture = start() + record(good, time=(1700000000, 5))
    files = {
        'one octet more': (2, capture([good, long + b'\0'])),
        'a length past the end of the file': (2, capture([good]) + record(good, size=MOST_CAPTURED + 1)),
        'the greatest length': (1, start() + record(b'', size=2 ** 32 - 1)),
        # The header of the second capture is a record of no octets, and what is behind it one of 1,700,000,000.
        'two captures in one file': (3, one_capture * 2),
        'an Enhanced Packet Block': (2, pcapng([good, long + b'\0'])),
        'an old Packet Block': (1, section() + interface() + old(long + b'\0')),
        'a Simple Packet Block': (1, section() + interface() + simple(long + b'\0', original=2 ** 32 - 1)),
        'a block whose frame passes it': (2, pcapng([good]) + enhanced(good, size=MOST_CAPTURED + 1)),
        'a link that is not read': (1, section() + interface(189) + enhanced(b'', size=2 ** 32 - 1)),
    }
    for name, (frame, octets) in files.items():
        tests.refuses(name, octets, 'bad capture', DAMAGED.format(frame), ANY)
        tests.agrees(name, octets, words=ANY)
        checks(tests, name, octets)
    agreed(tests, 'a Simple Packet Block of fewer octets', section() + interface(snap=MOST_CAPTURED) + simple(long + b'\0'), (0, 0, 1))
    agreed(tests, 'a record whose header is cut', capture([good]) + record(b'', size=2 ** 32 - 1)[:15], (1, 0, 1))
    agreed(tests, 'a block that passes the file', pcapng([good]) + enhanced(b'', size=2 ** 32 - 1)[:-1], (1, 0, 1))
    tests.passes('damage behind too many datagrams', capture([good, good]) + record(b'', size=2 ** 32 - 1), 1, 'datagrams', ANY + ('--max-datagrams', '1'))
    # Without --any the length alone is no fault.
    tests.answers('without --any: one octet more', 'audit', capture([good, long + b'\0']), audited(1, 0, 1))
    print(f'damage: {len(files) + 7}')


# ---- each cut, and each octet of the headers changed

def forms():
    good, six = packet(DATAGRAM), packet_6(extension(60, extension(17, INNER, 1)), 0)
    parts = [fragment_6(SUMMED_6, 0, 40), fragment_6(SUMMED_6, 40, 20)]
    first, last = halves(SUMMED)
    mixed = (section('big') + block(5, b'statistics', 'big') + interface(113, 'big') + simple(cooked_1(good), 'big', 300)
             + section() + interface(ETHERNET, snap=100) + interface(276) + old(tagged(good)) + enhanced(cooked_2(parts[1], 0x86dd), 1)
             + block(0xbad, b'') + enhanced(tagged(parts[0], (0x88a8, 0x8100), 0x86dd), 0))
    return {'Ethernet': capture([tagged(good), ethernet(parts[0], 0x86dd), ethernet(parts[1], 0x86dd)], ETHERNET), 'loopback': capture([b'\2\0\0\0' + good], 0, 'big'),
            'cooked': capture([cooked_1(six, 0x86dd)], 113), 'cooked 2': capture([cooked_2(good)], 276), 'raw': capture([first, six, last]), 'pcapng': mixed}


def cut_and_changed(tests):
    cuts = changes = 0
    for name, whole in forms().items():
        tests.agrees(name, whole, words=ANY)
        for length in range(len(whole)):
            tests.agrees(f'{name} cut to {length} octets', whole[:length], ('json',), ANY)
            cuts += 1
        places = [at for at in range(len(whole)) if not inside(whole, at)]
        for at in places:
            value = (whole[at] ^ 1, 0xff, 0)[at % 3]
            tests.agrees(f'{name}: octet {at} is {value}', whole[:at] + bytes([value]) + whole[at + 1:], ('json',), ANY)
            changes += 1
    print(f'cuts: {cuts}; changed octets: {changes}')


def inside(whole, at):
    """the octet is one of a datagram, and of no header"""
    found = whole.find(HEADER, max(0, at - len(DATAGRAM) + 1))
    return found != -1 and found <= at


# ---- fragments: each key has a packet of its own, so that one capture has many of them

def split(rng, octets, count):
    """so many pieces of these octets: the places where they begin, and how many octets they have"""
    cuts = sorted(rng.sample(range(8, len(octets), 8), count - 1))
    return list(zip([0] + cuts, [to - at for at, to in zip([0] + cuts, cuts + [len(octets)])]))


def orders(tests):
    rng, frames, wanted = random.Random(5), [], []
    for count in range(2, 6):
        for order in itertools.permutations(range(count)):
            payload = DATAGRAM + rng.randbytes(60)
            write, inner = (fragment, udp_4(payload)) if len(wanted) % 2 else (fragment_6, udp_6(payload))
            pieces = split(rng, inner, count)
            frames += [write(inner, *pieces[i], len(wanted)) for i in order]
            wanted.append(payload)
    octets = capture(frames)
    tests.agrees('each order of up to five fragments', octets, words=ANY)
    tests.holds('each order of up to five fragments', (len(wanted), 0), counted(tests, octets))
    twice = [frame for frame in frames for _ in range(2)]
    tests.holds('each of them twice', (len(wanted), 0), counted(tests, capture(twice)))
    print(f'orders: {len(wanted)}')


def unread(tests):
    """what was not read is a reason for `check`"""
    pieces, cut = capture([halves(SUMMED)[0], halves(SUMMED, 2)[1]]), capture(halves(SUMMED))
    part = '1 frame is a fragment of a packet that is not whole'
    for name, octets, words, wanted in (('pieces', pieces, (), '2 frames are fragments of packets that are not whole'), ('a cut file', cut[:-1], (), f'{part}; 1 frame is cut'),
                                        ('a pair of a cut file', cut[:-1], ('--expect', '1'), f'0 pairs of 1 expected; {part}; 1 frame is cut')):
        tests.holds(name, f'not clean: there is no pair; {wanted}', tests.run('check', octets, words)[0].splitlines()[-1])
    for name, octets in (('pieces', pieces), ('whole packets', cut), ('a cut file', cut[:-1])):
        checks(tests, name, octets)
    print('what is not read: 12')


def counted(tests, octets):
    told = json.loads(tests.run('json', octets, ANY)[0])
    return told['datagrams'], told['ignored']


def some_fragments(rng, key):
    """fragments of packets of one key, with repeats, overlaps, other ends, lost ones and wrong checksums"""
    write, summed_udp = (fragment, udp_4) if key % 2 else (fragment_6, udp_6)
    frames = []
    for _ in range(rng.randrange(1, 4)):
        payload = DATAGRAM + rng.randbytes(rng.randrange(40))
        inner = summed_udp(payload) if rng.random() < 0.85 else udp(payload, rng.choice([None, 4]))
        pieces = split(rng, inner, rng.randrange(2, 6))
        for at, size in rng.sample(pieces, len(pieces)):
            change = rng.random()
            if change < 0.08:
                continue
            if change < 0.16:
                at, size = max(0, at - 8 * rng.randrange(3)), size + 8 * rng.randrange(3)
            more = None if rng.random() < 0.95 else rng.random() < 0.5
            frames += [write(inner, at, size, key // 2 + 1, more)] * (1 if rng.random() < 0.85 else 2)
    return frames


def random_fragments(tests):
    rng = random.Random(55)
    for i in range(6):
        kept = [some_fragments(rng, key) for key in range(300)]
        if i % 2:
            places = sorted((key + 12 * rng.random(), key, at) for key, frames in enumerate(kept) for at in range(len(frames)))
            left = [iter(frames) for frames in kept]
            frames = [next(left[key]) for _, key, _ in places]
        else:
            frames = [frame for frames in kept for frame in frames]
        octets = pcapng(frames) if i % 3 else capture(frames)
        tests.agrees(f'random fragments {i}', octets, ('show', 'json'), ANY)
    print('random fragments: 6 captures of 300 keys')


def random_captures(tests):
    rng = random.Random(56)
    for i in range(300):
        octets = some_capture(rng)
        tests.agrees(f'random capture {i}', octets, ('show', 'json'), ANY)
        if i < 100 and not isinstance(reference.input_of(octets, any_form=True), str):
            checks(tests, f'random capture {i}', octets)
    print('random captures: 300')


# ---- limits, and what is much

def limits(tests):
    one = record(packet(b'')) * 2
    octets = capture(halves(SUMMED)) + one
    tests.answers('at most 3 datagrams', 'audit', octets, audited(3, 2, 0), words=ANY + ('--max-datagrams', '3'))
    tests.passes('at most 2 datagrams', octets, 2, 'datagrams', ANY + ('--max-datagrams', '2'))
    tests.passes('at most as many octets less one', octets, len(octets) - 1, 'octets', ANY + ('--max-octets', str(len(octets) - 1)))
    keys = b''.join(record(fragment(INNER, 0, 8, key % 65536, source=HOST[:3] + bytes([key // 65536]))) for key in range(300000))
    tests.holds('300,000 keys of one fragment each', {'ignored': 300000, 'pieces': 300000, 'cut': 0, 'other': 0, 'links': 0}, counts_of(tests, start() + keys))
    whole = udp_4(bytes(65507))
    pieces = [record(fragment(whole, at, 8)) for at in range(0, 65515, 8)]
    for name, frames in (('in order', pieces), ('in the other order', pieces[::-1])):
        tests.holds(f'a packet of {len(pieces)} fragments {name}', (1, 0), counted(tests, start() + b''.join(frames)))
    tests.holds('fragments in the other order, each packet without its first', (0, 2 * len(pieces) - 2),
                counted(tests, start() + b''.join(pieces[:0:-1]) + b''.join(record(fragment(whole, at, 8, 2)) for at in range(65512, 0, -8))))
    print('limits: 7')


# ---- what is told of a file that is refused

# What a file is that has a recording in a form that is not read, the octets that it begins with, and the command that makes a recording of it.
PACKED = (
    ('a gzip file', b'\x1f\x8b\x08\0', 'gunzip -c'),
    ('an xz file', b'\xfd7zXZ\0\0', 'xz -dc'),
    ('a zstd file', b'\x28\xb5\x2f\xfd', 'zstd -dc'),
    ('a text in UTF-16', b'\xff\xfe5\x002\x00', 'iconv -f UTF-16 -t ASCII'),
    ('a text in UTF-16', b'\xfe\xff\x005\x002', 'iconv -f UTF-16 -t ASCII'),
    ('a text that begins with a byte order mark', b'\xef\xbb\xbf5254', "sed '1s/^\\xef\\xbb\\xbf//'"),
)


def hints(tests):
    good = packet(DATAGRAM)
    told = 'rtps-audit: FILE: a pcapng file; --any reads it\n'
    tests.refuses('pcapng', pcapng([good]), 'line 2: bad hex', told)
    tests.refuses('Linux cooked', capture([cooked_1(good)], 113), 'bad capture', 'rtps-audit: FILE: frames of link type 113; --any reads them\n')
    tshark = "tshark -r IN -Y 'udp && !icmp' -T fields -e udp.payload >OUT makes a recording of it"
    for words in ((), ANY):
        tests.refuses('USB', capture([], 189), 'bad capture', f'rtps-audit: FILE: frames of link type 189; {tshark}\n', words)
    for what, start, command in PACKED:
        for view in ('show', 'list', 'audit', 'why', 'check'):
            told = f'rtps-audit: FILE: {what}; {command} FILE | rtps-audit {view} - reads {"it" if "text" in what else "what it holds"}\n'
            tests.refuses(what, start + b'\n', 'line 1: bad hex', told, views=(view,))
    tests.refuses('a cut capture', BASE[:-1], 'frame 1: cut', 'rtps-audit: FILE: the capture ends within a frame; --any reads what is whole\n')
    tests.refuses('a frame that passes its block', section() + interface() + enhanced(good, size=200), 'frame 1: cut', words=ANY)
    print('hints: 37')


# ---- captures that tools made

def stored(tests):
    files = sorted(glob.glob(os.path.join(ROOT, 'tests', 'captures', '*')) + glob.glob(os.path.join(ROOT, 'examples', '*.pcap*')))
    for name in files:
        octets = file_of(name)
        tests.agrees(os.path.basename(name), octets, words=ANY)
    compared = 0
    if shutil.which('tshark'):
        for name in files:
            compared += compare_datagrams(tests, name)
        print(f'captures that tools made: {len(files)}, with {compared} datagrams as tshark has them')
    else:
        print(f'captures that tools made: {len(files)}; tshark is not installed')


def compare_datagrams(tests, name):
    """the datagrams of a capture are those that tshark finds"""
    words = ['tshark', '-r', name, '-o', 'ip.defragment:TRUE', '-o', 'ipv6.defragment:TRUE', '-Y', 'udp && !icmp && !icmpv6', '-T', 'fields', '-e', 'udp.payload']
    told = subprocess.run(words, capture_output=True, check=True).stdout.decode().split()
    mine = capture_reader.read_capture(file_of(name), capture_reader.ANY).datagrams
    tests.holds(f'{os.path.basename(name)}: as tshark', told, [datagram.hex() for datagram in mine if datagram])
    shown = tests.run('show', file_of(name), ANY)[0]
    tests.holds(f'{os.path.basename(name)}: show', tests.run('show', text_of(mine))[0], shown)
    return len(told)


if __name__ == '__main__':
    sys.exit(program.main(__doc__, (rows, pieces, pieces_of_other_sizes, recorded_twice, forgotten, crowds, links, damage, cut_and_changed, orders, unread,
                                     random_fragments, random_captures, limits, hints, stored)))
