#!/usr/bin/env python3
"""Tests the program with captures: whole ones, cut and changed ones, and what their frames may be.

    tests/captures.py PROGRAM

What is wanted was worked out, or is what the second implementation, bench/reference.py, says. Each group prints a line
with what was counted. The last line is 'N passed, M failed'.
"""
import os
import random
import re
import subprocess
import sys

sys.dont_write_bytecode = True
import program
import reference
from capture_writer import ETHERNET, MICROSECONDS, NANOSECONDS, RAW_IP, capture, ethernet, packet, record, start, udp
from program import VIEWS, file_of

A, B = b'\xaa' * 12, b'\xbb' * 12
HEADER = b'RTPS\2\5\0\0' + A
HEARTBEAT = bytes.fromhex('07011c00 00000000 00000103 00000000 01000000 00000000 00000000 01000000')
DATAGRAM = HEADER + HEARTBEAT
SHOWN = ('datagram 1 version 2.5 vendor 0000 prefix aaaaaaaaaaaaaaaaaaaaaaaa\n'
         'heartbeat 20 le reader 00000000 writer 00000103 first 1 last 0 count 1 final 0 live 0 '
         'from aaaaaaaaaaaaaaaaaaaaaaaa to all time none\n')
CUT = 'rtps-audit: FILE: the capture ends within a frame; --any reads what is whole\n'


def last_line(datagrams, refused, ignored):
    return (f'datagrams {datagrams} refused {refused} skipped 0 fragments 0 undirected 0 unsettled 0'
            f' ignored {ignored}\n')


def audited(datagrams, refused, ignored):
    return 'pairs 0\n' + last_line(datagrams, refused, ignored)


# ---- what was worked out by hand

# How a capture of one raw IP packet and how one of an Ethernet frame lie, octet by octet.
BASE = bytes.fromhex('d4c3b2a1 02000400 00000000 00000000 ffff0000 65000000'
                     '00000000 00000000 50000000 50000000'
                     '45000050 00000000 40110000 7f000001 7f000001'
                     '1ce81ce8 003c0000') + DATAGRAM
FRAMED = bytes.fromhex('a1b23c4d 00020004 00000000 00000000 0000ffff 00000001'
                       '00000000 00000000 0000005e 0000005e'
                       'ffffffffffff 020000000001 0800'
                       '45000050 00000000 40110000 7f000001 7f000001'
                       '1ce81ce8 003c0000') + DATAGRAM


def with_octets(octets, at, new):
    new = bytes.fromhex(new)
    return octets[:at] + new + octets[at + len(new):]


def rows(tests):
    tests.answers('a header alone', 'audit', BASE[:24], audited(0, 0, 0))
    tests.answers('a header alone', 'show', BASE[:24], '')
    tests.answers('a header alone', 'list', BASE[:24], 'participants 0 endpoints 0 unsettled 0 faults 0\n')
    for name, octets in (('a raw IP packet', BASE), ('an Ethernet frame', FRAMED)):
        tests.answers(name, 'show', octets, SHOWN)
        tests.answers(name, 'audit', octets, audited(1, 0, 0))
    tests.answers('ARP', 'audit', with_octets(FRAMED, 24 + 16 + 12, '0806'), audited(0, 0, 1))
    ip = 24 + 16
    tests.answers('a fragment with more behind it', 'audit', with_octets(BASE, ip + 6, '2000'), audited(0, 0, 1))
    tests.answers('TCP', 'audit', with_octets(BASE, ip + 9, '06'), audited(0, 0, 1))
    tests.answers('a UDP length past the packet', 'audit', with_octets(BASE, ip + 24, '003d'), audited(0, 0, 1))
    short = with_octets(BASE, ip + 24, '0008')
    tests.answers('an empty datagram', 'show', short, 'datagram 1 unread\nrefused 0 Short\n')
    tests.answers('an empty datagram', 'audit', short, audited(1, 1, 0))
    padded = with_octets(BASE, 24 + 8, '54000000') + bytes(4)
    tests.answers('padding', 'show', padded, SHOWN)
    tests.answers('padding', 'audit', padded, audited(1, 0, 0))
    tests.refuses('the last octet lacks', BASE[:-1], 'frame 1: cut', CUT)
    tests.refuses('a header without its last octet', BASE[:23], 'bad capture')
    other = with_octets(BASE, 20, '71000000')
    tests.refuses('another link type', other, 'bad capture', 'rtps-audit: FILE: frames of link type 113; --any reads them\n')
    tests.refuses('another link type, header alone', other[:24], 'bad capture', 'rtps-audit: FILE: frames of link type 113; --any reads them\n')
    tests.refuses('another major version', with_octets(BASE, 4, '0300'), 'bad capture')
    tests.answers('another minor version', 'show', with_octets(BASE, 6, 'ffff'), SHOWN)
    tests.answers('what stands above the link type', 'show', with_octets(BASE, 22, '00f4'), SHOWN)
    tests.refuses('pcapng', bytes.fromhex('0a0d0d0a 1c000000 4d3c2b1a 01000000'), 'line 2: bad hex',
                  'rtps-audit: FILE: a pcapng file; --any reads it\n')
    tests.answers('three octets of a magic are text', 'audit', b'', audited(0, 0, 0).replace(' ignored 0', ''))
    for size in range(1, 4):
        tests.refuses(f'{size} octets of a magic are text', BASE[:size], 'line 1: bad hex')
    pose = reference.recording_of(file_of('examples', 'pose.rec'))
    for view in VIEWS:
        wanted = file_of('tests', 'examples', f'pose.{view}').decode()
        packets = capture([packet(d) for d in pose])
        if view == 'audit':
            wanted = wanted[:-1] + ' ignored 0\n'
        if view == 'json':
            # All frames come at the same time, the first of the capture.
            wanted = re.sub(r'("at":\d+)', r'\1,"time":0.000', wanted[:-2]) + ',"ignored":0}\n'
        if view == 'audit':
            tests.answers('the datagrams of pose.rec as raw IP, from 3 on', view, packets, wanted, words=('--from', '3'))
        tests.answers('the datagrams of pose.rec as raw IP', view, packets, wanted)
        framed = [ethernet(packet(d)) for d in pose]
        tests.answers('the same in Ethernet frames', view, capture(framed, ETHERNET), wanted)
        mixed = [f for frame in framed for f in (ethernet(b'', 0x0806), frame, b'')]
        tests.answers('ignored frames between', view, capture(mixed, ETHERNET), wanted.replace('ignored 0', 'ignored 12').replace('"ignored":0', '"ignored":12'))
    print('rows worked out by hand')


# ---- each cut, and each octet of the headers changed

def small(link, order, magic):
    frames = [packet(DATAGRAM), packet(b'', options=b'\1\1\1\0'), packet(HEADER + b'\1', fragment=0x4000) + b'\0\0']
    if link == ETHERNET:
        frames = [ethernet(frame) for frame in frames]
    return capture(frames, link, order, magic)


def cut_and_changed(tests):
    whole = small(ETHERNET, 'big', NANOSECONDS)
    # What stands before the first datagram: the header of the capture, and those of its frame.
    headers = 24 + 16 + 14 + 20 + 8
    for length in range(len(whole)):
        tests.agrees(f'cut to {length} octets', whole[:length], ('audit',))
    changes = [(at, value) for at in range(headers) for value in {0, 0xff, whole[at] ^ 1} - {whole[at]}]
    for at, value in changes:
        tests.agrees(f'octet {at} is {value}', whole[:at] + bytes([value]) + whole[at + 1:], ('audit',))
    print(f'cuts: {len(whole)}; changed octets: {len(changes)}')


# ---- what frames may be

def kinds(tests):
    good, six = packet(DATAGRAM), b'\x60' + bytes(39) + udp(DATAGRAM)
    frames = {
        'options': packet(DATAGRAM, options=b'\1' * 4), 'most options': packet(DATAGRAM, options=b'\1' * 40),
        'options past the header': packet(DATAGRAM, words=6), 'a header of 16 octets': packet(DATAGRAM, words=4),
        'no header': packet(DATAGRAM, words=0), 'version 6 on 4': packet(DATAGRAM, version=6), 'IPv6': six,
        'the first fragment': packet(DATAGRAM, fragment=0x2000), 'the last fragment': packet(DATAGRAM, fragment=1),
        'a fragment at the greatest offset': packet(DATAGRAM, fragment=0x1fff),
        'do not fragment': packet(DATAGRAM, fragment=0x4000), 'the reserved flag': packet(DATAGRAM, fragment=0x8000),
        'TCP': packet(DATAGRAM, protocol=6), 'ICMP': packet(DATAGRAM, protocol=1),
        'an empty datagram': packet(b''), 'a UDP length of 7': packet(DATAGRAM, size=7), 'a UDP length of 0': packet(DATAGRAM, size=0),
        'a shorter UDP length': packet(DATAGRAM, size=8 + 20), 'a longer UDP length': packet(DATAGRAM, size=len(DATAGRAM) + 9),
        'a longer UDP length over padding': packet(DATAGRAM, size=len(DATAGRAM) + 9) + bytes(4),
        'padding': good + b'\xff' * 18, 'a shorter total length': packet(DATAGRAM, total=len(good) - 1),
        'a longer total length': packet(DATAGRAM, total=len(good) + 1), 'a total length of 27': packet(b'', total=27),
        'the total length of no datagram': packet(b'', total=28), 'no octet': b'', 'one octet': b'\x45', '19 octets': good[:19],
        '20 octets': good[:20], '28 octets': good[:28], 'the greatest datagram': packet(bytes(65535 - 28)),
    }
    count = 0
    for name, frame in frames.items():
        for link, octets in ((RAW_IP, frame), (ETHERNET, ethernet(frame))):
            order, magic = (('little', MICROSECONDS), ('big', NANOSECONDS))[count // 2 % 2]
            tests.agrees(f'{name}, {order}, link {link}', capture([octets, octets], link, order, magic), ('show', 'audit'))
            count += 1
    others = {'VLAN': ethernet(b'\0\1\x08\0' + good, 0x8100), 'IPv6': ethernet(six, 0x86dd), 'ARP': ethernet(bytes(28), 0x0806),
              'the length of an LLC frame': ethernet(good, 0x0040), '13 octets': ethernet(b'')[:13], '14 octets': ethernet(b'')}
    for name, frame in others.items():
        tests.agrees(name, capture([frame], ETHERNET))
        count += 1
    for snap in (0, 14, 28, 34, 42, 60, 93):
        whole = ethernet(good)
        tests.agrees(f'a snap length of {snap}', start(ETHERNET) + record(whole[:snap], original=len(whole)), ('show', 'audit'))
        count += 1
    print(f'kinds of frames: {count}')


def some_frame(rng):
    payload = rng.choice([b'', HEADER, DATAGRAM, HEADER + HEARTBEAT * 3, rng.randbytes(rng.randrange(60))])
    words = {}
    if rng.random() < 0.3:
        words['options'] = bytes(4 * rng.randrange(11))
    for name, values in (('total', 80), ('fragment', 65536), ('protocol', 256), ('version', 16), ('words', 16), ('size', 80)):
        if rng.random() < 0.08:
            words[name] = rng.randrange(values)
    return packet(payload, **words) + bytes(rng.choice([0, 0, 0, 4, 18]))


def random_captures(tests):
    rng = random.Random(13)
    for i in range(80):
        link, order, magic = rng.choice([ETHERNET, RAW_IP]), rng.choice(['little', 'big']), rng.choice([MICROSECONDS, NANOSECONDS])
        frames = [some_frame(rng) for _ in range(rng.randrange(8))]
        if link == ETHERNET:
            frames = [ethernet(frame, rng.choice([0x0800] * 9 + [0x0806])) for frame in frames]
        octets = capture(frames, link, order, magic)
        if rng.random() < 0.2:
            octets = octets[:rng.randrange(len(octets) + 1)]
        if rng.random() < 0.2 and octets:
            at = rng.randrange(len(octets))
            octets = octets[:at] + rng.randbytes(1) + octets[at + 1:]
        tests.agrees(f'random capture {i}', octets, ('show', 'audit'))
    print('random captures: 80')


# ---- pipes

def piped(tests, pieces):
    """what an audit answers of octets that come in pieces"""
    child = subprocess.Popen([tests.program, 'audit', '-'], stdin=subprocess.PIPE, stdout=subprocess.PIPE, stderr=subprocess.PIPE)
    for piece in pieces:
        os.write(child.stdin.fileno(), piece)
    output, error = child.communicate()
    return output.decode(), error.decode(), child.returncode


def pipes(tests):
    octets = small(ETHERNET, 'little', MICROSECONDS)
    wanted = reference.answer('audit', octets)[0], '', 0
    tests.holds('an octet a write', wanted, piped(tests, [octets[i:i + 1] for i in range(len(octets))]))
    for cut in (1, 2, 3, 4, 5, 23, 24, 25, 40):
        tests.holds(f'a cut at {cut}', wanted, piped(tests, [octets[:cut], octets[cut:]]))
    large = capture([ethernet(packet(bytes(1400))) for _ in range(300)], ETHERNET)
    size = 65536
    tests.holds('more than a pipe holds', (audited(300, 300, 0), '', 0), piped(tests, [large[i:i + size] for i in range(0, len(large), size)]))
    text = b'# a1b2\n' + DATAGRAM.hex().encode() + b'\n'
    said = audited(1, 0, 0).replace(' ignored 0', '')
    tests.holds('a text, an octet a write', (said, '', 0), piped(tests, [text[i:i + 1] for i in range(len(text))]))
    print('pipes: 12')


# ---- limits, which are the same in each view

ALONE = ('audit',)


def limits(tests):
    empty = record(packet(b''))
    tests.answers('1,000,000 datagrams', 'audit', start() + empty * 1000000, audited(1000000, 1000000, 0))
    tests.passes('1,000,001 datagrams', start() + empty * 1000001, 1000000, 'datagrams', views=ALONE)
    tests.answers('1,000,001 datagrams', 'audit', start() + empty * 1000001, audited(1000001, 1000001, 0), words=('--max-datagrams', '1000001'))
    tests.refuses('1,000,000 datagrams and a frame that is cut', start() + empty * 1000000 + empty[:-1], 'frame 1000001: cut', CUT, views=ALONE)
    tests.passes('1,000,001 datagrams and a frame that is cut', start() + empty * 1000001 + empty[:-1], 1000000, 'datagrams', views=ALONE)
    tests.answers('2,000,000 ignored frames', 'audit', start() + record(b'') * 2000000, audited(0, 0, 2000000))
    most = 2 ** 30
    frame = record(bytes(65535 * 16))
    count = (most - 24) // len(frame)
    rest = most - 24 - count * len(frame)
    whole = start() + frame * count + record(bytes(rest - 16))
    assert len(whole) == most
    tests.answers('1,073,741,824 octets', 'audit', whole, audited(0, 0, count + 1))
    tests.passes('1,073,741,825 octets', whole + b'\0', most, 'octets', views=ALONE)
    tests.passes('1,073,741,825 octets of another version', whole[:4] + b'\3' + whole[5:] + b'\0', most, 'octets', views=ALONE)
    tests.refuses('1,073,741,825 octets', whole + b'\0', f'frame {count + 2}: cut', CUT, ('--max-octets', str(most + 1)), ALONE)
    print('limits: 10')


# ---- limits that are chosen: three datagrams with a frame between that gives none

def chosen_limits(tests):
    ignored = record(b'')
    octets = start() + record(packet(b'')) + ignored + record(packet(b'')) * 2
    size = len(octets)
    for most in (3, 4, 2 ** 63 - 1):
        tests.answers(f'at most {most} datagrams', 'audit', octets, audited(3, 3, 1), words=('--max-datagrams', str(most)))
    for most in (1, 2):
        tests.passes(f'at most {most} datagrams', octets, most, 'datagrams', ('--max-datagrams', str(most)))
    tests.answers('ignored frames behind the last datagram', 'audit', octets + ignored, audited(3, 3, 2), words=('--max-datagrams', '3'))
    tests.refuses('a frame that is cut behind the last datagram', octets + ignored[:-1], 'frame 5: cut', CUT, ('--max-datagrams', '3'))
    for most in (size, size + 1, 2 ** 63 - 1):
        tests.answers(f'at most {most} octets', 'audit', octets, audited(3, 3, 1), words=('--max-octets', str(most)))
    for most in (1, 3, 4, 24, size - 1):
        tests.passes(f'at most {most} octets', octets, most, 'octets', ('--max-octets', str(most)))
    tests.passes('too many of both', octets, size - 1, 'octets', ('--max-datagrams', '2', '--max-octets', str(size - 1)))
    tests.passes('too many octets of no capture', octets[:4] + b'\3' + octets[5:], size - 1, 'octets', ('--max-octets', str(size - 1)))
    print('limits that are chosen: 16')


if __name__ == '__main__':
    sys.exit(program.main(__doc__, (rows, cut_and_changed, kinds, random_captures, pipes, limits, chosen_limits)))
