#!/usr/bin/env python3
"""Holds what the program says of a capture to what tshark shows of it: the frame and the second of each place, and the host, the process and the pid of
each participant.

    beside_tshark.py PROGRAM CAPTURE ..

Places are those of `check --json`: datagram n is the n-th frame of UDP that tshark shows, with IP fragments put together. The second of a frame is
cut off behind three places. The properties of a participant are those of the first frame that has some and is from its prefix. It prints a line for
each capture and what differs. The status is 1 where something does.
"""
import json
import subprocess
import sys

DEFRAGMENT = ['-o', 'ip.defragment:TRUE', '-o', 'ipv6.defragment:TRUE']
UDP = 'udp && !icmp && !icmpv6'
# what parts the values of a field that stands several times in a frame
BETWEEN = '\x1f'


def fields(capture, chosen, *names):
    """of each frame that is chosen the values of these fields, each as a list"""
    words = [word for name in names for word in ('-e', name)]
    done = subprocess.run(['tshark', '-r', capture, *DEFRAGMENT, '-Y', chosen, '-T', 'fields', *words, '-E', f'aggregator={BETWEEN}'],
                          capture_output=True, check=False)
    for line in done.stdout.decode(errors='replace').splitlines():
        yield [value.split(BETWEEN) for value in line.split('\t')]


def milliseconds(text):
    """cut off towards zero"""
    seconds, _, part = text.lstrip('-').partition('.')
    return (-1 if text.startswith('-') else 1) * (int(seconds) * 1000 + int((part + '000')[:3]))


def places(value):
    """each datagram that is told with its frame, and with its second"""
    if isinstance(value, list):
        for one in value:
            yield from places(one)
    elif isinstance(value, dict):
        if 'datagram' in value and 'frame' in value:
            yield value['datagram'], value['frame'], value.get('time')
        for name in ('until', 'first', 'last', 'left'):
            if isinstance(value.get(name), int) and f'{name}_frame' in value:
                yield value[name], value[f'{name}_frame'], value[f'{name}_time']
        for one in value.values():
            yield from places(one)


def properties(capture):
    """by the prefix of a participant its properties"""
    found = {}
    for prefixes, names, values in fields(capture, 'rtps.property_name', 'rtps.guidPrefix.src', 'rtps.property_name', 'rtps.property_value'):
        found.setdefault(prefixes[0], dict(zip(names, values)))
    return found


def process_of(told):
    """host, process and pid of these properties"""
    host = told.get('__Hostname') or told.get('fastdds.physical_data.host', '').split(':')[0] or None
    pid = told.get('__Pid') or told.get('fastdds.physical_data.process')
    return host, told.get('__ProcessName'), pid and int(pid)


def differing(program, capture):
    """prints what differs of a capture, and how much was compared"""
    done = subprocess.run([program, 'check', '--json', capture], capture_output=True, check=False)
    report, frames = json.loads(done.stdout), [*fields(capture, UDP, 'frame.number', 'frame.time_relative')]
    told, count = sorted(set(places(report))), 0
    for datagram, frame, second in told:
        number, relative = frames[datagram - 1]
        wanted = int(number[0]), milliseconds(relative[0])
        if wanted != (frame, round(second * 1000)):
            count += 1
            print(f'{capture}: datagram {datagram} is of frame {wanted[0]}, {wanted[1]} ms, and is told as {frame}, {second} s')
    announced = properties(capture)
    for one in report['participants']:
        wanted, got = process_of(announced.get(one['guid'][:24], {})), (one['host'], one['process'], one['pid'])
        if wanted != got:
            count += 1
            print(f"{capture}: participant {one['guid']} is of {wanted}, and is told as {got}")
    print(f"{capture}: {report['datagrams']} datagrams of {len(frames)}, {len(told)} places, {len(report['participants'])} participants, {count} differences")
    return count + (report['datagrams'] != len(frames))


def main():
    if len(sys.argv) < 3:
        raise SystemExit(__doc__)
    return int(sum(differing(sys.argv[1], capture) for capture in sys.argv[2:]) > 0)


if __name__ == '__main__':
    sys.exit(main())
