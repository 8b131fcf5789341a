#!/usr/bin/env python3
"""Random captures with times, for comparisons with the second implementation.

    random_times.py PROGRAM [COUNT [SEED]]
                    runs PROGRAM on COUNT captures of random recordings, and says where it differs

The datagrams are those of random recordings. They come at times that are near the bounds of what is said: a millisecond, a second and ten
seconds lie between them, and a nanosecond more or less; some go back, and some have none.
"""
import random
import sys

import page
import reference
import report as reports
from asked import Asked
from capture_writer import MICROSECONDS, NANOSECONDS, enhanced, interface, old, option, packet, record, section, simple, start
from random_discovery import some_told
from random_ends import some_participant
from random_events import some_shared
from random_recordings import A, B, some_asked, some_outage, text_of_datagrams
from random_systems import some_both, some_other, some_recorded

SECOND, MILLISECOND = 10 ** 9, 10 ** 6
BOUNDS = MILLISECOND, SECOND, 3 * SECOND, 10 * SECOND
SHORT = 5, 10, 20, 30, 50, 100


def some_step(rng, is_fast):
    """from one datagram to the next, in nanoseconds"""
    chance = rng.random()
    if is_fast and chance < 0.9:
        return rng.choice(SHORT) * MILLISECOND + rng.choice([-1, 0, 0, 0, 1])
    if chance < 0.3:
        return rng.randrange(300 * MILLISECOND)
    if chance < 0.5:
        return rng.choice([0, 1, 999, 1000])
    step = rng.choice(BOUNDS) + rng.choice([-1000, -1, 0, 0, 1, 1000])
    return step if chance < 0.97 else -step


def some_times(rng, count, fast):
    """so many, none of which is before 1970; before one of the last of them nothing is heard for about ten seconds. `fast` is how often they follow
    each other fast"""
    time, times, is_fast = rng.choice([0, 5 * SECOND, 1700000000 * SECOND]), [], rng.random() < fast
    quiet, pause = count - rng.randrange(1, 4), rng.choice([1, 3, 10, 10]) * SECOND
    for k in range(count):
        step = pause + rng.choice([-1, 0, 1, 1, 1000]) if k == quiet and not is_fast else some_step(rng, is_fast)
        time = max(0, time + step)
        times.append(time)
    return times


def classic(rng, frames, times):
    order, magic = rng.choice(['little', 'big']), rng.choice([MICROSECONDS, NANOSECONDS])
    unit = 1000 if magic == MICROSECONDS else 1
    return start(order=order, magic=magic) + b''.join(
        record(frame, order, time=(time // SECOND, time % SECOND // unit)) for time, frame in zip(times, frames))


def blocks(rng, frames, times):
    """of interfaces that count in their own units, from where they are told to"""
    order = rng.choice(['little', 'big'])
    clocks = [(rng.choice([None, 9, 9, 6, 3, 0, 12, 138, 158]), rng.choice([None, None, 0, 1, -1, 3, -1000])) for _ in range(rng.choice([1, 1, 2]))]
    octets = section(order)
    for resolution, offset in clocks:
        options = b'' if resolution is None else option(9, bytes([resolution]), order)
        octets += interface(order=order, options=options + (b'' if offset is None else option(14, offset.to_bytes(8, order, signed=True), order)))
    without = rng.choice([0, 0, 0, 0.05, 0.5, 1])
    for frame, time in zip(frames, times):
        number = rng.randrange(len(clocks))
        resolution, offset = clocks[number]
        units = 10 ** 6 if resolution is None else 10 ** resolution if resolution < 128 else 2 ** (resolution - 128)
        ticks = (time - (offset or 0) * SECOND) * units // SECOND % 2 ** 64
        octets += simple(frame, order) if rng.random() < without else rng.choice([enhanced, old])(frame, number, order, time=ticks)
    return octets


def some_capture(rng, datagrams, fast=0.5):
    """the octets of a capture of these, with frames that give nothing, sometimes behind all others"""
    frames = [packet(d) for d in datagrams]
    for _ in range(rng.choice([0, 0, 1, 2])):
        frames.insert(rng.randrange(len(frames) + 1), packet(b'', protocol=6))
    frames += [packet(b'', protocol=6)] if rng.random() < 0.4 else []
    return rng.choice([classic, blocks, blocks])(rng, frames, some_times(rng, len(frames), fast))


def hosts(rng):
    """what two participants announce themselves by, mostly"""
    return [some_participant(rng, prefix) for prefix in (A, B) if rng.random() < 0.6]


def some_discovery(rng):
    """the octets of a capture of what discovery tells, and at its times"""
    datagrams, times = some_told(rng)
    return section() + interface(options=option(9, b'\x09')) + b''.join(
        simple(packet(d)) if time is None else enhanced(packet(d), time=time) for d, time in zip(datagrams, times))


def some_timed(rng):
    """the octets of a capture. Often one of two participants says something when the others are silent"""
    if rng.random() < 0.15:
        return some_discovery(rng)
    if rng.random() < 0.3:
        return some_capture(rng, some_shared(rng), 0.25)
    found = reference.recording_of(some_recorded(rng) if rng.random() < 0.5 else text_of_datagrams(some_outage(rng)))
    datagrams = [] if isinstance(found, str) else found
    return some_capture(rng, hosts(rng) + datagrams + [some_participant(rng, rng.choice([A, B])) for _ in range(rng.choice([0, 0, 1, 2]))])


def some_two(rng):
    """the octets of a capture, and of mostly another one of what was said at the same time"""
    datagrams, there = some_other(rng, hosts(rng) + some_both(rng))
    octets = some_capture(rng, datagrams)
    return octets, octets if datagrams == there and rng.random() < 0.7 else some_capture(rng, there)


def some_asked_of(rng):
    """a capture, and what is asked of it"""
    if rng.random() < 0.75:
        octets = some_timed(rng)
        return octets, some_asked(rng, octets)
    octets, there = some_two(rng)
    asked = some_asked(rng, octets)
    asked.arrived = reference.kept(there, '.pcap')
    return octets, asked


def answers(rng):
    """a capture, and command lines without their FILE, each with what the program should print of it, and its status"""
    octets, asked = some_asked_of(rng)
    found = []
    for form in reports.FORMS:
        printed, _, status = reports.answer(form, octets, asked)
        found.append((reports.words_of(form) + asked.words(), printed, status))
    printed, _, status = page.answer(octets, asked)
    found.append((['page', *asked.words()], printed, status))
    for view in 'json', 'audit':
        of_audit = Asked(rng.choice([1, 1, 2, 3]), fragments=rng.random() < 0.5)
        printed, _, status = reference.answer_as(view, octets, of_audit, any_form=True)
        found.append((reference.words_of(view) + of_audit.words() + ['--any'], printed, status))
    return octets, found


def main():
    program, *rest = sys.argv[1:]
    count, seed = (int(word) for word in rest + ['1000', '1'][len(rest):])
    rng, differing = random.Random(seed), 0
    seen = dict.fromkeys(['times go back', 'let the writer wait', 'is silent since', 'lacks only a tail', 'record longer', 'ended without leaving'], 0)
    for k in range(count):
        octets, found = answers(rng)
        for answer in found:
            differing += reference.differs(program, octets, answer, (f'capture {k}', '.pcap'))
            for what in seen if answer[0][0] == 'check' else ():
                seen[what] += what in answer[1]
    print(f'{count} captures, {differing} differences; {seen}')
    return int(differing > 0)


if __name__ == '__main__':
    sys.exit(main())
