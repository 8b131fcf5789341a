#!/usr/bin/env python3
"""Tests the program with hostile recordings: datagrams that are cut and changed, and what takes much to read.

    tests/hostile.py PROGRAM

Each group prints a line with what was counted. What is wanted was worked out, or is what the second implementation,
bench/reference.py, says. The last line is 'N passed, M failed'.
"""
import os
import random
import sys

sys.dont_write_bytecode = True
import program
import make
import reference
from program import ROOT, file_of, text_of

A, B, WRITER, READER = make.A, make.B, make.WRITER, make.READER
MOST = 65535
GUID_W, GUID_R = b'\0\x5a\0\x10' + A + WRITER, b'\0\x5a\0\x10' + B + READER
END = b'\0\1\0\0'


def recordings():
    """the recordings with a stored audit, each as datagrams"""
    folder = os.path.join(ROOT, 'tests', 'rows')
    for name in sorted(os.listdir(folder)):
        if name.endswith('.audit'):
            yield name[:-6], reference.recording_of(file_of(folder, name[:-6] + '.rec'))


def changed(datagram):
    """the datagrams that differ in one octet, which is 00, ff, or has its lowest bit turned"""
    for at, octet in enumerate(datagram):
        for value in (0, 0xff, octet ^ 1):
            yield datagram[:at] + bytes([value]) + datagram[at + 1:]


# ---- cut and changed

# Where a datagram of an unknown submessage, DATA, INFO_TS, DATA and an unknown submessage is cut: from this length on,
# how many items are read, and the refusal behind them.
CUTS = [(0, 0, '0 Short'), (20, 0, None), (21, 0, '20 CutHeader'), (24, 0, '20 Overrun'),
        (32, 1, None), (33, 1, '32 CutHeader'), (36, 1, '32 Overrun'),
        (64, 2, None), (65, 2, '64 CutHeader'), (68, 3, None), (69, 3, '68 CutHeader'), (72, 3, '68 Overrun'),
        (100, 4, None), (101, 4, '100 CutHeader'), (104, 5, None)]


def cut_by_table(tests):
    datagram = dict(recordings())['skipped_submessages_and_a_time'][2]
    assert len(datagram) == 104
    whole = tests.run('show', text_of([datagram]))[0].splitlines()
    wanted = []
    for length in range(105):
        _, items, refusal = [row for row in CUTS if row[0] <= length][-1]
        head = whole[0] if length >= 20 else 'datagram 1 unread'
        wanted.append(head.replace('datagram 1', f'datagram {length + 1}'))
        wanted += whole[1:1 + items]
        wanted += [f'refused {refusal}'] if refusal else []
    # A line of a recording that is empty is no datagram, so the cut of no octets stands as one of two digits.
    text = text_of([datagram[:max(length, 1)] for length in range(105)])
    tests.answers('a datagram that is cut to each length', 'show', text, '\n'.join(wanted) + '\n')
    print('cuts by the table: 105 of one datagram')


def cut_and_changed(tests):
    datagrams = sorted({datagram for _, recording in recordings() for datagram in recording})
    cuts = [datagram[:length] for datagram in datagrams for length in range(1, len(datagram))]
    changes = [one for datagram in datagrams for one in changed(datagram)]
    tests.agrees('datagrams that are cut', text_of(cuts), ('show',))
    tests.agrees('datagrams with a changed octet', text_of(changes), ('show', 'list'))
    print(f'cuts: {len(cuts)} of {len(datagrams)} datagrams; changed octets: {len(changes)}')


def audits_of_changed(tests):
    recording = dict(recordings())['complete']
    count, verdicts = 0, {}
    for place, datagram in enumerate(recording):
        # All of them are judged by crates/rtps_trials; some are compared with the second implementation.
        for one in [*changed(datagram)][::11]:
            text = text_of(recording[:place] + [one] + recording[place + 1:])
            name = f'datagram {place + 1} is {one.hex()}'
            wanted = reference.answer('audit', text)
            tests.agrees(name, text, ('audit', 'why'))
            row = wanted[0].split('\n')[1].split(' ')
            found = row[2] if len(row) < 12 else 'no pair'
            verdicts[found] = verdicts.get(found, 0) + 1
            count += 1
    told = ', '.join(f'{number} {found}' for found, number in sorted(verdicts.items()))
    print(f'audits of changed octets, and why: {count}, of which {told}')


def announced_late(tests):
    count = 0
    for name, recording in recordings():
        if len(recording) > 40:
            continue
        for order in (recording[2:] + recording[:2], recording[1:] + recording[:1], recording[::-1]):
            text = text_of(order)
            tests.agrees(f'{name} in another order', text, ('why',))
            count += 1
    entities = [((0x103 + 256 * i).to_bytes(4, 'big'), (0x104 + 256 * i).to_bytes(4, 'big')) for i in range(60)]
    said = [datagram for writer, reader in entities for datagram in make.samples(range(1, 4), 3, writer, reader)]
    known = list(make.announcements(len(entities)))
    for place in (0, len(said) // 2, len(said)):
        tests.agrees(f'120 announcements behind {place} datagrams', text_of(said[:place] + known + said[place:]), ('audit', 'why'))
    print(f'recordings in another order: {count}; 60 pairs that are announced behind what they say: 3')


# ---- large datagrams

def submessage(sid, flags, body):
    return bytes([sid, flags]) + len(body).to_bytes(2, 'big') + body


def parameter(pid, value):
    return pid.to_bytes(2, 'big') + len(value).to_bytes(2, 'big') + value


def with_list(octets, number=1):
    """a DATA of the writer with these octets as its inline list and eight as its payload"""
    body = b'\0\0\0\x10' + bytes(4) + WRITER + number.to_bytes(8, 'big') + octets
    return submessage(0x15, 6, body + bytes(8))


def filled(before, parameters, flags):
    """a datagram of the greatest size, of a DATA that is these octets and then a list of these parameters, one that fills it, and the end"""
    octets = before + parameters
    octets += parameter(0x8001, bytes(MOST - 24 - len(octets) - 8)) + END
    return make.header(A) + submessage(0x15, flags, octets)


def empty_submessages(tests):
    datagram = make.header(A) + b'\1\0\0\0' * 16378 + bytes(3)
    assert len(datagram) == MOST
    lines = [f'datagram 1 version 2.5 vendor 0000 prefix {A.hex()}']
    lines += [f'skipped {20 + 4 * i} id 01' for i in range(16378)] + ['refused 65532 CutHeader']
    text = text_of([datagram])
    tests.answers('empty submessages', 'show', text, '\n'.join(lines) + '\n')
    wanted = 'pairs 0\ndatagrams 1 refused 1 skipped 16378 fragments 0 undirected 0 unsettled 0\n'
    tests.answers('empty submessages', 'audit', text, wanted)
    tests.agrees('ACKNACK headers up to the end', text_of([make.header(B) + b'\6\0\0\0' * 16378 + bytes(3)]))
    print('empty submessages: 16378 in one datagram')


def parameter_lists(tests):
    room = MOST - 20 - 24 - 8
    nested, depth = END, 0
    while len(nested) + 8 <= room:
        nested, depth = parameter(0x8001, nested) + END, depth + 1
    repeated = parameter(0x0070, b'') * ((room - 4) // 4)
    full = repeated + END
    assert room - len(full) < 4
    full += bytes(room - len(full))
    lists = [nested, full, repeated, parameter(0, b'') * ((room - 4) // 4) + END, parameter(1, nested[:-8]),
             parameter(0x8001, bytes(room - 8)) + END, parameter(0x8001, bytes(room - 7))[:room], b'\x80\1\xff\xff' + bytes(room - 4)]
    datagrams = [make.header(A) + with_list(octets) for octets in lists]
    little = make.header(A) + bytes([0x15, 7]) + bytes(2) + b'\0\0\x10\0' + bytes(4) + WRITER + bytes(4) + b'\1\0\0\0' + b'\x70\0\0\0' * 16000 + b'\1\0\0\0'
    to_the_end = filled(b'\0\0\0\x10' + bytes(4) + WRITER + (1).to_bytes(8, 'big'), b'', 2)
    tests.agrees('inline lists', text_of([*datagrams, little, to_the_end]))
    assert max(map(len, datagrams)) == len(to_the_end) == MOST
    names = make.NAMES * 1000
    announced = [make.announced(b'\0\0\3\xc2', A, WRITER, names + nested[:8000]), make.announced(b'\0\0\4\xc2', B, READER, make.RELIABLE * 4000)]
    announced += [make.announced(b'\0\0\4\xc2', B, b'\0\0\2\4', names + make.RELIABLE), make.announced(b'\0\1\0\xc2', A, WRITER, b'\0\x50\0\x10' + A + b'\0\0\1\xc1')]
    announced.append(filled(b'\0\0\0\x10' + bytes(4) + b'\0\0\3\xc2' + (1).to_bytes(8, 'big') + b'\0\2\0\0', b'\0\x5a\0\x10' + A + b'\0\0\2\3' + make.NAMES, 4))
    assert len(announced[-1]) == MOST
    tests.agrees('announcements with lists that repeat, or fill a datagram', text_of(announced))
    print(f'parameter lists: {len(lists) + 2} of up to {room + 8} octets, one {depth} lists deep; {len(announced)} in announcements; of both one ends with its datagram, of {MOST} octets')


def endpoints_that_disagree(tests):
    names = [b'\0\5\0\x0c\0\0\0\5' + b'%04d' % i + bytes(4) + make.NAMES[16:] for i in range(1000)]
    writers = [announcement(b'\0\0\3\xc2', GUID_W + name) for name in names]
    reader = announcement(b'\0\0\4\xc2', GUID_R + make.NAMES + make.RELIABLE)
    tests.agrees('one GUID with 1000 topics', text_of([*writers, reader]))
    other = [announcement(built_in, GUID_W + name) for built_in in (b'\0\0\3\xc2', b'\0\0\4\xc2') for name in names[:500]]
    tests.agrees('one GUID as writer and reader', text_of([*other, reader, *other]))
    print('endpoints that disagree: 1000 of one GUID')


def endpoints_of_one_topic(tests):
    count = 100
    audited = f'pairs 0\ndatagrams {2 * count} refused 0 skipped 0 fragments 0 undirected 0 unsettled 0\n'
    for kind, matches in (('one_topic', count * count), ('one_topic_volatile', 0)):
        sent = list(make.of_one_topic(kind, count))
        writers, readers = sent[:count], sent[count:]
        in_turn = [one for two in zip(writers, readers) for one in two]
        for order in (writers + readers, readers + writers, in_turn):
            tests.answers(kind, 'audit', text_of(order), audited)
            tests.agrees(kind, text_of(order), ('list', 'why'))
        listed = tests.run('list', text_of(sent))[0].splitlines()
        tests.holds(f'list: {kind}', matches, sum(line.startswith('pair ') for line in listed))
    print(f'endpoints of one topic: {count} writers and {count} readers of which no two are a pair, in 2 ways and 3 orders')


def some_said(rng, readers, most):
    """a datagram of the writer, of acts each for everyone or for one participant, and for every reader or for one"""
    said = make.header(A)
    for _ in range(rng.randrange(1, 4)):
        said += rng.choice([b'', make.to(bytes(12)), *(make.to(prefix) for prefix, _ in readers)])
        named = rng.choice([bytes(4), bytes(4), *(entity for _, entity in readers)])
        number = rng.randrange(1, most)
        said += rng.choice([
            make.data(WRITER, number, bytes([rng.randrange(3) // 2]) * 8, named),
            make.data(WRITER, number, bytes(8), named),
            make.heartbeat(WRITER, rng.randrange(1, 5), rng.randrange(1, most), named),
            make.gap(WRITER, number, number + rng.randrange(3), [rng.getrandbits(32)], rng.randrange(33), named),
        ])
    return said


NAMED = [(prefix * 12, entity) for prefix in (b'\xbb', b'\xcc', b'\xaa') for entity in (READER, b'\0\0\2\4')]


# By whom numbers can be heard: by all, by a participant, by the readers of an entity id, and by each.
AUDIENCES = [[(None, bytes(4))], [(prefix, bytes(4)) for prefix in sorted({prefix for prefix, _ in NAMED})],
             [(None, entity) for entity in sorted({entity for _, entity in NAMED})], NAMED]


def announced_readers(readers=NAMED):
    """announcements of a writer and of these readers of its topic"""
    known = [make.announced(b'\0\0\3\xc2', A, WRITER, b'')]
    return known + [make.announced(b'\0\0\4\xc2', prefix, entity, make.RELIABLE) for prefix, entity in readers]


def answer_of(reader, base):
    prefix, entity = reader
    return make.header(prefix) + make.to(A) + make.ack_nack(entity, WRITER, base)


def readers_that_are_named(tests):
    count, rng, known = 80, random.Random(11), announced_readers()
    for place in range(count):
        most = (5, 40)[place % 2]
        sent = [some_said(rng, NAMED, most) for _ in range(rng.randrange(9))]
        for _ in range(rng.randrange(12)):
            sent.insert(rng.randrange(len(sent) + 1), answer_of(rng.choice(NAMED), rng.randrange(1, most + 1)))
        if place % 5 == 4:
            # Nobody claims what was not told, so that more of the verdicts rest on the payloads.
            sent.append(make.header(A) + make.heartbeat(WRITER, most, most))
            sent += [answer_of(reader, most) for reader in NAMED]
        tests.agrees('readers that are named', text_of(known + sent), ('audit', 'why'))
    print(f'readers that are named, or their participants, in some acts and not in others: {count} recordings of {len(NAMED)} readers')


def numbers_in_turns(tests):
    """rows of numbers that readers are told in turns: by what is for all of them, for participants, for entity ids, and for each"""
    count, rng, last = 8, random.Random(45), 300
    for _ in range(count):
        said = {audience: b'' for group in AUDIENCES for audience in group}
        number = 1
        while number <= last:
            end = number + rng.choice((1, 1, 2, 70))
            # Now and then somebody is not told.
            told = [audience for audience in rng.choice(AUDIENCES) if rng.random() > 0.01]
            for prefix, entity in told:
                said[prefix, entity] += make.gap(WRITER, number, end, [], 0, entity)
            number = end
        sent = [make.header(A) + (make.to(prefix) if prefix else b'') + octets for (prefix, _), octets in said.items()]
        sent += [make.header(A) + make.heartbeat(WRITER, 1, last), *(answer_of(reader, last + 1) for reader in NAMED)]
        tests.agrees('numbers in turns', text_of(announced_readers() + sent), ('audit', 'why'))
    print(f'rows of {last} numbers that readers hear in turns from all their audiences: {count} recordings of {len(NAMED)} readers')


# Numbers about powers of 2, up to the greatest one.
EDGES = [middle + more for middle in (64, 128, 192, 512, 1 << 40, 1 << 62) for more in (-1, 0, 1)] + [1, 2, 300, (1 << 63) - 65, (1 << 63) - 2, (1 << 63) - 1]


def great_numbers(tests):
    """ranges and lists of numbers up to the greatest one, for six readers and for some of them"""
    count, rng, known = 15, random.Random(64), announced_readers()
    for _ in range(count):
        sent = []
        for _ in range(rng.randrange(2, 14)):
            named = rng.choice([bytes(4), bytes(4), *(entity for _, entity in NAMED)])
            start, end = sorted(rng.sample(EDGES, 2))
            most = min(256, (1 << 63) - end)
            words = [rng.choice([0, 0xffffffff, 0xaaaaaaaa, rng.getrandbits(32)]) for _ in range(8)]
            sent.append(make.header(A) + rng.choice([b'', *(make.to(prefix) for prefix, _ in NAMED)]) + rng.choice([
                make.gap(WRITER, start, end, words, rng.randrange(most + 1), named),
                make.gap(WRITER, start, end, [], 0, named),
                make.gap(WRITER, end, end, words, rng.randrange(most + 1), named),
                make.data(WRITER, start, bytes(8), named) + make.data(WRITER, end, bytes(8), named),
                make.heartbeat(WRITER, start, end, named),
            ]))
        sent.append(make.header(A) + make.heartbeat(WRITER, 1, rng.choice(EDGES)))
        sent += [answer_of(reader, rng.choice(EDGES)) for reader in NAMED]
        text, first = text_of(known + sent), rng.choice(EDGES)
        tests.agrees('great numbers', text, ('audit', 'why'))
        tests.agrees(f'great numbers, from {first} on', text, ('audit', 'why', 'json'), ('--from', str(first)))
    print(f'ranges and lists up to 2^63 - 1: {count} recordings of {len(NAMED)} readers')


def announcement(built_in, octets):
    return make.header(A) + make.data(built_in, 1, b'\0\2\0\0' + octets + END)


def text_value(pid, octets):
    value = (len(octets) + 1).to_bytes(4, 'big') + octets + b'\0'
    return parameter(pid, value + bytes(-len(value) % 4))


def topics_of_every_octet(tests):
    topics = [bytes([octet]) for octet in range(256)] + [bytes(range(256)), bytes(range(255, -1, -1)) * 100, b'\\' * 60000]
    datagrams = []
    for place, topic in enumerate(topics):
        names = text_value(5, topic) + text_value(7, topic[:2000])
        for built_in, prefix in ((b'\0\0\3\xc2', A), (b'\0\0\4\xc2', B)):
            guid = b'\0\x5a\0\x10' + prefix + place.to_bytes(4, 'big')
            datagrams.append(announcement(built_in, guid + names + make.RELIABLE))
    tests.agrees('topics of every octet', text_of(datagrams))
    print(f'topics: {len(topics)} of every octet')


def acknowledgements(tests):
    most = (MOST - 36) // 28
    samples = [*make.announcements(1), *(make.header(A) + make.data(WRITER, n, bytes(4)) for n in range(1, 11))]
    for name, bases in (('ascending', [min(i, 11) for i in range(most)]), ('descending', [most - i for i in range(most)]), ('one too many', [11] * (most - 1) + [12])):
        many = b''.join(make.ack_nack(READER, WRITER, base) for base in bases)
        views = ('audit', 'why') if name == 'descending' else ('audit',)
        tests.agrees(f'ACKNACKs, {name}', text_of([*samples, make.header(B) + make.to(A) + many, make.header(B) + many]), views)
    print(f'acknowledgements: {most} in one datagram, in 3 orders, and as many to everyone')


# ---- GAPs whose lists have many ranges

# Lists of 256 numbers in many ranges, as words: of each two, each number is in one of them.
OF_MANY_RANGES = [(0xaaaaaaaa, 0x55555555), (0xcccccccc, 0x33333333), (0x6db6db6d, 0x92492492)]


def gaps_of_many_ranges(tests):
    pair = f'{reference.guid_text(A + WRITER)} {reference.guid_text(B + READER)}'
    count = 0
    for base in (1, (1 << 63) - 257):
        last = base + 255
        heartbeat = make.header(A) + make.heartbeat(WRITER, 1, last)
        for words in OF_MANY_RANGES[:1 if base == 1 else 3]:
            one, other = (make.header(A) + make.gap(WRITER, 1, base, [word] * 8) for word in words)
            cut = make.header(A) + make.gap(WRITER, 1, base, [words[0]] * 8, 250)
            rest = [base + place for place in range(256) if words[1] >> (31 - place % 32) & 1]
            absent = rest[60]
            some = [number for number in rest if number != absent]
            ends = [base + place for place in range(250, 256) if words[0] >> (31 - place % 32) & 1]
            for what, sent, below, verdict in (
                    ('two lists', [one, other], last + 1, f'complete {last}'),
                    ('two lists, the other one first', [other, one], last + 1, f'complete {last}'),
                    ('a list, and then the rest', [one, samples_of(rest)], last + 1, f'complete {last}'),
                    ('the rest, and then a list', [samples_of(rest), one], last + 1, f'complete {last}'),
                    ('a list twice, and then the rest', [one, one, samples_of(rest)], last + 1, f'complete {last}'),
                    ('a number that is not told', [one, samples_of(some)], last + 1, f'unfounded 6 {absent}'),
                    ('a number that is not acknowledged', [one, samples_of(some)], absent, f'open {absent}'),
                    ('a list that is cut', [cut, samples_of(rest)], last + 1, f'unfounded 6 {ends[0]}'),
                    ('a list that is cut, and what it lacks', [cut, samples_of(rest + ends)], last + 1, f'complete {last}')):
                answer = make.header(B) + make.to(A) + make.ack_nack(READER, WRITER, below)
                text = text_of([*make.announcements(1), *sent, heartbeat, answer])
                name = f'a GAP of words {words[0]:08x} from {base} on: {what}'
                row = reference.answer('audit', text)[0].splitlines()[1]
                tests.holds(f'{name}, worked out', f'{pair} {verdict}', row)
                tests.agrees(name, text, ('why',))
                count += 1
    print(f'GAPs whose lists have many ranges: {count} recordings')


def samples_of(numbers):
    """a datagram with a DATA of each of these numbers"""
    return make.header(A) + b''.join(make.data(WRITER, number, bytes(4)) for number in numbers)


def many_datagrams(tests):
    count = 1000000
    text = (make.header(A).hex().encode() + b'\n') * count
    wanted = f'pairs 0\ndatagrams {count} refused 0 skipped 0 fragments 0 undirected 0 unsettled 0\n'
    tests.answers('datagrams with nothing in them', 'audit', text, wanted)
    tests.answers('datagrams with nothing in them', 'why', text, f'{wanted}not clean: there is no pair\n', 1)
    tests.answers('datagrams with nothing in them', 'list', text, 'participants 0 endpoints 0 unsettled 0 faults 0\n')
    print(f'datagrams with nothing in them: {count}')


if __name__ == '__main__':
    sys.exit(program.main(__doc__, (cut_by_table, cut_and_changed, audits_of_changed, announced_late, empty_submessages,
                                    parameter_lists, endpoints_that_disagree, endpoints_of_one_topic, readers_that_are_named,
                                    numbers_in_turns, great_numbers, topics_of_every_octet, acknowledgements,
                                    gaps_of_many_ranges, many_datagrams)))
