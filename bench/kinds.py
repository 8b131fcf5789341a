"""Which numbers of a row are lost, or look so, as ranges: a part of the second implementation.

**Kinds.** Of a row those numbers are told that are missed, unsent or unanswered, and those that did not arrive: of a row that is held against
another recording, the ones that are neither received for certain nor there. A number that did not arrive may have another kind, too.

**Ranges.** The numbers of a kind are told as ranges, in their order: numbers one after another are one range, so between two ranges stands a number
that is not of the kind. With each range stands where its first number was sent first: the first act of the row's datagrams by which the reader hears
a DATA or a DATA_FRAG of it from the writer, whether it had joined or not; none where there is no such act.

**What is printed.** In the block of a row of `check`, before the line of the least missed number, each kind that has numbers has a line: its name, and
the first ten ranges, with commas between them: `missed 20-21 (6.380 s, frame 66), 37 (6.721 s, frame 71)`. A range of one number is that number. In brackets
stand the second and the frame of the datagram in which its first number was sent first, of these what it has; without any there are no brackets. Where there are more than
ten ranges, ` and N more` says how many. In `why` the same lines, with as many spaces, stand behind the evidence of a row that is not clean, before its
longest wait. In
JSON a row has behind `clean`, and behind `wait`, where there is one, `numbers`: an object with a member of each kind that has numbers: `ranges`, the
first thousand, each with `first`, `last` and `sent`, a place or null; and `more`, how many more there are.
"""
from times import place_values
from wording import grouped

# So many ranges of a kind stand in a line, and so many in JSON.
TOLD, KEPT = 10, 1000


def is_of(row, kind, n):
    """whether a number of a row is of a kind"""
    if kind == 'not_arrived':
        return row.held and row.delivery.kind(n) not in ('received', 'arrived')
    return row.delivery.kind(n) == kind


def ranges_of(row, kind):
    """the ranges of a kind: first and last number of each"""
    bounds, ranges = row.delivery.bounds(), []
    for lo, hi in zip(bounds, bounds[1:]):
        if is_of(row, kind, lo):
            if ranges and ranges[-1][1] + 1 == lo:
                ranges[-1][1] = hi - 1
            else:
                ranges.append([lo, hi - 1])
    return ranges


def sent_first(row, n):
    """the place of the first act that brings a number, or None"""
    return next(iter(row.delivery.brought.get(n, [])), None)


def ranges_by_kind(row):
    """those of each kind that has numbers"""
    found = {kind: ranges_of(row, kind) for kind in ('missed', 'unsent', 'unanswered', 'not_arrived')}
    return {kind: ranges for kind, ranges in found.items() if ranges}


def range_text(row, first, last):
    place = sent_first(row, first)
    second, frame = (row.times.second(place[0]), row.times.frame(place[0])) if place else (None, None)
    known = ([] if second is None else [f'{second} s']) + ([] if frame is None else [f'frame {frame}'])
    return (f'{first}' if first == last else f'{first}-{last}') + (f" ({', '.join(known)})" if known else '')


def lines(row):
    """a line of each kind"""
    told = []
    for kind, ranges in ranges_by_kind(row).items():
        more = f' and {grouped(len(ranges) - TOLD)} more' if len(ranges) > TOLD else ''
        told.append(kind.replace('_', ' ') + ' ' + ', '.join(range_text(row, *one) for one in ranges[:TOLD]) + more)
    return told


def values(row):
    """the member of JSON"""
    return {kind: {'ranges': [{'first': first, 'last': last, 'sent': place_values(row.times, sent_first(row, first))} for first, last in ranges[:KEPT]],
                   'more': max(0, len(ranges) - KEPT)} for kind, ranges in ranges_by_kind(row).items()}
