"""Who is there, and when, for the second implementation: what a recording announces, who leaves, and which part of it a pair is
judged by.

A recording is a list of datagrams, each a list of acts, as `reference.acts_of` gives them. A place is a datagram and the first octet
of a submessage in it. A reader joins where it is announced first.
"""
import reference
from fragments import placed_samples
from reference import (BUILTIN, START_OF_ALL, announcement, asks, brings, heard, joined_here, last_number, members, read_list,
                       spoken)

# ---- who joins, and who leaves


def announcements(recording):
    """what is announced without a fault, in order: the place, the side, what is said, and the payload"""
    whole = [((i, act['at']), act['writer'], act['payload']) for i, acts in enumerate(recording, 1) for act in acts if act['kind'] == 'data']
    found = []
    for place, writer, (form, octets) in whole + list(placed_samples(recording)):
        side = BUILTIN.get(writer) if form == 'whole' else None
        said = announcement(octets, side) if side else 'no announcement'
        if not isinstance(said, str):
            found.append((place, side, said, octets))
    return sorted(found, key=lambda one: one[0])


def value_of(parameters, pid):
    """the value of the first parameter of this id"""
    return next((value for found, value in parameters if found == pid), None)


def key_of(act, pid):
    """the GUID in the payload of a DATA, or else the one in its inline QoS"""
    form, octets = act['payload']
    found = 'none'
    if form in ('whole', 'key') and octets[:2] in (b'\0\2', b'\0\3') and len(octets) >= 4:
        found = read_list(octets[4:], 'be' if octets[1] == 2 else 'le')
    guid = None if isinstance(found, str) else value_of(found[0], pid)
    if guid is None or len(guid) < 16:
        guid = value_of(act['inline'], 0x70)
    return guid[:16] if guid is not None and len(guid) >= 16 else None


# which built-in writers say that an endpoint or a participant leaves: the id of the key in the payload, and its octets that count
LEAVING = {b'\0\0\4\xc2': (0x5a, 16), b'\0\1\0\xc2': (0x50, 12)}


def leavings(recording):
    """who leaves, in order: the place, who says it, and the octets of a GUID that begin those of all who leave"""
    for i, acts in enumerate(recording, 1):
        for act in acts:
            if act['kind'] != 'data' or act['writer'] not in LEAVING:
                continue
            status = value_of(act['inline'], 0x71)
            pid, octets = LEAVING[act['writer']]
            key = key_of(act, pid)
            if status is not None and len(status) == 4 and status[3] & 3 and key is not None:
                yield (i, act['at']), act['source'], key[:octets]


class Life:
    """what a recording says of who is there, and when"""
    def __init__(self, recording):
        self.announced, self.leavings = announcements(recording), list(leavings(recording))

    def joins(self, r):
        """the place where an endpoint joins, and what is announced there"""
        return next(((place, said) for place, side, said, _ in self.announced if side != 'participant' and said[0] == r), (None, None))

    def leaves(self, guid, joined):
        """the place where an endpoint leaves, or a participant"""
        return next((place for place, source, key in self.leavings
                     if joined is not None and place > joined and source == guid[:12] and guid.startswith(key)), None)


# ---- the part of a recording that a pair is judged by

def told_gone(act):
    """the numbers that a GAP tells gone, as the greatest one; 0 where there is none"""
    base, count, bits, _ = act['set']
    return max([base - 1 if act['start'] < base else 0, *members(base, count, bits)])


class Span:
    """of a pair: where the reader joins, from which number on and up to which datagram the pair is judged. `first` is the number from which
    on numbers are asked for"""
    def __init__(self, recording, life, w, r, first):
        self.w, self.r = w, r
        self.placed = [((i, act['at']), act) for i, acts in enumerate(recording, 1) for act in acts]
        answers = [(place, act['set']) for place, act in self.placed if reference.answered(act, w, r)]
        joined, said = life.joins(r)
        self.joined_here = joined_here(joined, answers)
        # what is behind this place is since the reader joined
        self.since = joined if self.joined_here else START_OF_ALL
        self.until = life.leaves(r, joined)
        self.first = self.first_for(first, is_volatile=said[5] == 0) if self.joined_here else first

    def first_for(self, first, is_volatile):
        """the first number that is for the reader, of those from `first` on"""
        least = max(first, self.announced_before() + 1, self.irrelevant() + 1) if is_volatile else first
        wanted = {act['number'] for place, act in self.placed if place > self.since and brings(act, self.w, self.r)}
        wanted |= {n for _, act in self.placed for n in asks(act, self.w, self.r)}
        return min((n for n in wanted if n >= least), default=least)

    def announced_before(self):
        """the greatest number that the writer announced before the reader joined"""
        return max((last_number(act) for place, act in self.placed if place < self.since and spoken(act, self.w)), default=0)

    def irrelevant(self):
        """the greatest number that is told gone by a GAP which the reader hears since it joined, before it is sent anything"""
        heard_since = [(place, act) for place, act in self.placed if place > self.since and spoken(act, self.w) and heard(act, self.r)]
        sent = min((place for place, act in heard_since if brings(act, self.w, self.r)), default=None)
        return max((told_gone(act) for place, act in heard_since if act['kind'] == 'gap' and (sent is None or place < sent)), default=0)

    def datagrams(self, recording):
        """those that the pair is judged by"""
        return recording if self.until is None else recording[:self.until[0] - 1]
