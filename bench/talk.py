"""Who talks in a recording and who does not, for the second implementation: endpoints that do not match, pairs that talk though they do
not, participants that talk one way, pairs that the recording cannot speak of, and pairs of best effort.

A pair is a writer and a reader of one topic. It talks where the reader answers the writer and acknowledges something: then the two matched,
whatever their policies say, but not of two domains. The order of all lists is that of `list`. What is not announced does not differ from anything.
"""
from functools import cached_property

from ends import End
from late import late_match
from life import Span
from policies import address_in, domain_in, lease_in, may_share_memory, policies_in, reasons, values_of
from reference import told_to
from times import LEASE, NO_TIMES, is_silent
from who import Who

# The entity id of a participant.
PARTICIPANT = b'\x00\x00\x01\xc1'

# ---- what is announced


class Announced:
    """by GUID the policies of endpoints, and of participants the place, the domain, the address and the lease; and those that may share memory. The
    first announcement without a fault counts"""

    def __init__(self, announcements):
        self.policies, self.participants, self.sharing = {}, {}, {}
        for place, side, said, payload in announcements:
            if side == 'participant':
                self.participants.setdefault(said[0], (place, domain_in(payload), address_in(payload), lease_in(payload)))
                self.sharing.setdefault(said[0], may_share_memory(payload))
            else:
                self.policies.setdefault(said[0], policies_in(payload))

    def of_participant(self, guid):
        return self.participants.get(guid[:12] + PARTICIPANT, (None, None, None, None))

    def domain(self, guid):
        """that of the participant of a GUID"""
        return self.of_participant(guid)[1]

    def address(self, guid):
        return self.of_participant(guid)[2]

    def lease(self, participant):
        """in nanoseconds"""
        lease = self.participants[participant][3]
        return LEASE if lease is None else lease

    def two_domains(self, one, other):
        return differ(self.domain(one), self.domain(other))

    def two_addresses(self, one, other):
        return differ(self.address(one), self.address(other))

    def one_address(self):
        """whether participants are announced, all with one address"""
        addresses = {address for _, _, address, _ in self.participants.values()}
        return len(addresses) == 1 and None not in addresses

    def values(self, endpoint):
        """the value of each policy of an endpoint"""
        return values_of(endpoint, self.policies[endpoint[0]])


def differ(one, other):
    return one is not None and other is not None and one != other


class Unfit:
    """a writer and a reader of one topic whose policies do not fit, and these policies"""

    def __init__(self, w, r, because, offered, requested):
        self.w, self.r, self.because = w, r, because
        # a writer sends the first of its representations
        self.offered = offered | {'data_representation': offered['data_representation'][:1]}
        self.requested = requested


def named_by(recording):
    """in how many datagrams a participant names another as its destination, in order"""
    counts = {}
    for acts in recording:
        for contact in {(act['source'], act['dest']) for act in acts if act['dest'] is not None}:
            counts[contact] = counts.get(contact, 0) + 1
    return dict(sorted(counts.items()))


def answering(recording):
    """of which writers and readers the reader acknowledges something to the writer"""
    return {(act['dest'] + act['writer'], act['source'] + act['reader']) for acts in recording for act in acts
            if act['kind'] == 'acknack' and act['dest'] is not None and act['set'][0] > 1}


def datagrams_by(prefixes):
    """by the prefix in the header the datagrams that have it"""
    found = {}
    for datagram, prefix in enumerate(prefixes, 1):
        if prefix is not None:
            found.setdefault(prefix, []).append(datagram)
    return found


# ---- who talks


class Talk:
    """what a recording says of who talks, of the topics and nodes that are asked for. `prefixes` has the one in the header of each datagram, or
    None"""

    def __init__(self, recording, prefixes, settled, matched, life, asked, times=NO_TIMES, known=None, matches=None):
        self.recording, self.settled, self.life, self.asked, self.times = recording, settled, life, asked, times
        self.announced, self.namings, self.answers = Announced(life.announced), named_by(recording), answering(recording)
        self.datagrams_by, self.who = datagrams_by(prefixes), Who(recording, by_writer=True)
        unfit = list(self.find_unfit(settled))
        self.talking = [one for one in unfit if self.talks(one.w, one.r)]
        self.unmatched = [one for one in unfit if not self.talks(one.w, one.r)]
        apart = {(one.w, one.r) for one in unfit}
        fitting = [pair for pair in matched if self.chooses(*pair) and pair not in apart]
        self.judged = sorted([pair for pair in fitting if is_reliable(*pair) and self.is_observed(*pair)] + [(one.w, one.r) for one in self.talking])
        self.unobserved = [pair for pair in fitting if not self.is_observed(*pair)]
        self.best_effort = [pair for pair in fitting if not is_reliable(*pair) and self.is_observed(*pair)]
        self.one_way = [(source, dest, count) for (source, dest), count in self.namings.items() if self.is_one_way(source, dest)]
        self.silent = self.find_silent() if times.are_there() else {}
        # who was never told of whose endpoints, and who has two lives: nothing of a recording without times
        self.not_told = known.untold() if known and times.are_there() else []
        self.lives = known.lives_by_participant() if known and times.are_there() else {}
        # when writers and readers matched
        self.matches = matches if times.are_there() else None

    def find_unfit(self, settled):
        """the writers and readers of one topic that may meet, and of which some policy does not fit"""
        readers = [end for end in settled if end[1] == 'reader' and self.asked.chooses(end[2])]
        for w in settled:
            for r in readers:
                if w[1] != 'writer' or w[2] != r[2] or self.announced.two_domains(w[0], r[0]) or not self.chooses(w, r):
                    continue
                offered, requested = self.announced.values(w), self.announced.values(r)
                because = reasons(offered, requested)
                if because:
                    yield Unfit(w, r, because, offered, requested)

    def end(self, guid):
        return End(self.announced, self.who, guid)

    def chooses(self, w, r):
        """whether a writer and a reader are asked for, by their topic and by their nodes"""
        return self.asked.chooses(w[2]) and self.asked.chooses_nodes(self.who.node(w[0]), self.who.node(r[0]))

    def talks(self, w, r):
        """the reader acknowledges something to the writer"""
        return (w[0], r[0]) in self.answers

    def is_observed(self, w, r):
        """the reader's participant names the writer's"""
        return (r[0][:12], w[0][:12]) in self.namings

    def is_one_way(self, source, dest):
        """the one names the other, and the other never names the one, though they have two addresses, and not two domains"""
        return ((source, dest) in self.namings and (dest, source) not in self.namings and self.announced.two_addresses(source, dest)
                and not self.announced.two_domains(source, dest))

    def silence(self, w, r):
        """why a pair is not observed"""
        one, other = w[0][:12], r[0][:12]
        if one == other:
            return 'one participant'
        if self.announced.two_domains(one, other):
            return 'two domains'
        return 'one way' if self.is_one_way(one, other) else 'silent'

    # ---- pairs of best effort

    def numbers(self, w, r):
        """the numbers that the writer sent since the reader's first"""
        span = Span(self.recording, self.life, w[0], r[0], self.asked.first)
        greatest = max((act['number'] for acts in span.datagrams(self.recording) for act in acts if act['kind'] in ('data', 'data_frag')
                        and act['source'] + act['writer'] == w[0]), default=0)
        return range(span.first, greatest + 1)

    def counted(self, w, r):
        """how many numbers the writer sent since the reader's first, and how many of these the recording has for it"""
        datagrams, numbers = Span(self.recording, self.life, w[0], r[0], self.asked.first).datagrams(self.recording), self.numbers(w, r)
        told = {act['number'] for _, act, words in told_to(datagrams, w[0], r[0]) if words.payload is not None}
        return max(0, numbers.stop - numbers.start), sum(n in numbers for n in told)

    @cached_property
    def best_effort_counts(self):
        """by topic: how many pairs, numbers, and numbers that the recording has"""
        topics = {}
        for w, r in self.best_effort:
            counts = topics.setdefault(w[2], [0, 0, 0])
            for i, more in enumerate((1, *self.counted(w, r))):
                counts[i] += more
        return sorted(topics.items())

    # ---- participants

    def lifetimes(self):
        """of each participant its first and its last datagram, and the one in which it leaves; None where there is none"""
        for guid, (joined, *_) in sorted(self.announced.participants.items()):
            own = self.datagrams_of(guid)
            left = self.life.leaves(guid, joined)
            yield guid, min(own, default=None), max(own, default=None), left and left[0]

    def datagrams_of(self, guid):
        """those whose header names a participant"""
        return self.datagrams_by.get(guid[:12], [])

    def find_silent(self):
        """the participants that are silent, with their last datagrams"""
        return {guid: last for guid, _, last, left in self.lifetimes()
                if is_silent(self.times, self.datagrams_of(guid), left, self.announced.lease(guid))}

    # ---- discovery

    def address_behind(self, source, dest):
        """the address of the second of two participants, if the first names it and nothing comes back, or None"""
        return self.announced.address(dest + PARTICIPANT) if self.is_one_way(source, dest) else None

    def is_not_told(self, w, r):
        """the participant of the reader of a pair was not told of endpoints of the other"""
        return any((one.source, one.dest) == (w[0][:12], r[0][:12]) for one in self.not_told)

    def is_mixture(self, w, r):
        """a participant of a pair has two lives"""
        return w[0][:12] in self.lives or r[0][:12] in self.lives

    def late(self, w, r):
        """that a writer and a reader matched late, or None"""
        return late_match(self.matches, w[0], r[0])

    def topic(self, guid):
        """that of an endpoint that announced itself in one way, or else nothing"""
        return next((end[2] for end in self.settled if end[0] == guid), b'')

    def silences(self, w, r):
        """of a pair the sides whose participants are silent, with their last datagrams"""
        found = [(side, self.silent.get(guid[:12] + PARTICIPANT)) for side, guid in (('writer', w), ('reader', r))]
        return [(side, last) for side, last in found if last is not None]


def is_reliable(w, r):
    return w[4] == r[4] == 1
