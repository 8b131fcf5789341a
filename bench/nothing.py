"""Why a recording has no pair to judge, of the second implementation: what is told in the place of pairs, by the first cause that fits.

- Best-effort pairs have numbers: they are counted, so the recording is not without a pair.
- No datagram has a header of RTPS.
- A participant speaks in an earlier datagram than the one in which it is announced, or is never announced. It speaks by acts whose source it is: those of
  endpoints of users, which are not built in, and of those that announce endpoints. So the recording began in the middle.
- No participant is announced.
- All participants that are announced have one address. Where one of them, of Fast DDS, announces a locator of a kind from 16 on, the ends may use
  shared memory.
- Two participants are of two domains: the first one that has a domain, in their order, and the first behind it that has another.
- A participant was never told of endpoints of another.
- Participants talk one way; or endpoints do not match; or pairs are left out; or there are pairs of best effort alone.
- A topic that is asked for has writers and no reader, or readers and no writer: of endpoints that announced themselves in one way. Where nodes are
  asked for, an end of the topic is of one of them.
"""
from sentences import no_pair
from talk import PARTICIPANT
from told import topic_text
from wording import amount, grouped

NAMED = 10      # so many topics are named

# ---- who speaks before it is announced

# those that announce writers and readers
DISCOVERY = b'\0\0\3\xc2', b'\0\0\3\xc7', b'\0\0\4\xc2', b'\0\0\4\xc7'
BUILT_IN = 0xc0     # these two bits of an entity's kind, which is its last octet


def speaks_for_it(act):
    """whether an act is one of an endpoint that does not speak before its participant is announced"""
    entity = act['reader'] if act['kind'] in ('acknack', 'nack_frag') else act['writer']
    return entity[3] & BUILT_IN != BUILT_IN or entity in DISCOVERY


def unannounced(talk):
    """the participants that are never announced, or speak before they are"""
    announced = {guid[:12]: place[0] for guid, (place, *_) in talk.announced.participants.items() if guid[12:] == PARTICIPANT}
    never = len(talk.recording) + 1
    return {act['source'] for i, acts in enumerate(talk.recording, 1) for act in acts
            if speaks_for_it(act) and i < announced.get(act['source'], never)}


def began_late(talk):
    count = len(unannounced(talk))
    if not count:
        return None
    return no_pair.EARLY + amount(count, *no_pair.words('EARLY')) + no_pair.NEVER_ANNOUNCED


# ---- hosts, and domains


def one_host(talk):
    if not talk.announced.one_address():
        return None
    return no_pair.SHARED_MEMORY if any(talk.announced.sharing.values()) else no_pair.ONE_HOST


def two_domains(talk):
    """the two are called by their prefixes, as everywhere: the GUID of a participant has one entity (DDSI-RTPS 2.5, 9.3.1.3)"""
    domains = [(guid, talk.announced.participants[guid][1]) for guid in sorted(talk.announced.participants)]
    known = [(guid, domain) for guid, domain in domains if domain is not None]
    other = next(((guid, domain) for guid, domain in known if domain != known[0][1]), None)
    if other is None:
        return None
    (one, domain), (guid, another) = known[0], other
    first, second = (talk.end(participant[:12] + PARTICIPANT).process_text() for participant in (one, guid))
    return f'{first} is in domain {domain}, {second} in domain {another}'


# ---- topics


def one_sided(talk):
    """the topics that have writers alone, or readers alone"""
    sides, nodes = {}, {}
    for guid, side, topic, *_ in talk.settled:
        sides.setdefault(topic, set()).add(side)
        nodes.setdefault(topic, []).append(talk.who.node(guid))
    alone = [(topic, *found) for topic, found in sorted(sides.items()) if len(found) == 1 and talk.asked.chooses(topic)
             and any(talk.asked.chooses_nodes(node, None) for node in nodes[topic])]
    told = [topic_text(topic) + no_pair[f'{side.upper()}_ALONE'] for topic, side in alone]
    return ', '.join(told[:NAMED]) + (f' and {grouped(len(told) - NAMED)} more' if len(told) > NAMED else '') or None


# ---- the first cause


def cause(talk):
    """what is told where there is no pair to judge"""
    has_numbers = any(numbers for _, (_, numbers, _) in talk.best_effort_counts)
    cases = [
        lambda: has_numbers and no_pair.BEST_EFFORT,
        lambda: not talk.datagrams_by and no_pair.NO_RTPS,
        lambda: began_late(talk),
        lambda: not talk.announced.participants and no_pair.NO_PARTICIPANT,
        lambda: one_host(talk),
        lambda: two_domains(talk),
        lambda: talk.not_told and no_pair.NOT_TOLD,
        lambda: talk.one_way and no_pair.ONE_WAY,
        lambda: talk.unmatched and no_pair.UNMATCHED,
        lambda: talk.unobserved and no_pair.LEFT_OUT,
        lambda: talk.best_effort and no_pair.BEST_EFFORT,
        lambda: one_sided(talk),
    ]
    return next((told for told in (case() for case in cases) if told), no_pair.UNKNOWN)
