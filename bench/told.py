"""What `check` says of who does not talk: lines, notes, and members of its object. Facts are those of `talk.Talk`."""
from ends import process_members
from late import late_members
from policies import address_text, value_text
from reference import guid_text, name_text
from ros import ros_topic, ros_type
from known import PUBLICATIONS, SUBSCRIPTIONS
from sentences import block, no_pair, noted, reason
from talk import PARTICIPANT
from times import SECOND, Seconds, alone
from wording import amount, of

# Why a pair is not observed, in the order in which it is told, and what is said of it.
SILENCES = {'one participant': noted.ONE_PARTICIPANT, 'two domains': noted.TWO_DOMAINS, 'one way': noted.ONE_WAY, 'silent': noted.SILENT}

MOST = 2 ** 64 - 1      # no more endpoints of two participants are counted

# ---- names


def topic_text(topic):
    return name_text(ros_topic(topic))


def type_text(kind):
    return name_text(ros_type(kind))


def topics_text(pairs):
    """the topics of pairs, each once"""
    return ', '.join(map(topic_text, sorted({w[2] for w, _ in pairs})))


# ---- endpoints that do not match


def unmatched_amount(talk):
    return amount(len(talk.unmatched), *reason.words('UNMATCHED'))


def words(policy):
    return policy.replace('_', ' ')


def values_text(one):
    """of each policy for which a writer and a reader do not match its name, what is offered, and what is requested"""
    return [(name, value_text(name, one.offered[name]), value_text(name, one.requested[name])) for name in one.because]


def unmatched_block(talk, one):
    """the lines of a writer and a reader that do not match; types by their names of ROS 2"""
    lines = [f'  writer {talk.end(one.w[0]).text()}', f'  reader {talk.end(one.r[0]).text()}']
    for name, offered, requested in values_text(one):
        if name == 'type':
            offered, requested = type_text(one.w[3]), type_text(one.r[3])
        lines.append(f"    {words(name)}: offers {offered}; asks for {requested}")
    return lines


def unmatched_lines(talk):
    """those of all, by topic"""
    if not talk.unmatched:
        return []
    lines, last = [unmatched_amount(talk)], None
    for one in sorted(talk.unmatched, key=lambda one: one.w[2]):
        lines += ([] if one.w[2] == last else [topic_text(one.w[2])]) + unmatched_block(talk, one)
        last = one.w[2]
    return lines + ['  -> ' + block.UNMATCHED_REMEDY]


# ---- discovery that is not complete


def lives_amount(talk):
    return amount(len(talk.lives), *reason.words('LIVES'))


def discovery_reasons(talk):
    """how many participants were not told of how many endpoints, and how many have two lives"""
    reasons = []
    if talk.not_told:
        told = amount(len({one.dest for one in talk.not_told}), *reason.words('NOT_TOLD'))
        reasons.append(told + amount(sum(min(one.count(), MOST) for one in talk.not_told), 'endpoint', 'endpoints'))
    if talk.lives:
        reasons.append(lives_amount(talk))
    return reasons


def endpoints_named(one):
    """the writers and then the readers that are named, each with its side"""
    return [(side, guid) for side, entity in (('writer', PUBLICATIONS), ('reader', SUBSCRIPTIONS)) for guid in sorted(one.named[entity])]


def not_told_block(talk, one):
    """the lines of one that was not told of endpoints of another"""
    source, dest = (talk.end(prefix + PARTICIPANT).process_text() for prefix in (one.source, one.dest))
    lines = [f"  {dest}{block[f'NOT_TOLD_{side.upper()}']}{topic_text(talk.topic(guid))} {talk.end(guid).text()}" for side, guid in endpoints_named(one)]
    unnamed = [f"  {dest} was never told of {amount(one.unnamed, 'endpoint', 'endpoints')} of {source} that this recording does not name"]
    return lines + (unnamed if one.unnamed else [])


def not_told_lines(talk, advice):
    """those of all, by the two, with what to do"""
    if not talk.not_told:
        return []
    lines = ['discovery is not complete']
    for one in talk.not_told:
        lines += not_told_block(talk, one) + ['  -> ' + advice(talk.address_behind(one.source, one.dest))]
    return lines


# ---- two lives under one GUID


def seconds_of(talk, sent):
    """a source time in seconds since the recording began"""
    return Seconds(sent[0] * SECOND + sent[1] * SECOND // 2 ** 32 - talk.times.start)


def lives_lines(talk):
    if not talk.lives:
        return []
    lines = [lives_amount(talk)]
    for prefix, sent in talk.lives.items():
        one, other = (seconds_of(talk, time) for time in sent)
        lines.append(f'  participant {talk.end(prefix + PARTICIPANT).text()}, announced by one number at {one} s and at {other} s of its clock')
    return lines + ['  -> ' + block.LIVES_REMEDY]


# ---- participants that talk one way


def one_way_lines(talk):
    if not talk.one_way:
        return []
    lines = [amount(len(talk.one_way), *block.words('ONE_WAY'))]
    for one, other, count in talk.one_way:
        silent, talking = (talk.end(prefix + PARTICIPANT).text() for prefix in (other, one))
        lines += [f'  participant {silent} never answers', f"  participant {talking}, which names it in {amount(count, 'datagram', 'datagrams')}"]
    return lines + ['  -> ' + block.ONE_WAY_REMEDY]


# ---- notes: what is told, the topics that it is about, or None, and what to do, or None


def host_notes(talk):
    return [(no_pair.ONE_HOST, None, noted.ONE_HOST_REMEDY)] if talk.announced.one_address() else []


def unobserved_notes(talk):
    """the pairs that the recording cannot speak of, by the reason"""
    for silence, words in SILENCES.items():
        pairs = [pair for pair in talk.unobserved if talk.silence(*pair) == silence]
        if pairs:
            yield amount(len(pairs), *noted.words('LEFT_OUT')) + words, topics_text(pairs), None


def best_effort_totals(talk):
    """how many pairs of best effort, numbers of them, and numbers that the recording has"""
    return tuple(sum(counts[i] for _, counts in talk.best_effort_counts) for i in range(3))


def best_effort_shares(talk):
    """how many of their numbers the recording has"""
    pairs, numbers, recorded = best_effort_totals(talk)
    one, many = noted.words('RECORDED')
    return amount(pairs, *noted.words('BEST_EFFORT')) + of(recorded, numbers) + (one if numbers == 1 else many)


def best_effort_notes(talk):
    topics = talk.best_effort_counts
    if not topics:
        return []
    _, numbers, recorded = best_effort_totals(talk)
    by_topic = ', '.join(f'{topic_text(topic)} {of(recorded, numbers)}' for topic, (_, numbers, recorded) in topics)
    return [(best_effort_shares(talk), by_topic, noted.BEST_EFFORT_REMEDY if recorded < numbers else None)]


def talking_notes(talk):
    """the pairs that talk though they do not match, each with the policies for which they do not"""
    if not talk.talking:
        return []
    pairs = [f"{topic_text(one.w[2])} ({', '.join(words(name) for name in one.because)})" for one in sorted(talk.talking, key=lambda one: one.w[2])]
    return [(amount(len(talk.talking), *noted.words('TALKING')), ', '.join(pairs), None)]


def talk_notes(talk):
    return [*host_notes(talk), *talking_notes(talk), *unobserved_notes(talk), *best_effort_notes(talk)]


# ---- members of the object, with the names of DDS


def named(w, r):
    return {'topic': name_text(w[2]), 'writer': guid_text(w[0]), 'reader': guid_text(r[0])}


def unmatched_members(one):
    because, offered, requested = map(list, zip(*values_text(one)))
    return named(one.w, one.r) | {'because': because, 'offered': offered, 'requested': requested}


def participant_members(talk):
    for guid, first, last, left in talk.lifetimes():
        _, domain, address, _ = talk.announced.participants[guid]
        members = {'guid': guid_text(guid), 'address': address and address_text(address), 'domain': domain, 'first': first, 'last': last, 'left': left}
        silent = {'silent': guid in talk.silent} if talk.times.are_there() else {}
        yield members | alone(talk.times, first=first, last=last, left=left) | silent | process_members(talk.who, guid)


def not_told_members(one):
    writers, readers = ([guid_text(guid) for guid in sorted(one.named[entity])] for entity in (PUBLICATIONS, SUBSCRIPTIONS))
    return {'from': guid_text(one.source + PARTICIPANT), 'to': guid_text(one.dest + PARTICIPANT), 'writers': writers, 'readers': readers,
            'unnamed': one.unnamed}


def lives_members(talk, prefix, sent):
    address = talk.announced.address(prefix + PARTICIPANT)
    return {'participant': guid_text(prefix + PARTICIPANT), 'address': address and address_text(address), 'sent': [seconds_of(talk, time) for time in sent]}


def talk_members(talk, sides=None):
    """`sides` is what another recording shows, where there is one"""
    return {
        'unmatched': [unmatched_members(one) for one in talk.unmatched],
        'talking': [named(one.w, one.r) | {'because': one.because} for one in talk.talking],
        'unobserved': [named(w, r) | {'because': talk.silence(w, r)} for w, r in talk.unobserved],
        'one_way': [{'from': guid_text(one + PARTICIPANT), 'to': guid_text(other + PARTICIPANT), 'named': count} for one, other, count in talk.one_way],
        'untold': [not_told_members(one) for one in talk.not_told],
        'late': list(late_members(talk, named)),
        'lives': [lives_members(talk, prefix, sent) for prefix, sent in talk.lives.items()],
        'best_effort': [dict(zip(('topic', 'pairs', 'numbers', 'recorded'), (name_text(topic), *counts))) for topic, counts in talk.best_effort_counts],
        **(sides.members() if sides else {}),
        'participants': list(participant_members(talk)),
    }
