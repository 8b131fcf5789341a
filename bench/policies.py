"""Policies of endpoints, and hosts of participants, for the second implementation: what announcements say of them, and which of a
writer's and a reader's policies do not fit.

DDS 1.4, 2.2.3 says which policies there are, what they are where none is announced, and which of a writer and a reader fit;
XTypes 1.3, 7.6.3.1.1 says so of the data representation; DDSI-RTPS 2.5, 9.6.3 says how they are announced.

An endpoint is a tuple, as `reference.announcement` gives it. A parameter that cannot be read is as if absent.
"""
import re

from reference import name_text, number, read_list

INFINITE = 0x7fffffff, 0xffffffff
XCDR1 = 0

# ---- values of parameters


def kind_of(value, order, count):
    """the number in the first four octets, where it is below the count"""
    kind = number(value[:4], order) if len(value) >= 4 else count
    return kind if kind < count else None


def duration_of(value, order):
    return (number(value[:4], order, True), number(value[4:8], order)) if len(value) >= 8 else None


def liveliness_of(value, order):
    kind, lease = kind_of(value, order, 3), duration_of(value[4:], order)
    return None if kind is None or lease is None else (kind, lease)


def presentation_of(value, order):
    scope = kind_of(value, order, 3)
    return None if scope is None or len(value) < 6 or max(value[4:6]) > 1 else (scope, *value[4:6])


def partition_of(value, order):
    """the names, each at the next multiple of four octets; None where one of them is no text"""
    if len(value) < 4:
        return None
    at, names = 4, []
    for _ in range(number(value[:4], order)):
        at = (at + 3) // 4 * 4
        if len(value) < at + 4:
            return None
        size = number(value[at:at + 4], order)
        end = at + 4 + size
        if len(value) < end or (size and value[end - 1] != 0):
            return None
        names.append(value[at + 4:end - 1] if size else b'')
        at = end
    return tuple(names) or (b'',)


def representation_of(value, order):
    count = number(value[:4], order) if len(value) >= 4 else len(value)
    if len(value) < 4 + 2 * count:
        return None
    return tuple(number(value[4 + 2 * i:6 + 2 * i], order) for i in range(count))


# name, parameter, how its value is read, and what it is where it is absent
READ = [
    ('deadline', 0x0023, duration_of, INFINITE),
    ('latency_budget', 0x0027, duration_of, (0, 0)),
    ('liveliness', 0x001b, liveliness_of, (0, INFINITE)),
    ('ownership', 0x001f, lambda value, order: kind_of(value, order, 2), 0),
    ('destination_order', 0x0025, lambda value, order: kind_of(value, order, 2), 0),
    ('presentation', 0x0021, presentation_of, (0, 0, 0)),
    ('partition', 0x0029, partition_of, (b'',)),
    ('data_representation', 0x0073, representation_of, ()),
]


def fields_of(payload):
    """the order of an announcement without a fault, and its parameters"""
    order = 'be' if payload[1] == 2 else 'le'
    return order, read_list(payload[4:], order)[0]


def policies_in(payload):
    """the policies that the first parameter of each id says"""
    order, pairs = fields_of(payload)
    found = {}
    for name, pid, read, default in READ:
        values = [value for at, value in pairs if at == pid]
        said = read(values[0], order) if values else None
        found[name] = default if said is None else said
    return found


# ---- values of parameters of a participant


def locator_of(value, order):
    """the address in a locator; None of another kind"""
    if len(value) < 24:
        return None
    kind, octets = number(value[:4], order), value[8:24]
    return octets[12:] if kind == 1 else octets if kind == 2 else None


def address_in(payload):
    """the first default unicast address that is IPv4, or else the first that is IPv6; None where there is none"""
    order, pairs = fields_of(payload)
    found = [locator_of(value, order) for pid, value in pairs if pid == 0x0031]
    return next((one for size in (4, 16) for one in found if one is not None and len(one) == size), None)


# What DDSI-RTPS 2.5, 9.6.2 makes of a domain: the first port of all, and how many ports a domain has.
FIRST_PORT, PORTS = 7400, 250

# The kind of a locator from which on a stack may mean shared memory.
SHARED_MEMORY = 16


def locators_in(payload, *pids):
    """the kinds and ports of the locators of these parameters, in their order; None of one that cannot be read"""
    order, pairs = fields_of(payload)
    found = [value for pid, value in pairs if pid in pids]
    return [(number(value[:4], order, True), number(value[4:8], order)) if len(value) >= 24 else None for value in found]


def port_above_the_first(payload, pid):
    """by how much the port of the first locator of a parameter is above the first port of all; None where there is none, or it is below"""
    locator = next(iter(locators_in(payload, pid)), None)
    return None if locator is None or locator[1] < FIRST_PORT else locator[1] - FIRST_PORT


# The vendor of Fast DDS.
FAST = b'\1\x0f'


def vendor_in(payload):
    """the vendor: the first two octets of the first such parameter; None where there is none of as many"""
    values = [value for pid, value in fields_of(payload)[1] if pid == 0x0016]
    return values[0][:2] if values and len(values[0]) >= 2 else None


def may_share_memory(payload):
    """whether Fast DDS announces a locator that may mean shared memory"""
    locators = locators_in(payload, 0x0031, 0x0032)
    return vendor_in(payload) == FAST and any(one is not None and one[0] >= SHARED_MEMORY for one in locators)


def domain_by_ports(payload):
    """the domain that ports tell: that of the first metatraffic multicast locator, or of Fast DDS that of the first unicast one"""
    multicast, unicast = (port_above_the_first(payload, pid) for pid in (0x0033, 0x0032))
    if multicast is not None and multicast % PORTS == 0:
        return multicast // PORTS
    return unicast // PORTS if unicast is not None and vendor_in(payload) == FAST else None


def domain_in(payload):
    """the domain that is announced, or the one that ports tell; None where there is none"""
    order, pairs = fields_of(payload)
    values = [value for pid, value in pairs if pid == 0x000f]
    return number(values[0][:4], order) if values and len(values[0]) >= 4 else domain_by_ports(payload)


def lease_in(payload):
    """the lease in nanoseconds; None where it is not announced, or is below 0"""
    order, pairs = fields_of(payload)
    values = [value for pid, value in pairs if pid == 0x0002]
    lease = duration_of(values[0], order) if values else None
    return None if lease is None or lease[0] < 0 else lease[0] * 10 ** 9 + (lease[1] * 10 ** 9 >> 32)


# ---- what fits

# A set: a mark where one stands there, then its members, of which the first may be a closing bracket.
SET = re.compile(rb'\[(?:([!^])|(?![!^]))(.[^]]*)\]', re.DOTALL)


def parts_of(pattern):
    """for each part of a pattern the test of an octet, or None for `*`; and whether it stands for other octets than itself"""
    at, parts = 0, []
    while at < len(pattern):
        octet, bracket = pattern[at], SET.match(pattern, at)
        if bracket:
            ranges, outside = ranges_of(bracket[2]), bool(bracket[1])
            parts.append((lambda x, r=ranges, o=outside: any(low <= x <= high for low, high in r) != o, True))
            at = bracket.end()
            continue
        if octet == ord('*'):
            parts.append((None, True))
        elif octet == ord('?'):
            parts.append((lambda x: True, True))
        else:
            parts.append((lambda x, own=octet: x == own, False))
        at += 1
    return parts


def ranges_of(members):
    """the members of a set, as ranges from the first octet to the last: `-` between two octets makes one"""
    at, ranges = 0, []
    while at < len(members):
        is_range = members[at + 1:at + 2] == b'-' and at + 2 < len(members)
        ranges.append((members[at], members[at + 2] if is_range else members[at]))
        at += 3 if is_range else 1
    return ranges


def is_pattern(name):
    return any(is_open for _, is_open in parts_of(name))


def fits_pattern(pattern, name):
    """whether a name is what the parts of a pattern stand for: the places up to which it may be read, part by part"""
    places = {0}
    for test, _ in parts_of(pattern):
        if test is None:
            places = set(range(min(places), len(name) + 1)) if places else places
        else:
            places = {place + 1 for place in places if place < len(name) and test(name[place])}
    return len(name) in places


def names_fit(one, other):
    if is_pattern(one) and is_pattern(other):
        return False
    if is_pattern(one):
        return fits_pattern(one, other)
    return fits_pattern(other, one) if is_pattern(other) else one == other


def liveliness_fits(offered, requested):
    return offered[0] >= requested[0] and offered[1] <= requested[1]


def presentation_fits(offered, requested):
    return all(mine >= other for mine, other in zip(offered, requested))


def partition_fits(offered, requested):
    return any(names_fit(one, other) for one in offered for other in requested)


def representation_fits(offered, requested):
    return (offered or (XCDR1,))[0] in (requested or (XCDR1,))


# The name of each policy, and whether what is offered of it fits what is requested, in the order in which reasons are told.
TABLE = [
    ('reliability', lambda offered, requested: offered >= requested),
    ('durability', lambda offered, requested: offered >= requested),
    ('deadline', lambda offered, requested: offered <= requested),
    ('latency_budget', lambda offered, requested: offered <= requested),
    ('liveliness', liveliness_fits),
    ('ownership', lambda offered, requested: offered == requested),
    ('destination_order', lambda offered, requested: offered >= requested),
    ('presentation', presentation_fits),
    ('partition', partition_fits),
    ('data_representation', representation_fits),
    ('type', lambda offered, requested: offered == requested),
]


def values_of(endpoint, policies):
    """the value of each policy of the table"""
    return {'reliability': endpoint[4], 'durability': endpoint[5], 'type': endpoint[3], **policies}


def reasons(offered, requested):
    """the policies that do not fit, in the table's order"""
    return [name for name, fits in TABLE if not fits(offered[name], requested[name])]


# ---- values in words

RELIABILITIES = 'best effort', 'reliable'
DURABILITIES = 'volatile', 'transient local', 'transient', 'persistent'
LIVELINESS = 'automatic', 'manual by participant', 'manual by topic'
OWNERSHIPS = 'shared', 'exclusive'
DESTINATION_ORDERS = 'reception time', 'source time'
SCOPES = 'instance', 'topic', 'group'
REPRESENTATIONS = {0: 'XCDR1', 1: 'XML', 2: 'XCDR2'}


def duration_text(duration):
    """seconds with at most nine places; what is behind these is cut off"""
    seconds, fraction = duration
    if duration == INFINITE:
        return 'infinite'
    if seconds < 0:
        return 'negative'
    return f"{seconds}.{fraction * 10 ** 9 >> 32:09}".rstrip('0').rstrip('.') + ' s'


def liveliness_text(liveliness):
    return f'{LIVELINESS[liveliness[0]]}, lease {duration_text(liveliness[1])}'


def presentation_text(presentation):
    scope, coherent, ordered = presentation
    return SCOPES[scope] + (', coherent' if coherent else '') + (', ordered' if ordered else '')


def partition_text(names):
    return ', '.join(f'"{name_text(name)}"' for name in names)


def representation_text(ids):
    return ', '.join(REPRESENTATIONS.get(one, str(one)) for one in ids or (XCDR1,))


# How the value of each policy is said.
WORDS = {
    'reliability': RELIABILITIES.__getitem__, 'durability': DURABILITIES.__getitem__, 'deadline': duration_text, 'latency_budget': duration_text,
    'liveliness': liveliness_text, 'ownership': OWNERSHIPS.__getitem__, 'destination_order': DESTINATION_ORDERS.__getitem__,
    'presentation': presentation_text, 'partition': partition_text, 'data_representation': representation_text, 'type': name_text,
}


def value_text(name, value):
    return WORDS[name](value)


def address_text(address):
    """four numbers, or eight in hexadecimal digits"""
    if len(address) == 4:
        return '.'.join(map(str, address))
    return ':'.join(f'{number(address[i:i + 2], "be"):x}' for i in range(0, 16, 2))
