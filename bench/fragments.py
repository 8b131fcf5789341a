"""Samples that are sent in pieces, for the second implementation: what a reader is told by DATA_FRAG submessages.

DDSI-RTPS 2.5, 8.3.8.3 "DataFrag". A piece is an act of kind `data_frag`, as `reference.piece_of` reads it. The shape of a piece
is the size of its sample, the size of a fragment, and whether the sample is a key. A sample has fragments from 1 to a last
one, and is whole once each of them was heard, all of one shape.

A sample tells at most two payloads. The first one is put together from the octets that came first for each fragment. Where a
fragment also came with other octets, the second payload is the first one with these other octets in place. Of several
such octets those that came first are taken, and of those in one piece the ones of the least fragment.
"""


def shape_of(piece):
    return piece['sample'], piece['size'], piece['key']


def last_fragment(shape):
    """the number of the last fragment of a sample of this shape"""
    sample, size, _ = shape
    return (sample + size - 1) // size


def fragments_of(piece):
    """the numbers of the fragments that a piece has, each with its octets"""
    for k in range(piece['count']):
        yield piece['start'] + k, piece['octets'][k * piece['size']:(k + 1) * piece['size']]


class Sample:
    """what came of one sample in one shape"""

    def __init__(self, shape):
        self.shape = shape
        self.first = {}  # by the number of a fragment: the octets that came first
        self.other = None  # the first fragment that came with other octets, and these

    def told(self):
        """how many payloads can be put together"""
        return 0 if len(self.first) < last_fragment(self.shape) else 1 if self.other is None else 2

    def payloads(self):
        """the payloads that can be put together, of a sample that is whole"""
        last, variants = last_fragment(self.shape), [self.first]
        if self.other is not None:
            number, octets = self.other
            variants.append(self.first | {number: octets})
        form = 'key' if self.shape[2] else 'whole'
        return [(form, b''.join(variant[i] for i in range(1, last + 1))) for variant in variants]

    def add(self, piece):
        """takes a piece of this shape, and answers the payloads that could not be put together before"""
        before = self.told()
        for number, octets in fragments_of(piece):
            if self.first.setdefault(number, octets) != octets and self.other is None:
                self.other = number, octets
        return self.payloads()[before:] if self.told() > before else []


ALL_READERS = bytes(4)


def is_for(audience, listener):
    """what is for this audience comes to this listener, and to each within it"""
    return audience[0] in (None, listener[0]) and audience[1] in (ALL_READERS, listener[1])


def payloads_told(pieces):
    """for each of these pieces, which one writer sent in this order and one reader hears: the payloads that it tells"""
    samples, told = {}, []
    for piece in pieces:
        shape = shape_of(piece)
        told.append(samples.setdefault((piece['number'], shape), Sample(shape)).add(piece))
    return told


def by_writer(recording):
    """the pieces of a recording, by the writer that sent them, whoever hears them"""
    sent = {}
    for acts in recording:
        for act in acts:
            if act['kind'] == 'data_frag':
                sent.setdefault((act['source'], act['writer']), []).append(act)
    return sent


def without_sample(recording):
    """how many pieces are of numbers of which the recording has no whole sample, whoever hears them"""
    count = 0
    for pieces in by_writer(recording).values():
        whole = {piece['number'] for piece, told in zip(pieces, payloads_told(pieces)) if told}
        count += sum(piece['number'] not in whole for piece in pieces)
    return count


def placed_samples(recording):
    """each sample that a reader which hears everything is told in pieces: its place, its writer and its payload"""
    places = {id(act): (i, act['at']) for i, acts in enumerate(recording, 1) for act in acts}
    for (_, writer), pieces in by_writer(recording).items():
        for piece, told in zip(pieces, payloads_told(pieces)):
            for payload in told:
                yield places[id(piece)], writer, payload
