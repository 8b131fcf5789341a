"""When two matched, for the second implementation, where samples of built-in writers come in fragments: one that is put together stands as a DATA in the
place of the DATA_FRAG that completes it, for those to whom that is sent. So it announces, tells when an endpoint was there, and how far a clock is off.
"""
from fragments import by_writer, payloads_told
from known import READERS, endpoint_of
from matched import NEAR, Matches, nanoseconds

BUILT_IN = 0xc0     # from here on the last octet of the id of a built-in entity


class WholeMatches(Matches):
    """what a recording says of it, with samples that are put together"""

    def __init__(self, recording, vendors, prefixes, times):
        super().__init__(recording, vendors, prefixes, times)
        self.put_together = {}
        for (_, writer), pieces in by_writer(recording).items():
            if writer[3] >= BUILT_IN:
                self.put_together |= {id(piece): told for piece, told in zip(pieces, payloads_told(pieces)) if told}
        self.announced = {}
        for place, act in self.acts:
            for said in self.told(act):
                guid = endpoint_of(said) if act['writer'] in READERS else None
                if guid is not None and guid[:12] == act['source']:
                    self.announced.setdefault(guid, (act['writer'], act['number'], act['time']))

    def told(self, act):
        """the DATA that an act is, or those that it completes"""
        return [act] if act['kind'] == 'data' else [act | {'payload': payload} for payload in self.put_together.get(id(act), ())]

    def fits(self, prefix):
        apart = [self.times.of(place[0]) - nanoseconds(act['time']) for place, act in self.acts if act['source'] == prefix and act.get('time') is not None
                 and self.told(act) and self.times.of(place[0]) is not None]
        return bool(apart) and -NEAR <= min(apart) <= NEAR
