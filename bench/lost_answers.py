"""Answers of a reader that a recording lacks: a part of the second implementation.

**A lost answer is no loss.** A number that would be missed is no loss where these hold:
- the reader asks for it by an ACKNACK, and behind the last place where it does the writer sends it again: the first DATA or DATA_FRAG of it
  that the reader hears there is its resend;
- an answer of the reader behind that place claims it;
- an answer lacks around the resend: of the last answer in front of the resend and the first one behind it, as many counts are left out
  between the two as are more than the datagrams between them in which a NACK_FRAG of the reader to the writer stands, and no ACKNACK of the
  reader. Counts are read as u32 and go round; where 2^31 or more are left out, the counts go back, and nothing lacks;
- the reader answers no other writer, since some readers count their answers to all writers together.
Then the request may be one that the resend answers, though the reader had the number by then: what it said in between is not here. The number
is likely, whatever else it were behind missed.
"""

# Counts are as many, and where more than half are left out, they go back.
COUNTS, HALF = 2 ** 32, 2 ** 31


def is_of(act, r):
    """an ACKNACK or a NACK_FRAG of a reader"""
    return act['kind'] in ('acknack', 'nack_frag') and act['source'] + act['reader'] == r


def is_to(act, w):
    return act['dest'] is not None and act['dest'] + act['writer'] == w


class LostAnswers:
    """of a writer and a reader: around which resends an answer of the reader lacks. `placed` has all acts with their places"""
    def __init__(self, placed, w, r):
        spoken = [(place, act) for place, act in placed if is_of(act, r)]
        ack_nacks = [(place, act) for place, act in spoken if act['kind'] == 'acknack']
        self.answers = [(place, act['set'][0], act['count']) for place, act in ack_nacks if is_to(act, w)]
        self.answers_others = any(act['dest'] is not None and not is_to(act, w) for _, act in ack_nacks)
        asking = {place[0] for place, act in spoken if act['kind'] == 'nack_frag' and is_to(act, w)}
        # the datagrams in which the reader asks for fragments alone
        self.fragments_alone = asking - {place[0] for place, _ in ack_nacks}

    def lacks_around(self, resend):
        """whether an answer lacks around a place"""
        before = [(place, count) for place, _, count in self.answers if place < resend]
        behind = [(place, count) for place, _, count in self.answers if place > resend]
        if self.answers_others or not before or not behind:
            return False
        (start, one), (end, other) = before[-1], behind[0]
        asking = [datagram for datagram in self.fragments_alone if start[0] <= datagram <= end[0]]
        return len(asking) < (other - one - 1) % COUNTS < HALF

    def excuses(self, n, asked, brought):
        """whether a number is no loss, of which these are the places where an ACKNACK asks for it, and where something of it is sent"""
        resend = next((place for place in brought if asked and place > asked[-1]), None)
        claimed = any(place > asked[-1] and base > n for place, base, _ in self.answers) if asked else False
        return resend is not None and claimed and self.lacks_around(resend)
