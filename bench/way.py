"""Which way round two recordings are, by what a writer and a reader said in both: a part of the second implementation.

FILE is made at a writer's host, and OTHER at a reader's. What is lost on the way from a writer is then in FILE alone, and an answer that is
lost on the way in OTHER alone. So each pair that is held against OTHER is asked which way round the two are:
- Its entries are, in each of the two recordings and in their order, the acts of the writer that the reader hears (DATA, DATA_FRAG, HEARTBEAT
  and GAP), and the ACKNACKs of the reader to the writer. All of the recording counts, whatever the pair is judged by.
- Two entries are the same where they have one source, one destination (a participant, or all), and equal values in all fields.
- Two recordings never begin and end together. So of each only what stands from the fifth to the fifth from the end of those of its entries
  that the other one has, too, is compared: there is nothing where these are fewer than nine.
- The pair is the *wrong* way round where OTHER has such an act that FILE has nowhere, or FILE such an answer that OTHER has nowhere, and there is
  nothing of the opposite. It is the *right* way round where there is the opposite alone. It is *both* where there is both, and *alike* where
  there is nothing.
"""
from reference import answered, heard, spoken

# Of what the two have in common so many entries at the beginning, and at the end, are not compared.
APART = 4


def frozen(value):
    """the same, as it can be in a set"""
    return tuple(frozen(one) for one in value) if isinstance(value, (list, tuple)) else value


class Entry:
    """whether it is an answer, and what has to be equal"""

    def __init__(self, act, is_answer):
        self.is_answer = is_answer
        self.key = tuple((name, frozen(value)) for name, value in sorted(act.items()) if name not in ('at', 'order', 'time'))


def entries(recording, w, r):
    """of a recording, which has the acts of each datagram"""
    return [Entry(act, answered(act, w, r)) for acts in recording for act in acts if answered(act, w, r) or spoken(act, w) and heard(act, r)]


def lacking(one, other):
    """of the entries of a recording whether some act, and whether some answer, is lacking in another one, of those that are compared"""
    there = {entry.key for entry in other}
    common = [at for at, entry in enumerate(one) if entry.key in there]
    compared = one[common[APART]:common[-1 - APART] + 1] if len(common) > 2 * APART else []
    found = {entry.is_answer for entry in compared if entry.key not in there}
    return False in found, True in found


def way(file, other):
    """`right`, `wrong`, `both` or `alike`, of the entries of a pair"""
    act_of_file, answer_of_file = lacking(file, other)
    act_of_other, answer_of_other = lacking(other, file)
    is_right, is_wrong = act_of_file or answer_of_other, act_of_other or answer_of_file
    return {(True, False): 'right', (False, True): 'wrong', (True, True): 'both', (False, False): 'alike'}[is_right, is_wrong]
