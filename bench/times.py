"""When the datagrams of a capture came, and what `check`, `page` and JSON say of that: a part of the second implementation.

**The time of a datagram** is that of the frame that gave it; of a packet in pieces that of the frame that completed it. It is counted in
nanoseconds since 1970 began, and what is finer is cut off. A record of a classic file has its seconds and, by the file's magic, microseconds
or nanoseconds. A packet block of a pcapng file counts units of its interface: its first option 9 (if_tsresol), where it has one octet, says how
many a second has: 10 to its power, or from 128 on 2 to the power of what it is above 128; else they are microseconds. Its first option 14
(if_tsoffset), where it has eight octets, says how many seconds are added (a signed number); else it is 0. A datagram has no time where it came
in a Simple Packet Block, where its time is before 1970, and where it needs more than 64 bits. A text has no times.

**The start** of a capture is the time of the first frame of the file that has one, whether it gave a datagram or not.

**A recording has times** where some datagram of it has one. Nothing below is said of another recording: its outputs are as they were.

**The second** of a datagram that has a time is the time from the start to it in milliseconds, cut off towards zero, said with three places:
`12.345`. Where it is before the start a `-` stands in front, but not in front of 0.000. Another time that is said is cut off so, too.

**The frame of a datagram** of a capture is the number of the frame that gave it; of a packet in pieces of the one that completed it. Records of
packets count from 1, and so do packet blocks (Enhanced, Simple and old), whatever they carry and whether they gave a datagram or not: this is
the number that other programs give them. A text has no frames.

**Where frames stand.** In the text of `check`, `page` and `why` a frame stands before the second, wherever that does or would: `in datagram 412
at 36, frame 431, 12.345 s`. In JSON, but not in that of `audit`, a place has it as its last member, `frame`, and a datagram that stands alone, where it has a
member for its second, another for its frame (`until_frame`, `first_frame`, `last_frame`, `left_frame`), null where the datagram is.

**Where seconds stand.** In the text of `check`, and so of `page`, and in that of `why`, a place of a datagram that has a time is followed by a comma and the second:
`in datagram 412 at 36, 12.345 s`, and so is the datagram in which a reader left. In JSON, and so in the data of `page`, each place has
behind `at` a member `time`: the second as a number with three places, or null. A datagram that stands alone (`until` of a row, `first`, `last`
and `left` of a participant) has a member of its own: `until_time`, `first_time`, `last_time`, `left_time`, null where the datagram is null or
has no time. `show`, `list` and `audit` say no second in their texts.

**Times go back** by the greatest step of a recording: how much the time of a datagram is before that of an earlier one, the greatest of
all pairs that have times. Where it is more than a millisecond there is a note.

**The end** of a list of datagrams is the greatest of their times. The end of the recording is the greatest time of any frame, whether it gave a
datagram or not.

**The datagrams of a participant** are those with a header that can be read and has its prefix, whatever stands in them.

**A participant is silent** where it is announced, does not leave, has a datagram, and each of its datagrams has a time that is more than ten
seconds before the end of the recording, or more than its lease, where that is shorter. It is so since the last of these datagrams. (A datagram
that is ten seconds before the end is among the last ten seconds.) Its lease is the parameter 0x0002 of its first announcement: seconds (a signed
number) and a fraction, in nanoseconds that are cut off; 100 seconds where it is absent, cannot be read, or is below 0.

**A wait** of a row is that of a HEARTBEAT without the final flag that the reader hears since it joined: to the first answer of the
reader to the writer behind it, or, where there is none, to the end of the row's datagrams. Which is behind which is told by places. It is the time
between the two, and 0 where this is below 0. A HEARTBEAT without a time is no wait, nor is one whose answer has none. **The longest wait** is
the greatest, of equal ones the first. It is told where it is more than a second.

**What is told of a row.** In `check` the block of a row has, behind the lines of evidence and before what to do, the line of its longest wait,
and then that the writer's participant is silent, and the reader's. A row that is not clean is told to look at the process that is silent, the
reader's before the writer's, and nothing else. What is clean, and why a run is not, do not change. In JSON a row of `check` and `page` has behind
`clean` the member `wait`: null, or an object of `seconds`, `asked` (a place) and `answered` (a place or null); and behind it `silence`: the
sentences that it has. `audit` says nothing of waits and of participants. Each participant has behind its times `silent`: true or false.

**Asked only in the last second** is a reader, where the first HEARTBEAT without the final flag that it hears behind its last answer to the
writer has a time, and that is at most a second before the end of the recording.

**A number is unanswered** by time where the first HEARTBEAT that asked about it came 100 milliseconds or more before the act that told it gone,
or one of the two has no time.

**What is told of the recording.** The note on times that go back is the first of all notes. It is no reason for a run not to be clean.

**What a chart needs.** The data of the page has behind `answers` the member `times`: a list of pairs, a datagram and its second, of each
datagram that has a time and stands in an entry of `writers` or `answers`, each once and in order. So it has at most as many pairs as
there are entries, and the chart has the second of all that it draws.
"""
import bisect
import json
import re
from typing import NamedTuple, Optional

from sentences import noted

MILLISECOND, SECOND = 10 ** 6, 10 ** 9
MOST_BACK = MILLISECOND        # times may go back by so much, and nothing is said
SILENCE = 10 * SECOND          # who says nothing at the end for longer is silent
LEASE = 100 * SECOND           # of a participant that announces none
MOST_WAIT = SECOND             # a wait that is not longer is not told
LAST = SECOND                  # who is asked only then needs a longer recording
SHORT = 100 * MILLISECOND      # what is told gone sooner was not an outage


class Seconds:
    """a time that is said: nanoseconds, in whole milliseconds, cut off towards zero"""

    def __init__(self, nanoseconds):
        whole = abs(nanoseconds) // MILLISECOND
        self.text = ('-' if nanoseconds < 0 and whole else '') + f'{whole // 1000}.{whole % 1000:03}'

    def __str__(self):
        return self.text


class Times:
    """of a recording: the time of each of its datagrams, the start, and the greatest time of any frame, each None where there is none; and
    the number of the frame of each datagram, of which a text has none"""

    def __init__(self, start=None, of_datagrams=(), last=None, frames=()):
        self.start, self.of_datagrams, self.last, self.frames = start, list(of_datagrams), last, list(frames)

    def frame(self, datagram):
        """the frame of a datagram, counted from 1; None of none, and of a text"""
        return self.frames[datagram - 1] if self.frames and datagram is not None else None

    def without_frames(self):
        """what an audit tells"""
        return Times(self.start, self.of_datagrams, self.last)

    def are_there(self):
        return any(time is not None for time in self.of_datagrams)

    def of(self, datagram):
        """the time of a datagram, counted from 1"""
        return self.of_datagrams[datagram - 1] if self.of_datagrams else None

    def second(self, datagram):
        """the second of a datagram; None of none, and of one without a time"""
        time = None if datagram is None else self.of(datagram)
        return None if time is None else Seconds(time - self.start)

    def end(self, count):
        """the end of the first `count` datagrams"""
        return max((time for time in self.of_datagrams[:count] if time is not None), default=None)

    def between(self, one, other):
        """from one datagram to another, in nanoseconds; None where one has no time"""
        since, until = self.of(one), self.of(other)
        return None if since is None or until is None else until - since

    def is_last(self, datagram):
        """whether a datagram came in the last second"""
        time = self.of(datagram)
        return time is not None and self.last - time <= LAST

    def step_back(self):
        """by how much times go back, in nanoseconds"""
        step, latest = 0, 0
        for time in self.of_datagrams:
            if time is not None:
                latest = max(latest, time)
                step = max(step, latest - time)
        return step


NO_TIMES = Times()


# ---- places with their seconds


def behind(times, datagram):
    """what is said behind a datagram or a place in it"""
    frame, second = times.frame(datagram), times.second(datagram)
    return ('' if frame is None else f', frame {frame}') + ('' if second is None else f', {second} s')


def timed_line(times, line):
    """a line with the second behind each place"""
    return re.sub(r'(?:in|before) datagram (\d+) at \d+', lambda found: found[0] + behind(times, int(found[1])), line)


def timed_values(times, value):
    """a value of JSON with the second and the frame of each place in it"""
    if isinstance(value, list):
        return [timed_values(times, one) for one in value]
    if not isinstance(value, dict):
        return value
    timed = {name: timed_values(times, one) for name, one in value.items()}
    return timed | place_members(times, value['datagram']) if 'at' in value else timed


def place_members(times, datagram):
    """what a place has behind `at`"""
    second = {'time': times.second(datagram)} if times.are_there() else {}
    return second | ({'frame': times.frame(datagram)} if times.frames else {})


def alone(times, **datagrams):
    """the members with the seconds and the frames of datagrams that stand alone"""
    if not times.are_there():
        return {}
    seconds = {f'{name}_time': times.second(datagram) for name, datagram in datagrams.items()}
    return seconds | {f'{name}_frame': times.frame(datagram) for name, datagram in datagrams.items()}


def json_text(value, **words):
    """JSON on one line, as Python writes it, with numbers of three places"""
    if isinstance(value, Seconds):
        return str(value)
    if isinstance(value, dict):
        return '{' + ','.join(f'{json.dumps(name, **words)}:{json_text(one, **words)}' for name, one in value.items()) + '}'
    if isinstance(value, list):
        return '[' + ','.join(json_text(one, **words) for one in value) + ']'
    return json.dumps(value, **words)


# ---- times that go back


def order_notes(times):
    step = times.step_back()
    return [(f'{noted.BACK}{Seconds(step)} s', None, noted.BACK_REMEDY)] if step > MOST_BACK else []


# ---- participants that are silent


def is_silent(times, datagrams, left, lease):
    """of a participant: its datagrams, the one in which it leaves, and how long its lease is"""
    own = [times.of(datagram) for datagram in datagrams]
    return left is None and bool(own) and None not in own and times.last - max(own) > min(SILENCE, lease)


def silence_line(times, side, last):
    """that the participant of a row's writer or reader is silent since its last datagram"""
    return f"the {side}'s participant is silent since datagram {last}{behind(times, last)}, and did not leave: it was killed, or cut off"


# ---- how long a reader let a writer wait


class Wait(NamedTuple):
    """for how long, from which place, and the place of the answer"""
    nanoseconds: int
    asked: tuple
    answered: Optional[tuple]

    def is_told(self):
        return self.nanoseconds > MOST_WAIT


def waits(times, questions, answers, count):
    """those of HEARTBEATs at these places, in order, of a row that is judged by the first `count` datagrams and has answers at these places,
    in order"""
    end = times.end(count)
    for asked in questions:
        at = bisect.bisect_right(answers, asked)
        answered = answers[at] if at < len(answers) else None
        since, until = times.of(asked[0]), end if answered is None else times.of(answered[0])
        if since is not None and until is not None:
            yield Wait(max(0, until - since), asked, answered)


def longest_wait(times, questions, answers, count):
    """the longest wait that is told, or None"""
    longest = max(waits(times, questions, answers, count), key=lambda wait: wait.nanoseconds, default=None)
    return longest if longest is not None and longest.is_told() else None


def standing(times, place):
    return timed_line(times, f'in datagram {place[0]} at {place[1]}')


def wait_line(times, wait):
    answered = 'not answered' if wait.answered is None else f'answered {standing(times, wait.answered)}'
    return f'let the writer wait {Seconds(wait.nanoseconds)} s: asked {standing(times, wait.asked)}, {answered}'


def place_values(times, place):
    return None if place is None else timed_values(times, {'datagram': place[0], 'at': place[1]})


def wait_values(times, wait):
    if wait is None:
        return None
    return {'seconds': Seconds(wait.nanoseconds), 'asked': place_values(times, wait.asked), 'answered': place_values(times, wait.answered)}
