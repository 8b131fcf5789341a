"""Pairs that matched late, as `check`, `why`, the page and JSON tell it: a part of the second implementation. When two matched is told by `matched`.

**A row matched late** where its writer and its reader matched more than a second behind the later of the two. Nothing is said of a recording without
times. A note of `check` tells how many rows did, and the five that took longest, the longest first and of equal ones in the order of the rows by topic:

    2 pairs matched late
      /map: matched 8.100 s after both were there (12.345 s, frame 431)
      /odom: matched 1.200 s after both were there (3.000 s, frame 20)

where the second and the frame are those of the datagram in which they matched. How many more there are stands behind them. `why` has a line with the
row, with the place. JSON has behind `untold` the member `late`, in the order of rows: for each its `topic`, `writer` and `reader`, by how much it is
late in `seconds`, and the place where the two `matched`.

**What to do**: what was written before they matched was not for the reader. That is said with a row in the place of what is said of unsent numbers, or
of missed ones of which the recording has none; and by the note, where numbers that are asked for stand before one of the rows that it is about. Such a
row is not told among those whose writer wrote nothing since their reader joined.
"""
import sentences
from times import SECOND, Seconds, place_values, standing
from wording import amount, grouped

LATE = SECOND       # a match is late that is further behind the two
NAMED = 5           # so many rows are named


class LateMatch:
    """by how much it is late, in nanoseconds, and its place"""

    def __init__(self, delay, place):
        self.delay, self.place = delay, place

    def text(self):
        return f'matched {Seconds(self.delay)} s after both were there'

    def line(self, times):
        """what `why` has"""
        return f'{self.text()}, {standing(times, self.place)}'

    def when(self, times):
        """the second and the frame of its datagram"""
        second, frame = times.second(self.place[0]), times.frame(self.place[0])
        said = ([] if second is None else [f'{second} s']) + ([] if frame is None else [f'frame {frame}'])
        return f" ({', '.join(said)})" if said else ''

    def values(self, times):
        return {'seconds': Seconds(self.delay), 'matched': place_values(times, self.place)}


def late_match(matches, w, r):
    """that of a writer and a reader by their GUIDs, or None"""
    place = matches.matched(w, r) if matches else None
    delay = None if place is None else matches.delay(w, r, place)
    return None if delay is None or delay <= LATE else LateMatch(delay, place)


def late_notes(rows, topic_text):
    """the note on rows that matched late: what is told, the lines of the latest, and what to do, or None"""
    late = [row for row in rows if row.late]
    if not late:
        return []
    longest = sorted(sorted(late, key=lambda row: row.key), key=lambda row: -row.late.delay)
    lines = [f'{topic_text(row.key[0])}: {row.late.text()}{row.late.when(row.times)}' for row in longest[:NAMED]]
    lines += [f'and {grouped(len(late) - NAMED)} more'] if len(late) > NAMED else []
    return [(amount(len(late), *sentences.noted.words('MATCHED_LATE')), lines, sentences.advice.MATCHED_LATE if any(row.before > 0 for row in late) else None)]


def late_members(talk, named):
    """those of each row that matched late"""
    for w, r in talk.judged:
        late = talk.late(w, r)
        if late:
            yield named(w, r) | late.values(talk.times)
