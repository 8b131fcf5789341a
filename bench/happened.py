"""Events: what rows that are told have in common, of the second implementation.

**Which rows.** Those that have a block in `check`: they are not clean, and not so for their tail alone.

**Of which event a row is.** Where the participant of its reader is silent, of the event of that participant; or else, where that of its writer is, of
that one's. So all rows of one silent participant are one event. Any other row is of the event of two participants: its writer's and its reader's.

**Numbers.** A row that is held against another recording has those that did not arrive, and any other row those that are missed, unsent or
unanswered. An event has the sum of its rows.

**Places.** `first` and `last` of a row are the least and the greatest place where one of its numbers was sent first, of those that are missed, unsent or
unanswered, or did not arrive: the first act of the row's datagrams by which the reader hears a DATA or a DATA_FRAG of it. Numbers without such an act
do not count. Those of an event are the least and the greatest of its rows. `asked` of a row whose reader's participant is silent is the place of the
first HEARTBEAT without the final flag that the reader hears behind its last answer to the writer. That of an event is the least of such rows, of
those whose reader is of the silent participant.

**Order.** The event with the most numbers comes first; of two that have as many the one whose first row comes first in the report.
"""
import kinds
from reference import guid_text
from talk import PARTICIPANT
from times import place_values
from wording import amount

KINDS = 'missed', 'unsent', 'unanswered'


def numbers_of(row):
    return row.lacking_count() if row.held else sum(row.counts[kind] for kind in KINDS)


def sendings(row):
    """the places where numbers of a row that are lost, or look so, were sent first"""
    ranges = {tuple(one) for some in kinds.ranges_by_kind(row).values() for one in some}
    # A range can have very many numbers. Only those that something brings can have been sent.
    return [places[0] for n, places in row.delivery.brought.items() if places and any(first <= n <= last for first, last in ranges)]


class Event:
    """what happened to some rows, each with its number in the report. `silent` is the participant that is silent, or None"""

    def __init__(self, talk, participants, silent):
        self.talk, self.participants, self.silent, self.rows = talk, participants, silent, []

    def add(self, at, row):
        self.rows.append((at, row))

    def numbers(self):
        return sum(numbers_of(row) for _, row in self.rows)

    def sendings(self):
        return [place for _, row in self.rows for place in sendings(row)]

    def first(self):
        return min(self.sendings(), default=None)

    def last(self):
        return max(self.sendings(), default=None)

    def asked(self):
        return min((place for _, row in self.rows if row.r[:12] + PARTICIPANT == self.silent for place in row.asked_since()), default=None)

    def second(self, place):
        return None if place is None else self.talk.times.second(place[0])

    def amounts(self):
        numbers = self.numbers()
        return amount(len(self.rows), 'pair', 'pairs') + (f", {amount(numbers, 'number', 'numbers')}" if numbers else '')

    def text(self):
        told = [self.talk.end(guid).process_text() for guid in self.participants]
        return (self.of_silence(*told) if self.silent else self.of_two(*told)) + f': {self.amounts()}'

    def of_silence(self, one):
        asked = self.second(self.asked())
        was_asked = '' if asked is None else f', was asked from {asked} s on'
        return f'{one} was last heard at {self.talk.times.second(self.talk.silent[self.silent])} s{was_asked}, and did not leave'

    def of_two(self, one, other):
        since, until = (str(second) if second else None for second in (self.second(self.first()), self.second(self.last())))
        if since is None or until is None:
            return f'from {one} to {other}'
        when = f'at {since} s' if since == until else f'between {since} s and {until} s'
        return f'from {one} to {other}, first sent {when}'

    def values(self):
        places = {name: place_values(self.talk.times, place) for name, place in (('first', self.first()), ('last', self.last()), ('asked', self.asked()))}
        return {'event': 'silent' if self.silent else 'between', 'participants': [guid_text(guid) for guid in self.participants],
                'pairs': [at for at, _ in self.rows], 'numbers': self.numbers(), **places, 'text': self.text()}


def key_of(talk, row):
    """the participants of the event of a row, and which one of these is silent"""
    writer, reader = row.w[:12] + PARTICIPANT, row.r[:12] + PARTICIPANT
    silent = next((guid for guid in (reader, writer) if guid in talk.silent), None)
    return ((silent,) if silent else (writer, reader)), silent


def events_of(talk, rows, is_told):
    """those of the rows that are told, the worst first"""
    events = {}
    for at, row in enumerate(rows):
        if is_told(row):
            key = key_of(talk, row)
            events.setdefault(key, Event(talk, *key)).add(at, row)
    return sorted(events.values(), key=lambda event: -event.numbers())
