"""The text of `rtps-audit check`, from a report: what a person and a test job ask of a recording.

`check_lines` gives the lines, `because` the reasons for which the recording is not clean, and `ending` the last line. They are written from
what is meant, and not from the program; the words of sentences are those of `sentences`. A report is that of `report.Report`: it has rows
(`spans.Row`), who talks (`talk.Talk`), counts, what another recording shows (`arrived.BothSides`), where there is one, and what is asked.
"""
import arrived
import kinds
import nothing
import sentences
from late import late_notes
from policies import address_text
from times import behind, order_notes, timed_line, wait_line
from told import (best_effort_shares, best_effort_totals, discovery_reasons, lives_lines, not_told_lines, one_way_lines, talk_notes, topic_text,
                  type_text, unmatched_amount, unmatched_lines)
from wording import amount, grouped, in_pairs, of

KINDS = 'received', 'arrived', 'missed', 'unsent', 'unanswered', 'likely', 'unconfirmed'

# ---- what to do for a row that is not clean: the first case that fits

ADVICE = sentences.advice


def is_unread(counts):
    """whether parts of the recording were not read that may have samples"""
    return any(counts.get(name, 0) for name in ('fragments', 'pieces', 'cut'))


def missed_advice(row):
    n = row.delivery.missed[0]
    if n not in row.delivery.brought:
        return ADVICE.MISSED_UNSENT
    return ADVICE.MISSED_AGAIN if row.delivery.again(n) else ADVICE.MISSED_ONCE


def open_advice(row, values, counts):
    if row.is_tail() and row.until is None:
        return ADVICE.TAIL
    if values['told'] is None:
        return ADVICE.UNREAD if is_unread(counts) else ADVICE.OPEN_UNTOLD
    asked = row.asked_since()
    if not asked:
        return ADVICE.LEFT if values['acknowledged'] is None and row.until is not None else ADVICE.NOT_ASKED
    if row.times.is_last(asked[0][0]):
        return ADVICE.JUST_ASKED
    return ADVICE.SILENT if values['acknowledged'] else ADVICE.NEVER_ANSWERED


def unfounded_advice(row, values, counts):
    if values['told'] and values['told']['datagram'] == values['claimed']['datagram']:
        return ADVICE.RELAYED
    if is_unread(counts):
        return ADVICE.UNREAD
    if values['told']:
        return ADVICE.LATE
    if values['announced'] is None or values['announced']['number'] < values['number']:
        return ADVICE.UNANNOUNCED
    return ADVICE.BEGAN_LATE if values['number'] == row.first and not row.joined_here else ADVICE.LACKING


def is_lost(row):
    """numbers that were sent did not arrive: those of some kinds were, and missed ones by what the first of them tells"""
    was_sent = any(row.counts[kind] for kind in ('likely', 'unanswered', 'unconfirmed'))
    return was_sent or row.counts['missed'] > 0 and row.delivery.missed[0] in row.delivery.brought


def heard_advice(row, counts):
    """what to do for a row that is not clean, of which nobody is silent"""
    values = row.evidence()
    if row.kind == 'conflict':
        one, other = values['sent']
        return ADVICE.ALIKE if all(one[part] == other[part] for part in ('payload', 'octets')) else ADVICE.UNLIKE
    if row.kind == 'unfounded':
        return unfounded_advice(row, values, counts)
    if row.held and not row.is_tail() and is_lost(row):
        return ADVICE.LOST
    if row.counts['missed']:
        return missed_advice(row)
    if row.kind == 'open':
        return open_advice(row, values, counts)
    return ADVICE.UNSENT if row.counts['unsent'] else ADVICE.UNANSWERED


def not_told_advice(address):
    """what to do where a participant was not told of endpoints of another: nothing comes back from this address, if there is one"""
    return f'{ADVICE.NOTHING_BACK}{address_text(address)}{ADVICE.BY_FIREWALL}' if address else ADVICE.NOT_ANNOUNCED


def advice_of(row, counts):
    """what to do for a row that is not clean. Two lives are told first, then a reader that is silent, then a writer, and then that the reader was never
    told of the writer. Where the two matched late, that is told in the place of what lacks here"""
    if row.is_mixture:
        return ADVICE.TWO_LIVES
    silent = dict(row.silences)
    for side in ('reader', 'writer'):
        if side in silent:
            return f"{ADVICE[f'{side.upper()}_ENDED']} at {row.times.second(silent[side])} s"
    if row.is_not_told and row.evidence()['acknowledged'] is None and not row.is_tail():
        return ADVICE.NOT_ANNOUNCED
    advice = heard_advice(row, counts)
    return ADVICE.MATCHED_LATE if row.late and advice in (ADVICE.UNSENT, ADVICE.MISSED_UNSENT) else advice


# ---- parts of lines

def total(rows, kind):
    return sum(row.counts[kind] for row in rows)


def cleans(rows):
    return sum(row.is_clean() for row in rows)


def topics_of(rows):
    return ', '.join(topic_text(some[0].key[0]) for some in by_topic(rows))


# ---- the first lines

def first_lines(report):
    rows = report.rows
    if not rows:
        return [sentences.block.NO_PAIR, '  -> ' + nothing.cause(report.talk)]
    numbers = sum(row.asked_about() for row in rows)
    pairs, what = ('pair is' if len(rows) == 1 else 'pairs are'), ('number' if numbers == 1 else 'numbers')
    received = f"{of(total(rows, 'received'), numbers)} {what} received"
    return [f"{of(cleans(rows), len(rows))} {pairs} clean, {received}{arrived.more_arrived(rows) if report.sides else ''}"]


# ---- the table by topic

COLUMNS = 'received', 'arrived', 'likely', 'missed', 'unsent', 'unanswered', 'unconfirmed'


def by_topic(rows):
    """the rows of each topic and type, by topic and then by type, in their order"""
    keys = sorted({row.key for row in rows})
    return [[row for row in rows if row.key == key] for key in keys]


def table(rows):
    """the lines of the table. A column of zeros alone is left out, but for the first four"""
    lines = [['topic', 'pairs', 'clean', 'before', *COLUMNS]]
    for some in by_topic(rows):
        counts = [len(some), cleans(some), sum(row.before for row in some), *(total(some, kind) for kind in COLUMNS)]
        lines.append([topic_text(some[0].key[0]), *map(grouped, counts)])
    columns = [column for i, column in enumerate(zip(*lines)) if i < 4 or any(cell != '0' for cell in column[1:])]
    padded = [[cell.rjust(max(map(len, column))) if i else cell.ljust(max(map(len, column))) for cell in column] for i, column in enumerate(columns)]
    return ['  '.join(cells) for cells in zip(*padded)]


# ---- the pairs that someone has to look at

# which lines of `why` stand under a row, by how they begin, for each verdict
SHOWN = {
    'complete': ('  number',),
    'open': ('acknowledged', '  number', 'number told', 'asked', 'not asked'),
    'conflict': ('  number', 'number payload'),
    'unfounded': ('announced', 'claimed', '  number', 'number told'),
}


def beginning(line):
    """how a line begins, without its number"""
    if line.startswith('  '):
        return '  number'
    words = line.split()
    return f'number {words[2]}' if words[0] == 'number' else 'not asked' if words[0] == 'not' else words[0]


def shown(row):
    """the lines that explain a row, of which the one on missed numbers is the first"""
    lines = [line for line in row.lines if beginning(line) in SHOWN[row.kind]]
    return kinds.lines(row) + [line.strip() for line in sorted(lines, key=lambda line: not line.startswith('  '))]


def said_lines(row):
    """how long the reader let the writer wait, and who is silent"""
    return ([wait_line(row.times, row.wait)] if row.wait else []) + row.silence_lines()


def row_lines(row, report):
    left = f', left in datagram {row.until[0]}{behind(row.times, row.until[0])}' if row.until else ''
    kinds = [f'{kind} {row.counts[kind]}' for kind in COLUMNS if kind == 'received' or row.counts[kind]]
    writer, reader = (report.talk.end(guid).text() for guid in (row.w, row.r))
    explained = [*(timed_line(row.times, line) for line in shown(row)), *said_lines(row)]
    return [f'  writer {writer}', f'  reader {reader}, from {row.first}{left}',
            f"  {', '.join([row.verdict, *kinds])}", *('    ' + line for line in explained), '    -> ' + row.advice(report.counts)]


def is_told_by_its_tail(row, report):
    """it is not clean for its tail alone, and nothing else is to be done"""
    return row.advice(report.counts) == ADVICE.TAIL


def is_told(row, report):
    """it has lines of its own"""
    return not row.is_clean() and not is_told_by_its_tail(row, report)


def section(rows, report):
    """the lines of rows of one topic and type"""
    return ['', ' '.join((topic_text(rows[0].key[0]), type_text(rows[0].key[1])))] + [line for row in rows for line in row_lines(row, report)]


def event_lines(event, report):
    """those of what happened: its head, and its rows by topic"""
    return ['', event.text()] + [line for some in by_topic([row for _, row in event.rows]) for line in section(some, report)]


def tail_lines(report):
    """the rows that are not clean for their tail alone share a line"""
    alone = [row for row in report.rows if is_told_by_its_tail(row, report)]
    if not alone:
        return []
    longest = max(row.tail() for row in alone)
    pairs = amount(len(alone), *sentences.block.words('TAIL'))
    return ['', f"{pairs} of at most {amount(longest, 'number', 'numbers')} (--tail {longest} lets them pass): {topics_of(alone)}",
            '  -> ' + ADVICE.TAIL]


# ---- what weakens the report

# name, text of one, text of many, what to do
NOTES = [(name.lower(), *sentences.noted.words(name), sentences.noted[f'{name}_REMEDY'])
         for name in ('LIKELY', 'PIECES', 'CUT', 'LINKS', 'OTHER', 'FRAGMENTS', 'UNSETTLED', 'REFUSED')]


def noted(counts, name, one, many):
    """how many there are; of frames of links that are not read also the link type of the first, where it has one"""
    told = amount(counts[name], one, many)
    if name != 'links' or counts['link'] is None:
        return told
    return told + (sentences.noted.OF_TYPE if counts[name] == 1 else sentences.noted.FIRST_OF_TYPE) + grouped(counts['link'])


def late_note(rows):
    return f"{sentences.noted.LATE}{amount(len(rows), 'pair', 'pairs')}"


NAMED = 10      # so many topics with a tail are named


def tail_notes(rows):
    """the rows that are clean with a tail, and by topic the longest of them, the longest topic first"""
    if not rows:
        return []
    longest = {some[0].key: max(row.tail() for row in some) for some in by_topic(rows)}
    topics = sorted(longest, key=lambda key: -longest[key])
    named = ', '.join(f'{topic_text(topic)} {grouped(longest[topic, kind])}' for topic, kind in topics[:NAMED])
    more = f', and {grouped(len(topics) - NAMED)} more' if len(topics) > NAMED else ''
    most = amount(longest[topics[0]], 'number', 'numbers')
    return [(f"{amount(len(rows), 'pair is', 'pairs are')}{sentences.noted.TAIL}{most}", named + more, None)]


def notes(report):
    """what weakens the report: each with the topics that it is about, or lines, or None, and what to do, or None"""
    rows, talk, sides = report.rows, report.talk, report.sides
    late = [row for row in rows if row.wrote_before_alone() and not row.late]
    found = order_notes(talk.times) + talk_notes(talk) + (list(sides.notes(topic_text)) if sides else [])
    found += [(late_note(late), topics_of(late), sentences.noted.LATE_REMEDY)] if late else []
    found += late_notes(rows, topic_text)
    found += tail_notes([row for row in rows if row.is_clean_with_a_tail()])
    counts = report.counts | {'likely': total([row for row in rows if not row.held], 'likely')}
    return found + [(noted(counts, name, one, many), None, advice) for name, one, many, advice in NOTES if counts.get(name, 0)]


def note_lines(report):
    lines = []
    for told, topics, advice in notes(report):
        under = ['  ' + line for line in topics] if isinstance(topics, list) else []
        lines += [f'{told}: {topics}' if isinstance(topics, str) else told] + under + (['  -> ' + advice] if advice else [])
    return lines


def note_sentences(report):
    return [f'{told} -> {advice}' if advice else told for told, _, advice in notes(report)]


# ---- why the recording is not clean

def unread(counts, *names):
    return [noted(counts, name, one, many) for wanted in names for name, one, many, _ in NOTES if name == wanted and counts.get(name, 0)]


def lost(rows, kind):
    some = [row for row in rows if row.counts[kind]]
    return [in_pairs(total(some, kind), *sentences.reason.words(kind.upper()), len(some))] if some else []


def uncertain(rows):
    some = [row for row in rows if row.counts['received'] < row.asked_about()]
    numbers = sum(row.asked_about() - row.counts['received'] for row in some)
    return [in_pairs(numbers, *sentences.reason.words('UNCERTAIN'), len(some))] if some else []


def row_reasons(rows):
    """why rows that have to be clean are not"""
    unclean = [row for row in rows if row.kind != 'complete' and not row.is_clean()]
    reasons = [amount(len(unclean), *sentences.reason.words('INCOMPLETE'))] if unclean else []
    return reasons + lost(rows, 'missed') + lost(rows, 'unsent') + lost(rows, 'unanswered') + arrived.lost_reasons(rows)


def best_effort_alone(report):
    """how many numbers of best-effort pairs the recording has, where no pair is judged and they have numbers; else None"""
    _, numbers, _ = best_effort_totals(report.talk)
    return f'{sentences.reason.BEST_EFFORT}{best_effort_shares(report.talk)}' if not report.rows and numbers else None


def pair_reasons(report):
    """why there is nothing to judge"""
    return [] if report.rows or best_effort_alone(report) else [sentences.reason.EMPTY]


def best_effort_reasons(report):
    """of best-effort pairs, which stand alone, the recording lacks numbers"""
    _, numbers, recorded = best_effort_totals(report.talk)
    return [best_effort_alone(report)] if best_effort_alone(report) and recorded < numbers else []


def because(report):
    """why the recording is not clean"""
    rows, talk = report.rows, report.talk
    reasons = pair_reasons(report) + row_reasons(rows) + (uncertain(rows) if report.asked.certain else [])
    reasons += ([unmatched_amount(talk)] if talk.unmatched else []) + discovery_reasons(talk) + (report.sides.reasons() if report.sides else [])
    return reasons + best_effort_reasons(report) + few(rows, report.asked.expect or 0) + unread(report.counts, 'unsettled', 'pieces', 'cut', 'links')


def few(rows, expected):
    return [f"{amount(len(rows), 'pair', 'pairs')} of {grouped(expected)} expected"] if len(rows) < expected else []


def ending(report):
    """the last line: why the recording is not clean, or what is known of one that is"""
    if report.because:
        return f"not clean: {'; '.join(report.because)}"
    numbers = sum(row.asked_about() for row in report.rows)
    received = total(report.rows, 'received')
    if best_effort_alone(report):
        return f'clean: {best_effort_alone(report)}'
    if received + total(report.rows, 'arrived') == numbers:
        return 'clean'
    one, many = sentences.reason.words('CERTAIN')
    return f'clean: {of(received, numbers)}{one if numbers == 1 else many}'


# ---- the text

def block(lines):
    return [''] + lines if lines else []


def check_lines(report):
    talk, sides = report.talk, report.sides
    lost_here = sides.lines(lambda guid: talk.end(guid).text(), topic_text) if sides else []
    return [*first_lines(report), *block(table(report.rows) if report.rows else []),
            *(line for event in report.events for line in event_lines(event, report)), *tail_lines(report),
            *block(unmatched_lines(talk)), *block(not_told_lines(talk, not_told_advice)), *block(lives_lines(talk)), *block(one_way_lines(talk)),
            *block(lost_here), *block(note_lines(report)),
            *block([ending(report)])]
