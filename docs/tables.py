#!/usr/bin/env python3
"""Makes the tables of GUIDE.md and NOT_THERE.md that say what to do. Their sentences are those of the program, in
crates/rtps_lines/src/sentences.rt; what happened and what one sees of it is said here.

    docs/tables.py            writes the tables into the two pages
    docs/tables.py lacking    lists the sentences that are in no table

A table stands behind the line MARK, up to the next empty line.
"""
import os
import sys

sys.dont_write_bytecode = True
FOLDER = os.path.dirname(os.path.realpath(__file__))
sys.path.insert(0, os.path.join(os.path.dirname(FOLDER), 'bench'))
import sentences

MARK = '<!-- docs/tables.py makes this table -->\n'

# Of the guide: what happened, and of that what one sees, and what to do.
HAPPENED = {
    'a process ended': [
        ("the reader's participant is silent", '{advice.READER_ENDED}'),
        ("the writer's participant is silent", '{advice.WRITER_ENDED}'),
        ('`open`, `acknowledged nothing`, though it was asked', '{advice.NEVER_ANSWERED}'),
        ('`open`, `asked N times since its last answer`', '{advice.SILENT}')],
    'discovery is not complete': [
        ("`acknowledged nothing`, and the reader's participant was not told of endpoints of the writer's", '{advice.NOT_ANNOUNCED}')],
    'a link was down': [
        ('with `--arrived`: numbers that were sent are `not arrived`, and not only a tail', '{advice.LOST}'),
        ('`missed` above 0, the first one `sent again`', '{advice.MISSED_AGAIN}'),
        ('`missed` above 0, the first one not `sent again`', '{advice.MISSED_ONCE}'),
        ('`unanswered` above 0', '{advice.UNANSWERED}')],
    'a reader came late, or left': [
        ('`before` above 0', 'nothing, if it may miss what was sent before it; if not, make writer and reader transient local'),
        ('`matched .. after both were there`, and numbers `unsent`, or `missed` with no DATA or DATA_FRAG of the first one', '{advice.MATCHED_LATE}'),
        ('`open`, `acknowledged nothing`, `not asked since its last answer`, and it left', '{advice.LEFT}')],
    'policies do not match': [
        ('below the pairs `offers .. asks for ..`', 'change what one offers or what the other asks for. Without any pair: {no_pair.UNMATCHED}')],
    'the wrong side was recorded': [
        ('`missed` above 0, and no DATA or DATA_FRAG of the first one that the reader hears', '{advice.MISSED_UNSENT}'),
        ('`unsent` above 0', '{advice.UNSENT}'),
        ('`open`, `told nowhere`', '{advice.OPEN_UNTOLD}'),
        ('below the pairs a participant that never answers', 'record where both directions pass. Without any pair: {no_pair.ONE_WAY}')],
    'the recording lacks something': [
        ('`open`, `told nowhere`, and `fragments`, `pieces` or `cut` above 0', '{advice.UNREAD}'),
        ('`unfounded`, `told` in the datagram of `claimed`', '{advice.RELAYED}'),
        ('`unfounded`, and `fragments`, `pieces` or `cut` above 0', '{advice.UNREAD}'),
        ('`unfounded`, `told` in a later datagram', '{advice.LATE}'),
        ('`unfounded`, `told nowhere`, the number is `from`, and the reader did not join here', '{advice.BEGAN_LATE}'),
        ('`unfounded`, `told nowhere`', '{advice.LACKING}')],
    'the recording ended early': [
        ('`open`, only a tail', '{advice.TAIL}'),
        ('`open`, `not asked since its last answer`', '{advice.NOT_ASKED}'),
        ('`open`, `asked .. since its last answer`, first in the last second of the recording', '{advice.JUST_ASKED}')],
    'all is on one host, or seems so': [
        ('pairs are left out, or all participants announce one address', '{no_pair.LEFT_OUT}; multicast may be blocked between hosts')],
    'nothing is there': [
        ('`{block.NO_PAIR}`', 'the sentence below it says why: [what to do then](NOT_THERE.md)')],
    'two have one GUID': [
        ('a participant of the pair has two lives under one GUID', '{advice.TWO_LIVES}'),
        ('`conflict`, two payloads of one kind with as many octets', '{advice.ALIKE}'),
        ('`conflict`, other payloads', '{advice.UNLIKE}'),
        ('`unfounded`, `told nowhere`, the number above `announced`', '{advice.UNANNOUNCED}')],
}

# Of the page on topics that are not there: what one sees, what is so, and what to do.
NOT_THERE = [
    ('{no_pair.BEST_EFFORT}', 'numbers were sent to readers of best effort',
     'nothing: the last line goes by these numbers. To be sure of each, make writer and reader reliable'),
    ('{no_pair.NO_RTPS}', 'no datagram has a header of RTPS, or there is none',
     'record `udp`, on the interface that the participants use'),
    ('{no_pair.EARLY}2 {no_pair.EARLY_MANY}{no_pair.NEVER_ANNOUNCED}', 'endpoints of these participants speak in a datagram before the one in which the participant is announced, or it is never announced',
     'begin to record, and then start the participants'),
    ('{no_pair.NO_PARTICIPANT}', 'nothing of that, and no announcement of a participant',
     'see that the participants run, and that multicast is recorded: they announce themselves by it'),
    ('{no_pair.SHARED_MEMORY}', 'all participants announce one address, and one of Fast DDS a locator of shared memory',
     'switch shared memory off for the test, or run the two on two hosts'),
    ('{no_pair.ONE_HOST}', 'all participants announce one address',
     'if there are other hosts: multicast may be blocked between them, or they use another interface'),
    ('10.0.0.1 is in domain 0, 10.0.0.2 in domain 7', 'two participants are in two domains: the first one whose domain is known, and the first behind it that has another',
     'give both one domain (`ROS_DOMAIN_ID`)'),
    ('{no_pair.NOT_TOLD}', 'of a capture: a participant announced endpoints that another never acknowledged, a second before one of the two left or was heard last',
     'a firewall, another interface, or announcements that are lost on the way: look at large ones in IP fragments, and at multicast'),
    ('{no_pair.ONE_WAY}', 'a participant names another, of another address, which never names it',
     'a firewall, or the other direction was not recorded'),
    ('{no_pair.UNMATCHED}', 'a writer and a reader of one topic have policies that do not match',
     'change what the one offers, or what the other asks for'),
    ('{no_pair.LEFT_OUT}', "writers and readers match, and the reader's participant never names the writer's",
     'do that: the answers are not in this recording'),
    ('{no_pair.BEST_EFFORT}', 'the same, and nothing was sent',
     'see that the writer publishes'),
    ('/no_dorder{no_pair.WRITER_ALONE}', 'these topics have a writer alone, or a reader alone; more than ten are counted',
     'compare the names, with their namespaces; or the other end is not there, or is not announced in this recording'),
    ('{no_pair.UNKNOWN}', 'none of these',
     'see which endpoints are there, and whether `--topic` and `--node` choose them'),
]


def said(cell):
    """a cell, with the sentences that it names"""
    return cell.format(**sentences.modules())


def table(heads, rows):
    lines = [heads, ['---'] * len(heads), *rows]
    return ''.join('|' + '|'.join({'': ' ', '---': '---'}.get(cell, f' {cell} ') for cell in map(said, row)) + '|\n' for row in lines)


def guide_rows():
    """what happened stands in the first row that is of it"""
    for happened, rows in HAPPENED.items():
        for at, row in enumerate(rows):
            yield [f'**{happened}**' if at == 0 else '', *row]


def tables():
    """by the name of a page, its table"""
    return {'GUIDE.md': table(['What happened', 'What you see', 'What to do'], guide_rows()),
            'NOT_THERE.md': table(['What you see', 'What is so', 'What to do'], NOT_THERE)}


def lacking():
    """the sentences on a pair, and on what is there in place of one, that no table has"""
    said_somewhere = ''.join(tables().values())
    for name in ('advice', 'no_pair'):
        yield from (f'{name}.{constant}' for constant, text in sentences.modules()[name].items() if text not in said_somewhere)


def pages():
    """by the name of a page, what it has now, and what it has with its table"""
    for name, made in tables().items():
        with open(os.path.join(FOLDER, name), encoding='utf-8') as file:
            page = file.read()
        before, mark, behind = page.partition(MARK)
        yield name, page, before + mark + made + behind[behind.index('\n\n') + 1:]


def main():
    if sys.argv[1:] == ['lacking']:
        print(*lacking(), sep='\n')
        return
    if sys.argv[1:]:
        raise SystemExit(__doc__)
    for name, _, made in pages():
        with open(os.path.join(FOLDER, name), 'w', encoding='utf-8') as file:
            file.write(made)


if __name__ == '__main__':
    main()
