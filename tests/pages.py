#!/usr/bin/env python3
"""Tests the page of a report in a browser: what it shows, and what one can do with it.

    tests/pages.py [--program PROGRAM] [--recordings FOLDER] [--pictures FOLDER] [NAME ..]

Pages are made by bench/page.py, the second implementation, of recordings of examples/, of tests/recorded.py, of captures with times, of
those of tests/rows/ beside which another one lies that was made at the host of readers, and of 90,000 rows;
with --recordings of each recording of a folder, too. A PROGRAM has to write the same pages, octet for
octet. Where no Chromium is installed, that is said, and only what needs none is tried. A NAME is a word of the name of a test below.
With --pictures the pages are kept as pictures of 1280 and 390 pixels, light and dark. The last line is 'N passed, M failed'.
"""
import datetime
import gzip
import html
import json
import os
import re
import shutil
import subprocess
import sys
import tempfile

sys.dont_write_bytecode = True
from program import ROOT, Counts, file_of, text_of
import page
import parts
import recorded
import reference
import report as reports
import timed
from arrived import listed
from asked import asked_by
from browser import SHIFT, Browser, Tab, browser_path
from capture_writer import enhanced, interface, packet, section, simple
from ros import ros_topic, ros_type
from times import json_text
from wording import grouped as counted

RECORDINGS = '.rec', '.pcap', '.pcapng'
EXAMPLES = sorted(name for name in os.listdir(os.path.join(ROOT, 'examples')) if name.endswith(RECORDINGS))
MADE = 'robot', 'hostile', 'greatest', 'chatty', 'unmatched', 'none', 'pieces'
# Rows of the tests that have something to tell of who does not talk.
TALKING = 'each_reason_of_silence.rec', 'best_effort_pairs_by_topic.rec', 'reasons_in_order_and_topics_in_order.rec'
# Rows of the tests that are held against another recording, which stands beside them.
HELD = sorted(name.removesuffix('.arrived.rec') for name in os.listdir(os.path.join(ROOT, 'tests', 'rows')) if name.endswith('.arrived.rec'))
MADE_HELD = 'lost_on_the_way', 'lost_of_many'
BOTH_SIDES = *HELD, *MADE_HELD
# The most octets of a page of an example and of one of 90,000 pairs. The constant parts alone are some 114,000: style and scripts of the picture,
# the events and the charts.
EXAMPLE_SIZE, MANY_SIZE = 125_000, 95_000_000
PROBE = file_of('tests', 'page_probe.js').decode()
# So many pairs of a page are chosen one after another.
MOST_CHOSEN = 30
# Any second.
SECOND = re.compile(r'\d\.\d{3} s')
# the outcomes of numbers, in the order of their columns
OUTCOMES = 'received', 'arrived', 'likely', 'missed', 'unsent', 'unanswered', 'unconfirmed'


def lost_outcomes(row):
    """the outcomes of numbers that are lost: of a row that is held against another recording likely ones, too"""
    return (*(['likely'] if row['outcomes'].get('arrived') is not None else []), 'missed', 'unsent', 'unanswered')


def topic_name(topic):
    """a topic as the page names it"""
    return ros_topic(topic.encode()).decode()


def type_name(kind):
    """a type as the page names it"""
    return ros_type(kind.encode()).decode()


def sum_of(rows, kind):
    """how many numbers of rows have this outcome, or stand before the first one of their row"""
    return sum((row['from'] if kind == 'before' else row['outcomes'].get(kind)) or 0 for row in rows)


def columns_of(values):
    """the columns of amounts that the page has: those of zeros are left out"""
    first = values['options']['from'] * len(values['pairs'])
    return [kind for kind in ('missed', 'unsent', 'unanswered', 'likely', 'unconfirmed', 'received', 'arrived', 'before')
            if kind == 'received' or (kind == 'arrived' and 'arrived' in values) or (kind != 'arrived' and sum_of(values['pairs'], kind) > (first if kind == 'before' else 0))]


def amounts_of(values, row):
    """what a row has in these columns"""
    amounts = row['outcomes'] | {'before': row['from'] - values['options']['from']}
    return {kind: '–' if amounts[kind] is None else counted(amounts[kind]) for kind in columns_of(values)}


def title_of(participant):
    """what a participant is called: its one node, its program, its name, or its nodes"""
    nodes = participant['nodes']
    more = f' and {len(nodes) - 2} more' if len(nodes) > 2 else ''
    return (nodes[0] if len(nodes) == 1 else None) or participant['process'] or participant['name'] or ', '.join(nodes[:2]) + more


def end_of(values, guid, node):
    """an end of a row as its line names it: its participant's number, its node or what else is known, and its host or its address"""
    prefixes = sorted({one['guid'][:24] for one in values['endpoints'] + values['participants']})
    participant = next((one for one in values['participants'] if one['guid'][:24] == guid[:24]), None)
    title = node or (title_of(participant) if participant else '')
    where = '' if participant is None else f" on {participant['host']}" if participant['host'] is not None else f" at {participant['address']}" if participant['address'] else ''
    return f"P{prefixes.index(guid[:24]) + 1}{f' {title}' if title else ''}{where}"


def row_wanted(values, at):
    """what the page shows of a row"""
    row = values['pairs'][at]
    badges = [row['verdict']] + [f'{kind} {counted(row["outcomes"][kind])}' for kind in lost_outcomes(row) if row['outcomes'][kind]]
    badges += ['clean'] if row['clean'] else []
    announced, below = row['announced'], row['acknowledged']
    places = {'announced': str(announced['number']) if announced else '–', 'acknowledged': str(below['below']) if below else '–'}
    return {
        'id': f'pair-{at + 1}', 'topic': topic_name(row['topic']), 'type': type_name(row['type']), 'name': f'Pair {at + 1}', 'badges': badges,
        'number': str(row['number']), 'datagram': [f"in datagram {row['datagram']}"] if 'datagram' in row else [],
        'ends': [end_of(values, row[side], row.get(f'{side}_node')) for side in ('writer', 'reader')], 'counts': amounts_of(values, row) | places,
    }


def group_wanted(values, rows):
    """what the page shows of a topic, of these rows"""
    clean = sum(row['clean'] for row in rows)
    words = 'clean' if clean == len(rows) else 'none clean' if clean == 0 else f'{counted(clean)} clean'
    before = values['options']['from'] * len(rows)
    return {
        'topic': topic_name(rows[0]['topic']), 'size': f"{counted(len(rows))} {'pair' if len(rows) == 1 else 'pairs'}, {words}",
        'sums': {kind: counted(sum_of(rows, kind) - (before if kind == 'before' else 0)) for kind in columns_of(values)} | {'announced': '', 'acknowledged': ''},
    }


# Topics that each program has stand last among equals.
PLUMBING = 'ros_discovery_info', 'rt/parameter_events'


def lost_in(row):
    """how many numbers of a row are lost: of one that is held against another recording all that did not arrive"""
    kinds = ('missed', 'unsent', 'unanswered') if row['outcomes'].get('arrived') is None else ('likely', 'missed', 'unsent', 'unanswered', 'unconfirmed')
    return sum(row['outcomes'][kind] for kind in kinds)


def badness(row):
    """what comes first: what is not clean, then what lost more numbers, then the worse verdict"""
    return row['clean'], -lost_in(row), KINDS.index(kind_of(row)), row['topic'] in PLUMBING


def lacking_wanted(one):
    """what the page shows of a pair of best effort of which numbers did not arrive"""
    named = listed(one['not_arrived'], one['numbers'] - one['arrived'])
    return f"arrived {counted(one['arrived'])} of {counted(one['numbers'])}, not {named}"


def lacking_pairs(values):
    """these pairs, by topic"""
    return sorted((one for one in values.get('arrived', []) if one['not_arrived']), key=lambda one: one['topic'])


def unfit_wanted(one):
    """what the page shows of a writer and a reader that do not match"""
    def shown(policy, text):
        return type_name(text) if policy == 'type' else text

    return ''.join(f"{policy.replace('_', ' ')}: offers {shown(policy, offered)}; asks for {shown(policy, requested)}"
                   for policy, offered, requested in zip(one['because'], one['offered'], one['requested']))


def in_order(rows):
    """rows that are shown, in the order of the report"""
    return sorted(rows, key=lambda row: int(row['id'].removeprefix('pair-')))


def kind_of(row):
    if row['clean']:
        return 'clean'
    return 'lost' if row['verdict'] == 'complete' else row['verdict']


KINDS = ['unfounded', 'conflict', 'open', 'lost', 'clean']
# What the last line says of a clean report behind its word.
MORE_SAID = "textsOf(document, '.more-said').map((text) => `:${text}`).join('')"


def by_topic(rows):
    """numbered rows, each list of one topic and type"""
    groups = {}
    for _, row in rows:
        groups.setdefault((row['topic'], row['type']), []).append(row)
    return list(groups.values())


def grouped(rows):
    """numbered rows by topic and type, in the order of the first of each"""
    groups = {}
    for at, row in rows:
        groups.setdefault((row['topic'], row['type']), []).append((at, row))
    return [one for group in groups.values() for one in group]


def places_of(value):
    """each place in a row, as the page writes it; those of lost numbers are told by lost_of"""
    if isinstance(value, list):
        return {place for one in value for place in places_of(one)}
    if not isinstance(value, dict):
        return set()
    own = {place_of(value)} if 'at' in value else set()
    return own | {place for name, one in value.items() if name != 'numbers' for place in places_of(one)}


def place_of(place):
    return f"datagram {place['datagram']}, octet {place['at']}{frame_of(place.get('frame'))}{second_of(place.get('time'))}"


def frame_of(frame):
    return '' if frame is None else f', frame {frame}'


def second_of(time):
    return '' if time is None else f', {time:.3f} s'


LOST = {'missed': 'Missed', 'unsent': 'Unsent', 'unanswered': 'Unanswered', 'not_arrived': 'Not arrived'}


def range_of(one):
    """a range of lost numbers, as the page writes it"""
    moment = '' if one['sent'] is None else (second_of(one['sent'].get('time')) + frame_of(one['sent'].get('frame')))[2:]
    return f"{one['first']}" + (f"-{one['last']}" if one['last'] > one['first'] else '') + (f' ({moment})' if moment else '')


def lost_of(row):
    """which numbers of a row are lost, as the page writes it"""
    return [f"{word} {listed([range_of(one) for one in row['numbers'][kind]['ranges'][:10]], len(row['numbers'][kind]['ranges']) + row['numbers'][kind]['more'])}."
            for kind, word in LOST.items() if kind in row['numbers']]


def waits_of(row):
    """how long the reader let the writer wait, as the page writes it"""
    wait = row.get('wait')
    if wait is None:
        return []
    answered = 'not answered' if wait['answered'] is None else f"answered in {place_of(wait['answered'])}"
    return [f"The reader let the writer wait {wait['seconds']:.3f} s: asked in {place_of(wait['asked'])}, {answered}."]


def sentence_of(line):
    """a line of `check` as a sentence of the page, where it has one"""
    line = re.sub(r'in datagram (\d+) at (\d+)', r'in datagram \1, octet \2', line.strip())
    if line.startswith('let the writer wait'):
        return f'The reader {line}.'
    return f'{line[0].upper()}{line[1:]}.' if is_of_lost(line) or 'is silent since' in line else None


def is_of_lost(line):
    """it is a line of `check` that names lost numbers"""
    return re.match(rf" *({'|'.join(LOST.values())}) \d".lower(), line) is not None


# ---- captures with times: the name of each, and its octets

def missed_in_time():
    """a datagram each 100 ms: number 2 is lost twice, and the writer drops it"""
    return timed.timed(timed.lost(), timed.STEADY)


def waiting():
    """the reader lets the writer wait for 3 seconds, and then says nothing for 12"""
    return timed.timed(let_wait(), [timed.at(50)] * 6 + [timed.at(53), timed.at(65)])


def let_wait():
    topic = timed.pair()
    return [*timed.TWO, *topic.announced, topic.sent(1), topic.asks(1, 1), topic.answers(1, 1), topic.sent(2)]


def half_timed():
    """the same, where the last datagram has no time"""
    *frames, last = map(packet, let_wait())
    return section() + interface() + b''.join(enhanced(frame, time=500000 * k) for k, frame in enumerate(frames)) + simple(last)


# What the pair of the second one rests on.
WAITING = [
    'The row is about the numbers from 1 on: 1 missed, 1 unconfirmed.',
    'The writer announced number 2, first by a DATA in datagram 8, octet 20, frame 8, 15.000 s.',
    'The reader acknowledged nothing.',
    'Of 2 numbers, 2 were sent to this reader, 0 only said to be gone, and 0 neither.',
    'The recording proves 0 of 2 numbers received.',
    'The reader missed 1 number: it asked for 1 in datagram 7, octet 36, frame 7, 3.000 s, and 1 was not told gone since.',
    'Number 1 may not be received: it is not acknowledged.',
    'Number 1 was first told by a DATA in datagram 5, octet 20, frame 5, 0.000 s.',
    'The writer did not ask for an answer since the reader’s last one.',
    'The reader let the writer wait 3.000 s: asked in datagram 6, octet 20, frame 6, 0.000 s, answered in datagram 7, octet 36, frame 7, 3.000 s.',
    "The reader's participant is silent since datagram 7, frame 7, 3.000 s, and did not leave: it was killed, or cut off.",
]
IN_TIME = {'missed_in_time': missed_in_time, 'waiting': waiting, 'half_timed': half_timed}


def octets_of(path):
    """the octets of a file, unpacked where it is packed"""
    with (gzip.open if path.endswith('.gz') else open)(path, 'rb') as f:
        return f.read()


def headline(text):
    """the outcome at the top of a page: the last line of its text"""
    return text.splitlines()[-1]


class PageTests(Counts):
    """the tests, with a browser and the pages that were made"""
    def __init__(self, room, program, recordings, pictures):
        super().__init__()
        self.room, self.program, self.pictures, self.browser, self.made, self.read = room, program, pictures, None, {}, {}
        names = sorted(os.listdir(recordings)) if recordings else []
        self.recordings = {name: os.path.join(recordings, name) for name in names if name.removesuffix('.gz').endswith(RECORDINGS)}
        self.names = *EXAMPLES, *MADE, *IN_TIME, *MADE_HELD, *self.recordings

    # ---- pages

    def parts(self, name):
        """the text and the data of a page"""
        if name not in self.made:
            if name == 'many':
                values = recorded.many(300, [('rt/camera/points', 'sensor_msgs::msg::dds_::PointCloud2_')], recorded.some_verdict)
                self.made[name] = many_text(values), values
            elif name == 'none':
                self.made[name] = page.page_of([], name='none.rec')
            elif name in MADE:
                self.made[name] = page.page_of(getattr(recorded, name)(), name=f'{name}.rec')
            elif name in IN_TIME:
                self.made[name] = page.read_page(IN_TIME[name](), name=f'{name}.pcap')
            elif name in BOTH_SIDES:
                path, other = self.both_sides(name)
                self.made[name] = page.read_page(octets_of(path), asked_by(['--arrived', other]), name)
            elif name in TALKING:
                self.made[name] = page.read_page(file_of('tests', 'rows', name), name=name)
            elif name in self.recordings:
                self.made[name] = page.read_page(octets_of(self.recordings[name]), name=name)
            else:
                self.made[name] = page.read_page(file_of('examples', name), name=name)
        return self.made[name]

    def values(self, name):
        """the data of a page, as it is read back"""
        if name not in self.read:
            values = self.parts(name)[1]
            self.read[name] = json.loads(json_text(values)) if 'times' in values else values
        return self.read[name]

    def both_sides(self, name):
        """the files of a recording and of another one, made at the host of its readers"""
        if name in HELD:
            return [os.path.join(ROOT, 'tests', 'rows', name + suffix) for suffix in ('.rec', '.arrived.rec')]
        paths = [os.path.join(self.room, f'{name}{suffix}.rec') for suffix in ('', '.arrived')]
        for path, datagrams in zip(paths, getattr(recorded, name)()):
            with open(path, 'wb') as f:
                f.write(text_of(datagrams))
        return paths

    def path(self, name):
        path = os.path.join(self.room, f'{name}.html')
        if not os.path.exists(path):
            with open(path, 'w', encoding='utf-8') as f:
                f.write(page.page_text(*self.parts(name)))
        return path

    def rows(self, name):
        return self.values(name)['pairs']

    def open(self, name, address='', **how):
        tab = Tab(self.browser, **how)
        tab.open(self.path(name), address)
        if how.get('scripts', True):
            tab.evaluate(PROBE)
            tab.settle()
        return tab

    @staticmethod
    def text(tab, selector):
        return tab.evaluate(f'document.querySelector({json.dumps(selector)}).textContent')

    @staticmethod
    def found(tab, selector):
        return tab.evaluate(f'document.querySelectorAll({json.dumps(selector)}).length')

    @staticmethod
    def shown(tab):
        """the rows in sight"""
        return tab.evaluate('rowsShown()')

    @staticmethod
    def open_all(tab):
        """opens all topics"""
        tab.evaluate("document.querySelector('.open-all').click()")

    def topics(self, tab):
        return [row['topic'] for row in self.shown(tab)]

    def ids(self, tab):
        return [row['id'] for row in self.shown(tab)]

    def wanted(self, name):
        return [row_wanted(self.values(name), at) for at in range(len(self.rows(name)))]

    @staticmethod
    def choose(tab, at):
        tab.evaluate(f"location.hash = '#pair-{at + 1}'")
        tab.settle()

    def leave(self, name, tab):
        """closes a page, which said nothing and asked for nothing, and shows no value that has no text"""
        self.holds(f'{name}: nothing is said or asked for', ([], []), (tab.complaints(), tab.requests()))
        self.holds(f'{name}: each value that is shown has a text', None, tab.evaluate('document.body.innerText.match(/\\[object|undefined/)'))
        tab.close()

    # ---- without a browser

    def constants(self):
        self.holds('src/page_parts.rt is what parts.py makes', file_of('crates', 'rtps_page', 'src', 'page_parts.rt').decode(), parts.constants())

    def pages_of_the_program(self):
        if self.program is None:
            return
        rows = os.path.join(ROOT, 'tests', 'rows')
        for folder in os.path.join(ROOT, 'examples'), rows:
            for name in sorted(os.listdir(folder)):
                if name.endswith(RECORDINGS):
                    self.same_page(name, os.path.join(folder, name))
        for words in (['--from', '2'], ['--tail', '3', '--certain'], ['--expect', '2'], ['--topic', 'p*', '--topic', '<&>"\\\t\u00e9']):
            self.same_page('pose.rec', os.path.join(ROOT, 'examples', 'pose.rec'), words)
        self.same_page('fragments.rec', os.path.join(ROOT, 'examples', 'fragments.rec'), ['--from', '2'])
        for name in MADE:
            path = os.path.join(self.room, f'{name}.rec')
            with open(path, 'wb') as f:
                f.write(text_of([] if name == 'none' else getattr(recorded, name)()))
            self.same_page(name, path)
        for name, made in IN_TIME.items():
            path = os.path.join(self.room, f'{name}.pcap')
            with open(path, 'wb') as f:
                f.write(made())
            self.same_page(name, path)
        for name in BOTH_SIDES:
            path, other = self.both_sides(name)
            self.same_page(name, path, ['--arrived', other])
        for name, packed in self.recordings.items():
            path = os.path.join(self.room, name.removesuffix('.gz'))
            with open(path, 'wb') as f:
                f.write(octets_of(packed))
            self.same_page(name, path)

    def same_page(self, name, path, words=()):
        """the program writes the page of the second implementation, and ends as it does, and as `check` does"""
        wanted = page.answer(octets_of(path), asked_by(list(words)), path)
        got = subprocess.run([self.program, 'page', *words, path], capture_output=True)
        self.holds(f'{name}: the page with {words}', wanted, (got.stdout.decode(), got.stderr.decode().splitlines(), got.returncode))
        checked = subprocess.run([self.program, 'check', *words, path], capture_output=True)
        self.holds(f'{name}: how the page with {words} ends', (checked.stderr, checked.returncode), (got.stderr, got.returncode))

    def text_of_a_page(self):
        head, middle, tail = parts.parts()
        for name in self.names:
            text, values = self.parts(name)
            shown, data = page.escaped(text), page.data_text(values)
            self.holds(f'{name}: a page is its parts', head + shown + middle + data + tail, page.page_text(text, values))
            self.holds(f'{name}: no octet of a recording begins markup', [], [c for c in '<>&' if c in data] + [c for c in '<>' if c in shown])
            self.holds(f'{name}: the text is read back', text, html.unescape(shown))
            self.holds(f'{name}: the data is read back', self.values(name), json.loads(data))
        text, values = self.parts('robot')
        stored = parts.stored(page.escaped(text), page.data_text(values))
        self.holds('page.html has the page of recorded.py robot: run bench/page.py stored', stored, parts.file_of('page.html'))
        for name in EXAMPLES:
            self.holds(f'{name}: its size', True, os.path.getsize(self.path(name)) <= EXAMPLE_SIZE)
        self.holds('90,000 pairs: their size', True, os.path.getsize(self.path('many')) <= MANY_SIZE)

    def data_of_check(self):
        """the page has the object and the text of `check`"""
        for name in (*EXAMPLES, *BOTH_SIDES):
            path, other = self.both_sides(name) if name in BOTH_SIDES else (os.path.join(ROOT, 'examples', name), None)
            asked = asked_by(['--arrived', other] if other else [])
            text, checked = (reports.answer(form, octets_of(path), asked, path)[0] for form in ('check', 'json'))
            own = {member: self.values(name)[member] for member in json.loads(checked)}
            self.holds(f'{name}: the object of check', json.loads(checked), own)
            self.holds(f'{name}: the text of check', text, self.parts(name)[0])

    def rows_with_charts(self):
        values = self.values('chatty')
        charted = {(one['writer'], one['reader']) for one in values['answers']}
        topics = [row['topic'] for row in self.rows('chatty') if (row['writer'], row['reader']) in charted]
        self.holds('the rows for which a page has room', ['few', 'later'], topics)
        crowded = page.page_of(recorded.crowded())[1]
        kinds = [(row['topic'], row['verdict'], row['clean']) for row in crowded['pairs']]
        self.holds('two rows of which a page has room for one', [('a_well', 'complete', True), ('b_lost', 'complete', False)], kinds)
        self.holds('one that is not clean has room first', [crowded['pairs'][1]['reader']], [one['reader'] for one in crowded['answers']])
        self.holds('it has the acts of its writer', [crowded['pairs'][1]['writer']], [one['guid'] for one in crowded['writers']])

    # ---- what is shown

    def each_row(self):
        for name in self.names:
            tab, values = self.open(name), self.values(name)
            bad = {f'pair-{at + 1}' for at, row in enumerate(self.rows(name)) if not row['clean']}
            self.holds(f'{name}: what is not clean is shown, and what is clean is folded', bad, set(self.ids(tab)))
            self.open_all(tab)
            self.holds(f'{name}: each row is that of the report', self.wanted(name), in_order(self.shown(tab)))
            order = grouped(sorted(enumerate(self.rows(name)), key=lambda one: badness(one[1])))
            self.holds(f'{name}: worst first', [f'pair-{at + 1}' for at, _ in order], self.ids(tab))
            groups = [group_wanted(values, rows) for rows in by_topic(order)]
            self.holds(f'{name}: each topic with its sums', groups, [{key: one[key] for key in ('topic', 'size', 'sums')} for one in tab.evaluate('groupsShown()')])
            counts = {key.replace('_', ' '): counted(n) for key, n in values.items() if isinstance(n, int)}
            self.holds(f'{name}: each count is that of the report', counts, tab.evaluate('countsShown()'))
            said = [': '.join(filter(None, [self.text(tab, '#outcome .word'), '; '.join(tab.evaluate("textsOf(document, '#because li')"))])) + tab.evaluate(MORE_SAID),
                    tab.evaluate('document.title').removesuffix(': rtps-audit')]
            self.holds(f'{name}: the outcome', [headline(self.parts(name)[0])] * 2, said)
            self.holds(f'{name}: what weakens the report', [note.replace(' -> ', '') for note in values['notes']], tab.evaluate("textsOf(document, '#notes li')"))
            if name != 'hostile':
                self.holds(f'{name}: no arrow in any text', False, '->' in tab.evaluate('document.body.innerText'))
            self.leave(name, tab)

    def working_copy(self):
        """page.html as it lies in its folder, with style and scripts in files of their own"""
        tab = Tab(self.browser)
        tab.open(os.path.join(parts.FOLDER, 'page.html'))
        tab.evaluate(PROBE)
        self.open_all(tab)
        self.holds('page.html is shown as it lies there', self.wanted('robot'), in_order(self.shown(tab)))
        self.holds('page.html: nothing is said', [], tab.complaints())
        tab.close()

    def outcome(self):
        """in words that are written out here"""
        wanted = {
            'robot': ('not clean: 2 pairs are not complete; 1 number was missed in 1 pair; 1 number was unsent in 1 pair; 1 pair does not match',
                      '1 of 4 pairs are clean. The recording proves 130 of 150 numbers received.'),
            'none': ('not clean: there is no pair', ''),
            'open.rec': ('not clean: 1 pair is not complete; 1 number was missed in 1 pair', '0 of 1 pair is clean. The recording proves 2 of 3 numbers received.'),
            'gone.rec': ('not clean: 3 numbers were unsent in 1 pair', '0 of 1 pair is clean. The recording proves 0 of 3 numbers received.'),
        }
        for name, (sentence, received) in wanted.items():
            tab = self.open(name)
            word, *reasons = re.split(': |; ', sentence)
            self.holds(f'{name}: the outcome', [f'✗ {word}', reasons], [self.text(tab, '#outcome'), tab.evaluate("textsOf(document, '#because li')")])
            self.holds(f'{name}: what is received', received, self.text(tab, '#received'))
            tab.close()
        for name in ('unmatched', 'none'):
            tab = self.open(name)
            lines = [line.strip().removeprefix('-> ') for line in self.parts(name)[0].split('\n\n')[0].split('\n')]
            self.holds(f'{name}: no pair, and why', lines, tab.evaluate("textsOf(document, '.no-pair > *')"))
            self.holds(f'{name}: no pair, and no table of them', True, tab.evaluate("document.getElementById('pairs').hidden"))
            self.leave(name, tab)

    def asked(self):
        """the options that were given"""
        given = {'from': 7, 'topics': ["rt/*", "<&'"], 'nodes': ['/na*'], 'expect': 9, 'tail': 5, 'certain': True}
        self.made['asked'] = self.parts('robot')[0], self.values('robot') | {'options': given}
        tab = self.open('asked')
        words = "--from 7 --topic 'rt/*' --topic '<&'' --node '/na*' --expect 9 --tail 5 --certain"
        self.holds('the options are told', f'rtps-audit {page.VERSION}, a report of the numbers from 7 on, with {words}', self.text(tab, '#program'))
        self.leave('asked', tab)

    def first_screen(self):
        """of a report with an open and an unfounded pair: which topics, what happened, and what to do"""
        tab = self.open('robot')
        lines = tab.evaluate('''[...document.querySelectorAll('table.topics tbody tr')].map((row) => ({
            isInSight: row.getBoundingClientRect().bottom <= 1500, cells: [...row.cells].map((cell) => cell.innerText) }))''')
        self.holds('robot: each topic is in sight', [True] * 3, [line['isInSight'] for line in lines])
        wanted = (('/odom', 'acknowledged each sample from 1 to 60'), ('/tf', 'acknowledged sample 12'), ('/scan', 'samples 24 to 40'))
        for line, words in zip(lines, wanted):
            self.holds(f'robot: the line of {words[0]}', [], [word for word, cell in zip(words, line['cells']) if word not in cell])
        self.leave('robot', tab)

    def topics_to_look_at(self):
        """rows with advice, by topic and advice, and no others"""
        for name in self.names:
            tab, wanted, events = self.open(name), {}, self.values(name).get('events', [])
            for at, row in enumerate(self.rows(name)):
                if row['advice'] is not None:
                    key = event_of(events, at), topic_name(row['topic']), type_name(row['type']), kind_of(row), row['advice']
                    wanted[key] = wanted.get(key, 0) + 1
            if not events:
                wanted = {(None, *key[1:]): n for key, n in wanted.items()}
            self.all_lines(tab)
            shown = {(one['event'], one['topic'], one['type'], one['kind'], one['advice']): one['pairs'] for one in tab.evaluate('topicsShown()')}
            self.holds(f'{name}: what to look at', {key: counted(n) for key, n in wanted.items()}, shown)
            heads = [one['head'] for one in tab.evaluate('eventsShown()')]
            self.holds(f'{name}: the events in their order', [[head_of(event)] for event in events], heads[:len(events)])
            self.holds(f'{name}: there is a part for them', not events and not wanted and bool(self.rows(name)), tab.evaluate("document.getElementById('happened').hidden"))
            tab.close()

    @staticmethod
    def all_lines(tab):
        """shows all lines of events"""
        tab.evaluate("(() => { for (let more; (more = document.querySelector('#happened .more:not([hidden])')); ) more.click(); })()")

    def chosen_pairs(self):
        for name in self.names:
            tab = self.open(name)
            for at, row in enumerate(self.rows(name)[:MOST_CHOSEN]):
                self.choose(tab, at)
                tab.evaluate("document.querySelectorAll('tr.detail details').forEach(openFold)")
                text = self.text(tab, 'tr.detail .detail-words')
                names = [row[member] for member in ('topic', 'type', 'writer', 'reader')]
                self.holds(f'{name}: pair {at + 1} has its names behind a click', names, tab.evaluate("textsOf(document, 'tr.detail .names dd')"))
                self.holds(f'{name}: pair {at + 1} tells each place', [], sorted(place for place in places_of(row) if place not in text))
                self.lost_numbers(f'{name}: pair {at + 1}', tab, row)
                self.waits_and_silence(name, tab, row)
                if 'times' not in self.values(name):
                    self.holds(f'{name}: pair {at + 1} has no second', None, SECOND.search(text))
                advice = [] if row['advice'] is None else [row['advice']]
                self.holds(f'{name}: pair {at + 1} has its advice', advice, tab.evaluate("textsOf(document, 'tr.detail .advice')"))
                self.holds(f'{name}: one pair is chosen', 1, self.found(tab, 'tr.detail'))
            self.leave(name, tab)

    def lost_numbers(self, name, tab, row):
        """those of the pair that is chosen stand behind the sentence of its verdict, each kind once"""
        lead, said = self.text(tab, 'tr.detail .lead'), lost_of(row)
        self.holds(f'{name}: which numbers are lost', ' '.join(said), lead[len(lead) - len(' '.join(said)):])
        self.holds(f'{name}: of which kinds', [LOST[kind] for kind in LOST if kind in row['numbers']], [word for word in LOST.values() for _ in re.findall(rf'{word} \d', lead)])

    def waits_and_silence(self, name, tab, row):
        """those of the pair that is chosen, each once"""
        sentences = tab.evaluate("textsOf(document, 'tr.detail .rests-on li')")
        said = waits_of(row) + [sentence_of(line) for line in row.get('silence', [])]
        self.holds(f'{name}: waits and silence', said, [one for one in sentences if 'wait' in one or 'silent' in one])

    def participants(self):
        for name in self.names:
            values, tab = self.values(name), self.open(name)
            lines = tab.evaluate('participantsShown()')
            self.holds(f'{name}: each participant has a line', *self.participant_lines(values, lines))
            shown = {f"{one['prefix']}.{one['entity']}": one for one in tab.evaluate('endpointsShown()')}
            names = {one['guid']: (one['side'], one['topic'], one['type'], f"{one['reliability']}, {one['durability']}") for one in values['endpoints']}
            self.holds(f'{name}: each endpoint with its names', names,
                       {guid: (one['side'], one['topic'][-1], one['type'][-1], one['qos']) for guid, one in shown.items()})
            pairs = {guid: [f'pair {at}' for at, row in enumerate(values['pairs'], 1) if guid in (row['writer'], row['reader'])] for guid in shown}
            self.holds(f'{name}: the pairs of each endpoint', {guid: (found[:3], max(0, len(found) - 3)) for guid, found in pairs.items()},
                       {guid: ([link.split(':')[0] for link in one['links']], more_of(one['pairs'])) for guid, one in shown.items()})
            self.holds(f'{name}: an endpoint in no pair', [], [guid for guid, found in pairs.items() if not found and shown[guid]['pairs'] != 'in no pair'])
            tab.close()

    @staticmethod
    def participant_lines(values, lines):
        """what stands in the line of each participant, and what is wanted there but does not"""
        told = {one['guid'][:24]: one for one in values['participants']}
        wanted = {prefix: [] for prefix in sorted({one['guid'][:24] for one in values['endpoints']} | set(told))}
        lacking = {one['prefix']: [] for one in lines}
        for one in lines:
            found = told.get(one['prefix'])
            words = [] if found is None else [title_of(found), found['host'], found['address'], None if found.get('first_time') is None else f"{found['first_time']:.3f} s",
                                              None if found.get('last_time') is None else f"{found['last_time']:.3f} s", found['left'] and 'left']
            lacking[one['prefix']] += [word for word in words if word and word not in one['line']]
        return wanted, lacking

    # ---- the head, the picture, and what is folded

    def head(self):
        """which recording it is of"""
        for name in self.names:
            tab, values = self.open(name), self.values(name)
            self.holds(f'{name}: its name', name if '.' in name else values['recording']['name'], self.text(tab, '#name'))
            self.holds(f'{name}: the version', True, self.text(tab, '#program').startswith(f'rtps-audit {page.VERSION}, '))
            begin, end = values['recording']['begin'], values['recording']['end']
            when = self.text(tab, '#when')
            self.holds(f'{name}: how many datagrams', True, f"{counted(values['datagrams'])} datagram" in when)
            if begin is not None and 'times' in values:
                moments = [moment_text(moment) for moment in (begin, end)]
                moments[1] = moments[1][11 if moments[0][:10] == moments[1][:10] else 0:]
                self.holds(f'{name}: when it was made', [], [word for word in (*moments, 'UTC', f'{(end - begin) % 60000 / 1000:.3f} s') if word not in when])
            addresses = [one['host'] or one['address'] for one in values['participants'] if one['host'] or one['address']]
            hosts = self.text(tab, '#hosts')
            self.holds(f'{name}: the hosts', [], [one for one in list(dict.fromkeys(addresses))[:12] if one not in hosts])
            self.leave(name, tab)

    def pictures_of_topics(self):
        """a strip for each topic with a pair, the worst first, and marks for what is lost and who leaves"""
        for name in (*self.names, *BOTH_SIDES):
            tab, values = self.open(name), self.values(name)
            order = sorted(by_topic(enumerate(self.rows(name))), key=group_badness)
            strips = tab.evaluate('stripsShown()')
            self.holds(f'{name}: the strips', [topic_name(rows[0]['topic']) for rows in order[:20]], [strip['topic'] for strip in strips])
            for rows, strip in zip(order, strips):
                wanted = {kind for row in rows for kind, lost in row['numbers'].items() if any(one['sent'] is None or has_place(values, one['sent']) for one in lost['ranges'])
                          and (row['outcomes'].get('arrived') is None) == (kind != 'not_arrived')}
                wanted |= {'leaves' for row in rows if row['until'] is not None and has_place(values, {'time': row.get('until_time')})}
                wanted |= {'joins' for row in rows if values['joined'][values['pairs'].index(row)] is not None}
                wanted |= {'silent' for row in rows for one in values['participants'] if one.get('silent') and one['guid'][:24] in (row['writer'][:24], row['reader'][:24])}
                self.holds(f"{name}: the marks of {strip['topic']}", wanted, set(strip['marks']))
                self.holds(f"{name}: at most 2,000 marks", True, all(n <= 2000 for n in strip['marks'].values()))
                self.holds(f"{name}: the words of {strip['topic']}", lost_words(rows), strip['words'].split(', ')[:len(lost_words(rows))])
            if strips:
                tab.evaluate(f"document.querySelector('a.strip').click()")
                tab.settle()
                group = int(strips[0]['leads'].removeprefix('#topic-')) - 1
                rows = list(by_topic(enumerate(self.rows(name))))[group]
                shown = {one['id'] for one in self.shown(tab) if one['topic'] == topic_name(rows[0]['topic'])}
                wanted = {f"pair-{self.rows(name).index(row) + 1}" for row in rows if not row['clean'] or all(one['clean'] for one in rows)}
                self.holds(f'{name}: a strip leads to its pairs', True, wanted <= shown)
            self.leave(name, tab)

    def folds(self):
        tab = self.open('robot')
        self.holds('the clean topic is folded', [['/tf', '/odom', '/scan'], ['1 clean topic']], [self.topics(tab), tab.evaluate("textsOf(document, '.clean-topics button')")])
        tab.click('.clean-topics button')
        self.holds('it has a line, and no pair', [4, 3], [self.found(tab, 'tr.group'), len(self.shown(tab))])
        tab.click('#topic-4 button')
        self.holds('it opens', ['/tf', '/odom', '/scan', '/cmd_vel'], self.topics(tab))
        tab.click('#topic-4 button')
        self.holds('it folds', ['/tf', '/odom', '/scan'], self.topics(tab))
        tab.evaluate("[...document.querySelectorAll('.tools button')].find((e) => e.textContent === 'Fold').click()")
        self.holds('all is as at first', [3, 3], [self.found(tab, 'tr.group'), len(self.shown(tab))])
        tab.evaluate("location.hash = '#pair-4'")
        tab.settle()
        self.holds('the address of a folded pair opens it', ['pair-4', True], [self.shown(tab)[-1]['id'], self.found(tab, 'tr.detail') == 1])
        self.leave('robot', tab)

    def bar(self):
        tab = self.open('robot')
        self.holds('the bar has the sections', ['Picture', 'What happened', 'Discovery', 'Topics', 'Notes', 'Participants', 'Counts'], tab.evaluate("textsOf(document, '#bar a')"))
        tab.evaluate('scrollTo(0, document.body.scrollHeight)')
        self.holds('it stays at the top', 0, tab.evaluate("Math.round(document.getElementById('bar').getBoundingClientRect().top)"))
        self.leave('robot', tab)

    def heights(self):
        """before anything is opened"""
        for name in self.names:
            tab = self.open(name)
            self.holds(f'{name}: no higher than 6,000 pixels', True, tab.evaluate('document.documentElement.scrollHeight') <= 6000)
            first = tab.evaluate("(document.querySelector('.event tbody tr') || document.querySelector('#outcome')).getBoundingClientRect().top")
            self.holds(f'{name}: what is lost first stands within 1,500 pixels', True, first <= 1500)
            tab.close()

    def talk(self):
        """who does not talk, as the data has it"""
        for name in (*self.names, *TALKING):
            values, tab = self.values(name), self.open(name)
            tab.evaluate("document.querySelectorAll('.talk-fold').forEach(openFold)")
            tab.evaluate("(() => { for (let more; (more = document.querySelector('#talk .more:not([hidden]), #best-effort .more:not([hidden])')); ) more.click(); })()")
            wanted = {
                'talking': [', '.join(policy.replace('_', ' ') for policy in one['because']) for one in values['talking']],
                'unmatched': [unfit_wanted(one) for one in values['unmatched']], 'one-way': [counted(one['named']) for one in values['one_way']],
                'unobserved': [one['because'] for one in values['unobserved']],
                'best-effort': [f"{counted(one['recorded'])} of {counted(one['numbers'])}" for one in values['best_effort']],
                'not-arrived': [lacking_wanted(one) for one in lacking_pairs(values)],
                'alone': alone_wanted(values),
            }
            self.holds(f'{name}: who does not talk', wanted, {kind: tab.evaluate(f"talkShown('{kind}')") for kind in wanted})
            wanted |= {kind: values.get(kind) for kind in ('untold', 'lives', 'late')}
            for section, kinds in {'talk': ('untold', 'lives', 'late', 'unmatched', 'talking', 'one-way', 'alone', 'unobserved'), 'best-effort': ('best-effort', 'not-arrived')}.items():
                self.holds(f'{name}: there is a part for it', any(wanted[kind] for kind in kinds), not tab.evaluate(f"document.getElementById('{section}').hidden"))
            self.leave(name, tab)

    def not_told(self):
        """what discovery has not told, two lives, and pairs that matched late, in words that are written out here"""
        text, values = self.parts('robot')
        (w, r), late = [values['pairs'][0][side] for side in ('writer', 'reader')], {'datagram': 12, 'at': 20, 'time': 12.345, 'frame': 13}
        here, there = (f'{guid[:24]}.000001c1' for guid in (w, r))
        given = {
            'untold': [{'from': here, 'to': there, 'writers': [w, f'{w[:24]}.00000f03'], 'readers': [f'{w[:24]}.00000304'], 'unnamed': 2}],
            'lives': [{'participant': here, 'address': '10.0.0.1', 'sent': [12.5, 1764000000.25]}],
            'late': [{'topic': values['pairs'][0]['topic'], 'writer': w, 'reader': r, 'seconds': 8.1, 'matched': late}],
        }
        self.made['not_told'] = text, values | given
        tab = self.open('not_told', '#pair-1')
        wanted = {
            'untold': [f'writer of /odomwriter of {w[:24]}.00000f03reader of /cmd_vel2 without a name here'], 'lives': ['12.500 s and 2025-11-24 16:00:00.250 UTC'],
            'late': ['8.100 s after both were there, in datagram 12, octet 20, frame 13, 12.345 s'],
        }
        self.holds('told: each has its table', wanted, {kind: tab.evaluate(f"talkShown('{kind}')") for kind in wanted})
        self.holds('told: who is not told of whose', ['P2 /amcl', 'P1 /base_driver'], tab.evaluate("textsOf(document, 'table.untold tbody tr > :nth-child(-n+2)')"))
        self.holds('told: it is said with the pair', f"The two matched {wanted['late'][0]}.", tab.evaluate("textsOf(document, '.rests-on li').at(-1)"))
        order = ['untold', 'lives', 'late', 'unmatched', 'alone']
        tab.evaluate("document.querySelectorAll('.talk-fold').forEach(openFold)")
        self.holds('told: their order', order, tab.evaluate("[...document.querySelectorAll('table.talk')].map((table) => table.classList[1])"))
        self.leave('not_told', tab)

    # ---- seconds, and what arrived

    def seconds(self):
        """in words that are written out here"""
        tab = self.open('waiting', '#pair-1')
        self.holds('seconds: what the pair rests on', WAITING, tab.evaluate("textsOf(document, 'tr.detail .rests-on li')"))
        tab.close()
        wanted = {
            'missed_in_time': ('s', 'seconds', [[0.4, 1], [0.7, 2], [1, 2]], 'datagram 11, octet 36, frame 11, 1.000 s, sent again; 2 is missed.'),
            'half_timed': ('datagram', 'datagrams', [[5, 1], [8, 2]], 'datagram 8, octet 20.'),
        }
        for name, (word, axis, dots, last) in wanted.items():
            tab = self.open(name, '#pair-1')
            self.holds(f'{name}: the axis', word, tab.evaluate('chartInSight.axis.word'))
            self.holds(f'{name}: the dots', dots, tab.evaluate('chartInSight.marks.dots.map(({ x, y }) => [x, y])'))
            self.holds(f'{name}: the chart is told', [f'Chart of {axis} and numbers', f'{axis.capitalize()} to the right, numbers upwards'],
                       [tab.evaluate("document.querySelector('canvas').ariaLabel").split(':')[0], self.text(tab, '#chart-help-1').split('.')[0]])
            tab.evaluate("document.querySelector('canvas').focus()")
            for _ in dots:
                tab.press('ArrowRight')
            self.holds(f'{name}: a dot is read', f'DATA of number 2 in {last}', tab.evaluate('chartInSight.readout.textContent'))
            for _ in range(40):
                tab.press('+')
            view = tab.evaluate('chartInSight.view')
            self.holds(f'{name}: the smallest window', {'s': 0.02, 'datagram': 4}[word], round(view['x1'] - view['x0'], 9))
            self.picture(tab, f'{name}_zoomed')
            self.leave(name, tab)

    def both_sides_shown(self):
        """what arrived by another recording, as the text of `check` tells it"""
        for name in BOTH_SIDES:
            tab, values = self.open(name), self.values(name)
            lines = self.parts(name)[0].splitlines()
            more = re.findall(r', [\d,]+ more arrived$', lines[0])
            self.holds(f'{name}: how many more arrived', more, re.findall(r', [\d,]+ more arrived(?=\.$)', self.text(tab, '#received')))
            self.open_all(tab)
            self.holds(f'{name}: each row is that of the report', self.wanted(name), in_order(self.shown(tab)))
            self.holds(f'{name}: it is told what arrived means', [], tab.evaluate("hidden('#arrived')"))
            self.holds(f'{name}: the option is told', True, self.text(tab, '#program').endswith(' with --arrived OTHER'))
            pairs = [line.strip() for line in lines if line.startswith('    arrived ')]
            self.holds(f'{name}: pairs of best effort', pairs, tab.evaluate("talkShown('not-arrived')"))
            heads = [line for line in lines if re.match(r'[\d,]+ numbers? of .* did not arrive$', line)]
            self.holds(f'{name}: their head', heads, tab.evaluate("textsOf(document, '#best-effort .talk-part h3')"))
            self.lacking_sentences(name, tab, values, lines)
            self.leave(name, tab)

    def lacking_sentences(self, name, tab, values, lines):
        """each pair says which numbers are lost, and which did not arrive, as check does"""
        said = []
        for at, row in enumerate(values['pairs'][:MOST_CHOSEN]):
            self.choose(tab, at)
            said += lost_of(row)
            self.lost_numbers(f'{name}: pair {at + 1}', tab, row)
        self.holds(f'{name}: as check says it', [], [line for line in lines if is_of_lost(line) and sentence_of(line) not in said])

    def all_arrived(self):
        """in words that are written out here"""
        wanted = {
            'a_reader_that_acknowledged_nothing_and_all_arrived': 'The reader never acknowledged sample 1, but all numbers are received or arrived.',
            # Each kind of the row is told: by the other recording 4-6 and 8-1499 did not come, and by this one alone they were never sent.
            'lost_on_the_way': 'The reader may lack samples 3 to 1500: they are announced, and the reader never acknowledged them. '
                               'Unsent 4-6, 8-1499. Not arrived 3-6, 8-1499.',
        }
        for name, sentence in wanted.items():
            tab = self.open(name, '#pair-1')
            self.holds(f'{name}: the sentence of the verdict', sentence, self.text(tab, 'tr.detail .lead'))
            self.leave(name, tab)
        tab = self.open('lost_on_the_way')
        self.holds('both sides: it stands among what to look at', True, 'Not arrived 3-6, 8-1499.' in self.text(tab, 'table.topics td'))
        self.holds('both sides: by topic, with large numbers', ['arrived 0 of 1, not 1', 'arrived 1 of 3, not 9007199254740993, 9007199254740995'],
                   tab.evaluate("talkShown('not-arrived')"))
        tab.close()
        tab = self.open('a_reader_of_which_the_other_recording_has_no_act')
        self.open_all(tab)
        self.holds('both sides: a row that is not held', ['–', '1'], tab.evaluate("textsOf(document, 'tr.pair td.arrived')"))
        for ids in ['pair-2', 'pair-1'], ['pair-1', 'pair-2']:
            tab.click('.pairs thead th.arrived button')
            self.holds('both sides: by what arrived', ids, self.ids(tab))
        tab.close()
        tab = self.open('waiting')
        self.holds('one side: nothing is said to have arrived', [0, 0, 1, False],
                   [self.found(tab, '.arrived'), self.found(tab, '.talk.not-arrived'), len(tab.evaluate("hidden('#arrived')")),
                    'arrived' in tab.evaluate('document.body.innerText')])
        tab.close()

    def hostile_names(self):
        tab = self.open('hostile')
        self.holds('hostile names make no element', [0, 0, 0], [self.found(tab, name) for name in ('img', 'b b', 'main script')])
        self.holds('hostile names run nothing', [], tab.events('Page.javascriptDialogOpening'))
        scripts = sum(part.count('<script') for part in parts.parts())
        self.holds('hostile names end no script', scripts, self.found(tab, 'script'))
        self.leave('hostile', tab)

    def without_scripts(self):
        """the text of `check`, which is hidden on the screen where scripts run"""
        for name in (*MADE, 'open.rec'):
            tab = self.open(name, scripts=False)
            tree = tab.send('DOM.getDocument')['root']['nodeId']
            found = tab.send('DOM.querySelector', nodeId=tree, selector='#text pre')['nodeId']
            height = tab.send('DOM.getBoxModel', nodeId=found)['model']['height']
            self.holds(f'{name}: the text is shown without scripts', True, height > 20)
            text = tab.send('DOM.getOuterHTML', nodeId=found)['outerHTML'].split('>', 1)[1][:-len('</pre>')]
            self.holds(f'{name}: it is that of check', self.parts(name)[0], html.unescape(text))
            self.picture(tab, f'{name}_without_scripts')
            self.leave(name, tab)
            tab = self.open(name)
            self.holds(f'{name}: the text is not in sight where scripts run', (1, self.parts(name)[0]),
                       (len(tab.evaluate("hidden('#text pre')")), self.text(tab, '#text pre')))
            tab.close()

    # ---- what one can do

    def filters(self):
        tab = self.open('robot')
        rows = self.rows('robot')
        wanted = {
            'scan': ['/scan'], '/amcl': ['/tf', '/odom', '/scan'], 'open': ['/scan'], 'lost': ['/odom'], 'P3 teleop tf': ['/tf'],
            rows[0]['writer']: ['/odom'], 'nothing of this': [], 'nav_msgs/msg/odometry': ['/odom'], 'rt/odom': ['/odom'], 'cmd': ['/cmd_vel'],
            '': ['/tf', '/odom', '/scan'],
        }
        for text, topics in wanted.items():
            tab.evaluate(f'timeToFilter({json.dumps(text)})')
            self.holds(f'robot: the filter {text!r}', topics, self.topics(tab))
        tab.click('#verdicts .badge.open')
        tab.click('#verdicts .badge.unfounded')
        self.holds('robot: two verdicts', ['/tf', '/scan'], self.topics(tab))
        self.holds('robot: what is shown is told', '2 of 4 pairs.', self.text(tab, '#shown'))
        self.leave('robot', tab)

    def orders(self):
        tab = self.open('robot')
        self.open_all(tab)
        within = {'announced': 'number', 'acknowledged': 'below'}
        for name in ('announced', 'acknowledged', 'received', 'likely', 'missed', 'unconfirmed'):
            for order, sign in (('descending', -1), ('ascending', 1)):
                tab.click(f'.pairs thead th.{name} button')
                key = lambda one: sign * (one[1][name][within[name]] if name in within else one[1]['outcomes'][name])
                rows = grouped(sorted(enumerate(self.rows('robot')), key=key))
                self.holds(f'robot: by {name}, {order}', [f'pair-{at + 1}' for at, _ in rows], self.ids(tab))
                self.holds(f'robot: the head of {name}', order, tab.evaluate(f"document.querySelector('.pairs thead th.{name}').ariaSort"))
        self.leave('robot', tab)

    def clicks(self):
        tab = self.open('robot')
        tab.click('#pair-2 td.received')
        self.holds('a click chooses', '#pair-2', tab.evaluate('location.hash'))
        self.holds('the row says that it is open', 'true', tab.evaluate("document.querySelector('#pair-2 a').ariaExpanded"))
        tab.click('#pair-2 a')
        self.holds('another one closes', 0, self.found(tab, 'tr.detail'))
        tab.click('table.topics a')
        self.holds('a topic leads to its pair', '#pair-1', tab.evaluate('location.hash'))
        tab.click('#pair-3 td.writer a')
        self.holds('a pair leads to its participant', ['#participant-2', 'participant-2'],
                   [tab.evaluate('location.hash'), tab.evaluate("document.querySelector('.participant[open]').id")])
        self.leave('robot', tab)

    def keyboard(self):
        tab = self.open('robot')
        seen, reached = [], None
        # In front of the pairs stand the bar, a strip for each topic, the pairs that events name, folds, kinds, filter, order and heads.
        for _ in range(100):
            tab.press('Tab')
            found = tab.evaluate('focused()')
            seen.append(found['isSeen'])
            if found['href'] == '#pair-2' and tab.evaluate("document.activeElement.closest('tr.pair') !== null"):
                reached = found
                break
        self.holds('the keyboard reaches a pair', True, reached is not None)
        tab.press('Enter')
        tab.settle()
        self.holds('Enter chooses it', '#pair-2', tab.evaluate('location.hash'))
        while seen.append(tab.evaluate('focused()')['isSeen']) or tab.evaluate('focused()')['tag'] != 'CANVAS':
            tab.press('Tab')
            if len(seen) > 200:
                break
        self.holds('the focus is always seen', [], [at for at, one in enumerate(seen) if not one])
        dots = tab.evaluate('chartInSight.marks.dots')
        tab.press('ArrowRight')
        tab.press('ArrowRight')
        self.holds('the keyboard reads a dot', self.dot_text(dots[1]), tab.evaluate('chartInSight.readout.textContent'))
        before = tab.evaluate('chartInSight.view')
        tab.press('+')
        tab.press('ArrowRight', SHIFT)
        after = tab.evaluate('chartInSight.view')
        self.holds('the keyboard zooms', True, after['x1'] - after['x0'] < before['x1'] - before['x0'])
        tab.press('0')
        self.holds('the keyboard shows all', before, tab.evaluate('chartInSight.view'))
        self.leave('robot', tab)

    @staticmethod
    def dot_text(dot):
        what = 'DATA_FRAG that completes number' if dot['isWhole'] else 'DATA of number'
        again = '' if not dot['again'] else ', of which a fragment was sent again' if dot['isWhole'] else ', sent again'
        return f"{what} {dot['number']} in datagram {dot['datagram']}, octet {dot['at']}{again}."

    def charts(self):
        for name in ('robot', 'gone.rec', 'conflict.rec', 'fragments.rec', 'pieces', 'cyclone_reliable.rec', 'ipv6.pcapng', 'loopback.pcap', *IN_TIME):
            tab, values = self.open(name), self.values(name)
            acts = {one['guid']: one['acts'] for one in values['writers']}
            bases = {(one['writer'], one['reader']): one['bases'] for one in values['answers']}
            for at, row in enumerate(self.rows(name)):
                self.choose(tab, at)
                heard = [act for act in acts[row['writer']] if is_heard(act, row['reader'])]
                answers, seconds = bases[row['writer'], row['reader']], {datagram: second for datagram, second, *_ in values.get('times', [])}
                drawn = {entry[0] for entry in acts[row['writer']] + answers}
                place = seconds.get if drawn <= set(seconds) else int
                self.chart(f'{name}: pair {at + 1}', heard, [answers, place], tab.evaluate('chartInSight.marks'))
            tab.close()

    def chart(self, name, heard, answered, marks):
        """what a chart has of what a reader hears and of what it answers, each in the place of its datagram"""
        bases, place = answered
        sent = [act for k, act in enumerate(heard) if act[2] == 'data' or (act[2] == 'sample' and act[2:4] not in [one[2:4] for one in heard[:k]])]
        twice = sent_twice(heard)
        dots = [[place(act[0]), act[3], act[1], act[3] in [one[3] for one in sent[:k]] or (act[2] == 'sample' and act[3] in twice)] for k, act in enumerate(sent)]
        self.holds(f'{name}: the dots', dots, [[dot['x'], dot['y'], dot['at'], dot['again']] for dot in marks['dots']])
        answers = [[place(datagram), base - 1] for datagram, _, base, _ in bases]
        self.holds(f'{name}: the answers', answers, [[one['x'], one['y']] for one in marks['answers']])
        asked = [[place(datagram), number] for datagram, _, _, numbers in bases for number in numbers]
        self.holds(f'{name}: what is asked for', asked, [[one['x'], one['y']] for one in marks['asked']])
        gone = {n for act in heard if act[2] == 'gone' for n in range(act[3], act[4] + 1)}
        drawn = {n for band in marks['bands'] for n in range(band['low'], band['high'] + 1)}
        self.holds(f'{name}: what is gone', gone, drawn)

    def asked_for(self):
        """a sign for each number that a reader asks for, where it does; the first pair asks for 19 twice, the second one for 18"""
        tab = self.open('robot', '#pair-1')
        signs = "chartInSight.marks.asked.map(({ x, y }) => [x, y])"
        self.holds('robot: what the first pair asks for', [[95, 19], [115, 19]], tab.evaluate(signs))
        self.holds('robot: it is told by ear', True, '2 numbers asked for' in tab.evaluate("document.querySelector('canvas').getAttribute('aria-label')"))
        self.holds('robot: the sign is explained', 1, tab.evaluate("textsOf(document, '.legend li').filter((text) => text === 'asked for by the reader').length"))
        self.choose(tab, 1)
        self.holds('robot: what the second one asks for', [[138, 18]], tab.evaluate(signs))
        self.choose(tab, 3)
        self.holds('robot: what the last one asks for', [], tab.evaluate(signs))
        self.holds('robot: no sign is explained there', 0, tab.evaluate("textsOf(document, '.legend li').filter((text) => text === 'asked for by the reader').length"))
        self.leave('robot', tab)

    def samples_in_fragments(self):
        """each is one dot, at the fragment that completed it, and hollow where a fragment of it was sent again; one that lacks a fragment is none"""
        tab = self.open('pieces', '#pair-1')
        dots = [[1, 5, False], [2, 8, True], [3, 11, True], [4, 13, True], [6, 18, True], [7, 19, False], [7, 23, True]]
        self.holds('pieces: the dots', dots, tab.evaluate('chartInSight.marks.dots.map(({ y, datagram, again }) => [y, datagram, again])'))
        self.holds('pieces: which are samples in fragments', [True] * 5 + [False] * 2, tab.evaluate('chartInSight.marks.dots.map(({ isWhole }) => isWhole)'))
        self.holds('pieces: what is asked for', [[21, 5], [22, 5], [22, 6]], tab.evaluate('chartInSight.marks.asked.map(({ x, y }) => [x, y])'))
        self.holds('pieces: the lost ones stand where a fragment was sent first', [[15, 5], [17, 6]], tab.evaluate('chartInSight.marks.lost.map(({ x, y }) => [x, y])'))
        tab.evaluate("document.querySelector('canvas').focus()")
        tab.press('ArrowRight')
        self.holds('pieces: a dot is read', 'DATA_FRAG that completes number 1 in datagram 5, octet 20.', tab.evaluate('chartInSight.readout.textContent'))
        tab.press('ArrowRight')
        self.holds('pieces: a hollow one is read', 'DATA_FRAG that completes number 2 in datagram 8, octet 20, of which a fragment was sent again.',
                   tab.evaluate('chartInSight.readout.textContent'))
        self.leave('pieces', tab)

    def pointer(self):
        tab = self.open('robot', '#pair-2')
        box = tab.box('canvas')
        dot = tab.evaluate('chartInSight.marks.dots.find((dot) => dot.again)')
        x, y = (tab.evaluate(f"chartInSight.pixel{axis}({dot[axis.lower()]})") for axis in 'XY')
        tab.hover(box['x'] + x, box['y'] + y)
        tab.settle()
        self.holds('the pointer reads a dot', self.dot_text(dot), tab.evaluate('chartInSight.readout.textContent'))
        before = tab.evaluate('chartInSight.view')
        tab.drag(box['x'] + x - 60, box['y'] + y - 40, box['x'] + x + 60, box['y'] + y + 40)
        after = tab.evaluate('chartInSight.view')
        is_about = after['x0'] < dot['x'] < after['x1'] < before['x1'] and before['y0'] < after['y0'] < dot['y'] < after['y1']
        self.holds('a drag zooms about it', True, is_about)
        self.picture(tab, 'robot_zoomed')
        tab.click('canvas', 2)
        self.holds('a double click shows all', before, tab.evaluate('chartInSight.view'))
        for label, is_less in (('Zoom in', True), ('Zoom out', False)):
            tab.evaluate(f"[...document.querySelectorAll('.controls button')].find((e) => e.textContent === '{label}').click()")
            wide = tab.evaluate('chartInSight.view.x1 - chartInSight.view.x0')
            self.holds(f'the button {label}', is_less, wide < before['x1'] - before['x0'])
        self.leave('robot', tab)

    def charts_left_out(self):
        tab = self.open('chatty')
        shown = {}
        for at, row in enumerate(self.rows('chatty')):
            self.choose(tab, at)
            shown[row['topic']] = tab.evaluate("[...document.querySelectorAll('canvas, .no-chart')].map((e) => e.tagName)")
        self.holds('a chart for which there is no room', {'few': ['CANVAS'], 'many': ['P'], 'later': ['CANVAS']}, shown)
        self.leave('chatty', tab)

    # ---- for everyone, everywhere

    def contrast(self):
        for dark in (False, True):
            for name in ('robot', 'conflict.rec', 'gone.rec', 'unmatched', 'none'):
                tab = self.open(name, '#pair-1', dark=dark)
                found = tab.evaluate('faintTexts(4.5)')
                self.holds(f'{name}: contrast, {"dark" if dark else "light"}', [], found['faint'])
                self.holds(f'{name}: there are texts', True, found['count'] > 10)
                self.holds(f'{name}: by ear', [], tab.evaluate('unspoken()'))
                tab.close()

    def widths(self):
        for name in ('robot', 'hostile', 'cyclone_reliable.rec', 'unmatched', 'none'):
            for width in (360, 390, 768, 1280, 1920):
                tab = self.open(name, '#pair-1', width=width)
                self.holds(f'{name}: it fits in {width} pixels', width, tab.evaluate('document.documentElement.scrollWidth'))
                self.holds(f'{name}: each row is in sight at {width} pixels', [], tab.evaluate("hidden('tbody tr')"))
                tab.close()

    def opened_on_paper(self):
        """all rows, and what is told of those that are not clean, with their charts"""
        tab = self.open('robot')
        found = lambda: [self.found(tab, selector) for selector in ('tr.pair', 'tr.detail', 'tr.detail canvas')]
        before = found()
        tab.evaluate("dispatchEvent(new Event('beforeprint'))")
        self.holds('on paper all pairs stand, and those that are not clean are open', [4, 3, 3], found())
        tab.evaluate("dispatchEvent(new Event('afterprint'))")
        self.holds('behind it all is as before', before, found())
        self.leave('robot', tab)

    def paper(self):
        tab = self.open('robot', '#pair-2', dark=True)
        tab.evaluate("addEventListener('beforeprint', () => { window.drawnFor = chartInSight.colour('--sheet'); })")
        self.holds('it is printed', b'%PDF', tab.print()[:4])
        colours = tab.evaluate("[window.drawnFor, chartInSight.colour('--sheet')]")
        self.holds('the chart is drawn for paper, and then for the screen', ['#ffffff', '#14171a'], colours)
        tab.send('Emulation.setEmulatedMedia', media='print', features=[{'name': 'prefers-color-scheme', 'value': 'dark'}])
        tab.resize(700, 1000)
        tab.settle()
        self.holds('it fits on paper', 700, tab.evaluate('document.documentElement.scrollWidth'))
        self.holds('what is on paper', [], tab.evaluate("hidden('table.pairs, tr.pair, tr.pair td, tr.detail, canvas, .strip-picture, #text pre')"))
        self.holds('what is not on paper', 3, tab.evaluate("hidden('.tools, .controls, #bar').length"))
        self.holds('it is light on paper', [], tab.evaluate('faintTexts(4.5)')['faint'])
        self.holds('it is white on paper', [255, 255, 255, 1], tab.evaluate('behind(document.body)'))
        self.picture(tab, 'robot_on_paper', True)
        self.leave('robot', tab)

    def more_rows(self):
        """where the last ones are shown, the focus goes to the first of them"""
        values = recorded.many(21, [('rt/some', 'Some')], recorded.some_verdict)
        self.made['some'] = many_text(values), values
        tab = self.open('some')
        focused = lambda element: tab.evaluate(f"document.activeElement === {element}")
        self.holds('441 pairs: the first ones', '441 pairs; the first 100 are shown; 147 are folded.', self.text(tab, '#shown'))
        tab.click('#pairs > button.more')
        self.holds('441 pairs: all that are not folded', '441 pairs; 147 are folded.', self.text(tab, '#shown'))
        self.holds('441 pairs: the focus', True, focused("document.querySelectorAll('tr.pair > th a')[100]"))
        tab.click('tr.folded button')
        tab.click('#pairs > button.more')
        self.holds('441 pairs: all of them', ['441 pairs.', 441], [self.text(tab, '#shown'), self.found(tab, 'tr.pair')])
        tab.click('#participants > button.more')
        self.holds('21 participants: the focus', True, focused("document.querySelectorAll('.participant > summary')[20]"))
        self.leave('some', tab)
        tab = self.open('many')
        tab.click('#pairs > button.more')
        self.holds('90,000 pairs: the focus stays', True, focused("document.querySelector('#pairs > button.more')"))
        self.leave('many', tab)

    def seen_first(self):
        """of a large page how the run ended is seen while the data is read"""
        tab = Tab(self.browser)
        tab.send('Performance.enable', timeDomain='threadTicks')
        before = self.thread_time(tab)
        self.browser.send('Page.navigate', tab.session, url='file://' + self.path('many'))
        self.browser.wait(lambda: tab.evaluate("performance.getEntriesByName('first-contentful-paint').length") or None, 'first sight')
        took = self.thread_time(tab) - before
        seen = tab.evaluate("[document.getElementById('outcome')?.textContent, document.querySelector('main').hidden, document.readyState]")
        self.holds('90,000 pairs: what is seen first', ['✗ not clean 60,000 pairs are not complete', True, 'loading'], seen)
        print(f'90,000 pairs: how the run ended is seen after {took:.2f} s of processor time')
        tab.close()

    def many_pairs(self):
        tab = Tab(self.browser)
        tab.send('Performance.enable', timeDomain='threadTicks')
        before = self.thread_time(tab)
        tab.open(self.path('many'))
        tab.settle()
        first = self.thread_time(tab) - before
        tab.evaluate(PROBE)
        tab.evaluate("timeToFilter('')")
        slowest = max(self.time_to_filter(tab, text) for text in ('000a07', 'unfounded', 'p1', 'nothing', ''))
        size = os.path.getsize(self.path('many'))
        print(f'90,000 pairs: {size:,} octets, all is seen after {first:.2f} s of processor time, filtered in {slowest * 1000:.0f} ms')
        self.holds('90,000 pairs: what is shown', '90,000 pairs; the first 100 are shown; 30,000 are folded.', self.text(tab, '#shown'))
        tab.click('#pairs > button.more')
        self.holds('90,000 pairs: more of them', '90,000 pairs; the first 600 are shown; 30,000 are folded.', self.text(tab, '#shown'))
        self.choose(tab, 77776)
        self.holds('90,000 pairs: one by its address', [row_wanted(self.values('many'), 77776)], [row for row in self.shown(tab) if row['id'] == 'pair-77777'])
        self.holds('90,000 pairs: its advice', [self.rows('many')[77776]['advice']], tab.evaluate("textsOf(document, 'tr.detail .advice')"))
        self.leave('many', tab)

    def time_to_filter(self, tab, text):
        before = self.thread_time(tab)
        tab.evaluate(f'timeToFilter({json.dumps(text)})')
        return self.thread_time(tab) - before

    @staticmethod
    def thread_time(tab):
        return next(one['value'] for one in tab.send('Performance.getMetrics')['metrics'] if one['name'] == 'ThreadTime')

    # ---- pictures

    def picture(self, tab, name, whole=False):
        if self.pictures:
            tab.picture(os.path.join(self.pictures, f'{name}.png'), whole)

    def taken(self):
        for name in (*self.names, 'many'):
            for width in (1280, 390):
                for dark in (False, True):
                    look = f'{name}_{width}_{"dark" if dark else "light"}'
                    tab = self.open(name, width=width, dark=dark)
                    self.picture(tab, look)
                    if name != 'many':
                        self.choose(tab, 0)
                        self.picture(tab, f'{look}_pair', True)
                    tab.close()


def many_text(values):
    """a text as long as that of `check` on many rows"""
    return f"{''.join(map(recorded.text_of, values['pairs']))}\nnot clean: {'; '.join(values['because'])}\n"


def alone_wanted(values):
    """what the page shows of topics that have writers alone, or readers alone: the last cell of each"""
    sides = {}
    for one in values['endpoints']:
        sides.setdefault(one['topic'], {'writer': 0, 'reader': 0})[one['side']] += 1
    alone = sorted((topic.startswith(('rq/', 'rr/')), topic, found['reader']) for topic, found in sides.items() if 0 in found.values())
    return [counted(readers) for _, _, readers in alone]


def more_of(text):
    """the number of `and N more` at the end of a text, or 0"""
    found = re.search(r'and ([\d,]+) more$', text)
    return int(found.group(1).replace(',', '')) if found else 0


def moment_text(milliseconds):
    """a moment in universal time"""
    return (datetime.datetime(1970, 1, 1) + datetime.timedelta(milliseconds=milliseconds)).isoformat(' ', 'milliseconds')


def group_badness(rows):
    """the same of a topic"""
    clean = all(row['clean'] for row in rows)
    return clean, -sum(map(lost_in, rows)), min(KINDS.index(kind_of(row)) for row in rows), rows[0]['topic'] in PLUMBING


def has_place(values, place):
    """whether a place stands on the axis of a recording"""
    return place is not None and ('times' not in values or place.get('time') is not None)


def lost_words(rows):
    """what a strip says of what is lost"""
    held = [row for row in rows if row['outcomes'].get('arrived') is not None]
    alone = [row for row in rows if row not in held] if held else rows
    counts = {kind: sum(row['outcomes'][kind] for row in alone) for kind in ('missed', 'unsent', 'unanswered')} | {'not arrived': sum(map(lost_in, held))}
    words = [f'{n:,} {kind}' for kind, n in counts.items() if n]
    return words or ['clean' if all(row['clean'] for row in rows) else 'not clean']


def head_of(event):
    """the head of an event, as the page has it"""
    return event['text'][0].upper() + event['text'][1:]


def event_of(events, at):
    """the head of the event of a row, or of those that stand in none"""
    return next((head_of(event) for event in events if at in event['pairs']), 'Other pairs to look at')


def sent_twice(acts):
    """the numbers of samples of which a fragment was sent twice"""
    sent = [(act[3], fragment) for act in acts if act[2] == 'piece' for fragment in range(act[4], act[4] + act[5])]
    return {number for number, fragment in sent if sent.count((number, fragment)) > 1}


def is_heard(act, reader):
    """whether the audience of an entry has a reader"""
    to = act[3 + {'gone': 2, 'piece': 3}.get(act[2], 1):]
    prefix, _, entity = to[0].partition('.') if to else ('', '', '')
    return prefix in ('', reader[:24]) and entity in ('', reader[25:])


WITHOUT_BROWSER = 'constants', 'pages_of_the_program', 'text_of_a_page', 'data_of_check', 'rows_with_charts'
IN_BROWSER = (
    'each_row', 'working_copy', 'outcome', 'asked', 'first_screen', 'topics_to_look_at', 'chosen_pairs', 'participants', 'talk', 'not_told', 'seconds',
    'head', 'pictures_of_topics', 'folds', 'bar', 'heights', 'both_sides_shown', 'all_arrived', 'hostile_names',
    'without_scripts', 'filters', 'orders', 'clicks', 'keyboard', 'charts', 'asked_for', 'samples_in_fragments', 'pointer', 'charts_left_out', 'contrast', 'widths', 'paper', 'opened_on_paper',
    'more_rows', 'seen_first', 'many_pairs',
)


def run(tests, names):
    is_named = lambda name: not names or any(word in name for word in names)
    for name in filter(is_named, WITHOUT_BROWSER):
        getattr(tests, name)()
    if browser_path() is None:
        print('tests/pages.py: no Chromium is installed, so no page was tried in a browser')
        return
    tests.browser = Browser()
    try:
        for name in filter(is_named, IN_BROWSER):
            getattr(tests, name)()
        if tests.pictures:
            tests.taken()
    finally:
        tests.browser.close()


def value_of(words, option):
    """the value of an option, which is taken out of the words with it; None where it is not among them"""
    if option not in words:
        return None
    at = words.index(option)
    value = words[at + 1]
    del words[at:at + 2]
    return value


def main():
    words = sys.argv[1:]
    program, recordings, pictures = value_of(words, '--program'), value_of(words, '--recordings'), value_of(words, '--pictures')
    if pictures:
        os.makedirs(pictures, exist_ok=True)
    room = tempfile.mkdtemp(prefix='pages')
    try:
        tests = PageTests(room, program and os.path.realpath(program), recordings, pictures)
        run(tests, words)
    finally:
        shutil.rmtree(room)
    return tests.told()


if __name__ == '__main__':
    sys.exit(main())
