'use strict';
// Discovery that is not complete: endpoints that a participant was not told of, participants with two lives, pairs that matched late,
// endpoints that do not match, or that talk all the same, participants that talk one way, topics with one side alone, and pairs that are
// left out. And pairs of best effort, which no verdict is about. Of what the data does not speak nothing is shown.

// So many lines of each are shown at first, and so many more each time.
const TALK_LINES = [10, 200];

function showTalk(report) {
  const section = document.getElementById('talk');
  const { untold = [], lives = [], late = [], unmatched, talking, one_way: oneWay, unobserved } = report.data;
  const alone = aloneTopics(report);
  section.hidden = [untold, lives, late, unmatched, talking, oneWay, alone, unobserved].every((items) => items.length === 0);
  const ends = endsOf(report);
  talkTable(section, 'untold', 'Participants that were not told of endpoints', ['Participant that was not told', 'Whose endpoints', 'Which endpoints'], untold,
    ({ from, to, ...which }) => [endpointName(report, to), endpointName(report, from), untoldLines(report, which)]);
  talkTable(section, 'lives', 'Participants with two lives under one GUID', ['Participant', 'Announced at'], lives,
    ({ participant, address, sent }) => [livingName(report, participant, address), [sent.map(sourceTime).join(' and ')]]);
  talkTable(section, 'late', 'Pairs that matched late', ['Topic', 'Writer', 'Reader', 'Matched'], late,
    (one) => [...ends(one), [lateText(one)]]);
  talkTable(section, 'unmatched', 'Endpoints that do not match', ['Topic', 'Writer', 'Reader', 'What does not fit'], unmatched,
    (one) => [...ends(one), unfitLines(one)]);
  talkTable(section, 'talking', 'Endpoints that would not match by the standard, and talk', ['Topic', 'Writer', 'Reader', 'What does not fit'], talking,
    (one) => [...ends(one), [one.because.map(spaced).join(', ')]]);
  talkTable(section, 'one-way', 'Participants that talk one way', ['Participant that never answers', 'Who names it', 'Datagrams'], oneWay,
    ({ from, to, named }) => [endpointName(report, to), endpointName(report, from), [counted(named)]]);
  showAlone(section, alone);
  showLeftOut(section, unobserved, ends);
}

// The endpoints that a participant was not told of, a line each, and how many more no announcement names.
function untoldLines(report, { writers, readers, unnamed }) {
  const line = (side) => (guid) => {
    const endpoint = report.endpointOf.get(guid);
    return make('div', null, `${side} of `, endpoint ? oneName('b', shownTopic(endpoint.topic)) : guidText(guid));
  };
  return [...writers.map(line('writer')), ...readers.map(line('reader')), isAbove(unnamed, 0) && make('div', null, `${counted(unnamed)} without a name here`)];
}

// A participant with two lives; where no announcement tells its address, that of the data.
function livingName(report, guid, address) {
  const isThere = report.participantOf(guid) !== undefined;
  return [...endpointName(report, guid), !isThere && address !== null && ` at ${address}`];
}

// A source time: a second since the recording began, or, of a clock, a moment.
const sourceTime = (seconds) => (seconds < 1e8 ? `${seconds.toFixed(3)} s` : `${momentText(Math.round(seconds * 1000), 0)} UTC`);

// How much later than both ends were there a pair matched, and where.
const lateText = ({ seconds, matched }) => `${seconds.toFixed(3)} s after both were there, in ${placeText(matched)}`;

// Topics that have writers alone, or readers alone, by name; those of services stand last.
function aloneTopics({ data: { endpoints } }) {
  const topics = new Map();
  for (const { topic, side } of endpoints) entryOf(topics, topic, () => ({ topic, writer: 0, reader: 0 }))[side] += 1;
  const isService = ({ topic }) => /^r[qr]\//.test(topic);
  return [...topics.values()].filter(({ writer, reader }) => writer === 0 || reader === 0)
    .sort((a, b) => Number(isService(a)) - Number(isService(b)) || byText('topic')(a, b));
}

// These, behind one line: how many there are.
function showAlone(section, alone) {
  if (alone.length === 0) return;
  const written = alone.filter(({ reader }) => reader === 0).length;
  const words = [[written, 'no reader'], [alone.length - written, 'no writer']].filter(([count]) => count > 0).map(([count, what]) => `${counted(count)} with ${what}`);
  section.append(makeFold({ class: 'talk-fold' }, [make('b', null, plural(alone.length, 'topic with one side alone', 'topics with one side alone')), `: ${words.join(', ')}`], () => {
    const part = make('div', null);
    talkTable(part, 'alone', null, ['Topic', 'Writers', 'Readers'], alone, ({ topic, writer, reader }) => [topicName(topic), [counted(writer)], [counted(reader)]]);
    return [part];
  }));
}

// The parts of what has a topic, a writer and a reader.
const endsOf = (report) => ({ topic, writer, reader }) => (
  [[oneName('b', shownTopic(topic))], endpointBriefly(report, writer), endpointBriefly(report, reader)]);

// Pairs that are left out, behind one line: how many, and why.
function showLeftOut(section, unobserved, ends) {
  if (unobserved.length === 0) return;
  const reasons = new Map();
  for (const { because } of unobserved) reasons.set(because, (reasons.get(because) || 0) + 1);
  const why = [...reasons].map(([because, count]) => `${counted(count)} ${because}`).join(', ');
  section.append(makeFold({ class: 'talk-fold' }, [make('b', null, `${plural(unobserved.length, 'pair')} ${unobserved.length === 1 ? 'is' : 'are'} left out`), `: ${why}`], () => {
    const part = make('div', null);
    talkTable(part, 'unobserved', null, ['Topic', 'Writer', 'Reader', 'Why'], unobserved, (one) => [...ends(one), [one.because]]);
    return [part];
  }));
}

function showBestEffort(report) {
  const section = document.getElementById('best-effort');
  const { best_effort: bestEffort, arrived = [] } = report.data;
  const lacking = arrived.filter(({ not_arrived: named }) => named.length > 0).sort(byText('topic'));
  const ends = endsOf(report);
  section.hidden = bestEffort.length === 0 && lacking.length === 0;
  talkTable(section, 'best-effort', null, ['Topic', 'Pairs', 'Numbers in this recording'], bestEffort,
    ({ topic, pairs, numbers, recorded }) => [[oneName('b', shownTopic(topic))], [counted(pairs)], [`${counted(recorded)} of ${counted(numbers)}`]]);
  talkTable(section, 'not-arrived', lackingHead(lacking), ['Topic', 'Writer', 'Reader', 'Numbers at the reader’s host'], lacking,
    (one) => [...ends(one), [`arrived ${counted(one.arrived)} of ${counted(one.numbers)}, not ${listed(one.not_arrived, lackingOf(one))}`]]);
}

// How many numbers of a pair of best effort did not arrive, by another recording.
const lackingOf = ({ numbers, arrived }) => BigInt(numbers) - BigInt(arrived);
const lackingHead = (pairs) => `${plural(sumOf(pairs, lackingOf), 'number')} of ${plural(pairs.length, 'best-effort pair')} did not arrive`;

const spaced = (policy) => policy.replaceAll('_', ' ');

// The policies for which a writer and a reader do not match, each with what is offered and what is asked for.
function unfitLines({ because, offered, requested }) {
  return because.map((policy, at) => {
    const [offer, request] = [offered[at], requested[at]].map((text) => (policy === 'type' && rosType(text)) || text);
    return make('div', null, `${spaced(policy)}: offers ${offer}; asks for ${request}`);
  });
}

// What a table is of that has no head of its own.
const CAPTIONS = { alone: 'Topics with one side alone', unobserved: 'Pairs that are left out', 'best-effort': 'Pairs of best effort' };

// A table of items below a head; nothing where there is none. The first cell of a line is the head of the line.
function talkTable(section, name, head, heads, items, cellsOf) {
  if (items.length === 0) return;
  const body = make('tbody', null);
  const table = make('table', { class: `talk ${name}` }, make('caption', { class: 'hidden' }, head ?? CAPTIONS[name]), tableHead(...heads), body);
  const part = make('div', { class: 'talk-part' }, head !== null && make('h3', null, head), make('div', { class: 'wide' }, table));
  section.append(part);
  inParts(part, 'line', items, TALK_LINES, (some) => {
    const rows = some.map((item) => make('tr', { tabindex: '-1' },
      ...cellsOf(item).map((cell, at) => make(at === 0 ? 'th' : 'td', at === 0 ? { scope: 'row' } : null, ...cell))));
    body.append(...rows);
    return rows;
  });
}
