'use strict';
// What happened: the events of the report, worst first, each with its pairs by topic; and the other pairs for which something is to be done.

// So many lines of an event are shown at first, and so many more each time; and so many events.
const EVENT_LINES = [8, 200];
const EVENTS_SHOWN = [6, 50];
// So many pairs are named of those that stand in one line.
const NAMED_PAIRS = 3;

// The rows for which something is to be done, by topic and advice: worst first, then those of most rows.
function topicLines(rows) {
  const lines = new Map();
  for (const row of rows) {
    if (row.advice !== null) entryOf(entryOf(entryOf(lines, row.group, newMap), row.kind, newMap), row.advice, () => []).push(row);
  }
  return [...lines.values()].flatMap((kinds) => [...kinds.values()]).flatMap((found) => [...found.values()]).map(weighed)
    .sort((one, other) => worse(one, other) || other.rows.length - one.rows.length || one.rows[0].at - other.rows[0].at).map((line) => line.rows);
}

const newMap = () => new Map();

// The rows of a line, and how bad they are together.
const weighed = (rows) => ({ rows, clean: rows[0].clean, rank: rows[0].rank, isPlumbing: rows[0].isPlumbing, lost: sumOf(rows, ({ lost }) => lost) });

// The events, each with its rows, and behind them the rows that stand in none. Where the data tells no events, these are all.
function eventsOf({ data, rows }) {
  const events = (data.events || []).map(({ text, pairs }) => ({ text, rows: pairs.map((at) => rows[at]) }));
  const told = new Set(events.flatMap((event) => event.rows));
  const others = rows.filter((row) => row.advice !== null && !told.has(row));
  const head = events.length > 0 && others.length > 0 ? 'Other pairs to look at' : null;
  return others.length > 0 ? [...events, { text: head, rows: others }] : events;
}

function showHappened(report, section) {
  const events = eventsOf(report);
  section.hidden = events.length === 0 && report.rows.length > 0;
  if (report.rows.length === 0) section.append(noPairPart());
  if (events.length === 0) return;
  const list = make('div', { class: 'events' });
  section.append(list);
  inParts(section, 'event', events, EVENTS_SHOWN, (some) => {
    const shown = some.map((event) => eventPart(report, event));
    list.append(...shown);
    return shown;
  });
}

// Where there is no pair, the first lines of the text: that there is none, and why, or what to do.
function noPairPart() {
  const [what, ...why] = firstLines();
  return make('div', { class: 'event no-pair' }, make('h3', null, what), ...why.map((line) => make('p', { class: 'advice' }, line)));
}

function eventPart(report, { text, rows }) {
  const body = make('tbody', null);
  const head = text === null ? null : `${text[0].toUpperCase()}${text.slice(1)}`;
  const part = make('div', { class: 'event', tabindex: '-1' }, head !== null && make('h3', null, head),
    make('table', { class: 'topics' }, make('caption', { class: 'hidden' }, head ?? 'Topics with something to look at'), tableHead('Topic', 'What happened', 'What to do'), body));
  inParts(part, 'line', topicLines(rows), EVENT_LINES, (some) => {
    const shown = some.map((line) => topicLine(report, line));
    body.append(...shown);
    return shown;
  });
  return part;
}

// A line of rows of one topic. Of several rows the first is told as an example.
function topicLine(report, rows) {
  const [first] = rows;
  const { topic, rows: all } = first.group;
  const links = rows.slice(0, NAMED_PAIRS).map((row) => make('li', null, pairLink(report, row)));
  return make('tr', { class: first.kind, tabindex: '-1' },
    make('th', { scope: 'row' }, oneName('b', shownTopic(topic)), make('div', { class: 'type' }, oneName('span', rosType(first.type) || first.type))),
    make('td', null, make('p', null, badge(first.kind, KIND_WORDS[first.kind]), ` ${counted(rows.length)} of ${plural(all.length, 'pair')}`, ...lineCounts(rows)),
      make('p', null, rows.length > 1 && `Pair ${first.at + 1}: `, verdictSentence(first)),
      make('ul', { class: 'which' }, ...links, rows.length > NAMED_PAIRS && make('li', null, `and ${counted(rows.length - NAMED_PAIRS)} more`))),
    make('td', { class: 'advice' }, first.advice));
}

// How many numbers of each kind its rows lost.
function lineCounts(rows) {
  const held = rows.filter(isHeld);
  const losing = rows.filter(({ lost }) => lost !== 0);
  const counts = held.length > 0 ? [['not arrived', sumOf(held, lostOf)]] : LOST.map((kind) => [kind, sumOf(losing, ({ outcomes }) => outcomes[kind])]);
  return counts.filter(([, count]) => isAbove(count, 0)).flatMap(([kind, count]) => [' ', badge('missed', `${kind} ${counted(count)}`)]);
}

function pairLink(report, row) {
  return make('a', { href: `#pair-${row.at + 1}` }, `pair ${row.at + 1}`,
    make('span', { class: 'ends' }, `: ${endText(report, row.writer, row.writer_node)} to ${endText(report, row.reader, row.reader_node)}`));
}
