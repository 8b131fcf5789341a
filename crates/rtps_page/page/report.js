'use strict';
// The recorded part of the page, put in order: rows by topic, endpoints by participant, and what the charts show by pair.

// What rows are, worst first: clean, complete although numbers were lost, or what their verdict is.
const KINDS = ['unfounded', 'conflict', 'open', 'lost', 'clean'];

// How a kind is called on the page. What is complete is said to be so first.
const KIND_WORDS = Object.fromEntries(KINDS.map((kind) => [kind, kind === 'lost' ? `complete, ${kind}` : kind]));

// What became of numbers, and which of them are lost.
const OUTCOMES = ['received', 'arrived', 'likely', 'missed', 'unsent', 'unanswered', 'unconfirmed'];
const LOST = ['missed', 'unsent', 'unanswered'];
// The kinds of lost numbers that are told as ranges, in their order, and their words.
const LOST_WORDS = { missed: 'Missed', unsent: 'Unsent', unanswered: 'Unanswered', not_arrived: 'Not arrived' };

// Topics that each program of ROS 2 has for itself. They stand last among equals.
const PLUMBING = ['ros_discovery_info', 'rt/parameter_events'];

// A string of JSON, or an integer that can pass what a number of JavaScript holds.
const STRING_OR_LARGE = /"(?:[^"\\]|\\.)*"|\d{16,}/g;

const isLarge = (n) => n > Number.MAX_SAFE_INTEGER;

// Whether a number of a row was rounded when it was read. All others that are told as numbers are below one of these.
function isRounded({ number, announced, acknowledged, from }) {
  return isLarge(number) || isLarge(from) || (announced !== null && isLarge(announced.number)) || (acknowledged !== null && isLarge(acknowledged.below));
}

// The report of a text of JSON. Where a number is too large, each such becomes a string of its digits; what stands in a string
// stays as it is.
function reportOf(text) {
  const report = new Report(JSON.parse(text));
  if (!report.isRounded) return report;
  return new Report(JSON.parse(text.replace(STRING_OR_LARGE, (found) => (found[0] === '"' ? found : `"${found}"`))));
}

// Whether a number that stands in no row was rounded.
function isRoundedElsewhere({ options: { from, expect, tail }, best_effort: bestEffort, arrived = [] }) {
  return [from, expect, tail].some(isLarge) || [...bestEffort, ...arrived].some(({ numbers, not_arrived: named = [] }) => [numbers, ...named].some(isLarge));
}

// Compares two integers, each a number, a BigInt or a string of digits.
function compareNumbers(a, b) {
  if (typeof a === 'number' && typeof b === 'number') return a - b;
  const [x, y] = [BigInt(a), BigInt(b)];
  return x < y ? -1 : Number(x > y);
}

const isAbove = (a, b) => compareNumbers(a, b) > 0;

// The sum of integers: a BigInt where one of them, or the sum, may be too large for a number.
function added(a, b) {
  if (b === 0) return a;
  if (typeof a === 'number' && typeof b === 'number' && a + b <= Number.MAX_SAFE_INTEGER) return a + b;
  return BigInt(a) + BigInt(b);
}

// How much one is above another.
const differenceOf = (a, b) => (typeof a === 'number' && typeof b === 'number' ? a - b : BigInt(a) - BigInt(b));

const sumOf = (rows, numberOf) => rows.reduce((sum, row) => added(sum, numberOf(row)), 0);

// An integer as one counts with it: 18,240. Numbers that one looks up, of samples, datagrams and octets, are written plainly.
const counted = (n) => String(n).replace(/\B(?=(\d{3})+$)/g, ',');

// A count and its noun: 1 pair, 2 pairs.
const plural = (n, noun, nouns = `${noun}s`) => `${counted(n)} ${String(n) === '1' ? noun : nouns}`;

// A part and the count of all, where they differ: 2 of 3 pairs.
const partOf = (n, all, noun) => (n === all ? plural(all, noun) : `${counted(n)} of ${plural(all, noun)}`);

// How many numbers are asked about: those from the first one on, up to the last one that is announced.
const askedAbout = ({ payloads, gone, untold }) => added(added(payloads, gone), untold);

// Whether a row is held against another recording.
const isHeld = ({ outcomes: { arrived = null } }) => arrived !== null;

// How many numbers of a row are lost, or look so: of one that is held all that did not arrive.
function lostOf({ outcomes }) {
  const lost = added(added(outcomes.missed, outcomes.unsent), outcomes.unanswered);
  return (outcomes.arrived ?? null) === null ? lost : added(added(lost, outcomes.likely), outcomes.unconfirmed);
}

const prefixOf = (guid) => guid.slice(0, 24);
const entityOf = (guid) => guid.slice(24);

function kindOf({ verdict, clean }) {
  if (clean) return 'clean';
  return verdict === 'complete' ? 'lost' : verdict;
}

// The value of a key in a map, which is made where the map has none.
function entryOf(map, key, made) {
  if (!map.has(key)) map.set(key, made());
  return map.get(key);
}

// What is worse of two rows, or of two topics: what is not clean, then what lost more numbers, then the worse verdict; a topic that
// each program has stands behind others.
function worse(a, b) {
  return Number(a.clean) - Number(b.clean) || compareNumbers(b.lost, a.lost) || a.rank - b.rank || Number(a.isPlumbing) - Number(b.isPlumbing);
}

class Report {
  constructor(data) {
    this.data = data;
    this.rows = data.pairs;
    this.groups = groupsOf(this.rows, data.options.from);
    this.isRounded = isRoundedElsewhere(data) || this.groups.some(({ isRounded }) => isRounded);
    this.acts = new Map(data.writers.map(({ guid, acts }) => [guid, acts]));
    this.endpointOf = new Map(data.endpoints.map((endpoint) => [endpoint.guid, endpoint]));
    this.participants = participantsOf(data);
    this.times = new Map((data.times || []).map((entry) => [entry[0], entry]));
    this.isTimed = data.times !== undefined;
    this.hasSilent = data.participants.some(({ silent }) => silent);
    this.bases = null;
    this.numbered = new Map();
    this.told = new Map();
  }

  // the second of a datagram that a chart has, or undefined where it has none
  secondOf(datagram) {
    return this.times.get(datagram)?.[1];
  }

  // its frame, or undefined
  frameOf(datagram) {
    return this.times.get(datagram)?.[2];
  }

  // What the recording's axis has: seconds, where there are times, or else datagrams.
  axis() {
    this.range ||= this.isTimed ? { word: 's', low: 0, high: this.seconds() } : { word: 'datagram', low: 0, high: this.data.datagrams };
    return this.range;
  }

  // How many seconds the recording has: by its end, or else by the last datagram that is known to have a time.
  seconds() {
    const { begin = null, end = null } = this.data.recording || {};
    const last = this.data.participants.reduce((most, { last_time: time }) => Math.max(most, time || 0), 0);
    return Math.max(last, begin !== null && end !== null ? (end - begin) / 1000 : 0);
  }

  // where a datagram of a chart stands on it; undefined where it has no time
  placeOf(datagram) {
    return this.isTimed ? this.secondOf(datagram) : datagram;
  }

  // where a place stands on it; null where it has no time
  onAxis({ datagram, time = null }) {
    return this.isTimed ? time : datagram;
  }

  // the counts of the recording, as the last line of `audit` has them
  counts() {
    return Object.entries(this.data).filter(([, value]) => typeof value === 'number');
  }

  // what the reader of a row answered, each with its base and the numbers that it asks for; undefined where the page has no room for it
  basesOf({ writer, reader }) {
    this.bases ||= new Map(this.data.answers.map((answer) => [answer.writer + answer.reader, answer.bases]));
    return this.bases.get(writer + reader);
  }

  // what the writer of a row said, to whichever reader
  actsOf({ writer }) {
    return this.acts.get(writer);
  }

  // the first entry that brings each number to the reader of a row, by the number
  sendingsOf({ writer, reader }) {
    const byNumber = entryOf(this.numbered, writer, () => dataByNumber(this.acts.get(writer) || []));
    const to = namesOf(reader);
    return (number) => (byNumber.get(number) || []).find((entry) => to.includes(namedBy(entry)));
  }

  // where the writer of a row first tells of greater and greater numbers, each a datagram and a number; null where it has no chart
  tellingsOf({ writer }) {
    return entryOf(this.told, writer, () => (this.acts.has(writer) ? risingOf(this.acts.get(writer)) : null));
  }

  participantOf(guid) {
    return this.participants.get(prefixOf(guid));
  }

  // that the two ends of a row matched late, or undefined
  lateOf({ writer, reader }) {
    return (this.data.late || []).find((late) => late.writer === writer && late.reader === reader);
  }
}

// The names by which an entry is for a reader: it names nobody, or the reader, its participant or its entity.
const namesOf = (reader) => [undefined, reader, prefixOf(reader), entityOf(reader)];

// How many numbers an entry has behind its kind: one; the first and the last that are gone; of a DATA_FRAG that of its sample, its first fragment,
// and how many fragments.
const NUMBERS_OF = { gone: 2, piece: 3 };
const numbersIn = (what) => NUMBERS_OF[what] || 1;

// Whom an entry names, or undefined.
const namedBy = (entry) => entry[3 + numbersIn(entry[2])];

// Entries by which a writer sends a number: a DATA, and fragments of a sample.
const IS_SENDING = new Set(['data', 'piece']);

function dataByNumber(acts) {
  const found = new Map();
  for (const entry of acts) if (IS_SENDING.has(entry[2])) entryOf(found, entry[3], () => []).push(entry);
  return found;
}

// Of what a writer sends or announces each number that is above all before it.
function risingOf(acts) {
  const steps = [];
  let last = 0;
  for (const [datagram, , what, number] of acts) {
    if (what === 'gone' || number <= last) continue;
    steps.push([datagram, Number(number)]);
    last = number;
  }
  return steps;
}

// What a row has that lost no numbers.
const NO_NUMBERS = Object.freeze({});

// The rows by topic and type, in the order of their first row. Each row gets its place, its kind, how bad it is, and its group. There can be very
// many: all that is said of them together is counted here, so that one goes through them once.
function groupsOf(rows, first) {
  const topics = new Map();
  let group = null;
  for (let at = 0; at < rows.length; at += 1) {
    const row = rows[at];
    if (group === null || row.topic !== group.topic || row.type !== group.type) {
      group = entryOf(entryOf(topics, row.topic, () => new Map()), row.type, () => emptyGroup(row));
    }
    judgeRow(row, at, group);
    addRow(group, row, first);
  }
  const groups = [...topics.values()].flatMap((types) => [...types.values()]);
  groups.forEach((one, at) => Object.assign(one, { at, clean: one.bad === 0 }));
  return groups;
}

function judgeRow(row, at, group) {
  row.at = at;
  row.group = group;
  row.kind = kindOf(row);
  row.rank = KINDS.indexOf(row.kind);
  row.lost = lostOf(row);
  row.isPlumbing = group.isPlumbing;
  row.numbers ||= NO_NUMBERS;
}

// A topic of which no row is known yet. It is as bad as its rows together.
function emptyGroup({ topic, type }) {
  return {
    topic, type, rows: [], bad: 0, lost: 0, rank: KINDS.length, isPlumbing: PLUMBING.includes(topic), isRounded: false, held: [],
    kinds: KINDS.map(() => 0),
    sums: { received: 0, arrived: 0, likely: 0, missed: 0, unsent: 0, unanswered: 0, unconfirmed: 0, before: 0, proved: 0, asked: 0 },
  };
}

function addRow(group, row, first) {
  const { sums } = group;
  group.rows.push(row);
  group.bad += Number(!row.clean);
  group.lost = added(group.lost, row.lost);
  group.rank = Math.min(group.rank, row.rank);
  group.kinds[row.rank] += 1;
  group.isRounded ||= isRounded(row);
  if (isHeld(row)) group.held.push(row);
  addOutcomes(sums, row.outcomes);
  sums.before = added(sums.before, differenceOf(row.from, first));
  sums.proved = added(sums.proved, row.received);
  sums.asked = added(sums.asked, askedAbout(row));
}

// Each by its name, which is quicker than by a list of names.
function addOutcomes(sums, { received, arrived, likely, missed, unsent, unanswered, unconfirmed }) {
  sums.received = added(sums.received, received);
  sums.arrived = added(sums.arrived, arrived || 0);
  sums.likely = added(sums.likely, likely);
  sums.missed = added(sums.missed, missed);
  sums.unsent = added(sums.unsent, unsent);
  sums.unanswered = added(sums.unanswered, unanswered);
  sums.unconfirmed = added(sums.unconfirmed, unconfirmed);
}

// Participants by their prefixes, in order, each with a short name, what it announced, its endpoints and its nodes.
function participantsOf(data) {
  const announced = new Map([...data.endpoints, ...data.participants].map(({ guid }) => [prefixOf(guid), null]));
  for (const participant of data.participants) announced.set(prefixOf(participant.guid), participant);
  const participants = new Map([...announced.keys()].sort().map((prefix, at) => (
    [prefix, { at: at + 1, name: `P${at + 1}`, prefix, announced: announced.get(prefix), endpoints: [], nodes: announced.get(prefix)?.nodes || [] }])));
  for (const endpoint of data.endpoints) participants.get(prefixOf(endpoint.guid)).endpoints.push(endpoint);
  return participants;
}
