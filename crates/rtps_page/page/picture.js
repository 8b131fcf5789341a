'use strict';
// One picture of the whole recording: a strip for each topic, all on one axis, with what is lost and which readers come and go.

// So many topics have a strip.
const MOST_STRIPS = 20;
// How high a strip is, and how wide a column, in pixels. What falls on one column is one mark.
const STRIP_HEIGHT = 32;
const COLUMN = 2;
const LEAST_BAND = 3;
// At most so many marks of a topic are drawn, and so many of its numbers are looked up.
const MOST_MARKS = 2000;
const MOST_LOOKED_UP = 20000;
// Samples that are nearer to each other than so many pixels are one band.
const BAND_GAP = 8;

// The form of a mark of each kind, in the column that begins at x. No two have the same form.
const MARK_FORMS = {
  joins: (x) => `M${x + 1} 23l4 8h-8z`,
  leaves: (x) => `M${x + 1} 31l4-8h-8z`,
  silent: (x) => `M${x - 2.5} 24h7v7h-7z`,
  missed: (x) => `M${x - 0.5} 1h3v20h-3z`,
  unsent: (x) => `M${x - 1.5} 2h5v18h-5z`,
  unanswered: (x) => `M${x - 0.5} 11h3v10h-3z`,
  not_arrived: (x) => `M${x - 3} 5l8 13m0-13l-8 13`,
};
// Where the sign of a kind begins that does not stand at the top of a strip.
const SIGN_TOPS = { joins: 16, leaves: 16, silent: 16, unanswered: 5 };
const MARK_WORDS = {
  missed: 'missed', unsent: 'unsent', unanswered: 'unanswered', not_arrived: 'not arrived', joins: 'a reader joins', leaves: 'a reader leaves',
  silent: 'a participant falls silent',
};

// The topics that have a strip, the worst first.
const pictured = (report) => [...report.groups].sort((a, b) => worse(a, b) || a.at - b.at);

class Picture {
  constructor(report, section) {
    Object.assign(this, { report, section, axis: report.axis(), groups: pictured(report).slice(0, MOST_STRIPS), width: 0 });
    section.hidden = report.groups.length === 0;
    if (section.hidden) return;
    this.strips = this.groups.map((group) => ({ group, ...stripPoints(report, group), place: drawn('svg', { class: 'strip-picture', 'aria-hidden': 'true' }) }));
    this.scale = drawn('svg', { class: 'strip-axis', 'aria-hidden': 'true' });
    this.build();
    new ResizeObserver(() => this.draw()).observe(this.scale);
  }

  build() {
    const { report, groups, strips } = this;
    const more = report.groups.length - groups.length;
    const kinds = Object.keys(MARK_WORDS).filter((kind) => strips.some(({ points }) => points[kind].length > 0));
    this.section.append(
      make('p', { class: 'hint' }, `Each strip is a topic with reliable pairs, the worst first${more > 0 ? `; ${plural(more, 'more topic')} of less weight ${more === 1 ? 'has' : 'have'} none` : ''}. `
        + `To the right runs the recording, in ${this.axis.word === 's' ? 'seconds' : 'datagrams'}. A lost number stands where it was first sent, or, where it never was, where the writer first told of it. A strip leads to its pairs.`),
      pictureLegend(kinds),
      make('div', { class: 'strips' }, ...strips.map((strip) => this.strip(strip)),
        make('div', { class: 'strip axis-line' }, make('span', { class: 'strip-name' }, this.axis.word === 's' ? 'seconds' : 'datagrams'), this.scale, make('span', { class: 'strip-words' }))));
  }

  strip({ group, place, points }) {
    const said = stripWords(group, points);
    return make('a', { class: `strip${group.clean ? '' : ' bad'}`, href: `#topic-${group.at + 1}` },
      make('span', { class: 'strip-name' }, shownTopic(group.topic)), place,
      make('span', { class: 'strip-words' }, ...said));
  }

  // Draws all anew, where the width has changed.
  draw() {
    const width = this.scale.clientWidth;
    if (width === 0 || width === this.width) return;
    this.width = width;
    const marks = ticks(this.axis.low, this.axis.high, Math.max(2, width / 110), this.axis.word === 's' ? 0.001 : 1);
    const grid = marks.map((x) => `M${Math.round(this.pixel(x)) + 0.5} 0V${STRIP_HEIGHT}`).join('');
    for (const strip of this.strips) this.drawStrip(strip, grid);
    fitTo(this.scale, width, 18);
    this.scale.replaceChildren(...marks.map((x) => this.tick(x)));
  }

  pixel(x) {
    const { low, high } = this.axis;
    return 6 + (x - low) / Math.max(high - low, 0.001) * (this.width - 12);
  }

  tick(x) {
    const at = this.pixel(x);
    const anchor = at < 20 ? 'start' : at > this.width - 24 ? 'end' : 'middle';
    return drawn('text', { x: anchor === 'start' ? 0 : Math.min(at, this.width), y: 13, 'text-anchor': anchor }, this.axis.word === 's' ? shortSecond(x) : shortNumber(x));
  }

  drawStrip({ place, points, samples, spans }, grid) {
    fitTo(place, this.width, STRIP_HEIGHT);
    const columns = (values) => [...new Set(values.map((x) => Math.floor(this.pixel(x) / COLUMN) * COLUMN))].sort((a, b) => a - b);
    const band = [...bandRuns(columns(samples)), ...spans.map(([from, to]) => [this.pixel(from), this.pixel(to)])];
    place.replaceChildren(
      drawn('path', { class: 'grid', d: grid }),
      drawn('path', { class: 'samples', d: band.map(([from, to]) => `M${from} 8h${Math.max(LEAST_BAND, to - from)}v8H${from}z`).join('') }),
      ...Object.entries(MARK_FORMS).map(([kind, form]) => drawn('path', { class: `mark ${kind}`, d: columns(points[kind]).slice(0, MOST_MARKS).map(form).join('') })));
  }
}

function fitTo(picture, width, height) {
  for (const [name, value] of Object.entries({ viewBox: `0 0 ${width} ${height}`, preserveAspectRatio: 'none' })) picture.setAttribute(name, value);
}

// Columns that lie near each other, as runs from the first to behind the last.
function bandRuns(columns) {
  const runs = [];
  for (const x of columns) {
    const last = runs[runs.length - 1];
    if (last && x - last[1] <= BAND_GAP) last[1] = x + COLUMN;
    else runs.push([x, x + COLUMN]);
  }
  return runs;
}

// What is lost of a topic, in words; else that nothing is.
function stripWords(group, points) {
  const kinds = LOST_KINDS.map((kind) => [kind, lostCount(group, kind)]).filter(([, count]) => isAbove(count, 0));
  const words = kinds.map(([kind, count]) => make('b', { class: 'lost-words' }, `${counted(count)} ${MARK_WORDS[kind]}`)).flatMap((word, at) => (at > 0 ? [', ', word] : [word]));
  const unsent = points.neverSent > 0 && `, ${counted(points.neverSent)} of them never sent here`;
  return words.length > 0 ? [...words, unsent] : [group.clean ? 'clean' : 'not clean'];
}

const LOST_KINDS = ['missed', 'unsent', 'unanswered', 'not_arrived'];

// How many numbers of a kind a topic has; what did not arrive is told of rows that are held, and no other kind of these.
function lostCount({ sums, held }, kind) {
  if (kind === 'not_arrived') return sumOf(held, lostOf);
  return differenceOf(sums[kind], sumOf(held, ({ outcomes }) => outcomes[kind]));
}

// ---- where what a strip shows stands on the axis

function stripPoints(report, group) {
  const points = Object.fromEntries(Object.keys(MARK_FORMS).map((kind) => [kind, []]));
  const left = { numbers: MOST_LOOKED_UP };
  points.neverSent = 0;
  for (const row of group.rows) {
    if (row.lost !== 0) addLost(report, row, points, left);
    addReader(report, row, points);
  }
  return { points, samples: samplesOf(report, group), spans: spansOf(report, group) };
}

// Where the numbers of a row that are lost were sent first: each of a range, where the chart of the row has them, or else the first. Those that
// were never sent stand where the writer first told of them. That unsent numbers were not is known by their word.
function addLost(report, row, points, left) {
  const sendings = report.sendingsOf(row);
  for (const kind of LOST_KINDS.filter((kind) => row.numbers[kind] && (kind === 'not_arrived' || !isHeld(row)))) {
    for (const range of row.numbers[kind].ranges) {
      const places = range.sent ? sentPlaces(report, range, sendings, left) : toldPlaces(report, row, range, left);
      if (!range.sent && kind !== 'unsent') points.neverSent += Number(range.last) - Number(range.first) + 1;
      for (const x of places) if (x !== null && x !== undefined) points[kind].push(x);
    }
  }
}

function sentPlaces(report, { first, last, sent }, sendings, left) {
  const place = report.onAxis(sent);
  const found = [place];
  for (let number = first + 1; number <= last && left.numbers > 0; number += 1) {
    const entry = sendings(number);
    left.numbers -= 1;
    if (entry) found.push(report.placeOf(entry[0]) ?? place);
  }
  return found;
}

// By what its writer says, where the page has that; else by the place at which the row says that the last number is announced.
function toldPlaces(report, row, { first, last }, left) {
  const told = report.tellingsOf(row);
  if (told === null) return [row.announced ? report.onAxis(row.announced) : null];
  const found = [];
  for (let number = Number(first); number <= Number(last) && left.numbers > 0; number += 1) {
    left.numbers -= 1;
    const entry = firstFrom(told, number);
    if (entry) found.push(report.placeOf(entry[0]));
  }
  return found;
}

// The first of rising steps, each a datagram and a number, that has a number or a greater one.
function firstFrom(steps, number) {
  let [low, high] = [0, steps.length];
  while (low < high) {
    const middle = (low + high) >> 1;
    if (steps[middle][1] >= number) high = middle;
    else low = middle + 1;
  }
  return steps[low];
}

// Where its reader joins, leaves, and where a participant of its two falls silent.
function addReader(report, row, points) {
  const joined = report.data.joined?.[row.at];
  if (joined) addPoint(points.joins, report.isTimed ? joined[2] : joined[0]);
  if (row.until !== null) addPoint(points.leaves, report.onAxis({ datagram: row.until, time: row.until_time }));
  for (const guid of report.hasSilent ? [row.reader, row.writer] : []) {
    const announced = report.participantOf(guid)?.announced;
    if (announced?.silent) addPoint(points.silent, report.onAxis({ datagram: announced.last, time: announced.last_time }));
  }
}

// A place that is on the axis.
function addPoint(points, x) {
  if (x !== null && x !== undefined) points.push(x);
}

// Where samples of a topic are sent, by the writers that have a chart.
function samplesOf(report, { rows }) {
  const writers = [...new Set(rows.map(({ writer }) => writer))].filter((writer) => report.acts.has(writer));
  return writers.flatMap((writer) => report.acts.get(writer).filter(([, , what]) => IS_SENDING.has(what)).map(([datagram]) => report.placeOf(datagram)))
    .filter((x) => x !== undefined);
}

// From where to where those are heard of that have none, as far as their rows tell.
function spansOf(report, { rows }) {
  const spans = new Map();
  let [writer, span] = [null, null];
  for (const row of rows) {
    // Rows of one writer mostly stand together.
    if (row.writer !== writer) {
      writer = row.writer;
      span = report.acts.has(writer) ? null : entryOf(spans, writer, () => [Infinity, -Infinity]);
    }
    if (span !== null) widen(span, report, row);
  }
  return [...spans.values()].filter(([from, to]) => from <= to);
}

// A span, so that the places of a row lie in it.
function widen(span, report, { announced, told, claimed, acknowledged }) {
  for (const place of [announced, told, claimed, acknowledged]) {
    const x = place ? report.onAxis(place) : null;
    if (x === null) continue;
    span[0] = Math.min(span[0], x);
    span[1] = Math.max(span[1], x);
  }
}

// Each sign stands in the middle of its line.
function pictureLegend(kinds) {
  const sign = (top, shape) => drawn('svg', { viewBox: `0 ${top} 24 22`, width: '20', height: '18', 'aria-hidden': 'true' }, shape);
  return make('ul', { class: 'legend' }, make('li', null, sign(1, drawn('path', { class: 'samples', d: 'M1 8h22v8H1z' })), 'samples'),
    ...kinds.map((kind) => make('li', null, sign(SIGN_TOPS[kind] || 0, drawn('path', { class: `mark ${kind}`, d: MARK_FORMS[kind](11) })), MARK_WORDS[kind])));
}
