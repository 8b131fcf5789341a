'use strict';
// What is told of the pair that is chosen.

// So many pairs that are not clean are opened on paper.
const MOST_PRINTED = 40;

// The chart in sight, so that it can be drawn again when the colours change; and all that are, as on paper.
let chartInSight = null;
let charts = [];

function pairDetail(report, row) {
  return make('div', { class: 'detail-body' },
    make('div', { class: 'detail-words' },
      make('h3', null, `Pair ${row.at + 1}: `, shownTopic(row.topic)),
      make('dl', { class: 'ends-list' }, ...endParts(report, 'Writer', row.writer, row.writer_node), ...endParts(report, 'Reader', row.reader, row.reader_node)),
      make('p', { class: 'lead' }, verdictSentence(row)),
      ...manyRanges(row),
      row.advice !== null && make('p', { class: 'advice' }, row.advice),
      make('h4', null, 'What it rests on'),
      make('ul', { class: 'rests-on' }, ...[...evidenceSentences(row), ...lateSentences(report.lateOf(row))].map((sentence) => make('li', null, sentence))),
      makeFold({ class: 'names' }, ['GUIDs and names of DDS'], () => [nameList(row)]),
      placeHelp(row)),
    make('div', { class: 'detail-chart' }, chartOf(report, row)));
}

function endParts(report, side, guid, node) {
  const [endpoint, participant] = [report.endpointOf.get(guid), report.participantOf(guid)];
  return [make('dt', null, side), make('dd', null, ...endpointName(report, guid, node),
    endpoint && make('span', { class: 'qos' }, `, ${endpoint.reliability}, ${endpoint.durability}`),
    participant && make('div', { class: 'qos' }, topicsText(participant)))];
}

function nameList({ topic, type, writer, reader }) {
  const name = (text) => make('code', { class: 'name' }, text);
  return make('dl', { class: 'ends-list' }, ...[['Topic', name(topic)], ['Type', name(type)], ['Writer', guidText(writer)], ['Reader', guidText(reader)]]
    .flatMap(([word, text]) => [make('dt', null, word), make('dd', null, text)]));
}

// Behind the first ranges of lost numbers all that the page has, where there are more.
function manyRanges({ numbers }) {
  return Object.keys(LOST_WORDS).filter((kind) => numbers[kind]?.ranges.length > LOST_TOLD).map((kind) => {
    const { ranges, more } = numbers[kind];
    return makeFold({ class: 'ranges' }, [`All ranges of ${LOST_WORDS[kind].toLowerCase()} numbers`], () => [
      make('p', null, `${ranges.map(rangeText).join(', ')}${more > 0 ? `, and ${counted(more)} more ranges` : ''}.`)]);
  });
}

// How a place is found: in the words of the first one that the row has.
function placeHelp(row) {
  const place = row.claimed || row.acknowledged || row.announced;
  if (!place) return null;
  return make('p', { class: 'hint' }, `An octet is counted from 0 in the UDP payload. “rtps-audit show” prints datagram ${place.datagram}, and `
    + `a line for each submessage in it with its octet, such as ${place.at}.`);
}

function chartOf(report, row) {
  chartInSight = report.basesOf(row) ? new Chart(report, row) : null;
  if (chartInSight) charts.push(chartInSight);
  if (chartInSight) return chartInSight.element;
  return make('p', { class: 'no-chart' }, 'The chart of this pair was left out: a page has room for 200,000 acts and answers, and other pairs '
    + 'came first. A recording of fewer participants brings it: cut one by tshark, so that all traffic of some participants stays (the guide, '
    + 'section 7, “Larger recordings”, says how).');
}

function forgetCharts() {
  [chartInSight, charts] = [null, []];
}

const redrawChart = () => charts.forEach((chart) => chart.draw());
