'use strict';
// Participants, a line each, with their writers and readers behind it, and the pairs of the report that each is in.

// So many participants are shown at first, and so many more each time.
const PARTICIPANT_LINES = [20, 200];

class Participants {
  constructor(report) {
    const section = document.getElementById('participants');
    this.list = [...report.participants.values()];
    this.showAtLeast = () => {};
    const { length } = this.list;
    section.append(make('p', { class: 'hint' }, length === 0
      ? 'None is announced.'
      : `${plural(length, 'participant')}, mostly one process each, with ${plural(report.data.endpoints.length, 'endpoint')}. Each opens to its endpoints.`));
    if (length === 0) return;
    const place = make('div', { class: 'participants' });
    section.append(place);
    const pairsOf = memo(() => pairsByEnd(report));
    this.showAtLeast = inParts(section, 'participant', this.list, PARTICIPANT_LINES, (some) => {
      const folds = some.map((participant) => participantFold(report, participant, pairsOf));
      place.append(...folds);
      return folds.map((fold) => fold.querySelector('summary'));
    });
  }

  // Shows the participant of an address, and opens it.
  goTo(at) {
    if (at > this.list.length) return;
    this.showAtLeast(at);
    const fold = document.getElementById(`participant-${at}`);
    openFold(fold);
    fold.scrollIntoView();
    fold.querySelector('summary').focus({ preventScroll: true });
  }
}

function pairsByEnd({ rows }) {
  const pairsOf = new Map();
  for (const row of rows) for (const guid of [row.writer, row.reader]) entryOf(pairsOf, guid, () => []).push(row);
  return pairsOf;
}

function participantFold(report, participant, pairsOf) {
  return makeFold({ class: 'participant', id: `participant-${participant.at}` }, participantLine(participant), () => participantBody(report, participant, pairsOf()));
}

function participantLine(participant) {
  const { name, nodes, announced, endpoints } = participant;
  const [title, where] = [titleOf(participant), whereOf(participant)];
  return [make('b', { class: 'name' }, name), title && make('span', { class: 'node' }, nodes.length > 1 ? nodesText({ nodes }, NAMED_NODES) : title),
    make('span', { class: 'host' }, where || (announced === null ? 'its own announcement is not in the recording' : 'no address')),
    make('span', { class: 'life' }, [plural(endpoints.length, 'endpoint'), ...lifeText(announced)].join(', '))];
}

// From when to when it is heard of, and how it ends.
function lifeText(announced) {
  if (announced === null || announced.first === null) return [];
  const { first, last, left, silent, first_time: from = null, last_time: to = null } = announced;
  const moment = (datagram, time) => (time === null ? `datagram ${datagram}` : `${time.toFixed(3)} s`);
  return [`${moment(first, from)} to ${moment(last, to)}`, ...(left !== null ? ['left'] : []), ...(silent ? ['silent since'] : [])];
}

function participantBody(report, participant, pairsOf) {
  const { prefix, announced, endpoints } = participant;
  const ordered = [...endpoints].sort((a, b) => byText('side')(b, a) || byText('topic')(a, b));
  const lines = ordered.map((endpoint) => endpointRow(report, endpoint, pairsOf.get(endpoint.guid) || []));
  const { name = null, enclave = null, domain = null } = announced || {};
  const words = [name !== null && `name ${name}`, enclave !== null && `enclave ${enclave}`, domain !== null && `domain ${domain}`].filter(Boolean).join(', ');
  return [make('p', { class: 'hint' }, 'GUID prefix ', make('code', { class: 'guid' }, prefix), words && `, ${words}`),
    endpoints.length === 0 ? make('p', null, 'It announced no endpoint.') : make('div', { class: 'wide' }, make('table', { class: 'endpoints' },
      make('caption', { class: 'hidden' }, `Endpoints of ${participant.name}`), tableHead('Endpoint', 'Topic', 'QoS', 'Pairs of this report'), make('tbody', null, ...lines)))];
}

function endpointRow(report, endpoint, rows) {
  const links = rows.slice(0, NAMED_PAIRS).flatMap((row, at) => [at > 0 && ', ', pairLink(report, row)]);
  const pairs = rows.length === 0 ? 'in no pair' : [...links, rows.length > NAMED_PAIRS && ` and ${counted(rows.length - NAMED_PAIRS)} more`];
  return make('tr', rows.length > 0 ? null : { class: 'unpaired' },
    make('th', { scope: 'row' }, endpoint.side, ' ', make('code', { class: 'guid' }, endpoint.guid.slice(25))),
    make('td', null, make('div', null, ...topicName(endpoint.topic)), make('div', { class: 'type' }, ...typeName(endpoint.type))),
    make('td', null, `${endpoint.reliability}, ${endpoint.durability}`),
    make('td', { class: 'in-pairs' }, pairs));
}
