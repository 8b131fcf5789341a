'use strict';
// The head of the page: which recording it is of, the outcome and its reasons, and the hosts; and what weakens the report, and the counts.

// So many hosts are named, and so many nodes of each.
const NAMED_HOSTS = 12;
const NAMED_NODES = 16;

function showHead(report) {
  const { data } = report;
  const at = (id) => document.getElementById(id);
  const { name = null, version = null } = data.recording || {};
  fill(at('program'), `rtps-audit${version === null ? '' : ` ${version}`}, a report of `, askedText(data));
  fill(at('name'), name === null ? 'A recording' : name === '-' ? 'Standard input (-)' : name);
  fill(at('when'), ...whenParts(report));
  showOutcome(data.because.length === 0);
  fill(at('received'), receivedSentence(report));
  fill(at('because'), ...data.because.map((reason) => make('li', null, reason)));
  at('because').hidden = data.because.length === 0;
  showHosts(report, at('hosts'));
  at('arrived').hidden = !data.arrived;
}

// The options that were given, as on the command line.
function askedText({ options, arrived }) {
  const words = [
    options.from !== 1 && `--from ${options.from}`,
    ...options.topics.map((pattern) => `--topic '${pattern}'`),
    ...(options.nodes || []).map((pattern) => `--node '${pattern}'`),
    options.expect !== null && `--expect ${options.expect}`,
    options.tail !== 0 && `--tail ${options.tail}`,
    options.certain && '--certain',
    arrived && '--arrived OTHER',
  ].filter(Boolean);
  const numbers = options.from === 1 ? 'all numbers' : `the numbers from ${options.from} on`;
  return words.length === 0 ? [`${numbers}, without options`] : [`${numbers}, with `, make('code', null, words.join(' '))];
}

// ---- when it was made

const padded = (n, size = 2) => String(n).padStart(size, '0');

// A moment, of which so many minutes are added to universal time: 2026-11-28 14:03:22.125.
function momentText(milliseconds, minutes) {
  const moment = new Date(milliseconds + minutes * 60000);
  return `${padded(moment.getUTCFullYear(), 4)}-${padded(moment.getUTCMonth() + 1)}-${padded(moment.getUTCDate())} ${padded(moment.getUTCHours())}:`
    + `${padded(moment.getUTCMinutes())}:${padded(moment.getUTCSeconds())}.${padded(moment.getUTCMilliseconds(), 3)}`;
}

// Begin and end, here and in universal time; the second day is left out where it is the first.
function spanText(begin, end, minutesAt) {
  const [from, to] = [begin, end].map((moment) => momentText(moment, minutesAt(moment)));
  return `${from} to ${to.slice(0, 10) === from.slice(0, 10) ? to.slice(11) : to}`;
}

// How far the time of this place is ahead of universal time, in minutes, and how that is written.
const minutesHere = (moment) => -new Date(moment).getTimezoneOffset();
const offsetText = (minutes) => `UTC${minutes < 0 ? '−' : '+'}${padded(Math.floor(Math.abs(minutes) / 60))}:${padded(Math.abs(minutes) % 60)}`;

// A length in words: 14.078 s, 3 min 20.100 s.
function lengthText(milliseconds) {
  const [minutes, left] = [Math.floor(milliseconds / 60000), milliseconds % 60000];
  return `${minutes > 0 ? `${counted(minutes)} min ` : ''}${(left / 1000).toFixed(3)} s`;
}

function whenParts(report) {
  const { begin = null, end = null } = report.data.recording || {};
  const size = `${plural(report.data.datagrams, 'datagram')}`;
  if (begin === null || end === null) return [report.isTimed ? `${report.seconds().toFixed(3)} s, ${size}` : size];
  const here = minutesHere(begin);
  const universal = `${spanText(begin, end, () => 0)} UTC`;
  return [make('b', null, lengthText(end - begin)), `, ${size}, `,
    here === 0 ? universal : `${spanText(begin, end, minutesHere)} ${offsetText(here)} (${universal})`];
}

// ---- the outcome

// The lines in front of the first empty one, without what marks them in a text.
const firstLines = () => document.querySelector('#text pre').textContent.split('\n\n')[0].split('\n').map((line) => line.replace(/^ *(-> )?/, '')).filter(Boolean);

// ---- hosts

// The participants by their host, or else by their address, in the order of the first of each.
function hostsOf(report) {
  const hosts = new Map();
  for (const participant of report.participants.values()) {
    const { host = null, address = null } = participant.announced || {};
    const found = entryOf(hosts, host ?? address ?? '', () => ({ host, addresses: new Set(), nodes: new Set(), participants: 0 }));
    if (address !== null) found.addresses.add(address);
    participant.nodes.forEach((node) => found.nodes.add(node));
    found.participants += 1;
  }
  return [...hosts.values()];
}

function showHosts(report, place) {
  const hosts = hostsOf(report);
  place.hidden = hosts.length === 0;
  fill(place, ...hosts.slice(0, NAMED_HOSTS).map((host) => make('li', null, ...hostParts(host))),
    hosts.length > NAMED_HOSTS && make('li', null, `and ${plural(hosts.length - NAMED_HOSTS, 'more host')}`));
}

function hostParts({ host, addresses, nodes, participants }) {
  const names = [...addresses].join(', ');
  const name = host === null ? names || 'no host and no address announced' : host;
  return [make('b', null, name), host !== null && names && ` (${names})`, `: ${plural(participants, 'participant')}`,
    nodes.size > 0 && `, ${nodes.size === 1 ? 'node' : 'nodes'} ${nodesText({ nodes: [...nodes] }, NAMED_NODES)}`];
}

// ---- what weakens the report, and the counts

// A note says what there is, and behind an arrow what to do.
function showNotes({ data: { notes } }) {
  const section = document.getElementById('notes');
  section.hidden = notes.length === 0;
  section.append(make('ul', { class: 'notes' }, ...notes.map((note) => {
    const [what, ...todo] = note.split(' -> ');
    return make('li', null, make('b', null, what), ...todo.map((words) => make('span', { class: 'todo' }, words)));
  })));
}

// What each count of the recording counts.
const MEANINGS = {
  datagrams: 'datagrams in the recording',
  refused: 'malformed datagrams, also those of one octet or none; what stands before the fault is used',
  skipped: 'submessages that are not read: padding, vendors’ own, security',
  fragments: 'submessages of fragmented samples that were not read as samples',
  undirected: 'ACKNACKs that name no participant as destination',
  unsettled: 'endpoints whose announcements by discovery differ',
  ignored: 'frames of the capture that gave no datagram',
  pieces: 'ignored frames that are pieces of packets that never came whole',
  cut: 'ignored frames whose captured octets end too early',
  other: 'ignored frames that carry no UDP over IP',
  links: 'ignored frames of links that are not read',
  wrong_way: 'pairs of which the two recordings are the wrong way round',
};

function showCounts(report) {
  document.getElementById('counts').append(make('dl', { class: 'counts' }, ...report.counts().map(([name, n]) => make('div', null,
    make('dt', null, name.replaceAll('_', ' ')), make('dd', { class: 'count' }, counted(n)), make('dd', null, MEANINGS[name] || '')))));
}
