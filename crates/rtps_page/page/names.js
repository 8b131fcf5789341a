'use strict';
// The names of ROS 2 for those of DDS, as its middleware makes the one from the other. Where a name is none of them, null.

// A topic begins with `rt/`, the two topics of a service with `rq/` and `rr/`.
function rosTopic(topic) {
  const [, kind, name] = /^(rt|rq|rr)\/(.*)$/.exec(topic) || [];
  if (kind === 'rt') return `/${name}`;
  if (kind === 'rq' && name.endsWith('Request')) return `/${name.slice(0, -'Request'.length)} request`;
  if (kind === 'rr' && name.endsWith('Reply')) return `/${name.slice(0, -'Reply'.length)} reply`;
  return null;
}

// `std_msgs::msg::dds_::String_` is `std_msgs/msg/String`.
function rosType(type) {
  const [, before, name] = /^(.*?)::dds_::(.*)_$/.exec(type) || [];
  return name === undefined ? null : `${before.replaceAll('::', '/')}/${name}`;
}

const shownTopic = (topic) => rosTopic(topic) || topic;

// The value, which is made when it is asked for first.
function memo(made) {
  let value;
  return () => (value ??= made());
}

// ---- parts of the page. What a recording has becomes text, and never markup.

// An element with attributes and children; a child is an element or a text, and one that is null or false is left out.
function make(tag, attributes, ...children) {
  const element = document.createElement(tag);
  for (const [name, value] of Object.entries(attributes || {})) element.setAttribute(name, value);
  return fill(element, ...children);
}

// The element, with these children in place of what it holds.
function fill(element, ...children) {
  element.replaceChildren(...children.flat().filter((child) => child !== null && child !== false && child !== undefined));
  return element;
}

// A button that acts where it is pressed.
function makeButton(attributes, label, act) {
  const button = make('button', { type: 'button', ...attributes }, label);
  button.addEventListener('click', () => act(button));
  return button;
}

// What opens by a click: a line, and what stands behind it, which is made when it opens first.
function makeFold(attributes, line, made) {
  const fold = make('details', attributes, make('summary', null, ...line));
  fold.addEventListener('toggle', () => {
    if (fold.open && fold.children.length === 1) fold.append(...made());
  });
  return fold;
}

// Opens it now, and not only when the browser tells of it.
function openFold(fold) {
  fold.open = true;
  fold.dispatchEvent(new Event('toggle'));
}

// A name of ROS 2 first and that of DDS beside it, or that of DDS alone.
function bothNames(tag, ros, dds) {
  return ros ? [make(tag, { class: 'name' }, ros), ' ', make('span', { class: 'dds' }, dds)] : [make(tag, { class: 'name' }, dds)];
}

const topicName = (topic) => bothNames('b', rosTopic(topic), topic);
const typeName = (type) => bothNames('span', rosType(type), type);

// A name that is known by its ROS form alone; that of DDS stands behind a click.
const oneName = (tag, text) => make(tag, { class: 'name' }, text);

// A GUID, with places where a narrow page may break it.
function guidText(guid) {
  return make('code', { class: 'guid' }, guid.slice(0, 12), make('wbr'), guid.slice(12, 24), make('wbr'), guid.slice(24));
}

// What a participant is called: its one node, else its program, else its name. It may have none of them.
function titleOf({ nodes, announced }) {
  return (nodes.length === 1 && nodes[0]) || announced?.process || announced?.name || (nodes.length > 1 && nodesText({ nodes })) || '';
}

// Where it is: its process, its host and its address, as far as they are known.
function whereOf({ announced }) {
  const { pid = null, host = null, address = null } = announced || {};
  const process = [pid !== null && `pid ${pid}`, host !== null && `on ${host}`].filter(Boolean).join(' ');
  return [process, address].filter(Boolean).join(', ');
}

// An endpoint: the short name of its participant, its node or what else is known, and where it is.
function endpointName(report, guid, node) {
  const participant = report.participantOf(guid);
  if (!participant) return [guidText(guid)];
  const [title, where] = [node || titleOf(participant), whereOf(participant)];
  return [make('a', { href: `#participant-${participant.at}`, class: 'short' }, participant.name),
    title && make('span', { class: 'node' }, ` ${title}`), where && make('span', { class: 'host' }, ` ${title || where !== participant.announced?.address ? `(${where})` : `at ${where}`}`)];
}

// The same with its host alone, or else its address, where there is little room.
function endpointBriefly(report, guid, node) {
  const participant = report.participantOf(guid);
  if (!participant) return [guidText(guid)];
  const { host = null, address = null } = participant.announced || {};
  const [title, where] = [node || titleOf(participant), host !== null ? `on ${host}` : address !== null && `at ${address}`];
  return [make('a', { href: `#participant-${participant.at}`, class: 'short' }, participant.name),
    title && make('span', { class: 'node' }, ` ${title}`), where && make('span', { class: 'host' }, ` ${where}`)];
}

// The same as a text, where an element would stand in a link.
function endText(report, guid, node) {
  const participant = report.participantOf(guid);
  return participant ? `${participant.name} ${node || titleOf(participant)}`.trim() : guid;
}

// The nodes of a participant, at most so many by name.
function nodesText({ nodes }, most = 2) {
  return nodes.length <= most ? nodes.join(', ') : `${nodes.slice(0, most).join(', ')} and ${nodes.length - most} more`;
}

// So many topics are named of those that a participant writes, and of those that it reads.
const NAMED_TOPICS = 4;

// What a participant writes and reads, so that one knows it by its topics; those of services are left out.
function topicsText({ endpoints }) {
  const part = (side, verb) => {
    const ends = endpoints.filter((endpoint) => endpoint.side === side && !/^r[qr]\//.test(endpoint.topic));
    const topics = [...new Set(ends.map(({ topic }) => shownTopic(topic)))].sort();
    const more = topics.length > NAMED_TOPICS ? ` and ${topics.length - NAMED_TOPICS} more` : '';
    return topics.length > 0 && `${verb} ${topics.slice(0, NAMED_TOPICS).join(', ')}${more}`;
  };
  return [part('writer', 'writes'), part('reader', 'reads')].filter(Boolean).join('; ');
}

function tableHead(...heads) {
  return make('thead', null, make('tr', null, ...heads.map((head) => make('th', { scope: 'col' }, head))));
}

const badge = (kind, words) => make('span', { class: `badge ${kind}` }, words);

// Appends items a part at a time, and a button for more of them. Where the last ones come, the focus goes to the first of these.
// What is given back shows so many of them at least.
function inParts(section, noun, items, [first, next], append) {
  let shown = 0;
  const button = makeButton({ class: 'more' }, '', () => more(next)[0].focus());
  const more = (count) => {
    const elements = append(items.slice(shown, shown + count));
    shown += elements.length;
    button.hidden = shown === items.length;
    button.textContent = `Show ${plural(items.length - shown, `more ${noun}`)}`;
    return button.hidden ? elements : [button];
  };
  section.append(button);
  more(first);
  return (count) => count > shown && more(count - shown);
}

const SVG = 'http://www.w3.org/2000/svg';

function drawn(tag, attributes, ...children) {
  const element = document.createElementNS(SVG, tag);
  for (const [name, value] of Object.entries(attributes)) element.setAttribute(name, value);
  element.append(...children);
  return element;
}

// A sign of a picture or a chart, and its words.
function legendItem(text, ...shapes) {
  return make('li', null, drawn('svg', { viewBox: '0 0 24 14', width: '24', height: '14', 'aria-hidden': 'true' }, ...shapes), text);
}
