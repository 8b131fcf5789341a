'use strict';
// What the tests of the page read of it. Nothing here is a part of the page.

const textsOf = (element, selector) => [...element.querySelectorAll(selector)].map((found) => found.textContent);

// The cells of a line by the names of their columns.
function cellsOf(line, kind) {
  return Object.fromEntries([...line.querySelectorAll(`td.${kind}`)].map((cell) => [cell.className.replace(kind, '').trim(), cell.textContent]));
}

// The rows of the table in their order, each with the topic and the type of its group.
function rowsShown() {
  return [...document.querySelectorAll('table.pairs tbody')].flatMap((body) => {
    const [topic, type] = [body.querySelector('button.fold')?.textContent, textsOf(body, 'tr.group .type')[0]];
    return [...body.querySelectorAll('tr.pair')].map((row) => ({
      id: row.id,
      topic,
      type,
      name: row.querySelector('.pair-name').textContent.trim(),
      badges: textsOf(row, '.badge'),
      number: row.querySelector('.number').textContent,
      datagram: textsOf(row, '.in-datagram').map((text) => text.trim()),
      ends: textsOf(row, 'td.writer, td.reader'),
      counts: cellsOf(row, 'count'),
    }));
  });
}

// The lines of topics: how many pairs each has, and the sums of its columns.
function groupsShown() {
  return [...document.querySelectorAll('tr.group')].map((line) => ({
    id: line.id, topic: line.querySelector('button.fold').textContent, size: line.querySelector('.size').textContent, sums: cellsOf(line, 'sum'),
  }));
}

// The strips of the picture: the topic, where each leads, what it says, how many marks of each kind it has, and whether it has samples.
function stripsShown() {
  return [...document.querySelectorAll('a.strip')].map((strip) => ({
    topic: strip.querySelector('.strip-name').textContent,
    leads: strip.getAttribute('href'),
    words: strip.querySelector('.strip-words').textContent,
    marks: Object.fromEntries([...strip.querySelectorAll('.mark')].map((mark) => [mark.classList[1], (mark.getAttribute('d').match(/M/g) || []).length]).filter(([, n]) => n > 0)),
    hasSamples: strip.querySelector('.samples').getAttribute('d') !== '',
  }));
}

// The events: the head of each, and the pairs that its lines name.
function eventsShown() {
  return [...document.querySelectorAll('.event')].map((event) => ({ head: textsOf(event, 'h3'), pairs: textsOf(event, '.which a').map((text) => text.split(':')[0]) }));
}

function countsShown() {
  const lines = [...document.querySelectorAll('#counts dl > div')];
  return Object.fromEntries(lines.map((line) => [line.querySelector('dt').textContent, line.querySelector('.count').textContent]));
}

// The lines of what to look at: the event, names, kind, how many pairs, and the advice.
function topicsShown() {
  return [...document.querySelectorAll('table.topics tbody tr')].map((row) => ({
    event: textsOf(row.closest('.event'), 'h3')[0] ?? null,
    topic: row.cells[0].querySelector('.name').textContent,
    type: row.cells[0].querySelector('.type').textContent,
    kind: row.className,
    pairs: row.cells[1].querySelector('p').childNodes[1].textContent.trim().split(' ')[0],
    advice: row.cells[2].textContent,
  }));
}

// Opens each participant, and gives the line of each.
function participantsShown() {
  for (let more; (more = document.querySelector('#participants > .more:not([hidden])'));) more.click();
  return [...document.querySelectorAll('.participant')].map((fold) => {
    openFold(fold);
    return { id: fold.id, line: fold.querySelector('summary').textContent, prefix: fold.querySelector('.guid').textContent };
  });
}

// The endpoints in their order: participant, side, entity id, names, and the pairs that each is in.
function endpointsShown() {
  return [...document.querySelectorAll('.participant')].flatMap((fold) => {
    const rows = [...fold.querySelectorAll('table.endpoints tbody tr')];
    return rows.map(({ cells: [head, names, qos, pairs] }) => ({
      prefix: fold.querySelector('.guid').textContent,
      side: head.textContent.split(' ')[0],
      entity: head.querySelector('.guid').textContent,
      topic: textsOf(names, ':scope > :first-child > *'),
      type: textsOf(names, '.type > *'),
      qos: qos.textContent,
      links: textsOf(pairs, 'a'),
      pairs: pairs.textContent,
    }));
  });
}

// What does not talk, by the class of its table: the last cell of each line.
function talkShown(name) {
  return textsOf(document, `table.talk.${name} tbody tr > :last-child`);
}

// Those of these elements that take no room, and so are not in sight.
function hidden(selector) {
  return [...document.querySelectorAll(selector)].filter((element) => element.getClientRects().length === 0).map((element) => element.className);
}

// ---- what each can read

// The three parts and the share of a colour, whatever form it has.
function partsOf(colour) {
  const pen = document.createElement('canvas').getContext('2d', { willReadFrequently: true });
  pen.fillStyle = colour;
  pen.fillRect(0, 0, 1, 1);
  const [r, g, b, a] = pen.getImageData(0, 0, 1, 1).data;
  return [r, g, b, a / 255];
}

function luminance([r, g, b]) {
  const [x, y, z] = [r, g, b].map((part) => (part / 255 <= 0.04045 ? part / 255 / 12.92 : ((part / 255 + 0.055) / 1.055) ** 2.4));
  return 0.2126 * x + 0.7152 * y + 0.0722 * z;
}

function contrast(one, other) {
  const [low, high] = [luminance(one), luminance(other)].sort((a, b) => a - b);
  return (high + 0.05) / (low + 0.05);
}

// The colour behind an element: that of the nearest one around it that has one.
function behind(element) {
  for (let at = element; at; at = at.parentElement) {
    const colour = partsOf(getComputedStyle(at).backgroundColor);
    if (colour[3] === 1) return colour;
  }
  return [255, 255, 255, 1];
}

// Texts in sight of too little contrast to what is behind them, and how many texts there are.
function faintTexts(least) {
  const faint = new Set();
  let count = 0;
  const walker = document.createTreeWalker(document.body, NodeFilter.SHOW_TEXT);
  for (let node = walker.nextNode(); node; node = walker.nextNode()) {
    const element = node.parentElement;
    if (!node.textContent.trim() || element.closest('script, style') || element.getClientRects().length === 0) continue;
    count += 1;
    const style = getComputedStyle(element);
    const found = contrast(partsOf(style.color), behind(element));
    if (found < least) faint.add(`${element.tagName}.${element.className} ${found.toFixed(2)} ${node.textContent.slice(0, 30)}`);
  }
  for (const name of ['--data', '--announced', '--acknowledged', '--mark', '--faint', '--complete']) {
    const found = contrast(partsOf(getComputedStyle(document.documentElement).getPropertyValue(name)), behind(document.body));
    if (found < least) faint.add(`${name} ${found.toFixed(2)}`);
  }
  return { count, faint: [...faint] };
}

// What is not as a reader of the page by ear needs it.
function unspoken() {
  const found = [];
  let level = 0;
  for (const head of document.querySelectorAll('h1, h2, h3, h4')) {
    if (head.getClientRects().length === 0) continue;
    const next = Number(head.tagName[1]);
    if (next > level + 1) found.push(`heading ${next} behind ${level}: ${head.textContent}`);
    level = next;
  }
  for (const head of document.querySelectorAll('th')) if (!head.scope) found.push(`th without scope: ${head.textContent}`);
  for (const field of document.querySelectorAll('input, select')) if (!field.labels.length) found.push(`${field.tagName} without label`);
  for (const button of document.querySelectorAll('button, a, summary')) if (!button.textContent.trim()) found.push(`${button.tagName} without a name`);
  const ids = [...document.querySelectorAll('[id]')].map((element) => element.id);
  if (new Set(ids).size !== ids.length) found.push('an id stands twice');
  return found;
}

// The element with the focus, and whether one sees that.
function focused() {
  const element = document.activeElement;
  const style = getComputedStyle(element);
  return {
    tag: element.tagName,
    href: element.getAttribute('href'),
    isSeen: style.outlineStyle !== 'none' && parseFloat(style.outlineWidth) >= 2,
  };
}

// How long a change of the filter takes, until it is drawn, in milliseconds.
async function timeToFilter(text) {
  const field = document.getElementById('filter');
  field.focus();
  await new Promise((done) => requestAnimationFrame(() => requestAnimationFrame(done)));
  const before = performance.now();
  field.value = text;
  field.dispatchEvent(new Event('input'));
  document.body.getBoundingClientRect();
  return performance.now() - before;
}
