'use strict';
// The table of topics, each with its pairs: filter, order, what is folded, and the pair that is chosen.

// So many rows are shown at first, and so many more each time.
const FIRST_ROWS = 100;
const MORE_ROWS = 500;

const byText = (member) => (a, b) => (a[member] < b[member] ? -1 : Number(a[member] > b[member]));
const byCount = (numberOf) => (a, b) => compareNumbers(numberOf(a), numberOf(b));

// Where no number is announced or acknowledged, 0 stands in the order and a dash on the page.
function placeColumn(name, head, member, meaning) {
  const numberOf = (row) => (row[name] ? row[name][member] : 0);
  return { name, head, meaning, class: 'count', compare: byCount(numberOf), cell: (report, row) => (row[name] ? String(numberOf(row)) : '–'), total: () => null };
}

// Of a row that has no such count, too. A count above 0 is marked in the rows in which it is bad.
function countColumn(name, meaning, isBad, numberOf) {
  const marked = (count, isMarked) => (isMarked && isAbove(count, 0) ? make('b', { class: 'bad' }, counted(count)) : counted(count));
  const cell = (report, row) => {
    const count = numberOf(row);
    return count === null ? '–' : marked(count, isBad(row));
  };
  const sum = ({ sums }) => sums[name];
  return {
    name, head: name[0].toUpperCase() + name.slice(1), meaning, class: 'count', compare: byCount((row) => numberOf(row) || 0), cell, isAmount: true, sum,
    total: (group) => marked(sum(group), isAbove(sum(group), 0) && group.rows.some(isBad)),
  };
}

// Numbers of some outcomes are lost. A likely one did not arrive where the row is held against another recording.
const isLost = (name, row) => LOST.includes(name) || (name === 'likely' && isHeld(row));

// What became of a number, in the words of this page.
const OUTCOME_MEANINGS = {
  missed: 'the reader asked for the number, and nothing shows that it came',
  unsent: 'the reader acknowledged a number that the recording never sends to it',
  unanswered: 'the writer asked about it, and dropped it before the reader answered',
  likely: 'sent and acknowledged, but not so that it is certain',
  unconfirmed: 'sent, and not acknowledged by the end',
  received: 'for certain: it was sent before the answer that acknowledges it',
  arrived: 'the recording at the reader’s host has it',
};
const outcomeColumn = (name) => countColumn(name, OUTCOME_MEANINGS[name], (row) => isLost(name, row), ({ outcomes }) => outcomes[name]);

// The columns, those of what is lost first: name, head, order, and what stands in a cell.
const columnsOf = ({ data: { options } }) => [
  { name: 'verdict', head: 'Topic and pairs', compare: (a, b) => worse(a, b) || compareNumbers(a.number, b.number), cell: verdictCell },
  { name: 'writer', head: 'Writer', compare: byText('writer'), cell: (report, row) => endpointBriefly(report, row.writer, row.writer_node) },
  { name: 'reader', head: 'Reader', compare: byText('reader'), cell: (report, row) => endpointBriefly(report, row.reader, row.reader_node) },
  ...['missed', 'unsent', 'unanswered', 'likely', 'unconfirmed', 'received', 'arrived'].map(outcomeColumn),
  countColumn('before', 'numbers of before the reader joined', () => false, ({ from }) => differenceOf(from, options.from)),
  placeColumn('announced', 'Last announced', 'number', 'the last number that the writer announced'),
  placeColumn('acknowledged', 'Acknowledged below', 'below', 'the reader acknowledged all numbers below this one'),
];

// Rows of one key are equally bad: a number, or of very large amounts a text.
function worseKey({ clean, lost, rank, isPlumbing }) {
  const rest = rank * 4 + Number(clean) * 2 + Number(isPlumbing);
  return typeof lost === 'number' && lost < 1e12 ? lost * 64 + rest : `${lost} ${rest}`;
}
const WORST_FIRST = { name: 'worst', head: 'Worst first', compare: worse, keyOf: worseKey };
const BY_TOPIC = { name: 'topic', head: 'Topic', compare: (a, b) => byText('topic')(a, b) || worse(a, b) };
const BY_TYPE = { name: 'type', head: 'Type', compare: (a, b) => byText('type')(a, b) || worse(a, b) };

function verdictCell(report, row) {
  const bad = OUTCOMES.filter((name) => isLost(name, row) && isAbove(row.outcomes[name], 0));
  return make('a', { href: `#pair-${row.at + 1}`, 'aria-expanded': 'false' },
    make('span', { class: 'pair-name' }, `Pair ${row.at + 1} `), badge(row.verdict, row.verdict), ' ', make('span', { class: 'number' }, String(row.number)),
    row.datagram !== undefined && make('span', { class: 'in-datagram' }, ` in datagram ${row.datagram}`),
    bad.flatMap((name) => [' ', badge('missed', `${name} ${counted(row.outcomes[name])}`)]),
    row.clean && [' ', badge('clean', 'clean')]);
}

// Rows by a key, each list in their order.
function alike(rows, keyOf) {
  const found = new Map();
  for (const row of rows) entryOf(found, keyOf(row), () => []).push(row);
  return found;
}

// How much of a topic is open: nothing, the pairs that are not clean, or all.
const [FOLDED, BAD, ALL] = ['folded', 'bad', 'all'];

class Pairs {
  constructor(report) {
    Object.assign(this, { report, words: [], kinds: new Set(), order: WORST_FIRST, isDown: false, most: FIRST_ROWS, chosen: null, isPaper: false });
    // Columns of zeros are left out.
    this.columns = columnsOf(report).filter(({ name, isAmount, sum }) => (
      name === 'arrived' ? report.data.arrived : !isAmount || name === 'received' || report.groups.some((group) => isAbove(sum(group), 0))));
    this.orders = [WORST_FIRST, BY_TOPIC, BY_TYPE, ...this.columns];
    this.fold(null);
    this.sort();
    this.build();
    this.render();
  }

  // ---- which rows, in which order

  sort() {
    const direction = this.isDown ? -1 : 1;
    const { rows } = this.report;
    const { compare, keyOf } = this.order;
    this.sorted = keyOf
      ? [...alike(rows, keyOf).values()].sort(([a], [b]) => direction * compare(a, b)).flat()
      : [...rows].sort((a, b) => direction * compare(a, b) || a.at - b.at);
  }

  // Whether a row has a word: in the names of its topic and type, in those of its writer and reader, or in its verdict. What many rows have
  // is looked at once.
  hasWord(word) {
    const has = (...texts) => texts.some((text) => typeof text === 'string' && text.toLowerCase().includes(word));
    const seen = new Map([[null, false], [undefined, false]]);
    const hasText = (text) => entryOf(seen, text, () => has(text));
    const isNumber = /^\d+$/.test(word);
    const { groups, data } = this.report;
    const found = new Set(groups.filter(({ topic, type }) => has(topic, type, rosTopic(topic), rosType(type))));
    for (const { guid } of data.endpoints) {
      const participant = this.report.participantOf(guid);
      const { address, host, process, name } = participant.announced || {};
      if (has(guid, participant.name, ...participant.nodes, address, host, process, name)) found.add(guid);
    }
    return (row) => found.has(row.group) || found.has(row.writer) || found.has(row.reader) || hasText(row.verdict) || hasText(row.kind)
      || hasText(row.writer_node) || hasText(row.reader_node) || (isNumber && String(row.number).includes(word));
  }

  matching() {
    const tests = this.words.map((word) => this.hasWord(word));
    if (this.kinds.size > 0) tests.push(({ kind }) => this.kinds.has(kind));
    return tests.reduce((rows, test) => rows.filter(test), this.sorted);
  }

  // Whether all that is found is shown, and nothing is folded.
  isAllOpen() {
    return this.isPaper || this.words.length > 0 || this.kinds.size > 0;
  }

  isShown({ clean, group: { openness } }) {
    return openness === ALL || (openness === BAD && !clean);
  }

  // Opens all topics, or folds them as at first.
  fold(openness) {
    const { groups } = this.report;
    for (const group of groups) group.openness = openness ?? (group.clean ? FOLDED : BAD);
    this.areCleanShown = openness === ALL || groups.every(({ clean }) => clean);
  }

  setFilter(text) {
    this.words = text.toLowerCase().split(/\s+/).filter(Boolean);
    this.renderFirst();
  }

  setOrder(order) {
    // A head that is clicked again turns the order round. Counts begin with the greatest.
    this.isDown = order === this.order ? !this.isDown : order.class === 'count';
    this.order = order;
    this.sort();
    this.renderFirst();
  }

  toggleKind(kind) {
    if (!this.kinds.delete(kind)) this.kinds.add(kind);
    this.renderFirst();
  }

  // ---- the parts of the page

  build() {
    this.filter = make('input', { type: 'search', id: 'filter', autocomplete: 'off', spellcheck: 'false', placeholder: 'topic, node, host, verdict, GUID' });
    this.filter.addEventListener('input', () => this.setFilter(this.filter.value));
    this.select = make('select', { id: 'order' }, ...this.orders.map(({ name, head }) => make('option', { value: name }, head)));
    this.select.addEventListener('change', () => this.setOrder(this.orders.find(({ name }) => name === this.select.value)));
    this.status = make('p', { id: 'shown', role: 'status' });
    this.more = makeButton({ class: 'more' }, 'Show more', () => this.showMore());
    this.table = make('table', { class: 'pairs' }, make('caption', { class: 'hidden' }, 'Pairs by topic'), this.heads());
    this.table.addEventListener('click', (event) => this.clicked(event));
    const tools = make('div', { class: 'tools' },
      make('label', { for: 'filter' }, 'Filter'), this.filter,
      make('label', { for: 'order' }, 'Order'), this.select, makeButton(null, 'Reverse', () => this.setOrder(this.order)),
      makeButton({ class: 'open-all' }, 'Open all', () => this.openAll(ALL)), makeButton(null, 'Fold', () => this.openAll(null)));
    const wide = make('div', { class: 'wide' }, this.table);
    const words = this.explanation();
    document.getElementById('pairs').hidden = this.report.rows.length === 0;
    document.getElementById('pairs').append(this.kindButtons(), tools, this.status, wide, this.more, words);
  }

  heads() {
    return make('thead', null, make('tr', null, ...this.columns.map((column) => make('th',
      { scope: 'col', class: `${column.name} ${column.class || ''}` }, makeButton(null, column.head, () => this.setOrder(column))))));
  }

  // What the heads mean, and the verdicts.
  explanation() {
    const said = this.columns.filter(({ meaning }) => meaning).flatMap(({ head, meaning }, at) => [at > 0 && '; ', make('b', null, head), ` ${meaning}`]);
    return make('p', { class: 'hint words' }, ...said, '.');
  }

  // A button for each kind that there is, which shows these alone.
  kindButtons() {
    const countOf = (kind) => this.report.groups.reduce((sum, { kinds }) => sum + kinds[KINDS.indexOf(kind)], 0);
    this.buttons = KINDS.filter(countOf).map((kind) => makeButton({ class: `badge ${kind}`, 'aria-pressed': 'false' },
      `${counted(countOf(kind))} ${KIND_WORDS[kind]}`, (button) => {
        this.toggleKind(kind);
        button.setAttribute('aria-pressed', String(this.kinds.has(kind)));
      }));
    return make('div', { id: 'verdicts', role: 'group', 'aria-label': 'Show only pairs with these verdicts' }, ...this.buttons);
  }

  // ---- what is shown

  renderFirst() {
    this.most = FIRST_ROWS;
    this.render();
  }

  openAll(openness) {
    this.fold(openness);
    this.renderFirst();
  }

  openGroup(group, openness) {
    group.openness = openness;
    this.areCleanShown ||= group.clean;
    this.render();
  }

  // Shows more rows. Where these are the last ones, the focus goes to the first of them.
  showMore() {
    const first = this.table.querySelectorAll('tr.pair').length;
    this.most += MORE_ROWS;
    this.render();
    if (this.more.hidden) (this.table.querySelectorAll('tr.pair > th a')[first] || this.table.querySelector('tbody button'))?.focus();
  }

  // Shows all rows, as on paper, and what is told of those that are not clean; or as many as before.
  showAll(isPaper) {
    if (isPaper === this.isPaper) return;
    [this.most, this.before] = isPaper ? [Infinity, this.most] : [this.before, null];
    this.isPaper = isPaper;
    this.render();
  }

  render() {
    const rows = this.matching();
    const { groups, shown, open } = this.choice(rows);
    this.table.querySelectorAll('tbody').forEach((body) => body.remove());
    const hasMore = this.showBodies(groups, shown) || shown.length < open;
    this.table.querySelectorAll('thead th').forEach((head, at) => {
      if (this.columns[at] === this.order) head.setAttribute('aria-sort', this.isDown ? 'descending' : 'ascending');
      else head.removeAttribute('aria-sort');
    });
    this.select.value = this.order.name;
    this.status.textContent = this.statusText(rows.length, open, shown.length);
    this.more.hidden = !hasMore;
    this.showChosen();
  }

  statusText(found, open, shown) {
    const all = this.report.rows.length;
    const folded = found - open;
    const some = shown < open ? `; the first ${counted(shown)} are shown` : '';
    return `${partOf(found, all, 'pair')}${some}${folded > 0 ? `; ${counted(folded)} ${folded === 1 ? 'is' : 'are'} folded` : ''}.`;
  }

  // What is made of the rows that are found, in one walk: their topics in the order of the first row of each, with how many each has, the rows that
  // are shown, and how many are not folded.
  choice(rows) {
    const isAllOpen = this.isAllOpen();
    const [groups, shown] = [[], []];
    let open = 0;
    for (const group of this.report.groups) group.found = 0;
    for (const row of rows) {
      const { group } = row;
      if (group.found === 0) groups.push(group);
      group.found += 1;
      if (!isAllOpen && !this.isShown(row)) continue;
      open += 1;
      if (open <= this.most) shown.push(row);
    }
    return { groups, shown, open };
  }

  // The topics with the rows that are shown. Whether there are more topics than have room.
  showBodies(groups, shown) {
    const isSeen = (group) => this.isAllOpen() || this.areCleanShown || !group.clean;
    const seen = groups.filter(isSeen).slice(0, this.most);
    const bodies = new Map(seen.map((group) => [group, make('tbody', null, this.groupRow(group))]));
    for (const row of shown) bodies.get(row.group)?.append(this.row(row));
    for (const [group, body] of bodies) this.addFolded(group, body);
    this.table.append(...bodies.values());
    this.addCleanTopics(groups.filter((group) => !isSeen(group)));
    return seen.length < groups.filter(isSeen).length;
  }

  // A line of the clean topics, where these are folded.
  addCleanTopics(groups) {
    if (groups.length === 0) return;
    const names = groups.slice(0, NAMED_TOPICS).map(({ topic }) => shownTopic(topic)).join(', ');
    const button = makeButton({ class: 'fold', 'aria-expanded': 'false' }, `${plural(groups.length, 'clean topic')}`, () => {
      this.areCleanShown = true;
      this.render();
      this.table.querySelector(`#topic-${groups[0].at + 1} button`)?.focus();
    });
    this.table.append(make('tbody', { class: 'clean-topics' }, make('tr', null, make('td', { colspan: this.columns.length }, button,
      make('span', { class: 'size' }, `${names}${groups.length > NAMED_TOPICS ? ` and ${groups.length - NAMED_TOPICS} more` : ''}`)))));
  }

  // The line of a topic: its name, which folds it, how many pairs it has, and the sums of its rows.
  groupRow(group) {
    const { at, topic, type, rows, bad, found, openness } = group;
    const isOpen = this.isAllOpen() || openness !== FOLDED;
    const fold = makeButton({ class: 'fold', 'aria-expanded': String(isOpen) }, shownTopic(topic), () => {
      this.openGroup(group, isOpen ? FOLDED : group.clean ? ALL : BAD);
      document.querySelector(`#topic-${at + 1} button`)?.focus();
    });
    const clean = bad === rows.length ? 'none clean' : bad === 0 ? 'clean' : `${counted(rows.length - bad)} clean`;
    const head = make('th', { scope: 'rowgroup', colspan: 3 }, fold, make('span', { class: 'type' }, oneName('span', rosType(type) || type)),
      make('span', { class: 'size' }, `${partOf(found, rows.length, 'pair')}, ${clean}`));
    return make('tr', { class: 'group', id: `topic-${at + 1}` }, head,
      ...this.columns.slice(3).map((column) => make('td', { class: `sum ${column.name}` }, column.total(group))));
  }

  // How many clean rows of a topic are folded, below those that are not.
  addFolded(group, body) {
    const count = group.rows.length - group.bad;
    if (this.isAllOpen() || group.openness !== BAD || count === 0) return;
    body.append(make('tr', { class: 'folded' }, make('td', { colspan: this.columns.length },
      makeButton({ class: 'fold', 'aria-expanded': 'false' }, `${plural(count, 'clean pair')}`, () => {
        this.openGroup(group, ALL);
        document.querySelector(`#topic-${group.at + 1} button`)?.focus();
      }))));
  }

  row(row) {
    const cells = this.columns.map((column, at) => make(at === 0 ? 'th' : 'td',
      { class: `${column.name} ${column.class || ''}`, ...(at === 0 ? { scope: 'row' } : {}) }, column.cell(this.report, row)));
    return make('tr', { id: `pair-${row.at + 1}`, class: `pair ${row.kind}` }, ...cells);
  }

  // ---- the pair that is chosen

  clicked(event) {
    const line = event.target.closest('tr.pair');
    const link = event.target.closest('a, button');
    if (!line || (link && !link.closest('th')) || event.ctrlKey || event.metaKey || event.shiftKey || String(getSelection())) return;
    event.preventDefault();
    const at = Number(line.id.slice('pair-'.length)) - 1;
    this.chosen = at === this.chosen ? null : at;
    this.showChosen();
    history.replaceState(null, '', this.chosen === null ? '#' : `#${line.id}`);
  }

  // Shows the pair of an address, also where a fold, the filter or the length of the table leaves it out.
  goTo(at) {
    if (at === this.chosen || !this.report.rows[at]) return;
    const row = this.report.rows[at];
    this.chosen = at;
    const isThere = () => document.getElementById(`pair-${at + 1}`) !== null;
    if (!isThere() && !this.isAllOpen()) this.openGroup(row.group, row.clean || row.group.openness === ALL ? ALL : BAD);
    if (!isThere()) this.filterBy(`${row.writer} ${row.reader}`);
    else this.showChosen();
    const line = document.getElementById(`pair-${at + 1}`);
    line.scrollIntoView();
    line.querySelector('a').focus({ preventScroll: true });
  }

  // Shows the rows of a topic.
  goToTopic(at) {
    const group = this.report.groups[at];
    if (!group) return;
    const lineOf = () => document.getElementById(`topic-${at + 1}`);
    if (group.openness === FOLDED || !lineOf()) this.openGroup(group, group.clean ? ALL : BAD);
    if (!lineOf()) this.filterBy(group.topic);
    lineOf().scrollIntoView();
    lineOf().querySelector('button').focus({ preventScroll: true });
  }

  filterBy(words) {
    this.filter.value = words;
    this.kinds.clear();
    this.buttons.forEach((button) => button.setAttribute('aria-pressed', 'false'));
    this.setFilter(words);
  }

  showChosen() {
    this.table.querySelectorAll('tr.detail').forEach((row) => row.remove());
    this.table.querySelectorAll('tr.chosen').forEach((row) => {
      row.classList.remove('chosen');
      row.querySelector('th a').setAttribute('aria-expanded', 'false');
    });
    forgetCharts();
    const bad = this.isPaper ? this.report.rows.filter(({ clean, at }) => !clean && at !== this.chosen).slice(0, MOST_PRINTED) : [];
    for (const { at } of bad) this.showDetail(at);
    if (this.chosen !== null) this.showDetail(this.chosen);
    redrawChart();
  }

  showDetail(at) {
    const line = document.getElementById(`pair-${at + 1}`);
    if (!line) return;
    line.classList.add('chosen');
    line.querySelector('th a').setAttribute('aria-expanded', 'true');
    line.after(make('tr', { class: 'detail' },
      make('td', { colspan: this.columns.length }, pairDetail(this.report, this.report.rows[at]))));
  }
}
