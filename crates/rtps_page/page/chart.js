'use strict';
// The chart of a pair: seconds or datagrams to the right, numbers upwards.

const CHART_HEIGHT = 320;
const EDGES = { left: 64, right: 14, top: 18, bottom: 34 };
// A dot is found from so many pixels away, and a drag of fewer is none.
const REACH = 12;
// Above so many dots in sight they are small, and above so many answers there are no strokes.
const MANY_DOTS = 3000;
const MANY_ANSWERS = 150;
const POINT = 'Point at a dot to read it.';

// At most so many lost numbers of a kind are marked.
const MOST_LOST = 5000;
// So many numbers that did not arrive are looked up.
const MOST_ARRIVED = 100000;

// What is drawn of a row: dots for DATA to its reader, bands for numbers that are told gone to it, steps for what HEARTBEATs announce
// and for what the reader acknowledged, a sign where the reader asks for a number, a mark for each number that is lost, dots for those that
// another recording has, and marks for the numbers and the datagram that its verdict is about. A sample in fragments is one dot.
function marksOf(report, row, axis) {
  const acts = report.actsOf(row).map((entry) => entryParts(entry, axis));
  const to = namesOf(row.reader);
  const heard = acts.filter(({ named }) => to.includes(named));
  const answers = report.basesOf(row).map(([datagram, at, base, asked]) => ({ x: axis.at(datagram), y: Number(base) - 1, at, asked }));
  const sent = heard.filter(({ what }) => IS_SENDING.has(what));
  const dots = dotsOf(heard);
  const announced = stepsOf(acts.filter(({ what }) => what === 'announced').map(({ x, numbers: [last] }) => ({ x, y: Number(last) })));
  const told = stepsOf(acts.filter(({ what }) => what !== 'gone').map(({ x, numbers: [last] }) => ({ x, y: Number(last) })));
  return {
    dots,
    bands: bandsOf(heard.filter(({ what }) => what === 'gone')),
    announced,
    answers,
    acknowledged: stepsOf(answers),
    asked: answers.flatMap(({ x, asked }) => asked.map((number) => ({ x, y: Number(number) }))),
    lost: lostMarks(row, sent.map(({ x, numbers: [number] }) => ({ x, y: Number(number) })), told, axis),
    arrived: arrivedDots(row, dots),
    numbers: markedNumbers(row),
    datagrams: row.verdict === 'unfounded' ? [{ x: axis.at(row.datagram), label: `datagram ${row.datagram}` }] : [],
  };
}

// Each number of a row that is lost: where it was sent first to the reader, or, where it never was, where the writer first told of it.
function lostMarks({ numbers }, sendings, told, axis) {
  const sent = firstOf(sendings);
  return Object.keys(LOST_WORDS).filter((kind) => numbers[kind]).flatMap((kind) => (
    eachNumber(numbers[kind].ranges, MOST_LOST).map((number) => {
      const dot = sent.get(number);
      const x = dot ? dot.x : (told.find(({ y }) => y >= number) || { x: axis.low }).x;
      return { x, y: number, kind, isSent: dot !== undefined };
    })));
}

// The first dot of each number.
function firstOf(dots) {
  const found = new Map();
  for (const dot of dots) if (!found.has(dot.y)) found.set(dot.y, dot);
  return found;
}

// The numbers of ranges, but no more than so many.
function eachNumber(ranges, most) {
  const numbers = [];
  for (const { first, last } of ranges) {
    for (let number = Number(first); number <= Number(last) && numbers.length < most; number += 1) numbers.push(number);
  }
  return numbers;
}

// Of a row that is held against another recording: where each number was sent first that did not lack there. Where more ranges lack than the
// data tells, up to the last one that it tells.
function arrivedDots(row, dots) {
  if (!isHeld(row)) return [];
  const { ranges, more } = row.numbers.not_arrived || { ranges: [], more: 0 };
  const lacking = new Set(eachNumber(ranges, MOST_ARRIVED));
  const end = more > 0 || lacking.size === MOST_ARRIVED ? Math.max(...lacking) : Infinity;
  return [...firstOf(dots).values()].filter(({ y }) => y >= row.from && y <= end && !lacking.has(y)).map(({ x, y }) => ({ x, y }));
}

// What stands to the right: the seconds of datagrams, where each that is drawn has one; or else their numbers. It has the word for
// them, the ends of the recording and those of what is drawn, the smallest window, the smallest step between its marks, and the text of a
// mark.
function axisOf(report, row) {
  const drawn = [...report.actsOf(row), ...report.basesOf(row)].map(([datagram]) => datagram);
  const seconds = drawn.map((datagram) => report.secondOf(datagram));
  const isTimed = drawn.length > 0 && !seconds.includes(undefined);
  const ends = isTimed ? endsOfAll(seconds) : endsOfAll(drawn);
  if (!isTimed) {
    const high = Math.max(2, report.data.datagrams + 1);
    return {
      word: 'datagram', name: 'Datagrams', at: (datagram) => datagram, low: 0, high, own: within(ends, 1, [0, high]), window: 4, step: 1, text: shortNumber,
    };
  }
  const last = Math.max(ends[1], report.seconds());
  const room = Math.max(0.01, last * 0.01);
  const [low, high] = [Math.min(0, ends[0]) - room, last + room];
  return {
    word: 's', name: 'Seconds', at: (datagram) => report.secondOf(datagram), low, high, own: within(ends, Math.max(0.01, (ends[1] - ends[0]) * 0.02), [low, high]),
    window: 0.02, step: 0.001, text: shortSecond,
  };
}

// The least and the greatest of these, with some room at both ends, within other ends.
const endsOfAll = (values) => [values.reduce((a, b) => Math.min(a, b), Infinity), values.reduce((a, b) => Math.max(a, b), -Infinity)];
const within = ([first, last], room, [low, high]) => (first > last ? [low, high] : [Math.max(low, first - room), Math.min(high, last + room)]);

// The parts of an entry: where it stands, what it says, of which numbers, and whom it names.
function entryParts([datagram, at, what, ...rest], axis) {
  const count = numbersIn(what);
  return { x: axis.at(datagram), datagram, at, what, numbers: rest.slice(0, count), named: rest[count] };
}

function markedNumbers({ verdict, number, first_missed: missed }) {
  const found = [{ y: Number(number), label: `${verdict} ${number}` }];
  return missed && missed.number !== number ? [...found, { y: Number(missed.number), label: `missed ${missed.number}` }] : found;
}

// Each DATA as a dot, and each sample in fragments as one, where it is complete first. A DATA is sent again where an earlier dot has its number, a
// sample in fragments where one of these was sent twice, too.
function dotsOf(entries) {
  const [seen, whole, twice] = [new Set(), new Set(), sentTwice(entries)];
  const dots = [];
  for (const { x, what, datagram, at, numbers: [number] } of entries) {
    const isWhole = what === 'sample';
    if (what !== 'data' && (!isWhole || whole.has(number))) continue;
    dots.push({ x, y: Number(number), number, datagram, at, isWhole, again: seen.has(number) || (isWhole && twice.has(number)) });
    seen.add(number);
    if (isWhole) whole.add(number);
  }
  return dots;
}

// The numbers of samples of which a fragment is sent twice.
function sentTwice(entries) {
  const [sent, twice] = [new Set(), new Set()];
  for (const { what, numbers: [number, first, count] } of entries) {
    for (let fragment = first; what === 'piece' && fragment < first + count; fragment += 1) {
      const name = `${number} ${fragment}`;
      if (sent.has(name)) twice.add(number);
      sent.add(name);
    }
  }
  return twice;
}

// From a datagram on these numbers are told gone. Of those that follow on what is gone already, the new ones alone.
function bandsOf(entries) {
  const bands = [];
  let below = 0;
  for (const { x, numbers } of entries) {
    const [low, high] = numbers.map(Number);
    if (high <= below) continue;
    const follows = low <= below + 1;
    bands.push({ x, low: follows ? below + 1 : low, high, follows });
    if (follows) below = high;
  }
  return bands;
}

// The greatest value so far, where it rises.
function stepsOf(points) {
  const steps = [];
  for (const point of points) {
    if (steps.length === 0 || point.y > steps[steps.length - 1].y) steps.push(point);
  }
  return steps;
}

// Round values for the marks of an axis, about so many, and no nearer to each other than a step.
function ticks(low, high, about, least = 1) {
  const rough = (high - low) / about;
  const power = 10 ** Math.floor(Math.log10(rough));
  const step = Math.max(least, [1, 2, 5, 10].map((n) => n * power).find((n) => n >= rough));
  const found = [];
  for (let at = Math.ceil(low / step) * step; at <= high && found.length < 50; at += step) found.push(at);
  return found;
}

// A mark of an axis, short enough for its room.
const shortNumber = (n) => (n < 1e7 ? String(Math.round(n)) : n.toExponential(1).replace('e+', 'e'));
const shortSecond = (s) => String(Number(s.toFixed(3)));

class Chart {
  constructor(report, row) {
    this.axis = axisOf(report, row);
    this.marks = marksOf(report, row, this.axis);
    this.all = this.extent();
    Object.assign(this, { report, row, view: this.all, at: null, drag: null, width: 0, still: document.createElement('canvas') });
    this.canvas = make('canvas', {
      tabindex: '0', role: 'application', 'aria-label': this.description(row), 'aria-describedby': `chart-help-${row.at + 1}`,
    });
    this.readout = make('p', { class: 'readout', role: 'status' }, POINT);
    this.element = make('figure', { class: 'chart' }, this.canvas, this.readout, this.controls(), legend(this.marks),
      make('figcaption', { id: `chart-help-${row.at + 1}` }, `${this.axis.name} to the right, numbers upwards. Drag to zoom, double-click to show all. Keys: left and `
        + 'right go from dot to dot, + and − zoom, Shift and an arrow move, 0 shows all, 1 the pair’s own span.'));
    this.listen();
  }

  // Everything, with some room above.
  extent() {
    const { dots, bands, announced, acknowledged, asked, numbers, lost } = this.marks;
    let top = 1;
    for (const { y, high } of [...announced, ...acknowledged, ...numbers, ...bands, ...lost]) top = Math.max(top, y ?? high);
    for (const marks of [dots, asked]) for (const { y } of marks) top = Math.max(top, y);
    return { x0: this.axis.low, x1: this.axis.high, y0: 0, y1: top * 1.06 + 1 };
  }

  // The part of it in which something of the row is drawn.
  ownSpan() {
    const [x0, x1] = this.axis.own;
    const { answers, dots, announced } = this.marks;
    const low = [...dots, ...answers, ...announced].reduce((least, { y }) => Math.min(least, y), this.all.y1);
    return this.within([x0, x1, Math.max(0, low - 2), this.all.y1]);
  }

  description(row) {
    const { dots, answers, asked, lost } = this.marks;
    const again = dots.filter((dot) => dot.again).length;
    const asks = asked.length > 0 ? `${plural(asked.length, 'number')} asked for, ` : '';
    const what = dots.some(({ isWhole }) => isWhole) ? plural(dots.length, 'sample') : plural(dots.length, 'DATA', 'DATA');
    return `Chart of ${this.axis.name.toLowerCase()} and numbers: ${what} to this reader, ${counted(again)} of them sent again, `
      + `${plural(answers.length, 'answer')} of the reader, ${asks}${plural(lost.length, 'mark')} of lost numbers, and a line at ${row.verdict} ${row.number}.`;
  }

  controls() {
    const acts = [
      ['Zoom in', () => this.zoom(0.5)], ['Zoom out', () => this.zoom(2)], ['Earlier', () => this.pan(-0.5, 0)], ['Later', () => this.pan(0.5, 0)],
      ['Lower', () => this.pan(0, -0.5)], ['Higher', () => this.pan(0, 0.5)], ['Own span', () => this.show(this.ownSpan())], ['Show all', () => this.show(this.all)],
    ];
    return make('div', { class: 'controls', role: 'group', 'aria-label': 'Chart' }, ...acts.map(([label, act]) => makeButton(null, label, act)));
  }

  listen() {
    const acts = {
      pointermove: (event) => this.pointed(event), pointerdown: (event) => this.pressed(event), pointerup: (event) => this.released(event),
      pointercancel: () => this.left(), pointerleave: () => this.left(), dblclick: () => this.show(this.all), keydown: (event) => this.key(event),
    };
    for (const [name, act] of Object.entries(acts)) this.canvas.addEventListener(name, act);
    new ResizeObserver(() => this.draw()).observe(this.canvas);
  }

  // ---- where things are

  pixelX(x) {
    return EDGES.left + (x - this.view.x0) / (this.view.x1 - this.view.x0) * (this.width - EDGES.left - EDGES.right);
  }

  pixelY(y) {
    return CHART_HEIGHT - EDGES.bottom - (y - this.view.y0) / (this.view.y1 - this.view.y0) * (CHART_HEIGHT - EDGES.top - EDGES.bottom);
  }

  // the place on the axis and the number at a pixel
  valueAt(px, py) {
    const { x0, x1, y0, y1 } = this.view;
    return {
      x: x0 + (px - EDGES.left) / (this.width - EDGES.left - EDGES.right) * (x1 - x0),
      y: y0 + (CHART_HEIGHT - EDGES.bottom - py) / (CHART_HEIGHT - EDGES.top - EDGES.bottom) * (y1 - y0),
    };
  }

  isInSight({ x, y }) {
    return x >= this.view.x0 && x <= this.view.x1 && y >= this.view.y0 && y <= this.view.y1;
  }

  nearest(px, py) {
    let [found, least] = [null, REACH * REACH];
    for (const dot of this.marks.dots) {
      const distance = (this.pixelX(dot.x) - px) ** 2 + (this.pixelY(dot.y) - py) ** 2;
      if (distance < least && this.isInSight(dot)) [found, least] = [dot, distance];
    }
    return found;
  }

  // ---- what one does

  show(view) {
    this.view = view;
    this.draw();
  }

  // Makes the window so many times as large, about the chosen dot or the middle, but no larger than all.
  zoom(factor) {
    const { x0, x1, y0, y1 } = this.view;
    const middle = this.at && this.isInSight(this.at) ? this.at : { x: (x0 + x1) / 2, y: (y0 + y1) / 2 };
    const side = (middle, low, high) => [middle - (middle - low) * factor, middle + (high - middle) * factor];
    this.show(this.within([...side(middle.x, x0, x1), ...side(middle.y, y0, y1)]));
  }

  // Moves the window by parts of its size.
  pan(right, up) {
    const { x0, x1, y0, y1 } = this.view;
    const [dx, dy] = [right * (x1 - x0), up * (y1 - y0)];
    this.show(this.within([x0 + dx, x1 + dx, y0 + dy, y1 + dy]));
  }

  // A window that lies within all, of at least 4 numbers, and to the right of at least what the axis says.
  within([left, right, bottom, top]) {
    const fit = (low, high, least, most, smallest) => {
      const size = Math.min(Math.max(high - low, Math.min(smallest, most - least)), most - least);
      const start = Math.min(Math.max((low + high - size) / 2, least), most - size);
      return [start, start + size];
    };
    const [[x0, x1], [y0, y1]] = [fit(left, right, this.all.x0, this.all.x1, this.axis.window), fit(bottom, top, this.all.y0, this.all.y1, 4)];
    return { x0, x1, y0, y1 };
  }

  choose(dot) {
    if (dot === this.at) return;
    this.at = dot;
    this.readout.textContent = dot ? this.dotText(dot) : POINT;
    this.paint();
  }

  dotText({ number, datagram, at, again, isWhole, x }) {
    const place = placeText({ datagram, at, frame: this.report.frameOf(datagram), time: this.axis.word === 's' ? x : null });
    const kinds = this.marks.lost.filter((mark) => mark.y === Number(number)).map(({ kind }) => LOST_WORDS[kind].toLowerCase());
    const what = isWhole ? `DATA_FRAG that completes number ${number}` : `DATA of number ${number}`;
    const sentAgain = isWhole ? ', of which a fragment was sent again' : ', sent again';
    return `${what} in ${place}${again ? sentAgain : ''}${kinds.length > 0 ? `; ${number} is ${kinds.join(' and ')}` : ''}.`;
  }

  pointed({ offsetX, offsetY }) {
    if (!this.drag) {
      this.choose(this.nearest(offsetX, offsetY));
      return;
    }
    [this.drag.x1, this.drag.y1] = [offsetX, offsetY];
    this.paint();
  }

  pressed(event) {
    if (event.button !== 0) return;
    this.canvas.setPointerCapture(event.pointerId);
    this.drag = { x0: event.offsetX, y0: event.offsetY, x1: event.offsetX, y1: event.offsetY };
  }

  // A drag to the side alone leaves the numbers as they are; one upwards alone what stands to the right.
  released({ offsetX, offsetY }) {
    const { drag, view: { x0, x1, y0, y1 } } = this;
    this.drag = null;
    if (!drag) return;
    const [a, b] = [this.valueAt(drag.x0, drag.y0), this.valueAt(drag.x1, drag.y1)];
    const [wide, high] = [Math.abs(drag.x1 - drag.x0) >= REACH, Math.abs(drag.y1 - drag.y0) >= REACH];
    const inOrder = (p, q) => [Math.min(p, q), Math.max(p, q)];
    if (wide || high) {
      this.show(this.within([...(wide ? inOrder(a.x, b.x) : [x0, x1]), ...(high ? inOrder(a.y, b.y) : [y0, y1])]));
    } else {
      this.choose(this.nearest(offsetX, offsetY));
      this.paint();
    }
  }

  left() {
    if (!this.drag) this.choose(null);
  }

  key(event) {
    const acts = event.shiftKey
      ? { ArrowLeft: () => this.pan(-0.2, 0), ArrowRight: () => this.pan(0.2, 0), ArrowUp: () => this.pan(0, 0.2), ArrowDown: () => this.pan(0, -0.2) }
      : { ArrowLeft: () => this.step(-1), ArrowRight: () => this.step(1) };
    Object.assign(acts, { '+': () => this.zoom(0.5), '=': () => this.zoom(0.5), '-': () => this.zoom(2), 0: () => this.show(this.all), 1: () => this.show(this.ownSpan()) });
    if (event.ctrlKey || event.metaKey || event.altKey || !Object.hasOwn(acts, event.key)) return;
    event.preventDefault();
    acts[event.key]();
  }

  // The next dot in sight, or the one before.
  step(by) {
    const dots = this.marks.dots.filter((dot) => this.isInSight(dot));
    if (dots.length === 0) return;
    const at = dots.indexOf(this.at);
    this.choose(at < 0 ? dots.at(by > 0 ? 0 : -1) : dots[Math.min(Math.max(at + by, 0), dots.length - 1)]);
  }

  // ---- drawing

  // Draws all anew, as where the window, the size or the colours have changed.
  draw() {
    const { canvas, still } = this;
    this.width = canvas.clientWidth;
    if (this.width === 0) return;
    const scale = Math.max(2, window.devicePixelRatio || 1);
    for (const each of [canvas, still]) [each.width, each.height] = [Math.round(this.width * scale), CHART_HEIGHT * scale];
    this.style = getComputedStyle(canvas);
    this.pen = still.getContext('2d');
    this.pen.scale(scale, scale);
    this.drawAxes();
    this.pen.beginPath();
    this.pen.rect(EDGES.left, EDGES.top - 6, this.width - EDGES.left - EDGES.right, CHART_HEIGHT - EDGES.top - EDGES.bottom + 6);
    this.pen.clip();
    this.drawBands();
    this.drawSteps(this.marks.announced, '--announced', 1.25);
    this.drawSteps(this.marks.acknowledged, '--acknowledged', 3.5);
    this.drawAnswers();
    this.drawMarks();
    this.drawAsked();
    this.drawDots();
    this.drawLost();
    this.drawArrived();
    this.paint();
  }

  // Shows what is drawn, and over it the chosen dot and the frame of a drag.
  paint() {
    if (!this.style || !this.width) return;
    const { canvas, at, drag } = this;
    const pen = canvas.getContext('2d');
    pen.setTransform(1, 0, 0, 1, 0, 0);
    pen.clearRect(0, 0, canvas.width, canvas.height);
    pen.drawImage(this.still, 0, 0);
    pen.scale(canvas.width / this.width, canvas.height / CHART_HEIGHT);
    pen.strokeStyle = this.colour('--ink');
    if (at && this.isInSight(at)) {
      pen.lineWidth = 2;
      pen.beginPath();
      pen.arc(this.pixelX(at.x), this.pixelY(at.y), 7, 0, 7);
      pen.stroke();
    }
    pen.lineWidth = 1;
    if (drag) pen.strokeRect(Math.min(drag.x0, drag.x1), Math.min(drag.y0, drag.y1), Math.abs(drag.x1 - drag.x0), Math.abs(drag.y1 - drag.y0));
  }

  colour(name) {
    return this.style.getPropertyValue(name).trim();
  }

  // A pen of this colour and thickness.
  penOf(colour, thickness) {
    Object.assign(this.pen, { strokeStyle: this.colour(colour), fillStyle: this.colour(colour), lineWidth: thickness });
    return this.pen;
  }

  line(x0, y0, x1, y1) {
    this.pen.beginPath();
    this.pen.moveTo(x0, y0);
    this.pen.lineTo(x1, y1);
    this.pen.stroke();
  }

  drawAxes() {
    const { view, width } = this;
    const pen = this.penOf('--faint', 1);
    Object.assign(pen, { font: `12px ${this.style.fontFamily}`, strokeStyle: this.colour('--line'), textBaseline: 'middle', textAlign: 'right' });
    for (const y of ticks(view.y0, view.y1, 6)) {
      this.line(EDGES.left, this.pixelY(y), width - EDGES.right, this.pixelY(y));
      pen.fillText(shortNumber(y), EDGES.left - 8, this.pixelY(y));
    }
    pen.fillText(this.axis.word, width - EDGES.right, CHART_HEIGHT - 8);
    pen.textBaseline = 'top';
    for (const x of ticks(view.x0, view.x1, Math.max(2, width / 110), this.axis.step)) {
      this.line(this.pixelX(x), CHART_HEIGHT - EDGES.bottom, this.pixelX(x), CHART_HEIGHT - EDGES.bottom + 4);
      pen.textAlign = this.pixelX(x) > width - 30 ? 'right' : 'center';
      pen.fillText(this.axis.text(x), Math.min(this.pixelX(x), width - 4), CHART_HEIGHT - EDGES.bottom + 6);
    }
    Object.assign(pen, { textAlign: 'left', textBaseline: 'middle' });
    pen.fillText('number', 4, 8);
  }

  drawBands() {
    const pen = this.penOf('--band-edge', 1);
    const right = this.pixelX(this.all.x1);
    const drawn = new Set();
    pen.fillStyle = this.colour('--band');
    this.outline(this.marks.bands.filter(({ follows }) => follows).map(({ x, high }) => ({ x, y: high + 0.5 })));
    pen.lineTo(right, this.pixelY(0));
    pen.fill();
    pen.stroke();
    for (const { x, low, high } of this.marks.bands.filter(({ follows }) => !follows)) {
      const [left, top, bottom] = [this.pixelX(x), this.pixelY(high + 0.5), this.pixelY(low - 0.5)];
      const key = `${Math.round(left)} ${Math.round(top)} ${Math.round(bottom)}`;
      if (drawn.has(key) || left > this.width) continue;
      drawn.add(key);
      pen.fillRect(left, top, right - left, Math.max(1, bottom - top));
      pen.strokeRect(left, top, right - left, bottom - top);
    }
  }

  // The path of steps: of those that fall on one column of pixels, the last.
  outline(steps) {
    const { pen } = this;
    pen.beginPath();
    let [y, column] = [this.pixelY(0), null];
    steps.forEach((step, at) => {
      const x = this.pixelX(step.x);
      if (column === null) pen.moveTo(x, y);
      column = Math.round(x);
      if (at + 1 < steps.length && Math.round(this.pixelX(steps[at + 1].x)) === column) return;
      pen.lineTo(x, y);
      y = this.pixelY(step.y);
      pen.lineTo(x, y);
    });
    if (column !== null) pen.lineTo(this.pixelX(this.all.x1), y);
  }

  drawSteps(steps, colour, thickness) {
    this.penOf(colour, thickness);
    this.outline(steps);
    this.pen.stroke();
  }

  // Each answer of the reader as a stroke across its line, unless they are too many to be told apart.
  drawAnswers() {
    const answers = this.marks.answers.filter((answer) => this.isInSight(answer));
    if (answers.length > MANY_ANSWERS) return;
    this.penOf('--acknowledged', 1.25);
    for (const { x, y } of answers) this.line(this.pixelX(x), this.pixelY(y) - 6, this.pixelX(x), this.pixelY(y) + 6);
  }

  // Where there are many, one of those that fall on one pixel.
  drawDots() {
    const pen = this.penOf('--data', 1.25);
    const dots = this.marks.dots.filter((dot) => this.isInSight(dot));
    const radius = dots.length > MANY_DOTS ? 1.2 : dots.length > 400 ? 2.2 : 3.2;
    const drawn = new Set();
    for (const dot of dots) {
      const [x, y] = [this.pixelX(dot.x), this.pixelY(dot.y)];
      const key = (Math.round(x) * CHART_HEIGHT + Math.round(y)) * 2 + Number(dot.again);
      if (dots.length > MANY_DOTS && drawn.has(key)) continue;
      drawn.add(key);
      pen.beginPath();
      pen.arc(x, y, dot.again ? radius + 0.8 : radius, 0, 7);
      if (dot.again) pen.stroke();
      else pen.fill();
    }
  }

  // Each number that the reader asks for, as a triangle that stands on its tip above the place, where a dot hides nothing of it; of those that fall on
  // one pixel, one.
  drawAsked() {
    const pen = this.penOf('--ink', 1.25);
    const drawn = new Set();
    for (const mark of this.marks.asked.filter((mark) => this.isInSight(mark))) {
      const [x, y] = [Math.round(this.pixelX(mark.x)), Math.round(this.pixelY(mark.y))];
      if (drawn.has(x * CHART_HEIGHT + y)) continue;
      drawn.add(x * CHART_HEIGHT + y);
      pen.beginPath();
      pen.moveTo(x - 4, y - 12);
      pen.lineTo(x + 4, y - 12);
      pen.lineTo(x, y - 5);
      pen.closePath();
      pen.stroke();
    }
  }

  // Each number that is lost as a red cross; of those that fall on one pixel, one. Where it was never sent, it stands in a box.
  drawLost() {
    const lost = this.marks.lost.filter((mark) => this.isInSight(mark));
    const pen = this.penOf('--mark', 2.25);
    const arm = lost.length > 400 ? 3 : 4.5;
    const drawn = new Set();
    for (const mark of lost) {
      const [x, y] = [Math.round(this.pixelX(mark.x)), Math.round(this.pixelY(mark.y))];
      if (drawn.has(x * CHART_HEIGHT + y)) continue;
      drawn.add(x * CHART_HEIGHT + y);
      this.line(x - arm, y - arm, x + arm, y + arm);
      this.line(x - arm, y + arm, x + arm, y - arm);
      if (!mark.isSent) pen.strokeRect(x - arm - 2, y - arm - 2, 2 * arm + 4, 2 * arm + 4);
    }
  }

  // What is received or arrived, as a row of dots along the foot.
  drawArrived() {
    const pen = this.penOf('--acknowledged', 1);
    const columns = new Set(this.marks.arrived.filter((dot) => this.isInSight(dot)).map(({ x }) => Math.round(this.pixelX(x))));
    for (const x of columns) {
      pen.beginPath();
      pen.arc(x, CHART_HEIGHT - EDGES.bottom - 5, 2.2, 0, 7);
      pen.fill();
    }
  }

  // The numbers that the verdict is about and the datagram of `unfounded`, as dashed lines with their words.
  drawMarks() {
    const { width } = this;
    const pen = this.penOf('--mark', 1.5);
    Object.assign(pen, { font: `bold 12px ${this.style.fontFamily}`, textBaseline: 'bottom' });
    pen.setLineDash([6, 4]);
    for (const { y, label } of this.marks.numbers) {
      this.line(EDGES.left, this.pixelY(y), width, this.pixelY(y));
      this.words(label, EDGES.left + 4, this.pixelY(y) - 3);
    }
    for (const { x, label } of this.marks.datagrams) {
      this.line(this.pixelX(x), EDGES.top - 6, this.pixelX(x), CHART_HEIGHT);
      const isRight = this.pixelX(x) > width / 2;
      pen.textAlign = isRight ? 'right' : 'left';
      this.words(label, this.pixelX(x) + (isRight ? -5 : 5), CHART_HEIGHT - EDGES.bottom - 4);
    }
    pen.setLineDash([]);
  }

  // Words that can be read over what lies below them.
  words(text, x, y) {
    const { pen } = this;
    pen.save();
    pen.setLineDash([]);
    Object.assign(pen, { strokeStyle: this.colour('--sheet'), lineWidth: 4, lineJoin: 'round' });
    pen.strokeText(text, x, y);
    pen.fillText(text, x, y);
    pen.restore();
  }
}

// ---- the legend

function legend({ dots, asked, lost, arrived }) {
  const hasWhole = dots.some(({ isWhole }) => isWhole);
  return make('ul', { class: 'legend' },
    legendItem(hasWhole ? 'DATA to this reader, or where a sample in fragments is complete' : 'DATA to this reader', drawn('circle', { class: 'sent', cx: 12, cy: 7, r: 4 })),
    legendItem(hasWhole ? 'sent again, or a fragment of it' : 'sent again', drawn('circle', { class: 'again', cx: 12, cy: 7, r: 4.5 })),
    asked.length > 0 && legendItem('asked for by the reader', drawn('path', { class: 'asked', d: 'M8 3h8l-4 7z' })),
    lost.length > 0 && legendItem('lost: missed, unsent, unanswered or not arrived', drawn('path', { class: 'cross', d: 'M8 3l8 8m0-8l-8 8' })),
    lost.some(({ isSent }) => !isSent) && legendItem('lost, and never sent here', drawn('path', { class: 'cross', d: 'M9 4l6 6m0-6l-6 6M6 1h12v12H6z' })),
    arrived.length > 0 && legendItem('received, or in the other recording', drawn('circle', { class: 'came', cx: 12, cy: 10, r: 2.5 })),
    legendItem('told gone', drawn('rect', { class: 'band', x: 2, y: 1, width: 20, height: 12 })),
    legendItem('announced by HEARTBEATs', drawn('path', { class: 'announced', d: 'M1 12H11V3H23' })),
    legendItem('acknowledged, a stroke for each answer',
      drawn('path', { class: 'acknowledged', d: 'M1 7H23' }), drawn('path', { class: 'answer', d: 'M8 1V13M17 1V13' })),
    legendItem('what the verdict is about', drawn('path', { class: 'verdict-line', d: 'M1 7H23' })));
}
