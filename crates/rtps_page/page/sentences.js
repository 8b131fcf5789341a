'use strict';
// The lines of `why` as sentences, and the sentence of a verdict.

const KIND_OF_ACT = { data: 'a DATA', heartbeat: 'a HEARTBEAT', gap: 'a GAP', data_frag: 'a DATA_FRAG' };

// The second of a datagram, behind it; nothing where it has none.
const secondText = (time) => (typeof time === 'number' ? `, ${time.toFixed(3)} s` : '');

// The frame of a datagram, behind it; nothing where it has none.
const frameText = (frame) => (typeof frame === 'number' ? `, frame ${frame}` : '');

// A place: the datagram, the octet of it at which the submessage begins, its frame and its second.
const placeText = ({ datagram, at, frame, time }) => `datagram ${datagram}, octet ${at}${frameText(frame)}${secondText(time)}`;
const actText = (act) => `${KIND_OF_ACT[act.by] || act.by} in ${placeText(act)}`;

// The verdict of a row in a sentence.
const VERDICTS = {
  unfounded: ({ number, datagram }) => `In datagram ${datagram} the reader acknowledged sample ${number}, but nothing before that sent it `
    + `${number} or said that ${number} is gone.`,
  conflict: ({ number }) => `The writer sent two different payloads for sample ${number} to this reader.`,
  open: openSentence,
  complete: completeSentence,
};

// The same, and which numbers are lost, or look so.
const verdictSentence = (row) => [VERDICTS[row.verdict](row), ...lostSentences(row)].join(' ');

// All numbers from that of the verdict on are not acknowledged.
function openSentence({ number, announced, not_arrived: lacking }) {
  const [samples, are, them] = number === announced.number
    ? [`sample ${number}`, 'it is', 'it'] : [`samples ${number} to ${announced.number}`, 'they are', 'them'];
  if (lacking && lacking.length === 0) return `The reader never acknowledged ${samples}, but all numbers are received or arrived.`;
  return `The reader may lack ${samples}: ${are} announced, and the reader never acknowledged ${them}.`;
}

function completeSentence({ number, announced, from }) {
  if (announced === null) return from === 1 ? 'The writer announced no number.' : `The writer announced no number from ${from} on.`;
  return `The reader acknowledged each sample from ${from} to ${number}.`;
}

// Some numbers, and how many more there are of so many.
const listed = (numbers, count) => `${numbers.join(', ')}${isAbove(count, numbers.length) ? ` and ${counted(count - BigInt(numbers.length))} more` : ''}`;

// The numbers of a row that are lost, or look so, by their kinds. So many ranges of a kind are told.
const LOST_TOLD = 10;

const lostSentences = ({ numbers }) => Object.keys(LOST_WORDS).filter((kind) => numbers[kind]).map((kind) => `${LOST_WORDS[kind]} ${rangesText(numbers[kind])}.`);

// The first ranges of a kind, and how many more there are.
function rangesText({ ranges, more }) {
  const told = ranges.slice(0, LOST_TOLD);
  return listed(told.map(rangeText), BigInt(ranges.length) + BigInt(more));
}

// A range, with the second and the frame in which its first number was sent first.
function rangeText({ first, last, sent }) {
  const moment = `${secondText(sent?.time)}${frameText(sent?.frame)}`.slice(2);
  return `${first}${isAbove(last, first) ? `-${last}` : ''}${moment && ` (${moment})`}`;
}

// What a verdict rests on, a sentence for each line of `why`.
const evidenceSentences = (row) => [
  ...spanSentences(row), ...commonSentences(row), ...receivedSentences(row), ...OWN_SENTENCES[row.verdict](row), ...waitSentences(row), ...silenceSentences(row),
];

// That the two ends of a row matched late, where that is told.
const lateSentences = (late) => (late === undefined ? [] : [`The two matched ${lateText(late)}.`]);

function spanSentences({ from, until, until_time: time, until_frame: frame, outcomes }) {
  const kinds = OUTCOMES.filter((name) => outcomes[name] > 0).map((name) => `${counted(outcomes[name])} ${name}`);
  const left = until === null ? '' : `, until datagram ${until}${frameText(frame)}${secondText(time)}, in which the reader left`;
  return [`The row is about the numbers from ${from} on${left}: ${kinds.join(', ') || 'none is announced'}.`];
}

function commonSentences(row) {
  const { announced, acknowledged } = row;
  return [
    announced ? `The writer announced number ${announced.number}, first by ${actText(announced)}.` : 'The writer announced nothing.',
    acknowledged
      ? `The reader acknowledged all numbers below ${acknowledged.below}, first by an ACKNACK in ${placeText(acknowledged)}.`
      : 'The reader acknowledged nothing.',
    `Of ${plural(askedAbout(row), 'number')}, ${counted(row.payloads)} ${row.payloads === 1 ? 'was' : 'were'} sent to this reader, `
      + `${counted(row.gone)} only said to be gone, and ${counted(row.untold)} neither.`,
  ];
}

function receivedSentences(row) {
  const { missed, first_missed: first, not_received: lacked } = row;
  const found = [`The recording proves ${counted(row.received)} of ${plural(askedAbout(row), 'number')} received.`];
  if (first) {
    const again = first.again ? `it was sent again in ${placeText(first.again)}, and ` : '';
    found.push(`The reader missed ${plural(missed, 'number')}: it asked for ${first.number} in ${placeText(first.asked)}, and ${again}`
      + (first.gone ? `then ${first.number} was told gone by ${actText(first.gone)}.` : `${first.number} was not told gone since.`));
  }
  if (lacked) found.push(`Number ${lacked.number} may not be received: ${lackedText(lacked)}.`);
  return found;
}

function lackedText({ gone, acknowledged }) {
  if (!acknowledged) return 'it is not acknowledged';
  if (gone) return `it was told gone by ${actText(gone)}, and acknowledged in ${placeText(acknowledged)}`;
  return `nothing told it before it was acknowledged in ${placeText(acknowledged)}`;
}

// The sentences that a verdict has of its own.
const OWN_SENTENCES = {
  open: (row) => [tellerSentence(row), askedSentence(row)],
  conflict: ({ number, sent }) => sent.map((one) => `Number ${number} was sent with ${payloadText(one)} in ${placeText(one)}.`),
  unfounded: (row) => [`The reader acknowledged all numbers below ${row.claimed.below} in ${placeText(row.claimed)}.`, tellerSentence(row)],
  complete: () => [],
};

// The longest that the reader let the writer wait, where that is told.
function waitSentences({ wait }) {
  if (!wait) return [];
  const answered = wait.answered ? `answered in ${placeText(wait.answered)}` : 'not answered';
  return [`The reader let the writer wait ${wait.seconds.toFixed(3)} s: asked in ${placeText(wait.asked)}, ${answered}.`];
}

// That the writer's participant or the reader's is silent.
const silenceSentences = ({ silence = [] }) => silence.map((text) => `${text[0].toUpperCase()}${text.slice(1)}.`);

const tellerSentence = ({ number, told }) => (
  told ? `Number ${number} was first told by ${actText(told)}.` : `Nothing in the recording tells number ${number} to this reader.`);

function askedSentence({ asked_since: count, last_asked: last }) {
  if (!last) return 'The writer did not ask for an answer since the reader’s last one.';
  return `The writer asked ${plural(count, 'time')} for an answer since the reader’s last one, last in ${placeText(last)}.`;
}

const payloadText = ({ payload, octets }) => (payload === 'absent' ? 'no payload' : `${payload === 'key' ? 'a key' : 'a sample'} of ${plural(octets, 'octet')}`);

// How many pairs are clean, how many numbers are surely received, and how many more arrived.
function receivedSentence({ rows, groups, data }) {
  if (rows.length === 0) return '';
  const good = rows.length - groups.reduce((sum, { bad }) => sum + bad, 0);
  const [received, asked, arrived] = ['proved', 'asked', 'arrived'].map((name) => sumOf(groups, ({ sums }) => sums[name]));
  const more = data.arrived ? `, ${counted(arrived)} more arrived` : '';
  return `${counted(good)} of ${plural(rows.length, 'pair')} ${rows.length === 1 ? 'is' : 'are'} clean. The recording proves `
    + `${counted(received)} of ${plural(asked, 'number')} received${more}.`;
}
