'use strict';
// What is seen first: how the run ended, which the text tells. Reading the data of a very large recording takes its time; all else is shown behind it.

// How the run ends: the last line of the text.
const lastLine = memo(() => {
  const text = document.querySelector('#text pre').textContent.trimEnd();
  return text.slice(text.lastIndexOf('\n') + 1);
});

// Its word, in its colour; and what else it says, if that is asked for.
function showOutcome(isWhole) {
  const [word, ...rest] = lastLine().split(': ');
  const isClean = word === 'clean';
  fill(document.getElementById('outcome'),
    badge(isClean ? 'outcome good' : 'outcome bad', [make('span', { 'aria-hidden': 'true' }, isClean ? '✓ ' : '✗ '), make('span', { class: 'word' }, word)]),
    isWhole && rest.length > 0 && make('span', { class: 'more-said' }, ` ${rest.join(': ')}`));
}

document.title = `${lastLine()}: rtps-audit`;
showOutcome(true);
fill(document.getElementById('received'), 'The pairs are being read.');
document.getElementById('page').hidden = false;
