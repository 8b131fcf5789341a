'use strict';
// Shows the report, and goes where the address says.

function start() {
  const report = reportOf(document.getElementById('data').textContent);
  showHead(report);
  document.querySelector('main').hidden = false;
  const picture = new Picture(report, document.getElementById('picture'));
  showHappened(report, document.getElementById('happened'));
  showTalk(report);
  showBestEffort(report);
  showNotes(report);
  showCounts(report);
  const pairs = new Pairs(report);
  const participants = new Participants(report);
  showBar();
  const go = () => goToAddress(pairs, participants);
  window.addEventListener('hashchange', go);
  // An address that is there already is gone to again by a click.
  document.addEventListener('click', ({ target }) => target.closest('a')?.hash === location.hash && location.hash !== '' && go());
  go();
  listenForPaper(pairs, picture);
}

// The sections that are shown, in the bar that stays at the top.
function showBar() {
  const sections = [...document.querySelectorAll('main > section')].filter((section) => !section.hidden);
  fill(document.getElementById('bar'), ...sections.map((section) => make('a', { href: `#${section.id}` }, section.dataset.name || section.querySelector('h2').textContent)));
}

function goToAddress(pairs, participants) {
  const [, what, at] = /^#(pair|topic|participant)-(\d+)$/.exec(location.hash) || [];
  if (what === 'pair') pairs.goTo(Number(at) - 1);
  if (what === 'topic') pairs.goToTopic(Number(at) - 1);
  if (what === 'participant') participants.goTo(Number(at));
}

// A chart has the colours of the moment in which it is drawn; on paper the light ones. All rows go on paper.
function listenForPaper(pairs, picture) {
  matchMedia('(prefers-color-scheme: dark)').addEventListener('change', redrawChart);
  const onPaper = (isOnPaper) => () => {
    document.documentElement.classList.toggle('printed', isOnPaper);
    pairs.showAll(isOnPaper);
    picture.draw();
    redrawChart();
  };
  window.addEventListener('beforeprint', onPaper(true));
  window.addEventListener('afterprint', onPaper(false));
}

try {
  start();
} catch (error) {
  document.documentElement.classList.remove('scripted');
  document.getElementById('page').hidden = true;
  document.getElementById('text').prepend(make('p', null, `The tables of this report cannot be shown here: ${error}`));
  throw error;
}
