// The answers and messages: each that names a line leads to it, each outcome leads to its order, and a refused line is red.
'use strict';

// What names a line at the beginning of an answer or a message, and maybe a column: `7: ..`, `line 7, round 2  ..`, `script:7: ..`, `scenario:7:5: ..`,
// `script: line 7: ..`.
const NAMES = /^(?:line |script:|scenario:|script: line )?(\d+)(?::(\d+))?(?:, round [\d.]+)?(?:: |  )/;

// What an answer looks like that refuses a line, or says that an expectation is not met.
const REFUSES = {
  script: /(?:^|: )(?:error|\d+) [A-Z][A-Za-z]+$/,
  scenario: /: (?:NOT MET, |refused with (?!.*, as expected$))/,
};

// The place that a line names at its beginning, or null. Column 0 is the whole line.
function placeIn(line) {
  const named = NAMES.exec(line);
  return named && { line: Number(named[1]), column: Number(named[2] || 0) };
}

// The messages about lines of a script, by the lines' numbers: what follows `script:7: `.
function saidOf(err) {
  const said = new Map();
  for (const line of err.split('\n')) {
    const told = /^script:(\d+): (.*)$/.exec(line);
    if (told) said.set(told[1], [...(said.get(told[1]) || []), told[2]]);
  }
  return said;
}

// The reason why an answer's line was refused or a task was killed, from the messages about the line. The line's words
// and the answer itself are left out.
function reasonOf(said, line) {
  const labelled = said.size ? /^(\d+): (.*): (.*)$/.exec(line) : null;
  if (!labelled) return '';
  const [, number, words, answer] = labelled;
  const refusal = answer.split(' ').pop();
  for (const text of said.get(number) || []) {
    const rest = text.startsWith(`${words}: `) ? text.slice(words.length + 2) : text;
    for (const start of [`${refusal}, `, `${answer}: `]) {
      if (rest.startsWith(start)) return rest.slice(start.length);
    }
  }
  return '';
}

// A line of text as it is shown: a text, or an element if there is more to it.
function shown(line, end, reason, refuses) {
  const place = placeIn(line);
  const isRefused = refuses.test(line);
  if (!place && !reason && !isRefused) return line + end;
  const mark = document.createElement('span');
  mark.textContent = line + end;
  mark.classList.toggle('refused', isRefused);
  if (reason) mark.dataset.reason = reason;
  if (place) {
    mark.setAttribute('role', 'link');
    mark.tabIndex = -1;
    Object.assign(mark.dataset, place);
  }
  return mark;
}

// What leads somewhere.
const LINKS = '[data-line], [data-outcome]';

// Shows lines, each as an element or a text. The Tab key leads to the first link, and the arrow keys from there to the others. Copied as a text,
// the lines are as they were.
function showEach(box, text, elementOf) {
  const lines = text.split('\n');
  const last = lines.length - 1;
  box.replaceChildren(...lines.map((line, at) => elementOf(line, at < last ? '\n' : '')));
  const first = box.querySelector(LINKS);
  if (first) first.tabIndex = 0;
}

const showLines = (box, text, refuses, reasonFor = () => '') => showEach(box, text, (line, end) => shown(line, end, reasonFor(line), refuses));

// Shows the answers of a scenario or a script. Below an answer is its reason, if there is one.
function showAnswers(kind, out, err) {
  const said = saidOf(err);
  part('title').textContent = 'Answers';
  showLines(part('out'), out, REFUSES[kind], (line) => reasonOf(said, line));
}

// The head of an outcome in the list of all that can happen, as `outcome 2: 9 orders`. It leads to an order.
function shownOutcome(line, end) {
  const named = /^outcome (\d+): /.exec(line);
  if (!named) return line + end;
  const mark = document.createElement('span');
  mark.textContent = line + end;
  mark.title = 'Put an order with this outcome into the editor';
  mark.setAttribute('role', 'link');
  mark.tabIndex = -1;
  [, mark.dataset.outcome] = named;
  return mark;
}

function showOutcomes(out) {
  part('title').textContent = 'What can happen';
  showEach(part('out'), out, shownOutcome);
}

const showMessages = (err) => showLines(part('err'), err, /(?!)/);

function follow({ dataset: { line, column, outcome } }) {
  if (outcome) showOrder(Number(outcome));
  else goTo(Number(line), Number(column));
}

// The next link in this direction.
function besideLink(link, step) {
  const links = [...link.parentElement.querySelectorAll(LINKS)];
  return links[links.indexOf(link) + step];
}

function onKey(event) {
  const link = event.target.closest(LINKS);
  const step = { ArrowDown: 1, ArrowUp: -1 }[event.key];
  if (!link || (!step && event.key !== 'Enter')) return;
  event.preventDefault();
  if (!step) return follow(link);
  const next = besideLink(link, step);
  if (!next) return;
  link.tabIndex = -1;
  next.tabIndex = 0;
  next.focus();
}

for (const box of [part('out'), part('err')]) {
  box.addEventListener('click', (event) => {
    const link = event.target.closest(LINKS);
    // Somebody who has selected a part of the answers wants to copy it.
    if (link && getSelection().isCollapsed) follow(link);
  });
  box.addEventListener('keydown', onKey);
}
