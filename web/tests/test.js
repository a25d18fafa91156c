// Runs every case in the module, and then the page itself as a visitor would; what is wrong goes to web/check.
'use strict';

const faults = [];
const fail = (what, found) => { if (faults.length < 20) faults.push(`${what}: ${JSON.stringify(found).slice(0, 300)}`); };
const same = (what, found, wanted) => { if (found !== wanted) fail(what, found); };
const times = {};

// The answer of a call. A call of options that it does not take throws.
function answerOf(machine, { call, text, asked, err }) {
  try {
    return machine[call](text, asked);
  } catch (fault) {
    return { status: Memcgrun.STATUS.BAD_OPTIONS, out: '', err: `${fault.message}\n` };
  }
}

function tryCases(machine, cases) {
  for (const each of cases) {
    const found = answerOf(machine, each);
    if (found.status !== each.status || found.out !== each.out || found.err !== each.err) fail(each.name, found);
  }
}

const pause = (milliseconds) => new Promise((resolve) => { setTimeout(resolve, milliseconds); });

async function until(what, holds) {
  for (let i = 0; i < 1200; i++) {
    if (holds()) return true;
    await pause(25);
  }
  fail(`never: ${what}`, null);
  return false;
}

// ---- the page

const frame = () => document.getElementById('page');
const shown = () => frame().contentDocument;
const part = (id) => shown() && shown().getElementById(id);
const picture = () => part('chart').querySelector('img');
const text = (id) => part(id).textContent;
const links = (id) => [...part(id).querySelectorAll('[data-line]')];
const kind = () => shown().querySelector('[name=kind]:checked').value;
const ended = () => until('the run ends', () => part('answers').getAttribute('aria-busy') === 'false');
const drawn = () => until('a picture', () => picture() && picture().complete && picture().naturalWidth > 100);
const selected = () => part('text').value.slice(part('text').selectionStart, part('text').selectionEnd);

const change = (element) => element.dispatchEvent(new Event('change', { bubbles: true }));

async function choose(named) {
  part('example').value = named;
  change(part('example'));
  await ended();
}

async function setKind(value) {
  const button = shown().querySelector(`[name=kind][value=${value}]`);
  button.checked = true;
  change(button);
  await ended();
}

async function set(option, value) {
  part(option).checked = value;
  change(part(option));
  await ended();
}

function type(value) {
  part('text').value = value;
  part('text').dispatchEvent(new Event('input', { bubbles: true }));
}

async function run(value) {
  type(value);
  part('run').click();
  await ended();
}

// Loads the page anew.
async function load(address) {
  frame().src = 'about:blank';
  await until('a blank page', () => shown() && !part('text'));
  frame().src = address;
  return until('the page runs', () => part('run') && !part('run').disabled && part('answers').getAttribute('aria-busy') === 'false');
}

async function tryScenarios(examples) {
  const first = examples.find((each) => each.kind === 'scenario' && each.name === 'pod');
  same('the first kind', kind(), 'scenario');
  same('the first example', part('example').value, 'scenario/pod');
  same('its text', part('text').value, first.text);
  same('how it ended', text('said').split(',')[0], 'as expected');
  await drawn();
  same('line numbers', text('numbers'), first.text.split('\n').map((_, at) => at + 1).join('\n'));
  same('examples to choose from', part('example').options.length, examples.length + 1);

  // A line of the answers leads to the line that it names.
  const lines = first.text.split('\n');
  const killed = links('out').find((link) => link.textContent.includes('batch is killed'));
  killed.click();
  same('the line of a click', selected(), lines[killed.dataset.line - 1]);
  same('the line of a click has the focus', shown().activeElement.id, 'text');
  const [one, two] = links('out');
  same('links that the Tab key leads to', links('out').filter((link) => link.tabIndex === 0).length, 1);
  one.focus();
  one.dispatchEvent(new KeyboardEvent('keydown', { key: 'ArrowDown', bubbles: true }));
  same('the next link', shown().activeElement.textContent, two.textContent);
  two.dispatchEvent(new KeyboardEvent('keydown', { key: 'Enter', bubbles: true }));
  same('the line of the Enter key', selected(), lines[two.dataset.line - 1]);

  // What is not as expected is red, and a refused line ends the run if nobody goes on.
  const refused = 'group /a\ntask x in /a\nx exit\nx read 0..1p\nexpect alive x\n';
  await run(refused);
  same('how a refused line ends', text('said').split(',')[0], 'not as expected');
  same('what is red', [...part('out').querySelectorAll('.refused')].map((line) => line.textContent).join(''), 'line 4  x read 0..1p: refused with ESRCH (x was never started, or has exited)\n');
  await set('go_on', true);
  same('what is red beyond', part('out').querySelectorAll('.refused').length, 2);
  await set('go_on', false);

  // A fault is shown with its word.
  await run('group /pod\n  group /a b\n');
  same('a fault', text('err').slice(0, 15), 'scenario:2:12: ');
  same('how a fault ends', text('said').split(',')[0], 'stopped at line 2');
  same('the faulty word is shown', selected(), 'b');
  same('nothing beside a fault', text('out') + picture(), 'null');
  links('err')[0].click();
  same('the word of a click', selected(), 'b');
}

// A run that takes too long is stopped, and the page stays alive meanwhile.
async function tryStop() {
  type('group /a\ntask x in /a\nx write 1M\nrepeat 1000000\n  x read\nend\n');
  part('run').click();
  await pause(600);
  same('what a long run shows', text('said'), 'running …');
  same('a long run can be stopped', part('stop').disabled, false);
  part('stop').click();
  await ended();
  same('how a stopped run ends', /^stopped after \d+\.\d s$/.test(text('said')), true);
  same('a stopped run can not be stopped again', part('stop').disabled, true);
  await run('group /a\nexpect /a current 0\n');
  same('a run after one that was stopped', text('said').split(',')[0], 'as expected');
  // A later run ends the one before it.
  type('group /a\ntask x in /a\nx write 1M\nrepeat 1000000\n  x read\nend\n');
  part('run').click();
  await run('group /a\nexpect /a current 1p\n');
  same('a run in place of another', text('out').split('\n')[0], 'line 2  expect /a current 1p: NOT MET, 0 KiB');
}

async function tryScripts(examples) {
  const mine = part('text').value;
  await setKind('script');
  same('the first script', part('example').value, 'script/pod');
  same('the name of the text', text('name'), 'Script');
  await setKind('scenario');
  same('the scenario that was there', part('text').value, mine);
  await choose('script/over_limit');
  same('the kind of the example', kind(), 'script');
  await drawn();
  same('the example that was chosen', part('text').value, examples.find((each) => each.kind === 'script' && each.name === 'over_limit').text);

  part('labels').checked = false;
  await run('group /a\ntask 1 /a\n1 write 0 0 7\n1 read 0 0\n');
  same('answers', text('out'), '1 7\n');
  same('no fault', text('err'), '');
  await drawn();

  const lastAnswer = () => text('out').trimEnd().split('\n').pop();
  await run(examples.find((each) => each.kind === 'script' && each.name === 'service_reads_a_log').text);
  same('placed by our own rule', lastAnswer(), '0');
  await set('as_linux', true);
  same('placed as Linux does', lastAnswer(), '163840');
  await set('as_linux', false);

  await run('group /a\ngroup /a b\ntask 1 /a\n');
  same('a fault of a script', text('err').startsWith('line 2: '), true);
  same('nothing beside it', text('out') + picture(), 'null');
  same('the faulty line is shown', selected(), 'group /a b');

  // A refused line is red, with its reason; the text of the answers is theirs alone.
  part('labels').checked = true;
  type('group /a\ngroup /a/b\nrmdir /a\ncat /a memory.current\n');
  await set('strict', true);
  const refused = part('out').querySelector('.refused');
  same('answers up to the first refused line', text('out'), '3: rmdir /a: error EBUSY\n');
  same('the reason beside it', refused && (refused.dataset.reason || '').startsWith('/a has child groups'), true);
  same('where it stopped', text('said').split(',')[0], 'stopped at line 3');
  await set('strict', false);
  same('answers after a refused line', text('out'), '3: rmdir /a: error EBUSY\n4: cat /a memory.current: 0\n');
  links('out')[1].click();
  same('the line of an answer', selected(), 'cat /a memory.current');

  // With explanations a refused line has its reason, and a kill too.
  type('group /a\nset /a memory.max 4096\ngroup /a/b\nrmdir /a\ntask 1 /a/b\n1 write 0 0 1\n1 write 1 0 1\n');
  await set('explain', true);
  const told = [...part('out').querySelectorAll('[data-reason]')].map((line) => line.textContent.trimEnd());
  same('lines with reasons', told.join(), '4: rmdir /a: error EBUSY,7: 1 write 1 0 1: killed 1');
  same('reasons beside their lines alone', text('err'), '');
  await set('explain', false);
}

// A script with `go` offers to run every order. An outcome leads to an order of its own, and there is a way back.
async function tryRaces(examples) {
  const race = examples.find((each) => each.isRace && each.name === 'three_at_a_limit');
  await run('group /a\n');
  same('nothing to explore', part('explore').hidden, true);
  await choose('script/three_at_a_limit');
  same('something to explore', part('explore').hidden, false);
  same('what can happen', text('out').split('\n')[0], '6 orders (device calls first), of 5 turns, have 2 outcomes');
  same('its title', text('title'), 'What can happen');
  same('how it ended', text('said').split(',')[0], 'all orders');
  same('no picture of many orders', picture(), null);
  const outcomes = [...part('out').querySelectorAll('[data-outcome]')];
  same('links to outcomes', outcomes.map((link) => link.textContent).join(''), 'outcome 1: 4 orders\noutcome 2: 2 orders\n');
  outcomes[1].click();
  await until('an order', () => part('text').value.includes('#> killed 2\n'));
  await ended();
  same('the answers of the order', text('title') + text('out').includes('killed 2'), 'Answerstrue');
  await drawn();
  part('back').click();
  await ended();
  same('back at the script', part('text').value, race.text);
  same('back at its outcomes', text('out').split('\n')[0], '6 orders (device calls first), of 5 turns, have 2 outcomes');
  same('nothing to go back to', part('back').hidden, true);
  part('run').click();
  await ended();
  same('the same script as a schedule', text('title'), 'Answers');

  // An exploration that takes long can be stopped too.
  type(examples.find((each) => each.isRace && each.name === 'max_lowered_and_a_writer').text);
  part('explore').click();
  await pause(200);
  same('what a long exploration shows', text('said'), 'running …');
  part('stop').click();
  await ended();
  same('how it is stopped', /^stopped after \d+\.\d s$/.test(text('said')), true);

  // A script that can't be explored says why.
  await run('group /a\nrmdir /b\ngo\nrmdir /a\n');
  part('explore').click();
  await ended();
  same('why not', text('err'), 'script: line 2: the setup fails: error ENOENT\n');
  same('the line that fails', selected(), 'rmdir /b');
}

// A link carries the text and its kind to another page. A link without a kind carries a script.
async function tryLinks() {
  const script = '# ü#%&\ngroup /b\ntask 1 /b\n1 write 0 0 9\n1 read 0 0\n';
  const page = frame().contentWindow.location.pathname;
  type(script);
  part('link').click();
  const link = frame().contentWindow.location.href;
  if (!await load(link)) return;
  same('the script of a link', part('text').value, script);
  same('its answers, with labels', text('out'), '5: 1 read 0 0: 1 9\n');
  if (!await load(`${page}#${encodeURIComponent(script)}`)) return;
  same('a script without its kind', kind() + part('text').value, `script${script}`);
  await setKind('scenario');
  await run('group /é=#&\nexpect /é=#& current 0\n');
  part('link').click();
  const other = frame().contentWindow.location.href;
  if (!await load(other)) return;
  same('the scenario of a link', kind() + part('text').value, 'scenariogroup /é=#&\nexpect /é=#& current 0\n');
}

async function tryRemembered() {
  const page = frame().contentWindow.location.pathname;
  await setKind('script');
  if (!await load(page)) return;
  same('the kind that was chosen last', kind() + part('example').value, 'scriptscript/pod');
  await setKind('scenario');
  if (!await load(page)) return;
  same('the kind that was chosen then', kind(), 'scenario');
}

async function tryPage(examples) {
  localStorage.removeItem('kind');
  if (!await load('../out/index.html')) return;
  await tryScenarios(examples);
  await tryStop();
  await tryScripts(examples);
  await tryRaces(examples);
  await tryLinks();
  await tryRemembered();
}

function measure(machine, examples, long) {
  const time = (what, run, rounds) => {
    const start = performance.now();
    for (let i = 0; i < rounds; i++) run();
    times[what] = (performance.now() - start) / rounds;
  };
  const textOf = (kind, name) => examples.find((each) => each.kind === kind && each.name === name).text;
  time('ms a run of over_limit', () => machine.schedule(textOf('script', 'over_limit')), 200);
  time('ms a run of pod.scenario', () => machine.simulate(textOf('scenario', 'pod')), 5);
  time('ms a long script', () => same('a long script', machine.schedule(long).status, 0), 1);
  times['lines a second'] = Math.round((long.split('\n').length / times['ms a long script']) * 1000);
}

addEventListener('load', async () => {
  let cases = [];
  try {
    const machine = await Memcgrun.of(await (await fetch('../out/memcgrun.wasm')).arrayBuffer());
    const given = await (await fetch('out/cases.json')).json();
    cases = given.cases;
    tryCases(machine, cases);
    await tryPage(given.examples);
    measure(machine, given.examples, given.long);
  } catch (fault) {
    fail('an error', `${fault} ${fault.stack}`);
  }
  await fetch('/report', { method: 'POST', body: JSON.stringify({ cases: cases.length, faults, times }) });
});
