// The page: it takes a scenario or a script, and shows its answers, its faults and its picture.
'use strict';

// The examples and the version, from another file of the page.
const examples = typeof EXAMPLES === 'undefined' ? [] : EXAMPLES;
if (typeof VERSION !== 'undefined') part('version').textContent = VERSION;

// A run that takes longer is shown to be under way, in milliseconds.
const SOON = 200;

const isChecked = (id) => part(id).checked;

// For each kind of text: its name, its calls with their options, and what the page says after a run.
const KINDS = {
  scenario: {
    name: 'Scenario',
    answer: () => ['simulate', { goOn: isChecked('go_on') }],
    draw: () => ['simulate', { goOn: isChecked('go_on'), prints: 'chart' }],
    ended: { [Memcgrun.STATUS.OK]: 'as expected', [Memcgrun.STATUS.DIFFERS]: 'not as expected' },
  },
  script: {
    name: 'Script',
    answer: () => ['schedule', { labels: isChecked('labels'), explain: isChecked('explain'), strict: isChecked('strict'), asLinux: isChecked('as_linux') }],
    draw: () => ['chart', { asLinux: isChecked('as_linux') }],
    ended: { [Memcgrun.STATUS.OK]: 'ran to the end' },
  },
};

// Makes calls in a worker, so that the page stays alive, one at a time. A call is stopped by ending its worker.
class Machine {
  #module;
  #worker;
  #stop = null;

  constructor(module) {
    this.#module = module;
    this.#begin();
  }

  #begin() {
    this.#worker = new Worker('worker.js');
    this.#worker.postMessage({ module: this.#module });
  }

  // The answer of a call of Memcgrun, or null if it is stopped.
  call(text, [call, options]) {
    this.stop();
    return new Promise((resolve, reject) => {
      const end = (settle, value) => {
        this.#stop = null;
        settle(value);
      };
      const renew = (settle, value) => {
        this.#worker.terminate();
        this.#begin();
        end(settle, value);
      };
      this.#stop = () => renew(resolve, null);
      this.#worker.onmessage = ({ data }) => ('fault' in data ? end(reject, new Error(data.fault)) : end(resolve, data.answer));
      this.#worker.onerror = ({ message }) => renew(reject, new Error(message || 'worker.js is missing beside this page'));
      this.#worker.postMessage({ call, text, options });
    });
  }

  stop() {
    if (this.#stop) this.#stop();
  }
}

// One machine answers, and another draws at the same time.
let machines = null;

const kindNow = () => document.querySelector('[name=kind]:checked').value;

// The module draws the picture. It is shown as an image, so that nothing in it can be run.
function showChart(drawn) {
  const old = part('chart').firstChild;
  part('chart').replaceChildren();
  if (old) URL.revokeObjectURL(old.src);
  if (!drawn || !drawn.out.startsWith('<svg ')) return;
  const picture = new Image();
  picture.alt = 'What each group is charged with after each line of the text';
  picture.src = URL.createObjectURL(new Blob([drawn.out], { type: 'image/svg+xml' }));
  part('chart').append(picture);
}

function showAnswer(kind, { status, out, err }, took) {
  const place = placeIn(err);
  const ended = KINDS[kind].ended[status];
  showAnswers(kind, out, err);
  // If a run came to its end and its lines have numbers, explanations are below their lines.
  showMessages(ended && isChecked('labels') ? '' : err);
  part('said').textContent = `${ended || (place ? `stopped at line ${place.line}` : 'stopped')}, ${took.toFixed(1)} ms`;
  if (!ended && place) goTo(place.line, place.column);
}

function showNothing(said, err) {
  part('out').replaceChildren();
  showMessages(err);
  showChart(null);
  part('said').textContent = said;
}

// The last run. A run that is no longer the last shows nothing.
let last = null;

// Makes the call `answer` and, if there is one, the call `draw`. Each is a name with its options.
async function runOnce(text, answer, draw, show) {
  const mine = {};
  last = mine;
  const start = performance.now();
  const took = () => performance.now() - start;
  const soon = setTimeout(() => { part('said').textContent = 'running …'; }, SOON);
  try {
    const drawn = draw && machines.draw.call(text, draw).catch(() => null);
    const answered = await machines.answer.call(text, answer);
    clearTimeout(soon);
    if (last !== mine) return;
    if (answered) show(answered, took());
    else showNothing(`stopped after ${(took() / 1000).toFixed(1)} s`, '');
    const picture = await drawn;
    if (last === mine) showChart(picture);
  } catch (fault) {
    if (last === mine) showNothing('', `This text is more than the page can run: ${fault.message}`);
  } finally {
    clearTimeout(soon);
    if (last === mine) setBusy(false);
  }
}

function setBusy(isBusy) {
  part('answers').setAttribute('aria-busy', isBusy);
  part('stop').disabled = !isBusy;
}

function begin(text, answer, draw, show) {
  if (!machines) return;
  setBusy(true);
  runOnce(text, answer, draw, show);
}

function run() {
  const kind = kindNow();
  begin(part('text').value, KINDS[kind].answer(), KINDS[kind].draw(), (answer, took) => showAnswer(kind, answer, took));
}

// ---- all that can happen

// The line after which the actors of a script work at the same time.
const GO = /^[ \t]*go[ \t]*$/m;

function offerToExplore() {
  part('explore').hidden = kindNow() !== 'script' || !GO.test(part('text').value);
}

// The script that was explored last, and how.
let explored = null;

function showExplored({ status, out, err }, took) {
  const ended = { [Memcgrun.STATUS.OK]: 'all orders', [Memcgrun.STATUS.DIFFERS]: 'not all orders' }[status];
  const place = placeIn(err);
  showOutcomes(out);
  showMessages(err);
  part('said').textContent = `${ended || 'stopped'}, ${took.toFixed(1)} ms`;
  if (!ended && place) goTo(place.line, place.column);
}

function explore() {
  explored = { text: part('text').value, asked: { asLinux: isChecked('as_linux') } };
  begin(explored.text, ['explore', explored.asked], null, showExplored);
}

// Puts an order with this outcome into the editor, as a script that expects its answers, and runs it.
function showOrder(number) {
  begin(explored.text, ['explore', { ...explored.asked, show: number }], null, ({ out }) => {
    choose('script', out, '');
    part('back').hidden = false;
    run();
  });
}

function goBack() {
  choose('script', explored.text, '');
  explore();
}

function stop() {
  for (const machine of Object.values(machines)) machine.stop();
}

// ---- texts

// The text of each kind, while the other one is shown.
const texts = {};

const nameOf = ({ kind, name }) => `${kind}/${name}`;
const exampleOf = (named) => examples.find((example) => nameOf(example) === named);

function remember(kind) {
  try {
    localStorage.setItem('kind', kind);
  } catch {
    // A browser that keeps nothing begins with a scenario again.
  }
}

function remembered() {
  try {
    return localStorage.getItem('kind') === 'script' ? 'script' : 'scenario';
  } catch {
    return 'scenario';
  }
}

// The kind of the text that is shown.
let kindShown = '';

// Shows a text of a kind. `named` is the example that it is, if it is one.
function choose(kind, text, named) {
  if (kindShown) texts[kindShown] = [part('text').value, part('example').value];
  kindShown = kind;
  document.querySelector(`[name=kind][value=${kind}]`).checked = true;
  part('name').textContent = KINDS[kind].name;
  for (const options of document.querySelectorAll('[data-kind]')) options.hidden = options.dataset.kind !== kind;
  setText(text);
  part('example').value = named;
  part('back').hidden = true;
  offerToExplore();
}

// Shows the text of this kind that was shown before, or an example.
function change(kind) {
  const first = exampleOf(`${kind}/pod`);
  choose(kind, ...(texts[kind] || (first ? [first.text, nameOf(first)] : ['', ''])));
}

// ---- links

// A link carries the text after its # and its kind. A link without a kind carries a script.
function linked() {
  const [, kind = 'script', text] = /^#(?:(scenario|script)=)?(.*)$/s.exec(location.hash) || [];
  try {
    return text ? { kind, text: decodeURIComponent(text) } : null;
  } catch {
    return null;
  }
}

async function copyLink() {
  history.replaceState(null, '', `#${kindNow()}=${encodeURIComponent(part('text').value)}`);
  try {
    await navigator.clipboard.writeText(location.href);
    part('said').textContent = 'link copied';
  } catch {
    part('said').textContent = 'the link is in the address line';
  }
}

// ---- the beginning

// Gets the module, or says what is wrong and what to do.
async function moduleOf() {
  if (location.protocol === 'file:') throw new Error('A browser loads the module only from a server. web/serve starts one.');
  const answer = await fetch('memcgrun.wasm', { cache: 'no-cache' });
  if (!answer.ok) throw new Error(`The module memcgrun.wasm is missing beside this page (${answer.status} ${answer.statusText}). web/page makes the whole folder.`);
  const bytes = await answer.arrayBuffer();
  try {
    return await WebAssembly.compile(bytes);
  } catch (fault) {
    throw new Error(`This browser can't run the module, which uses 64-bit memories of WebAssembly: ${fault.message}`);
  }
}

function listExamples() {
  const groups = [...Object.entries(KINDS).map(([kind, { name }]) => [`${name}s`, kind, false]), ['What can happen', 'script', true]];
  for (const [label, kind, isRace] of groups) {
    const group = document.createElement('optgroup');
    group.label = label;
    for (const example of examples.filter((each) => each.kind === kind && each.isRace === isRace)) {
      group.append(new Option(`${example.name}: ${example.says}`, nameOf(example)));
    }
    part('example').append(group);
  }
}

function chooseFirst() {
  const first = linked();
  if (first) choose(first.kind, first.text, '');
  else change(remembered());
}

function chooseExample() {
  const example = exampleOf(part('example').value);
  if (!example) return;
  choose(example.kind, example.text, nameOf(example));
  remember(example.kind);
  history.replaceState(null, '', location.pathname + location.search);
  if (example.isRace) explore();
  else run();
}

function listen() {
  part('run').addEventListener('click', run);
  part('explore').addEventListener('click', explore);
  part('back').addEventListener('click', goBack);
  part('stop').addEventListener('click', stop);
  part('link').addEventListener('click', copyLink);
  part('example').addEventListener('change', chooseExample);
  part('text').addEventListener('input', () => {
    part('example').value = '';
    offerToExplore();
  });
  part('text').addEventListener('keydown', (event) => { if (event.key === 'Enter' && (event.ctrlKey || event.metaKey)) run(); });
  part('kinds').addEventListener('change', () => {
    change(kindNow());
    remember(kindNow());
    run();
  });
  for (const option of document.querySelectorAll('[data-kind] input')) option.addEventListener('change', run);
  addEventListener('hashchange', () => {
    const given = linked();
    if (!given) return;
    choose(given.kind, given.text, '');
    run();
  });
}

async function start() {
  listExamples();
  chooseFirst();
  listen();
  try {
    const module = await moduleOf();
    machines = { answer: new Machine(module), draw: new Machine(module) };
  } catch (fault) {
    showNothing('not loaded', fault.message);
    return;
  }
  part('run').disabled = false;
  part('explore').disabled = false;
  run();
}

start();
