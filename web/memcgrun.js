// Runs scenarios and scripts in the module memcgrun.wasm. Each call has an instance of its own: the memory of a module
// never shrinks, and an instance that an error stopped must not be called again.
'use strict';

class Memcgrun {
  // bytes: the module, as it was fetched or read.
  static async of(bytes) {
    return new Memcgrun(await WebAssembly.compile(bytes));
  }

  constructor(compiled) {
    this.compiled = compiled;
  }

  // What a script prints, as { status, out, err }: a status of Memcgrun.STATUS, and the two texts of `memcgrun
  // schedule`. These call the file `script`. The options are those of the program: labels, strict, asLinux, explain,
  // quiet and summary are true or false, and turns is a number.
  schedule(script, { turns = 0, ...asked } = {}) {
    return this.#call('page_schedule', script, () => [turns, flagsOf(asked, FLAGS)]);
  }

  // The picture that `memcgrun chart` draws, SVG, in the same form. It takes turns, asLinux and explain.
  chart(script, { turns = 0, ...asked } = {}) {
    return this.#call('page_chart', script, () => [turns, flagsOf(asked, FLAGS)]);
  }

  // What `memcgrun simulate` prints of a scenario, in the same form. The texts call the file `scenario`. prints is
  // 'report', 'chart', 'csv' or 'json'. settings is a list of texts NAME=WORD, and groups a list of paths. every and
  // depth are numbers. goOn is true or false.
  simulate(scenario, { prints = 'report', settings = [], groups = [], every = 0, depth = 0, ...asked } = {}) {
    if (!(prints in PRINTS)) throw new Error(`nothing prints ${prints}`);
    const flags = flagsOf(asked, { goOn: 1 });
    return this.#call('page_simulate', scenario, (put) => [put(linesOf(settings)), put(linesOf(groups)), PRINTS[prints], every, depth, flags]);
  }

  // The script of a scenario, as `memcgrun expand` prints it. It takes settings, and cuts, a list of numbers.
  expand(scenario, { settings = [], cuts = [], ...asked } = {}) {
    flagsOf(asked, {});
    const lengths = BigUint64Array.from(cuts, BigInt);
    return this.#call('page_expand', scenario, (put) => [put(linesOf(settings)), put(new Uint8Array(lengths.buffer)), BigInt(lengths.length)]);
  }

  // What `memcgrun explore` prints of a script, in the same form: all that can happen in its work. orders, sample, seed,
  // show and turns are numbers. asLinux, every and wait are true or false.
  explore(script, { orders = 0, sample = 0, seed = 0, show = 0, turns = 0, ...asked } = {}) {
    const flags = flagsOf(asked, { asLinux: 1, every: 2, wait: 4 });
    return this.#call('page_explore', script, () => [...[orders, sample, seed, show].map(BigInt), turns, flags]);
  }

  // A call of module.c. more gives its arguments between the text and the place of the answers. It is passed what puts
  // bytes into the module's memory and returns their place.
  #call(call, text, more) {
    const { exports } = new WebAssembly.Instance(this.compiled, {});
    const put = (bytes) => {
      const at = exports.malloc(BigInt(bytes.length));
      if (!at) throw new Error('no memory for the text');
      new Uint8Array(exports.memory.buffer).set(bytes, Number(at));
      return at;
    };
    const given = typeof text === 'string' ? encoded(text) : text;
    const texts = put(new Uint8Array(32));
    const status = exports[call](put(given), BigInt(given.length), ...more(put), texts);
    // A text is the place of its bytes, and their number.
    const read = (at) => {
      const [from, length] = new BigUint64Array(exports.memory.buffer, Number(at), 2);
      return new TextDecoder().decode(new Uint8Array(exports.memory.buffer, Number(from), Number(length)));
    };
    const answer = { status, out: read(texts), err: read(texts + 16n) };
    if (status === Memcgrun.STATUS.BAD_OPTIONS) throw new Error(answer.err.trimEnd());
    if (status === Memcgrun.STATUS.NO_MEMORY && !answer.err) throw new Error('no memory for the answers');
    return answer;
  }
}

// What a call answers, as memcgrun.h has it.
Memcgrun.STATUS = Object.freeze({ OK: 0, BAD_SCRIPT: 1, NO_MEMORY: 2, REFUSED: 3, DIFFERS: 4, BAD_OPTIONS: 5 });

// As memcgrun.h has them.
const PRINTS = { report: 0, chart: 1, csv: 2, json: 3 };

// The bits of the flags of module.c.
const FLAGS = { labels: 1, strict: 2, asLinux: 4, explain: 8, quiet: 16, summary: 32 };

function flagsOf(asked, bits) {
  return Object.entries(asked).reduce((flags, [name, value]) => {
    if (!bits[name]) throw new Error(`no option is called ${name}`);
    return value ? flags | bits[name] : flags;
  }, 0);
}

const encoded = (text) => new TextEncoder().encode(text);

// A line for each text, and a 0.
const linesOf = (texts) => encoded(`${texts.join('\n')}\0`);

if (typeof module !== 'undefined') module.exports = { Memcgrun };
