// A scene: the programs of its threads, the data of its monitor, and what must hold. One is made for each run.
// @ts-check
import { compiled } from '../notation/compile.js';

/**
 * A call of the monitor, as a program hands it over: what, in which line, at which place of the text, on which
 * condition; for a wait also what ends it, whether its condition has several waits, and whether its test names
 * variables of the thread's own.
 * @typedef {{verb: string, line: number, site: number, name: string, until?: () => unknown, isMany?: boolean,
 *   isOwn?: boolean}} Call
 */
/** @typedef {{name: string, begin: () => Generator<Call, void, void>, keeps: boolean}} Program */
/** @typedef {{line: number, test: () => unknown}} Held */
/** @typedef {{line: number, site: number, last: number}} Place */

/** A program that makes so many steps without a call goes round and round. */
const MOST_STEPS = 50000, MOST_THREADS = 30;

/** A value in words, as JSON has it, but for what JSON would lose. Two situations with the same words are taken for
 * one,
 * so what can't be told apart is refused.
 * @param {unknown} it @param {Set<object>} seen @returns {string} */
function told(it, seen) {
  if (typeof it === 'string') return JSON.stringify(it);
  if (typeof it === 'function') throw new Error('a variable of the monitor may be no function');
  if (typeof it !== 'object' || it === null) return String(it);
  if (seen.has(it)) throw new Error('an array or an object has two names: give the second one a copy, as in [...items]');
  seen.add(it);
  const all = (/** @type {unknown[]} */ parts) => parts.map((part) => told(part, seen)).join();
  if (Array.isArray(it)) return `[${all(it)}]`;
  if (it instanceof Map || it instanceof Set) return `${it.constructor.name} [${all([...it])}]`;
  return `{${Object.entries(it).map(([name, part]) => `${name}: ${told(part, seen)}`).join()}}`;
}

export class Scene {
  constructor() {
    /** @type {Program[]} */
    this.programs = [];
    /** @type {(() => Record<string, unknown>)[]} */
    this.data = [];
    /** @type {Held[]} */
    this.tests = [];
    /** @type {Held[]} */
    this.ends = [];
    /** The threads that may stay waiting.
     * @type {Set<string>} */
    this.mayWait = new Set();
    this.line = this.steps = 0;
    /** Whether a program keeps values. */
    this.isKept = false;
    /** The line of the last statement. */
    this.last = 0;
    /** How many wait on a condition: the stage says it.
     * @type {(name: string) => number} */
    this.waiting = () => 0;
    /** The arrays and objects that the data had.
     * @type {Map<object, number>} */
    this.numbers = new Map();
    /** Which arrays and objects the data are now, if a program keeps values. */
    this.identities = '';
    this.older = '';
  }

  /** The step of a program. It answers true, so that it can stand in a test.
   * @param {number} line */
  step(line) {
    this.line = this.last = line;
    this.steps += 1;
    if (this.steps > MOST_STEPS) throw new Error('goes round and round without a call of the monitor');
    return true;
  }

  /** @param {Call} call @returns {Call} */
  call(call) {
    this.line = call.line;
    this.steps = 0;
    if (call.name === undefined) throw new Error('there is no such condition');
    return call;
  }

  /** A visit of the monitor: it comes in, does the routine, and leaves.
   * @param {Place} place @param {(...given: any[]) => any} routine @param {unknown[]} given */
  * visit(place, routine, given) {
    yield this.call({ verb: 'enter', line: place.line, site: place.site, name: '' });
    const made = routine(...given), answer = made && made.next && made.throw ? yield* made : made;
    yield this.call({ verb: 'leave', line: place.last, site: -1, name: '' });
    this.line = place.line;
    return answer;
  }

  /** @param {{name: string, count: number, isDaemon: boolean, keeps: boolean, body: (me: number) => any}} of */
  thread({ name, count, isDaemon, keeps, body }) {
    this.isKept ||= keeps;
    for (let me = 0; me < (count || 1); me++) {
      const own = count ? `${name}${me}` : name;
      this.programs.push({ name: own, begin: () => body(me), keeps });
      if (isDaemon) this.mayWait.add(own);
    }
    if (this.programs.length > MOST_THREADS) throw new Error(`${MOST_THREADS} threads are the most: write fewer`);
  }

  /** The variables, each with its value in words.
   * @returns {string[]} */
  variables() {
    /** @type {string[]} */
    const found = [], seen = new Set();
    for (const it of this.data) {
      const values = it();
      for (const name in values) found.push(`${name} = ${told(values[name], seen)}`);
    }
    if (this.isKept) this.identify(seen);
    return found;
  }

  /** Notes which arrays and objects the data are. A program that keeps values may still hold one that the data had
   * before, so the words of those belong to the situation, too.
   * @param {Set<object>} now */
  identify(now) {
    for (const it of now) {
      if (!this.numbers.has(it)) this.numbers.set(it, this.numbers.size);
    }
    this.identities = [...now].map((it) => this.numbers.get(it)).join(' ');
    this.older = [...this.numbers.keys()].filter((it) => !now.has(it)).map((it) => told(it, new Set())).join(' ');
  }

  /** What the compiled text is given. */
  maker() {
    return Object.assign((/** @type {number} */ line) => this.step(line), {
      of: {}, data: this.data, tests: this.tests, ends: this.ends,
      many: (/** @type {string} */ name, /** @type {number} */ n) =>
        Array.from({ length: n }, (_, i) => `${name}[${i}]`),
      call: (/** @type {Call} */ call) => this.call(call),
      visit: (/** @type {Place} */ place, /** @type {any} */ routine, /** @type {any[]} */ given) =>
        this.visit(place, routine, given),
      waiting: (/** @type {string} */ name) => this.waiting(name),
      thread: (/** @type {any} */ of) => this.thread(of),
      assert: (/** @type {unknown} */ test, /** @type {string} */ words) => {
        if (!test) throw new Error(words || 'the assertion fails');
      },
    });
  }
}

/** What makes the scene of a text anew, for each run. A Fault says why there is none.
 * @param {string} source @returns {() => Scene} */
export function sceneOf(source) {
  const make = compiled(source);
  return () => {
    const scene = new Scene();
    make(scene.maker());
    return scene;
  };
}
