// A thread of a run: its program, where it is, and what it does next.
// @ts-check

/** @typedef {import('./scene.js').Call} Call */
/**
 * Its place is outside, entry, inside, condition, waiter, signaller or done. `site` is the visit that it makes, and
 * `seen` is what it found at each step, if its program keeps values.
 */
export class Actor {
  /** @param {string} name @param {number} i its seat @param {Generator<Call, void, void> | null} steps
   * @param {boolean} keeps */
  constructor(name, i, steps, keeps) {
    this.name = name;
    this.i = i;
    this.steps = steps;
    this.keeps = keeps;
    this.place = 'outside';
    this.site = -1;
    /** @type {Call | null} */
    this.next = null;
    /** The condition that it waits on, or the test that it waits for. */
    this.on = '';
    /** @type {string[]} */
    this.seen = [];
  }

  /** Whether it waits for its turn. */
  waits() {
    return /^(entry|condition|waiter|signaller)$/.test(this.place);
  }

  /** Its next call.
   * @returns {Call} */
  call() {
    if (!this.next) throw new Error(`${this.name} makes no call`);
    return this.next;
  }
}

/** The threads of a scene. Two of one name get numbers.
 * @param {import('./scene.js').Program[]} programs
 * @returns {Actor[]} */
export function actorsOf(programs) {
  const names = programs.map((it) => it.name);
  return programs.map((it, i) => {
    const isAlone = names.indexOf(it.name) === names.lastIndexOf(it.name);
    const number = names.slice(0, i + 1).filter((name) => name === it.name).length;
    return new Actor(isAlone ? it.name : `${it.name}${number}`, i, it.begin(), it.keeps);
  });
}
