// All that can happen in a scene under a kind. Each order is played from its beginning; two situations with the same
// places, call sites, queues, data and flags are one.
// @ts-check
import { NewName, Over } from './over.js';
import { ruleOf } from './rule.js';
import { Stage } from './stage.js';

/** @typedef {import('./actor.js').Actor} Actor */
/** @typedef {import('./rule.js').Where} Where */
/** An outcome, whose fault it is, and why.
 * @typedef {[string, string, string]} End */
/** An event: whose seat, words, and the rule behind it.
 * @typedef {[number, string, string?]} Event */
/**
 * A situation. `ways` are the moves from it: whose seat, the wish, words; `options` are how the stage makes them; `to`
 * and `told` say where each leads, and what it makes happen; `from` is how it was found first. In a forced one the only
 * move gives nothing up.
 * @typedef {{where: Where, lines: number[], data: string, ways: [number, string, string][], to: number[],
 *   options: [number, string][], told: Event[][], end: End | null, from: [number, number], isForced: boolean}} State
 */
/** Where a run was before a move, and the move.
 * @typedef {{at: number, way: number, option: import('./stage.js').Option, where: Where, who: number, count: number}} Before
 */

/** How many situations are looked through for one from which a run goes on. */
const MOST_STATES = 20000, UNKNOWN = -1, NEAR = 32;

/** What a way does, in words.
 * @param {Stage} stage @param {Actor} actor @param {string} wish @returns {string} */
function wordsOf(stage, actor, wish) {
  if (actor === stage.nobody) return `wakes one that waits on ${wish}, unasked`;
  if (actor.place === 'outside') return 'arrives';
  const { verb, name } = actor.call();
  if (verb === 'leave') return 'leaves';
  return `${verb === 'wait' ? 'waits on' : verb === 'signal' ? 'signals' : 'signals to all on'} ${name}`;
}

export class Graph {
  /** @param {import('./stage.js').Way} way @param {boolean} isKept whether each run's history is kept */
  constructor(way, isKept = false) {
    this.way = way;
    this.isKept = isKept;
    /** @type {string[]} */
    this.names = [];
    /** @type {State[]} */
    this.states = [];
    /** @type {Map<string, number>} */
    this.byKey = new Map();
    /** The outcome and the history of each run that was played.
     * @type {[string, string][]} */
    this.histories = [];
    this.isAnew = false;
  }

  explore() {
    this.replay([]);
    for (let at = 0; at < this.states.length; at++) {
      if (this.states.length > MOST_STATES) this.refuse();
      if (this.fill(at)) at = -1;
    }
  }

  /** @returns {never} */
  refuse() {
    const many = MOST_STATES.toLocaleString('en');
    throw new Error(`Too large: ${this.way.kind} has more than ${many} situations. Take a thread or a round away, or ` +
      'let the threads do less.');
  }

  /** Plays each way of a situation. Answers whether a condition was new, so that all begins again.
   * @param {number} at */
  fill(at) {
    for (let way = 0; way < this.states[at].ways.length; way++) {
      if (this.states[at].to[way] !== UNKNOWN) continue;
      this.isAnew = false;
      this.replay([...this.pathTo(at), way]);
      if (this.isAnew) return true;
    }
    return false;
  }

  /** The ways that lead to a situation.
   * @param {number} at @returns {number[]} */
  pathTo(at) {
    const path = [];
    for (let it = at; it; it = this.states[it].from[0]) path.unshift(this.states[it].from[1]);
    return path;
  }

  /** Plays that path, and from its end on what is not known yet.
   * @param {number[]} path */
  replay(path) {
    for (let rest = path; ; rest = []) {
      const stage = new Stage(this.way, this.names);
      try {
        this.play(stage, rest);
        return;
      } catch (fault) {
        if (!(fault instanceof NewName)) throw fault;
        this.states = [];
        this.byKey.clear();
        this.isAnew = true;
      }
    }
  }

  /** @param {Stage} stage @param {number[]} path */
  play(stage, path) {
    stage.isKnown = path.length > 0;
    let end = attempt(() => stage.begin()), before = path.length ? this.follow(stage, 0, path) : null;
    for (;;) {
      if (before) end = attempt(() => stage.move(.../** @type {Before} */ (before).option));
      const found = end ? [] : stage.options();
      if (!found.length && !end) end = attempt(() => stage.testEnd()) || ['right', '', ''];
      const where = look(stage, before), at = this.state(stage, where, found, before, end);
      this.link(stage, before, where, at);
      const more = end ? [] : this.onward(at);
      if (!more.length) break;
      before = this.follow(stage, at, more);
    }
    if (this.isKept && end) this.histories.push([end[0], stage.history()]);
  }

  /** The ways to the nearest one that isn't known, if it is near: so the run goes on, where another would begin anew.
   * If each history is wanted, it goes on anyhow.
   * @param {number} from @returns {number[]} */
  onward(from) {
    /** @type {{at: number, path: number[]}[]} */
    const near = [{ at: from, path: [] }], seen = new Set([from]);
    if (this.isKept) return [Math.max(0, this.states[from].to.indexOf(UNKNOWN))];
    for (const { at, path } of near) {
      const { to } = this.states[at], way = to.indexOf(UNKNOWN);
      if (way >= 0) return [...path, way];
      to.forEach((next, i) => near.length < NEAR && !seen.has(next) && seen.add(next) &&
        near.push({ at: next, path: [...path, i] }));
    }
    return [];
  }

  /** Makes all moves of the path but the last one. They were made before, so nothing is tested again.
   * @param {Stage} stage @param {number} from @param {number[]} path @returns {Before} */
  follow(stage, from, path) {
    const last = path.length - 1;
    let at = from;
    stage.isKnown ||= last > 0;
    for (const way of path.slice(0, last)) {
      stage.move(...this.option(stage, at, way));
      at = this.states[at].to[way];
    }
    if (stage.isKnown) stage.data = stage.variables(stage.actors[0]);
    stage.isKnown = false;
    return this.beforeOf(stage, at, path[last]);
  }

  /** @param {Stage} stage @param {number} at @param {number} way @returns {import('./stage.js').Option} */
  option(stage, at, way) {
    const [who, wish] = this.states[at].options[way];
    return [stage.seat(who), wish];
  }

  /** @param {Stage} stage @param {number} at @param {number} way @returns {Before} */
  beforeOf(stage, at, way) {
    const option = this.option(stage, at, way);
    return { at, way, option, where: this.states[at].where, who: option[0].i, count: stage.story.length };
  }

  /** Notes where the way before led.
   * @param {Stage} stage @param {Before | null} before @param {Where} where
   * @param {number} at */
  link(stage, before, where, at) {
    if (!before || this.states[before.at].to[before.way] !== UNKNOWN) return;
    this.states[before.at].to[before.way] = at;
    this.states[before.at].told[before.way] = tellOf(stage, before, where);
  }

  /** The number of the situation.
   * @param {Stage} stage @param {Where} where @param {import('./stage.js').Option[]} found
   * @param {Before | null} before @param {End | null} end @returns {number} */
  state(stage, where, found, before, end) {
    const key = keyOf(stage, where, end), known = this.byKey.get(key);
    if (known !== undefined) return known;
    const at = this.states.length, [only] = found;
    this.byKey.set(key, at);
    this.states.push({ where, lines: stage.actors.map((it) => (it.next ? it.next.line : 0)),
      data: stage.data.join(', '), to: found.map(() => UNKNOWN), told: found.map(() => []), end,
      ways: found.map(([it, wish]) => [it.i, it === stage.nobody ? '' : wish, wordsOf(stage, it, wish)]),
      options: found.map(([it, wish]) => [it.i, wish]),
      from: before ? [before.at, before.way] : [0, 0],
      isForced: found.length === 1 && only[0].place === 'inside' });
    return at;
  }

  /** The ways that differ: wishes that come to the same are one.
   * @param {State} state @returns {number[]} */
  apart(state) {
    const { ways, to, told } = state, isSame = (/** @type {number} */ one, /** @type {number} */ other) =>
      to[one] === to[other] && ways[one][0] === ways[other][0] && isSameTold(told[one], told[other]);
    const numbers = ways.map((_, way) => way);
    return numbers.filter((way) => numbers.findIndex((other) => isSame(other, way)) === way);
  }

  /** How many orders each situation has, and how many of them go wrong.
   * @returns {[number, number][]} */
  count() {
    /** @type {[number, number][]} */
    const done = [];
    /** @type {(at: number) => [number, number]} */
    const go = (at) => {
      const state = this.states[at];
      if (done[at]) return done[at];
      done[at] = state.end ? [1, Number(state.end[0] !== 'right')] : [0, 0];
      const ways = this.apart(state).map((way) => go(state.to[way]));
      done[at] = ways.reduce(([all, bad], [more, worse]) => [all + more, bad + worse], done[at]);
      return done[at];
    };
    go(0);
    return done;
  }
}

/** @param {Event[]} one @param {Event[]} other */
const isSameTold = (one, other) => one.length === other.length &&
  one.every((it, i) => it.length === other[i].length && it.every((part, k) => part === other[i][k]));

/** The end of a run, if the step ends it.
 * @param {() => void} step @returns {End | null} */
function attempt(step) {
  try {
    step();
    return null;
  } catch (fault) {
    if (!(fault instanceof Over)) throw fault;
    return [fault.outcome, fault.who, fault.why];
  }
}

/** Who is in each queue, in the order in which they came.
 * @param {Stage} stage @param {Before | null} before
 * @returns {Where} */
function look(stage, before) {
  const now = stage.actors.map((it) => (it.place === 'condition' ? `on ${it.on}` : it.place));
  const was = before ? before.where : /** @type {Where} */ ({ '': stage.actors.map((it) => it.i) });
  /** @type {Where} */
  const where = {};
  const put = (/** @type {number} */ i) => (where[now[i]] ||= []).push(i);
  for (const queue in was) was[queue].filter((i) => now[i] === queue).forEach(put);
  for (const queue in was) was[queue].filter((i) => now[i] !== queue).forEach(put);
  return where;
}

/** What tells a situation from others.
 * @param {Stage} stage @param {Where} where @param {End | null} end */
function keyOf(stage, where, end) {
  const { scene } = stage, objects = [scene.identities, scene.older];
  const seats = stage.actors.map((it) => `${it.place} ${it.site} ${it.next && it.next.site}`).join();
  const queues = Object.keys(where).sort().map((queue) => `${queue}: ${where[queue].join()}`);
  const seen = scene.isKept ? stage.actors.map((it) => it.seen) : [];
  const tests = [...stage.tests.keys()];
  return JSON.stringify([stage.unasked, seats, queues, stage.data, stage.told, tests, seen, end || objects]);
}

/** What a move made happen, with the rule behind it.
 * @param {Stage} stage @param {Before} before @param {Where} where
 * @returns {Event[]} */
function tellOf(stage, before, where) {
  const told = stage.story.slice(before.count);
  if (!told.length) {
    const isAtEntry = (where.entry || []).includes(before.who);
    return isAtEntry ? [[before.who, 'comes to the entry, and waits', 'The monitor is taken.']] : [];
  }
  const rule = ruleOf(stage, before, (where.inside || [])[0], told);
  const at = rule ? told.findIndex(([, words]) => /leaves|waits|signals/.test(words)) : -1;
  return told.map(([i, words], k) => (k === at ? [i, words, rule] : [i, words]));
}
