// What the page plays: the situations of a scene under each kind, packed. Words that stand often stand once.
// @ts-check
import { Graph } from './graph.js';
import { KINDS, modeOf } from './kinds.js';
import { sceneOf } from './scene.js';
import { actorsOf } from './actor.js';

/** @typedef {import('./graph.js').End} End */
/** @typedef {import('./graph.js').Event} Event */
/** @typedef {import('./rule.js').Where} Where */
/** A way: whose seat, the wish that it needs, words, where it leads, and what it makes happen.
 * @typedef {{who: number, wish: string, says: string, to: number, told: Event[]}} Move */
/** @typedef {{where: Where, lines: number[], data: string, orders: number, bad: number, end: End | null,
 *   ways: Move[]}} Situation */
/** A kind: all orders and the bad ones, and its situations, of which 0 is the first.
 * @typedef {{kind: string, mode: string, runs: number, bad: number, states: Situation[]}} Played */
/** What to play.
 * @typedef {{source: string, unasked?: number, kinds?: string[], isKept?: boolean}} Asked */
/** @typedef {{seats: string[], kinds: Record<string, Played>, histories: Record<string, [string, string][]>}} Game */

/** The situations that one can be asked in: the moves that give nothing up are made at once.
 * @param {Graph} graph @returns {Played} */
function packed(graph) {
  const done = graph.count(), kept = [0], numbers = new Map([[0, 0]]);
  /** @type {Situation[]} */
  const states = [];
  const go = (/** @type {number} */ at, /** @type {number} */ way, /** @type {number[]} */ apart) => {
    const state = graph.states[at], [who, wish, says] = state.ways[way];
    const isOpen = apart.filter((other) => state.ways[other][0] === who).length > 1;
    let to = state.to[way], told = state.told[way];
    for (; graph.states[to].isForced; to = graph.states[to].to[0]) told = told.concat(graph.states[to].told[0]);
    if (!numbers.has(to)) numbers.set(to, kept.push(to) - 1);
    return { who, wish: isOpen ? wish : '', says, to: Number(numbers.get(to)), told };
  };
  for (let i = 0; i < kept.length; i++) {
    const { where, lines, data, end } = graph.states[kept[i]], apart = graph.apart(graph.states[kept[i]]);
    const [orders, bad] = done[kept[i]];
    states.push({ where, lines, data, orders, bad, end, ways: apart.map((way) => go(kept[i], way, apart)) });
  }
  return { kind: graph.way.kind, mode: modeOf(graph.way.kind), runs: done[0][0], bad: done[0][1], states };
}

/** Plays each order of a text under each kind. `each` is told of each kind that is done.
 * @param {import('./kernel.js').Kernel} kernel @param {Asked} asked
 * @param {(kind: Played, seats: string[]) => void} [each]
 * @returns {Game} */
export function gameOf(kernel, { source, unasked = 0, kinds = KINDS, isKept = false }, each = () => {}) {
  const make = sceneOf(source), seats = actorsOf(make().programs).map((it) => it.name).concat(unasked ? ['nobody'] : []);
  /** @type {Game} */
  const game = { seats, kinds: {}, histories: {} };
  for (const kind of kinds) {
    const graph = new Graph({ kernel, make, kind, unasked }, isKept);
    graph.explore();
    game.kinds[kind] = packed(graph);
    game.histories[kind] = graph.histories;
    each(game.kinds[kind], seats);
  }
  return game;
}

/** Remembers what is said of a kind, since each move asks for it, and its situations are many.
 * @template T @param {(kind: Played) => T} say @returns {(kind: Played) => T} */
export function remembered(say) {
  /** @type {WeakMap<Played, {said: T}>} */
  const known = new WeakMap();
  return (kind) => {
    const found = known.get(kind) || { said: say(kind) };
    known.set(kind, found);
    return found.said;
  };
}

/** The end that a kind shows first: what it can't say, what goes wrong, what is stuck. */
export const worstOf = remembered(worstNow);

/** @param {Played} kind @returns {End | null} */
function worstNow(kind) {
  const ends = kind.states.map((it) => it.end), of = (/** @type {string} */ outcome) =>
    ends.find((end) => end && end[0] === outcome);
  return of('no such call') || of('wrong') || of('stuck') || null;
}

/** The moves from a situation to the nearest end that is not right.
 * @param {Played} kind @param {number} from
 * @returns {number[] | null} */
export function shortest(kind, from) {
  /** @type {Map<number, [number, number] | null>} */
  const before = new Map([[from, null]]);
  for (const at of before.keys()) {
    const { end, ways } = kind.states[at];
    if (end && end[0] !== 'right') return pathOf(before, at);
    ways.forEach(({ to }, way) => {
      if (!before.has(to) && kind.states[to].bad) before.set(to, [at, way]);
    });
  }
  return null;
}

/** @param {Map<number, [number, number] | null>} before @param {number} end @returns {number[]} */
function pathOf(before, end) {
  const moves = [];
  for (let it = before.get(end); it; it = before.get(it[0])) moves.unshift(it[1]);
  return moves;
}
