// The monitor with its queues, as it is in a situation.
// @ts-check
import { remembered } from '../engine/game.js';
import { byId, make, styleOf } from './dom.js';

/** @typedef {import('../engine/game.js').Played} Played */
/** @typedef {import('../engine/game.js').Situation} Situation */

/** @param {string} title @param {string} queue @param {Situation} state @param {string[]} seats */
function boxOf(title, queue, state, seats) {
  const chips = (state.where[queue] || []).map((seat) => make('span', `chip ${styleOf(queue)}`, seats[seat]));
  const box = make('div', `queue ${styleOf(queue)}`, make('span', 'title', title), make('span', 'chips', ...chips));
  return box;
}

/** The conditions on which somebody waits in some situation. */
const conditionsOf = remembered((kind) => [...new Set(kind.states.flatMap(({ where }) => Object.keys(where)))]
  .filter((queue) => queue.startsWith('on ')).sort());

/** @param {Played} kind @param {Situation} state @param {string[]} seats */
export function showBoard(kind, state, seats) {
  const box = (/** @type {string} */ title, /** @type {string} */ queue) => boxOf(title, queue, state, seats);
  const isAutomatic = kind.mode === 'automatic', gives = /^(quasi-)?blocking$/.test(kind.mode);
  const titleOf = (/** @type {string} */ queue) => (isAutomatic ? `waits until ${queue.slice(3)}` : queue);
  const conditions = conditionsOf(kind).map((queue) => box(titleOf(queue), queue));
  const inner = [box(`inside (${kind.kind}, ${kind.mode})`, 'inside'), ...conditions];
  if (!isAutomatic) inner.push(box('waiter queue', 'waiter'));
  if (gives) inner.push(box('signaller queue', 'signaller'));
  byId('around').replaceChildren(box('outside', 'outside'), box('entry queue \u2192', 'entry'), box('done', 'done'));
  byId('box').replaceChildren(...inner, make('p', 'data', state.data));
}
