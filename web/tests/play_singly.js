// Plays each order of a scene singly: no situation is merged with another. Of the wishes of one release, those that
// come to the same are one order.
// @ts-check
import { NewName, Over } from '../engine/over.js';
import { Stage } from '../engine/stage.js';

/** @typedef {import('../engine/stage.js').Way} Way */
/** A choice: which way is taken, of how many, and what the ways before it came to.
 * @typedef {{way: number, count: number, seen: Set<string>}} Choice */
/** @typedef {{outcome: string, history: string}} Run */

/** Whether the choice came to something that no way before it came to.
 * @param {Choice} choice @param {Stage} stage @param {number} from @param {number} who @param {unknown} end */
function isOther(choice, stage, from, who, end) {
  const seats = stage.actors.map((it) => [it.place, it.on, it.next && it.next.line]);
  const came = JSON.stringify([who, stage.story.slice(from), seats, stage.data, end]);
  const isNew = !choice.seen.has(came);
  choice.seen.add(came);
  return isNew;
}

/** @param {() => void} step */
function endOf(step) {
  try {
    step();
    return '';
  } catch (fault) {
    if (!(fault instanceof Over)) throw fault;
    return fault.outcome;
  }
}

/** Plays one order, the choices of which are kept; null if it comes to the same as another, from that choice on.
 * @param {Way} way @param {string[]} names @param {Choice[]} choices @param {number} fresh the first choice that is new
 * @returns {Run | null} */
function playOne(way, names, choices, fresh) {
  const stage = new Stage(way, names);
  let end = endOf(() => stage.begin());
  for (let at = 0; !end; at++) {
    const found = stage.options(), from = stage.story.length;
    if (!found.length) {
      end = endOf(() => stage.testEnd()) || 'right';
      break;
    }
    if (at === choices.length) choices.push({ way: 0, count: found.length, seen: new Set() });
    const [actor, wish] = found[choices[at].way];
    end = endOf(() => stage.move(actor, wish));
    if (at >= fresh && !isOther(choices[at], stage, from, actor.i, end)) {
      choices.length = at + 1;
      return null;
    }
  }
  return { outcome: end, history: stage.history() };
}

/** Goes to the next order. Answers the first choice that is new, or -1 if that was the last order.
 * @param {Choice[]} choices @returns {number} */
function advance(choices) {
  while (choices.length && choices[choices.length - 1].way + 1 === choices[choices.length - 1].count) choices.pop();
  if (choices.length) choices[choices.length - 1].way += 1;
  return choices.length - 1;
}

/** Plays on; a condition that was not known before makes that order begin again.
 * @param {Way} way @param {string[]} names @param {Choice[]} choices @param {number} fresh @returns {Run | null} */
function playOn(way, names, choices, fresh) {
  try {
    return playOne(way, names, choices, fresh);
  } catch (fault) {
    if (!(fault instanceof NewName)) throw fault;
    return playOn(way, names, choices, Math.max(0, choices.length - 1));
  }
}

/** Each order of the scene under the kind.
 * @param {Way} way @returns {Run[]} */
export function playSingly(way) {
  /** @type {string[]} */
  const names = [];
  /** @type {Run[]} */
  const runs = [];
  /** @type {Choice[]} */
  const choices = [];
  for (let fresh = 0; fresh >= 0; fresh = advance(choices)) {
    const run = playOn(way, names, choices, fresh);
    if (run) runs.push(run);
  }
  return runs;
}
