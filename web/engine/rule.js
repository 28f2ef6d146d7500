// Why this seat goes on, as a sentence. It says what the kernel did, by the kind's priorities; it decides nothing.
// @ts-check
import { QUEUES, RANKS } from './kinds.js';

/** @typedef {import('./stage.js').Stage} Stage */
/** Who is in each queue, by seats.
 * @typedef {Record<string, number[]>} Where */
/** Where all were before a move, and whose it was.
 * @typedef {{where: Where, who: number}} Before */
/** A seat at the head of a queue: the rank and the number of the queue.
 * @typedef {{rank: number, queue: number, seat: number}} Front */

/** What a move gave up: who was served, if it was a signal that found somebody.
 * @param {[number, string][]} told */
function releaseOf(told) {
  const words = (told.find(([, it]) => /^(leaves|waits|signals)/.test(it)) || [0, ''])[1];
  return { words, served: (words.match(/^signals .*?: (.*?)(;|$)/) || ['', ''])[1], isLost: /nobody waits/.test(words) };
}

/** Who is at the head of each queue when somebody is chosen.
 * @param {Stage} stage @param {Before} before @param {string} served @param {number | undefined} goes
 * @returns {Front[]} */
function frontsOf(stage, before, served, goes) {
  const { where } = before, fronts = ['entry', 'waiter', 'signaller'].map((queue) => (where[queue] || [])[0]);
  if (served && fronts[1] === undefined) fronts[1] = stage.actors.findIndex((it) => it.name === served);
  if (served && stage.mode !== 'immediate return' && fronts[2] === undefined) fronts[2] = before.who;
  if (stage.isAutomatic && goes !== undefined && goes !== fronts[0]) fronts[1] = goes;
  return fronts.map((seat, queue) => ({ rank: RANKS[stage.kind][queue], queue, seat }))
    .filter(({ seat }) => seat !== undefined);
}

/** @param {Stage} stage @param {Before} before @param {number | undefined} goes who is inside afterwards
 * @param {[number, string][]} told @returns {string} */
export function ruleOf(stage, before, goes, told) {
  const { words, served, isLost } = releaseOf(told), { kind, mode } = stage;
  if (!words) return '';
  if (isLost && mode !== 'immediate return') return 'Nobody waited there: the signal is lost.';
  if (served && mode === 'non-blocking') return `${kind}: a signal gives nothing up. ${served} has to come in again later.`;
  const gives = mode === 'immediate return' ? 'a signal is the way out' : 'who signals gives way';
  const start = served ? `${kind}: ${gives}. ` : '', fronts = frontsOf(stage, before, served, goes);
  if (!fronts.length || goes === undefined) return `${start}Nobody else may come in: the monitor is free.`;
  const name = (/** @type {Front} */ it) => stage.seat(it.seat).name;
  if (fronts.length === 1) return `${start}Nobody else is there: ${stage.seat(goes).name} goes on.`;
  const top = Math.max(...fronts.map(({ rank }) => rank)), best = fronts.filter(({ rank }) => rank === top);
  const queues = best.map(({ queue }) => QUEUES[queue]).join(' and ');
  if (best.length > 1) return `${start}${kind} puts ${queues} level: it was your choice.`;
  const after = fronts.filter((it) => it !== best[0]).map(name).join(' and ');
  return `${start}${kind} puts ${queues} first: ${name(best[0])} goes before ${after}.`;
}
