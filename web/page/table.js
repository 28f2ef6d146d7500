// The ten kinds: which one is played, and what came of each.
// @ts-check
import { remembered, worstOf } from '../engine/game.js';
import { KINDS, promiseOf, realLock } from '../engine/kinds.js';
import { byId, listed, make } from './dom.js';

/** @typedef {import('../engine/game.js').Played} Played */
/** What is shown of the kinds: what was played, which one is on, whether outcomes are hidden, and what is called done.
 * @typedef {{played: Record<string, Played>, on: string, isHidden: boolean, take: (kind: string) => void}} Table */

/** From here on a number is rounded, as in 1.5M. */
const SHORT = 100000, COMPACT = /** @type {const} */ ({ notation: 'compact', maximumFractionDigits: 1 });

/** Whether the scene can be said under the kind. */
export const isSaid = remembered((kind) => !kind.states.some(({ end }) => end && end[0] === 'no such call'));

/** What came of a kind: in short, what a small screen leaves out, and the class.
 * @param {Played | undefined} kind @param {boolean} isHidden @returns {[string, string, string]} */
function outcomeOf(kind, isHidden) {
  if (!kind) return ['\u2026', '', ''];
  if (!isSaid(kind)) return ['not said', '', 'missing'];
  if (isHidden) return ['?', '', ''];
  const [runs, bad] = [kind.runs, kind.bad].map((n) => n.toLocaleString('en', n < SHORT ? {} : COMPACT));
  return kind.bad ? [`\u2717 ${bad}`, ` of ${runs}`, 'broken'] : [`\u2713 ${runs}`, '', 'safe'];
}

/** @param {Table} table */
export function showKinds({ played, on, isHidden, take }) {
  byId('kinds').replaceChildren(...KINDS.map((name) => {
    const [words, more, style] = outcomeOf(played[name], isHidden), said = make('span', '', words, make('span', 'wide', more));
    const element = make('button', style, make('b', '', name), said);
    element.setAttribute('role', 'radio');
    element.setAttribute('aria-checked', String(name === on));
    element.tabIndex = name === on ? 0 : -1;
    element.title = promiseOf(name);
    element.disabled = !played[name] || !isSaid(played[name]);
    element.addEventListener('click', () => take(name));
    return element;
  }));
}

/** What came of all kinds, in words.
 * @param {Played[]} all @param {string} more what is said above @returns {string} */
export function verdictOf(all, more) {
  const bad = all.filter((it) => it.bad && isSaid(it)), unsaid = all.filter((it) => !isSaid(it));
  const right = all.filter((it) => !it.bad);
  const names = (/** @type {Played[]} */ some) => listed(some.map((it) => it.kind));
  const parts = [];
  if (bad.length) {
    const [outcome, who, why] = worstOf(bad[0]) || ['', '', ''];
    const first = `${bad[0].kind}: ${outcome === 'stuck' ? 'stuck, ' : who ? `${who}: ` : ''}${why}`;
    parts.push(`Wrong under ${names(bad)}. ${first}.`);
  }
  if (right.length) parts.push(right.length === all.length ? 'Right in every order under every kind.' : `Right in every order under ${names(right)}.`);
  const real = realLock(byId('unasked').checked), isMesa = right.some((it) => it.mode === 'non-blocking');
  if (isMesa && !more.includes(real)) parts.push(real);
  if (unsaid.length) parts.push(`It can\u2019t be said under ${names(unsaid)}.`);
  return parts.join(' ');
}
