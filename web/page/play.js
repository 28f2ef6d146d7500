// A game: a kind, and the moves that were made in it.
// @ts-check
import { shortest } from '../engine/game.js';

/** @typedef {import('../engine/game.js').Played} Played */
/** @typedef {import('../engine/graph.js').Event} Event */

export class Play {
  /** @param {Played} kind @param {string[]} seats */
  constructor(kind, seats) {
    this.kind = kind;
    this.seats = seats;
    /** The ways that were taken.
     * @type {number[]} */
    this.path = [];
    /** The situations that were passed; the last is where the game is. */
    this.at = [0];
  }

  get now() {
    return this.kind.states[this.at[this.at.length - 1]];
  }

  /** Whether it ended, and not right. */
  get isBroken() {
    const { end } = this.now;
    return Boolean(end && end[0] !== 'right' && end[0] !== 'no such call');
  }

  /** Takes a way, if there is one of that number.
   * @param {number} way @returns {boolean} */
  choose(way) {
    const move = this.now.ways[way];
    if (!move) return false;
    this.path.push(way);
    this.at.push(move.to);
    return true;
  }

  undo() {
    if (!this.path.length) return;
    this.path.pop();
    this.at.pop();
  }

  restart() {
    this.path = [];
    this.at = [0];
  }

  /** The shortest way from here to an end that is not right.
   * @returns {number[] | null} */
  shortest() {
    return this.now.bad ? shortest(this.kind, this.at[this.at.length - 1]) : null;
  }

  /** Each event so far, with the number of the move that made it.
   * @returns {{event: Event, move: number}[]} */
  events() {
    const told = (/** @type {number} */ way, /** @type {number} */ i) => this.kind.states[this.at[i]].ways[way].told;
    return this.path.flatMap((way, i) => told(way, i).map((event) => ({ event, move: i })));
  }

  /** Who came in between the signal and the seat that it woke; for a run that is stuck, the signals that found nobody.
   * @returns {string} */
  between() {
    const { end } = this.now, all = this.events().map(({ event }) => event);
    if (end && end[0] === 'stuck') return this.lost(all);
    const name = (/** @type {number} */ i) => this.seats[i];
    const who = this.seats.indexOf(end ? end[1] : '');
    const goes = (/** @type {Event} */ it) => /^(comes in|goes on)$/.test(it[1]);
    const on = all.map(([seat, words]) => seat === who && words === 'goes on').lastIndexOf(true);
    const served = (/** @type {string} */ words) => (words.match(/^signals .*?: (.*?)(;|$)/) || ['', ''])[1].split(', ');
    const by = all.slice(0, on + 1).map(([, words]) => served(words).includes(name(who))).lastIndexOf(true);
    if (on < 0 || by < 0) return '';
    const came = [...new Set(all.slice(by + 1, on).filter(goes).map(([seat]) => name(seat)))];
    const signaller = name(all[by][0]);
    const then = came.length ? `${came.join(' and ')} came in between` : `${signaller} itself went on`;
    return `${signaller} signalled, ${then}, and ${name(who)} went on.`;
  }

  /** The signals that found nobody.
   * @param {Event[]} all @returns {string} */
  lost(all) {
    const lost = all.filter(([, words]) => /^signals .*nobody waits/.test(words));
    return [...new Set(lost.map(([seat, words]) => `${this.seats[seat]} ${words}.`))].join(' ');
  }
}
