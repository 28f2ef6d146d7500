// The level that is played: what is to be done, what is done, and the riddle whose answers are shown afterwards.
// @ts-check
import { promiseOf } from '../engine/kinds.js';
import { taskOf } from '../levels.js';
import { button, byId, make } from './dom.js';
import { questionsOf } from './questions.js';

/** @typedef {import('../levels.js').Level} Level */
/** @typedef {import('../engine/game.js').Played} Played */
/** @typedef {import('./questions.js').Question} Question */

/** What is shown above the code. `goes` leads to the next level, `resets` takes back what was changed.
 * @typedef {{level: Level | null, number: number, isMet: boolean, isBroken: boolean, isOwn: boolean, more: string,
 *   about: string, goes: (() => void) | null, resets: (() => void) | null}} Goal */

/** @param {Goal} goal */
export function showGoal({ level, number, isMet, isBroken, isOwn, more, about, goes, resets }) {
  const place = byId('goal');
  place.className = isMet ? 'card met' : 'card';
  place.replaceChildren();
  if (!level) {
    place.append(make('span', '', about));
    return;
  }
  const name = isOwn ? `Your level: ${level.name}` : `${number ? `${number}. ` : ''}${level.name}`;
  place.append(make('b', '', `${name.replace(/([^?!.])$/, '$1.')} `));
  if (!isMet) place.append(make('span', '', taskOf(level, isBroken)));
  if (level.first && isBroken && !isMet) place.append(make('span', 'good', ' Broken. '));
  if (more) place.append(make('span', 'bad', ` ${more}`));
  if (isMet) place.append(' ', learned(level), ...(goes ? [button('Next level', goes, 'next')] : []));
  if (resets) place.append(' ', button('The level\u2019s text again', resets));
}

/** @param {Level} level */
function learned(level) {
  const words = level.learned ? ` Learned: ${level.learned}. ` : ' ';
  const found = make('span', '', make('span', 'good', '\u2713 Done.'), words);
  if (level.read) {
    const link = make('a', '', 'Read more');
    link.href = level.read;
    found.append(link, ' ');
  }
  return found;
}

/** What stands in place of the game until the questions begin.
 * @param {string} kind the first that is played */
export function showSoon(kind) {
  ['around', 'box', 'choices', 'end', 'log'].forEach((id) => byId(id).replaceChildren());
  byId('asks').textContent = byId('fault').textContent ? '' : 'The questions follow as soon as every order is played.';
  showRule(kind);
}

/** @param {string} kind */
const showRule = (kind) => byId('say').replaceChildren(make('span', 'rule', promiseOf(kind)));

/** A row of questions on who goes on. */
export class Riddle {
  /** @param {string[]} seats @param {(question: Question) => void} show
   * @param {(atOnce: number, of: number) => void} done */
  constructor(seats, show, done) {
    this.seats = seats;
    this.show = show;
    this.done = done;
    /** @type {Question[]} */
    this.asked = [];
    this.at = this.atOnce = this.tries = 0;
  }

  /** @param {Played[]} kinds */
  begin(kinds) {
    this.asked = kinds.flatMap(questionsOf);
    this.ask();
  }

  ask() {
    const it = this.asked[this.at];
    if (!it) {
      this.done(this.atOnce, this.asked.length);
      return;
    }
    this.show(it);
    const name = this.seats[it.move.who], line = it.state.lines[it.move.who];
    const rows = this.seats.map((own, seat) => make('li', '', button(own, () => this.answer(seat))));
    byId('asks').textContent = `${this.at + 1} of ${this.asked.length}, under ${it.kind}: now ${name}, at line ${line}, ` +
      `${it.says}. Who is inside then?`;
    byId('choices').replaceChildren(...rows);
    byId('told').replaceChildren();
    showRule(it.kind);
  }

  /** @param {number} seat */
  answer(seat) {
    const it = this.asked[this.at], told = byId('told');
    this.tries += 1;
    if (seat !== it.answer) {
      told.className = 'bad';
      told.textContent = `Not ${this.seats[seat]}. ${promiseOf(it.kind)}`;
      return;
    }
    this.atOnce += Number(this.tries === 1);
    this.tries = 0;
    this.at += 1;
    told.className = 'good';
    told.replaceChildren(`Yes: ${this.seats[seat]}. ${it.rule} `);
    const next = button(this.at < this.asked.length ? 'Next' : 'Done', () => this.ask());
    byId('choices').replaceChildren(make('li', '', next));
    next.focus();
  }
}
