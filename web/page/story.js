// The choices of a game, what happened so far with the rule that decided each step, and how it ended.
// @ts-check
import { promiseOf, realLock } from '../engine/kinds.js';
import { button, byId, make, many, styleOf } from './dom.js';

/** @typedef {import('./play.js').Play} Play */
/** @typedef {import('./editor.js').Chip} Chip */
/** @typedef {(way: number) => void} Choose */

const NTH = ['first', '2nd', '3rd', '4th', '5th', '6th', '7th', '8th'];
const FREE = /^(outside|inside|done)$/;

/** @param {Play} play @param {number} seat @returns {string} */
const placeOf = (play, seat) => Object.keys(play.now.where).find((it) => play.now.where[it].includes(seat)) || 'outside';

/** Whose turn it is after a move, by what it makes happen: another's, or its own.
 * @param {import('../engine/game.js').Move} move @returns {number} */
export function nextOf({ who, told }) {
  const at = told.findIndex(([, words]) => /^(leaves|waits|signals)/.test(words));
  const found = told.slice(at + 1).find(([, words]) => /^(comes in|goes on)$/.test(words));
  return found ? found[0] : who;
}

/** A move in words. Where it is a choice of who comes next, it names that one, and where it waits.
 * @param {Play} play @param {import('../engine/game.js').Move} move @returns {string} */
function wordsOf(play, move) {
  const { who, says, wish } = move, next = nextOf(move), place = placeOf(play, next), { seats } = play;
  const then = next === who ? ' and goes on' : `, then ${seats[next]} (${place.startsWith('on ') ? place : `${place} queue`})`;
  return `${seats[who]} ${says}${wish ? then : ''}`;
}

/** @param {Play} play @param {Choose} choose */
export function showChoices(play, choose) {
  const { seats, now } = play;
  const rows = now.ways.map((move, i) => {
    const it = button('', () => choose(i));
    it.append(make('b', '', String(i + 1)), wordsOf(play, move));
    return make('li', '', it);
  });
  seats.forEach((name, seat) => {
    const place = placeOf(play, seat);
    if (FREE.test(place) || now.end) return;
    const at = now.where[place].indexOf(seat), what = place.startsWith('on ') ? `to wait ${place}` : `in the ${place} queue`;
    rows.push(make('li', 'cannot', `${name} can\u2019t move: it is ${NTH[at] || `${at + 1}th`} ${what}`));
  });
  if (!now.ways.length) rows.push(make('li', 'cannot', 'Nobody: the run is over.'));
  byId('choices').replaceChildren(...rows);
}

/** The threads at their lines; who can move does so by a click.
 * @param {Play} play @param {Choose} choose
 * @returns {{line: number, chip: Chip}[]} */
export function chipsOf(play, choose) {
  const { seats, now } = play, { end } = now, fault = end && Number((end[2].match(/line (\d+)/) || [])[1]);
  return now.lines.map((own, seat) => {
    const isBad = end && end[0] === 'wrong' && end[1] === seats[seat], ways = now.ways.map((way, i) => ({ ...way, i }));
    const moves = ways.filter(({ who }) => who === seat).map((way) => ({
      words: way.wish ? seats[nextOf(way)] : '', does: () => choose(way.i) }));
    const style = isBad ? 'wrong' : styleOf(placeOf(play, seat));
    return { line: isBad && fault ? fault : own, chip: { name: seats[seat], style, moves } };
  }).filter(({ line }) => line > 0);
}

/** @param {Play} play */
export function showStory(play) {
  const all = play.events(), last = all.filter(({ move }) => move === play.path.length - 1), { seats } = play;
  const said = last.flatMap(({ event: [seat, words, rule] }) =>
    [make('span', 'event', `${seats[seat]} ${words}.`), ...(rule ? [make('span', 'rule', rule)] : [])]);
  const start = 'You are the scheduler: who is outside may arrive, who is inside goes on, and where a kind leaves it open ' +
    'you say who comes next. An order goes wrong if an assert fails, or if somebody waits for ever.';
  const begun = [start, promiseOf(play.kind.kind)].map((it) => make('span', 'rule', it));
  byId('say').replaceChildren(...(play.path.length ? said : begun));
  byId('log').replaceChildren(...all.map(({ event: [seat, words] }) => make('li', '', `${seats[seat]} ${words}`)));
  byId('log').scrollTop = byId('log').scrollHeight;
  showEnd(play);
}

/** @param {Play} play */
function showEnd(play) {
  const { end } = play.now, { kind, runs, bad } = play.kind, place = byId('end');
  place.className = end && end[0] === 'right' ? 'good' : 'bad';
  place.replaceChildren();
  if (!end) return;
  const [outcome, who, why] = end;
  if (outcome === 'right') place.append(`This order is right.${bad ? ' Another is not.' : ''} Undo, or begin again.`);
  else if (outcome === 'no such call') place.append(`${why}: this scene can\u2019t be said under ${kind}.`);
  else {
    const what = `${outcome === 'stuck' ? 'Stuck: ' : who ? `${who}: ` : ''}${why}.`;
    place.append(make('b', '', `You broke ${kind}, in ${many(play.path.length, 'move')}. `), make('span', '', what),
      make('p', '', play.between()),
      make('p', 'rule', `${bad.toLocaleString('en')} of ${many(runs, 'order')} ${bad === 1 ? 'goes' : 'go'} wrong. ${promiseOf(kind)}`));
  }
}

/** What is said of a kind under which every order is right.
 * @param {import('../engine/game.js').Played} played @returns {string} */
export function rightOf({ kind, mode, runs }) {
  const real = mode === 'non-blocking' ? ` ${realLock(byId('unasked').checked)}` : '';
  return `all ${runs.toLocaleString('en')} orders are right under ${kind}.${real}`;
}

/** What a hint says.
 * @param {Play} play @param {number} times how often it was asked for here @returns {string} */
export function hintOf(play, times) {
  const { orders, bad, end } = play.now, moves = play.shortest();
  if (end) return '';
  if (!moves) {
    const back = play.kind.bad ? ' Undo.' : '';
    return `From here ${orders === 1 ? 'the only order goes' : `all ${orders.toLocaleString('en')} orders go`} right.${back}`;
  }
  if (times > 1) byId('choices').querySelectorAll('button')[moves[0]].classList.add('hinted');
  const more = times > 1 ? ' Its first move is marked.' : ' Ask again for its first move.';
  const wrong = `${bad.toLocaleString('en')} of ${many(orders, 'order')} ${bad === 1 ? 'goes' : 'go'} wrong`;
  return `From here ${wrong}; the shortest takes ${many(moves.length, 'more move')}.${more}`;
}
