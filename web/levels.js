// Levels. A level is a text in the notation with a head of comments: what to do, and what was learned. The monitor is
// the player's, and the threads are the level's own. A teacher writes one, and sends it as a link.
// @ts-check
import { KINDS, MAY_WAKE_UNASKED, realLock, titleOf } from './engine/kinds.js';
import { Fault } from './notation/tokens.js';

/**
 * The goal is break (find an order that goes wrong under `kind`), claim (say that there is none), predict (say who goes
 * on, under `kinds`) or repair (right in every order under `kinds`). `first` is a kind to break before a repair.
 * @typedef {{name: string, goal: string, kind: string, kinds: string[], first: string, unasked: number,
 *   without: string[], learned: string, read: string, monitor: string, threads: string}} Level
 */
/** @typedef {import('./engine/game.js').Played} Played */

const HEAD = /^\/\/ (\w+): *(.*)$/, FIRST_LINE = /^\/\/ level: /, GOALS = ['break', 'claim', 'predict', 'repair'];
/** The kind that is nearest to what most students know: POSIX, Java. */
const MESA = 'NPNB';
const FIELDS = ['level', 'goal', 'first', 'unasked', 'without', 'learned', 'read'];
const THREADS = /^(daemon +)?thread\b/m, LINK = /^[A-Z]+\.md#[a-z0-9-]+$/;

/** Whether a text is a level's.
 * @param {string} text */
export const isLevel = (text) => FIRST_LINE.test(text);

/** The kinds that a field names; all ten if it names none.
 * @param {string} words @param {number} line @returns {string[]} */
function kindsOf(words, line) {
  const found = words.split(/[ ,]+/).filter(Boolean), strange = found.find((it) => !KINDS.includes(it));
  if (strange) throw new Fault(line, `there is no kind ${strange}: write only kinds there, of ${KINDS.join(', ')}`);
  return found.length ? found : KINDS;
}

/** The fields of the head, with their lines.
 * @param {string[]} lines @returns {Map<string, {words: string, line: number}>} */
function headOf(lines) {
  const fields = new Map();
  for (let i = 0; HEAD.test(lines[i] || ''); i++) {
    const [, name, words] = /** @type {string[]} */ (lines[i].match(HEAD));
    if (!FIELDS.includes(name)) throw new Fault(i + 1, `a level has no ${name}: its head has ${FIELDS.join(', ')}`);
    fields.set(name, { words: words.trim(), line: i + 1 });
  }
  return fields;
}

/** Reads a level. A Fault says what its head lacks.
 * @param {string} text @returns {Level} */
export function levelOf(text) {
  const lines = text.split('\n'), head = headOf(lines), body = lines.slice(head.size).join('\n').replace(/\s*$/, '\n');
  const of = (/** @type {string} */ name) => head.get(name) || { words: '', line: 1 };
  const { words, line } = of('goal'), [goal, ...rest] = words.split(' '), kinds = kindsOf(rest.join(' '), line);
  if (!GOALS.includes(goal)) throw new Fault(line, `write // goal: and one of ${GOALS.join(', ')}, with its kinds`);
  const isOne = goal === 'break' || goal === 'claim', first = of('first');
  if (isOne && kinds.length !== 1) throw new Fault(line, `${goal} needs one kind, as in // goal: ${goal} NPNB`);
  if (first.words && !/^break \w+$/.test(first.words)) throw new Fault(first.line, 'write // first: break and one kind');
  const at = body.search(THREADS);
  if (at < 0) throw new Fault(lines.length, 'there is no thread: write thread name { .. } after the monitor');
  return { name: of('level').words || 'A level', goal, kind: isOne ? kinds[0] : '', kinds,
    first: first.words ? kindsOf(first.words.slice('break '.length), first.line)[0] : '',
    unasked: Number(of('unasked').words) ? 1 : 0, without: of('without').words.split(/[ ,]+/).filter(Boolean),
    learned: of('learned').words, read: LINK.test(of('read').words) ? of('read').words : '',
    monitor: body.slice(0, at), threads: body.slice(at) };
}

/** What is to be done, in words.
 * @param {Level} level @param {boolean} isBroken whether what comes first is done @returns {string} */
export function taskOf(level, isBroken) {
  const asked = level.unasked ? ' A waiter may be woken unasked, once.' : '';
  const find = `find an order that goes wrong under ${titleOf(isBroken ? level.kind : level.first || level.kind)}`;
  if (level.first && !isBroken) return `First break it: ${find}.${asked}`;
  if (level.goal === 'break') return `Break it: ${find}.${asked}`;
  if (level.goal === 'claim') return `Try to ${find}, or say that there is none.${asked}`;
  const under = level.kinds.map(titleOf).join(' and ');
  if (level.goal === 'predict') return `When one signals or leaves, click who is inside next, under ${under}.`;
  const kinds = level.kinds.length === KINDS.length ? 'all ten kinds' : level.kinds.join(', ');
  const without = level.without.length ? `, without ${level.without.join(' or ')}` : '';
  return `Change the monitor (click its text): make it right in every order under ${kinds}${without}.${asked}`;
}

/** What a repair lacks: '' if nothing.
 * @param {Level} level @param {string} monitor @param {Record<string, Played>} played @returns {string} */
export function lacks(level, monitor, played) {
  const bare = monitor.replace(/\/\/[^\n]*|\/\*[^]*?\*\//g, ''), word = level.without.find((it) =>
    new RegExp(`\\b${it}\\b`).test(bare));
  if (word) return `This level is without ${word}.`;
  if (THREADS.test(bare)) return 'The threads are the level\u2019s own: take yours out.';
  const bad = level.kinds.find((kind) => played[kind] && played[kind].bad);
  if (bad) return `${bad}: ${played[bad].bad} of ${played[bad].runs} orders go wrong.`;
  const missing = level.kinds.find((kind) => !played[kind]);
  return missing ? `${missing} is not played yet.` : '';
}

/** Why nobody could do a level as it is given, for the teacher who writes it: '' if nothing is in the way.
 * @param {Level} level @param {Record<string, Played>} played
 * @param {unknown} [isUnasked] whether wake-ups unasked are played @returns {string} */
export function unfit(level, played, isUnasked = level.unasked) {
  const { goal, kind, first, monitor } = level, broken = goal === 'break' ? kind : first;
  const bad = (/** @type {string} */ it) => (played[it] ? played[it].bad : 0);
  const real = MAY_WAKE_UNASKED.includes(broken) ? ` ${realLock(isUnasked)}` : '';
  if (played[broken] && !bad(broken)) return `No order goes wrong under ${broken}: nobody can find one.${real}`;
  if (goal === 'claim' && bad(kind)) return `An order goes wrong under ${kind}: nobody can claim that none does.`;
  return goal === 'repair' && !lacks(level, monitor, played) ? 'It is right already: there is nothing to repair.' : '';
}

/** The kind that a level begins with.
 * @param {Level} level @returns {string} */
export function firstOf({ first, kind, goal, kinds }) {
  return first || kind || (goal === 'repair' && kinds.includes(MESA) ? MESA : kinds[0]);
}

/** The head of a level that came by a link.
 * @param {Level} level @returns {string} */
export function headerOf(level) {
  const goal = level.kind || (level.kinds.length === KINDS.length ? '' : level.kinds.join(', '));
  const first = level.first ? [`first: break ${level.first}`] : [];
  const lines = [`level: ${level.name}`, `goal: ${level.goal} ${goal}`.trim(), ...first,
    ...(level.unasked ? ['unasked: 1'] : []), ...(level.without.length ? [`without: ${level.without.join(', ')}`] : []),
    ...(level.learned ? [`learned: ${level.learned}`] : []), ...(level.read ? [`read: ${level.read}`] : [])];
  return lines.map((it) => `// ${it}\n`).join('');
}
