// Questions of a level that asks who goes on. The answers are what the kernel did.
// @ts-check

/** @typedef {import('../engine/game.js').Played} Played */
/** @typedef {import('../engine/game.js').Situation} Situation */
/** @typedef {import('../engine/game.js').Move} Move */
/** A situation, the move that is made in it, and the seat that is inside after it, with the rule.
 * @typedef {{kind: string, state: Situation, move: Move, says: string, answer: number, rule: string}} Question */

const MANY = 3;

/** The question that a move is, if somebody waits for what it gives up.
 * @param {Played} kind @param {Situation} state @param {Move} move @returns {Question | null} */
function questionOf(kind, state, move) {
  const [answer] = kind.states[move.to].where.inside || [], isAwaited = Object.keys(state.where).some((queue) =>
    /^on |entry|waiter|signaller/.test(queue));
  const signal = (move.told.find(([, words]) => /^signals .*: /.test(words)) || [0, ''])[1];
  const isRelease = signal || (state.where.waiter && /^leaves/.test(move.says));
  if (!isRelease || move.wish || answer === undefined || !isAwaited) return null;
  const says = move.says === 'arrives' ? `comes in, and ${signal.replace(/[:;].*/, '')}` : move.says;
  const rule = (move.told.find((event) => event[2]) || [0, '', ''])[2] || '';
  return { kind: kind.kind, state, move, says, answer, rule };
}

/** Three of a kind, from its beginning, its middle and towards its end.
 * @param {Played} kind @returns {Question[]} */
export function questionsOf(kind) {
  const found = kind.states.flatMap((state) => state.ways.map((move) => questionOf(kind, state, move)));
  const asked = found.filter((it) => it !== null), all = /** @type {Question[]} */ (asked);
  return Array.from({ length: MANY }, (_, i) => all[Math.floor((i * all.length) / MANY)]).filter(Boolean);
}
