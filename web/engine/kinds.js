// The ten kinds of monitor: their names, modes, and what a sentence says of their priorities. Nothing here decides who
// goes on: the kernel does.
// @ts-check

/** In the order of the kernel's numbers. */
export const KINDS = ['PB', 'NPB', 'PNB', 'NPNB', 'PQB', 'NPQB', 'PIR', 'NPIR', 'PIS', 'NPIS'];
const MODES = ['blocking', 'non-blocking', 'quasi-blocking', 'immediate return', 'automatic'];
/** Who knows the kind by another name.
 * @type {Record<string, string>} */
const KNOWN_AS = { PB: 'Hoare', NPNB: 'Mesa; near POSIX, Java, Go', PNB: 'Mesa, waiters first', PIR: 'Concurrent Pascal',
  PIS: 'automatic', NPIS: 'automatic, level' };
/** The priorities of callers, waiters and signallers, for the sentence that says why.
 * @type {Record<string, number[]>} */
export const RANKS = { PB: [1, 3, 2], NPB: [1, 2, 1], PNB: [1, 2, 3], NPNB: [1, 1, 2], PQB: [1, 2, 2], NPQB: [1, 1, 1],
  PIR: [1, 2, 0], NPIR: [1, 1, 0], PIS: [1, 2, 0], NPIS: [1, 1, 0] };
export const QUEUES = ['callers', 'waiters', 'signallers'];
/** The wishes of a release, by the kernel's numbers. */
export const WISHES = ['entry', 'waiter', 'signaller'];
/** The kinds in which POSIX and Java may wake a waiter that nobody signalled. */
export const MAY_WAKE_UNASKED = ['PNB', 'NPNB'];

/** @param {string} kind @returns {string} */
export const modeOf = (kind) => MODES[KINDS.indexOf(kind) >> 1];

const COMES_BETWEEN = 'who was served is level with the callers: a caller may come in between.';
const SERVED_FIRST = 'The one who is served goes on at once, before anybody else. What held at the signal still holds.';
const NO_SIGNALS = 'There are no signals: at each release the tests are looked at anew. ';
/** What each kind promises.
 * @type {Record<string, string>} */
const PROMISE = {
  PB: SERVED_FIRST,
  NPB: SERVED_FIRST,
  PNB: 'The signaller goes on, but then who was served comes before every caller.',
  NPNB: `The signaller goes on, and ${COMES_BETWEEN}`,
  PQB: 'Signaller and served are level, and both come before every caller.',
  NPQB: 'Signaller, served and callers are level: any of them may come first.',
  PIR: 'The signal is the way out, and who was served comes before every caller.',
  NPIR: `The signal is the way out, and ${COMES_BETWEEN}`,
  PIS: `${NO_SIGNALS}Who waits for one that holds comes before every caller.`,
  NPIS: `${NO_SIGNALS}Who waits comes in only while its test holds.`,
};

/** What a lock of POSIX or Java does, and no non-blocking kind here.
 * @param {unknown} isUnasked whether wake-ups unasked are played, too @returns {string} */
export const realLock = (isUnasked) => 'Here whoever leaves hands the monitor on at once; a real lock may be taken ' +
  `again first. Add a thread that arrives meanwhile${isUnasked ? '' : ', or tick \u201cwake-ups unasked\u201d'}.`;

/** The kind, and who knows it by another name.
 * @param {string} kind @returns {string} */
export const titleOf = (kind) => `${kind}${KNOWN_AS[kind] ? ` (${KNOWN_AS[kind]})` : ''}`;

/** The same, and what it promises.
 * @param {string} kind @returns {string} */
export const promiseOf = (kind) => `${titleOf(kind)}: ${PROMISE[kind]}`;
