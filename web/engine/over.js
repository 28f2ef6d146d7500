// How a run ends before its end, and how it begins anew.
// @ts-check

/** The run is over: it went wrong, it is stuck, or its kind has no such call. */
export class Over extends Error {
  /** @param {string} outcome @param {string} who the thread, or '' @param {string} why */
  constructor(outcome, who, why) {
    super(why);
    this.outcome = outcome;
    this.who = who;
    this.why = why;
  }
}

/** A condition that was not known before: the run begins again with one more. */
export class NewName extends Error {}

const UNKNOWN = /^(?:Can't find variable: )?([\w$]+)(?: is not defined)?$/;

/** What JavaScript says of a fault, in words.
 * @param {unknown} fault @returns {string} */
export function inWords(fault) {
  const { message } = /** @type {Error} */ (fault), unknown = message.match(UNKNOWN);
  if (!(fault instanceof ReferenceError) || !unknown) return message;
  return `nothing is called ${unknown[1]} here (a monitor's variables are known to its own procedures only)`;
}
