// A text in the notation as a function that makes its scene. This is the only place that makes code of a text.
// @ts-check
import { Fault } from './tokens.js';
import { rewritten } from './rewrite.js';

/** What a compiled text is given: see `Scene` in the engine.
 * @typedef {any} Maker */

/** @param {string} body @returns {(maker: Maker) => void} */
const functionOf = (body) => /** @type {any} */ (new Function('$', `'use strict';const assert=$.assert;${body}`));

/** @param {string} body @returns {string} */
function wrongWith(body) {
  try {
    functionOf(body);
  } catch (fault) {
    return /** @type {Error} */ (fault).message;
  }
  return '';
}

/** The function that makes the scene of a text; a Fault says why there is none.
 * @param {string} source */
export function compiled(source) {
  const text = rewritten(source), whole = text.written(text.tokens), wrong = wrongWith(whole);
  if (!wrong) return functionOf(whole);
  // the first line from which on every longer text is wrong
  let { line } = text.at(text.length);
  while (line > 1 && wrongWith(text.upTo(line - 1))) line -= 1;
  throw new Fault(line, `this can't be read (${wrong})`);
}
