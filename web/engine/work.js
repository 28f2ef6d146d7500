// The engine beside the page, in a worker: it is given the kernel once, and then texts to play.
// @ts-check
import { Fault } from '../notation/tokens.js';
import { gameOf } from './game.js';
import { Kernel } from './kernel.js';

/** What the page sends.
 * @typedef {{wasm?: Uint8Array, id?: number, source?: string, unasked?: number, kinds?: string[]}} Order */

/** @param {unknown} fault @returns {string} */
function saidOf(fault) {
  const it = /** @type {Error} */ (fault);
  if (it instanceof RangeError) return 'This is too deep: a function calls itself without an end, or the data are too large.';
  return it instanceof Fault || it.name === 'Error' ? it.message : String(it);
}

/** Answers each order: a message for each kind that is played, and one at the end.
 * @param {any} scope of the worker */
export function serve(scope) {
  /** @type {Promise<Kernel> | null} */
  let ready = null;
  const answer = async (/** @type {Order} */ { wasm, id, source, unasked, kinds }) => {
    if (wasm) ready = Kernel.of(wasm);
    const kernel = await ready;
    if (!kernel || source === undefined) return;
    gameOf(kernel, { source, unasked, kinds }, (played, seats) => scope.postMessage({ id, played, seats }));
    scope.postMessage({ id, isDone: true });
  };
  scope.onmessage = (/** @type {{data: Order}} */ { data }) => {
    answer(data).catch((fault) => scope.postMessage({ id: data.id, fault: saidOf(fault), line: fault.line || 0 }));
  };
}
