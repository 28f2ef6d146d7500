// The kernel in WebAssembly, with one monitor at a time. c/monk_kernel.h says what each call answers.
// @ts-check
import { KINDS } from './kinds.js';

export const MOST_SEATS = 32, MOST_CONDITIONS = 8, MOST_FLAGS = 32;
/** The events of a seat. A program that spends them goes on and on. */
export const BUDGET = 256;
/** What a call answers: the seat is inside; or why it is refused. */
export const INSIDE = 3, SPENT = -2, NOT_OF_KIND = -3;
const TEXT = 1 << 16, WORD = 8;

/** @typedef {{kind: string, seats: number, conditions: number, flags: number}} Shape */

export class Kernel {
  /** @param {any} exports of an instance of the module */
  constructor(exports) {
    this.calls = exports;
    this.each = Number(exports.monk_k_seat_size());
    const room = (/** @type {number} */ n) => /** @type {bigint} */ (exports.room(BigInt(n)));
    this.tokens = room(WORD * MOST_SEATS);
    this.seats = room(this.each * MOST_SEATS);
    this.granted = room(WORD);
    this.text = room(TEXT);
    this.count = 0;
  }

  /** @param {ArrayBuffer | Uint8Array} bytes of the module @returns {Promise<Kernel>} */
  static async of(bytes) {
    const module = /** @type {any} */ (await WebAssembly.instantiate(bytes, {}));
    return new Kernel(module.instance.exports);
  }

  /** Makes a monitor in place of the one before.
   * @param {Shape} shape */
  open({ kind, seats, conditions, flags }) {
    const { calls } = this;
    for (let i = 0; i < this.count; i++) calls.monk_k_drop(this.at(i));
    this.count = 0;
    new Uint8Array(calls.memory.buffer).fill(0, Number(this.seats), Number(this.seats) + this.each * seats);
    const view = new DataView(calls.memory.buffer);
    for (let i = 0; i < seats; i++) {
      view.setBigUint64(Number(this.tokens) + WORD * i, this.seats + BigInt(this.each * i), true);
    }
    const answer = calls.monk_k_make(KINDS.indexOf(kind), conditions, flags, BUDGET, this.tokens, BigInt(seats));
    if (answer) throw new Error(`the kernel makes no such monitor (${answer})`);
    this.count = seats;
  }

  /** The handle of a seat.
   * @param {number} i @returns {bigint} */
  at(i) {
    return this.tokens + BigInt(WORD * i);
  }

  /** Whether a seat that waits has the turn, and comes in.
   * @param {number} i @returns {boolean} */
  comesIn(i) {
    return this.calls.monk_k_poll(this.at(i)) === INSIDE;
  }

  /** The history's text, read by a seat that is inside.
   * @param {number} i @returns {string} */
  history(i) {
    const length = Number(this.calls.monk_k_history(this.at(i), this.text, BigInt(TEXT))), at = Number(this.text);
    if (length < 0) return '';
    return new TextDecoder().decode(new Uint8Array(this.calls.memory.buffer).slice(at, at + length));
  }
}
