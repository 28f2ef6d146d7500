// node web/kernel/test_heap.js: the heap of the kernel in a page. 10,000 monitors are made, used and closed,
// and no byte may be lost. Then memory is refused at each size of the heap, and at last by WebAssembly itself. The
// kernel must answer that memory is missing, and nothing may be lost by it.
// @ts-check
import { kernelBytes } from '../tests/kernel.js';

const SEATS = 32, ROUNDS = 10000, STEP = 1024, TEXT = 1 << 16, MEBIBYTE = 1 << 20, LIMIT = 64 * MEBIBYTE;
const INSIDE = 3, MEMORY = -5, NPNB = 3, FIRST_AUTOMATIC = 8, LONG_BUDGET = 60000;
/** @type {any} */
const kernel = new WebAssembly.Instance(new WebAssembly.Module(kernelBytes()), {}).exports;
const each = Number(kernel.monk_k_seat_size());
const tokens = kernel.room(BigInt(8 * SEATS)), granted = kernel.room(8n);
const seats = kernel.room(BigInt(each * SEATS)), text = kernel.room(BigInt(TEXT));

/** @param {number} i */
const at = (i) => tokens + BigInt(8 * i);

/** @param {boolean} isRight @param {string} words */
function must(isRight, words) {
  if (!isRight) throw new Error(`heap: ${words}`);
}

function clear() {
  new Uint8Array(kernel.memory.buffer, Number(seats), each * SEATS).fill(0);
  const view = new DataView(kernel.memory.buffer);
  for (let i = 0; i < SEATS; i++) view.setBigUint64(Number(at(i)), seats + BigInt(each * i), true);
}

/** @param {number} kind @param {number} count @param {number} conditions @param {number} budget */
function make(kind, count, conditions, budget) {
  const flags = kind < FIRST_AUTOMATIC ? 0 : 2;
  return kernel.monk_k_make(kind, flags ? 0 : conditions, flags, budget, tokens, BigInt(count));
}

/** @param {number} count */
function drop(count) {
  for (let i = 0; i < count; i++) kernel.monk_k_drop(at(i));
}

/** One visit of each seat, and one more in which the history is read.
 * @param {number} count */
function visit(count) {
  for (let i = 0; i <= count; i++) {
    must(kernel.monk_k_enter(at(i % count)) === INSIDE, 'a seat does not come in');
    must(i < count || kernel.monk_k_history(at(0), text, BigInt(TEXT)) > 20n, 'there is no history');
    must(kernel.monk_k_leave(at(i % count), 1, granted) > 0, 'a seat does not leave');
  }
}

/** @param {bigint} used what is in use without a monitor */
function makeAndClose(used) {
  let dice = 7;
  for (let round = 0; round < ROUNDS; round++) {
    dice = (dice * 1103515245 + 12345) % 2147483648;
    const count = 2 + (dice % 7);
    must(make(round % 10, count, 1 + (dice % 5), 16 << ((dice >> 8) % 6)) === 0, `round ${round} is refused`);
    visit(count);
    if (round % 3) must(kernel.monk_k_close(tokens, BigInt(count), 0n) === INSIDE, 'a monitor does not close');
    drop(count);
    must(kernel.heap_used() === used, `round ${round}: ${kernel.heap_used() - used} bytes are lost`);
  }
  must(kernel.memory.buffer.byteLength <= LIMIT, `the memory has ${kernel.memory.buffer.byteLength} bytes`);
}

/** Refuses at each size of the heap until a large monitor is made.
 * @param {bigint} used */
function refuse(used) {
  const begin = Number(kernel.heap_top());
  for (let more = 0; ; more += STEP) {
    kernel.heap_limit(BigInt(begin + more));
    clear();
    const answer = make(NPNB, 8, 8, LONG_BUDGET);
    must(answer === 0 || answer === MEMORY, `with ${more} bytes more it answers ${answer}`);
    if (answer === 0) drop(8);
    must(kernel.heap_used() === used, `with ${more} bytes more ${kernel.heap_used() - used} bytes are lost`);
    if (answer === 0) return more / STEP;
  }
}

/** Takes all memory, so that WebAssembly refuses, and not the heap. */
function exhaust() {
  kernel.heap_limit(1n << 40n);
  clear();
  while (kernel.room(BigInt(MEBIBYTE)));
  must(make(NPNB, SEATS, 8, LONG_BUDGET) === MEMORY, 'without memory a monitor is made');
}

clear();
const used = kernel.heap_used();
makeAndClose(used);
const refused = refuse(used);
exhaust();
must(refused > 1000, `memory was refused ${refused} times only`);
console.log(`heap: ${ROUNDS} monitors lost no byte; memory was refused ${refused} times, and at last by WebAssembly`);
