// The page's side of the worker: it plays one text at a time. A text that is asked for while another is played ends
// that one, and what takes too long is ended by the page.
// @ts-check

/** @typedef {import('../engine/game.js').Played} Played */
/** What is told: a kind that was played, the end, or why there is none.
 * @typedef {{played?: Played, seats?: string[], isDone?: boolean, fault?: string, line?: number}} Said */

const PATIENCE = 20000;

export class Work {
  /** @param {Uint8Array} wasm @param {string} code the engine's source @param {(said: Said) => void} tell */
  constructor(wasm, code, tell) {
    this.wasm = wasm;
    this.code = code;
    this.tell = tell;
    /** @type {Worker | null} */
    this.worker = null;
    this.id = this.timer = this.count = 0;
    this.isBusy = false;
  }

  begin() {
    const url = URL.createObjectURL(new Blob([this.code], { type: 'text/javascript' }));
    this.worker = new Worker(url);
    URL.revokeObjectURL(url);
    this.worker.onmessage = ({ data }) => this.hear(data);
    this.worker.onerror = (event) => this.end(`The engine can't run here: ${event.message || 'the browser refuses a worker'}.`);
    this.worker.postMessage({ wasm: this.wasm });
  }

  /** @param {{source: string, unasked: number, kinds: string[]}} order */
  ask(order) {
    if (this.isBusy) this.stop();
    if (!this.worker) this.begin();
    this.id += 1;
    this.count = 0;
    this.isBusy = true;
    const at = () => `at kind ${this.count + 1} of ${order.kinds.length}`;
    const words = () => `No end after ${PATIENCE / 1000} seconds, ${at()}: ` +
      'there are too many orders, or a loop without an end. Take fewer threads or rounds.';
    this.timer = setTimeout(() => this.end(words()), PATIENCE);
    /** @type {Worker} */ (this.worker).postMessage({ ...order, id: this.id });
  }

  /** @param {Said & {id: number}} said */
  hear(said) {
    if (said.id !== this.id) return;
    if (said.played) this.count += 1;
    else this.rest();
    this.tell(said);
  }

  rest() {
    clearTimeout(this.timer);
    this.isBusy = false;
  }

  stop() {
    this.rest();
    if (this.worker) this.worker.terminate();
    this.worker = null;
  }

  /** @param {string} words */
  end(words) {
    this.stop();
    this.tell({ fault: words });
  }
}
