// The code, which stands once: the player's text, the threads of the level below it, and each thread at its line.
// @ts-check
import { byId, make } from './dom.js';

/** A chip of a thread: its name, its class, and what it does if it can move.
 * @typedef {{name: string, style: string, moves: {words: string, does: () => void}[]}} Chip */

const REST = 250;

export class Editor {
  /** @param {() => void} changed is called when the text has changed and rested, or at once by Ctrl+Enter
   * @param {() => void} touched is called at each change */
  constructor(changed, touched) {
    this.source = byId('source');
    this.fixed = '';
    this.timer = 0;
    this.source.addEventListener('input', () => {
      clearTimeout(this.timer);
      this.lay();
      touched();
      this.timer = setTimeout(changed, REST);
    });
    // (the chips stay in view, and the end of a line beside them comes into view)
    byId('code').addEventListener('scroll', () => {
      byId('tags').style.transform = `translateX(${byId('code').scrollLeft}px)`;
    });
    this.source.addEventListener('keydown', (/** @type {KeyboardEvent} */ event) => {
      if (event.key === 'Escape') this.source.blur();
      if (event.key !== 'Enter' || !(event.ctrlKey || event.metaKey)) return;
      event.preventDefault();
      clearTimeout(this.timer);
      changed();
    });
  }

  /** @param {string} own @param {string} fixed the threads of a level */
  set(own, fixed) {
    clearTimeout(this.timer);
    this.source.value = own.replace(/\n$/, '');
    this.fixed = fixed;
    byId('threads').textContent = fixed;
    this.lay();
  }

  /** The player's part.
   * @returns {string} */
  get own() {
    return `${this.source.value.replace(/\s*$/, '')}\n`;
  }

  get text() {
    return this.own + this.fixed;
  }

  /** Lays out as many lines as there are, without chips. */
  lay() {
    const lines = this.source.value.split('\n'), count = lines.length + this.fixed.split('\n').length - 1;
    this.source.rows = lines.length;
    this.source.cols = Math.max(20, ...lines.map((/** @type {string} */ it) => it.length)) + 1;
    this.rows = Array.from({ length: count }, (_, i) => make('div', 'row', make('span', 'number', String(i + 1))));
    this.tags = this.rows.map(() => make('div', 'row'));
    byId('rows').replaceChildren(...this.rows);
    byId('tags').replaceChildren(...this.tags);
  }

  /** The row of a line. The player's text may end in blank lines, which aren't played.
   * @param {number} line */
  rowOf(line) {
    const played = this.own.split('\n').length - 1, shift = this.source.value.split('\n').length - played;
    return line - 1 + (line > played ? shift : 0);
  }

  /** Marks the line of a fault.
   * @param {number} line */
  mark(line) {
    const row = this.rowOf(line);
    (this.rows || []).forEach((it, i) => it.classList.toggle('fault', line > 0 && i === row));
  }

  /** Shows each chip at its line.
   * @param {{line: number, chip: Chip}[]} chips */
  show(chips) {
    (this.tags || []).forEach((it) => it.replaceChildren());
    (this.rows || []).forEach((it) => it.classList.remove('here'));
    for (const { line, chip } of chips) {
      const at = this.rowOf(line), tag = (this.tags || [])[at];
      if (!tag) continue;
      (this.rows || [])[at].classList.add('here');
      tag.append(...chipsOf(chip));
    }
    this.makeRoom();
  }

  /** Each line has room, for its chips too. */
  makeRoom() {
    const lines = `${this.source.value}\n${this.fixed}`.split('\n');
    const ends = (this.tags || []).map((it, i) => {
      const width = it.firstElementChild ? it.clientWidth - it.firstElementChild.offsetLeft : 0;
      return `${lines[i].length + 1}ch + ${width}px`;
    });
    for (const it of [this.source, byId('threads')]) it.style.minWidth = `max(100% - 2.9em, ${ends.join(', ')})`;
  }
}

/** @param {Chip} chip @returns {HTMLElement[]} */
function chipsOf({ name, style, moves }) {
  if (!moves.length) return [make('span', `chip ${style}`, name)];
  return moves.map(({ words, does }) => {
    const element = make('button', `chip ${style} can`, `${name}${words ? ` \u203a ${words}` : ' \u203a'}`);
    element.tabIndex = -1;
    element.setAttribute('aria-hidden', 'true');
    element.addEventListener('click', does);
    return element;
  });
}
