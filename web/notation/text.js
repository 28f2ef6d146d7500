// A text while it is rewritten: its tokens, and questions about them.
// @ts-check
import { Fault, tokensOf } from './tokens.js';
import { HEADS, WORD } from './words.js';

/** @typedef {import('./tokens.js').Token} Token */

/** What stands past the end.
 * @type {Token} */
const NOTHING = { text: '', line: 1, blank: '', pre: '', post: '', mate: -1, up: -1, isThread: false, isKeeping: false };

export class Text {
  /** @param {string} source */
  constructor(source) {
    this.tokens = tokensOf(source);
    this.length = this.tokens.length;
  }

  /** The token of that number, or an empty one in the last line.
   * @param {number} i @returns {Token} */
  at(i) {
    return this.tokens[i] || { ...NOTHING, line: this.length ? this.tokens[this.length - 1].line : 1 };
  }

  /** @param {number} i @param {string} words @returns {never} */
  fail(i, words) {
    throw new Fault(this.at(i).line, words);
  }

  /** Requires that token there.
   * @param {number} i @param {string} text @param {string} where @returns {number} */
  need(i, text, where) {
    if (this.at(i).text !== text) this.fail(Math.max(0, i - 1), `${text} is missing ${where}`);
    return i;
  }

  /** @param {number} i @param {string} what @returns {string} */
  name(i, what) {
    if (!WORD.test(this.at(i).text)) this.fail(i, `${what} needs a name`);
    return this.at(i).text;
  }

  /** Where the semicolon of the statement at i stands.
   * @param {number} i @returns {number} */
  end(i) {
    for (let k = i + 1; ; k++) {
      const it = this.tokens[k];
      if (it && it.text === ';') return k;
      const isNext = it && it.line > this.at(k - 1).line && HEADS.test(it.text);
      if (!it || it.text === '}' || isNext) this.fail(k - 1, '; is missing at the end');
      if (it.mate > k) k = it.mate;
    }
  }

  /** What stands there, without comments of a line.
   * @param {number} from @param {number} to @returns {string} */
  raw(from, to) {
    return this.tokens.slice(from, to).map((it) => it.blank.replace(/\/\/[^\n]*/g, '') + it.text).join('');
  }

  /** Takes tokens out; their lines stay.
   * @param {number} from @param {number} to */
  drop(from, to) {
    for (let k = from; k <= to; k++) this.tokens[k].text = '';
  }

  /** Whether a call of that name stands there, and no field or head.
   * @param {number} i @returns {boolean} */
  isCall(i) {
    return this.at(i + 1).text === '(' && !/^(\.|function|procedure)$/.test(this.at(i - 1).text);
  }

  /** Whether a call is a statement of its own.
   * @param {number} i @returns {boolean} */
  isAlone(i) {
    return i === 0 || /^([;{})]|else|do|=>)$/.test(this.at(i - 1).text);
  }

  /** The thread around that token.
   * @param {number} i @returns {Token | undefined} */
  threadOf(i) {
    return this.tokens.find((it, k) => it.isThread && k < i && i < it.mate);
  }

  /** What is written of the tokens.
   * @param {Token[]} tokens @returns {string} */
  written(tokens) {
    return tokens.map((it) => it.blank + it.pre + it.text + it.post).join('');
  }

  /** The text up to a line, with what is open closed.
   * @param {number} line @returns {string} */
  upTo(line) {
    const part = this.tokens.filter((it) => it.line <= line);
    const isOpen = (/** @type {Token} */ it, /** @type {number} */ i) => it.mate > i && this.at(it.mate).line > line;
    return this.written(part) + this.written(part.filter(isOpen).reverse().map((it) => this.at(it.mate)));
  }
}
