// A text in the notation as tokens, with their lines and the brackets that belong together.
// @ts-check

/** What is wrong with a text, in words that begin with its line. */
export class Fault extends Error {
  /** @param {number} line @param {string} words */
  constructor(line, words) {
    super(`Line ${line}: ${words}`);
    this.line = line;
  }
}

/**
 * A token. `blank` is what stands before it, `pre` and `post` are what is written around it, `mate` is the number of
 * the bracket that belongs to it (or -1), and `up` that of the bracket that is open around it.
 * @typedef {{text: string, line: number, blank: string, pre: string, post: string, mate: number, up: number,
 *   isThread: boolean, isKeeping: boolean}} Token
 */

const TOKEN = new RegExp([/\/\/[^\n]*|\/\*[^]*?\*\//, /\s+/, /"(?:\\.|[^"\\\n])*"|'(?:\\.|[^'\\\n])*'/,
  /[A-Za-z_$][\w$]*/, /\d[\w.]*/, /=>|[^]/].map((it) => it.source).join('|'), 'g');
const BLANK = /^(\s|\/\/|\/\*)/, STRANGE = /^["'\x60#@\\]$/, QUOTE = /^["']$/, CLOSING = /^[)\]}]$/;
const PAIRS = new Map([['(', ')'], ['[', ']'], ['{', '}']]);

/** @param {string} text @param {number} line @param {string} blank @param {number[]} open @returns {Token} */
const tokenOf = (text, line, blank, open) => ({ text, line, blank, pre: '', post: '', mate: -1,
  up: open.length ? open[open.length - 1] : -1, isThread: false, isKeeping: false });

/** Pairs a closing bracket with the one that it closes.
 * @param {Token} it @param {Token[]} found @param {number[]} open */
function close(it, found, open) {
  const from = open.pop();
  if (from === undefined) throw new Fault(it.line, `this ${it.text} closes nothing`);
  const was = found[from], wanted = PAIRS.get(was.text);
  if (wanted !== it.text) {
    const end = `the ${it.text} of line ${it.line}`, begin = `the ${was.text} of line ${was.line}`;
    const isOpen = `this ${was.text} is not closed: a ${wanted} is missing before ${end}`;
    if (was.text !== '{') throw new Fault(was.line, isOpen);
    throw new Fault(it.line, `this ${it.text} would close ${begin}: a ${wanted} is missing before it`);
  }
  [was.mate, it.mate, it.up] = [found.length, from, was.up];
}

/** @param {string} text @param {number} line */
function refuseStrange(text, line) {
  if (!STRANGE.test(text)) return;
  throw new Fault(line, QUOTE.test(text) ? 'these quotes are not closed' : `${text} is not of this notation`);
}

/** @param {string} source @returns {Token[]} */
export function tokensOf(source) {
  /** @type {Token[]} */
  const found = [];
  /** @type {number[]} */
  const open = [];
  let line = 1, blank = '';
  for (const [text] of source.matchAll(TOKEN)) {
    const at = line;
    line += text.split('\n').length - 1;
    if (BLANK.test(text)) {
      blank += text;
      continue;
    }
    refuseStrange(text, at);
    const it = tokenOf(text, at, blank, open);
    if (CLOSING.test(text)) close(it, found, open);
    else if (PAIRS.has(text)) open.push(found.length);
    found.push(it);
    blank = '';
  }
  const last = open.pop();
  if (last !== undefined) throw new Fault(found[last].line, `this ${found[last].text} is not closed`);
  return found;
}
