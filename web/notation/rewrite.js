// The notation, rewritten line for line to generators of JavaScript. Only whole tokens are read and made: what is in a
// comment or in quotes is never touched. Each call of the monitor knows its line, and at each statement stands a mark.
// @ts-check
import { outlined } from './outline.js';
import { Text } from './text.js';
import { ELSEWHERE, KEEPING, TYPES, VERBS, WAITING, WORD } from './words.js';

/** @typedef {import('./outline.js').Routine} Routine */

/** The head of a loop or a test that stands before a call: its text, and where it stands. */
/** @typedef {{raw: string, from: number, to: number}} Until */

class Rewriter {
  /** @param {string} source */
  constructor(source) {
    this.text = new Text(source);
    this.outline = outlined(this.text);
    this.keeps = false;
    /** By the number of the call after it.
     * @type {Map<number, Until>} */
    this.until = new Map();
    const { text } = this;
    this.sites = text.tokens.map((it, i) => (VERBS.get(it.text) === 'wait' && text.isCall(i) ? text.at(i + 2).text : ''));
  }

  /** Marks the routines in which a call waits or signals. */
  findWaits() {
    const { routines } = this.outline, list = [...routines.values()];
    for (let isMore = true; isMore;) {
      const found = list.filter((it) => !it.waits && this.hasWait(it));
      found.forEach((it) => (it.waits = true));
      isMore = found.length > 0;
    }
  }

  /** @param {Routine} it */
  hasWait(it) {
    const { text, outline } = this;
    for (let k = it.body; k < it.end; k++) {
      const word = text.at(k).text, known = outline.routines.get(word);
      if (text.isCall(k) && (VERBS.has(word) || (known && known.waits))) return true;
    }
    return false;
  }

  /** @param {number} i */
  routineOf(i) {
    return [...this.outline.routines.values()].find((it) => it.body < i && i < it.end);
  }

  /** A thread or a routine that has variables keeps values while it waits.
   * @param {number} i */
  findKeeping(i) {
    const { text } = this;
    if (!KEEPING.test(text.at(i).text)) return;
    const thread = text.threadOf(i);
    if (thread) thread.isKeeping = true;
    if (this.routineOf(i)) this.keeps = true;
  }

  /** @param {number} i */
  refuseForeign(i) {
    const { text, outline } = this, it = text.at(i).text, instead = ELSEWHERE.get(it);
    if (it === 'random' && text.at(i - 2).text === 'Math') text.fail(i, 'each run has to be the same again: take no random');
    if (instead && text.at(i - 1).text !== '.') text.fail(i, `${it} is not of this notation: write ${instead}`);
    if (text.at(i - 1).text === '.' && outline.conditions.has(text.at(i - 2).text)) {
      text.fail(i, `write ${VERBS.get(it) || 'wait'}(${text.at(i - 2).text})`);
    }
  }

  /** A test of `while` or `if`: what the call after it waits for.
   * @param {number} i */
  readTest(i) {
    const { text } = this, { text: word, line } = text.at(i);
    if (word !== 'while' && word !== 'if') return;
    const open = text.need(i + 1, '(', `after ${word}`), { mate } = text.at(open), then = mate + 1;
    if (mate === open + 1) text.fail(i, `${word} needs a test, as in ${word} (items.length == 0)`);
    const call = text.at(then).text === '{' ? then + 1 : then;
    this.until.set(call, { raw: text.raw(open + 1, mate), from: open + 1, to: mate });
    for (let k = open + 1; k < mate; k++) {
      const isSet = text.at(k).text === '=' && text.at(k + 1).text !== '=' && !/[=<>!]/.test(text.at(k - 1).text);
      if (isSet) text.fail(k, '= sets a variable: write == to compare');
    }
    if (word !== 'while') return;
    text.tokens[open].post += `$(${line})&&(`;
    text.tokens[mate].pre += ')';
  }

  /** The condition that a call names.
   * @param {number} i */
  readCondition(i) {
    const { text, outline } = this, call = text.at(i).text, it = text.at(i + 2).text;
    const names = [...outline.conditions.keys()];
    if (!outline.conditions.has(it)) {
      const help = names.length ? `this monitor has ${names.join(', ')}` : 'write condition NAME; at the head of the monitor';
      text.fail(i, `${call}(${it === ')' ? '' : it}) needs a condition: ${help}`);
    }
    const isArray = text.at(i + 3).text === '[';
    if (outline.conditions.get(it) && !isArray) {
      text.fail(i, `there are several conditions ${it}: say which, as in ${it}[0]`);
    }
    if (!outline.conditions.get(it) && isArray) text.fail(i, `${it} is one condition: write ${call}(${it})`);
    const end = isArray ? text.at(i + 3).mate + 1 : i + 3;
    if (end !== text.at(i + 1).mate) text.fail(i, `${call} takes one condition, and nothing else`);
    return it;
  }

  /** Whether the test names a variable of the routine's own, so that each thread has a test of its own.
   * @param {Until} it */
  isOwn(it) {
    const routine = this.routineOf(it.from);
    for (let k = it.from; routine && k < it.to; k++) {
      if (routine.locals.has(this.text.at(k).text) && this.text.at(k - 1).text !== '.') return true;
    }
    return false;
  }

  /** A call of wait, signal or signal_all.
   * @param {number} i @param {string} verb */
  rewriteVerb(i, verb) {
    const { text, outline } = this, it = text.tokens[i];
    if (i < outline.open || i > outline.end) {
      text.fail(i, `${it.text} stands outside the monitor: put it into a procedure, and call that`);
    }
    if (!text.isAlone(i)) text.fail(i, `${it.text} is a statement of its own: it has no value`);
    const name = this.readCondition(i), close = text.tokens[text.at(i + 1).mate], until = this.until.get(i);
    const isMany = this.sites.indexOf(name) !== this.sites.lastIndexOf(name);
    const test = verb === 'wait' && until
      ? `,until:()=>!(${until.raw.replace(/\n/g, ' ')}),isMany:${isMany},isOwn:${this.isOwn(until)}` : '';
    it.text = `(yield $.call({verb:'${verb}',line:${it.line},site:${i},name:`;
    text.tokens[i + 1].text = '';
    close.text = `${test}}))`;
  }

  /** How many wait on a condition.
   * @param {number} i */
  rewriteWaiting(i) {
    const { text, outline } = this;
    if (i < outline.open || i > outline.end) text.fail(i, `${WAITING} stands outside the monitor: ask in a procedure`);
    this.readCondition(i);
    text.tokens[i].text = `$.${WAITING}`;
  }

  /** A call of a procedure or a function.
   * @param {number} i @param {Routine} routine */
  rewriteCall(i, routine) {
    const { text, outline } = this, it = text.tokens[i], close = text.tokens[text.at(i + 1).mate];
    const isInside = i > outline.open && i < outline.end;
    if (isInside) {
      if (!routine.waits) return;
      routine.calls += 1;
      // which of two calls it waits in, or with which values, is no place of the text
      if (routine.calls > 1 || !text.isAlone(i) || text.at(i + 2).text !== ')') this.keeps = true;
      it.pre = '(yield* ';
      close.post += ')';
      return;
    }
    const only = 'a thread may call its procedures only';
    if (!routine.isEntry) text.fail(i, `${it.text} is a function of the monitor: ${only}`);
    const given = text.tokens.slice(i + 2, text.at(i + 1).mate);
    const isComputed = given.some((t) => WORD.test(t.text) && !/^(me|true|false|null)$/.test(t.text));
    const thread = text.threadOf(i) || text.fail(i, `${it.text} is called outside a thread: put it into one`);
    if (!text.isAlone(i) || isComputed) thread.isKeeping = true;
    const place = `{line:${it.line},site:${i},last:${text.at(routine.end).line}}`;
    it.text = `(yield* $.visit(${place},$.of.${it.text},[`;
    text.tokens[i + 1].text = '';
    close.text = ']))';
  }

  /** A mark of the line before the statement after this token.
   * @param {number} i */
  mark(i) {
    const { text, outline } = this, it = text.at(i), before = text.at(i - 1).text;
    const isBlock = it.text === '{' && (before === ')' || /^(else|do|try|finally|=>)$/.test(before) || it.isThread);
    const isEnd = it.text === ';' && it.up > -1 && text.at(it.up).text === '{' && it.up !== outline.open;
    const next = text.tokens[i + 1];
    if (!(isBlock || isEnd) || !next || (isEnd && next.text === '}')) return;
    if (/^(else|while|case|default|catch|finally)$/.test(next.text)) return;
    it.post += `$(${next.line});`;
  }

  /** @param {number} i */
  rewriteToken(i) {
    const { text, outline } = this, it = text.tokens[i];
    const verb = VERBS.get(it.text), known = outline.routines.get(it.text);
    if (TYPES.test(it.text) && WORD.test(text.at(i + 1).text)) it.text = 'let';
    this.findKeeping(i);
    this.refuseForeign(i);
    this.readTest(i);
    if (verb && text.isCall(i)) this.rewriteVerb(i, verb);
    else if (it.text === WAITING && text.isCall(i)) this.rewriteWaiting(i);
    else if (known && text.isCall(i)) this.rewriteCall(i, known);
    this.mark(i);
  }

  /** @returns {Text} */
  rewrite() {
    this.findWaits();
    for (let i = 0; i < this.text.length; i++) this.rewriteToken(i);
    this.rewriteHeads();
    return this.text;
  }

  /** The heads of routines and threads, and what the monitor hands out at its end. */
  rewriteHeads() {
    const { text, outline } = this, end = text.tokens[outline.end];
    for (const [name, it] of outline.routines) {
      text.tokens[it.head].text = it.waits ? 'function*' : 'function';
      if (it.isEntry) end.pre += `$.of.${name}=${name};`;
    }
    for (const it of text.tokens) {
      if (it.isThread) it.pre = it.pre.replace('KEEPS', String(this.keeps || it.isKeeping));
    }
    end.pre += `$.data.push(()=>({${outline.data.join()}}));`;
  }
}

/** @param {string} source @returns {Text} */
export const rewritten = (source) => new Rewriter(source).rewrite();
