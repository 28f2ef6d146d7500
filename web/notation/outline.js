// The parts of a text: its monitor with variables, conditions and routines, and its threads.
// @ts-check
import { HEADS, KEEPING, TYPES, WORD } from './words.js';

/** @typedef {import('./text.js').Text} Text */
/**
 * A procedure (isEntry) or a function of the monitor: the numbers of its head, of the bracket of its body and of its
 * end; the variables of its own; whether a call in it waits or signals; how often the monitor itself calls it.
 * @typedef {{head: number, body: number, end: number, isEntry: boolean, waits: boolean, locals: Set<string>,
 *   calls: number}} Routine
 */
/**
 * @typedef {{open: number, end: number, conditions: Map<string, boolean>, routines: Map<string, Routine>,
 *   data: string[]}} Outline
 */

class Parts {
  /** @param {Text} text */
  constructor(text) {
    this.text = text;
    /** Each condition, and whether it is an array of them.
     * @type {Map<string, boolean>} */
    this.conditions = new Map();
    /** @type {Map<string, Routine>} */
    this.routines = new Map();
    /** @type {string[]} */
    this.data = [];
    this.open = this.end = -1;
    this.threads = 0;
  }

  /** Each of these reads the part that begins at i, and returns where it ends.
   * @param {number} i @returns {number} */
  part(i) {
    const word = this.text.at(i).text;
    if (word === 'condition') return this.condition(i);
    if (word === 'invariant') return this.held(i, 'tests');
    if (word === 'finally') return this.held(i, 'ends');
    if (word === 'procedure' || word === 'function') return this.routine(i);
    return this.variables(i);
  }

  /** @param {number} i */
  condition(i) {
    const { text } = this, end = text.end(i), made = [];
    for (let k = i + 1; k < end; k++) {
      const name = text.name(k, 'a condition'), isMany = text.at(k + 1).text === '[', last = isMany ? text.at(k + 1).mate : k;
      this.fresh(k, name);
      this.conditions.set(name, isMany);
      made.push(isMany ? `${name}=$.many('${name}',${text.raw(k + 2, last)})` : `${name}='${name}'`);
      k = last + 1;
      if (k < end && text.at(k).text !== ',') text.fail(k, `write condition ${name}, and a comma before the next one`);
    }
    text.drop(i, end);
    text.tokens[i].text = `const ${made.join()};`;
    return end;
  }

  /** Refuses a name that the monitor has already.
   * @param {number} i @param {string} name */
  fresh(i, name) {
    if (this.conditions.has(name) || this.routines.has(name) || this.data.includes(name)) {
      this.text.fail(i, `there is a ${name} already: give one of them another name`);
    }
  }

  /** An invariant, or what holds in the end.
   * @param {number} i @param {string} list */
  held(i, list) {
    const { text } = this, end = text.end(i), { line } = text.at(i);
    if (end === i + 1) text.fail(i, `write what holds, as in ${text.at(i).text} items.length < 3;`);
    text.tokens[i].text = `$.${list}.push({line:${line},test:()=>(`;
    text.tokens[end].text = ')});';
    return end;
  }

  /** @param {number} i */
  routine(i) {
    const { text } = this, name = text.name(i + 1, 'a procedure');
    const open = text.need(i + 2, '(', `after ${name}`), body = text.need(text.at(open).mate + 1, '{', 'before its body');
    this.fresh(i + 1, name);
    this.routines.set(name, { head: i, body, end: text.at(body).mate, isEntry: text.at(i).text === 'procedure',
      waits: false, locals: this.locals(open, body), calls: 0 });
    return text.at(body).mate;
  }

  /** The variables of a routine's own: the parameters lose their types of Java.
   * @param {number} open @param {number} body */
  locals(open, body) {
    const { text } = this, found = new Set(), { mate } = text.at(open), { mate: end } = text.at(body);
    for (let k = open + 1; k < mate; k++) {
      if (TYPES.test(text.at(k).text) && WORD.test(text.at(k + 1).text)) text.drop(k, k);
      else if (WORD.test(text.at(k).text)) found.add(text.at(k).text);
    }
    for (let k = body; k < end; k++) {
      if ((KEEPING.test(text.at(k).text) || TYPES.test(text.at(k).text)) && WORD.test(text.at(k + 1).text)) {
        found.add(text.at(k + 1).text);
      }
    }
    return found;
  }

  /** @param {number} i */
  variables(i) {
    const { text } = this, end = text.end(i);
    text.tokens[i].text = 'let';
    for (let k = i; k < end; k++) {
      if (k === i || text.at(k).text === ',') {
        const name = text.name(k + 1, 'a variable');
        this.fresh(k + 1, name);
        this.data.push(name);
      }
      if (text.at(k).mate > k) k = text.at(k).mate;
    }
    return end;
  }

  /** @param {number} i */
  monitor(i) {
    const { text } = this;
    if (this.open >= 0) text.fail(i, 'one monitor is enough for a scene');
    this.open = text.need(i + 2, '{', `after monitor ${text.name(i + 1, 'a monitor')}`);
    this.end = text.at(this.open).mate;
    text.drop(i, this.open - 1);
    for (let k = this.open + 1; k < this.end; k++) {
      const word = text.at(k).text;
      const isTop = /^(monitor|thread|daemon)$/.test(word);
      if (isTop) text.fail(k, `${word} stands inside the monitor: a } is missing before it`);
      if (!HEADS.test(word)) this.stray(k, 'a monitor has variables, conditions, procedures, functions and invariants');
      k = this.part(k);
    }
    return this.end;
  }

  /** @param {number} i */
  thread(i) {
    const { text } = this, isDaemon = text.at(i).text === 'daemon', at = i + 1 + Number(isDaemon);
    if (isDaemon) text.need(i + 1, 'thread', 'after daemon');
    const name = text.name(at, 'a thread'), isMany = text.at(at + 1).text === '[', { mate } = text.at(at + 1);
    const open = text.need(isMany ? mate + 1 : at + 1, '{', `after thread ${name}`), end = text.at(open).mate;
    const count = isMany ? text.raw(at + 2, mate) : '0';
    if (isMany && !/^\s*\d+\s*$/.test(count)) text.fail(at, `write how many threads ${name} are, as in ${name}[3]`);
    text.drop(i, open - 1);
    text.tokens[open].pre = `$.thread({name:'${name}',count:${count},isDaemon:${isDaemon},keeps:KEEPS,body:function*(me)`;
    text.tokens[open].isThread = true;
    text.tokens[end].post = '});';
    this.threads += 1;
    return end;
  }

  /** @param {number} i @param {string} words @returns {never} */
  stray(i, words) {
    const it = this.text.at(i).text, isRoutine = this.text.at(i + 1).text === '(' || WORD.test(this.text.at(i + 1).text);
    const hint = isRoutine && WORD.test(it) && this.open >= 0 ? ' (does the word procedure miss before it?)' : '';
    return this.text.fail(i, `${it} can't stand here: ${words}${hint}`);
  }

  /** @param {number} i */
  top(i) {
    const word = this.text.at(i).text;
    if (word === 'monitor') return this.monitor(i);
    if (word === 'thread' || word === 'daemon') return this.thread(i);
    const isInner = /^(procedure|function|condition|invariant|finally)$/.test(word);
    if (isInner) this.stray(i, `${word} belongs into the monitor`);
    if (!HEADS.test(word)) this.stray(i, 'a scene has a monitor and threads');
    return this.variables(i);
  }
}

/** The parts of the text, which are rewritten where they stand.
 * @param {Text} text @returns {Outline} */
export function outlined(text) {
  const parts = new Parts(text);
  for (let i = 0; i < text.length; i++) i = parts.top(i);
  if (parts.open < 0) text.fail(0, 'there is no monitor: write monitor Name { .. }');
  if (!parts.threads) text.fail(text.length - 1, 'there is no thread: write thread name { .. }');
  return parts;
}
