// node web/tests/scenes.js [--write]: each scene under each kind must come to what its table says. A scene of
// web/scenes must be right under all ten kinds, and its mistake (NAME_wrong) wrong under one or more. --write writes
// the tables.
// @ts-check
import { existsSync, readFileSync, readdirSync, writeFileSync } from 'node:fs';
import { gameOf, worstOf } from '../engine/game.js';
import { kernelOf } from './kernel.js';

const isWriting = process.argv.includes('--write');
const FOLDERS = [new URL('../scenes/', import.meta.url), new URL('./', import.meta.url)];
const kernel = await kernelOf();
let wrong = 0, scenes = 0, orders = 0;

/** @param {string} text @returns {string} */
function tableOf(text) {
  const game = gameOf(kernel, { source: text });
  return Object.values(game.kinds).map((kind) => {
    const end = worstOf(kind), [outcome, who, why] = end || ['right', '', ''];
    orders += kind.runs;
    const said = why ? `  ${who ? `${who}: ` : ''}${why}` : '';
    return `${kind.kind.padEnd(5)} ${outcome.padEnd(12)} ${kind.bad} of ${kind.runs}${said}\n`;
  }).join('');
}

/** @param {string} name @param {string} words */
function say(name, words) {
  wrong += 1;
  console.error(`scenes: ${name}: ${words}`);
}

/** @param {URL} file @param {string} name */
function check(file, name) {
  const table = new URL(file.href.replace(/\.txt$/, '.table')), said = tableOf(readFileSync(file, 'utf8'));
  scenes += 1;
  if (isWriting) writeFileSync(table, said);
  else if (!existsSync(table) || readFileSync(table, 'utf8') !== said) say(name, `is now\n${said}`);
  if (!file.pathname.includes('/scenes/')) return;
  const kinds = said.trim().split('\n').filter((line) => !/^\w+ +right/.test(line)).length;
  if (name.endsWith('_wrong') === (kinds === 0)) say(name, `goes wrong under ${kinds} kinds`);
}

for (const folder of FOLDERS) {
  for (const name of readdirSync(folder).filter((it) => it.endsWith('.txt')).sort()) {
    check(new URL(name, folder), name.replace('.txt', ''));
  }
}
const many = orders.toLocaleString('en');
console.log(`scenes: ${scenes - wrong} of ${scenes} come to what their tables say, in ${many} orders`);
process.exit(wrong ? 1 : 0);
