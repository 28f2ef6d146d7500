// node web/tests/levels.js: each level as given goes wrong where it should, and its stored answer passes. A level with
// a faulty head is refused in words.
// @ts-check
import { existsSync, readFileSync, readdirSync } from 'node:fs';
import { gameOf } from '../engine/game.js';
import { KINDS } from '../engine/kinds.js';
import { lacks, levelOf, taskOf, unfit } from '../levels.js';
import { questionsOf } from '../page/questions.js';
import { kernelOf } from './kernel.js';

/** @typedef {import('../levels.js').Level} Level */
const FOLDER = new URL('../levels/', import.meta.url), MANY = 10, ASKED = 3;
/** Faulty heads: what is changed in the first level, and what must be said. */
const FAULTS = [['goal: predict PB, NPNB', 'goal: predict PB, XY', 'Line 2: there is no kind XY'],
  ['goal: predict PB, NPNB', 'goal: guess', 'Line 2: write // goal:'], ['goal: predict PB, NPNB', 'goal: break', 'Line 2: break needs one kind'],
  ['learned:', 'lesson:', 'Line 3: a level has no lesson'], ['goal: predict', 'first: PB', 'Line 1: write // goal:']];
const kernel = await kernelOf();
let wrong = 0;

/** @param {boolean} isRight @param {string} words */
function must(isRight, words) {
  if (isRight) return;
  wrong += 1;
  console.error(`levels: ${words}`);
}

/** @param {Level} level @param {string} monitor */
const play = (level, monitor) => gameOf(kernel, { source: monitor + level.threads, unasked: level.unasked }).kinds;

/** @param {string} file @param {Level} level */
function check(file, level) {
  const { name, goal } = level, begun = play(level, level.monitor), answer = new URL(`answers/${file}`, FOLDER);
  must(Boolean(level.learned && level.read), `${name} says nothing that was learned, or has no link`);
  must(unfit(level, begun) === '', `${name} can't be done: ${unfit(level, begun)}`);
  if (goal === 'break') must(begun[level.kind].bad > 0, `${name} can't be broken under ${level.kind}`);
  if (goal === 'claim') must(begun[level.kind].bad === 0, `${name} can be broken under ${level.kind}`);
  if (goal === 'predict') {
    const asks = level.kinds.every((kind) => questionsOf(begun[kind]).length === ASKED);
    must(asks, `${name} asks too little`);
  }
  if (goal !== 'repair') return;
  must(lacks(level, level.monitor, begun) !== '', `${name} is right as given`);
  must(!level.first || begun[level.first].bad > 0, `${name} can't be broken first under ${level.first}`);
  must(existsSync(answer), `${name} has no answer`);
  const monitor = readFileSync(answer, 'utf8'), left = lacks(level, monitor, play(level, monitor));
  must(left === '', `the answer of ${name}: ${left}`);
}

const files = readdirSync(FOLDER).filter((it) => it.endsWith('.txt')).sort();
const texts = files.map((it) => readFileSync(new URL(it, FOLDER), 'utf8'));
const levels = texts.map(levelOf);
levels.forEach((it, i) => check(files[i], it));
must(levels.length === MANY, `there are ${levels.length} levels`);
must(levels.filter((it) => it.first).length === 3, 'three levels ask for the break first');
must(taskOf(levels[4], false).startsWith('First break it'), 'the break first is not asked for');
must(lacks(levels[5], `${levels[5].monitor} signal_all(gate);`, {}).includes('without signal_all'), 'signal_all passes');
must(lacks(levels[2], levels[2].monitor, {}).includes('is not played'), 'a repair passes without its kinds');
const { monitor, threads } = levels[2], broken = play(levels[2], monitor);
const mended = play(levels[2], monitor.replace('if (', 'while ('));
for (const [goal, outcomes, words] of /** @type {[string, Record<string, any>, string][]} */ ([
  ['repair NPNB', mended, 'nothing to repair'], ['break NPNB', mended, 'nobody can find one'], ['claim NPNB', broken, 'can claim']])) {
  const said = unfit(levelOf(`// level: A\n// goal: ${goal}\n${monitor}${threads}`), outcomes);
  must(said.includes(words), `${goal} is unfit: ${said}`);
  must(said.includes('a real lock may be taken again') === goal.startsWith('break'), `${goal} on real locks: ${said}`);
}
must(KINDS.every((kind) => levels[2].kinds.includes(kind)), 'a repair without kinds is one of all ten');
for (const [old, anew, words] of FAULTS) {
  let said = '';
  try {
    levelOf(texts[0].replace(old, anew));
  } catch (fault) {
    said = /** @type {Error} */ (fault).message;
  }
  must(said.startsWith(words), `${anew}: it says ${said || 'nothing'}`);
}
console.log(`levels: ${levels.length} levels begin and end as they should, ${wrong} faults`);
process.exit(wrong ? 1 : 0);
