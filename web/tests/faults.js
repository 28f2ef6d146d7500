// node web/tests/faults.js: texts with a fault. Each must be refused with its line and the words that help; some texts
// that look strange must be right.
// @ts-check
import { gameOf, worstOf } from '../engine/game.js';
import { kernelOf, textOf } from './kernel.js';

const LEAST = 60;
/** A file of texts: a line `--- LINE WORDS` before each (`--- right` where there is no fault). `BODY` in the first
 * line of a text is put into the monitor below, whose body is line 5. */
const FRAME = ['monitor M {', '  let items = [];', '  condition item;', '  procedure f() {', '    BODY', '  }', '}', 'THREADS', ''];
const THREADS = 'thread a { f(); }';

/** @param {string} text @returns {string} */
function whole(text) {
  const [first, ...more] = text.split('\n'), body = first.match(/^BODY (.*)$/);
  if (!body) return text;
  return FRAME.join('\n').replace('BODY', () => body[1]).replace('THREADS', () => more.join('\n').trim() || THREADS);
}

const kernel = await kernelOf();

/** What is said of the text: the fault, or how it goes wrong.
 * @param {string} source @returns {string} */
function saidOf(source) {
  try {
    const end = worstOf(gameOf(kernel, { source, kinds: ['NPNB'] }).kinds.NPNB);
    return end ? end[2] : '';
  } catch (fault) {
    return /** @type {Error} */ (fault).message;
  }
}

const texts = textOf('faults.list').split(/^--- /m).slice(1);
let wrong = 0, refused = 0;
for (const it of texts) {
  const [head, ...rest] = it.split('\n'), [line, ...words] = head.split(' ');
  const said = saidOf(whole(rest.join('\n').trimEnd()));
  const isRight = line === 'right' ? said === '' : said.includes(words.join(' ')) && new RegExp(`[Ll]ine ${line}\\b`).test(said);
  refused += Number(line !== 'right');
  if (isRight) continue;
  wrong += 1;
  console.error(`faults: wanted ${head}, and it says ${said || 'nothing'}\n${rest.join('\n')}`);
}
if (refused < LEAST) console.error(`faults: there are only ${refused} texts with a fault`);
const right = texts.length - wrong;
console.log(`faults: ${right} of ${texts.length} texts are answered as they should be, ${refused} of them refused`);
process.exit(wrong || refused < LEAST ? 1 : 0);
