// node web/sizes.js: refuses functions of web/ that are too big: more than 40 lines or six parameters, more than three
// deep, or with more than two loops. It reads them by the parser of TypeScript, which tsc brings.
// @ts-check
import { execFileSync } from 'node:child_process';
import { readFileSync, readdirSync, realpathSync } from 'node:fs';
import { createRequire } from 'node:module';
import { dirname, join } from 'node:path';

const LINES = 40, DEEP = 3, PARAMETERS = 6, LOOPS = 2;
const tsc = realpathSync(execFileSync('sh', ['-c', 'command -v tsc'], { encoding: 'utf8' }).trim());
const ts = createRequire(import.meta.url)(join(dirname(tsc), '..', 'lib', 'typescript.js'));
const { SyntaxKind: Kind } = ts;
const WEB = new URL('.', import.meta.url), FOLDERS = ['./', 'notation/', 'engine/', 'page/', 'tests/', 'kernel/'];
const FUNCTIONS = new Set([Kind.FunctionDeclaration, Kind.MethodDeclaration, Kind.ArrowFunction,
  Kind.FunctionExpression, Kind.Constructor, Kind.GetAccessor]);
const LOOPING = new Set([Kind.ForStatement, Kind.ForOfStatement, Kind.ForInStatement, Kind.WhileStatement,
  Kind.DoStatement]);
const NESTING = new Set([...LOOPING, Kind.IfStatement, Kind.TryStatement, Kind.SwitchStatement]);

/** What is in a node, but for other functions.
 * @param {any} node @returns {any[]} */
function inside(node) {
  /** @type {any[]} */
  const found = [];
  ts.forEachChild(node, (/** @type {any} */ it) => void (FUNCTIONS.has(it.kind) || found.push(it)));
  return found;
}

/** How deep it nests. An `else if` is as deep as its `if`.
 * @param {any} node @param {boolean} isElse @returns {number} */
function depth(node, isElse = false) {
  const below = inside(node).map((it) => depth(it, it.kind === Kind.IfStatement && node.elseStatement === it));
  return Math.max(0, ...below) + Number(NESTING.has(node.kind) && !isElse);
}

/** @param {any} node @returns {number} */
const loops = (node) => inside(node).reduce((sum, it) => sum + loops(it), Number(LOOPING.has(node.kind)));

/** What is wrong with a function.
 * @param {any} node @param {any} file @returns {string[]} */
function faultsOf(node, file) {
  const line = (/** @type {number} */ at) => file.getLineAndCharacterOfPosition(at).line + 1;
  const sizes = [[line(node.end) - line(node.getStart()) + 1, LINES, 'lines'], [depth(node), DEEP, 'deep'],
    [node.parameters.length, PARAMETERS, 'parameters'], [loops(node), LOOPS, 'loops']];
  const name = node.name ? node.name.getText() : 'a function', where = `${file.fileName}:${line(node.getStart())}`;
  return sizes.filter(([is, most]) => is > most)
    .map(([is, most, what]) => `${where}: ${name}: ${is} ${what}, and ${most} are the most`);
}

let count = 0;
/** @type {string[]} */
const wrong = [];
/** @param {any} node @param {any} file */
function visit(node, file) {
  if (FUNCTIONS.has(node.kind)) {
    count += 1;
    wrong.push(...faultsOf(node, file));
  }
  ts.forEachChild(node, (/** @type {any} */ it) => visit(it, file));
}

for (const name of FOLDERS.flatMap((it) => readdirSync(new URL(it, WEB)).map((file) => it + file))) {
  if (!name.endsWith('.js')) continue;
  const text = readFileSync(new URL(name, WEB), 'utf8');
  const file = ts.createSourceFile(`web/${name}`, text, ts.ScriptTarget.ES2022, true);
  visit(file, file);
}
console.log([...wrong, `sizes: ${count} functions, ${wrong.length} too big`].join('\n'));
process.exit(wrong.length ? 1 : 0);
