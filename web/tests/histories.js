// node web/tests/histories.js SCENE..: each order of these scenes (web/tests/shared) under each kind, by the kernel of
// the page. Prints one object of JSON: for each scene and kind the outcome and the history of each order.
// @ts-check
import { KINDS } from '../engine/kinds.js';
import { sceneOf } from '../engine/scene.js';
import { kernelOf, textOf } from './kernel.js';
import { playSingly } from './play_singly.js';

const kernel = await kernelOf();
/** @type {Record<string, string[]>} */
const all = {};
for (const name of process.argv.slice(2)) {
  const make = sceneOf(textOf(`shared/${name}.txt`));
  for (const kind of KINDS) {
    const runs = playSingly({ kernel, make, kind, unasked: 0 });
    all[`${name} ${kind}`] = runs.map(({ outcome, history }) => `${outcome}\n${history}`);
  }
}
process.stdout.write(JSON.stringify(all));
