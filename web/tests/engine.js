// node web/tests/engine.js: the merged search against each order played singly, as many, and as many that go wrong.
// Some scenes are also played with wake-ups that nobody asked for.
// @ts-check
import { Graph } from '../engine/graph.js';
import { KINDS } from '../engine/kinds.js';
import { sceneOf } from '../engine/scene.js';
import { kernelOf, textOf } from './kernel.js';
import { playSingly } from './play_singly.js';

const LEAST = 29000;
/** Each scene, and how many wake-ups nobody asked for.
 * @type {[string, number][]} */
const SCENES = [['shared/buffer', 0], ['shared/buffer', 1], ['shared/signal_first', 1], ['shared/one_signal', 1],
  ['shared/bridge', 0], ['shared/readers', 0], ['../scenes/h2o', 0], ['../scenes/h2o_wrong', 1],
  ['../scenes/barrier', 0], ['locals', 0], ['locals', 1], ['handed', 1], ['twice', 0], ['older', 0], ['own_test', 0]];

const kernel = await kernelOf();
let orders = 0, wrong = 0, graphs = 0;
for (const [name, unasked] of SCENES) {
  const make = sceneOf(textOf(`${name}.txt`));
  for (const kind of KINDS) {
    const way = { kernel, make, kind, unasked }, graph = new Graph(way), runs = playSingly(way);
    graph.explore();
    const merged = graph.count()[0].join(), bad = runs.filter(({ outcome }) => outcome !== 'right').length;
    const singly = [runs.length, bad].join();
    orders += runs.length;
    graphs += 1;
    if (merged === singly) continue;
    wrong += 1;
    console.error(`engine: ${name} under ${kind}: ${merged} orders and bad ones are merged, and ${singly} are played`);
  }
}
if (orders < LEAST) console.error(`engine: only ${orders} orders were played`);
console.log(`engine: ${orders} orders played singly are those of ${graphs - wrong} merged searches of ${graphs}`);
process.exit(wrong || orders < LEAST ? 1 : 0);
