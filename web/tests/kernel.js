// The kernel of the stored page, or of the file that KERNEL names, for the tests.
// @ts-check
import { readFileSync } from 'node:fs';
import { gunzipSync } from 'node:zlib';
import { Kernel } from '../engine/kernel.js';

const PAGE = new URL('../../docs/playground.html', import.meta.url);

function stored() {
  const found = readFileSync(PAGE, 'utf8').match(/"kernel":"([A-Za-z0-9+/=]+)"/);
  if (!found) throw new Error('docs/playground.html has no kernel: web/page/make puts one into it');
  return gunzipSync(Buffer.from(found[1], 'base64'));
}

/** @returns {Uint8Array} */
export const kernelBytes = () => (process.env.KERNEL ? readFileSync(process.env.KERNEL) : stored());

/** @returns {Promise<Kernel>} */
export const kernelOf = () => Kernel.of(kernelBytes());

/** The text of a file of this folder, or beside it.
 * @param {string} name @returns {string} */
export const textOf = (name) => readFileSync(new URL(name, import.meta.url), 'utf8');
