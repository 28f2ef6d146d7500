// What the address of the page holds behind its `#`: a scene or a level, a kind and the moves. Nobody else is told.
// @ts-check

/**
 * A level by its number, a scene by its name, or a text; the kind, the moves, and whether wake-ups unasked are on. A
 * text that is a level is played as one, unless it is to be edited.
 * @typedef {{level?: number, scene?: string, text?: string, kind?: string, moves?: number[], unasked?: boolean,
 *   isEdited?: boolean}} Place
 */

/** @param {Uint8Array} bytes @param {any} through @returns {Promise<Uint8Array>} */
export async function streamed(bytes, through) {
  const writer = through.writable.getWriter();
  const written = writer.write(bytes).then(() => writer.close());
  const [all] = await Promise.all([new Response(through.readable).arrayBuffer(), written]);
  return new Uint8Array(all);
}

/** @param {string} text @returns {Uint8Array} */
export const bytesOf = (text) => Uint8Array.from(atob(text), (it) => it.charCodeAt(0));

/** @param {string} text @returns {Promise<string>} */
async function packed(text) {
  const bytes = await streamed(new TextEncoder().encode(text), new CompressionStream('deflate-raw'));
  return btoa(String.fromCharCode(...bytes)).replace(/\+/g, '-').replace(/\//g, '_').replace(/=+$/, '');
}

/** @param {string} words @returns {Promise<string>} */
async function unpacked(words) {
  const bytes = bytesOf(words.replace(/-/g, '+').replace(/_/g, '/'));
  return new TextDecoder().decode(await streamed(bytes, new DecompressionStream('deflate-raw')));
}

/** @param {Place} place @returns {Promise<string>} */
export async function addressOf({ level, scene, text, kind, moves, unasked, isEdited }) {
  const words = [];
  if (level) words.push(`level=${level}`);
  if (scene) words.push(`scene=${encodeURIComponent(scene)}`);
  if (text !== undefined) words.push(`text=${await packed(text)}`);
  if (isEdited) words.push('edit=1');
  if (unasked) words.push('unasked=1');
  if (kind) words.push(`kind=${kind}`);
  if (moves && moves.length) words.push(`moves=${moves.join('.')}`);
  return `#${words.join('&')}`;
}

/** What an address says; what it says wrongly is left out.
 * @param {string} address @returns {Promise<Place>} */
export async function placeOf(address) {
  const words = new Map(address.replace(/^#/, '').split('&').map((it) => /** @type {[string, string]} */ ([
    it.split('=')[0], it.split('=').slice(1).join('=')])));
  /** @type {Place} */
  const place = { kind: words.get('kind'), unasked: words.has('unasked'), isEdited: words.has('edit') };
  place.moves = (words.get('moves') || '').split('.').filter((it) => /^\d+$/.test(it)).map(Number);
  if (/^\d+$/.test(words.get('level') || '')) place.level = Number(words.get('level'));
  try {
    if (words.has('scene')) place.scene = decodeURIComponent(words.get('scene') || '');
    if (words.has('text')) place.text = await unpacked(words.get('text') || '');
  } catch {
    place.text = undefined;
  }
  return place;
}
