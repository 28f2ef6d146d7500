// How the page begins: what it was given, its buttons, its keys and its address.
// @ts-check
import { levelOf } from '../levels.js';
import { App } from './app.js';
import { button, byId, make } from './dom.js';
import { addressOf, bytesOf, placeOf, streamed } from './link.js';
import { keep } from './store.js';

/** What the file holds.
 * @typedef {{kernel: string, levels: string[], scenes: Record<string, string>}} Stored */

const REST = 150;
const FILE = 'The page is a file here: this link opens only on this computer. For another, put what follows # behind the ' +
  'address of the page there.';

/** Whether the browser lacks something that the page needs. */
const lacking = () => (typeof WebAssembly !== 'object' ? 'WebAssembly' : typeof Worker !== 'function' ? 'workers' :
  typeof DecompressionStream !== 'function' ? 'DecompressionStream' : '');

/** @param {boolean} isDark */
function setTheme(isDark) {
  const sheets = [...document.styleSheets].flatMap((sheet) => [...sheet.cssRules]);
  for (const it of sheets) {
    const { media } = /** @type {CSSMediaRule} */ (it);
    if (media && /color-scheme|^all$|^not all$/.test(media.mediaText)) media.mediaText = isDark ? 'all' : 'not all';
  }
  document.documentElement.style.colorScheme = isDark ? 'dark' : 'light';
  document.documentElement.dataset.theme = isDark ? 'dark' : 'light';
  byId('theme').textContent = isDark ? 'Light' : 'Dark';
}

/** @param {App} app */
function toggleTheme(app) {
  const isDark = document.documentElement.dataset.theme !== 'dark';
  setTheme(isDark);
  app.kept.isDark = isDark;
  keep(app.kept);
}

/** Shows the link, and copies it if the browser lets it.
 * @param {App} app */
async function share(app) {
  const place = app.place(), isOwnLevel = Boolean(app.level && app.isEdited), base = location.href.split('#')[0];
  const { text = app.editor.text, unasked } = place;
  const address = base + await addressOf(isOwnLevel ? { text, unasked } : place);
  byId('address').value = address;
  const keeps = isOwnLevel ? ' Keep your text, to change it later.' : '';
  const words = location.protocol === 'file:' ? FILE : isOwnLevel ? 'This link gives the level to students.' : '';
  byId('edits').textContent = byId('fault').textContent ? 'The text has a fault: mend it before you send this.' : words + keeps;
  byId('share').showModal();
  byId('address').select();
  if (navigator.clipboard) navigator.clipboard.writeText(address).catch(() => {});
}

/** @param {App} app */
function wire(app) {
  /** @type {Record<string, () => void>} */
  const does = { undo: () => app.undo(), again: () => app.restart(), hint: () => app.hint(), claim: () => app.claim(),
    shortest: () => app.shortest(), theme: () => toggleTheme(app), link: () => share(app),
    keys: () => byId('help').showModal() };
  for (const id in does) byId(id).addEventListener('click', does[id]);
  byId('unasked').addEventListener('change', () => app.run());
  byId('levels').append(...app.given.levels.map((_, i) => button(String(i + 1), () => app.open({ level: i + 1 }))));
  const names = Object.keys(app.given.scenes), option = (/** @type {string} */ it) => {
    const found = make('option', '', it.replace(/^your/, 'write your').replace(/_wrong$/, ': the mistake').replace(/_/g, ' '));
    found.value = it;
    return found;
  };
  const none = make('option', '', 'or a scene \u2026');
  none.value = '';
  byId('scenes').append(none, ...names.map(option));
  byId('scenes').addEventListener('change', () => byId('scenes').value && app.open({ scene: byId('scenes').value }));
  const keys = keysOf(app, does);
  addEventListener('keydown', (event) => press(event, app, keys));
}

/** @param {App} app @param {Record<string, () => void>} does @returns {Record<string, () => void>} */
const keysOf = (app, does) => ({ u: does.undo, ArrowLeft: does.undo, Backspace: does.undo, r: does.again, h: does.hint,
  w: does.shortest, c: does.claim, n: () => app.another(1), p: () => app.another(-1), t: does.theme, l: does.link,
  e: () => byId('source').focus(), '?': does.keys });

/** @param {KeyboardEvent} event @param {App} app @param {Record<string, () => void>} keys */
function press(event, app, keys) {
  const at = /** @type {HTMLElement} */ (event.target), isTyping = at.closest('textarea, select, dialog');
  if (event.altKey || event.ctrlKey || event.metaKey || isTyping) return;
  const inKinds = at.closest('#kinds'), inChoices = at.closest('#choices');
  if (inKinds && /^Arrow/.test(event.key)) app.another(/Right|Down/.test(event.key) ? 1 : -1);
  else if (/^[1-9]$/.test(event.key)) byId('choices').querySelectorAll('button')[Number(event.key) - 1]?.click();
  else if (event.key in keys) keys[event.key]();
  else return;
  event.preventDefault();
  if (inKinds) byId('kinds').querySelector('[aria-checked=true]')?.focus();
  if (inChoices && !inChoices.contains(document.activeElement)) (byId('choices').querySelector('button') || byId('again')).focus();
}

/** Keeps the address what the page shows, after a rest.
 * @param {() => App} app */
function follow(app) {
  let timer = 0;
  return () => {
    clearTimeout(timer);
    timer = setTimeout(async () => {
      const address = await addressOf(app().place());
      if (address !== location.hash) history.replaceState(null, '', address);
    }, REST);
  };
}

async function begin() {
  const lacks = lacking();
  if (lacks) {
    byId('fault').textContent = `This browser has no ${lacks}, which the page needs: take Firefox 113, Chromium 103, ` +
      'Safari 16.4 or a later one.';
    return;
  }
  /** @type {Stored} */
  const { kernel, levels, scenes } = JSON.parse(byId('given').textContent);
  const wasm = await streamed(bytesOf(kernel), new DecompressionStream('gzip'));
  const code = `${byId('engine').textContent}\n$work.serve(self);`;
  /** @type {App} */
  const app = new App({ levels: levels.map(levelOf), scenes, wasm, code }, follow(() => app));
  setTheme(app.kept.isDark ?? matchMedia('(prefers-color-scheme: dark)').matches);
  wire(app);
  app.open(await placeOf(location.hash));
  addEventListener('hashchange', async () => app.open(await placeOf(location.hash)));
  /** @type {any} */ (window).playground = app;
}

begin();
