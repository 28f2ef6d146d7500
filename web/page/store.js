// What the browser keeps for the next visit: the levels that are done, and the texts that were changed. A browser may
// refuse; then nothing is kept.
// @ts-check

const NAME = 'monk-playground';

/** @typedef {{met: string[], broken: string[], texts: Record<string, string>, isDark?: boolean}} Kept */

/** @returns {Kept} */
export function kept() {
  try {
    const found = JSON.parse(localStorage.getItem(NAME) || '{}');
    return { ...found, met: found.met || [], broken: found.broken || [], texts: found.texts || {} };
  } catch {
    return { met: [], broken: [], texts: {} };
  }
}

/** @param {Kept} all */
export function keep(all) {
  try {
    localStorage.setItem(NAME, JSON.stringify(all));
  } catch {
    // the browser keeps nothing for a file
  }
}
