// The elements of the page.
// @ts-check

/** @param {string} id @returns {any} */
export const byId = (id) => document.getElementById(id);

/** @param {string} tag @param {string} style its class @param {(string | Node)[]} inside @returns {any} */
export function make(tag, style, ...inside) {
  const element = document.createElement(tag);
  if (style) element.className = style;
  element.append(...inside);
  return element;
}

/** A button.
 * @param {string} words @param {() => void} does @param {string} [style] @returns {HTMLButtonElement} */
export function button(words, does, style = '') {
  const element = make('button', style, words);
  element.type = 'button';
  element.addEventListener('click', does);
  return element;
}

/** "1 order", "3 orders".
 * @param {number} n @param {string} word @returns {string} */
export const many = (n, word) => `${n.toLocaleString('en')} ${word}${n === 1 ? '' : 's'}`;

/** "a", "a and b", "a, b and c".
 * @param {string[]} words @returns {string} */
export const listed = (words) =>
  (words.length < 2 ? words.join('') : `${words.slice(0, -1).join(', ')} and ${words[words.length - 1]}`);

/** The class of a queue's seats.
 * @param {string} queue @returns {string} */
export const styleOf = (queue) => (queue.startsWith('on ') ? 'condition' : queue);
