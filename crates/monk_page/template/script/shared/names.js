// The elements of this history and its data; seats and conditions have names if a file beside it has them.

const elements = {};
const $ = (cls) => (elements[cls] ??= root.querySelector(`.${cls}`));
const H = JSON.parse($('history-data').textContent);
const TOLD = JSON.parse($('told-data').textContent) || {};
const SEATS = TOLD.seats || [];
const CONDITIONS = TOLD.conditions || [];

const seatName = (s) => SEATS[s] || `seat ${s}`;
const conditionName = (c) => (CONDITIONS[c] ? `\u2018${CONDITIONS[c]}\u2019` : `condition ${c}`);

// A sentence with these names in place of the numbers.
function named(words) {
  return words
    .replace(/\bseats ((?:\d+(?:, | and )?)+)/g, (all, list) =>
      SEATS.length ? list.replace(/\d+/g, seatName) : all,
    )
    .replace(/\b[Ss]eat (\d+)\b/g, (all, s) => SEATS[s] || all)
    .replace(/\bcondition (\d+)\b/g, (_, c) => conditionName(c));
}
