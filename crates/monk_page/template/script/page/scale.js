// How far the pictures are magnified, all alike: to the width, and several so that their sentences are in view.

const LARGEST = 1.35;
const LEAST = { one: 0.9, several: 0.58, fitted: 0.3 };
const LEGIBLE = 0.9; // where a picture is scrolled rather than smaller
const PART_OF_WINDOW = { one: 0.36, several: 0.48 }; // so that what stands below is in view

function scaleOf({ w, h }, room) {
  const wide = room / w;
  const part = histories.length > 1 ? PART_OF_WINDOW.several : PART_OF_WINDOW.one;
  const high = (innerHeight * part) / histories.length / h;
  return Math.min(high, isFitting() ? wide : Math.max(wide, LEGIBLE));
}

function fitPictures() {
  const least = isFitting() ? LEAST.fitted : histories.length > 1 ? LEAST.several : LEAST.one;
  document.body.classList.toggle('fitting', isFitting());
  const wanted = histories.map((it) => scaleOf(it.view, it.box.clientWidth));
  const scale = Math.max(least, Math.min(LARGEST, ...wanted));
  histories.forEach((it) => it.fit(scale));
  // all are measured before one is changed: else the page is laid out for each
  const sizes = histories.map(({ box }) => ({ clientWidth: box.clientWidth, clientHeight: box.clientHeight }));
  histories.forEach((it, i) => it.showRulers(sizes[i]));
}
