// Print: the picture in strips with its legend, and the table.

const ACROSS = 12; // steps in a strip
let screenDark = null;

function addStrip(from) {
  const width = ACROSS * gap;
  const strip = draw('svg', { viewBox: `0 0 ${LEFT + width} ${view.h}` }, $('strips'));
  const box = `0 ${view.y} ${LEFT} ${view.h}`;
  const names = draw('svg', { width: LEFT, height: view.h, viewBox: box }, strip);
  draw('use', { href: `#${SCENE}` }, names);
  const part = { x: LEFT, width, height: view.h, viewBox: `${from} ${view.y} ${width} ${view.h}` };
  draw('use', { href: `#${SCENE}` }, draw('svg', part, strip));
}

function addStrips() {
  if ($('strips').firstChild) return;
  const xs = [...columns.values()];
  for (let i = 0; i < Math.max(1, xs.length); i += ACROSS) {
    addStrip(i === 0 ? LEFT : xs[i] - gap / 2);
  }
  const under = view.y + view.h;
  const high = Math.max(1, view.high - under);
  const box = `0 ${under} ${LEFT + ACROSS * gap} ${high}`;
  draw('use', { href: `#${SCENE}` }, draw('svg', { viewBox: box }, $('strips')));
}

function showAll() {
  fillTable();
  $('all').open = true;
  showKinds(R[R.length - 1], true);
  addStrips();
}
