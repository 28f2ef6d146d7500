// What the bars and marks of the pictures mean: the legends of all pictures in one line, each sign once.

function signOf(item) {
  const sign = draw('svg', { viewBox: '-1 -1 25 14', width: 25, height: 14, 'aria-hidden': 'true' });
  sign.append(...[...item.children].filter((it) => it.nodeName !== 'text').map((it) => it.cloneNode(true)));
  return sign;
}

function showLegend() {
  const signs = new Map();
  document.querySelectorAll('.cropped .legend').forEach((item) => {
    const words = item.querySelector('text').textContent;
    if (!signs.has(words)) signs.set(words, signOf(item));
  });
  byId('legend').replaceChildren(...[...signs].map(([words, sign]) => make('li', '', sign, words)));
}
