// The picture: monk's own, with a band over the step, and a veil over what follows.

const TOP = 44;
const NAMES = 72;
const LEFT = 84;
const svg = root.querySelector('.picture svg');
const SCENE = `scene-${index}`;
const columns = new Map(); // the middle of each column, by its step
const view = { y: TOP, scale: 1 };
let gap = 76;
let bandBox;
let veil;

// Crops the picture's head and legend, which the page has itself. Its styles and patterns are those of the first.
function cropPicture() {
  svg.classList.add('cropped');
  if (index) svg.querySelectorAll('style, defs').forEach((it) => it.remove());
  svg.querySelectorAll('text.soft').forEach((t) => t.parentNode.nodeName === 'g' && t.parentNode.classList.add('legend'));
  svg.querySelectorAll('.step').forEach((t) => {
    columns.set(Number(t.textContent), Number(t.getAttribute('x')));
  });
  const [, , wide, high] = svg.getAttribute('viewBox').split(' ').map(Number);
  const grid = svg.querySelector('.grid');
  const bottom = grid ? Number(grid.getAttribute('y2')) : high;
  const xs = [...columns.values()];
  if (xs.length > 1) gap = xs[1] - xs[0];
  const w = xs.length ? Math.min(wide, xs[xs.length - 1] + gap) : wide;
  Object.assign(view, { w, h: bottom + 4 - TOP, high });
  const scene = draw('g', { id: SCENE });
  const isDrawn = (node) => node.nodeName !== 'style' && node.nodeName !== 'defs';
  scene.append(...[...svg.childNodes].filter(isDrawn));
  svg.append(scene);
  const ground = svg.querySelector('.background');
  ground.setAttribute('width', wide);
  ground.setAttribute('height', high);
  svg.setAttribute('viewBox', `0 ${TOP} ${view.w} ${view.h}`);
}

function addBand() {
  veil = draw('rect', { class: 'veil', y: TOP, height: view.h }, svg);
  const band = { class: 'band', y: TOP + 2, height: view.h - 4, width: gap, rx: 6 };
  bandBox = draw('rect', band, svg);
}

// The seats' names and the steps' numbers stay in view while the picture is scrolled.
function addRulers() {
  const hidden = { 'aria-hidden': 'true' };
  const lanes = draw('svg', { class: 'lanes', viewBox: `0 ${TOP} ${NAMES} ${view.h}`, ...hidden });
  draw('use', { href: `#${SCENE}` }, lanes);
  const numbers = draw('svg', { class: 'numbers', viewBox: `0 ${TOP} ${view.w} 24`, ...hidden });
  const ground = svg.querySelector('.background').cloneNode();
  numbers.append(ground, ...[...svg.querySelectorAll('.step')].map((t) => t.cloneNode(true)));
  const inner = make('div', 'scroll');
  svg.before(inner);
  inner.append(numbers, lanes, svg);
  return { inner, lanes, numbers };
}

const setSize = (element, width, height) => {
  element.style.width = `${width}px`;
  element.style.height = `${height}px`;
};

function fitPicture(scale) {
  const { inner, lanes, numbers } = rulers;
  setSize(svg, view.w * scale, view.h * scale);
  setSize(lanes, NAMES * scale, view.h * scale);
  setSize(numbers, view.w * scale, 24 * scale);
  numbers.style.marginBottom = `${-24 * scale}px`;
  lanes.style.marginRight = `${-NAMES * scale}px`;
  inner.style.width = `${view.w * scale}px`;
  view.scale = scale;
  fitLabels(scale);
}

// A ruler is shown if the picture can be scrolled along the other.
function showRulers({ clientWidth, clientHeight }) {
  const isSeen = { lanes: view.w * view.scale > clientWidth + 1, numbers: view.h * view.scale > clientHeight + 1 };
  for (const name in isSeen) rulers[name].style.visibility = isSeen[name] ? '' : 'hidden';
}

// Scrolls to the step that is shown.
function scroll() {
  const r = R[now - first];
  const x = columns.get(r.step);
  const box = $('picture');
  const middle = (x === undefined ? 0 : x) * view.scale;
  const right = box.scrollLeft + box.clientWidth;
  if (middle < box.scrollLeft + 190 || middle > right - 150) {
    box.scrollLeft = middle - box.clientWidth / 2;
  }
  const mark = x !== undefined && marks[r.step - first - 1].dot;
  const dot = mark && mark.getAttribute('transform').match(/translate\(\S+ (\S+)\)/);
  if (!dot) return;
  const y = (Number(dot[1]) - TOP) * view.scale;
  if (y < box.scrollTop + 60 || y > box.scrollTop + box.clientHeight - 60) {
    box.scrollTop = y - box.clientHeight / 2;
  }
}

// While its step is a question, the picture ends at the call, whose mark stands above the veil.
let asked;
function showPicture(r, isQuestion) {
  if (asked) asked.remove();
  const x = columns.get(r.step);
  const leftmost = columns.size ? columns.values().next().value : gap;
  const left = x === undefined ? leftmost - gap : x - gap / 2;
  bandBox.setAttribute('x', left);
  bandBox.style.display = x === undefined ? 'none' : '';
  const behind = isQuestion ? x - 1 : r.step === last ? view.w : x + gap * 0.68;
  const from = x === undefined ? Math.max(LEFT, left + gap / 2) : behind;
  veil.setAttribute('x', from);
  veil.setAttribute('width', Math.max(0, view.w - from));
  hideLater(r.step, isQuestion);
  if (isQuestion) addAsked(marks[r.step - first - 1]);
}

// Without the mark's title, which has the whole event.
function addAsked({ number, dot }) {
  asked = draw('g', {}, svg);
  asked.append(number.cloneNode(true), dot.cloneNode(true));
  asked.querySelector('title').remove();
}
