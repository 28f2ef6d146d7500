// The words in the picture: what an event is above its mark, and what belongs to it below, with numbers in words.

const LABEL = 13.5; // pixels on the screen
const LEAST_LABEL = 11; // units of the picture
const PART_OF_SIZE = 0.56; // of a label's size: how wide a character is, more or less
let labels = [];

const conditionLabel = (c) => CONDITIONS[c] || `condition ${c}`;

// The predicates in a word or two.
const SHORT_PREDICATES = {
  buffer: ['room', 'an item'],
  book: ['may read', 'may write'],
  shop: ['a chair', 'a customer', 'cut is done'],
  flags: Array.from({ length: 32 }, (_, flag) => `flag ${flag}`),
}[H.object];
const predicateLabel = (p) => SHORT_PREDICATES[p] || `predicate ${p}`;

const MOST_FLAGS = 3; // that are named, rather than counted

function flagsLabel(arg) {
  const set = flagsIn(arg);
  if (set.length > MOST_FLAGS) return `${set.length} flags`;
  return set.length ? `flag${set.length > 1 ? 's' : ''} ${set.join(', ')}` : 'no flag';
}

function actLabels([, , code, arg, reply]) {
  const isRefused = reply === '0';
  if (H.object === 'buffer' && code === '0') {
    return isRefused ? [`put ${arg}`, 'no room'] : [`puts ${arg}`, ''];
  }
  if (H.object === 'buffer' && code === '1') {
    return isRefused ? ['take', 'no item'] : [`takes ${BigInt(reply) - 1n}`, ''];
  }
  if (H.object === 'flags' && code === '0') return [isRefused ? 'set' : 'sets', flagsLabel(arg)];
  return ACTS && ACTS[code] ? [null, isRefused ? 'refused' : ''] : [null, null];
}

// What stands above and below the mark; null where the picture's own words stay.
function labelsOf(r) {
  const [word, , a, b] = r.words;
  switch (word) {
    case 'act':
      return actLabels(r.words);
    case 'until':
      return [null, predicateLabel(a)];
    case 'signal-wait':
      return ['signal,\nwait', `${conditionLabel(a)},\n${conditionLabel(b)}`];
    case 'signal-leave':
      return ['signal,\nleave', conditionLabel(a)];
    case 'signal-all':
      return ['signal\nall', conditionLabel(a)];
    case 'wait':
    case 'signal':
    case 'broadcast':
      return [null, conditionLabel(a)];
    default:
      return [null, null];
  }
}

// Writes words, in one line or two, which are squeezed where they would be wider than that.
function write(text, words, width, isAbove) {
  const lines = words.split('\n');
  const spans = lines.map((line, i) => {
    const span = draw('tspan', lines.length > 1 ? { x: text.getAttribute('x') || 0 } : {});
    if (lines.length > 1) span.setAttribute('dy', i ? '1.05em' : isAbove ? '-1.05em' : '0');
    span.textContent = line;
    labels.push({ span, width });
    return span;
  });
  text.replaceChildren(...spans);
}

function writeMarks() {
  R.slice(1).forEach((r, i) => {
    const { dot } = marks[i] || {};
    if (!dot) return;
    const [above, below] = labelsOf(r);
    for (const [cls, words] of [['.act', above], ['.note', below]]) {
      const text = dot.querySelector(cls);
      if (text) write(text, words ?? text.textContent, gap - 6, cls === '.act');
    }
  });
}

// In the bars of who waits: the condition or the predicate, or in a short bar its number.
function writeBars() {
  svg.querySelectorAll('.what').forEach((text) => {
    const [, letter, number] = /^([cp])(\d+)$/.exec(text.textContent) || [];
    const width = Number(text.previousElementSibling.getAttribute('width'));
    const isShort = width < gap;
    const words = letter === 'c' ? conditionLabel(number) : letter && predicateLabel(number);
    const isNamed = letter === 'p' || CONDITIONS[number];
    if (letter) write(text, isShort && !isNamed ? number : words, Math.max(gap, width) - 22);
  });
}

// The labels are as large on the screen whatever the picture is magnified by.
function fitLabels(scale) {
  const size = Math.max(LEAST_LABEL, LABEL / scale);
  $('picture').style.setProperty('--label', `${size}px`);
  labels.forEach(({ span, width }) => {
    const isWide = span.textContent.length * size * PART_OF_SIZE > width;
    if (isWide) {
      span.setAttribute('textLength', width);
      span.setAttribute('lengthAdjust', 'spacingAndGlyphs');
    } else {
      span.removeAttribute('textLength');
    }
  });
}
