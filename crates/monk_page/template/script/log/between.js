// How a thread came back: who woke it, and who had the lock in between.

const takesLock = (r) => ['enter', 'resume', 'lapse'].includes(r.words[0]);
const isWoken = (r, seat) => r.places[seat].startsWith('woken');

// The records before this one, the newest first.
function* before(r) {
  for (let t = r.was; t && t.words.length; t = t.was) yield t;
}

// The record with which a thread came back that has the lock there.
function returnOf(r) {
  if (r.words[0] === 'resume') return r;
  if (!r.bad) return undefined;
  for (const t of before(r)) {
    if (seatOf(t) === seatOf(r) && takesLock(t)) return t.words[0] === 'resume' ? t : undefined;
  }
  return undefined;
}

// The record that woke it.
function wakerOf(back) {
  const seat = seatOf(back);
  for (const t of before(back)) {
    if (isWoken(t, seat) && !isWoken(t.was, seat)) return t;
    if (seatOf(t) === seat) return undefined;
  }
  return undefined;
}

// The records with which others took the lock before it was back, the oldest first.
function overtakersOf(back, waker) {
  const found = [];
  for (const t of before(back)) {
    if (t === waker) break;
    if (takesLock(t)) found.unshift(t);
  }
  return found;
}

function storyOf(r) {
  const back = returnOf(r);
  const waker = back && wakerOf(back);
  if (!waker) return [];
  const others = overtakersOf(back, waker);
  return [
    [waker, `seat ${seatOf(waker)} wakes seat ${seatOf(back)}`],
    ...others.map((t) => [t, `seat ${seatOf(t)} comes in between`]),
    [back, `seat ${seatOf(back)} is back${r.bad ? ', and doesn\u2019t test again' : ''}`],
  ];
}

function storyLine([r, words]) {
  const link = make('a', '', inFile(r));
  link.href = `#step=${r.step}`;
  return make('li', '', link, ` ${words}`);
}

function showChoices(r) {
  const story = storyOf(r);
  $('choices').hidden = !story.length;
  const head = make('h2', '', 'How it came back');
  $('choices').replaceChildren(head, make('ol', 'story', ...story.map(storyLine)));
}
