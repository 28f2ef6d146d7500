// What steps the histories: slider, buttons and keys.

const BETWEEN = 1600; // milliseconds between two steps of a play
let playing = null;

function pause() {
  clearInterval(playing);
  playing = null;
  byId('play').textContent = 'Play';
}

// A play waits at a question, and ends with the last step.
function playOn() {
  if (openQuestions().length) return;
  stepOn();
  if (whereNow() === lastStep() && !openQuestions().length) pause();
}

function play() {
  if (playing) {
    pause();
    return;
  }
  if (whereNow() === lastStep()) goFirst();
  playing = setInterval(playOn, BETWEEN);
  byId('play').textContent = 'Pause';
}

function toggle(id) {
  if (byId(id).closest('label').offsetParent) byId(id).click();
}

function goTo(step) {
  if (step !== undefined) go(step, chosen);
}

// One history moves alone, the next alone, and after the last all in step.
function moveAnother() {
  const next = isInStep() ? 0 : histories.indexOf(chosen) + 1;
  if (next < histories.length) chosen = histories[next];
  if (isInStep() || next === histories.length) toggle('together');
  else showControls();
}

function refit() {
  fitPictures();
  settle();
}

const help = byId('help');
const KEYS = {
  ArrowLeft: stepBack,
  ArrowRight: stepOn,
  // what a presenter's remote control sends
  PageUp: stepBack,
  PageDown: stepOn,
  Home: goFirst,
  End: goLast,
  a: () => toggle('ask'),
  b: () => goTo(chosen.nextOfThisSeat(-1)),
  f: () => toggle('fit'),
  h: () => toggle('hide'),
  n: () => goTo(chosen.nextOfThisSeat(1)),
  p: play,
  r: () => goTo(chosen.nextRefused()),
  t: () => byId('theme').click(),
  w: moveAnother,
  '?': () => (help.open ? help.close() : help.showModal()),
};

function press(event) {
  if (event.altKey || event.ctrlKey || event.metaKey || event.defaultPrevented) return;
  if (help.open && event.key !== '?') return;
  const [open] = openQuestions();
  if (open && /^[1-9]$/.test(event.key)) open.tick(Number(event.key) - 1);
  else if (open && event.key === 'Enter' && !event.target.closest('button, summary, a')) open.answer();
  else if (event.key in KEYS) KEYS[event.key]();
  else return;
  event.preventDefault();
}

function beginKeys() {
  byId('slider').addEventListener('input', (event) => go(Number(event.target.value)));
  const clicks = { first: goFirst, back: stepBack, on: stepOn, last: goLast, play, keys: KEYS['?'] };
  for (const id in clicks) byId(id).addEventListener('click', clicks[id]);
  for (const id of ['ask', 'hide']) {
    byId(id).addEventListener('change', () => {
      document.body.classList.toggle('hiding', byId('ask').checked || byId('hide').checked);
      histories.forEach((it) => it.showAgain());
      settle();
    });
  }
  byId('fit').addEventListener('change', refit);
  byId('together').addEventListener('change', () => go(chosen.now));
  addEventListener('resize', refit);
  addEventListener('keydown', press);
}
