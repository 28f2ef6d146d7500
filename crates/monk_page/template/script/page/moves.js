// The histories of the page, and what step they show: all the same, or one moves alone.

const histories = [];
let inStep = 0; // the step that all show, if they are in step
let chosen; // the history that moves if they aren't, and that the keys of a seat mean
let resting;
let address; // as it was last read or written

const isInStep = () => byId('together').checked;
const moving = () => (isInStep() ? histories : [chosen]);
const whereNow = () => (isInStep() ? inStep : chosen.now);
const firstStep = () => Math.min(...moving().map((it) => it.first));
const lastStep = () => Math.max(...moving().map((it) => it.last));
const openQuestions = () => histories.filter((it) => it.isAsked);

function showControls() {
  const [now, first, last] = [whereNow(), firstStep(), lastStep()];
  const words = `step ${now} of ${last}`;
  Object.assign(byId('slider'), { min: first, max: last, value: now });
  byId('slider').setAttribute('aria-valuetext', words);
  byId('count').textContent = words;
  byId('back').disabled = byId('first').disabled = now === first;
  byId('on').disabled = byId('last').disabled = now === last && !openQuestions().length;
  histories.forEach((it) => it.root.classList.toggle('alone', !isInStep() && it === chosen));
}

// Once each history shows its step.
function settle() {
  showControls();
  histories.forEach((it) => it.scroll());
}

// The address follows where a step is rested on: browsers refuse too many changes in a row. One that somebody has
// just changed isn't overwritten: it is about to be read.
function followAddress() {
  clearTimeout(resting);
  resting = setTimeout(() => {
    if (location.hash !== address) return;
    const at = new URLSearchParams(location.hash.slice(1));
    at.set('step', whereNow());
    try {
      history.replaceState(null, '', `#${at}`);
    } catch (_) {
      // a place without addresses
    }
    address = location.hash;
  }, 150);
}

// Each history that moves goes to the step: by `does`, which shows it or asks for it.
function moveBy(does, step) {
  const to = Math.max(firstStep(), Math.min(lastStep(), step));
  if (isInStep()) inStep = to;
  moving().forEach((it) => does(it, to));
  settle();
  followAddress();
}

// Shows a step, in the history where it was asked for with the verdict of that kind.
function go(step, from, kind) {
  if (from) chosen = from;
  moveBy((it, to) => it.show(to, it === from ? kind : null), step);
}

// With `ask first` a step that chooses is a question before it is shown; to step on answers it, or just shows it.
function stepOn() {
  const open = openQuestions();
  if (open.length) {
    open.forEach((it) => it.answer());
    settle();
  } else if (byId('ask').checked) {
    moveBy((it, to) => it.ask(to), whereNow() + 1);
  } else {
    go(whereNow() + 1);
  }
}

const stepBack = () => go(whereNow() - 1);
const goFirst = () => go(firstStep());
const goLast = () => go(lastStep());

// Up to where all are the same, if all begin with the first step.
function partingWords() {
  const [one, ...others] = histories;
  if (!others.length || histories.some((it) => it.first > 0)) return '';
  const ends = Math.min(...histories.map((it) => it.last));
  for (let step = 1; step <= ends; step++) {
    if (others.some((it) => it.eventAt(step) !== one.eventAt(step))) {
      const same = step > 1 ? `The same up to step ${step - 1}; they` : 'They';
      return `${same} part at step ${step}.`;
    }
  }
  const isSame = histories.every((it) => it.last === ends);
  return isSame ? 'The same, step by step.' : `The same up to step ${ends}, where one ends.`;
}
