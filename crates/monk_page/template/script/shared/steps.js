// A step of this history is shown, or asked for.

let now;
let picked = null; // the kind whose verdict is asked for
let question = null; // the record whose step is asked for
let own; // this history, as the page steps it
let rulers;
let lanesAt;

// Shows everything but the sentence.
function showAround(r, isQuestion) {
  shown = isQuestion ? r.was : r;
  showPicture(r, isQuestion);
  showBoxes(shown);
  showKinds(shown);
  markTable();
  showVerdict();
  // the boxes of several may be out of view
  const isTold = TOLD.data && histories.length > 1;
  $('data').textContent = isTold ? dataLines(shown).join(' ') : '';
}

function show(step, kind) {
  now = Math.max(first, Math.min(last, Number.isFinite(step) ? step : first));
  picked = kind || null;
  question = null;
  const r = R[now - first];
  root.classList.toggle('over', step > last);
  $('answer').textContent = '';
  showAround(r);
  showChoices(r);
  showSay(r);
}

// What is known: while a step is asked for, only those before it.
const known = () => (question ? now - 1 : now);
const isKnown = (step) => !isHiding() || step <= known();

function showAgain() {
  if (question && byId('ask').checked) own.ask(now);
  else show(now, picked);
}

function nextRefused() {
  const isRefused = (r) => r.bad || (r.words[0] === 'act' && r.words[4] === '0');
  const found = R.find((r) => r.step > now && isRefused(r));
  return found && found.step;
}

function nextOfThisSeat(way) {
  const { words } = R[now - first];
  return words.length ? eventOfSeat(Number(words[1]), way) : undefined;
}

function beginPicture() {
  lanesAt = nameLanes();
  cropPicture();
  addBand();
  rulers = addRulers();
  collectMarks();
  writeMarks();
  writeBars();
  svg.addEventListener('click', clickPicture);
}

// This history, and what it has that only its kind of page has.
function beginHistory(more) {
  $('about').textContent = headWords();
  for (const cls of ['stage', 'kinds', 'all']) $(cls).hidden = false;
  $('stage').addEventListener('click', () => isInStep() || go(now, own));
  now = H.before ? last : first;
  beginPicture();
  own = {
    ...{ root, view, first, last, show, showAgain, showAll, nextRefused, nextOfThisSeat },
    ...{ scroll, showRulers, fit: fitPicture, box: $('picture') },
    eventAt: (step) => (R[step - first] || {}).event,
    get now() {
      return now;
    },
    get isAsked() {
      return Boolean(question);
    },
    ...more,
  };
  return own;
}
