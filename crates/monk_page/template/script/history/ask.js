// Ask first: the call is shown, and who may go on is asked, be it one or several. Then the step is shown as it was.

const MOST_SEATS_ASKED = 8; // with whoever enters next as many as there are keys
let guesses = [];

const seatOfNext = (r, next) =>
  next === 'stay' ? r.words[1] : next === 'entry' ? next : next.split(' ')[1];
const allowed = (r) => r.may.map((next) => seatOfNext(r, next));

// Whoever might be thought to go on: whoever may, the first of each queue, and who signals or waits in vain.
function guessesOf(r) {
  const fronts = r.fronts.map((front) => seatOfNext(r, front));
  const sleepers = (r.was.conditions || []).flatMap((queue) => queue.slice(0, 1).map(String));
  const waits = (r.was.until || []).map(([s]) => String(s));
  const caller = r.words[0] === 'signal' ? [r.words[1]] : [];
  const seats = new Set([...allowed(r), ...fronts, ...caller, ...sleepers, ...waits]);
  seats.delete('entry');
  return [...[...seats].slice(0, MOST_SEATS_ASKED).sort((a, b) => a - b), 'entry'];
}

const guessWords = (guess) => (guess === 'entry' ? 'whoever enters next' : seatName(guess));

function guessLine(guess, i) {
  const tick = make('input');
  Object.assign(tick, { type: 'checkbox', autocomplete: 'off' });
  return make('label', 'guess', make('kbd', '', String(i + 1)), tick, make('span', '', guessWords(guess)));
}

function questionForm() {
  const check = make('button', 'check', make('kbd', '', 'Enter'), 'Check');
  const form = make('form', 'guesses', ...guesses.map(guessLine), check);
  form.addEventListener('submit', (event) => {
    event.preventDefault();
    answer();
  });
  return form;
}

const ticks = () => [...$('choices').querySelectorAll('input')];

function tick(i) {
  if (ticks()[i]) ticks()[i].click();
}

// Where only one could be guessed nothing is asked.
function ask(step) {
  const r = R[step - first];
  guesses = r && r.may && r.was ? guessesOf(r) : [];
  if (guesses.length < 2) {
    show(step);
    return;
  }
  [now, question] = [step, r];
  showAround(r, true);
  $('say').replaceChildren(named(`Seat ${r.words[1]} ${CLAIMS[r.words[0]](r)}.`));
  $('told').classList.remove('bad');
  $('choices').hidden = false;
  $('choices').replaceChildren(make('h2', '', `Who may go on under ${H.kind}? Tick all.`), questionForm());
  for (const cls of ['answer', 'line']) $(cls).textContent = '';
}

// Whether what is ticked is right, and what is said of it.
function judged(r, ticked) {
  const may = (guess) => allowed(r).includes(guess);
  const wrong = ticked.filter((guess) => !may(guess));
  const missing = guesses.filter((guess) => may(guess) && !ticked.includes(guess));
  if (wrong.length || missing.length) {
    const not = wrong.length ? `Not ${listed(wrong.map(guessWords))}. ` : '';
    const too = missing.length ? `Also ${listed(missing.map(guessWords))}.` : '';
    return [false, `${not}${too}`.trim()];
  }
  return [true, r.may.length > 1 ? `Right: ${H.kind} leaves it open.` : 'Right.'];
}

// Judges what is ticked, and shows the step; a question of which nothing is ticked doesn't count.
function answer() {
  if (!question) return;
  const r = question;
  const ticked = guesses.filter((_, i) => ticks()[i].checked);
  show(now);
  if (!ticked.length) return;
  const [isRight, words] = judged(r, ticked);
  $('answer').textContent = words;
  $('answer').classList.toggle('bad', !isRight);
  scored(isRight);
}
