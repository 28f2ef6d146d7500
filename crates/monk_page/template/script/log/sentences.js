// A line of a log in a sentence.

// Who was woken and is not back when another thread takes the lock.
function overtaken(r) {
  const woken = seatsThat(r.was, 'woken').filter((seat) => seat !== seatOf(r));
  if (!woken.length) return '';
  const are = woken.length > 1 ? 'are' : 'is';
  return ` It comes in before ${seatsOf(woken)}, which ${are} woken and not back.`;
}

function sayResume(r) {
  const s = seatOf(r);
  if (r.was.isUnaskedNext) {
    return `Seat ${s} wakes though nobody sent a signal, which no line tells. It has the lock again.`;
  }
  const others = storyOf(r).length - 2;
  const between = others > 0 ? ' Others had the lock in between, so it has to test again.' : '';
  return `Seat ${s} is back, and has the lock again.${between}`;
}

function sayWait(r) {
  const sleeps = `Seat ${seatOf(r)} lets the lock go, and sleeps on condition ${r.words[2]}.`;
  return r.hasRunOut ? `${sleeps} Its time runs out, which no line tells.` : sleeps;
}

const signals = (r) => `Seat ${seatOf(r)}${r.lock === seatOf(r) ? '' : ', without the lock,'}`;

function saySignal(r) {
  const to = `${signals(r)} signals condition ${r.words[2]}`;
  return r.wakes === undefined
    ? `${to}. Nobody sleeps there, so nothing comes of it.`
    : `${to}: seat ${r.wakes} is woken, and comes back when it gets the lock.`;
}

function sayBroadcast(r) {
  const woken = seatsAt(r.was, `waiting ${r.words[2]}`);
  const to = `${signals(r)} wakes all who sleep on condition ${r.words[2]}`;
  return woken.length ? `${to}: ${seatsOf(woken)}.` : `${to}: nobody does.`;
}

const SAY = {
  enter: (r) => `Seat ${seatOf(r)} takes the lock.${overtaken(r)}`,
  act: (r) => `Seat ${seatOf(r)} ${actWords(r)}.`,
  resume: sayResume,
  lapse: (r) => `Seat ${seatOf(r)} is back, since its time ran out. It has the lock.${overtaken(r)}`,
  leave: (r) => `Seat ${seatOf(r)} lets the lock go.`,
  wait: sayWait,
  signal: saySignal,
  broadcast: sayBroadcast,
};

function sayBad(r) {
  const [word, s, condition] = r.words;
  return {
    enter: `Seat ${s} would take the lock.`,
    act: `Seat ${s} claims that it ${actWords(r)}.`,
    resume: `Seat ${s} would come back.`,
    lapse: `Seat ${s} would come back, since its time ran out.`,
    leave: `Seat ${s} would let the lock go.`,
    wait: `Seat ${s} would sleep on condition ${condition}.`,
    signal: `Seat ${s} would signal condition ${condition}.`,
    broadcast: `Seat ${s} would wake all who sleep on condition ${condition}.`,
    until: `Seat ${s} would wait until predicate ${condition} holds.`,
  }[word];
}

function say(r) {
  if (r.bad) return sayBad(r);
  if (r.words.length) return SAY[r.words[0]](r);
  return r.step === 0
    ? 'Before the first line: the lock is free, and nobody sleeps.'
    : `After ${plural(r.step, 'line')}, which this page doesn\u2019t show.`;
}

const wrongWords = (r) => `Misfit: ${r.why}.`;

function showSay(r) {
  $('say').replaceChildren(make('span', 'unseen', `Step ${r.step}. `), say(r));
  if (r.bad) $('say').append(make('span', 'bad', wrongWords(r)));
  $('told').classList.toggle('bad', Boolean(r.bad));
  $('line').textContent = r.words.length ? `${inFile(r)} of the file: ${r.words.join(' ')}` : '';
}
