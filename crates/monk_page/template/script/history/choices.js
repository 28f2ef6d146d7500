// The sentence of a step, and who might have gone on.

function candidateOf(front, caller) {
  const [queue, s] = front.split(' ');
  if (queue === 'waiter') return [front, `seat ${s}, from the waiter queue`, waiterRank];
  if (queue === 'until') return [front, `seat ${s}, whose predicate holds`, waiterRank];
  return s === caller
    ? ['stay', `seat ${s}, by staying active`, signallerRank]
    : [front, `seat ${s}, from the signaller queue`, signallerRank];
}

// Who could go on: each candidate with its words and its priority, the highest first.
function candidates(r) {
  const caller = r.words[1];
  const found = r.fronts.map((front) => candidateOf(front, caller));
  if (r.may.includes('stay') && !found.some(([next]) => next === 'stay')) {
    return [['stay', `seat ${caller}, by staying active`, 9]];
  }
  found.push(['entry', 'whoever enters next', entryRank]);
  return found.sort((a, b) => b[2] - a[2]);
}

function takenWords(r, took) {
  if (took === 'stay') return `seat ${r.words[1]} stays active`;
  return took === 'entry' ? 'whoever enters next' : took;
}

function choiceLine(r, [next, words], took) {
  const may = r.may.includes(next);
  const isTaken = next === took;
  const notTaken = may ? (r.bad ? 'permitted' : 'permitted too') : 'not permitted';
  const taken = may ? 'taken' : 'taken, forbidden';
  const filled = may ? '\u25CF' : '\u00D7';
  const hollow = may ? '\u25CB' : '\u2013';
  const sign = make('span', 'sign', isTaken ? filled : hollow);
  sign.setAttribute('aria-hidden', 'true');
  const how = make('span', 'how', isTaken ? taken : notTaken);
  const cls = (isTaken ? 'took ' : '') + (may ? '' : 'barred');
  return make('li', cls, sign, make('span', 'who', named(words)), how);
}

function showChoices(r) {
  const area = $('choices');
  area.replaceChildren();
  area.hidden = !r.event || (r.bad && !r.may);
  if (area.hidden) return;
  if (!r.may) {
    const words = 'No choice here: this step doesn\u2019t give the monitor up.';
    area.append(make('p', 'quiet', words));
    return;
  }
  const took = nextOf(r).join(' ');
  const all = candidates(r);
  if (!all.some(([next]) => next === took)) all.push([took, takenWords(r, took), 0]);
  area.append(make('h2', '', `Who may go on under ${H.kind}`));
  area.append(make('ul', '', ...all.map((it) => choiceLine(r, it, took))));
}

function showSay(r) {
  const line = $('say');
  const end = r.step === last && TOLD.end;
  line.replaceChildren(make('span', 'unseen', `Step ${r.step}. `), named(say(r)));
  if (r.bad) line.append(make('span', 'bad', named(wrongWords(r))));
  if (end) line.append(make('span', 'bad', end));
  const others = H.kinds.filter((k) => k.kind !== H.kind && k.why && stepOf(k) === r.step);
  if (others.length) {
    const names = listed(others.map((k) => k.kind));
    line.append(make('span', 'unseen', ` ${names} would forbid this step.`));
  }
  $('told').classList.toggle('bad', Boolean(r.bad || end));
  $('line').textContent = r.event || '';
}
