// The monitor as boxes: who is active, the data, each queue, and who is outside.

function entryBox(r) {
  if (r.entry === undefined || isHiding()) {
    return box('entry', 'Entry', '', make('p', 'quiet', 'nobody known'));
  }
  return box('entry', 'Entry', '', queueOf([r.entry], 'entry'), make('p', 'quiet', 'enters next'));
}

function queueBox(name, r) {
  switch (name) {
    case 'waiters':
      return box('waiter', 'Waiter queue', '', queueOf(r.waiter, 'waiter'));
    case 'signallers':
      return box('signaller', 'Signaller queue', '', queueOf(r.signaller, 'signaller'));
    case 'ready':
      return box('until', 'Ready', '', queueOf(r.ready, 'until'));
    default:
      return entryBox(r);
  }
}

function activeWords(r) {
  const [turn, seat, from] = r.turn.split(' ');
  if (turn === 'open') return make('p', 'quiet', 'nobody: open to whoever enters');
  if (turn === 'of') return queueOf([Number(seat)], 'active');
  const queue = from === 'until' ? 'waits-until' : `${from} queue`;
  const next = make('span', '', `is next, from the ${queue}`);
  return make('div', 'seats', token(Number(seat), from, 'span'), next);
}

function topRow(r) {
  return make('div', 'row', box('active half', 'Active', '', activeWords(r)), dataBox(r));
}

// The queues in the kind's order, with `>` or `=` between them.
function orderRow(r) {
  const head = make('h2', '', `Who goes on at a release: ${orderWords()}`);
  const line = make('div', 'row', head);
  ORDER.forEach(([name, rank], i) => {
    if (i) {
      const sign = make('span', 'rank', ORDER[i - 1][1] === rank ? '=' : '>');
      sign.setAttribute('aria-hidden', 'true');
      line.append(sign);
    }
    line.append(queueBox(name, r));
  });
  return line;
}

function untilLine(r, [s, predicate]) {
  const isTrue = r.ready.includes(s);
  const truth = make('span', `truth ${isTrue ? 'yes' : 'quiet'}`, isTrue ? 'true: ready' : 'false');
  const words = make('span', '', `until ${PREDICATES[predicate]}`);
  return make('li', '', token(s, 'until', 'span'), words, truth);
}

function waitersRow(r) {
  if (!automatic) {
    const boxes = r.conditions.map((queue, c) => {
      const [title, note] = CONDITIONS[c] ? [CONDITIONS[c], 'condition'] : [`Condition ${c}`, ''];
      return box('condition', title, note, queueOf(queue, 'condition'));
    });
    return boxes.length ? [make('div', 'row', ...boxes)] : [];
  }
  const waits = r.until.map((wait) => untilLine(r, wait));
  const list = waits.length ? make('ol', 'waits', ...waits) : make('p', 'quiet', 'nobody');
  return [make('div', 'row', box('until', 'Waits until', 'first wait first', list))];
}

function outsideRow(r) {
  const out = [];
  for (let s = 0; s < H.seats; s++) {
    const isAtEntry = s === r.entry && !isHiding();
    if (!r.inside.includes(s) && !isAtEntry) out.push(s);
  }
  return make('div', 'row', box('outside', 'Outside the monitor', '', queueOf(out, 'outside')));
}

function showBoxes(r) {
  const parts = [topRow(r), orderRow(r), ...waitersRow(r)];
  if (r.bad) {
    const head = `Before step ${r.step}, which can\u2019t be: the monitor as it stands`;
    parts.unshift(make('h2', '', head));
  }
  $('boxes').replaceChildren(make('div', 'monitor', ...parts), outsideRow(r));
  const when = r.bad ? 'before' : 'after';
  $('boxes').setAttribute('aria-label', `The monitor ${when} step ${r.step}`);
}
