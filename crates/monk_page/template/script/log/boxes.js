// The program as boxes: who has the lock, the data, who sleeps, who is woken, and who is outside.

function lockBox(r) {
  const holder = make('p', 'quiet', 'free: whoever comes first takes it');
  return box('active half', 'Lock', '', r.lock === null ? holder : queueOf([r.lock], 'active'));
}

function topRow(r) {
  return make('div', 'row', lockBox(r), dataBox(r));
}

function sleepersRow(r) {
  const boxes = [];
  for (let c = 0; c < H.conditions; c++) {
    const sleepers = queueOf(seatsAt(r, `waiting ${c}`), 'condition');
    boxes.push(box('condition', `Sleep on condition ${c}`, '', sleepers));
  }
  return make('div', 'row', ...boxes);
}

const hasTimes = R.some((r) => r.hasRunOut || seatsThat(r, 'out ').length);

function returningRow(r) {
  const woken = queueOf(seatsThat(r, 'woken'), 'waiter');
  const boxes = [box('waiter', 'Woken', 'not back yet', woken)];
  if (hasTimes) {
    boxes.push(box('until', 'Time is over', 'not back yet', queueOf(seatsThat(r, 'out '), 'until')));
  }
  const head = make('h2', '', 'Whoever gets the lock first comes in: no queue, no order');
  return make('div', 'row', head, ...boxes);
}

function showBoxes(r) {
  const monitor = make('div', 'monitor', topRow(r), sleepersRow(r), returningRow(r));
  if (r.bad) {
    const head = `Before ${inFile(r)}, which can\u2019t be: the program as it stands`;
    monitor.prepend(make('h2', '', head));
  }
  const outside = box('outside', 'Without the lock', '', queueOf(seatsAt(r, 'outside'), 'outside'));
  $('boxes').replaceChildren(monitor, make('div', 'row', outside));
  $('boxes').setAttribute('aria-label', `The program ${r.bad ? 'before' : 'after'} step ${r.step}`);
}

// What the table says of a step, besides its sentence and the data.

function headOf() {
  const conditions = Array.from({ length: H.conditions }, (_, c) => CONDITIONS[c] || `Condition ${c}`);
  return ['Step', 'What happens', 'Lock', ...conditions, 'Woken', 'Data'];
}

function placeCells(r) {
  const asleep = Array.from({ length: H.conditions }, (_, c) => seatsAt(r, `waiting ${c}`));
  const cells = [...asleep, seatsThat(r, 'woken')].map((seats) => seats.join(', '));
  return [r.lock === null ? 'free' : String(r.lock), ...cells];
}

const isLongCell = () => false;
