// What the table says of a step, besides its sentence and the data.

function headOf() {
  const conditions = (R[0].conditions || []).map((_, c) => CONDITIONS[c] || `Condition ${c}`);
  const signaller = signallerRank ? ['Signaller'] : [];
  const queues = automatic ? ['Waits until', 'Ready'] : [...conditions, 'Waiter', ...signaller];
  return ['Step', 'What happens', 'Active', ...queues, 'Data'];
}

function turnCell(r) {
  const [turn, seat] = r.turn.split(' ');
  if (turn === 'open') return 'open';
  return turn === 'of' ? seat : `${seat} next`;
}

function queueCells(r) {
  if (automatic) {
    const waits = r.until.map(([s, predicate]) => `${s}: ${PREDICATES[predicate]}`);
    return [waits.join('; '), r.ready.join(', ')];
  }
  const signaller = signallerRank ? [r.signaller] : [];
  return [...r.conditions, r.waiter, ...signaller].map((queue) => queue.join(', '));
}

const placeCells = (r) => [turnCell(r), ...queueCells(r)];
const isLongCell = (i) => automatic && i === 3;
