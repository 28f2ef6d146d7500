// Where each seat is after each step.

// The seat that is known to wait for entry, since the next event hands it the monitor.
function atEntry(r) {
  const after = R[r.step - first + 1];
  const isHanded =
    after && !after.bad && after.words[0] === 'enter' && after.words[2] === 'handed';
  return isHanded ? Number(after.words[1]) : undefined;
}

function placesOf(r) {
  const at = {};
  for (let s = 0; s < H.seats; s++) at[s] = r.inside.includes(s) ? 'inside' : 'outside';
  (r.conditions || []).forEach((queue, c) => {
    queue.forEach((s) => (at[s] = `condition${c}`));
  });
  (r.waiter || []).forEach((s) => (at[s] = 'waiter'));
  (r.signaller || []).forEach((s) => (at[s] = 'signaller'));
  (r.until || []).forEach(([s]) => (at[s] = 'until'));
  const [turn, seat] = r.turn.split(' ');
  if (turn === 'of') at[seat] = 'active';
  if (turn === 'due') at[seat] = 'due';
  return at;
}

R.forEach((r) => {
  r.at = placesOf(r);
  r.entry = atEntry(r);
});
