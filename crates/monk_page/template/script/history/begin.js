// The head of the page.

function showVerdict() {
  const [word, step, , reasonWord] = H.verdict.split(' ');
  const isLegal = word === 'legal';
  const forbidden = `forbidden at step ${step}: ${reasonWord}`;
  const verdict = isLegal ? `legal, ${plural(H.events, 'event')}` : forbidden;
  $('verdict').textContent = isKnown(last) ? verdict : '';
  $('verdict').classList.toggle('bad', !isLegal);
}

function headWords() {
  const kind = `${H.kind}, ${H.mode}${OF[H.kind] ? ` (${OF[H.kind]})` : ''}.`;
  const conditions = automatic ? '' : `, ${plural(H.conditions, 'condition')}`;
  const size = `${plural(H.seats, 'seat')}${conditions}, ${objectWords()}.`;
  const isPart = H.before > 0 || last < H.events;
  const shownSteps = `The page shows steps ${first + 1} to ${last} of ${H.events}.`;
  return `${kind} ${size}${isPart && last > first ? ` ${shownSteps}` : ''}`;
}

return beginHistory({ kind: H.kind, noun: 'A history', ask, answer, tick });
