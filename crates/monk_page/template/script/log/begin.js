// The head of the page.

function showVerdict() {
  const misfit = H.misfit && `misfit at line ${H.misfit.index + 2}: ${H.misfit.word}`;
  $('verdict').textContent = isKnown(last) ? misfit || 'fits' : '';
  $('verdict').classList.toggle('bad', Boolean(misfit));
}

function headWords() {
  const rule = 'A run of a mutex with condition variables that tells this log.';
  const numbers = `${plural(H.seats, 'thread')}, ${plural(H.conditions, 'condition')}`;
  const shown = ` The page shows lines ${first + 2} to ${last + 1} of the file.`;
  return `${rule} ${numbers}, ${objectWords()}.${first > 0 && last > first ? shown : ''}`;
}

// A log is judged by one kind alone.
function showKinds() {}

const log = beginHistory({ kind: 'log', noun: 'A log of a program' });
$('kinds').hidden = true;
return log;
