// One record for the situation before the first shown line, one for each line of the log that the
// run tells, and one for the line that misfits. A step that no line tells belongs to a line of its
// thread: to the wait that runs out, or to the resume of a thread that wakes unasked.

const first = H.before;

function recordOf(entry, step) {
  const words = entry.told.split(' ');
  const wakes = words[3] === 'wakes' ? Number(words[4]) : undefined;
  return { ...entry, words, wakes, step };
}

function recordsOf(records, entry) {
  const [word] = entry.told.split(' ');
  const before = records[records.length - 1];
  if (word === 'out') {
    records[records.length - 1] = { ...before, ...entry, hasRunOut: true };
  } else if (word === 'wake') {
    before.isUnaskedNext = true;
  } else {
    records.push(recordOf(entry, first + records.length));
  }
  return records;
}

const R = H.steps.reduce(recordsOf, [{ ...H.start, words: [], step: first }]);
const told = first + R.length - 1;
const fault = H.misfit && H.misfit.index === told ? H.misfit : null;
if (fault) R.push({ ...R[R.length - 1], ...recordOf(fault, told + 1), bad: true });
const last = first + R.length - 1;
R.forEach((r, i) => {
  r.was = R[i - 1];
  r.at = r.places.map((place) => place.replace(' ', ''));
});

const seatOf = (r) => Number(r.words[1]);
const inFile = (r) => `line ${r.step + 1}`;
const seatsAt = (r, place) => r.places.flatMap((it, seat) => (it === place ? [seat] : []));
const seatsThat = (r, does) => r.places.flatMap((it, seat) => (it.startsWith(does) ? [seat] : []));
