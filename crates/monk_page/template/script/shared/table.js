// All steps as a table: closed on the screen, printed.

function rowOf(r) {
  const link = make('a', '', String(r.step));
  link.href = `#step=${r.step}`;
  const happens = named(say(r) + (r.bad ? ` ${wrongWords(r)}` : ''));
  const cells = [link, happens, ...placeCells(r), dataLines(r).join(' ')];
  const isLong = (i) => i === 1 || i === cells.length - 1 || isLongCell(i);
  const tds = cells.map((cell, i) => make('td', isLong(i) ? '' : 'short', cell));
  const line = make('tr', r.bad ? 'bad' : '', ...tds);
  line.dataset.step = r.step;
  return line;
}

function headCell(words) {
  const cell = make('th', '', words);
  cell.scope = 'col';
  return cell;
}

let rows = [];
function fillTable() {
  if (rows.length) return;
  rows = R.map(rowOf);
  const head = make('thead', '', make('tr', '', ...headOf().map(headCell)));
  $('table').append(make('table', '', head, make('tbody', '', ...rows)));
}

function markTable() {
  rows.forEach((line) => {
    const step = Number(line.dataset.step);
    if (step === known()) line.setAttribute('aria-current', 'step');
    else line.removeAttribute('aria-current');
    line.hidden = !isKnown(step);
  });
}

$('all').addEventListener('toggle', () => {
  fillTable();
  markTable();
});
