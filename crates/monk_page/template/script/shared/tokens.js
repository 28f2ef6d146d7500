// Seats as tokens, in boxes.

let shown; // the record that is shown

const hasMoved = (s) => shown.was && shown.was.at[s] !== shown.at[s] && !shown.bad;

function token(s, place, tag) {
  const element = make(tag || 'li', `seat ${place}${hasMoved(s) ? ' moved' : ''}`);
  element.append(make('span', 'unseen', SEATS[s] ? '' : 'seat '), SEATS[s] || String(s));
  return element;
}

function box(cls, title, note, ...inside) {
  const head = make('h3', '', title);
  if (note) head.append(make('span', 'quiet', note));
  return make('div', `box card ${cls}`, head, ...inside);
}

function queueOf(seats, place) {
  if (!seats.length) return make('p', 'quiet', 'nobody');
  return make('ol', 'seats', ...seats.map((s) => token(s, place)));
}
