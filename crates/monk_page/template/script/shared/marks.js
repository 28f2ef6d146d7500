// Marks and numbers by step, so that those to come can be hidden; and a click, which goes to a step.

let marks = [];
let wrong = []; // what shows that the last step is wrong
let markedUpTo = Infinity;

// The mark of a step stands behind its number.
function collectMarks() {
  const numbers = [...svg.querySelectorAll(`#${SCENE} .step`)];
  marks = numbers.map((number) => {
    const dot = number.nextElementSibling;
    return { step: Number(number.textContent), number, dot };
  });
  if (fault) wrong = [...svg.querySelectorAll('.wrong, .frame, .wish')];
}

// Hides the marks of what follows; only those that change are touched.
function hideLater(step, isQuestion) {
  const low = Math.min(step, markedUpTo);
  const high = Math.max(step, markedUpTo);
  const changed = marks.filter((mark) => mark.step > low && mark.step <= high);
  changed.forEach((mark) => {
    [mark.number, mark.dot].forEach((it) => it.classList.toggle('later', mark.step > step));
  });
  wrong.forEach((it) => it.classList.toggle('later', step < last || Boolean(isQuestion)));
  markedUpTo = step;
}

// The lanes by their seats, which have their names there.
function nameLanes() {
  const texts = [...svg.querySelectorAll('text[x="16"]')];
  const names = texts.filter((t) => /^seat \d+$/.test(t.textContent));
  return names.map((t) => {
    const seat = Number(t.textContent.slice(5));
    write(t, seatName(seat), NAMES - 18);
    t.classList.add('lane');
    draw('title', {}, t).textContent = 'this seat\u2019s next event (with Shift: the one before)';
    return { seat, y: Number(t.getAttribute('y')) };
  });
}

const nearest = (all, distance) => all.reduce((a, b) => (distance(b) < distance(a) ? b : a));

function nearestStep(x) {
  if (x < columns.values().next().value - gap / 2) return first;
  return nearest([...columns], ([, middle]) => Math.abs(middle - x))[0];
}

// The nearest event of a seat behind or before the step that is shown.
function eventOfSeat(seat, way) {
  const sought = R.filter((r) => Number(r.words[1]) === seat && (r.step - now) * way > 0);
  return sought.length ? nearest(sought, (r) => Math.abs(r.step - now)).step : undefined;
}

// On a seat's name a click goes to its next event, with Shift to the one before; elsewhere to the step there.
function clickPicture(event) {
  const { x, y } = new DOMPoint(event.clientX, event.clientY).matrixTransform(
    svg.getScreenCTM().inverse(),
  );
  const left = event.clientX - $('picture').getBoundingClientRect().left;
  const isName = left < NAMES * view.scale && lanesAt.length;
  const lane = isName && nearest(lanesAt, (it) => Math.abs(it.y - y));
  const step = isName ? eventOfSeat(lane.seat, event.shiftKey ? -1 : 1) : nearestStep(x);
  go(step === undefined ? now : step, own);
}
