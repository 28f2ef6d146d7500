// A step in a sentence: what an event does, whom it serves, and why who goes on.

const QUEUES = automatic
  ? [['ready', waiterRank], ['entry', entryRank]]
  : [
      ['waiters', waiterRank],
      ...(signallerRank ? [['signallers', signallerRank]] : []),
      ['entry', entryRank],
    ];
const ORDER = QUEUES.slice().sort((a, b) => b[1] - a[1]);

function orderWords() {
  const groups = [];
  ORDER.forEach(([name, rank], i) => {
    if (i && ORDER[i - 1][1] === rank) groups[groups.length - 1].push(name);
    else groups.push([name]);
  });
  const words = groups.map((g) => (g.length > 1 ? `${listed(g)} level` : g[0]));
  return words.join(' above ').replace(/ready/, 'the ready');
}

function whoGoesOn(r) {
  const next = nextOf(r);
  if (next[0] === 'entry') return 'the monitor is open to whoever enters next';
  return `seat ${next[0] === 'stay' ? r.words[1] : next[1]} goes on`;
}

function rankOf(next) {
  if (next === 'entry') return entryRank;
  return /^[wu]/.test(next) ? waiterRank : signallerRank;
}

// The kind left a choice: between whom.
function freeChoice(r) {
  const name = (next) =>
    next === 'entry' ? 'a caller' : `seat ${next === 'stay' ? r.words[1] : next.split(' ')[1]}`;
  const order = ['w', 'u', 's', 'e'];
  const byRank = (x, y) => rankOf(y) - rankOf(x) || order.indexOf(x[0]) - order.indexOf(y[0]);
  const all = r.may.slice().sort(byRank).map(name);
  const between = all.length > 2 ? 'among' : 'between';
  return `${H.kind} leaves the choice ${between} ${listed(all)}: ${whoGoesOn(r)}.`;
}

function reason(r) {
  if (r.may.length > 1) return freeChoice(r);
  const has = (queue) => r.fronts.some((front) => front.startsWith(queue));
  const over = (a, b) => `${H.kind} puts ${a} above ${b}, so ${whoGoesOn(r)}.`;
  switch (nextOf(r)[0]) {
    case 'waiter':
      return over('waiters', has('signaller') ? 'signallers' : 'entry');
    case 'signaller':
    case 'stay':
      return over('signallers', has('waiter') ? 'waiters' : 'entry');
    case 'until':
      return over('the ready', 'entry');
    default:
      return `Nobody inside could go on, so ${whoGoesOn(r)}.`;
  }
}

// The predicate that a seat waited for, which the record before its release has.
function waitedFor(r, seat) {
  for (let t = r.was; t; t = t.was) {
    const found = (t.until || []).find(([j]) => j === Number(seat));
    if (found) return found[1];
  }
  return 0;
}

const queueOn = (r, condition) => (r.was.conditions || [])[condition] || [];

function sayUntil(r) {
  const [, s, predicate] = r.words;
  const waits = `Seat ${s} waits until ${PREDICATES[predicate]}`;
  return nextOf(r)[0] === 'stay'
    ? `${waits}. That holds already, so seat ${s} goes on.`
    : `${waits}, which isn\u2019t so. ${reason(r)}`;
}

function saySignal(r) {
  const [, s, condition] = r.words;
  const signals = `Seat ${s} signals condition ${condition}`;
  const [served] = queueOn(r, condition);
  if (served === undefined) {
    return `${signals}. Nobody waits there, so nothing comes of it, and seat ${s} goes on.`;
  }
  const then = nextOf(r)[0] === 'stay' ? '. ' : `, seat ${s} the signaller queue. `;
  return `${signals}: seat ${served} is served and joins the waiter queue${then}${reason(r)}`;
}

function saySignalAll(r) {
  const [, s, condition] = r.words;
  const served = queueOn(r, condition);
  const signals = `Seat ${s} signals all who wait on condition ${condition}`;
  if (!served.length) return `${signals}: nobody does. It goes on.`;
  const [join, order] = served.length > 1 ? ['join', ', in that order'] : ['joins', ''];
  return `${signals}: ${seatsOf(served)} ${join} the waiter queue${order}. Seat ${s} goes on.`;
}

function servedBy(r, condition, nobody) {
  const [served] = queueOn(r, condition);
  return served === undefined ? nobody : `seat ${served} is served and joins the waiter queue. `;
}

const SAY = {
  enter: ([, s, via]) =>
    via === 'free'
      ? `Seat ${s} enters, and finds the monitor free.`
      : `Seat ${s} enters: it waited for entry, and is handed the monitor.`,
  act: ([, s], r) => `Seat ${s} ${actWords(r)}.`,
  resume: ([, s, from], r) =>
    from === 'until'
      ? `Seat ${s} resumes, and is active: it waited until ${PREDICATES[waitedFor(r, s)]}.`
      : `Seat ${s} resumes from the ${from} queue, and is active.`,
  leave: ([, s], r) => `Seat ${s} leaves. ${reason(r)}`,
  wait: ([, s, condition], r) => `Seat ${s} waits on condition ${condition}. ${reason(r)}`,
  until: (_, r) => sayUntil(r),
  signal: (_, r) => saySignal(r),
  'signal-all': (_, r) => saySignalAll(r),
  'signal-leave': ([, s, c], r) =>
    `Seat ${s} signals condition ${c} and leaves: ` +
    servedBy(r, c, 'nobody waits there. ') +
    reason(r),
  'signal-wait': ([, s, c, own], r) =>
    `Seat ${s} signals condition ${c} and waits on condition ${own}: ` +
    servedBy(r, c, `nobody waits on ${c}. `) +
    reason(r),
};

function say(r) {
  if (r.bad) return claim(r);
  if (r.event) return SAY[r.words[0]](r.words, r);
  return r.step === 0
    ? 'Before the first event: the monitor is open, and nobody is inside.'
    : `After ${plural(r.step, 'event')}, which this page doesn\u2019t show.`;
}
