// One record for the situation before the first shown step, one for each allowed step, and one for
// the forbidden step, which has the situation before it.

const fault = H.forbidden;

function recordOf(step, i) {
  const chosen = step.choice
    ? { fronts: step.choice.fronts.map((front) => front.join(' ')), may: step.choice.may }
    : {};
  return { ...step, ...chosen, step: H.before + i };
}

const R = H.steps.map(recordOf);
if (fault) {
  const before = { ...R[R.length - 1], fronts: undefined, may: undefined };
  R.push({ ...before, ...recordOf(fault, R.length), bad: true });
}
R.forEach((r, i) => {
  r.words = r.event ? r.event.split(' ') : [];
  r.was = R[i - 1];
});
const first = H.before;
const last = H.before + R.length - 1;

// The word at which the choice of a release begins.
const RELEASES = { leave: 2, wait: 3, signal: 3, 'signal-leave': 3, until: 3, 'signal-wait': 4 };
const nextOf = (r) => (r.words[0] in RELEASES ? r.words.slice(RELEASES[r.words[0]]) : null);
const automatic = H.mode === 'automatic';
const [entryRank, waiterRank, signallerRank] = H.ranks.split(' ').map(Number);
