// A forbidden event in a sentence, as it claims to be.

function claimedAct(r) {
  const words = `claims that it ${actWords(r)}`;
  return words.includes('reply') ? words : `${words} (reply ${r.words[4]})`;
}

const CLAIMS = {
  enter: (r) =>
    r.words[2] === 'free'
      ? 'enters, as if the monitor were free'
      : 'enters, as if it were handed the monitor',
  act: claimedAct,
  leave: () => 'leaves',
  wait: (r) => `waits on condition ${r.words[2]}`,
  signal: (r) => `signals condition ${r.words[2]}`,
  'signal-leave': (r) => `signals condition ${r.words[2]} and leaves`,
  'signal-all': (r) => `signals all who wait on condition ${r.words[2]}`,
  'signal-wait': (r) => `signals condition ${r.words[2]} and waits on condition ${r.words[3]}`,
  until: (r) => `waits until ${PREDICATES[r.words[2]] || `predicate ${r.words[2]} holds`}`,
  resume: (r) => `goes on, from ${r.words[2]}`,
};

function claim(r) {
  const next = nextOf(r);
  const does = `Seat ${r.words[1]} ${CLAIMS[r.words[0]](r)}`;
  if (!next) return `${does}.`;
  if (next[0] === 'stay') return `${does}, and stays active.`;
  if (next[0] === 'entry') return `${does}, and opens the monitor to a caller.`;
  return `${does}, and hands the monitor to seat ${next[1]}.`;
}

function verdictWords(verdict) {
  const [word, step, , reasonWord] = verdict.split(' ');
  return word === 'legal' ? 'legal' : `step ${step}: ${reasonWord}`;
}

const wrongWords = (r) => `Forbidden: ${r.why}.`;
