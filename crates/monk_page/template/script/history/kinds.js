// The ten kinds: what each says of the same events.

const OF = {
  PB: 'Hoare\u2019s kind',
  NPNB: 'Mesa\u2019s own kind, and that of POSIX, Java and Go',
};

const stepOf = (k) => Number(k.verdict.split(' ')[1]);

const chips = H.kinds.map((k) => {
  const isOwn = k.kind === H.kind;
  const ownWords = 'the kind of this history';
  const cls = `chip${k.why ? ' no' : ''}${isOwn ? ' own' : ''}`;
  const words = make('span', 'unseen', isOwn ? `, ${ownWords}` : '');
  const isShown = k.why && stepOf(k) >= first && stepOf(k) <= last;
  const toIt = () => go(isShown ? stepOf(k) : now, own, k);
  const chip = button(cls, toIt, make('b', '', k.kind), make('span', ''), words);
  if (isOwn) chip.title = ownWords;
  $('chips').append(make('li', '', chip));
  return chip;
});

function showChip(chip, k, r) {
  const isPast = Boolean(k.why) && stepOf(k) <= r.step;
  const isHidden = isHiding() && !isPast && r.step < last;
  chip.classList.toggle('past', isPast);
  chip.classList.toggle('no', Boolean(k.why) && !isHidden);
  chip.children[1].textContent = isHidden ? 'so far legal' : verdictWords(k.verdict);
}

// The sentence of one kind, said of several.
function ofMany(kind, why) {
  return why
    .replace(`${kind} puts`, 'they put')
    .replace(`${kind} monitors have`, 'they have')
    .replace(`${kind} monitors`, 'their monitors');
}

function noteOf(kinds) {
  const [k] = kinds;
  const names = make('b', '', listed(kinds.map((it) => it.kind)));
  if (!k.why) return make('p', '', names, ` permits all ${plural(H.events, 'event')}.`);
  const isMany = kinds.length > 1;
  const why = isMany ? ofMany(k.kind, k.why) : k.why;
  const forbids = isMany ? 'forbid' : 'forbids';
  return make('p', '', names, named(` ${forbids} step ${stepOf(k)}: ${why}.`));
}

function showKinds(r, all) {
  const notes = new Map();
  H.kinds.forEach((k, i) => {
    showChip(chips[i], k, r);
    if ((k.why && (stepOf(k) === r.step || all)) || picked === k) {
      const same = k.why ? stepOf(k) + k.why.replaceAll(k.kind, '') : '';
      notes.set(same, [...(notes.get(same) || []), k]);
    }
  });
  $('notes').replaceChildren(...[...notes.values()].map(noteOf));
}
