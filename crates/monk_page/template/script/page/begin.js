// The head of the page, and the step that the address names.

function byAddress() {
  address = location.hash;
  const at = new URLSearchParams(address.slice(1));
  if (at.has('theme')) setTheme(at.get('theme') === 'dark');
  for (const id of ['ask', 'hide', 'fit']) if (at.has(id) && !byId(id).checked) toggle(id);
  const named = at.get('step');
  const isPart = histories.some((it) => it.first > 0);
  go(/^\d+$/.test(named || '') ? Number(named) : isPart ? lastStep() : firstStep());
}

// The page is named by its file, if it has one.
function nameOfPage() {
  const path = decodeURIComponent(location.pathname.split('/').pop() || '');
  return path.replace(/\.html?$/, '').replace(/[_-]+/g, ' ');
}

function begin() {
  document.querySelectorAll('.history').forEach((root, i) => histories.push(historyOf(root, i)));
  [chosen] = histories;
  byId('name').textContent = nameOfPage() || chosen.noun;
  document.title = `${byId('name').textContent}: ${histories.map((it) => it.kind).join(', ')}`;
  byId('parting').textContent = partingWords();
  document.body.classList.toggle('several', histories.length > 1);
  document.body.classList.toggle('asking', histories.some((it) => it.ask));
  document.body.style.setProperty('--histories', histories.length);
  byId('live').hidden = byId('legend').hidden = false;
  showLegend();
  beginKeys();
  fitPictures();
  addEventListener('hashchange', byAddress);
  byAddress();
}
