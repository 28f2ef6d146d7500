"""Scripts that say how the page looks: each is run in it, by web/tests/page.py."""

# Contrasts that are too small, and controls without a name or too small to be hit.
LOOK = """(() => {
  const rgb = (color) => (color.match(/[\\d.]+/g) || []).map(Number);
  const part = (v) => (v <= .03928 ? v / 12.92 : ((v + .055) / 1.055) ** 2.4);
  const light = ([r, g, b]) => .2126 * part(r / 255) + .7152 * part(g / 255) + .0722 * part(b / 255);
  const ground = (el) => { for (let it = el; it; it = it.parentElement) {
    const c = rgb(getComputedStyle(it).backgroundColor);
    if (c.length === 3 || c[3] > .5) return c; } return [255, 255, 255]; };
  const found = [];
  for (const el of document.querySelectorAll('body *')) {
    const isText = [...el.childNodes].some((n) => n.nodeType === 3 && n.textContent.trim()) || el.tagName === 'TEXTAREA';
    if (!isText || !el.getClientRects().length || /SCRIPT|STYLE|OPTION/.test(el.tagName) || el.closest(':disabled')) continue;
    const a = light(rgb(getComputedStyle(el).color)), b = light(ground(el));
    const ratio = (Math.max(a, b) + .05) / (Math.min(a, b) + .05);
    const name = `${el.tagName} ${el.id} ${el.className}: ${el.textContent.slice(0, 20)}`;
    if (ratio < 4.5) found.push(`contrast ${ratio.toFixed(2)} of ${name}`);
  }
  for (const el of document.querySelectorAll('button, select, textarea, input')) {
    const box = el.getBoundingClientRect();
    if (!box.width || el.closest('[aria-hidden]') || el.getAttribute('aria-hidden')) continue;
    const labels = [...(el.labels || [])].map((it) => it.textContent.trim()).join('');
    if (!(el.getAttribute('aria-label') || el.textContent.trim() || labels)) found.push(`no name: ${el.outerHTML.slice(0, 60)}`);
    if (el.tagName === 'BUTTON' && (box.width < 24 || box.height < 24)) found.push(`small: ${el.textContent}`);
  }
  return found; })()"""
# Whether each choice has a button at its thread's line.
BESIDE = """(() => { const choices = document.querySelectorAll('#choices button').length;
  const beside = [...document.querySelectorAll('#tags .can')].filter((it) => { const box = it.getBoundingClientRect();
    return box.width > 20 && box.right <= innerWidth && box.top >= 0 && box.bottom <= innerHeight; });
  return choices > 0 && beside.length === choices; })()"""
# The threads whose lines end under chips, even after a scroll to the right.
COVERED = """new Promise((done) => {
  const code = document.getElementById('code'), text = document.getElementById('threads').firstChild;
  const rows = [...document.querySelectorAll('#tags .row')], lines = text.data.trimEnd().split('\\n');
  code.scrollLeft = code.scrollWidth;
  setTimeout(() => {
    let at = 0;
    const found = lines.filter((line, i) => {
      const range = document.createRange(), chip = rows[rows.length - lines.length + i].firstElementChild;
      range.setStart(text, at);
      range.setEnd(text, at += line.length);
      at += 1;
      return chip && range.getBoundingClientRect().right > chip.getBoundingClientRect().left + 1;
    });
    code.scrollLeft = 0;
    setTimeout(() => done(found), 50);
  }, 50);
})"""
# What of the game stands outside of the window.
SEEN = """(() => ['code', 'monitor', 'choices', 'kinds', 'goal', 'say'].filter((id) => {
  const box = document.getElementById(id).getBoundingClientRect();
  return box.bottom > innerHeight || box.right > innerWidth; }))()"""
# Level 1, when its first kind is played and the others aren't: how many moves it shows, its words, and its buttons.
SOON = """(() => {
  const { played, seats } = playground;
  playground.run();
  playground.hear({ played: played.PB, seats });
  return [document.querySelectorAll('#choices li').length, document.getElementById('asks').innerText,
    document.getElementById('does').getClientRects().length];
})()"""
