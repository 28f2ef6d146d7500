// Light and dark: as the system has it, until the button is pressed.

let dark = matchMedia('(prefers-color-scheme: dark)').matches;
let schemes = null;

// The rules of a scheme. They are collected when they are first wanted: a picture that is moved gets new ones.
function rulesOfSchemes() {
  const rules = [...document.styleSheets].flatMap((sheet) => [...sheet.cssRules]);
  return rules.filter((rule) => rule.media && rule.media.mediaText.includes('prefers-color-scheme'));
}

function setTheme(isDark) {
  dark = isDark;
  schemes ??= rulesOfSchemes();
  schemes.forEach((rule) => (rule.media.mediaText = dark ? 'all' : 'not all'));
  document.documentElement.style.colorScheme = dark ? 'dark' : 'light';
  byId('theme').textContent = dark ? 'Light' : 'Dark';
}

byId('theme').textContent = dark ? 'Light' : 'Dark';
byId('theme').addEventListener('click', () => setTheme(!dark));

// Print is light.
let screenDark = null;
addEventListener('beforeprint', () => {
  screenDark = dark;
  setTheme(false);
  histories.forEach((it) => it.showAll());
});
addEventListener('afterprint', () => {
  if (screenDark !== null) setTheme(screenDark);
  histories.forEach((it) => it.showAgain());
});
