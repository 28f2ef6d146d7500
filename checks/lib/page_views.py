"""What of a page can be seen: in a small window, on a phone, and in the dark."""
from browser import Browser
from page_shows import Told

# A window in which all of a step must be in view, for as many steps; and a phone.
WINDOW, PHONE, STEPS = (1280, 720), (390, 844), 8
# In pixels on the screen: the least size of a label, and of what a finger touches.
LEGIBLE, TOUCHED = 13, 44
# How far down what is needed at a step reaches, how far the picture was scrolled, and what its labels say.
SEEN = """(() => {
  const bottom = (it) => it.getBoundingClientRect().bottom;
  const parts = ['#legend', '.told .say', '.choices', '.told .line', '.boxes'];
  const scale = document.querySelector('.cropped').getScreenCTM().a;
  const labels = [...document.querySelectorAll('.cropped .act, .cropped .note, .cropped .step, .cropped .what')];
  return {
    below: Math.max(...parts.flatMap((it) => [...document.querySelectorAll(it)]).map(bottom)),
    scrolled: Math.max(scrollY, document.querySelector('.picture').scrollLeft),
    least: Math.min(99, ...labels.map((it) => parseFloat(getComputedStyle(it).fontSize) * scale)),
    words: labels.map((it) => it.textContent), signs: document.querySelectorAll('#legend li').length,
  };
})()"""
# What a finger touches and is too small, and the names that are cut.
TOUCH = """(() => {
  const cut = [...document.querySelectorAll('.about, .verdict, .chip b, .chip span:not(.unseen)')]
    .filter((it) => it.offsetParent && it.scrollWidth > it.clientWidth + 1 && it.clientWidth);
  const small = [...document.querySelectorAll('button, .guess, #live label')].filter((it) => it.offsetParent)
    .filter((it) => Math.min(it.getBoundingClientRect().height, it.getBoundingClientRect().width) < TOUCHED);
  const wide = document.documentElement.scrollWidth > innerWidth ? ['the page'] : [];
  return [...cut, ...small].map((it) => it.textContent).concat(wide);
})()"""
# The colours of the page, and those of the chips of other kinds.
COLORS = """[...document.querySelectorAll('body, body *')].filter((it) => it.closest('.boxes, .picture, .chips')).map((it) => {
  const { color, fill, stroke, backgroundColor, borderColor } = getComputedStyle(it);
  return [it.nodeName, color, fill, stroke, backgroundColor, borderColor].join(' ');
})"""
RED = """[...document.querySelectorAll('.chip:not(.own), .chip:not(.own) *')].filter((it) => {
  const wrong = getComputedStyle(document.querySelector('.answer.bad') || document.body).getPropertyValue('--wrong');
  const paint = Object.assign(document.createElement('i'), { style: `color: ${wrong}` });
  it.append(paint);
  const red = getComputedStyle(paint).color;
  paint.remove();
  return [getComputedStyle(it).color, getComputedStyle(it).borderLeftColor].includes(red);
}).length"""
# A number that only a reader of the text form knows.
RAW = ("replied", "c0", "c1", "p0", "p1")


def in_window(browser: Browser, address: str, first: int, last: int) -> list[str]:
    """At the first steps all must be in view without a scroll, with numbers in words."""
    browser.go(f"{address}#step={first}", *WINDOW)
    wrong = []
    for step in range(first, min(last, first + STEPS) + 1):
        seen: Told = browser.run(SEEN)
        wrong += [f"step {step} reaches down to {seen['below']}"] if seen["below"] > WINDOW[1] else []
        wrong += [f"step {step} is scrolled to"] if seen["scrolled"] else []
        wrong += [f"a label of {seen['least']} pixels"] if seen["least"] < LEGIBLE else []
        wrong += [f"the label {it}" for it in seen["words"] if any(raw in it.split() for raw in RAW)]
        wrong += [] if seen["signs"] else ["no legend"]
        browser.press("ArrowRight")
    return wrong


def on_phone(browser: Browser, address: str, first: int) -> list[str]:
    """Buttons must be large enough for a finger, and names whole."""
    browser.go(f"{address}#step={first}&ask=1", *PHONE)
    wrong = []
    for _ in range(STEPS):
        wrong += [f"on a phone, too small or cut: {it}" for it in browser.run(TOUCH.replace("TOUCHED", str(TOUCHED)))]
        browser.press("ArrowRight")
    return wrong


def colors(browser: Browser, address: str, last: int) -> list[str]:
    """By the button the page must be as dark as by the system, and as light; no other kind is painted as wrong."""
    wrong = []
    for dark in (False, True):
        browser.go(f"{address}#step={last}", *WINDOW, dark)
        by_system = browser.run(COLORS)
        wrong += ["a chip of another kind is red"] if browser.run(RED) else []
        browser.go(f"{address}#step={last}", *WINDOW, not dark)
        browser.run("document.getElementById('theme').click()")
        wrong += [] if browser.run(COLORS) == by_system else [f"by the button the page isn't {'dark' if dark else 'light'}"]
    return wrong
