"""Looks at reports in a browser, where Chromium is installed: 1280 and 400 columns wide, light and dark."""
import html
import json
import os
import re
import shutil
import struct
import subprocess
import tempfile

BROWSERS = ["chromium", "chromium-browser", "google-chrome"]
WIDTHS = [1280, 400]
SCHEMES = ["dark", "light"]  # in the order of the browser's numbers
# A report of 10,000 calls is open in so many milliseconds, on processors that do nothing else.
OPEN, TRIES = 2_000, 5
# What a page says of itself when it is loaded: how far it goes over the window's edge, how bright it is, the least
# contrast of text and its ground, the smallest text, the pictures, those of them that aren't seen, and labels of a
# picture that lie on one another or touch.
SEEN = """
const numbers = (color) => color.match(/[\\d.]+/g).map(Number);
const linear = (part) => part <= 10 ? part / 3294 : ((part / 255 + .055) / 1.055) ** 2.4;
const brightness = (color) => {
  const [red, green, blue] = numbers(color).map(linear);
  return .2126 * red + .7152 * green + .0722 * blue;
};
const ground = (it) => {
  const color = getComputedStyle(it).backgroundColor;
  return numbers(color)[3] !== 0 ? color : it.parentElement ? ground(it.parentElement) : 'rgb(255, 255, 255)';
};
const contrast = (it) => {
  const style = getComputedStyle(it), color = it.closest('svg') ? style.fill : style.color;
  const [light, dark] = [brightness(color), brightness(ground(it))].sort((a, b) => b - a);
  return (light + .05) / (dark + .05);
};
const box = (it) => it.getBoundingClientRect();
const shown = (it) => box(it).width > 0;
const hidden = (it) => box(it).width < 200 || box(it).height < 20 || box(it).right > innerWidth;
const touch = (a, b) => a.left < b.right + 3 && b.left < a.right + 3 && a.top + 2 < b.bottom && b.top + 2 < a.bottom;
const touching = (picture) => {
  const boxes = [...picture.querySelectorAll('text')].filter(shown).map(box);
  return boxes.filter((a, at) => boxes.slice(at + 1).some((b) => touch(a, b))).length;
};
addEventListener('load', () => {
  const axis = document.getElementById('time');
  document.querySelectorAll('use').forEach((it) => it.replaceWith(axis.cloneNode(true)));
  const pictures = [...document.querySelectorAll('.picture')];
  const words = 'h1, h2, h3, h4, p, dt, dd, dd span, figcaption, summary, caption, th, td, a, .picture text';
  const texts = [...document.querySelectorAll(words)].filter(shown);
  parent.seen.push({
    over: document.documentElement.scrollWidth - innerWidth,
    bright: brightness(ground(document.body)),
    contrast: Math.min(...texts.map(contrast)),
    size: Math.min(...texts.map((it) => parseFloat(getComputedStyle(it).fontSize))),
    pictures: pictures.length,
    hidden: pictures.filter(hidden).length,
    touching: pictures.map(touching).reduce((sum, it) => sum + it, 0),
  });
  parent.document.title = JSON.stringify(parent.seen);
});
"""
OPENED = """
addEventListener('load', () => {
  document.body.getBoundingClientRect();
  document.title = Math.round(performance.now());
});
"""


def run(browser, scheme, *words):
    with tempfile.TemporaryDirectory(ignore_cleanup_errors=True) as folder:
        options = ["--headless", "--no-sandbox", "--disable-gpu", "--hide-scrollbars", f"--user-data-dir={folder}",
                   f"--blink-settings=preferredColorScheme={SCHEMES.index(scheme)}"]
        return subprocess.run([browser, *options, *words], capture_output=True, text=True, timeout=120).stdout


def scripted(page, script):
    with open(page, encoding="utf-8") as file:
        return file.read().replace("</body>", f"<script>{script}</script></body>")


def title_of(browser, scheme, text):
    """The title that a page gives itself."""
    with tempfile.NamedTemporaryFile("w", suffix=".html", encoding="utf-8") as file:
        file.write(text)
        file.flush()
        said = run(browser, scheme, "--dump-dom", f"file://{file.name}")
        return html.unescape(re.search("<title>(.*?)</title>", said)[1])


def framed(page):
    """A page in frames of each width, which tell what is seen of it."""
    words = f'frameborder="0" srcdoc="{html.escape(scripted(page, SEEN))}"'
    frames = "".join(f'<iframe style="width:{width}px;height:2000px" {words}></iframe>' for width in WIDTHS)
    return f"<!DOCTYPE html><html><head><title></title><script>seen = []</script></head><body>{frames}</body></html>"


def looks_well(page, scheme, seen):
    faults = [name for name, fault in (
        ("goes over the edge of the window", seen["over"] > 0),
        ("is not as bright as its scheme", (seen["bright"] < 0.5) != (scheme == "dark")),
        ("has text of little contrast", seen["contrast"] < 4.5),
        ("has text that is too small", seen["size"] < 11),
        ("has no pictures, or hides some", not seen["pictures"] or seen["hidden"]),
        ("has labels on one another", seen["touching"]),
    ) if fault]
    if faults:
        raise SystemExit(f"{os.path.basename(page)}, {scheme}: it {', '.join(faults)}: {seen}")


def shoot(browser, folder, page, scheme, width):
    path = os.path.join(folder, f"{os.path.basename(page).removesuffix('.html')}-{width}-{scheme}.png")
    run(browser, scheme, f"--window-size={width},2400", f"--screenshot={path}", f"file://{page}")
    with open(path, "rb") as file:
        image = file.read()
    if struct.unpack(">II", image[16:24]) != (width, 2400) or len(image) < 20_000:
        raise SystemExit(f"{path} is not a picture of the report")


def look(page, others, large, folder):
    """Looks at pages, takes screenshots of one, opens a large one, and says what it saw."""
    browser = next(filter(shutil.which, BROWSERS), None)
    if not browser:
        return "no browser is installed, so none has looked at them (apt-get install chromium)"
    os.makedirs(folder, exist_ok=True)
    for scheme in SCHEMES:
        for each in (page, *others):
            for seen in json.loads(title_of(browser, scheme, framed(each))):
                looks_well(each, scheme, seen)
        for width in WIDTHS:
            shoot(browser, folder, page, scheme, width)
    return f"looked at in {browser}, {opened(browser, large)}"


def opened(browser, page):
    """How long a browser takes to open a page: the least time of some tries, as others use the processors too."""
    times, text = [], scripted(page, OPENED)
    while len(times) < TRIES:
        times.append(int(title_of(browser, "light", text)))
        share = max(1, os.getloadavg()[0] / os.cpu_count())
        told = f"10,000 calls are open after {min(times)} ms where {share:.1f} processes share a processor"
        if min(times) <= OPEN * share:
            return told
    raise SystemExit(told)
