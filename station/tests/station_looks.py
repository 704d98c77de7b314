"""How the station looks, and what it costs: contrast, sizes, the keyboard alone, printed codes;
pictures; and figures.
"""
import time

from station_operator import Operator

SCREENS = ("line", "scan", "receive", "changeover", "trace")
SCREEN, TABLET = (1920, 1080), (800, 1280)
SEEN_ANEW = (
    4  # seconds, after which the page looks at a slot again before it takes a scan for a load
)
# Each element with text of its own: its letters against what is behind them, as WCAG 2.1 reckons
# it.
CONTRAST = r"""
const part = (c) => { c /= 255; return c <= 0.03928 ? c / 12.92 : ((c + 0.055) / 1.055) ** 2.4; };
const light = ([r, g, b]) => 0.2126 * part(r) + 0.7152 * part(g) + 0.0722 * part(b);
const numbers = (text) => text.match(/[\d.]+/g).map(Number);
const behind = (it) => {
  for (; it; it = it.parentElement) {
    const color = numbers(getComputedStyle(it).backgroundColor);
    if (color.length < 4 || color[3] === 1) { return color; }
  }
  return [255, 255, 255];
};
const told = [];
for (const it of document.querySelectorAll("body *")) {
  const own = [...it.childNodes].some((node) => node.nodeType === 3 && node.textContent.trim() !== "");
  if (!own || !it.checkVisibility({ checkOpacity: true, checkVisibilityCSS: true })) { continue; }
  const style = getComputedStyle(it), [a, b] = [light(numbers(style.color)), light(behind(it))].sort((x, y) => y - x);
  const size = parseFloat(style.fontSize), large = size >= 24 || (size >= 18.66 && Number(style.fontWeight) >= 700);
  told.push({ what: `${it.tagName}.${it.className} ${it.textContent.trim().slice(0, 30)}`, ratio: (a + 0.05) / (b + 0.05), wanted: large ? 3 : 4.5, size });
}
return told;
"""
SIZES = (
    "const m = document.getElementById('main'); return [m.scrollHeight - m.clientHeight,"
    " m.scrollWidth - m.clientWidth, document.documentElement.scrollWidth - innerWidth];"
)


def set_up(it: Operator) -> None:
    """Reels on most slots of both machines, as a line has them in the midst of a shift."""
    it.ready()
    it.scan("B/anna")
    for slot, reel in (
        ("S/M1/1", "K-1"),
        ("S/M1/2", "K-2"),
        ("S/M1/3", "K-4"),
        ("S/M1/10", "K-5"),
        ("S/M2/10", "K-8"),
    ):
        it.does(slot, reel)
    time.sleep(SEEN_ANEW)
    it.does("S/M1/1", "K-3", holds=("SPLICED",))
    it.keys("\ue00c")  # Escape: the verdict goes
