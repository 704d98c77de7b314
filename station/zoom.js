// Screens with little on them use the whole room: what they show is as large as it fits.
import { withoutScrollbars } from "./dom.js";

const ZOOMS = [1.6, 1.5, 1.4, 1.3, 1.2, 1.1, 1];
const LEAST_WIDTH = 1200; // pixels: a smaller screen is read from near
const LEAST_HEIGHT = 820;
const OF_ITS_OWN = ["line"]; // screens that fit themselves

/** Zooms a screen as far as all of it is there, whenever something of it changes. */
export function keepLarge(main) {
  const set = (zoom) => main.style.setProperty("--zoom", zoom);
  const fits = (zoom) => {
    set(zoom);
    return main.scrollHeight <= main.clientHeight && main.scrollWidth <= main.clientWidth;
  };
  const fit = () => {
    const isLarge = innerWidth > LEAST_WIDTH && innerHeight > LEAST_HEIGHT;
    const isOwn = OF_ITS_OWN.includes(main.className);
    const find = () => ZOOMS.find(fits) ?? 1;
    set(isLarge && !isOwn ? withoutScrollbars(main, find) : 1);
  };
  new MutationObserver(fit).observe(main, { childList: true, subtree: true });
  new ResizeObserver(fit).observe(main);
}
