// Code 128, set B: a text of printable ASCII as bars.
import { el } from "./dom.js";

// the widths of bars and spaces of each of the 106 symbols, and of the stop
const WIDTHS = `
  212222 222122 222221 121223 121322 131222 122213 122312 132212 221213 221312 231212
  112232 122132 122231 113222 123122 123221 223211 221132 221231 213212 223112 312131
  311222 321122 321221 312212 322112 322211 212123 212321 232121 111323 131123 131321
  112313 132113 132311 211313 231113 231311 112133 112331 132131 113123 113321 133121
  313121 211331 231131 213113 213311 213131 311123 311321 331121 312113 312311 332111
  314111 221411 431111 111224 111422 121124 121421 141122 141221 112214 112412 122114
  122411 142112 142211 241211 221114 413111 241112 134111 111242 121142 121241 114212
  124112 124211 411212 421112 421211 212141 214121 412121 111143 111341 131141 114113
  114311 411113 411311 113141 114131 311141 411131 211412 211214 211232 2331112
`.trim().split(/\s+/);
const START_B = 104;
const STOP = 106;
const QUIET = 10;

/** The symbols of a text: the start, its letters, the check, the stop. */
export function symbolsOf(text) {
  const letters = [...text].map((letter) => letter.charCodeAt(0) - 32);
  if (letters.some((it) => it < 0 || it > 94)) {
    throw new Error("Code 128 B has printable ASCII alone");
  }
  const check = letters.reduce((sum, it, at) => sum + it * (at + 1), START_B) % 103;
  return [START_B, ...letters, check, STOP];
}

const WIDE = 0.33; // millimetres: the narrowest bar of a long code
const LEAST_WIDE = 85; // of a code
const MOST_WIDE = 190; // of one across a page of A4
const LEAST_BAR = 0.19; // that scanners read

/**
 * The bars of a text as a picture, with quiet zones, in a length that is read; null if no page
 * is that wide.
 */
export function bars(text, height = 40) {
  const widths = symbolsOf(text).map((it) => WIDTHS[it]).join("");
  const modules = [...widths].reduce((sum, it) => sum + Number(it), 2 * QUIET);
  if (modules * LEAST_BAR > MOST_WIDE) {
    return null;
  }
  let x = QUIET;
  const rects = [];
  [...widths].forEach((digit, at) => {
    if (at % 2 === 0) {
      rects.push(el("rect", { x, y: 0, width: digit, height }));
    }
    x += Number(digit);
  });
  return el(
    "svg",
    {
      viewBox: `0 0 ${modules} ${height}`,
      class: "bars",
      width: `${Math.min(MOST_WIDE, Math.max(LEAST_WIDE, modules * WIDE))}mm`,
      preserveAspectRatio: "none",
    },
    rects,
  );
}
