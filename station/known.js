// Where the page knows a thing from, in words: which product a machine makes, and of when a sheet
// is.
import * as clock from "./clock.js";
import { said } from "./say.js";
import { TEXTS } from "./words.js";

/** The time of day, of another day with its date. */
export function dayAnd(time) {
  return clock.day(time) === clock.day(clock.now() ?? time) ? clock.shown(time) : clock.local(time);
}

/** Where the product is known from: the set-up of the page, of when, or a selection here. */
export function sourceText({ from, at, number }) {
  const texts = TEXTS.line.productFrom;
  return from === "station" ? said(texts.station, { time: dayAnd(at), number })
    : at ? said(texts.setupAt, { time: dayAnd(at) })
                            : texts.setup;
}

/** The product of a machine, and where this page has it from. */
export function productText(model, machine) {
  const known = model.product(machine);
  return known ? [said(TEXTS.line.product, known), sourceText(known)]
               : [TEXTS.line.productNone, TEXTS.line.notTold];
}

/** Of when the sheet of a machine is, or that it is not had. */
export function sheetText(line) {
  return line.kitHad ? said(TEXTS.line.sheetAt, { time: dayAnd(line.kitHad) }) : "";
}
