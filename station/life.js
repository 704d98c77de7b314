// Floor lives and pieces as an operator reads them.
import { numberText, said } from "./say.js";
import { TEXTS } from "./words.js";

/** The floor life that a report or an answer says: minutes, or a word. */
export function lifeText(minutes) {
  if (minutes === null || minutes === "unlimited") {
    return TEXTS.life.none;
  }
  if (minutes === "unbaked") {
    return TEXTS.life.unbaked;
  }
  const left = Number(minutes);
  if (left === 0) {
    return TEXTS.life.expired;
  }
  const days = Math.floor(left / 1440);
  const hours = Math.floor((left % 1440) / 60);
  return days ? said(TEXTS.life.days, { days, hours })
              : said(TEXTS.life.hours, { hours, minutes: left % 60 });
}

/** A number to order floor lives by: the first to end is the least. */
export function lifeOrder(minutes) {
  return minutes === "unlimited" || minutes === null ? 1e9
    : minutes === "unbaked" ? 2e9
                                                     : Number(minutes);
}

export const piecesText = numberText;
