// Texts with their values, numbers and plurals as the language of the page has them.
import { TEXTS } from "./words.js";

const numbers = new Intl.NumberFormat(TEXTS.lang);
const plurals = new Intl.PluralRules(TEXTS.lang);
const ORDER = ["zero", "one", "two", "few", "many", "other"];
const CATEGORIES = ORDER.filter((it) => plurals.resolvedOptions().pluralCategories.includes(it));

/** The form of a number: the one of its plural category, in the order of ORDER, or the last. */
function formOf(number, forms) {
  return forms[Math.min(CATEGORIES.indexOf(plurals.select(number)), forms.length - 1)];
}

/**
 * The text with its places filled: {name} by a value, where numbers are written as the language
 * has them, and {name|piece|pieces} by one of these words, as the number wants it.
 */
export function said(text, values) {
  return text.replace(/\{(\w+)((?:\|[^{}|]*)*)\}/g, (whole, name, forms) => {
    if (!(name in values)) {
      return whole;
    }
    const value = values[name];
    if (forms) {
      return formOf(Number(value), forms.slice(1).split("|"));
    }
    return typeof value === "number" ? numbers.format(value) : String(value);
  });
}

/** A number as the language writes it. */
export function numberText(number) {
  return numbers.format(Number(number));
}
