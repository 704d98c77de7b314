// The texts of the page in its language: a plant's own ones, and ours for each that it doesn't
// have.
import { addressOf } from "./session.js";
import { TEXTS as ENGLISH } from "./texts.js";

/** The languages of the package, each by its own name. */
export const LANGUAGES = {
  en: "English",
  de: "Deutsch",
  es: "Español",
  zh: "中文",
};
const RIGHT_TO_LEFT = /^(ar|ckb|dv|fa|he|ps|sd|ug|ur|yi)\b/;
const KEPT = "tracedesk-language"; // in the browser's storage: what somebody chose here

/**
 * A text or a list of texts as the plant has it, where that is of the same form as ours; of a
 * group each of its members so.
 */
function chosen(ours, own) {
  if (typeof ours === "string") {
    return typeof own === "string" ? own : ours;
  }
  if (Array.isArray(ours)) {
    const isAlike = Array.isArray(own) && own.length === ours.length;
    return isAlike && own.every((it) => typeof it === "string") ? own : ours;
  }
  const member = (name) => (Object.hasOwn(own ?? {}, name) ? own[name] : undefined);
  const pairs = Object.entries(ours).map(([name, text]) => [name, chosen(text, member(name))]);
  return Object.fromEntries(pairs);
}

/** The plant's own texts, or none. */
async function ownTexts() {
  try {
    return (await import("./own-texts.js")).TEXTS ?? {};
  } catch (fault) { // in a plant's file: it takes no screen away
    console.error(`own-texts.js is not taken: ${fault.message}`);
    return {};
  }
}

/** The language that the set-up names, or none. */
async function languageOfSetUp() {
  try {
    const answer = await fetch(addressOf("/station/setup.json"), { cache: "no-store" });
    return (await answer.json()).language;
  } catch {
    return undefined;
  }
}

/** Chooses a language on this tablet; the page is loaded anew. */
export function choose(language) {
  localStorage.setItem(KEPT, language);
  const address = new URL(location.href);
  address.searchParams.delete("lang");
  location.replace(address);
  location.reload();
}

const own = await ownTexts();
const isLanguage = (it) => typeof it === "string" && (it in LANGUAGES || it === own.lang);
const wanted =
  [
    new URLSearchParams(location.search).get("lang"),
    localStorage.getItem(KEPT),
    own.lang,
    await languageOfSetUp(),
  ].find(isLanguage) ??
  "en";
const isPacked = wanted in LANGUAGES && wanted !== "en";
const ours = isPacked ? (await import(`./texts-${wanted}.js`)).TEXTS : ENGLISH;
const isOwn = (own.lang ?? "en") === wanted;

export const TEXTS = chosen(chosen(ENGLISH, ours), isOwn ? own : {});
try {
  [TEXTS.lang] = Intl.getCanonicalLocales(TEXTS.lang);
} catch {
  TEXTS.lang = ENGLISH.lang;
}
document.documentElement.lang = TEXTS.lang;
document.documentElement.dir = RIGHT_TO_LEFT.test(TEXTS.lang) ? "rtl" : "ltr";
