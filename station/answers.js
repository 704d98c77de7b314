// Scans and their answers in words: what was asked, of what, what the desk said, and what to do.
import { dayAnd } from "./known.js";
import { said } from "./say.js";
import { WORDS } from "./scan.js";
import { TEXTS } from "./words.js";

const LOADS = ["LOAD", "SPLICE"];

/** The action of a message. */
export function actionOf(scan) {
  return Object.keys(WORDS).find((it) => WORDS[it] === scan.word);
}

/** Whether a scan brings a reel to a slot. */
export function isLoad(scan) {
  return LOADS.includes(actionOf(scan));
}

/** The reel of a message's body. */
export function reelOf({ Reel, Counts }) {
  return Reel ?? Counts?.[0].Reel;
}

/** What was asked, in words. */
export function whatOf(scan) {
  const { Machine: machine, Slot: slot, Product: product, PartNumber: part, Counts } =
    scan.body;
  const quantity = Number(scan.body.Quantity ?? Counts?.[0].Quantity ?? 0);
  const values = { machine, slot, reel: reelOf(scan.body), product, part, quantity };
  return said(TEXTS.what[actionOf(scan)], values);
}

/**
 * The machine, the slot and the reel of a scan: what an operator looks for first; of a clock the
 * time.
 */
export function whereOf(scan) {
  const { Machine: machine, Slot: slot, Product: product } = scan.body;
  const reel = reelOf(scan.body);
  const texts = TEXTS.verdict.where;
  const time = scan.at === null ? "" : dayAnd(scan.at);
  const text = slot ? (reel ? texts.both : texts.slot)
    : reel ? texts.reel
    : product ? texts.product
              : texts.clock;
  return said(text, { machine, slot, reel, product, time });
}

/** What a message is about: its slot, else its reel or its machine. */
export function aboutOf({ Machine, Slot, ...body }) {
  return JSON.stringify(Slot ? [Machine, Slot] : [reelOf(body) ?? Machine]);
}

/** The kind of an answer, the words for it, and what to do. */
export function wordsOf(scan) {
  const { answer } = scan;
  if (answer.Answer === "Accepted") {
    return { kind: "accepted", title: TEXTS.done[actionOf(scan)], todo: "" };
  }
  if (answer.Answer === "NotSent") { // the page's own
    return { kind: "refused", title: answer.text, todo: "" };
  }
  if (answer.Answer === "Refused") {
    const [title, todo] = TEXTS.refusals[answer.Refusal] ?? TEXTS.otherRefusal;
    const values = { at: answer.At ?? "", refusal: answer.Refusal };
    return { kind: "refused", title: said(title, values), todo: said(todo, values) };
  }
  const [title, todo] = answer.Answer === "Ignored" ? TEXTS.ignored : TEXTS.faulty;
  const values = { fault: answer.Fault, member: answer.Member ?? "", name: answer.MessageName };
  return { kind: "refused", title: said(title, values), todo };
}

/** The word of an answer that is no yes. */
export function refusalWord({ Answer }) {
  const texts = TEXTS.verdict;
  return { Refused: texts.refused, NotSent: texts.notSent }[Answer] ?? texts.faulty;
}
