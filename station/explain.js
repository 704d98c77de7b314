// What the desk's reports say of an answer: of a load that is accepted the reel's own part; of
// one that is refused what was scanned beside what is wanted, and what to bring.
import { isLoad } from "./answers.js";
import { el } from "./dom.js";
import { sourceText } from "./known.js";
import { lifeText } from "./life.js";
import { said } from "./say.js";
import { TEXTS } from "./words.js";

const FREE_SHOWN = 4;
const BY_ANOTHER_SHEET = ["WrongPart", "SlotNotOnSheet"]; // by the desk's sheet, or the page's

const line = (mark, text) => el("p", { class: mark }, text);

function own(card) {
  return line("part", said(TEXTS.verdict.own, card));
}

/** A reel's own part by its card, and the other one that the sheet of the page names. */
function loaded(card, about) {
  if (!card) {
    return [line("from", TEXTS.verdict.ownUnknown)];
  }
  const differs = about?.part && about.part !== card.part;
  const values = { part: about?.part, product: about?.product };
  const source = differs ? sourceText(about) : "";
  return [
    own(card),
    ...(differs ? [line("from", said(TEXTS.verdict.alternate, { ...values, source }))] : []),
  ];
}

/** What was scanned and what is wanted, side by side. */
function sides({ Slot: slot, Reel: reel }, card, part) {
  const texts = TEXTS.verdict.sides;
  const side = (mark, title, what, more) =>
    el("div", { class: mark }, line("side", title), line("what", what), line("more-of", more));
  return el(
    "div",
    { class: "sides" },
    side("scanned", texts.scanned, card?.part ?? texts.unknown, said(texts.reel, { reel })),
    side("wanted", texts.wanted, part ?? texts.unknown, said(texts.slot, { slot })),
  );
}

function freeRow(slot) {
  const texts = TEXTS.verdict;
  return ({ reel, own: part, slot: other, pieces, minutes_left }) => {
    const values = { reel, own: part, slot: other ?? slot, pieces: Number(pieces) };
    const text = part ? texts.otherRow : texts.freeRow;
    return el("li", null, said(text, { ...values, life: lifeText(minutes_left) }));
  };
}

/** The part that a slot wants, by which sheet, and the free reels for it. */
function toBring(slot, known, free) {
  const texts = TEXTS.verdict;
  if (!known || free === null) {
    return line("todo", known ? texts.freeUnknown : texts.noSheet);
  }
  const shown = free.reels.slice(0, FREE_SHOWN);
  const others = free.alternates.slice(0, FREE_SHOWN - shown.length);
  const rest = free.reels.length - shown.length;
  const isNone = free.part && !shown.length && !others.length;
  const list = (title, rows) =>
    (rows.length ? [line("from", title), el("ol", null, rows.map(freeRow(slot)))] : []);
  const source = { product: known.product, source: sourceText(known) };
  return el(
    "div",
    { class: "free" },
    line("part", said(free.part ? texts.wants : texts.notOnSheet, { slot, part: free.part })),
    line("from", said(texts.bySheet, source)),
    list(texts.free, shown),
    list(texts.freeOthers, others),
    isNone ? line("todo", texts.freeNone) : null,
    rest > 0 ? line("from", said(texts.freeMore, { count: rest })) : null,
  );
}

/** What belongs below the refusal of a load. */
async function refused({ body, answer }, model) {
  const { Machine: machine, Slot: slot, Reel: reel } = body;
  if (answer.Refusal === "NoProduct") {
    await model.refresh(machine);
  }
  if (answer.Refusal === "NoProduct" && model.line(machine)?.missing) {
    return [line("todo", TEXTS.unknownMachine)];
  }
  const isWrong = answer.Refusal === "WrongPart";
  const [card, free] =
    await Promise.all([isWrong ? model.card(reel) : null, model.freeFor(machine, slot)]);
  const isOther = BY_ANOTHER_SHEET.includes(answer.Refusal);
  return [
    ...(isWrong ? [sides(body, card, free?.part ?? model.slot(machine, slot).part)] : []),
    toBring(slot, model.product(machine), free),
    ...(isOther ? [line("from", said(TEXTS.verdict.otherSheet, { machine }))] : []),
  ];
}

/** What the reports say of a scan's answer, as elements. */
export async function explained(scan, model) {
  const { answer, body } = scan;
  if (answer.Refusal === "ReelMounted") { // what the page knew may be why it was scanned here
    await Promise.all(model.lines.map((it) => model.refresh(it.machine)));
  }
  if (answer.Answer === "Accepted" && body.PartNumber) {
    const href = `codes.html?reel=${encodeURIComponent(body.Reel)}`;
    const print = el("a", { class: "button", href }, TEXTS.verdict.print);
    return [own({ part: body.PartNumber, lot: body.Lot }), el("p", null, print)];
  }
  if (answer.Answer === "Accepted") {
    return isLoad(scan) ? loaded(await model.card(body.Reel), scan.about) : [];
  }
  return isLoad(scan) && answer.Answer === "Refused" ? refused(scan, model) : [];
}
