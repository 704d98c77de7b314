// A line of text for each machine of the tablet, on all screens, in the largest letters that fit:
// that it runs, why it is stopped, or since when nobody knows.
import * as clock from "./clock.js";
import { el, put, withoutScrollbars } from "./dom.js";
import { dayAnd } from "./known.js";
import { isFresh } from "./machines.js";
import { said } from "./say.js";
import { TEXTS } from "./words.js";

const LARGEST = 0.052; // of the screen's height: the letters of a machine that is stopped
const WIDEST = 0.06; // of its width
const CALMER = 0.6; // of these letters, where none is
const LEAST = 16; // pixels
const STEP = 2;
const WORTH = 0.84; // of the largest letters: so small they may be for one line each
const TWO_LINES = 2; // of the letters' size: a line that wraps is higher

/** The reel to load, or of which part one is wanted. */
function loadText({ part, reel }) {
  const texts = TEXTS.machine;
  return reel ?? (part ? said(texts.anotherOf, { part }) : texts.another);
}

/** What the desk said where it refused, in words. */
function refusalText({ refusal, reel, board }) {
  const [title] = TEXTS.refusals[refusal] ?? [refusal ?? TEXTS.machine.aScan];
  return said(title, { at: reel ?? board ?? "" });
}

/** The scan by which a slot lets its machine go on. */
export function closingText({ cause }, load) {
  const texts = TEXTS.line.stops;
  const byCause = { differs: texts.there, slot: texts.splice };
  const text = load.isSplice ? byCause[cause] ?? texts.change : texts.load;
  return said(text, { load: loadText(load) });
}

/** A cause in words. */
function whyText(it, load) {
  const { cause, slot, reel } = it;
  const name = cause === "slot" && load.isSplice ? "slotSplice" : cause;
  const text = TEXTS.machine.causes[name] ?? name;
  const values = { slot: slot ?? "?", reel: reel ?? "?", load: loadText(load) };
  return said(text, { ...values, refusal: refusalText(it) });
}

/**
 * The line of a machine: {kind, text}, by its first cause and how many more there are. `loadFor`
 * has the reel to load for a cause.
 */
export function lineOf(it, loadFor, now) {
  const texts = TEXTS.machine;
  const { machine, board, causes: [first, ...more] } = it;
  if (!isFresh(it, now)) {
    const text = it.at === null ? texts.unknown : texts.unknownSince;
    const time = it.at === null ? "" : dayAnd(it.at);
    return { kind: "unknown", text: said(text, { machine, time }) };
  }
  if (it.state === "go") {
    return { kind: "go", text: said(texts.runs, { machine, board }) };
  }
  const count = more.filter(({ cause }) => cause !== "idle").length;
  const why = whyText(first, loadFor({ machine, ...first })) + (count ? ` (+${count})` : "");
  const kind = first.cause === "idle" ? "calm" : "stop";
  return { kind, text: said(texts.stopped, { machine, why }) };
}

/** The lines of all machines of the tablet, those that are stopped first. */
export function linesOf(model, now) {
  const order = ["stop", "unknown", "calm", "go"];
  const known = model.lines.map(({ machine }) => model.machines.get(machine)).filter(Boolean);
  const lines = known.map((it) => lineOf(it, (cause) => model.loadFor(cause), now));
  return lines.sort((a, b) => order.indexOf(a.kind) - order.indexOf(b.kind));
}

export class MachineLines {
  constructor(model, place) {
    this.model = model;
    this.place = place;
    this.text = "";
    new ResizeObserver(() => this.fit()).observe(document.body);
  }

  /** Draws them; what has not changed is not touched. */
  update() {
    const lines = linesOf(this.model, clock.now());
    const text = JSON.stringify(lines);
    if (text !== this.text) {
      this.text = text;
      this.place.hidden = lines.length === 0;
      put(this.place, ...lines.map((it) => el("li", { class: it.kind }, it.text)));
      this.fit();
    }
  }

  /**
   * The largest letters in which all lines are in their room. Somewhat smaller ones are better,
   * if each machine then has one line.
   */
  fit() {
    const { place } = this;
    const isCalm = place.querySelector(".stop, .unknown") === null;
    const most = Math.min(innerHeight * LARGEST, innerWidth * WIDEST);
    const largest = Math.max(LEAST, Math.round(most * (isCalm ? CALMER : 1)));
    const set = (size) => place.style.setProperty("--letters", `${size}px`);
    const isInRoom = () => place.scrollHeight <= place.clientHeight;
    const isOneLine =
      (size) => [...place.children].every((it) => it.offsetHeight < size * TWO_LINES);
    const sizes = [];
    for (let size = largest; size >= LEAST; size -= STEP) {
      sizes.push(size);
    }
    const isBest = (size) =>
      set(size) ?? (size >= largest * WORTH && isOneLine(size) && isInRoom());
    withoutScrollbars(
      place,
      () => sizes.find(isBest) ?? sizes.find((size) => set(size) ?? isInRoom()),
    );
  }
}
