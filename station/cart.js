// A changeover of a whole cart by one list: a row for each slot, with its reel. A reel that is on
// its slot already stays there; what else is there is unloaded first.
import { button, el } from "./dom.js";
import { isName } from "./names.js";
import { said } from "./say.js";
import { play } from "./sound.js";
import { TEXTS } from "./words.js";

/** The slot and the reel of a line of text: with a tab, a semicolon or a comma between them. */
function cellsOf(line) {
  const between = ["\t", ";", ","].find((it) => line.includes(it));
  return line.split(between).map((it) => it.trim());
}

/** The rows of a list, or the one that is wrong: {rows}, or {wrong, row, text}. */
export function read(text) {
  const rows = [];
  for (const [at, line] of text.split("\n").entries()) {
    const [slot, reel, ...more] = cellsOf(line.trim());
    const isRow = isName(slot) && isName(reel ?? "") && more.length === 0;
    const isTwice = rows.some((it) => it.slot === slot || it.reel === reel);
    if (line.trim() !== "" && (!isRow || isTwice)) {
      return { wrong: isRow ? "twice" : "row", row: at + 1, text: line.trim() };
    }
    rows.push(...(isRow ? [{ slot, reel }] : []));
  }
  return rows.length ? { rows } : { wrong: "row", row: 1, text: "" };
}

/** A list of rows with one more, in the place of what they have of its slot or its reel. */
export function withRow(rows, { slot, reel }) {
  const others = rows.filter((it) => it.slot !== slot && it.reel !== reel);
  return [...others, { slot, reel }].map((it) => `${it.slot}\t${it.reel}`).join("\n");
}

/** What to unload and then to load, so that each slot has the reel of its row. */
export function plan(rows, slots) {
  const load = rows.filter((it) => !slots.some((on) => on.slot === it.slot && on.reel === it.reel));
  const isInTheWay = (on) => load.some((it) => on.slot === it.slot || on.reel === it.reel);
  return { unload: [...new Set(slots.filter(isInTheWay).map((it) => it.slot))], load };
}

const isOfCart = (scan) => scan.about?.isCart === true;

/** Whether an answer is shown at the list alone, which counts it: a yes to a message of it. */
export function isQuiet(scan) {
  return isOfCart(scan) && scan.answer.Answer === "Accepted";
}

export class Cart {
  constructor(station) {
    this.station = station;
    this.text = "";
    this.scans = null; // of which machine slots and reels are scanned into the list
    this.counts = { accepted: 0, refused: 0 };
  }

  parts() {
    const texts = TEXTS.cart;
    this.said = el("p", { class: "note", role: "status", hidden: true });
    this.list = el("textarea", { rows: "3", "aria-label": texts.label, placeholder: texts.label });
    this.list.value = this.text;
    this.scans = null;
    const { lines } = this.station.model;
    const scan = button(
      texts.scan,
      () => this.scanList(scan, scan.getAttribute("aria-pressed") === "false"),
      { "aria-pressed": "false" },
    );
    const loads = lines.map(
      ({ machine }) => button(said(texts.load, { machine }), () => this.load(machine)),
    );
    const row = el("p", { class: "buttons" }, this.list, loads, scan);
    return el("section", { class: "cart" }, row, this.said);
  }

  /** From now on scans of slots and reels go into the list, or not any more. */
  scanList(pressed, isOn) {
    pressed.setAttribute("aria-pressed", String(isOn));
    this.scans = isOn ? { machine: null } : null;
  }

  /** Whether scans go into the list: while its screen is there. */
  isScanned() {
    return this.scans !== null && this.station.screen === "changeover";
  }

  /** A slot and a reel that were scanned are a row, or a fault. Nothing is sent. */
  add({ machine, slot, reel }) {
    const texts = TEXTS.cart;
    const { rows = [], wrong, ...where } = read(this.list.value);
    const isOther = this.scans.machine !== null && this.scans.machine !== machine;
    if (isOther || (wrong && this.list.value.trim() !== "")) {
      const why = isOther ? texts.other : texts[wrong];
      this.station.fault(said(why, { ...where, machine: this.scans.machine }));
      return true;
    }
    this.scans.machine = machine;
    this.text = withRow(rows, { slot, reel });
    this.list.value = this.text;
    this.say(said(texts.listed, { machine, slot, reel, count: this.text.split("\n").length }));
    play("accepted");
    return true;
  }

  say(text) {
    this.said.textContent = text;
    this.said.hidden = text === "";
  }

  /** Looks at the list and at the slots, and asks before anything is sent. */
  async load(machine) {
    const texts = TEXTS.cart;
    this.text = this.list.value;
    this.counts = { accepted: 0, refused: 0 }; // of this list, and of none before it
    const { rows, wrong, ...where } = read(this.text);
    const slots = rows ? await this.station.model.slotsNow(machine) : [];
    if (wrong || slots === null) {
      this.say(wrong ? said(texts[wrong], where) : TEXTS.changeover.notHad);
      return;
    }
    const { unload, load } = plan(rows, slots);
    this.say(load.length ? "" : texts.none);
    if (load.length) {
      const counts = { machine, unload: unload.length, load: load.length };
      this.station.verdict.ask(said(texts.ask, counts), () => this.send(machine, unload, load));
    }
  }

  /** Sends all of it in order; what can't be sent ends it, and is red. */
  async send(machine, unload, load) {
    const { station } = this;
    const all = [
      ...unload.map((slot) => ["UNLOAD", { machine, slot }]),
      ...load.map((it) => ["LOAD", { machine, ...it }]),
    ];
    for (const [action, values] of all) {
      if (!(await station.act(action, { ...values, isCart: true }))) {
        return;
      }
    }
  }

  answered(scan) {
    if (isOfCart(scan)) {
      this.counts[isQuiet(scan) ? "accepted" : "refused"] += 1;
      this.update();
    }
  }

  /** How far the list is: it goes on whatever screen is shown. */
  update() {
    const count = this.station.waiting.filter(isOfCart).length;
    const isBegun = this.counts.accepted + this.counts.refused > 0;
    if (this.said && (count || isBegun)) {
      this.say(count ? said(TEXTS.cart.waiting, { count }) : said(TEXTS.cart.done, this.counts));
    }
  }
}
