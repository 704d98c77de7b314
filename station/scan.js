// What a scan does: codes in, a message out. It holds at most a slot or a reel, an action that
// waits for one, and a number.
import * as desk from "./desk.js";
import { GREATEST_QUANTITY } from "./limits.js";
import { LEVELS, numberIn, readCode, stripped } from "./names.js";
import { said } from "./say.js";
import { TEXTS } from "./words.js";

const OF_SLOT = ["UNLOAD", "SCRAP"];
const OF_REEL = ["OPEN", "SEAL", "BAKE", "COUNT"];
const WITH_NUMBER = {
  SCRAP: 1,
  COUNT: 0,
};
export const ACTIONS = [...OF_SLOT, ...OF_REEL, "CANCEL"];
export const OF_RECEIVE = [...LEVELS.map((it) => `LEVEL-${it}`), "ENTER"];
export const WORDS = {
  LOAD: "MaterialsLoaded",
  SPLICE: "MaterialsSpliced",
  UNLOAD: "MaterialsUnloaded",
  SCRAP: "MaterialsScrapped",
  OPEN: "ReelOpened",
  SEAL: "ReelSealed",
  BAKE: "ReelBaked",
  COUNT: "CountsTaken",
  RECEIVE: "ReelReceived",
  SELECT: "ProductSelected",
  CLOCK: "ClockSet",
};
const isOfReceive = (action) => OF_RECEIVE.includes(action) || /^[0-9]$/.test(action);
const FRESH = 3_000; // milliseconds: what is known of a slot is asked for again when it is older
const WAIT = 4_000; // milliseconds that a count waits for the reel's card, and a load for the slots
const BOUNCE = 1_000; // milliseconds: the same action code within them was read twice
const RISE = {
  pieces: 100,
  part: 0.1,
}; // so much a count may be above the desk's, unasked

/** What was asked for, or null if it takes too long. */
function inTime(asked) {
  return Promise.race([asked, new Promise((resolve) => setTimeout(resolve, WAIT, null))]);
}

export class Scan {
  /**
   * `station` is the page: its set-up, its model, and what it does with a message, a screen, a
   * badge or a fault.
   */
  constructor(station) {
    this.station = station;
    this.turn = Promise.resolve(); // scans are taken one behind the other
    this.touched = 0; // when the last one came, by the tablet's own clock, which never sleeps
    this.at = 0; // and when the one came that is taken now, by the page's
    this.isForgotten = false;
    this.last = { text: "", at: -Infinity }; // the last code, and when it came
    this.isRepeat =
      false; // whether the code that is taken now is an action, and the last one again
    this.dropped = ""; // what became of it, where it wasn't taken
    this.clear();
  }

  clear() {
    this.slot = null;
    this.reel = null;
    this.card = null;
    this.action = null;
    this.asking = null; // {action, values, card}: a number is wanted
    this.digits = "";
  }

  /** Forgets what is held when no scan came for long: it is not for whoever comes next. */
  forget() {
    if (Math.abs(Date.now() - this.touched) <= this.station.setup.heldSeconds * 1000) {
      return;
    }
    this.last = { text: "", at: -Infinity }; // an action that comes again is a new one
    if (this.slot || this.reel || this.action || this.asking) {
      this.clear();
      this.isForgotten = true;
      this.station.scanned();
    }
  }

  /**
   * Whether the next scan is a reel, a slot or a number that belongs to what is held, whatever
   * has the focus.
   */
  waits() {
    return Boolean(this.slot || this.action || this.asking);
  }

  /**
   * Takes what the scanner or the keyboard read, or a button, which `isPressed`, behind what
   * came before.
   */
  take(text, isPressed = false) {
    const at = performance.now();
    const { dataset } = document.body;
    dataset.untaken = Number(dataset.untaken ?? 0) + 1;
    this.turn = this.turn.then(() => this.taken(text, at, isPressed))
                  .catch((fault) => this.station.fault(fault.message))
                  .finally(() => {
                    dataset.untaken -= 1;
                  });
    return this.turn;
  }

  async taken(text, at, isPressed) {
    const { station } = this;
    const read = stripped(text, station.setup.scanner);
    if (read === "") {
      return;
    }
    this.forget();
    this.touched = Date.now();
    this.at = at;
    this.isForgotten = false;
    const code = readCode(read, station.setup);
    const isNumber = this.asking && code.kind !== "action" && code.kind !== "badge";
    this.isRepeat = !isPressed && code.kind === "action" && read === this.last.text;
    const isBounce = this.isRepeat && at - this.last.at < BOUNCE;
    this.last = isBounce ? this.last : { text: read, at };
    this.dropped = isBounce ? said(TEXTS.strip.once, { text: read }) : "";
    if (isBounce) {
      station.scanned();
      return;
    }
    if (station.verdict.isAsking()) {
      this.dropped = ["ENTER", "CANCEL"].includes(code.action)
        ? ""
        : said(TEXTS.strip.dropped, { text: read });
      await station.verdict.answer(code.action);
    } else if (code.action === "CANCEL") {
      station.cancel();
    } else {
      station.verdict.pass();
      await (isNumber ? this.number(this.digits + read) : this[`${code.kind}Scanned`](code));
    }
    station.scanned();
  }

  noneScanned({ text }) {
    this.station.fault(said(TEXTS.fault.none, { text }));
  }

  fragmentScanned({ text }) {
    this.station.fault(said(TEXTS.fault.fragment, { text }));
  }

  foreignScanned({ text }) {
    this.station.fault(said(TEXTS.fault.foreign, { text }));
  }

  labelScanned({ text }) {
    this.station.label(text);
  }

  badgeScanned({ badge }) {
    this.station.setBadge(badge);
  }

  slotHeld(code) {
    this.clear();
    this.slot = { machine: code.machine, slot: code.slot };
    if (!this.isKnown(code.machine)) {
      this.station.model.refresh(code.machine);
    }
  }

  /** A slot is held for a reel, or is what the action was waiting for. */
  slotScanned(code) {
    this.station.verdict.seeAll({ Machine: code.machine, Slot: code.slot }, this.at);
    if (this.action && OF_SLOT.includes(this.action)) {
      return this.act(this.action, { machine: code.machine, slot: code.slot });
    } else if (this.action) {
      this.station.fault(said(TEXTS.strip.actionReel, { action: TEXTS.actions[this.action] }));
    } else {
      this.slotHeld(code);
    }
  }

  reelScanned({ reel }) {
    if (!this.slot) {
      this.station.verdict.seeAll({ Reel: reel }, this.at);
    }
    if (this.action && OF_REEL.includes(this.action)) {
      return this.act(this.action, { reel });
    } else if (this.action) {
      this.station.fault(said(TEXTS.strip.actionSlot, { action: TEXTS.actions[this.action] }));
    } else if (this.slot) {
      return this.mounted({ ...this.slot, reel });
    } else {
      this.clear();
      this.reel = reel;
      this.readCard(reel);
    }
  }

  /** Whether the page knows the slots of a machine as they were a moment ago. */
  isKnown(machine) {
    const { state } = this.station.model;
    const { slots } = this.station.model.line(machine);
    return Boolean(slots) && state.ok && performance.now() - state.at <= FRESH;
  }

  /**
   * A reel for a slot, or a row of the list that is scanned. One that is on that slot already is
   * verified, and nothing is sent. The desk
   * is asked for its slots anew if the page has the reel there, or doesn't know the slots now.
   */
  async mounted({ machine, slot, reel }) {
    const on = { machine, slot };
    const { model } = this.station;
    if (this.station.listed({ ...on, reel })) {
      this.clear();
      return null;
    }
    const isOn = model.isOn(machine, slot, reel);
    if (this.about(on).length || (!isOn && this.isKnown(machine))) {
      return this.act(this.isLive(on) ? "SPLICE" : "LOAD", { ...on, reel });
    }
    this.clear();
    const asked = model.slotsNow(machine);
    const rows = await (isOn ? asked : inTime(asked));
    const row = rows?.find((it) => it.slot === slot && it.reel === reel);
    if (!row && (rows || !isOn)) {
      const isLive = rows?.some((it) => it.slot === slot) ?? this.isLive(on);
      return this.act(isLive ? "SPLICE" : "LOAD", { ...on, reel });
    }
    return this.verify(row, { ...on, reel });
  }

  /** Says whether a reel on its slot may be there; without a row the desk gave no answer. */
  verify(row, values) {
    const { verify } = TEXTS.fault;
    const { part } = this.station.model.slot(values.machine, values.slot);
    const isOther = row && part && part !== row.part;
    if (!row || isOther || ["0", "unbaked"].includes(row.minutes_left)) {
      const text = !row ? verify.noAnswer : isOther ? verify.part : verify.life;
      this.station.fault(said(text, { ...values, own: row?.part, wanted: part }));
    } else {
      this.station.verdict.verified({ ...row, machine: values.machine });
    }
    return null;
  }

  /** The scans of a slot that the desk has not answered. */
  about({ machine, slot }) {
    return this.station.waiting.filter(
      (it) => it.body.Machine === machine && it.body.Slot === slot,
    );
  }

  /**
   * Whether a slot has a live reel: by what the desk said last, and by the scans that it has not
   * answered.
   */
  isLive({ machine, slot }) {
    const about = this.about({ machine, slot });
    for (const it of about.reverse()) {
      if (["MaterialsLoaded", "MaterialsSpliced", "MaterialsUnloaded"].includes(it.word)) {
        return it.word !== "MaterialsUnloaded";
      }
    }
    return this.station.model.isLive(machine, slot);
  }

  async cardOf(reel) {
    try {
      return { ...(await desk.rows("reel", { reel })).rows[0], known: true };
    } catch (fault) {
      return { known: false, none: fault.isDesk };
    }
  }

  async readCard(reel) {
    const card = await this.cardOf(reel);
    if (this.reel === reel) {
      this.card = card;
      this.station.scanned();
    }
  }

  actionScanned({ action }) {
    if (this.asking && /^[0-9]$/.test(action)) {
      this.digits = (this.digits + action).slice(0, 8);
    } else if (this.asking && action === "ENTER") {
      return this.number(this.digits);
    } else if (this.station.isScreen(action)) {
      this.station.go(action.toLowerCase());
    } else if (OF_SLOT.includes(action)) {
      return this.begin(action, this.slot);
    } else if (OF_REEL.includes(action)) {
      return this.begin(action, this.reel && { reel: this.reel });
    } else if (!this.station.coded(action)) {
      this.station.fault(said(
        isOfReceive(action) ? TEXTS.fault.receiveFirst : TEXTS.fault.action,
        { text: action },
      ));
    }
  }

  /** An action with what it is of, where that is held; else it waits for it. */
  begin(action, values) {
    if (values) {
      return this.act(action, values);
    }
    if (this.isRepeat && this.action !== action) { // it acted, and isn't for the next slot or
                                                    // reel
      this.dropped = said(TEXTS.strip.twice, { action: TEXTS.actions[action] });
      return null;
    }
    this.clear();
    this.action = action;
    return null;
  }

  async number(text) {
    const { asking } = this;
    const { action, values, card } = asking;
    const quantity = numberIn(text, WITH_NUMBER[action], GREATEST_QUANTITY);
    const { fault } = TEXTS;
    this.digits = "";
    const { model } = this.station;
    const reels = values.slot ? model.slot(values.machine, values.slot).reels : [];
    const names = [values.reel, ...reels.map((it) => it.reel)];
    if (quantity === null || names.includes(text)) {
      this.station.fault(said(
        quantity === null ? fault.number : fault.numberIsName,
        { text, least: WITH_NUMBER[action], most: GREATEST_QUANTITY },
      ));
      return;
    }
    const had = action === "COUNT" ? await inTime(card) : null;
    const left = Number(had?.remaining ?? 0);
    if (this.asking !== asking) {
      return; // somebody cancelled meanwhile
    }
    this.clear();
    const send = () => this.station.act(action, { ...values, quantity });
    if (action === "COUNT" && quantity > left + Math.max(RISE.pieces, left * RISE.part)) {
      const told = { ...values, left };
      this.station.verdict.ask(said(had?.known ? TEXTS.ask.rise : TEXTS.ask.count, told), send);
    } else {
      await send();
    }
  }

  act(action, values) {
    this.clear();
    if (action in WITH_NUMBER && values.quantity === undefined) {
      this.asking = { action, values, card: values.reel ? this.cardOf(values.reel) : null };
      return null;
    }
    return this.station.act(action, values);
  }

  /**
   * What is held, in words: the first says what, the others what comes next, and what wasn't
   * taken.
   */
  held() {
    return [
      ...(this.station.verdict.isAsking() ? [TEXTS.strip.question] : this.heldNow()),
      this.dropped,
    ].filter((it, at) => at === 0 || it !== "");
  }

  heldNow() {
    const { strip, actions } = TEXTS;
    if (this.asking) {
      const { action, values } = this.asking;
      const what = values.reel ?? said(strip.slot, values);
      return [said(strip.number, { action: actions[action], what }), this.digits];
    }
    if (this.action) {
      return [said(OF_SLOT.includes(this.action) ? strip.actionSlot : strip.actionReel, {
        action: actions[this.action],
      })];
    }
    if (this.slot) {
      return [said(strip.slot, this.slot), this.slotText()];
    }
    if (this.reel) {
      const { card } = this;
      const texts = [said(strip.reel, { reel: this.reel })];
      if (card) {
        texts.push(
          card.known ? said(strip.reelCard, { ...card, left: Number(card.remaining) })
            : card.none ? strip.reelNone
                        : strip.slotUnknown,
        );
      }
      return [...texts, strip.reelAsk];
    }
    return [
      this.isForgotten ? strip.forgotten
        : this.station.badgeName === null ? strip.idleNoBadge
                                          : strip.idle,
    ];
  }

  slotText() {
    const { strip } = TEXTS;
    const known = this.station.model.slot(this.slot.machine, this.slot.slot);
    if (!known.known) {
      return strip.slotUnknown;
    }
    if (known.sheet && !known.part) {
      return strip.slotNoSheet;
    }
    const [front] = known.reels;
    const all = known.reels.reduce((sum, it) => sum + Number(it.remaining), 0);
    const part = known.part ?? "?";
    const left = Number(front?.remaining ?? 0);
    const splice = known.reels.length > 1 ? strip.slotSpliceMore : strip.slotSplice;
    const text = this.isLive(this.slot) ? splice : strip.slotLoad;
    return said(text, { part, reel: front?.reel ?? "?", left, all });
  }
}

/** The body of a message of an action. */
export function bodyOf(
  action,
  { machine, slot, reel, quantity, product, part, lot, level, minutes, attributes },
) {
  switch (action) {
    case "LOAD":
    case "SPLICE": return { Machine: machine, Slot: slot, Reel: reel };
    case "UNLOAD": return { Machine: machine, Slot: slot };
    case "SCRAP": return { Machine: machine, Slot: slot, Quantity: quantity };
    case "COUNT": return { Counts: [{ Reel: reel, Quantity: quantity }] };
    case "SELECT": return { Machine: machine, Product: product };
    case "CLOCK": return {};
    case "RECEIVE":
      return {
        Reel: reel,
        PartNumber: part,
        Lot: lot,
        Level: level,
        ...(level === "6" ? { LabelMinutes: minutes } : {}),
        Quantity: quantity,
        ...attributes,
      };
    default: return { Reel: reel };
  }
}
