// The screen Receive: a supplier's label or fields by hand, and one ReelReceived. What was filled
// in stays until the desk accepted it.
import { wordsOf } from "./answers.js";
import { button, el, field, isTwice } from "./dom.js";
import { attributesOf, fieldsOf, receiptOf } from "./label.js";
import { GREATEST_LABEL, GREATEST_QUANTITY } from "./limits.js";
import { isName, LEVELS, numberIn } from "./names.js";
import { said } from "./say.js";
import { bodyOf, WORDS } from "./scan.js";
import { TEXTS } from "./words.js";

const FIELDS = ["reel", "part", "lot", "quantity"];
const ALL = [...FIELDS, "level", "minutes"];
const NUMBERS = ["quantity", "minutes"];
const UNMEANT = 400; // milliseconds: an Enter so soon behind a scan is the scan's second one

export class ReceiveScreen {
  constructor(station) {
    this.station = station;
    this.digits = null; // {name, text}: those that were scanned as codes, and their field
    this.isSent = false; // whether what the fields hold was sent
    this.moved = -Infinity; // when the focus went on by itself
    this.last = {}; // when it was sent last
    this.kept = {}; // what the fields hold, also while another screen is shown
    this.label = {}; // its part, lot and attributes, until the reel is accepted
    this.said = el("p", { class: "note", role: "status" }, TEXTS.receive.hint);
  }

  parts() {
    const texts = TEXTS.receive;
    const levels = el(
      "fieldset",
      { class: "levels" },
      el("legend", null, texts.level),
      LEVELS.map(
        (it) => el(
          "label",
          null,
          el("input", { type: "radio", name: "level", value: it }),
          el("span", null, it),
        ),
      ),
    );
    this.form = el(
      "form",
      {
        class: "receive",
        on: { submit: (event) => this.submit(event), input: () => this.keep() },
      },
      el("h2", null, texts.title),
      this.said,
      FIELDS.map((name) => field(name, texts[name], {
                   inputmode: name === "quantity" ? "numeric" : "text",
                   maxlength: "200",
                 })),
      levels,
      field("minutes", texts.minutes, { inputmode: "numeric" }),
      el(
        "p",
        { class: "buttons" },
        el("button", { type: "submit" }, texts.go),
        button(texts.clear, () => this.clear(), { class: "away" }),
      ),
    );
    this.fill(this.kept);
    return [this.form];
  }

  held() {
    return Object.fromEntries(ALL.map((name) => [name, this.form.elements[name].value]));
  }

  keep() {
    this.kept = this.held();
    this.digits = null;
    this.isSent = false;
    this.moved = -Infinity;
  }

  fill(values) {
    this.form.reset();
    Object.entries(values).forEach(([name, value]) => {
      this.form.elements[name].value = value;
    });
    this.keep();
  }

  clear() {
    this.fill({});
    this.label = {};
    this.say(TEXTS.receive.hint, false);
    this.form.elements.reel.focus();
  }

  say(text, isWrong) {
    this.said.textContent = text;
    this.said.className = isWrong ? "note wrong" : "note";
  }

  /**
   * Takes a label. What another one filled in and nobody sent is not replaced without a
   * question.
   */
  read(text) {
    const found = fieldsOf(text, this.station.setup.scanner.separators);
    if (!found) {
      this.say(TEXTS.fault.label, true);
      return;
    }
    const receipt = receiptOf(found, this.station.setup.label);
    const held = this.held();
    const isOther = FIELDS.some(
      (name) => held[name] !== "" && receipt[name] !== "" && held[name] !== receipt[name],
    );
    if (isOther && !this.isSent) {
      this.station.verdict.ask(
        said(
          TEXTS.ask.label,
          { held: FIELDS.map((name) => held[name]).filter(Boolean).join(", ") },
        ),
        () => this.take(found, receipt),
      );
    } else {
      this.take(found, receipt);
    }
  }

  /** Fills the fields from a label. */
  take(found, receipt) {
    const read = said(TEXTS.receive.read, {
      fields: Object.entries(found).map(([name, value]) => `${name} ${value}`).join(", "),
    });
    this.label = { part: receipt.part, lot: receipt.lot, attributes: attributesOf(found) };
    this.fill(
      receipt,
    ); // the level is on each bag: another one of the part may have another level
    this.moveOn();
    this.say(`${read}. ${this.wanted()}`, false);
  }

  /** The first field that is empty, or undefined. */
  empty() {
    const { elements } = this.form;
    return [...FIELDS, ...(elements.level.value === "6" ? ["minutes"] : [])]
      .map((name) => elements[name])
      .find((it) => it.value.trim() === "");
  }

  /** What is wanted next, in words. */
  wanted() {
    const texts = TEXTS.receive;
    const next = this.empty();
    return next ? said(texts.next, { field: texts[next.name] })
      : this.form.elements.level.value ? texts.ready
                                       : texts.levelWanted;
  }

  /** To the first empty field, or to the level. */
  moveOn() {
    (this.empty() ?? this.form.querySelector("input[type=radio]:checked") ??
     this.form.querySelector("input[type=radio]")
    ).focus();
    this.moved = performance.now();
  }

  /**
   * The field of a digit that is scanned: the one that has others of its kind, else the first
   * that is empty, else the last.
   */
  fieldOfDigit() {
    const { elements } = this.form;
    const names = elements.level.value === "6" ? NUMBERS : NUMBERS.slice(0, 1);
    return this.digits?.name ?? names.find((name) => elements[name].value.trim() === "") ??
      names.at(-1);
  }

  /**
   * Takes an action code: a level, a digit of the pieces or of a label's minutes, or that all is
   * filled in.
   */
  coded(action) {
    const { elements } = this.form;
    const level = /^LEVEL-(.+)$/.exec(action)?.[1];
    if (LEVELS.includes(level)) {
      elements.level.value = level;
    } else if (/^[0-9]$/.test(action)) {
      const name = this.fieldOfDigit();
      const digits = `${this.digits?.text ?? ""}${
        action}`; // the first one takes the place of what stood there
      elements[name].value = digits;
      this.keep();
      this.digits = { name, text: digits };
      this.say(this.wanted(), false);
      return true;
    } else if (action === "ENTER" && this.digits && this.empty()) {
      this.digits = null; // the number is whole, and the next one is wanted
      this.say(this.wanted(), false);
      return true;
    } else if (action === "ENTER") {
      this.send();
      return true;
    } else {
      return false;
    }
    this.keep();
    this.say(this.wanted(), false);
    return true;
  }

  /** The field that the desk would not take, or null. */
  wrongField(values) {
    const name = ["reel", "part", "lot"].find((it) => !isName(values[it]));
    return name ??
      (values.quantity === null || this.form.elements.quantity.value.trim() === values.reel
         ? "quantity"
         : values.level === "6" && values.minutes === null ? "minutes"
                                                           : null);
  }

  /**
   * Enter in a field goes on to the next one, since a wedge ends each scan with it. The button,
   * Enter on a level and the code of ENTER send.
   */
  submit(event) {
    event.preventDefault();
    const { activeElement } = document;
    const isInput = activeElement?.form === this.form && activeElement.tagName === "INPUT";
    if (isInput && activeElement.type !== "radio") {
      this.moveOn();
      this.say(this.wanted(), false);
    } else if (performance.now() - this.moved > UNMEANT && !isTwice(event, this.last)) {
      this.send();
    }
  }

  /** What the label says too, unless the fields are of another part or lot by now. */
  attributes() {
    const isAsRead = ["part", "lot"].every((name) => {
      const text = this.form.elements[name].value.trim();
      return !this.label[name] || this.label[name] === text;
    });
    return isAsRead ? this.label.attributes : {};
  }

  values() {
    const { elements } = this.form;
    const text = (name) => elements[name].value.trim();
    return {
      reel: text("reel"),
      part: text("part"),
      lot: text("lot"),
      quantity: numberIn(text("quantity"), 1, GREATEST_QUANTITY),
      level: elements.level.value,
      minutes: numberIn(text("minutes"), 1, GREATEST_LABEL),
      attributes: this.attributes(),
    };
  }

  async send() {
    const texts = TEXTS.receive;
    const values = this.values();
    const wrong = this.wrongField(values);
    if (wrong || !values.level) {
      this.say(wrong ? said(texts.bad, { field: texts[wrong] }) : texts.levelWanted, true);
      (wrong ? this.form.elements[wrong] : this.form.querySelector("input[type=radio]")).focus();
      return;
    }
    if (await this.station.act("RECEIVE", values)) {
      this.isSent = true;
      this.say(texts.sent, false);
    }
  }

  /**
   * Takes the answer to a receipt: where it is the one that the fields hold they are cleared
   * once it is accepted.
   */
  answered({ word, body, answer }) {
    const isReceipt = word === WORDS.RECEIVE && Boolean(this.form);
    const held = isReceipt ? JSON.stringify(bodyOf("RECEIVE", this.values())) : null;
    if (held !== JSON.stringify(body)) {
      return;
    }
    if (answer.Answer === "Accepted") {
      this.fill({});
      this.label = {};
      this.say(TEXTS.receive.hint, false);
    } else {
      this.say(
        said(TEXTS.receive.notTaken, { title: wordsOf({ word, body, answer }).title }),
        true,
      );
    }
  }
}
