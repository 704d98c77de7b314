// The screen Changeover: the product of each machine, and the kit for so many boards with what is
// on the slots already.
import { allotted, unclear } from "./allot.js";
import { Cart } from "./cart.js";
import * as clock from "./clock.js";
import * as desk from "./desk.js";
import { button, el, field, table } from "./dom.js";
import { productText } from "./known.js";
import { lifeText, piecesText } from "./life.js";
import { MOST_BOARDS } from "./limits.js";
import { isName, numberIn } from "./names.js";
import { said } from "./say.js";
import { TEXTS } from "./words.js";

const MOST_CARDS = 100;

export class ChangeoverScreen {
  constructor(station) {
    this.station = station;
    this.product = "";
    this.boards = String(station.setup.boards);
    this.cart = new Cart(station);
  }

  parts() {
    const texts = TEXTS.changeover;
    const { model } = this.station;
    this.product ||= model.product(model.lines[0].machine)?.product ?? "";
    this.said = el("p", { class: "note wrong", role: "alert", hidden: true });
    this.now = el("ul", { class: "products" });
    this.kits = el("div", { class: "machines" });
    this.form = el(
      "form",
      { class: "changeover", on: { submit: (event) => this.show(event) } },
      el("h2", null, texts.title),
      field("product", texts.product, { value: this.product, maxlength: "200" }),
      field("boards", texts.boards, { value: this.boards, inputmode: "numeric" }),
      el(
        "p",
        { class: "buttons" },
        el("button", { type: "submit" }, texts.show),
        model.lines.map(
          ({ machine }) => button(said(texts.select, { machine }), () => this.select(machine)),
        ),
        model.lines.length > 1 ? button(texts.selectAll, () => this.selectAll()) : null,
        button(texts.pick, () => this.pick()),
        button(texts.clock, () => this.setClock(), { class: "away" }),
      ),
      this.said,
    );
    this.turn = 0; // of what is shown: a slow answer takes the place of no newer one
    this.kits.append(el("p", { class: "note" }, texts.asking));
    this.pick();
    const work = el("p", { class: "legend" }, texts.work);
    return [this.form, this.cart.parts(), this.kits, work, this.now];
  }

  update() {
    this.cart.update();
    this.now.replaceChildren(...this.station.model.lines.map(
      ({ machine }) => el(
        "li",
        null,
        el("b", null, machine),
        " ",
        productText(this.station.model, machine).join(", "),
      ),
    ));
  }

  boardsAsked() {
    return numberIn(this.form.elements.boards.value.trim(), 1, MOST_BOARDS);
  }

  /** What the fields ask for, or null. */
  asked() {
    const { elements } = this.form;
    const boards = this.boardsAsked();
    this.product = elements.product.value.trim();
    this.boards = elements.boards.value.trim();
    this.said.hidden = isName(this.product) && boards !== null;
    this.said.textContent = TEXTS.changeover.badName;
    return this.said.hidden ? { product: this.product, boards } : null;
  }

  select(machine) {
    const asked = this.asked();
    if (asked) {
      this.station.act("SELECT", { machine, product: asked.product });
    }
  }

  async selectAll() {
    for (const { machine } of this.asked() ? this.station.model.lines : []) {
      await this.station.act("SELECT", { machine, product: this.product });
    }
  }

  /**
   * Sets the desk's clock, which only messages move, once somebody with a badge has looked at the
   * time: the desk never goes back.
   */
  setClock() {
    const { station } = this;
    const why = station.badgeName === null ? TEXTS.fault.badge : station.whyNot();
    if (why) {
      station.fault(why);
      return;
    }
    const times = { server: clock.local(clock.now()), tablet: clock.local(Date.now()) };
    station.verdict.ask(said(TEXTS.ask.clock, times), () => station.act("CLOCK", {}));
  }

  async show(event) {
    event.preventDefault();
    const asked = this.asked();
    if (!asked) {
      return;
    }
    const turn = this.next();
    const lines = await this.readAll(() => asked);
    const rows = await this.allotted(lines.filter((it) => !it.fault), asked.boards);
    const rowsOf = ({ machine }) => rows.filter((it) => it.machine === machine);
    const kit = (it) => (it.fault ? this.fault(it, asked) : this.kit(it, asked, rowsOf(it)));
    this.put(turn, ...lines.map(kit));
  }

  next() {
    this.turn += 1;
    return this.turn;
  }

  /** Shows what was asked for last. */
  put(turn, ...parts) {
    if (turn === this.turn) {
      this.kits.replaceChildren(...parts);
    }
  }

  /**
   * Shows what to bring for what each machine makes now, over the line, the slot that ends next
   * first.
   */
  async pick() {
    const { model } = this.station;
    const turn = this.next();
    const boards = this.boardsAsked() ?? this.station.setup.boards;
    const products = (machine) => ({ product: model.product(machine)?.product ?? "", boards });
    const lines = await this.readAll(products);
    const had = lines.filter((it) => !it.fault);
    const wanted = ({ bring, missing, unsure }) => bring.length || missing || unsure;
    const rows = (await this.allotted(had, boards))
                   .filter(wanted)
                   .map((it) => ({
                          ...it,
                          lasts: Math.floor(((it.mounted + it.other) * boards) / it.needed),
                          minutes: model.minutes(it),
                        }));
    rows.sort((a, b) => (a.minutes ?? Infinity) - (b.minutes ?? Infinity) || a.lasts - b.lasts);
    const faults = lines.filter((it) => it.fault);
    const time = clock.shown(Math.min(...had.map((it) => it.had ?? clock.now())));
    const texts = TEXTS.changeover;
    const title = said(texts.pickTitle, { boards, time: had.length ? time : "" });
    const list = rows.length ? this.pickTable(rows) : el("p", { class: "note" }, texts.pickNone);
    this.put(
      turn,
      el(
        "section",
        { class: "pick" },
        el("h2", null, title),
        faults.map((it) => this.fault(it, products(it.machine))),
        had.length ? list : null,
      ),
    );
  }

  pickTable(rows) {
    const texts = TEXTS.changeover;
    const { pickHead: head } = texts;
    const heads =
      [[head.where], [head.part], [head.lasts], [head.bring], [head.missing, "n"]];
    const cells = rows.map(
      (it) => [
        [`${it.machine} ${it.slot}`, "slot"],
        [it.part, "name"],
        said(
          it.minutes === null ? texts.lasts : texts.lastsMinutes,
          { boards: it.lasts, minutes: it.minutes },
        ),
        ...this.brought(it),
    ],
    );
    return table(texts.pick, heads, cells, (at) => (rows[at].missing ? "EMPTY" : ""));
  }

  async readAll(asked) {
    const lines = [];
    for (const { machine } of this.station.model.lines) {
      lines.push(await this.read(machine, asked(machine)));
    }
    return lines;
  }

  /** What the desk says of a machine: its slots and its kit lists, or why there are none. */
  async read(machine, { product, boards }) {
    const kit = (count) => desk.rows("kit", { product, machine, boards: String(count) });
    try {
      const slots = await desk.rows("slots", { machine });
      const all = await kit(MOST_BOARDS);
      const more = await kit(boards);
      return { machine, slots: slots.rows, kit: all.rows, more: more.rows, had: more.had };
    } catch (fault) {
      return { machine, fault };
    }
  }

  /**
   * The rows of all machines. Where some are short, the cards of reels are asked that are named
   * for another part alone.
   */
  async allotted(lines, boards) {
    const { model } = this.station;
    const rows = allotted(lines, boards, model.parts);
    const asked = unclear(lines, rows, model.parts).slice(0, MOST_CARDS);
    for (const reel of asked) {
      await model.card(reel);
    }
    return asked.length ? allotted(lines, boards, model.parts) : rows;
  }

  fault({ machine, fault }, { product }) {
    const texts = TEXTS.changeover;
    const unknown = fault.body?.Kind === "Machine" ? texts.unknownMachine : texts.unknownSheet;
    const text = product === "" ? TEXTS.line.notTold
      : fault.status === 404 ? unknown
                                : texts.notHad;
    return el(
      "section",
      { class: "machine" },
      el("h2", null, machine),
      el("p", { class: "note wrong" }, said(text, { product, machine })),
    );
  }

  kit({ machine, had }, { product, boards }, rows) {
    const texts = TEXTS.changeover;
    const time = clock.shown(had ?? clock.now());
    const asked = said(texts.asked, { product, machine, boards, time });
    const markOf = ({ missing, other, expired }) =>
      (missing ? "EMPTY"
         : other || expired.length ? "OTHER"
                                   : "");
    const { head } = texts;
    const numbers = [[head.needed, "n"], [head.mounted, "n"]];
    const heads =
      [[head.slot], [head.part], ...numbers, [head.bring], [head.missing, "n"]];
    const cells = rows.map(
      (it) => [
        [it.slot, "slot"],
        [it.part, "name"],
        piecesText(it.needed),
        this.onSlot(it),
        ...this.brought(it),
    ],
    );
    return el(
      "section",
      { class: "machine" },
      el("h2", null, machine, el("small", null, asked)),
      this.kitNotes(rows),
      table(machine, heads, cells, (at) => markOf(rows[at])),
      el("p", { class: "legend" }, texts.how),
    );
  }

  /** Whether a kit is complete, and how many slots want something. */
  kitNotes(rows) {
    const texts = TEXTS.changeover;
    const note = (text, mark = "note") => el("p", { class: mark }, text);
    const count = (test) => rows.filter(test).length;
    const missing = count((it) => it.missing);
    const unsure = count((it) => it.unsure);
    const more = [
      [texts.unsure, unsure],
      [texts.empty, count((it) => it.isEmpty)],
      [texts.expired, count((it) => it.expired.length)],
      [texts.other, count((it) => it.other)],
    ].filter(([, number]) => number);
    return [
      missing ? note(said(texts.missing, { count: missing }), "note wrong") : null,
      missing || unsure ? null : note(texts.ready),
      ...more.map(([text, number]) => note(said(text, { count: number }))),
    ];
  }

  /** The cells of what to bring to a slot, and of what is missing. */
  brought({ part, bring, missing, unsure, otherParts }) {
    const values = { unsure, parts: otherParts.join(", ") };
    const orMissing = unsure ? said(TEXTS.changeover.orMissing, values) : "";
    const reels = bring.map((it) => this.bring(it, part)).join("; ");
    return [[reels, "name"], missing ? piecesText(missing) : orMissing];
  }

  onSlot({ mounted, other, otherParts, expired }) {
    const texts = TEXTS.changeover;
    const values = { mounted, other, parts: otherParts.join(", ") };
    const on = other ? said(texts.onSlot, values) : piecesText(mounted);
    const old = expired.length ? [said(texts.onExpired, { reels: expired.join(", ") })] : [];
    return [on, ...old].join("; ");
  }

  /** A reel to bring, and where it is: on another slot, or in the store if the set-up says it. */
  bring({ reel, pieces, minutes_left, from, own }, part) {
    const texts = TEXTS.changeover;
    const { places } = this.station.setup;
    const text = said(texts.reel, { reel, pieces: Number(pieces), life: lifeText(minutes_left) });
    const place = places[reel] ?? places[own ?? part];
    const there = place === undefined ? text : said(texts.inStore, { reel: text, place });
    return from ? said(texts.from, { reel: text, ...from }) : there;
  }
}
