// The screen Line: what needs a person on top, in letters for two metres, and below it all slots
// of each machine. Of many slots there is a tile for each machine, and a touch shows its slots.
import { isLoad } from "./answers.js";
import * as clock from "./clock.js";
import { button, el, put, table, withoutScrollbars } from "./dom.js";
import { dayAnd, productText, sheetText } from "./known.js";
import { lifeText, piecesText } from "./life.js";
import { closingText } from "./machine_lines.js";
import { isFresh } from "./machines.js";
import { said } from "./say.js";
import { TEXTS } from "./words.js";

const URGENT = ["EXPIRED", "EMPTY", "LOW", "EXPIRES"]; // a person has to come
const COUNTED = ["STOPS", ...URGENT, "OTHER", "OFF", "NOSHEET"];
const MOST_TILES = 10;
const MOST_ABOVE = 4; // of what needs a person: above the slots, and above the overview, which
                        // names the worst slot of each machine
const LEAST_TILES = 4; // where the slots have no room else
const WIDE = 1_200; // pixels of a screen that shows all slots without scrolling
const MOST_ROWS = 100; // slots that are all shown; of more there is an overview
// of the slots' letters, in pixels of a screen of 1080 lines
const SIZES = [54, 48, 42, 38, 34, 30, 28, 26, 24, 22, 20, 19, 18, 17, 16, 15, 14];
const SCROLLED = 17; // the letters if the slots don't fit anyway, as on a tablet
const SORTS = {
  sheet: () => 0,
  pieces: (a, b) => (a.boards ?? Infinity) - (b.boards ?? Infinity),
  life: (a, b) => (a.life ?? -1) - (b.life ?? -1),
};
const isNarrow = (place) => place.scrollWidth <= place.clientWidth;
const isWithin = (place) => place.scrollHeight <= place.clientHeight && isNarrow(place);
const BRIEF = "data-brief"; // of the screen whose empty and expired slots name no scan
const isStop = (row) => row.states.includes("STOPS");

/** How urgent a slot is: one that stops its machine without being of these states is it first. */
function rank(row) {
  const at = URGENT.findIndex((it) => row.states.includes(it));
  return at < 0 && !isStop(row) ? null : at;
}

/**
 * The slots that need a person, the most urgent first: those that stop their machine, and of each
 * expired, empty, then the next to run out, then the next to expire.
 */
export function urgentOf(lines) {
  const rows = lines.flatMap(
    ({ line, rows: all }) =>
      all.filter((it) => rank(it) !== null).map((row) => ({ ...row, machine: line.machine })),
  );
  const runsOut = (a, b) =>
    (a.minutes ?? Infinity) - (b.minutes ?? Infinity) || a.boards - b.boards;
  return rows.sort(
    (a, b) => isStop(b) - isStop(a) || rank(a) - rank(b) ||
      (rank(a) === 2 ? runsOut(a, b)
         : rank(a) === 3 ? a.life - b.life
                         : 0),
  );
}

/**
 * What a slot says: the scan that lets its machine go on, and what else is wrong. Of one that is
 * empty or expired the style may leave the scan out.
 */
function withStops({ stops, states }, words) {
  const text = words.join(" · ");
  if (!stops || !text) {
    return [stops || text];
  }
  const isRed = states.includes("EMPTY") || states.includes("EXPIRED");
  return [el("i", { class: isRed ? "stops" : "" }, `${stops} · `), text];
}

export class LineScreen {
  constructor(station) {
    this.station = station;
    this.sort = "sheet";
    new ResizeObserver(
      () => this.machines?.isConnected && this.fit(true),
    ).observe(document.getElementById("main"));
  }

  parts() {
    const { boards, expires, splice } = this.station.setup;
    this.open = null; // the machine whose slots are shown in place of the overview
    this.alarms = el("p", { class: "alarms", role: "status" });
    this.orders = el("p", { class: "orders" });
    this.first = el("ol", { class: "urgent first", role: "status" });
    this.urgent = el("ol", { class: "urgent" });
    this.overview = el("div", { class: "overview" });
    this.machines = el("div", { class: "slots" });
    this.fitted = null;
    return [
      this.first,
      el("div", { class: "top" }, this.alarms, this.orders),
      this.urgent,
      this.overview,
      this.machines,
      el("p", { class: "legend" }, said(TEXTS.line.low, { boards, minutes: expires, splice })),
    ];
  }

  /** Shows what is known; what has not changed is not touched. */
  update() {
    const { model } = this.station;
    const lines =
      model.lines.map((line) => ({
                        line,
                        rows: this.rows(line),
                        head: [...productText(model, line.machine), sheetText(line)],
                        notes: this.notes(line),
                      }));
    const isMany =
      lines.length > 1 && lines.reduce((sum, { rows }) => sum + rows.length, 0) > MOST_ROWS;
    const shown = isMany ? lines.filter(({ line }) => line.machine === this.open) : lines;
    put(this.first, ...this.firstTiles());
    this.counts(lines);
    this.order(isMany && shown.length > 0);
    this.ranked = urgentOf(lines);
    this.wanted = isMany ? shown.length ? 0 : MOST_ABOVE : MOST_TILES;
    this.tiles(this.wanted);
    put(this.overview, ...(shown.length ? [] : lines.map((it) => this.machineTile(it))));
    put(this.machines, ...shown.map((it) => this.machine(it)));
    this.fit();
  }

  /** A machine's rows; those of slots that stop it have the scan that lets it go on. */
  rows(line) {
    const { model } = this.station;
    const { machine } = line;
    const it = model.machines.get(machine);
    const causes = it && isFresh(it, clock.now()) ? it.causes : [];
    const stops = (row) => {
      const cause = causes.find(({ slot }) => slot === row.slot);
      const text = cause && closingText(cause, model.loadFor({ machine, ...cause }));
      return cause ? { ...row, stops: text, states: ["STOPS", ...row.states] } : row;
    };
    return model.rows(line).map(stops);
  }

  /**
   * What goes before all else: work that was refused and that nobody has decided about, and loads
   * without an answer.
   */
  firstTiles() {
    const { model, waiting } = this.station;
    const texts = TEXTS.line;
    const of = ([what, todo, ...more]) =>
      el("li", { class: "EMPTY" }, el("b", null, what), el("span", null, todo), ...more);
    const open = model.entries.map((it) => this.openTexts(it));
    const unverified = waiting.filter(isLoad).map(({ body }) => {
      const values = { machine: body.Machine, slot: body.Slot, reel: body.Reel };
      return [said(texts.unverified, values), texts.unverifiedDo];
    });
    return [...open, ...unverified].map(of);
  }

  /** What is said of an entry that nobody has decided about, what to do, and a way to do it. */
  openTexts({ n, kind, slot, word, told, ...its }) {
    const texts = TEXTS.line;
    const saidOf = (name) => new RegExp(`"${name}":\\s*"([^"]*)"`).exec(told)?.[1] ?? "";
    const machine = its.machine || saidOf("Machine"); // what can't be read has them in its text
    const board = its.board || saidOf("Board");
    const where = slot === "" ? machine || "?" : said(texts.urgent.where, { machine, slot });
    const [title] = TEXTS.refusals[word] ?? [`${word} {at}`];
    const message = /"TraceDesk\.(\w+)"/.exec(told)?.[1] ?? "?";
    const time = Date.parse(saidOf("TimeStamp"));
    const refusal = kind === "unread" ? TEXTS.verdict.faulty : said(title, { at: slot || board });
    const values = { where, board, message, refusal };
    const acknowledge = () => this.station.decide(Number(n), "looked at");
    return [
      said(texts.untraced, { ...values, time: Number.isNaN(time) ? "?" : dayAnd(time) }),
      texts.untracedDo,
      button(texts.acknowledge, acknowledge),
    ];
  }

  /** How many slots are in each state that needs somebody, as marks. */
  marks(lines) {
    const counts =
      COUNTED
        .map(
          (state) =>
            [state,
             lines.reduce(
               (sum, { rows }) => sum + rows.filter((it) => it.states.includes(state)).length,
               0,
             )],
        )
        .filter(([, count]) => count);
    return counts.map(
      ([state, count]) => el(
        "span",
        { class: `mark ${state}` },
        said(TEXTS.line.alarms, { count, state: TEXTS.line.states[state] }),
      ),
    );
  }

  counts(lines) {
    const marks = this.marks(lines);
    const isKnown = lines.every(({ line }) => line.slots && line.kit);
    const { overdue, overdueHad } = this.station.model;
    const late = overdue ? [el("span", { class: "mark LATE" }, said(TEXTS.line.overdue, {
                                  count: overdue,
                                  time: overdueHad ? dayAnd(overdueHad) : "",
                                }))]
                         : [];
    put(
      this.alarms,
      ...(marks.length || !isKnown ? marks : [el("span", null, TEXTS.line.calm)]),
      ...late,
    );
  }

  order(isOpen) {
    const back = isOpen ? [button(TEXTS.line.allMachines, () => this.show(null))] : [];
    put(
      this.orders,
      ...back,
      `${TEXTS.line.sort}: `,
      ...Object.keys(SORTS).map(
        (name) => button(
          TEXTS.line.sorts[name],
          () => {
            this.sort = name;
            this.update();
          },
          { "aria-pressed": String(this.sort === name) },
        ),
      ),
    );
  }

  /** Shows the slots of one machine, or of `null` the overview. */
  show(machine) {
    this.open = machine;
    this.update();
    document.getElementById("scan").focus();
  }

  /** Shows so many of the slots that need a person, and how many more there are. */
  tiles(most) {
    const { ranked } = this;
    const count = ranked.length > most ? Math.max(0, most - 1) : ranked.length;
    const rest = most ? ranked.length - count : 0;
    const where = (it) => said(TEXTS.line.urgent.where, it);
    const tile = (it) => el("li", { class: it.states[0] }, this.tile(it, where(it)));
    const more =
      rest ? [el("li", { class: "more" }, said(TEXTS.line.more, { count: rest }))] : [];
    this.most = most;
    put(this.urgent, ...ranked.slice(0, count).map(tile), ...more);
  }

  /** A slot that needs a person: where, what is wrong, and with which reel. */
  tile({ part, front, worst, boards, minutes, states, stops }, where) {
    const texts = TEXTS.line.urgent;
    const isFront = worst === front || worst?.reel === front?.reel;
    const values = { boards, life: worst ? lifeText(worst.minutes_left) : "" };
    const textOf = (it) =>
      texts[it === "EXPIRED" && !isFront ? "BEHIND" : it] ?? TEXTS.line.states[it];
    const isShown = (it) => it !== "OTHER" && it !== "STOPS";
    const words = states.filter(isShown).map((it) => said(textOf(it), values));
    const soon =
      minutes !== null && states.includes("LOW") ? [said(texts.soon, { minutes })] : [];
    const isOld = states.includes("EXPIRED") || states.includes("EXPIRES");
    const reel = isOld ? worst.reel : front?.reel ?? part;
    return [
      el("b", null, where),
      el("b", null, withStops({ stops, states }, [...words, ...soon])),
      el("span", null, reel),
    ];
  }

  /**
   * A machine of the overview: its product, the board in work if a sender reports one, what is
   * wrong, and the worst slot.
   */
  machineTile({ line, rows, head, notes }) {
    const [worst] = urgentOf([{ line, rows }]);
    const known = this.station.model.machines.get(line.machine);
    const board = known && isFresh(known, clock.now()) ? known.board : null;
    const texts = TEXTS.line;
    const marks = this.marks([{ rows }]);
    const state = worst?.states[0] ?? (marks.length || notes.length ? "OTHER" : "OK");
    const calm = line.slots && line.kit ? texts.states.OK : "";
    return button(
      [
        el(
          "span",
          { class: "head" },
          el("b", { class: "name" }, line.machine),
          el(
            "span",
            { class: "product" },
            [head[0], board ? said(texts.board, { board }) : ""].filter(Boolean).join(" · "),
          ),
        ),
        el("span", { class: "marks" }, marks.length ? marks : calm),
        ...notes.map((it) => el("span", { class: "wrong" }, it)),
        worst ? el("span", { class: "worst" }, this.tile(worst, worst.slot)) : null,
      ],
      () => this.show(line.machine),
      { class: `machine ${state}` },
    );
  }

  notes(line) {
    const texts = TEXTS.line;
    const notes = [];
    if (line.missing) {
      notes.push(texts.unknownMachine);
    } else if (line.noSheet) {
      notes.push(said(texts.unknownSheet, this.station.model.product(line.machine)));
    }
    const rows = line.kit ? this.station.model.rows(line) : [];
    const odd = rows.filter((it) => it.others.length || it.off).length;
    if (odd > rows.length / 4) {
      notes.push(said(texts.differs, { count: odd }));
    }
    return notes;
  }

  /**
   * A machine with all its slots. Its name stands in the table's head, which is repeated in each
   * column.
   */
  machine({ line, rows, head: [product, ...from], notes }) {
    const { head } = TEXTS.line;
    const columns = [
      [head.slot],
      [head.part],
      [head.reel],
      [head.left, "n"],
      [head.all, "n"],
      [head.boards, "n"],
      [head.behind],
      [head.life, "n"],
      [head.state],
    ];
    const name = [
      el("b", null, line.machine),
      ` ${product} `,
      el("small", null, from.filter(Boolean).join(", ")),
    ];
    const sorted = [...rows].sort(SORTS[this.sort]);
    const made = table(
      line.machine,
      columns,
      sorted.map((it) => this.cells(it)),
      (at) => sorted[at].states[0] ?? "OK",
    );
    made.dataset.machine = line.machine;
    made.tHead.prepend(
      el("tr", null, el("th", { class: "machine", colspan: "9", scope: "colgroup" }, name)),
    );
    const wrong = notes.map((it) => el("p", { class: "note wrong" }, it));
    return el("section", { class: "machine" }, wrong, made);
  }

  cells({ slot, part, front, behind, pieces, boards, worst, others, states, stops }) {
    const texts = TEXTS.line;
    const waits = behind
                    .map(
                      (it) => said(texts.behind, { reel: it.reel, left: Number(it.remaining) }),
                    )
                    .join(", ");
    const wrong = states.filter((it) => it !== "STOPS").map((it) => texts.states[it]);
    const life = front ? lifeText(worst.minutes_left) : "";
    return [
      [slot, "slot"],
      [others.length ? `${part} (${others.join(", ")})` : part, "name"],
      [front?.reel ?? "", "name"],
      front ? piecesText(front.remaining) : "",
      behind.length ? piecesText(pieces) : "",
      boards === null ? "" : piecesText(boards),
      [waits, "name"],
      worst && worst !== front ? said(texts.lifeOf, { life, reel: worst.reel }) : life,
      [states.length ? withStops({ stops, states }, wrong) : texts.states.OK, "state"],
    ];
  }

  /**
   * The slots in the largest letters in which all are on the screen: anew if the room or the
   * number of rows is another, or they no longer fit. The columns are the style's.
   */
  fit(isResized = false) {
    const { machines } = this;
    const main = machines.parentElement;
    if (isResized && this.most < this.wanted) {
      this.tiles(this.wanted); // there may be room again
    }
    const fitted = [
      machines.querySelectorAll("tr").length,
      this.urgent.childElementCount,
      this.first.childElementCount,
      ...[...main.querySelectorAll(".stops")].map((it) => it.textContent),
    ].join();
    const isHigh = main.scrollHeight > main.clientHeight;
    if (!machines.hasChildNodes() || (!isResized && fitted === this.fitted && !isHigh)) {
      return;
    }
    this.fitted = fitted;
    const { scrollTop } = main;
    const areAllThere = withoutScrollbars(main, () => this.fitAll(main));
    if (!areAllThere) {
      main.toggleAttribute(BRIEF, false);
      SIZES.filter((it) => it <= SCROLLED).find((it) => this.set(it) ?? isNarrow(main));
    }
    main.scrollTop = scrollTop; // smaller letters were tried
  }

  set(size) {
    this.machines.style.setProperty("--letters", `${size / 16}rem`);
  }

  /**
   * Sets the largest letters in which all slots are on the screen. Where even the smallest are too
   * large, empty and expired slots leave out the scan that lets their machine go on; and if that is
   * not enough, fewer of those that need a person stand above them. False where nothing helps.
   */
  fitAll(main) {
    const isWide = main.clientWidth >= WIDE;
    for (const isBrief of isWide ? [false, true] : [false]) {
      main.toggleAttribute(BRIEF, isBrief);
      if (this.fitLetters(main)) {
        return true;
      }
    }
    while (isWide && this.most > LEAST_TILES && !isWithin(main)) {
      this.tiles(this.most - 1); // all slots are below them
    }
    return isWithin(main);
  }

  /** Sets the largest letters in which all is on the screen, or the smallest; whether it is. */
  fitLetters(main) {
    this.measure();
    let least = 0;
    let most = SIZES.length - 1;
    while (least < most) { // to the first that fits
      const middle = (least + most) >> 1;
      this.set(SIZES[middle]);
      [least, most] = isWithin(main) ? [least, middle] : [middle + 1, most];
    }
    this.set(SIZES[least]);
    return isWithin(main);
  }

  /** Tells the style how wide a column of slots is, in its letters. */
  measure() {
    const { machines } = this;
    this.set(SIZES[0]);
    machines.classList.add("measured");
    const width =
      Math.max(...[...machines.querySelectorAll("table")].map((it) => it.offsetWidth)) /
      parseFloat(getComputedStyle(machines).fontSize);
    machines.classList.remove("measured");
    machines.style.setProperty("--width", `${width}em`);
  }
}
