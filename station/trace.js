// The screen Trace: boards of a lot, pieces of a board, a reel's card and the overdue list, to
// sort, filter, save and print.
import * as clock from "./clock.js";
import { fieldsOf } from "./csv.js";
import * as desk from "./desk.js";
import { button, el, field } from "./dom.js";
import { isName } from "./names.js";
import { said } from "./say.js";
import * as store from "./store.js";
import { TEXTS } from "./words.js";

const SHOWN = 1000; // rows on the screen; printed are all
const QUESTIONS = {
  lot: "trace/lot",
  board: "trace/board",
  reel: "reel",
  overdue: "overdue",
};
const MINUTE = 60_000;
/** A cell of a report: a minute of the desk is the time at the plant. */
const cellOf = (column, text) => (column === "minute" ? clock.local(Number(text) * MINUTE) : text);
const compare = new Intl.Collator("en", { numeric: true }).compare;

export class TraceScreen {
  constructor(station) {
    this.station = station;
    this.question = "lot";
    this.answer = null;
    window.addEventListener("beforeprint", () => this.print(Infinity));
    window.addEventListener("afterprint", () => this.print(SHOWN));
  }

  parts() {
    const texts = TEXTS.trace;
    const chosen = Object.keys(QUESTIONS).map((it) => {
      const input = el(
        "input",
        { type: "radio", name: "question", value: it, checked: it === this.question },
      );
      return el("label", null, input, texts[it]);
    });
    const details = ["1", "2", "3", "4"].map(
      (it) => el(
        "label",
        null,
        el("input", { type: "radio", name: "detail", value: it, checked: it === "1" }),
        it,
      ),
    );
    this.said = el("p", { class: "note wrong", role: "alert", hidden: true });
    this.result = el("div", { class: "result" });
    this.form = el(
      "form",
      { class: "trace", on: { submit: (event) => this.ask(event) } },
      el("h2", null, texts.title),
      el("fieldset", null, el("legend", null, texts.what), chosen),
      field("name", texts.name, { maxlength: "200" }),
      el("fieldset", null, el("legend", null, texts.detail), details),
      el("p", { class: "buttons" }, el("button", { type: "submit" }, texts.go)),
      this.said,
      el("p", { class: "legend" }, texts.archives),
    );
    this.show();
    return [this.form, this.result];
  }

  say(text) {
    this.said.textContent = text;
    this.said.hidden = text === "";
  }

  async ask(event) {
    event.preventDefault();
    const { elements } = this.form;
    const texts = TEXTS.trace;
    this.question = elements.question.value;
    const name = elements.name.value.trim();
    const detail = elements.detail.value;
    if (this.question !== "overdue" && !isName(name)) {
      this.say(texts.badName);
      return;
    }
    const query = {
      lot: { lot: name, detail },
      board: { board: name, detail },
      reel: { reel: name },
      overdue: {},
    }[this.question];
    this.say("");
    this.answer = null;
    try {
      const told = await desk.report(QUESTIONS[this.question], query);
      const [head, ...rows] = fieldsOf(told.text);
      this.answer = {
        told,
        head,
        rows: rows.map((row) => row.map((it, column) => cellOf(head[column], it))),
        query,
        question: this.question,
        time: told.had ?? clock.now(),
        last: await store.note("lastNumber"),
        sort: null,
        filter: "",
      };
    } catch (fault) {
      this.say(
        fault.status === 404 ? texts.unknown[fault.body.Kind] ?? texts.notHad : texts.notHad,
      );
    }
    this.show();
  }

  /**
   * What was asked, when, of which desk, up to which command at least; and which of the rows
   * stand below, in which order.
   */
  evidence(count) {
    const { told, question, query, time, rows, last, head, sort, filter } = this.answer;
    const texts = TEXTS.trace;
    const asked =
      [
        texts[question],
        Object.entries(query).map(([name, value]) => `${name} ${value}`).join(", "),
      ]
        .filter(
          Boolean,
        )
        .join(": ");
    const upTo = last ? said(texts.upTo, { number: last.number, time: clock.zoned(last.at) })
                      : texts.upToNone;
    return [
      said(texts.evidence, {
        asked,
        desk: this.station.setup.title,
        host: location.host,
        time: clock.zoned(time),
        count: rows.length,
      }),
      upTo,
      filter ? said(texts.filtered, { filter, shown: count, count: rows.length })
             : texts.unfiltered,
      sort ? said(sort.way > 0 ? texts.ascending : texts.descending, { column: head[sort.column] })
           : texts.unsorted,
      ...(told.old ? [texts.old] : []),
      texts.archives,
    ];
  }

  show() {
    if (!this.answer) {
      this.result.replaceChildren();
      return;
    }
    const texts = TEXTS.trace;
    const save = el("a", { class: "button", download: this.fileName(), href: "#" }, texts.csv);
    save.addEventListener("click", () => {
      const link = URL.createObjectURL(new Blob([this.answer.told.text], { type: "text/csv" }));
      save.setAttribute("href", link);
      setTimeout(() => URL.revokeObjectURL(link), 10_000);
    });
    const filter = field("filter", texts.filter, { value: this.answer.filter });
    filter.lastChild.addEventListener("input", (event) => {
      this.answer.filter = event.target.value;
      this.list();
    });
    this.rows = el("div");
    this.proof = el("div", { class: "evidence" });
    this.result.replaceChildren(
      this.proof,
      el(
        "div",
        { class: "buttons tools" },
        filter,
        save,
        button(texts.print, () => window.print()),
      ),
      this.rows,
    );
    this.list();
  }

  fileName() {
    const words = [
      this.answer.question,
      ...Object.values(this.answer.query),
      clock.stamp(this.answer.time),
    ].join("-");
    return `${words.replace(/[^A-Za-z0-9._-]+/g, "_")}.csv`;
  }

  /** Lists all rows for the printer, and as many as before for the screen. */
  print(most) {
    if (this.answer && this.rows?.isConnected) {
      this.list(most);
    }
  }

  list(most = SHOWN) {
    const { head, rows, sort, filter } = this.answer;
    const texts = TEXTS.trace;
    const chosen =
      rows.filter((row) => row.some((it) => it.toLowerCase().includes(filter.toLowerCase())));
    if (sort) {
      chosen.sort((a, b) => sort.way * compare(a[sort.column], b[sort.column]));
    }
    const heads = head.map((name, column) => {
      const way = sort?.column === column ? sort.way : 0;
      return el(
        "th",
        { scope: "col",
         "aria-sort": way > 0 ? "ascending"
           : way < 0 ? "descending"
                               : "none" },
        el("span", { class: "printed" }, name),
        button(
          `${name}${
            way > 0 ? " ▲"
              : way < 0 ? " ▼"
                        : ""}`,
          () => {
            this.answer.sort = { column, way: way > 0 ? -1 : 1 };
            this.list();
            this.rows.querySelectorAll("th button")[column].focus();
          },
        ),
      );
    });
    const shown =
      chosen
        .slice(
          0,
          most,
        )
        .map((row) => el("tr", null, row.map((it) => el("td", { class: "name" }, it))));
    const count = chosen.length > most
      ? said(texts.more, { shown: most, count: chosen.length })
      : said(texts.shown, { shown: chosen.length, count: rows.length });
    this.proof.replaceChildren(...this.evidence(chosen.length).map((it) => el("p", null, it)));
    this.rows.replaceChildren(
      el("p", { class: "count" }, count),
      el(
        "table",
        { "aria-label": texts[this.answer.question] },
        el("thead", null, el("tr", null, heads)),
        el("tbody", null, shown),
      ),
    );
  }
}
