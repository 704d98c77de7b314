// The screen Scan: what is held, buttons in place of action codes, a number pad, and the last
// scans of this station.
import { refusalWord, whatOf, wordsOf } from "./answers.js";
import * as clock from "./clock.js";
import { button, el, table } from "./dom.js";
import { said } from "./say.js";
import { ACTIONS } from "./scan.js";
import * as store from "./store.js";
import { TEXTS } from "./words.js";

const SHOWN = 12;

export class ScanScreen {
  constructor(station) {
    this.station = station;
  }

  parts() {
    this.list = el("div", { class: "history" });
    const codes = this.station.setup.codes.action;
    const act = (name) => () => {
      this.station.scan.take(codes.replace("{action}", name), true);
      document.getElementById("scan").focus();
    };
    const press = (name, attributes, repeats) =>
      button(TEXTS.actions[name] ?? name, act(name), attributes, repeats);
    this.pad = el(
      "div",
      { class: "pad" },
      [..."1234567890"].map((it) => press(it, {}, true)),
      press("CANCEL", { class: "cancel" }),
      press("ENTER", { class: "enter" }),
    );
    this.actions = el("div", { class: "actions" }, ACTIONS.map((name) => press(name, {})));
    this.refresh();
    this.held();
    const unsafe =
      store.isKept() === false ? el("p", { class: "legend" }, TEXTS.strip.unsafe) : null;
    return [
      el("div", { class: "hands" }, this.actions, this.pad),
      el("section", null, el("h2", null, TEXTS.scan.history), unsafe, this.list),
    ];
  }

  /** A number is asked for with the pad, and all else with the actions. */
  held() {
    if (this.pad) {
      this.pad.hidden = !this.station.scan.asking;
      this.actions.hidden = !this.pad.hidden;
    }
  }

  async refresh() {
    const scans = await store.latest(SHOWN);
    const texts = TEXTS.scan;
    if (!this.list) {
      return;
    }
    const rows = scans.map((it) => {
      const words = it.answer ? wordsOf(it) : null;
      const answer = !words ? texts.waiting
        : words.kind === "accepted" ? said(TEXTS.verdict.accepted, { done: words.title })
                                    : `${refusalWord(it.answer)}: ${words.title}`;
      return [clock.shown(it.at), whatOf(it), [answer, words?.kind ?? "asked"]];
    });
    this.list.replaceChildren(
      rows.length ? table(
                      texts.history,
                      [[texts.head.time], [texts.head.what], [texts.head.answer]],
                      rows,
                    )
                  : el("p", null, texts.noHistory),
    );
  }
}
