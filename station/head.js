// The top of the page: how old what it shows is, what this log-in may do, and the log-in itself.
import * as clock from "./clock.js";
import { button, el, put } from "./dom.js";
import { said } from "./say.js";
import { isLoggedOut, logIn } from "./session.js";
import { choose, LANGUAGES, TEXTS } from "./words.js";

const at = (id) => document.getElementById(id);

export class Head {
  /** `loggedIn` is called once somebody has logged in on the page. */
  constructor(station, loggedIn) {
    this.station = station;
    this.loggedIn = loggedIn;
    this.isWanted = false; // whether a reader wants to log in as one who may send
    this.form = this.logInForm();
    at("log-in").replaceChildren(this.form);
  }

  /** Whether nobody is logged in: a reader may ask for reports, and that is refused too. */
  isLoggedOut() {
    return isLoggedOut(this.station.model.state.status);
  }

  /** The choice of a language, each by its own name. */
  languages() {
    const isOwn = !(TEXTS.lang in LANGUAGES);
    const names = { ...LANGUAGES, ...(isOwn ? { [TEXTS.lang]: TEXTS.lang } : {}) };
    const option = ([lang, name]) =>
      el("option", { value: lang, lang, ...(lang === TEXTS.lang ? { selected: true } : {}) }, name);
    const attributes = { id: "language", "aria-label": TEXTS.language };
    const change = ({ target }) => choose(target.value);
    return el("select", { ...attributes, on: { change } }, Object.entries(names).map(option));
  }

  logInForm() {
    const texts = TEXTS.logIn;
    const input = (name, more) =>
      el("input", { name, "aria-label": texts[name], placeholder: texts[name], ...more });
    const user = input("user", { autocomplete: "username" });
    const password = input("password", { type: "password", autocomplete: "current-password" });
    const wrong = el("span", { class: "wrong", role: "alert" });
    const submit = async (event) => {
      event.preventDefault();
      wrong.textContent = texts.asking;
      const may = await logIn(user.value, password.value);
      wrong.textContent = { wrong: texts.wrong, none: texts.none, reads: texts.reads }[may] ??
        "";
      password.value = "";
      if (may === "sends" || may === "reads") {
        this.isWanted = false;
        this.loggedIn();
      }
    };
    const go = el("button", { type: "submit" }, texts.go);
    return el("form", { on: { submit } }, el("b", null, texts.title), user, password, go, wrong);
  }

  /** Of which kind what is shown is, and its age in seconds. */
  age() {
    const { state, period } = this.station.model;
    const seconds =
      state.had === null ? null : Math.round((state.age + performance.now() - state.at) / 1000);
    if (this.isLoggedOut()) {
      return { kind: "loggedOut", seconds };
    }
    if (seconds === null) {
      return { kind: "none", seconds };
    }
    const isAsked = state.ok && !state.old;
    const isSlow = seconds * 1000 > 3 * period + 5000;
    return { kind: !isAsked ? "old" : isSlow ? "slow" : "fresh", seconds };
  }

  /** What this log-in may not do. */
  right() {
    const { maySend } = this.station;
    const texts = TEXTS.head;
    if (this.isLoggedOut() || maySend === true) {
      return [];
    }
    const text =
      el("span", { class: "read-only" }, maySend === null ? texts.rightUnknown : texts.readOnly);
    const want = () => {
      this.isWanted = true;
      this.update();
    };
    return [
      text,
      ...(maySend === false && !this.isWanted ? [button(texts.logIn, want)] : []),
    ];
  }

  update() {
    const { state } = this.station.model;
    const texts = TEXTS.head;
    const { kind, seconds } = this.age();
    const right = this.right();
    const time = state.had === null ? "" : clock.shown(state.had);
    at("log-in").hidden =
      !(this.isLoggedOut() || (this.isWanted && this.station.maySend === false));
    at("state").className = kind === "fresh" ? "fresh" : "old";
    put(at("state"), el("span", null, said(texts[kind], { seconds, time })), right);
    // what is read aloud changes where the state does, and not with each second
    put(
      at("news"),
      kind === "fresh" ? "" : texts.news[kind],
      ...right.map((it) => it.textContent),
    );
    const badge = this.station.badgeName ?? TEXTS.noBadge;
    put(at("who"), said(TEXTS.who, { station: this.station.name, badge }));
  }
}
