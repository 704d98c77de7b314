// The answer to a scan, over the whole screen: what the desk said, in words, and what to do. Only
// what it accepted is green.
import { aboutOf, isLoad, refusalWord, whatOf, whereOf, wordsOf } from "./answers.js";
import * as clock from "./clock.js";
import { button, el, withoutScrollbars } from "./dom.js";
import { explained } from "./explain.js";
import { lifeText } from "./life.js";
import { said } from "./say.js";
import { play } from "./sound.js";
import { TEXTS } from "./words.js";

const GREEN_SECONDS = 25; // then the screen behind it is seen again; a refusal stays until seen
const UNMEANT = {
  refused: 1_000,
  other: 600,
}; // milliseconds: a touch so soon was for another screen
const BRIEF_SHOWN = 3; // refusals that are shown in a line each
const LEAST_SIZE = 30; // percent of the letters

const line = (mark, text) => el("p", { class: mark }, text);
const lineOrNot = (mark, text) => (text ? line(mark, text) : null);

export class Verdict {
  /**
   * `isSeen` is called with each refusal that somebody has seen, `keep` with what wasn't sent,
   * `changed` when another thing is shown. `takenOff` offers to say that a reel was taken off.
   */
  constructor(model, place, { isSeen, keep, changed, takenOff }) {
    Object.assign(this, { model, place, isSeen, keep, changed, takenOff });
    this.current = null; // what the operator did last: {scan}, {fault} or {question, yes}
    this.late = []; // accepted answers to earlier scans that no one has seen yet
    this.shown = []; // those of them that are shown
    this.refused = []; // refusals that no one has seen yet, the newest first
    this.more = new Map(); // what the desk's reports say of an answer, by the scan's UniqueID
    this.known = new Set(); // answers that were shown here: none is shown anew
    this.turn = 0; // how much that is new was shown
    this.shownAt = 0;
    this.timer = null;
    // what has the focus keeps it
    place.addEventListener(
      "mousedown",
      (event) => event.target.closest("input") ?? event.preventDefault(),
    );
    place.addEventListener("click", (event) => this.guard(event), true);
    place.addEventListener("click", ({ target }) => target.closest(".answers") ?? this.dismiss());
    new ResizeObserver(() => this.fit()).observe(place);
  }

  /** A touch so soon was for the screen before: nothing takes it. */
  guard(event) {
    const unmeant = this.kind() === "refused" ? UNMEANT.refused : UNMEANT.other;
    if (event.timeStamp - this.shownAt <= unmeant) {
      event.stopPropagation();
      event.preventDefault();
    }
  }

  /** The next scan comes: a green, a fault and a wait end, a refusal and a question stay. */
  pass() {
    if (!this.isAsking() && (this.current || this.late.length)) {
      this.end();
    }
  }

  end() {
    this.current = null;
    this.late = this.late.filter((it) => !this.shown.includes(it));
    this.show();
  }

  /** Somebody touched it or cancelled: what is in front goes. A question is answered by no. */
  dismiss() {
    if (this.current || !this.refused.length) {
      this.end();
    } else {
      this.see([this.refused[0]]);
    }
  }

  /** Refusals that somebody has seen go. */
  see(seen) {
    if (seen.length) {
      this.refused = this.refused.filter((it) => !seen.includes(it));
      seen.forEach((it) => this.isSeen(it));
      this.show();
    }
  }

  /**
   * At that moment somebody scanned the same slot, or the same reel where there is no slot, and
   * knew what was refused until then.
   */
  seeAll(body, moment = performance.now()) {
    this.see(
      this.refused.filter((it) => it.since < moment && aboutOf(it.body) === aboutOf(body)),
    );
  }

  /** Shows what is new. */
  tell(current) {
    this.current = current;
    this.turn += 1;
    this.show();
  }

  asked(scan) {
    this.tell({ scan });
  }

  /** A scan that the page can't take. */
  fault(text) {
    this.tell({ fault: text });
    play("refused");
  }

  /** A message that was wanted and not sent: it stays as a refusal does. */
  notSent(word, body, text) {
    const told = {
      uid: crypto.randomUUID(),
      word,
      body,
      at: clock.now(),
      answer: { Answer: "NotSent", text },
    };
    this.keep(told);
    this.known.add(told.uid);
    this.refused.unshift({ ...told, since: performance.now() });
    this.tell(null);
    play("refused");
  }

  /** The desk just said that a reel is on its slot: nothing was sent. */
  verified(row) {
    this.tell({ verified: row });
    play("accepted");
  }

  /** Asks back; `yes` is done where somebody says so. */
  ask(question, yes) {
    this.tell({ question, yes });
    play("refused");
  }

  isAsking() {
    return Boolean(this.current?.question);
  }

  /** An answer to the question that is shown: ENTER or CANCEL. Nothing else is taken before. */
  answer(action) {
    const { yes } = this.current;
    if (action !== "ENTER" && action !== "CANCEL") {
      play("refused");
      return null;
    }
    this.current = null;
    this.show();
    return action === "ENTER" ? yes() : null;
  }

  /**
   * Takes an answer; `isLate` is one of a scan before the last one, or of before the page was
   * loaded.
   */
  answered(scan, isLate) {
    const { kind } = wordsOf(scan);
    const told = { ...scan, isLate, since: performance.now() };
    this.known.add(scan.uid);
    if (kind === "refused") {
      this.refused.unshift(told);
    } else if (isLate) {
      this.late.push(told);
    }
    this.tell(isLate ? this.current : kind === "refused" ? null : { scan: told });
    if (kind === "refused" || this.current?.scan?.answer || !this.current) {
      play(kind);
    }
  }

  /** Of which kind the screen is. */
  kind() {
    const { scan, question, fault, verified } = this.current ?? {};
    if (question || fault) {
      return question ? "ask" : "fault";
    }
    if (verified) {
      return "accepted";
    }
    if (scan) {
      return scan.answer ? "accepted" : "asked";
    }
    return this.refused.length ? "refused" : "accepted";
  }

  /** What is in front, in full. */
  front() {
    const { scan, question, fault, verified } = this.current ?? {};
    const texts = TEXTS.verdict;
    if (verified) {
      return [this.there(verified)];
    }
    switch (this.kind()) {
      case "ask": return this.question(question);
      case "fault": return [line("word", texts.faulty), el("h2", null, fault)];
      case "asked":
        return [
          line("word", texts.asked),
          el("h2", null, whatOf(scan)),
          line("todo", isLoad(scan) ? texts.askedLoad : ""),
          line("todo", texts.askedWhat),
        ];
      default: {
        const shown = scan ?? this.refused[0];
        return shown ? [this.one(shown)] : [];
      }
    }
  }

  question(text) {
    const texts = TEXTS.verdict;
    const yes = button(texts.yes, () => this.answer("ENTER"));
    const no = button(texts.no, () => this.answer("CANCEL"));
    return [
      line("word", texts.question),
      el("h2", null, text),
      el("p", { class: "answers" }, yes, no),
    ];
  }

  /** The refusals that aren't in front, a line each. */
  brief() {
    const texts = TEXTS.verdict;
    const brief = this.current ? this.refused : this.refused.slice(1);
    const count = brief.slice(BRIEF_SHOWN).length;
    const text = (it) => `\u2717 ${refusalWord(it.answer)}: ${whereOf(it)}: ${wordsOf(it).title}`;
    const of = (it) => el("p", { class: "brief", data: { scan: it.uid } }, text(it));
    return [
      ...brief.slice(0, BRIEF_SHOWN).map(of),
      ...(count ? [line("brief", said(texts.moreRefused, { count }))] : []),
    ];
  }

  /** Shows what is in front in full, and below it what else nobody has seen. */
  show() {
    const { current, place } = this;
    const texts = TEXTS.verdict;
    const kind = this.kind();
    this.shown = current && !current.scan?.answer ? [] : this.late;
    const parts = [...this.front(), ...this.shown.map((it) => this.one(it)), ...this.brief()];
    const text = kind === "refused" ? texts.seen : texts.close;
    const close = button(text, () => {}, { class: "close" });
    clearTimeout(this.timer);
    if (kind === "accepted" && !this.shown.length && parts.length) {
      this.timer = setTimeout(() => this.pass(), GREEN_SECONDS * 1000);
    }
    this.shownAt = performance.now();
    place.dataset.turn = this.turn;
    place.hidden = parts.length === 0;
    place.className = parts.length ? kind : "";
    place.replaceChildren(...parts, ...(parts.length && kind !== "ask" ? [close] : []));
    this.fit();
    this.more.forEach((_, uid) => this.isShown(uid) || this.more.delete(uid));
    this.changed();
    this.explain(current ? current.scan : this.refused[0]);
  }

  wasShown(uid) {
    return this.known.has(uid);
  }

  isShown(uid) {
    return [this.current?.scan, ...this.late, ...this.refused].some((it) => it?.uid === uid);
  }

  /** Makes all letters smaller until all of it is on the screen. */
  fit() {
    const { place } = this;
    withoutScrollbars(place, () => {
      for (let size = 100; size >= LEAST_SIZE; size -= 5) {
        place.style.setProperty("--size", size / 100);
        if (place.scrollHeight <= place.clientHeight) {
          break;
        }
      }
    });
  }

  one(scan) {
    const { kind, title } = wordsOf(scan);
    const isGreen = kind === "accepted";
    const word =
      isGreen ? said(TEXTS.verdict.accepted, { done: title }) : refusalWord(scan.answer);
    const sign = el("span", { class: "sign" }, isGreen ? "\u2713 " : "\u2717 ");
    const late = scan.isLate ? said(TEXTS.verdict.again, { time: clock.shown(scan.at) }) : "";
    const more = el("div", { class: "more" }, this.more.get(scan.uid));
    return el(
      "div",
      { class: `one ${kind}`, data: { scan: scan.uid } },
      lineOrNot("late", late),
      el("p", { class: "word" }, sign, word),
      isGreen ? this.green(scan, more) : this.red(scan, title, more),
    );
  }

  /** A reel that is on its slot. */
  there(row) {
    const texts = TEXTS.verdict;
    const values = { ...row, left: Number(row.remaining) };
    return el(
      "div",
      { class: "one verified" },
      el("p", { class: "word" }, el("span", { class: "sign" }, "\u2713 "), texts.verified),
      line("where", said(texts.where.both, values)),
      line("facts", said(texts.verifiedFacts, values)),
    );
  }

  green(scan, more) {
    const { answer } = scan;
    const texts = TEXTS.verdict;
    const life = "MinutesLeft" in answer
      ? said(texts.minutes, { life: lifeText(answer.MinutesLeft) })
      : "Taken" in answer ? said(texts.taken, { taken: Number(answer.Taken) })
                          : "";
    const number =
      said(answer.Archived ? texts.archived : texts.number, { number: String(answer.Number) });
    const facts = line("facts", `${whatOf(scan)} \u00b7 ${number}`);
    return [line("where", whereOf(scan)), lineOrNot("life", life), more, facts];
  }

  red(scan, title, more) {
    return [
      el("h2", null, title),
      lineOrNot("todo", this.todoOf(scan)),
      this.takenOff.parts(scan),
      line("where", whereOf(scan)),
      more,
      line("facts", whatOf(scan)),
    ];
  }

  /** What to do: of a reel that is on a slot the page says where. */
  todoOf(scan) {
    const { answer } = scan;
    const place = answer.Refusal === "ReelMounted" ? this.model.place(answer.At) : null;
    return place ? said(TEXTS.verdict.isOn, { reel: answer.At, ...place }) : wordsOf(scan).todo;
  }

  /** Puts to an answer what the desk's reports say of it, once. */
  async explain(scan) {
    if (!scan?.answer || this.more.has(scan.uid)) {
      return;
    }
    this.more.set(scan.uid, []);
    const more = await explained(scan, this.model);
    if (this.isShown(scan.uid)) {
      this.more.set(scan.uid, more);
      this.redraw(scan.uid);
    }
  }

  /** Draws a scan anew where it is shown. */
  redraw(uid) {
    const scan =
      [this.current?.scan, ...this.late, ...this.refused].find((it) => it?.uid === uid);
    const ones = [...this.place.querySelectorAll(".one")];
    ones.find((it) => it.dataset.scan === uid)?.replaceWith(this.one(scan));
    this.fit();
  }

  /** Draws anew what is said of reels that were taken off. */
  redrawOff() {
    const [scan] = this.current ? [] : this.refused;
    const was = this.place.querySelector(".off");
    const now = scan ? this.takenOff.parts(scan) : null;
    if (was && now && !was.isEqualNode(now) && !was.contains(document.activeElement)) {
      was.replaceWith(now);
      this.fit();
    }
  }
}
