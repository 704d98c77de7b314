// TAKEN OFF: somebody says that a refused reel was taken off its slot, and that nothing was
// placed from it. Then its machine may go on, and no recall doubts pieces because of it. So it is
// asked once more.
import { isLoad, whereOf } from "./answers.js";
import * as desk from "./desk.js";
import { button, el } from "./dom.js";
import { said } from "./say.js";
import { TEXTS } from "./words.js";

const STATES = { had: "noted", badge: "badge", forbidden: "forbidden", none: "failed" };

export class TakenOff {
  /** `changed` is called when it looks another way. */
  constructor(station, changed) {
    Object.assign(this, { station, changed });
    this.states = new Map(); // of scans, by their UniqueID: "asked", "badge", "noted", ..
  }

  set(uid, state) {
    this.states.set(uid, state);
    this.changed();
  }

  async decide(scan) {
    this.set(scan.uid, await this.decided(scan));
  }

  /**
   * Decides about the entry of a scan: it is closed, and recalls doubt nothing because of it. A
   * scan without an entry stops no machine, and nothing is noted: so of a reel that is on that very
   * slot, and of one that was refused twice, and then loaded.
   */
  async decided({ uid, body }) {
    const { station } = this;
    if (station.badgeName === null) {
      return "badge";
    }
    try {
      await station.model.lookAtMachines();
      const entry = station.model.entryOf(body) ?? (await desk.entryOf(uid));
      return entry === null ? "nothing" : STATES[await station.decide(entry, "taken off")];
    } catch {
      return "failed";
    }
  }

  /** What a refusal offers, or nothing where it is of no reel on a slot. */
  parts(scan) {
    if (scan.answer?.Answer !== "Refused" || !isLoad(scan)) {
      return null;
    }
    const texts = TEXTS.verdict.off;
    const { uid } = scan;
    const state = this.states.get(uid) ?? "open";
    const line = (text) => el("p", { class: "todo" }, text);
    const ask = button(texts.button, () => this.set(uid, "asked"));
    const parts = {
      open: () => [ask],
      asked: () =>
        [line(said(texts.sure, { where: whereOf(scan) })),
         button(texts.yes, () => this.decide(scan)),
         button(texts.no, () => this.set(uid, "open")),
    ],
      badge: () => [line(texts.badge), ask],
      noted: () => [line(texts.noted)],
      nothing: () => [line(texts.nothing)],
      failed: () => [line(texts.failed), ask],
      forbidden: () => [line(texts.forbidden), ask],
    }[state]();
    return el("div", { class: `answers off ${state}` }, parts);
  }
}
