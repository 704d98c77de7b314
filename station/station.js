// The page at the line: its screens, its scanner, and what goes on whatever screen is shown.
import { whatOf } from "./answers.js";
import { isQuiet } from "./cart.js";
import { ChangeoverScreen } from "./changeover.js";
import * as clock from "./clock.js";
import * as desk from "./desk.js";
import { button, el, put } from "./dom.js";
import { Head } from "./head.js";
import { ScanScreen } from "./history.js";
import { Keys } from "./keys.js";
import { dayAnd } from "./known.js";
import { LineScreen } from "./line.js";
import { MachineLines } from "./machine_lines.js";
import { Model } from "./model.js";
import { Outbox } from "./outbox.js";
import { ReceiveScreen } from "./receive.js";
import { said } from "./say.js";
import { bodyOf, Scan, WORDS } from "./scan.js";
import { isLoggedOut } from "./session.js";
import { play } from "./sound.js";
import * as store from "./store.js";
import { TakenOff } from "./taken_off.js";
import { TraceScreen } from "./trace.js";
import { Verdict } from "./verdict.js";
import { TEXTS } from "./words.js";
import { keepLarge } from "./zoom.js";

const SCREENS = {
  line: LineScreen,
  scan: ScanScreen,
  receive: ReceiveScreen,
  changeover: ChangeoverScreen,
  trace: TraceScreen,
};
const JUMP = 3_600_000; // milliseconds that the server's clock may move without a question
const SOON = 3; // seconds that a scan waits for the server's time
const ANEW = 5; // seconds: so often refusals are looked for that no page shows
const RIGHT_ANEW =
  30; // seconds: so often it is asked whether a log-in that may not send now may
const TAKES = [WORDS.SCRAP, WORDS.COUNT]; // a second one does another thing than the first
const LOADS = [WORDS.LOAD, WORDS.SPLICE]; // the same two codes, by what is on the slot
const MINUTE = 60_000;
const TOGETHER = 100; // milliseconds: reports that come within them are drawn once
const UNDER = 2_000; // milliseconds that a screen under a verdict is drawn later
const at = (id) => document.getElementById(id);

/** What a message is about: its slot, its reel, and of a selection its machine. */
function aboutOf({ Machine, Slot, Reel, Counts, Product }) {
  const reel = Reel ?? Counts?.[0].Reel;
  return [
    Slot && `slot ${Machine} ${Slot}`,
    reel && `reel ${reel}`,
    Product && `machine ${Machine}`,
  ].filter(Boolean);
}

export class Station {
  constructor(read, name) {
    this.setup = read;
    this.name = name;
    this.maySend = null; // null where nothing said so yet
    this.wasOut = false; // whether nobody was logged in a second ago
    this.badge = { name: null, at: 0 }; // and when it was used last, by the tablet's own clock
    this.ahead = 0; // how far the server's clock was ahead of the tablet's when somebody knew
    this.seconds = 0;
    this.waiting = [];
    this.drawing = null; // the timer that draws a screen anew
    this.since = null; // when that was wanted first
    this.problem = null;
    this.mine = new Set(); // scans of this page without an answer
    this.called = new Set(); // slots whose end somebody was called for
    this.model = new Model(read, () => this.changed());
    this.outbox = new Outbox((told) => this.told(told));
    this.takenOff = new TakenOff(this, () => this.verdict.redrawOff());
    this.verdict = new Verdict(this.model, at("verdict"), {
      isSeen: (scan) => store.see(scan.uid).catch(() => {}),
      keep: (scan) => this.outbox.keepNotSent(scan).catch(() => {}),
      changed: () => this.scanned(),
      takenOff: this.takenOff,
    });
    this.machines = new MachineLines(this.model, at("machines"));
    this.head = new Head(this, () => this.loggedIn());
    this.scan = new Scan(this);
    const screens = Object.entries(SCREENS).map(([screen, Kind]) => [screen, new Kind(this)]);
    this.screens = Object.fromEntries(screens);
  }

  async begin() {
    const [badge, ahead] = await Promise.all(["badge", "ahead"].map(store.note));
    this.badge = badge?.name ? badge : this.badge;
    this.ahead = ahead ?? 0;
    await this.askMaySend(SOON);
    at("title").textContent = this.setup.title;
    document.title = `${this.setup.title}: ${TEXTS.title}`;
    at("scan-label").textContent = TEXTS.strip.label;
    at("scan-form").addEventListener("submit", (event) => {
      event.preventDefault();
      this.scan.take(this.keys.scanned());
    });
    this.keys = new Keys(this, at("scan"));
    keepLarge(at("main"));
    window.addEventListener("hashchange", () => this.go(location.hash.slice(1)));
    setInterval(() => this.tick(), 1000);
    this.go(location.hash.slice(1));
    await this.showUnseen();
    this.outbox.begin();
    this.model.begin();
    const scanned = sessionStorage.getItem("scanned"); // on the page of codes
    sessionStorage.removeItem("scanned");
    this.scan.take(scanned ?? "");
  }

  get badgeName() {
    return this.badge.name;
  }

  async askMaySend(seconds) {
    this.maySend = (await desk.maySend(seconds)) ?? this.maySend;
    this.head.update();
  }

  /** Somebody logged in on the page: what waited for that goes on. */
  async loggedIn() {
    await this.askMaySend(SOON);
    this.outbox.wake();
    await this.model.all();
    at("scan").focus();
  }

  /** Shows each refusal that nobody has seen and that no other page shows. */
  async showUnseen() {
    for (const scan of (await store.unseen()).reverse()) {
      const isNew = !this.verdict.wasShown(scan.uid) && (await this.outbox.isOurs(scan));
      if (isNew && !this.mine.has(scan.uid)) {
        this.verdict.answered(scan, scan.state !== "notSent");
      }
    }
  }

  /**
   * What goes by the clock: what is held and a badge end, and what isn't known yet is asked
   * again.
   */
  tick() {
    this.seconds += 1;
    this.keys.tidy();
    this.scan.forget();
    const unused = Math.abs(Date.now() - this.badge.at);
    if (this.badgeName !== null && unused > this.setup.badgeMinutes * MINUTE) {
      this.setBadge(null);
      this.scanned();
    }
    if (this.seconds % ANEW === 0) {
      this.showUnseen().catch(() => {});
    }
    const isOut = this.head.isLoggedOut();
    const isDue = this.seconds % (this.maySend === null ? ANEW : RIGHT_ANEW) === 0;
    if (this.maySend !== true && (isDue || (this.wasOut && !isOut))) {
      this.askMaySend();
    }
    this.wasOut = isOut;
    this.machines.update();
    this.head.update();
  }

  /** Whether something lies over the page, so that what has the focus isn't seen. */
  isCovered() {
    return !at("verdict").hidden;
  }

  cancel() {
    at("scan").value = "";
    this.scan.clear();
    this.verdict.dismiss();
    this.scanned();
    at("scan").focus();
  }

  isScreen(action) {
    return action.toLowerCase() in SCREENS;
  }

  /** Gives an action code to the screen that is shown; false where it has no use for it. */
  coded(action) {
    return this.screens[this.screen].coded?.(action) ?? false;
  }

  go(name) {
    this.screen = name in SCREENS ? name : "line";
    if (location.hash.slice(1) !== this.screen) {
      history.replaceState(null, "", `#${this.screen}`);
    }
    const names = Object.keys(SCREENS);
    at("screens").replaceChildren(
      ...names.map((it) => button(TEXTS.screens[it], () => this.go(it), {
                     "aria-current": it === this.screen ? "page" : "false",
                   })),
      el("a", { href: "codes.html" }, TEXTS.codes),
      this.head.languages(),
    );
    at("main").className = this.screen;
    at("main").replaceChildren(...this.screens[this.screen].parts());
    this.screens[this.screen].update?.();
    this.changed();
    at("scan").focus();
  }

  /**
   * What the desk's reports say has changed. Reports that come together are drawn once, and
   * under a verdict a little later: a scan is answered first.
   */
  changed() {
    this.head.update();
    this.machines.update();
    this.scanned();
    this.since ??= performance.now();
    this.drawing ??= setTimeout(() => this.draw(), TOGETHER);
  }

  draw() {
    const isEarly = this.isCovered() && performance.now() - this.since < UNDER;
    this.drawing = isEarly ? setTimeout(() => this.draw(), 2 * TOGETHER) : null;
    if (!isEarly) {
      this.since = null;
      this.ending();
      this.screens[this.screen].update?.();
    }
  }

  /** Says which slot's reels end soon, with a tone once for each. */
  ending() {
    const ending = this.model.ending();
    const names = ending.map(({ machine, slot }) => `${machine} ${slot}`);
    const texts = TEXTS.line;
    put(
      at("ending"),
      ending.length ? said(texts.splice, ending[0]) : "",
      ending.length > 1 ? ` ${said(texts.spliceMore, { count: ending.length - 1 })}` : "",
    );
    if (names.some((it) => !this.called.has(it))) {
      play("splice");
    }
    this.called = new Set(names);
  }


  /** What is held, and how many scans wait. */
  scanned() {
    const [what, ...rest] = this.scan.held();
    put(at("held"), el("b", null, what), ...rest.map((it) => el("span", null, it)));
    at("strip").className = this.scan.asking ? "number" : "";
    const count = this.waiting.length;
    const { strip } = TEXTS;
    const { problem } = this;
    let text = count ? said(strip.waiting, { count }) : "";
    if (problem?.disk) {
      text = said(strip.disk, { fault: problem.disk });
    } else if (count && problem && isLoggedOut(problem.status)) {
      text = said(strip.loggedOut, { count });
    } else if (count && problem && !problem.again) {
      text = said(strip.stuck, { status: String(problem.status), count });
    }
    put(at("waiting"), text, count && store.isKept() === false ? ` · ${strip.unsafe}` : "");
    this.screens[this.screen].held?.();
  }

  setBadge(name) {
    this.badge = { name, at: Date.now() };
    store.setNote("badge", this.badge).catch(() => {});
    if (name !== null) {
      play("waiting");
    }
    this.head.update();
  }

  label(text) {
    this.go("receive");
    this.screens.receive.read(text);
  }

  fault(text) {
    this.verdict.fault(text);
  }

  /** Who sends: the station and the badge, in the range of names. */
  source() {
    return (this.badgeName === null ? this.name : `${this.name} ${this.badgeName}`)
      .slice(0, 64)
      .trim();
  }

  /**
   * Somebody with a badge decides about an entry of the line's book: its machine may go on. Returns
   * what came of it, as `desk.decide` does, or "badge".
   */
  async decide(entry, became) {
    if (this.badgeName === null) {
      this.fault(TEXTS.fault.badge);
      return "badge";
    }
    const told = { Of: entry, Became: became, By: this.source(), Reason: "said at the station" };
    const found = await desk.decide(told);
    await this.model.lookAtMachines();
    return found;
  }

  /** Whether a slot and a reel go into the list that is scanned, and are no load. */
  listed(values) {
    const { cart } = this.screens.changeover;
    return cart.isScanned() && cart.add(values);
  }

  /** An action, with its values. */
  act(action, values) {
    return this.send(WORDS[action], bodyOf(action, values), values);
  }

  /** Why nothing can be sent now, or nothing. */
  whyNot() {
    const { fault } = TEXTS;
    const isBadgeWanted = this.setup.badgeWanted && this.badgeName === null;
    const reasons = [
      [this.head.isLoggedOut(), fault.loggedOut],
      [this.maySend === false, fault.readOnly],
      [this.maySend === null, fault.rightUnknown],
      [clock.now() === null, fault.noTime],
      [isBadgeWanted, fault.badge],
    ];
    return reasons.find(([holds]) => holds)?.[1];
  }

  /** Whether the last scan without an answer about the same slot or reel is this very one. */
  isAsked(word, body) {
    const about = aboutOf(body);
    const last =
      this.waiting.findLast((it) => aboutOf(it.body).some((what) => about.includes(what)));
    const isSame = last?.word === word || (LOADS.includes(last?.word) && LOADS.includes(word));
    return isSame && JSON.stringify(last.body) === JSON.stringify(body);
  }

  /**
   * Keeps a message and has it sent; its answer comes to `told`. False where it isn't kept.
   * `isMeant` is one that was asked for a second time.
   */
  async send(word, body, values, isMeant = false) {
    this.verdict.pass();
    if (this.maySend === null || clock.now() === null) {
      await this.askMaySend(SOON);
    }
    const why = this.whyNot();
    const ahead = clock.ahead();
    if (why) {
      this.verdict.notSent(word, body, why);
      return false;
    }
    if (!isMeant && this.isAsked(word, body)) {
      const what = whatOf({ word, body });
      if (TAKES.includes(word)) {
        this.verdict.ask(
          said(TEXTS.ask.again, { what }),
          () => this.send(word, body, values, true),
        );
      } else {
        this.fault(said(TEXTS.fault.kept, { what }));
      }
      return false;
    }
    if (Math.abs(ahead - this.ahead) > JUMP) {
      this.verdict.ask(
        said(TEXTS.ask.time, { server: dayAnd(clock.now()), tablet: dayAnd(Date.now()) }),
        () => {
          this.setAhead(clock.ahead());
          return this.send(word, body, values, isMeant);
        },
      );
      return false;
    }
    try {
      const isCart = Boolean(values.isCart); // then it is one of many, which are counted
      const about = { ...this.model.wanted(values), isCart };
      const scan = await this.outbox.add(word, body, this.source(), about);
      this.mine.add(scan.uid);
      if (!isCart) {
        this.verdict.asked(scan);
        play("waiting");
      }
      this.used(ahead);
      return true;
    } catch (fault) {
      this.verdict.notSent(word, body, said(TEXTS.fault.notKept, { fault: fault.message }));
      return false;
    }
  }

  setAhead(ahead) {
    this.ahead = ahead;
    store.setNote("ahead", ahead).catch(() => {});
  }

  /**
   * A message was made: the badge is used, and where the clocks go apart little by little nobody
   * is asked.
   */
  used(ahead) {
    if (Math.abs(ahead - this.ahead) > MINUTE) {
      this.setAhead(ahead);
    }
    if (this.badgeName !== null && Date.now() - this.badge.at > MINUTE) {
      this.badge.at = Date.now();
      store.setNote("badge", this.badge).catch(() => {});
    }
  }

  /** What the outbox tells: scans that wait, and an answer. */
  async told({ waiting, problem, answered }) {
    if (waiting) {
      this.waiting = waiting;
      this.problem = problem;
      if (isLoggedOut(problem?.status) && this.maySend === true) {
        this.askMaySend();
      }
      this.changed();
    }
    if (answered) {
      desk.heardAnswer();
      const isMine = this.mine.delete(answered.uid);
      const isOurs = isMine || (await this.outbox.isOurs(answered));
      if (isOurs && !isQuiet(answered) && !this.verdict.wasShown(answered.uid)) {
        this.verdict.answered(
          answered,
          !isMine ||
            (this.verdict.current !== null && this.verdict.current.scan?.uid !== answered.uid),
        );
      }
      this.model.heard(answered);
      this.screens.receive.answered(answered);
      this.screens.changeover.cart.answered(answered);
      this.screens.scan.refresh();
      if (answered.answer.Answer === "Accepted") {
        await this.accepted(answered);
      }
    }
  }

  async accepted({ word, body, answer, at: time }) {
    const last = (await store.note("lastNumber")) ?? { number: 0 };
    if (answer.Number > last.number) {
      await store.setNote("lastNumber", { number: answer.Number, at: time });
    }
    if (word === WORDS.SELECT) {
      await this.model.select(body.Machine, body.Product, answer.Number, time);
    } else if (word === WORDS.CLOCK) {
      await this.model.all();
    } else if (body.Machine) {
      await this.model.refresh(body.Machine);
    }
  }
}
