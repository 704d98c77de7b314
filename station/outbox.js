// Scans go out one at a time, in their order, until each has the desk's answer. A scan is on disk
// with its UniqueID before it is sent, and is sent again with the same bytes: so it acts once,
// over a reload, a crash and a day without network.
import * as clock from "./clock.js";
import * as desk from "./desk.js";
import * as store from "./store.js";

const FIRST_PAUSE = 250;
const LONGEST_PAUSE = 5000; // milliseconds
const ANSWERED_BETWEEN_TIDYINGS = 50;
const TAB = crypto.randomUUID();
const BEFORE = sessionStorage.getItem(
  "page",
); // while this page is there it holds a lock of this name; the one before it was loaded is gone
sessionStorage.setItem("page", TAB);

/** Whether the page that made a scan is still there. */
async function isThere(tab) {
  const { held } = await navigator.locks.query();
  return held.some((it) => it.name === `tracedesk-tab ${tab}`);
}

/**
 * Asks whether the desk's archive has this very message. Only after IdReused: any other desk
 * would take it as a ClockSet.
 */
function question(text) {
  return JSON.stringify(
    { ...JSON.parse(text), MessageName: "TraceDesk.ClockSet", MessageBody: {} },
  );
}

export class Outbox {
  /** `tell` is called with what changed: {answered: scan}, or {waiting: scans, problem}. */
  constructor(tell) {
    this.tell = tell;
    this.channel = new BroadcastChannel("tracedesk-outbox");
    this.channel.onmessage = ({ data }) => this.hear(data);
    this.woken = false;
    this.resume = () => {};
    this.answered = 0;
    this.waiting = [];
    this.problem = null;
  }

  /** Begins to send; of several tabs one sends for all. */
  begin() {
    navigator.locks.request(`tracedesk-tab ${TAB}`, () => new Promise(() => {}));
    navigator.locks.request("tracedesk-sender", () => this.sendAll());
    return this.count();
  }

  /** Whether an answer is for this page to show: its own scan's, or one's whose page is gone. */
  async isOurs(scan) {
    return scan.tab === TAB || scan.tab === BEFORE || !(await isThere(scan.tab));
  }

  /** Keeps a message that was wanted and not sent, until somebody has seen that. */
  keepNotSent(scan) {
    return store.keep({ ...scan, tab: TAB }, "notSent");
  }

  async hear(data) {
    if (data.kept) {
      this.wake();
    }
    if (data.answered) {
      const scan = await store.byUid(data.answered).catch(() => null);
      if (scan) {
        this.tell({ answered: scan });
      }
    }
    this.count();
  }

  async count() {
    this.waiting = await store.waiting().catch(() => this.waiting);
    this.tell({ waiting: this.waiting, problem: this.problem });
  }

  /** Makes a scan of a message and keeps it; it is sent once it is on disk. */
  async add(word, body, source, about) {
    const at = clock.now();
    const uid = crypto.randomUUID();
    const text = JSON.stringify({
      MessageName: `TraceDesk.${word}`,
      UniqueID: uid,
      Source: source,
      TimeStamp: clock.stamp(at),
      MessageBody: body,
    });
    const scan = { uid, word, body, source, text, at, about, tab: TAB };
    scan.seq = await store.keep(scan);
    this.channel.postMessage({ kept: uid });
    this.wake();
    await this.count();
    return scan;
  }

  /**
   * Sends for good. Where the tablet's disk fails it begins anew: a message that was answered
   * already has the same answer again.
   */
  async sendAll() {
    for (;;) {
      try {
        const [next] = await store.waiting();
        await (next ? this.send(next) : this.pause(60_000));
      } catch (fault) {
        this.problem = { disk: fault.message };
        this.count();
        await this.pause(LONGEST_PAUSE);
      }
    }
  }

  /** Ends the pause, or the next one where there is none now. */
  wake() {
    this.woken = true;
    this.resume();
  }

  async pause(milliseconds) {
    if (!this.woken) {
      await new Promise((resolve) => {
        const timer = setTimeout(resolve, milliseconds);
        this.resume = () => {
          clearTimeout(timer);
          resolve();
        };
      });
    }
    this.woken = false;
  }

  async send(scan) {
    let { answer, status } = await this.asked(scan.text, scan.uid);
    if (answer.Refusal === "IdReused") { // the desk was begun anew, and its archive may have
                                          // this scan
      const known = await this.asked(question(scan.text), scan.uid);
      if (known.answer.Answer === "Accepted") {
        answer = { ...known.answer, Archived: true };
        status = known.status;
      }
    }
    await store.settle(scan, answer, status);
    this.problem = null;
    this.channel.postMessage({ answered: scan.uid });
    this.tell({ answered: { ...scan, state: "answered", answer, status } });
    this.count();
    this.answered += 1;
    if (this.answered % ANSWERED_BETWEEN_TIDYINGS === 0) {
      await store.tidy();
    }
  }

  /** Sends the same bytes until they are answered. */
  async asked(text, uid) {
    for (let pause = FIRST_PAUSE;; pause = Math.min(2 * pause, LONGEST_PAUSE)) {
      const told = await desk.post(text, uid);
      if (told.answer) {
        return told;
      }
      this.problem = told;
      this.count();
      await this.pause(Math.max(told.again ? pause : LONGEST_PAUSE, told.wait * 1000));
    }
  }
}
