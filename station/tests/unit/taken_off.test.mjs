import assert from "node:assert/strict";
import test from "node:test";
import "./page.mjs";

/** An element: its texts, and what a touch of it does. */
class Element {
  dataset = {};
  children = [];
  acts = {};

  setAttribute() {}

  addEventListener(event, act) {
    this.acts[event] = act;
  }

  append(...children) {
    this.children.push(...children);
  }
}
globalThis.Node = Element;
document.createElement = () => new Element();

const { TakenOff } = await import("../../taken_off.js");

const SCAN = {
  uid: "u-1",
  word: "MaterialsLoaded",
  body: { Machine: "M1", Slot: "1", Reel: "K-1" },
  answer: { Answer: "Refused", Refusal: "SlotTaken" },
};
const TOUCH = { timeStamp: 1_000 };
const textOf = (it) => (it instanceof Element ? it.children.map(textOf).join(" ") : it);

/** What is shown once somebody said YES; the line's book has these rows, or doesn't answer. */
async function said(rows, more = {}) {
  const decided = [];
  globalThis.fetch = async (target) => {
    if (rows === null) {
      throw new Error("no answer");
    }
    const isBook = target.includes("/line/book");
    const text = isBook ? `n,uid\n${rows}` : JSON.stringify({ Entries: 9 });
    return { status: 200, headers: new Headers(), text: async () => text };
  };
  const station = {
    badgeName: "anna",
    model: { lookAtMachines: async () => {}, entryOf: () => null, ...more.model },
    decide: async (entry) => decided.push(entry) && (more.came ?? "had"),
    ...more.station,
  };
  const off = new TakenOff(station, () => {});
  const [ask] = off.parts(SCAN).children;
  ask.acts.click(TOUCH);
  const [, yes] = off.parts(SCAN).children;
  await yes.acts.click(TOUCH);
  return { decided, text: textOf(off.parts(SCAN)) };
}

test("a refused reel is noted as taken off where the line has an entry of it", async () => {
  const open = { model: { entryOf: () => 7 } };
  for (const [rows, more, entry] of [["3,u-0\n4,u-1\n", {}, 4], ["", open, 7]]) {
    const { decided, text } = await said(rows, more);
    assert.deepEqual(decided, [entry]);
    assert.match(text, /^Noted: the reel was taken off/);
  }
});

test("where it has none nothing is noted, and that is said", async () => {
  const { decided, text } = await said("3,u-0\n");
  assert.deepEqual(decided, []);
  assert.match(text, /^Nothing to note: nothing was open/);
});

test("without a badge, a right or an answer it is not noted", async () => {
  for (const [rows, more, wanted] of [
    ["4,u-1\n", { station: { badgeName: null } }, /^NOT noted: scan your badge/],
    ["4,u-1\n", { came: "forbidden" }, /^NOT noted: the log-in/],
    ["4,u-1\n", { came: "none" }, /^NOT noted: no answer/],
    [null, {}, /^NOT noted: no answer/],
  ]) {
    assert.match((await said(rows, more)).text, wanted);
  }
});
