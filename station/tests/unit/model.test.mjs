import assert from "node:assert/strict";
import test from "node:test";
import { SETUP } from "./page.mjs";

const NOW = Date.parse("2026-03-02T06:01:10Z");
const KIT = `slot,part,needed,reel,pieces,minutes_left
1,CAP,2,F-1,500,unlimited
1,CAP,2,F-2,100,60
2,RES,1,,,
`;
const SLOTS = `slot,reel,part,remaining,minutes_left
1,K-1,CAP,40,600
1,K-3,CAP,500,30
9,K-9,LED,5,0
`;
const answers = { kit: KIT, slots: SLOTS };

/** Answers as the proxy does: a report of now; 503 without a text. */
globalThis.fetch = async (target) => {
  const headers = { "X-Station-Now": String(NOW / 1000), "X-Desk-Answered": String(NOW / 1000) };
  const path = new URL(target).pathname;
  const text = answers[path.split("/").at(-1)];
  return new Response(text, { headers, status: text ? 200 : 503 });
};

const clock = await import("../../clock.js");
const { Model, period } = await import("../../model.js");
clock.hear(new Headers({ "X-Station-Now": String(NOW / 1000) }));

async function model() {
  const made = new Model(SETUP, () => {});
  for (const line of made.lines) {
    await made.slots(line);
    await made.kit(line);
  }
  return made;
}

test("the reports of all stations use no more connections than the set-up allows", () => {
  assert.ok(period(2, 26_000) < 7);
  assert.equal(period(1, 1_000_000), 3);
  assert.equal(period(20, 100), 600);
});

test("a slot is shown with all that is wrong with it", async () => {
  const made = await model();
  const [first, second, off] = made.rows(made.line("M1"));
  assert.deepEqual(first.states, ["EXPIRES"]);
  assert.equal(first.boards, 270);
  assert.equal(first.worst.reel, "K-3");
  assert.deepEqual(second.states, ["EMPTY"]);
  assert.deepEqual(off.states, ["EXPIRED", "OFF"]);
});

test("the pace of a machine says when a slot's reels end", async () => {
  const made = await model();
  const line = made.line("M1");
  const before = line.slots.map((it) => ({ ...it, remaining: String(Number(it.remaining) + 400) }));
  line.looks = [{ at: NOW - 600_000, slots: before }, { at: NOW, slots: line.slots }];
  line.rows = null;
  const [first] = made.rows(line);
  assert.ok(first.minutes >= 6 && first.minutes <= 7, String(first.minutes));
  assert.deepEqual(made.ending().map(({ machine, slot }) => [machine, slot]), [["M1", "1"]]);
});

test("an answer to a scan counts until a later list of the slots", async () => {
  const made = await model();
  assert.equal(made.isLive("M1", "2"), false);
  const about = { part: "RES" };
  const body = { Machine: "M1", Slot: "2", Reel: "K-4" };
  made.heard({ word: "MaterialsLoaded", body, answer: { Answer: "Accepted" }, about });
  assert.equal(made.isLive("M1", "2"), true);
  made.line("M1").had = NOW + 60_000;
  assert.equal(made.isLive("M1", "2"), false);
});

test("free reels for a slot, the first to end first", async () => {
  const made = await model();
  const free = await made.freeFor("M1", "1");
  assert.deepEqual(free.reels.map((it) => it.reel), ["F-2", "F-1"]);
  assert.equal(free.part, "CAP");
});

test("what stops a machine names the reel to load, and its entry", async () => {
  const causes = [
    { Cause: "AtSlot", Slot: "1", Reel: "K-3", Refusal: "Expired" },
    { Cause: "Open", Entry: 7, Kind: "handling", Slot: "1", Reel: "K-9", Refusal: "WrongPart" },
  ];
  answers.state = JSON.stringify({ State: "stop", Board: null, Causes: causes });
  answers.undecided = "n,machine,told\n7,M1,x\n";
  const made = await model();
  await made.lookAtMachines();
  const [first] = made.machines.get("M1").causes;
  assert.equal(made.loadFor({ machine: "M1", ...first }).reel, "F-2");
  assert.equal(made.entryOf({ Machine: "M1", Slot: "1", Reel: "K-9" }), 7);
  assert.equal(made.entryOf({ Machine: "M1", Slot: "2", Reel: "K-9" }), null);
  assert.equal(made.entries[0].n, "7");
  answers.state = "";
  await made.lookAtMachines();
  assert.equal(made.machines.get("M1").state, "stop", "what was known last stays, with its age");
});
