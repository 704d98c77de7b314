import assert from "node:assert/strict";
import test from "node:test";
import "./page.mjs";

const clock = await import("../../clock.js");
const { stateOf } = await import("../../machines.js");
const { closingText, lineOf, linesOf } = await import("../../machine_lines.js");

const NOW = Date.parse("2026-03-02T06:01:10Z");
clock.hear(new Headers({ "X-Station-Now": String(NOW / 1000) }));
const of = (...causes) => stateOf(
  "M1",
  { State: causes.length ? "stop" : "go", Board: "SN-2041", Causes: causes },
  NOW - 4_000,
);
const LOAD = { part: "CAP", reel: "K-22" };
const text = (it, load = { part: null, reel: null }, now = NOW) => lineOf(it, () => load, now).text;
const open = (more) => ({ Cause: "Open", Entry: 12, Kind: "handling", Slot: "2", Reel: "K-20",
  Refusal: "WrongPart", ...more });

test("a machine that has go names its board", () => {
  assert.equal(text(of()), "M1 runs SN-2041");
});

test("a machine that is stopped says why, and what to do", () => {
  const it = of({ Cause: "AtSlot", Slot: "3", Reel: "R-OLD", Refusal: "Expired" });
  const wanted = "M1 STOPPED: slot 3, R-OLD expired: unload it, load F-3";
  assert.equal(text(it, { part: "CAP", reel: "F-3" }), wanted);
  assert.match(text(it, { part: "CAP", reel: null }), /load a reel of CAP$/);
});

test("after a refused splice the reels on the slot go on", () => {
  const head = "M1 STOPPED: slot 2: WRONG PART: K-20. Take K-20 off";
  const wanted = `${head}. SPLICE K-22, or UNLOAD and LOAD what is on it`;
  assert.match(text(of(open()), LOAD), /Take K-20 off, load K-22$/);
  assert.equal(text(of(open()), { ...LOAD, isSplice: true }).split(". SPLICE")[1],
    wanted.split(". SPLICE")[1]);
});

test("a slot that stops its machine has the scan by which it goes on", () => {
  const closing = (cause, isSplice) => closingText({ cause }, { ...LOAD, isSplice });
  assert.equal(closing("empty", false), "STOPS: LOAD K-22");
  assert.equal(closing("slot", false), "STOPS: LOAD K-22");
  assert.equal(closing("slot", true), "STOPS: SPLICE K-22");
  for (const cause of ["expired", "unbaked", "wrong", "held"]) {
    assert.equal(closing(cause, true), "STOPS: UNLOAD, LOAD K-22");
  }
  assert.equal(closing("differs", true), "STOPS: UNLOAD, LOAD what is on it");
});

test("each cause has words", () => {
  const slot = { Slot: "3", Reel: "K-1" };
  const causes = [
    { Cause: "NoWork" },
    { Cause: "NoSheet" },
    { Cause: "Held", Entry: 9, ...slot },
    ...["handling", "stray", "work", "differs"].map((Kind) => open({ Kind })),
    open({ Kind: "work", Slot: null, Reel: null }),
    ...["SlotEmpty", "WrongPart", "NotBaked", "Expired"].map(
      (Refusal) => ({ Cause: "AtSlot", ...slot, Refusal }),
    ),
  ];
  for (const it of causes) {
    assert.match(text(of(it)), /^M1 STOPPED: .*[a-z]/);
    assert.doesNotMatch(text(of(it)), /[{}]|null|undefined/);
  }
});

test("of all causes the first is named with how many more there are, no board last", () => {
  const empty = { Cause: "AtSlot", Slot: "1", Reel: null, Refusal: "SlotEmpty" };
  const it = of({ Cause: "NoWork" }, open(), empty);
  assert.deepEqual(it.causes.map(({ cause }) => cause), ["slot", "empty", "idle"]);
  assert.match(text(it, LOAD), /^M1 STOPPED: slot 2.* \(\+1\)$/);
  assert.equal(lineOf(it, () => LOAD, NOW).kind, "stop");
  assert.equal(lineOf(of({ Cause: "NoWork" }), () => LOAD, NOW).kind, "calm");
});

test("an answer that is older than its period is not known", () => {
  assert.match(text(of(), LOAD, NOW + 20_000), /^M1 not known since /);
  assert.equal(text({ ...of(), at: null }), "M1 not known");
});

test("the machines of the tablet, those that are stopped first", () => {
  const model = {
    lines: [{ machine: "M1" }, { machine: "M2" }, { machine: "M3" }],
    machines: new Map([["M1", of()], ["M2", { ...of(open()), machine: "M2" }]]),
    loadFor: () => LOAD,
  };
  assert.deepEqual(linesOf(model, NOW).map((it) => it.kind), ["stop", "go"]);
});
