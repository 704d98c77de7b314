import assert from "node:assert/strict";
import test from "node:test";
import { SETUP } from "./page.mjs";

const { Scan } = await import("../../scan.js");

/** A page that notes what a scan does; each slot of `live` has a reel. */
function page(live = [], rows = null, isKnown = true) {
  const told = { acted: [], faults: [], questions: [], seen: [], verified: [] };
  const slot = (machine, name) => {
    const reels = live.includes(`${machine}/${name}`) ? [{ reel: "R-0", remaining: "9" }] : [];
    return { known: true, sheet: true, part: "CAP", reels };
  };
  const station = {
    setup: SETUP,
    waiting: [],
    badgeName: null,
    model: {
      slot,
      isLive: (machine, name) => live.includes(`${machine}/${name}`),
      isOn: (machine, name, reel) =>
        isKnown && live.includes(`${machine}/${name}`) && reel === "R-0",
      slotsNow: async () => rows,
      line: () => ({ slots: isKnown ? [] : null }),
      state: { ok: true, at: performance.now() },
      refresh: () => {},
    },
    verdict: {
      isAsking: () => told.questions.length > 0,
      answer: (action) => told.seen.push(action),
      pass: () => {},
      seeAll: () => {},
      verified: (row) => told.verified.push(row.reel),
      ask: (question) => told.questions.push(question),
    },
    act: (action, values) => told.acted.push([action, values]),
    listed: () => told.isListed === true,
    fault: (text) => told.faults.push(text),
    scanned: () => {},
    cancel: () => scan.clear(),
    go: (name) => told.seen.push(name),
    isScreen: (action) => ["LINE", "SCAN"].includes(action),
    coded: () => false,
    setBadge: (name) => told.seen.push(name),
    label: (text) => told.seen.push(text),
  };
  const scan = new Scan(station);
  return { told, scan };
}

/** Scans codes one behind the other, as a hand does: an equal one more than a second later. */
async function scanned(codes, live, rows, isKnown) {
  const { told, scan } = page(live, rows, isKnown);
  for (const code of codes) {
    scan.last.at = -Infinity;
    await scan.take(code);
  }
  return { ...told, held: scan.held(), scan };
}

test("a slot and a reel load, or splice where the slot has a reel", async () => {
  const values = { machine: "M1", slot: "1", reel: "K-1" };
  assert.deepEqual((await scanned(["S/M1/1", "K-1"])).acted, [["LOAD", values]]);
  assert.deepEqual((await scanned(["S/M1/1", "K-1"], ["M1/1"])).acted, [["SPLICE", values]]);
});

test("a reel that is on its slot is verified, and nothing is sent", async () => {
  const row = { slot: "1", reel: "R-0", part: "CAP", minutes_left: "unlimited" };
  const scans = async (rows, isKnown = true) => {
    const { acted, verified, faults } = await scanned(["S/M1/1", "R-0"], ["M1/1"], rows, isKnown);
    return { acted: acted.map(([action]) => action), verified, faults: faults.length };
  };
  const none = { acted: [], verified: [], faults: 0 };
  assert.deepEqual(await scans([row]), { ...none, verified: ["R-0"] });
  for (const odd of [{ minutes_left: "0" }, { minutes_left: "unbaked" }, { part: "RES" }]) {
    assert.deepEqual(await scans([{ ...row, ...odd }]), { ...none, faults: 1 });
  }
  assert.deepEqual(await scans(null), { ...none, faults: 1 }, "the desk doesn't answer");
  assert.deepEqual(await scans([]), { ...none, acted: ["LOAD"] }, "it was taken off meanwhile");
  assert.deepEqual(await scans([{ ...row, reel: "R-1" }]), { ...none, acted: ["SPLICE"] });
  assert.deepEqual(await scans([row], false), { ...none, verified: ["R-0"] }, "a new page");
  assert.deepEqual(await scans([], false), { ...none, acted: ["LOAD"] }, "a new page");
  assert.deepEqual(await scans(null, false), { ...none, acted: ["SPLICE"] }, "no answer");
});

test("an action comes before or behind what it is of", async () => {
  const slot = { machine: "M2", slot: "10" };
  for (const codes of [["S/M2/10", "A/UNLOAD"], ["A/UNLOAD", "S/M2/10"]]) {
    assert.deepEqual((await scanned(codes)).acted, [["UNLOAD", slot]]);
  }
  for (const codes of [["K-1", "A/OPEN"], ["A/OPEN", "K-1"]]) {
    assert.deepEqual((await scanned(codes)).acted, [["OPEN", { reel: "K-1" }]]);
  }
});

test("a number ends a scrap, by digits or as a whole", async () => {
  const values = { machine: "M1", slot: "1", quantity: 25 };
  const codes = ["S/M1/1", "A/SCRAP"];
  assert.deepEqual((await scanned([...codes, "25"])).acted, [["SCRAP", values]]);
  const digits = await scanned([...codes, "A/2", "A/5", "A/ENTER"]);
  assert.deepEqual(digits.acted, [["SCRAP", values]]);
  assert.equal((await scanned([...codes, "none"])).faults.length, 1);
});

test("an action that is scanned twice is not for the next slot", async () => {
  for (const action of ["UNLOAD", "SCRAP"]) {
    const it = await scanned(["S/M1/1", `A/${action}`, `A/${action}`, "S/M1/2"]);
    assert.ok(it.acted.every(([, { slot }]) => slot === "1"), action);
    assert.equal(it.scan.action, null);
  }
  const once = await scanned(["S/M1/1", "A/UNLOAD", "A/UNLOAD"]);
  assert.match(once.held.join(" "), /UNLOAD was scanned twice/);
  const armed = await scanned(["A/UNLOAD", "A/UNLOAD", "S/M1/2"]);
  assert.equal(armed.acted.length, 1);
  const between = await scanned(["S/M1/1", "A/UNLOAD", "A/CANCEL", "A/UNLOAD", "S/M1/2"]);
  assert.equal(between.acted.length, 2);
});

test("an action that was scanned long ago is a new one", async () => {
  const { told, scan } = page();
  for (const codes of [["K-1", "A/OPEN"], ["A/OPEN", "K-2"]]) {
    scan.touched -= SETUP.heldSeconds * 1000 + 1;
    for (const code of codes) {
      await scan.take(code);
    }
  }
  assert.equal(told.acted.length, 2);
});

test("the same action code within a second counts once", async () => {
  const { told, scan } = page();
  await scan.take("K-1");
  await scan.take("A/OPEN");
  await scan.take("A/OPEN");
  assert.equal(told.acted.length, 1);
  assert.match(scan.held().join(" "), /read twice within a second/);
});

test("the beginning of a code is no reel", async () => {
  for (const text of ["A/", "B/", "S/", "S/M1/", "S/M2/"]) {
    const it = await scanned(["S/M1/1", text]);
    assert.deepEqual(it.acted, [], text);
    assert.equal(it.faults.length, 1, text);
  }
});

test("a slot of no machine, no name and an unknown action are faults", async () => {
  for (const text of ["S/M9/1", "K\u00e4fer", "A/NOPE", "A/LEVEL-3"]) {
    assert.equal((await scanned([text])).faults.length, 1, text);
  }
});

test("what is held is forgotten when no scan came for long", async () => {
  const { scan } = page();
  await scan.take("S/M1/1");
  scan.touched -= SETUP.heldSeconds * 1000 + 1;
  scan.forget();
  assert.equal(scan.slot, null);
  assert.match(scan.held()[0], /forgotten/);
});

test("while a question is open nothing else is taken, and that is said", async () => {
  const { told, scan } = page();
  told.questions.push("sure?");
  await scan.take("S/M1/1");
  assert.equal(scan.slot, null);
  assert.match(scan.held().join(" "), /NOT taken/);
});
