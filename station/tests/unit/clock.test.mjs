import assert from "node:assert/strict";
import test from "node:test";

process.env.TZ = "Europe/Berlin"; // before the first time is read
await import("./page.mjs");
const clock = await import("../../clock.js");
const { bodyOf } = await import("../../scan.js");
const { whatOf, whereOf, wordsOf } = await import("../../answers.js");

const WINTER = Date.UTC(2026, 2, 3, 10, 10);

test("times are those of where the tablet stands", () => {
  assert.equal(clock.local(WINTER), "2026-03-03 11:10");
  assert.equal(clock.zoned(WINTER), "2026-03-03 11:10 UTC+01:00");
  assert.equal(clock.zoned(Date.UTC(2026, 6, 1, 22, 5)), "2026-07-02 00:05 UTC+02:00");
  assert.equal(clock.stamp(WINTER), "2026-03-03T10:10:00Z", "but for messages");
});

test("times are those of the plant where the set-up names its zone", () => {
  clock.setZone("America/New_York");
  assert.equal(clock.local(WINTER), "2026-03-03 05:10");
  assert.deepEqual([clock.day(WINTER), clock.shown(WINTER)], ["2026-03-03", "05:10"]);
  assert.equal(clock.zoned(WINTER), "2026-03-03 05:10 UTC-05:00");
  assert.equal(clock.stamp(WINTER), "2026-03-03T10:10:00Z", "but for messages");
  clock.setZone("UTC");
  assert.equal(clock.zoned(WINTER), "2026-03-03 10:10 UTC+00:00");
  assert.throws(() => clock.setZone("Europe/Nowhere"), RangeError);
  clock.setZone(undefined);
});

test("a clock that is set says its time", () => {
  const answer = { Answer: "Accepted", Number: 7 };
  const scan = { word: "ClockSet", body: bodyOf("CLOCK", {}), at: WINTER, answer };
  assert.deepEqual(scan.body, {});
  assert.match(whereOf(scan), /11:10$/);
  assert.equal(whatOf(scan), "set the desk's clock");
  assert.equal(wordsOf(scan).title, "CLOCK SET");
  assert.equal(whereOf({ ...scan, at: null }), "", "one that was not sent without a time");
});
