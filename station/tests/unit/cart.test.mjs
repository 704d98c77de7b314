import assert from "node:assert/strict";
import test from "node:test";
import "./page.mjs";

const { isQuiet, plan, read, withRow } = await import("../../cart.js");
const row = (slot, reel) => ({ slot, reel });

test("a list has a slot and a reel in each row, with a comma, a semicolon or a tab", () => {
  const rows = [row("1", "K-1"), row("2", "K-2")];
  for (const between of [",", ";", "\t", " , "]) {
    assert.deepEqual(read(`1${between}K-1\r\n\n 2${between}K-2 \n`), { rows });
  }
  assert.deepEqual(read("A,1\tK,1"), { rows: [row("A,1", "K,1")] }, "a tab comes first");
});

test("a row that is wrong is named, and nothing is taken of that list", () => {
  assert.deepEqual(read("1,K-1\n2"), { wrong: "row", row: 2, text: "2" });
  assert.deepEqual(read("1,K-1,5"), { wrong: "row", row: 1, text: "1,K-1,5" });
  assert.deepEqual(read("1,K\u00e4fer"), { wrong: "row", row: 1, text: "1,K\u00e4fer" });
  assert.deepEqual(read("1,K-1\n\n1,K-2"), { wrong: "twice", row: 3, text: "1,K-2" });
  assert.deepEqual(read("1,K-1\n2,K-1"), { wrong: "twice", row: 2, text: "2,K-1" });
  assert.equal(read(" \n").wrong, "row");
});

test("a scanned slot and reel is a row, in the place of what was there of them", () => {
  const rows = [row("1", "K-1"), row("2", "K-2")];
  assert.equal(withRow([], row("A,1", "K-1")), "A,1\tK-1");
  assert.equal(withRow(rows, row("1", "K-3")), "2\tK-2\n1\tK-3");
  assert.equal(withRow(rows, row("3", "K-2")), "1\tK-1\n3\tK-2");
  assert.deepEqual(read(withRow(rows, row("3", "K-3"))).rows, [...rows, row("3", "K-3")]);
});

test("a reel that is on its slot stays, and what is in the way goes first", () => {
  const rows = [row("1", "K-1"), row("2", "K-2"), row("3", "K-3")];
  const slots = [row("1", "K-1"), row("1", "K-9"), row("2", "K-8"), row("5", "K-3")];
  assert.deepEqual(plan(rows, slots), { unload: ["2", "5"], load: rows.slice(1) });
  assert.deepEqual(plan(rows, []), { unload: [], load: rows });
  assert.deepEqual(plan(rows, rows), { unload: [], load: [] });
});

test("only a yes to a message of a list is counted and not shown", () => {
  const scan = (isCart, Answer) => ({ about: { isCart }, answer: { Answer } });
  assert.equal(isQuiet(scan(true, "Accepted")), true);
  assert.equal(isQuiet(scan(true, "Refused")), false);
  assert.equal(isQuiet(scan(false, "Accepted")), false);
  assert.equal(isQuiet({ answer: { Answer: "Accepted" } }), false, "one of an older page");
});
