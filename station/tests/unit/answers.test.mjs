import assert from "node:assert/strict";
import { createHash } from "node:crypto";
import test from "node:test";
import { SETUP } from "./page.mjs";

const { said } = await import("../../say.js");
const { readCode } = await import("../../names.js");
const { modulesOf } = await import("../../datamatrix.js");
const { lifeText } = await import("../../life.js");

test("a number takes its plural, and is written as the language has it", () => {
  const text = "{left} {left|piece|pieces} of {reel}";
  assert.equal(said(text, { left: 1, reel: "K" }), "1 piece of K");
  assert.equal(said(text, { left: 0, reel: "K" }), "0 pieces of K");
  assert.equal(said(text, { left: 12_500, reel: "1" }), "12,500 pieces of 1");
  assert.equal(said("{left|x}", { left: 5 }), "x", "a language without plurals lists one form");
  assert.equal(said("{other} {x}", { x: "{left|a|b}" }), "{other} {left|a|b}");
});

test("a code is what its form says", () => {
  const kinds = { "S/M1/3": "slot", "S/M9/3": "foreign", "A/OPEN": "action", "B/anna": "badge",
    "K-1": "reel", "A/": "fragment", "S/M1/": "fragment", "[)>06": "label", "": "none" };
  for (const [text, kind] of Object.entries(kinds)) {
    assert.equal(readCode(text, SETUP).kind, kind, text);
  }
});

test("floor life in words", () => {
  assert.equal(lifeText("0"), "EXPIRED");
  assert.equal(lifeText("61"), "1 h 1 min");
  assert.equal(lifeText(null), "no limit");
});

// zint --barcode=DATAMATRIX --square --dump -d TEXT | tr -d ' \n' | sha256sum
const MATRICES = {
  "K-1": "5bcd515bb6fc6540",
  "B/anna": "e00f4b919402ea11",
  [`${"Kx9-".repeat(11)}`]: "e7cb8ed859966b2b",
  [`${"Kx9-".repeat(15)}`]: "b6f0e621d2b62513",
};

test("a Data Matrix is the one that zint makes, of one region and of four", () => {
  for (const [text, hash] of Object.entries(MATRICES)) {
    const rows = modulesOf(text).map((row) => row.join("").match(/.{1,4}/g)
      .map((it) => parseInt(it.padEnd(4, "0"), 2).toString(16).toUpperCase()).join(""));
    assert.equal(createHash("sha256").update(rows.join("")).digest("hex").slice(0, 16), hash, text);
  }
  assert.equal(modulesOf("~".repeat(64)).length, 36, "each name of the desk's range has one");
  assert.equal(modulesOf("~".repeat(115)), null);
});
