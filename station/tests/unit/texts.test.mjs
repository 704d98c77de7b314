import assert from "node:assert/strict";
import test from "node:test";
import "./page.mjs";

const { TEXTS: ENGLISH } = await import("../../texts.js");
const LANGUAGES = ["de", "es", "zh"];

/** All texts by the names that lead to them. */
function flat(it, path = "") {
  return typeof it === "string" ? [[path, it]]
    : Object.entries(it).flatMap(([name, more]) => flat(more, `${path}/${name}`));
}

const places = (text) => new Set([...text.matchAll(/\{(\w+)/g)].map((it) => it[1]));

for (const language of LANGUAGES) {
  test(`the texts of ${language} are all there, with the places of ours`, async () => {
    const { TEXTS } = await import(`../../texts-${language}.js`);
    const theirs = new Map(flat(TEXTS));
    const ours = new Map(flat(ENGLISH));
    assert.deepEqual([...theirs.keys()].sort(), [...ours.keys()].sort());
    assert.equal(TEXTS.lang, language);
    for (const [path, text] of theirs) {
      const unknown = [...places(text)].filter((it) => !places(ours.get(path)).has(it));
      assert.deepEqual(unknown, [], `${path}: ${text}`);
      assert.notEqual(text.trim(), "", path);
    }
  });

  test(`no place is lost in the texts of ${language}`, async () => {
    const { TEXTS } = await import(`../../texts-${language}.js`);
    const theirs = new Map(flat(TEXTS));
    for (const [path, text] of flat(ENGLISH)) {
      const lost = [...places(text)].filter((it) => !places(theirs.get(path)).has(it));
      assert.deepEqual(lost, [], `${path}: ${theirs.get(path)}`);
    }
  });
}
