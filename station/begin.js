// Begins the page: its set-up, its store, its name, and then the station.
import * as clock from "./clock.js";
import { el, field } from "./dom.js";
import { isName } from "./names.js";
import { said } from "./say.js";
import * as setup from "./setup.js";
import { Station } from "./station.js";
import * as store from "./store.js";
import { TEXTS } from "./words.js";

const MOST_LETTERS = 40; // of a station's name: with a badge it is a name of the desk's range
const at = (id) => document.getElementById(id);
const isStationName = (it) => isName(it) && it.length <= MOST_LETTERS;

function wrong(text) {
  at("main").replaceChildren(el("p", { class: "note wrong" }, text));
}

/** Asks for the station's name. */
function askedName() {
  const texts = TEXTS.begin;
  return new Promise((resolve) => {
    const fault = el("p", { class: "wrong", role: "alert" });
    const submit = (event) => {
      event.preventDefault();
      const name = at("name").value.trim();
      fault.textContent = isStationName(name) ? "" : texts.bad;
      if (isStationName(name)) {
        resolve(name);
      }
    };
    at("main").replaceChildren(el(
      "form",
      { class: "begin", on: { submit } },
      el("h2", null, texts.title),
      el("p", null, texts.why),
      field("name", texts.label, { maxlength: String(MOST_LETTERS) }),
      fault,
      el("button", { type: "submit" }, texts.go),
    ));
    at("name").focus();
  });
}

/** The station's name: from the address, from this tablet, or from whoever stands before it. */
async function nameOf() {
  const named =
    new URLSearchParams(location.search).get("station") ?? (await store.note("station"));
  const name = named && isStationName(named) ? named : await askedName();
  await store.setNote("station", name);
  return name;
}

async function begin() {
  const { setup: read, fault, ...told } = await setup.read();
  if (!read) {
    wrong(said(TEXTS.setup.wanting, { fault: said(TEXTS.setup[fault], told) }));
    return;
  }
  clock.setZone(read.zone);
  try {
    await store.open();
    if (!navigator.locks || !crypto.randomUUID) {
      throw new Error("no locks");
    }
  } catch {
    wrong(TEXTS.setup.noStore);
    return;
  }
  await new Station(read, await nameOf()).begin();
}

begin();
