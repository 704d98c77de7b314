// The page of codes to print: actions, screens, digits, and the slots of each machine's sheet.
import { bars } from "./code128.js";
import { matrix } from "./datamatrix.js";
import * as desk from "./desk.js";
import { button, el } from "./dom.js";
import { isEnd, letterOf } from "./keys.js";
import { filled, isName, LEVELS } from "./names.js";
import { said } from "./say.js";
import { ACTIONS } from "./scan.js";
import * as setup from "./setup.js";
import { TEXTS } from "./words.js";

function card(text, code) {
  return el(
    "figure",
    null,
    bars(code) ?? el("p", { class: "wrong" }, TEXTS.codesPage.tooLong),
    el("figcaption", null, el("b", null, text), el("small", null, code)),
  );
}

function group(title, cards) {
  return el("section", null, el("h2", null, title), el("div", { class: "cards" }, cards));
}

/** The slot labels of a machine, where a product is set up for it and the desk has its sheet. */
async function slotsOf({ machine, product }, codes) {
  try {
    const { rows } = await desk.rows("kit", { product, machine, boards: "1" });
    const slots = [...new Set(rows.map((it) => it.slot))];
    return group(
      said(TEXTS.codesPage.slots, { machine, product }),
      slots.map((slot) => card(`${machine} ${slot}`, filled(codes.slot, { machine, slot }))),
    );
  } catch {
    return null;
  }
}

/** A scan on this page is taken by the station, but where somebody types names of labels. */
function handOver() {
  let text = "";
  document.addEventListener("keydown", (event) => {
    if (event.target.matches("textarea, button, select")) {
      return;
    }
    const letter = letterOf(event);
    const isAnEnd = isEnd(event, text !== "");
    if (isAnEnd ? text !== "" || event.ctrlKey : event.ctrlKey && letter !== null) {
      event.preventDefault(); // a browser opens something at some of them
    }
    if (isAnEnd && text !== "") {
      sessionStorage.setItem("scanned", text);
      location.assign("./");
    } else if (!isAnEnd && (event.key !== " " || text !== "")) {
      text += letter ?? "";
    }
  }, true);
}

/** A label: a name with its code, as a Data Matrix or as bars. */
function label(name, code, form) {
  const texts = TEXTS.codesPage;
  if (!isName(name)) {
    return el("p", { class: "wrong" }, said(texts.notName, { name }));
  }
  const picture = form === "matrix" ? matrix(code) : bars(code);
  const text = picture ?? el("p", { class: "wrong" }, texts.tooLong);
  return el("figure", { class: "label" }, text, el("figcaption", null, el("b", null, name)));
}

/** Makes labels of badges and reels; `reel` is one that came in just now. */
function labels({ codes }, reel, show) {
  const texts = TEXTS.codesPage;
  const choice = (name, options) => el(
    "select",
    { name, "aria-label": name },
    Object.entries(options).map(([value, text]) => el("option", { value }, text)),
  );
  const kinds = choice("kind", { reel: texts.reels, badge: texts.badges });
  const forms = choice("form", { matrix: "Data Matrix", bars: "Code 128" });
  const names = el("textarea", { rows: "4", "aria-label": texts.labels });
  const codeOf = (badge) => (kinds.value === "badge" ? filled(codes.badge, { badge }) : badge);
  const make = () => {
    const all = names.value.split("\n").map((it) => it.trim()).filter((it) => it !== "");
    const cards = all.map((it) => label(it, codeOf(it), forms.value));
    show(el("section", null, el("div", { class: "cards labels" }, cards)));
  };
  names.value = reel ?? "";
  if (reel !== null) {
    make();
  }
  return el(
    "section",
    { class: "no-print" },
    el("h2", null, texts.labels),
    el("p", null, texts.labelsHint),
    el("p", { class: "buttons" }, kinds, forms, names, button(texts.make, make)),
  );
}

/** All codes of the station, as cards. */
async function allCodes({ codes, machines }) {
  const texts = TEXTS.codesPage;
  const action = (name) => filled(codes.action, { action: name });
  const digits = [..."0123456789"].map((it) => card(it, action(it)));
  const level = (it) => card(said(texts.level, { level: it }), action(`LEVEL-${it}`));
  const screen = ([name, text]) => card(text, action(name.toUpperCase()));
  const parts = [
    group(texts.actions, ACTIONS.map((it) => card(TEXTS.actions[it], action(it)))),
    group(texts.digits, [...digits, card(TEXTS.actions.ENTER, action("ENTER"))]),
    group(texts.levels, LEVELS.map(level)),
    group(texts.screens, Object.entries(TEXTS.screens).map(screen)),
  ];
  for (const machine of machines.filter((it) => it.product)) {
    parts.push(await slotsOf(machine, codes));
  }
  return parts.filter(Boolean);
}

async function begin() {
  handOver();
  const { setup: read, fault, ...told } = await setup.read();
  const texts = TEXTS.codesPage;
  const main = document.getElementById("main");
  if (!read) {
    const why = said(TEXTS.setup.wanting, { fault: said(TEXTS.setup[fault], told) });
    main.replaceChildren(el("p", { class: "note wrong" }, why));
    return;
  }
  document.title = `${read.title}: ${texts.title}`;
  const shown = el("div");
  const show = (...parts) => shown.replaceChildren(...parts);
  const all = async () => show(...await allCodes(read));
  const reel = new URLSearchParams(location.search).get("reel");
  main.replaceChildren(
    el("h1", { class: "no-print" }, document.title),
    el(
      "p",
      { class: "no-print buttons" },
      texts.hint,
      button(texts.print, () => window.print()),
      button(texts.all, all),
      el("a", { href: "./" }, TEXTS.title),
    ),
    labels(read, reel, show),
    shown,
  );
  if (reel === null) {
    await all();
  }
}

begin();
