// Where somebody who may send has logged in: back to the station.
import { el } from "./dom.js";
import { TEXTS } from "./words.js";

document.title = TEXTS.title;
document.getElementById("main").replaceChildren(
  el("p", { class: "note" }, TEXTS.logIn.done),
  el("a", { href: "/station/", id: "back" }, TEXTS.logIn.back),
);
