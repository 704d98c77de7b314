// Elements with their texts. A text goes into the page as text alone, whatever it holds.

const PLAIN = [
  "class",
  "id",
  "for",
  "type",
  "name",
  "value",
  "href",
  "download",
  "placeholder",
  "rows",
  "autocomplete",
  "min",
  "max",
  "maxlength",
  "inputmode",
  "list",
  "scope",
  "colspan",
  "role",
  "lang",
  "title",
  "tabindex",
  "viewBox",
  "preserveAspectRatio",
  "aria-label",
  "x",
  "y",
  "width",
  "height",
  "aria-sort",
  "aria-pressed",
  "aria-current",
];
const SVG = ["svg", "rect"];

/**
 * An element with attributes and children, of which texts are texts. `on` names what it does for
 * an event, `data` its data.
 */
export function el(tag, attributes, ...children) {
  const made = SVG.includes(tag) ? document.createElementNS("http://www.w3.org/2000/svg", tag)
                                 : document.createElement(tag);
  for (const [name, value] of Object.entries(attributes ?? {})) {
    if (name === "on") {
      Object.entries(value).forEach(([event, act]) => made.addEventListener(event, act));
    } else if (name === "data") {
      Object.assign(made.dataset, value);
    } else if (PLAIN.includes(name)) {
      made.setAttribute(name, value);
    } else if (["hidden", "disabled", "checked", "required", "selected"].includes(name)) {
      made[name] = value;
    } else {
      throw new Error(`no attribute ${name}`);
    }
  }
  made.append(...children.flat()
                .filter(
                  (it) => it !== null && it !== undefined,
                )
                .map((it) => (it instanceof Node ? it : String(it))));
  return made;
}

/**
 * A table with its name: its head as pairs of a name and a class, its rows as lists of cells. A
 * cell is a text, or a pair of a text and a class.
 */
export function table(name, head, rows, classes = () => "") {
  const names = head.map(([name, mark]) => el("th", { class: mark ?? "", scope: "col" }, name));
  const lines =
    rows.map((row, at) => el("tr", { class: classes(at) }, row.map((it, column) => {
               const [text, mark] = Array.isArray(it) ? it : [it, ""];
               return el("td", { class: `${head[column][1] ?? ""} ${mark}`.trim() }, text);
             })));
  return el(
    "table",
    { "aria-label": name },
    el("thead", null, el("tr", null, names)),
    el("tbody", null, lines),
  );
}

const TWICE = 700; // milliseconds: a second touch within them is the end of the first

/**
 * Whether an event comes again too soon to be meant; `last` is of the element or the screen that
 * it is for.
 */
export function isTwice(event, last) {
  const was = last.at ?? -Infinity;
  last.at = event.timeStamp;
  return event.timeStamp - was < TWICE;
}

/**
 * A button that a keyboard reaches too. A double touch presses it once, but where it `repeats`.
 */
export function button(text, act, attributes = {}, repeats = false) {
  const last = {};
  return el(
    "button",
    {
      type: "button",
      ...attributes,
      on: { click: (event) => (repeats || !isTwice(event, last)) && act(event) },
    },
    text,
  );
}

/**
 * Puts children into an element, each where it is another than was there: who listens to a page
 * hears only what is new, and what has the focus keeps it.
 */
export function put(place, ...children) {
  const made = document.createDocumentFragment();
  made.append(...children.flat());
  const count = made.childNodes.length;
  [...made.childNodes].forEach((it, at) => {
    const was = place.childNodes[at];
    const hadFocus = was?.contains(document.activeElement);
    if (!was) {
      place.append(it);
    } else if (!was.isEqualNode(it)) {
      was.replaceWith(it);
      (hadFocus && it.matches("button") ? it : null)?.focus();
    }
  });
  while (place.childNodes.length > count) {
    place.lastChild.remove();
  }
}

/**
 * Does something to a place while it has no scrollbars, and gives what comes of it. One that is
 * there for larger letters takes room, in which a text may wrap: so it would stay where all fits.
 */
export function withoutScrollbars(place, act) {
  place.style.overflow = "hidden";
  try {
    return act();
  } finally {
    place.style.overflow = "";
  }
}

/** A field with its name. */
export function field(name, label, attributes = {}) {
  return el("p", { class: "field" }, el("label", { for: name,
            }, label), el("input", { id: name, name, ...attributes }));
}
