// What a wedge types leads to a scan, whatever has the focus: a button, a radio, a field that is
// filled. A field keeps what is meant for it: names and numbers, while the station waits for
// neither a reel nor a number.
import { isName, readCode, stripped } from "./names.js";
import { said } from "./say.js";
import { TEXTS } from "./words.js";

const CONTROLS = {
  "]": "\x1d",
  "^": "\x1e",
  6: "\x1e",
  d: "\x04",
}; // what a wedge types for the separators of a label
const ENDS = [
  "m",
  "j",
]; // with Ctrl: carriage return and line feed of a wedge that types control characters; browsers
    // open something at one
const TYPED = ["text", "search", "tel", "url", "email", "password"];
const OF_THEIR_FORM = [
  "slot",
  "action",
  "badge",
  "label",
  "foreign",
]; // codes that are told from a name by how they are written
const PAUSE = 300; // milliseconds: keys that are further apart are of two scans
const FORGOTTEN =
  10_000; // milliseconds after which letters in the scan field are the rest of nothing
const SILENT = 700;
const FAST = 60; // milliseconds: so long after letters that come so fast, one behind the other,
                  // a scanner that ends its codes with nothing is done
const LEAST = 3; // letters of a code that ends with nothing

/** Whether letters can be typed into an element. */
function isField(it) {
  return it?.tagName === "TEXTAREA" || (it?.tagName === "INPUT" && TYPED.includes(it.type));
}

/** What a key types into a scan, or null. */
export function letterOf(event) {
  const isPlain = event.key.length === 1 && !event.ctrlKey && !event.altKey && !event.metaKey;
  return event.ctrlKey ? CONTROLS[event.key] ?? null : isPlain ? event.key : null;
}

/** Whether a key ends a scan. A Tab does where `isTyped`; else it goes to the next field. */
export function isEnd(event, isTyped) {
  const isTab =
    event.key === "Tab" && !event.shiftKey && !event.ctrlKey && !event.altKey && isTyped;
  return event.key === "Enter" || isTab ||
    (event.ctrlKey && !event.altKey && !event.metaKey && ENDS.includes(event.key.toLowerCase()));
}

export class Keys {
  /**
   * `field` is the scan field. `station` says what is waited for and whether a verdict is over
   * the page; it takes scans and cancels.
   */
  constructor(station, field) {
    this.station = station;
    this.field = field;
    this.clicked = null; // the field that got the focus last
    this.last = -Infinity; // when the last key came
    this.isEnded = false; // whether a scanner here ends its codes with a key
    this.forget();
    document.addEventListener("keydown", (event) => this.key(event), true);
    document.addEventListener("focusin", ({ target }) => this.focused(target));
    document.addEventListener("click", ({ target }) => {
      this.forget();
      if (target === this.clicked && target !== this.field && isField(target)) {
        target.select(); // the click that gave it the focus put a caret there
      }
      this.clicked = null;
    });
  }

  /**
   * The text of a form's field is selected once it has the focus: what is scanned there takes
   * its place.
   */
  focused(target) {
    this.clicked = target;
    this.whole = null;
    const isTyped = this.run?.into === target && performance.now() - this.last <= PAUSE;
    if (isField(target) && target !== this.field && !isTyped) {
      target.select();
    }
  }

  /**
   * Empties the scan field of letters that nobody ended, but where a number is asked for: that
   * stays to be seen.
   */
  tidy() {
    const { value } = this.field;
    if (value !== "" && !this.station.scan.asking && performance.now() - this.last > FORGOTTEN) {
      this.forget();
      this.field.value = "";
      this.station.fault(said(TEXTS.fault.unended, { text: value }));
    }
  }

  /** Whether what is typed since the last pause came as a scanner types. */
  isFast() {
    return this.run !== null && this.run.count >= LEAST &&
      this.last - this.run.since <= FAST * (this.run.count - 1);
  }

  /** Takes the code of a scanner that ends none with a key. */
  silent() {
    if (!this.isEnded && this.isFast() && this.run.into === this.field) {
      this.station.scan.take(this.scanned());
    }
  }

  /**
   * Ends what is typed. Each is {into, text, begin, end}: a field, and its text and selection
   * before.
   */
  forget() {
    this.run = null; // since the last pause
    this.whole = null; // since the field got the focus: a slow scanner may pause within a code
  }

  /** The field that a letter goes to. */
  place(event) {
    const target = document.activeElement;
    if (this.run?.into === target && event.timeStamp - this.last <= PAUSE) {
      return target; // no scan is torn, whatever came over the page meanwhile
    }
    return isField(target) && !this.station.isCovered() && !this.station.scan.waits()
      ? target
      : this.field;
  }

  key(event) {
    const letter = letterOf(event);
    if (event.key === "Escape") {
      this.station.cancel();
    } else if (isEnd(event, this.isTabEnd())) {
      this.isEnded ||= this.isFast();
      this.enter(event);
    } else if (letter !== null) {
      this.letter(event, letter);
    }
  }

  /**
   * Whether a Tab ends a scan: in the scan field behind letters, in another one behind a code of
   * its own form.
   */
  isTabEnd() {
    const { activeElement } = document;
    return activeElement === this.field
      ? this.field.value !== ""
      : isField(activeElement) && this.scanIn(activeElement) !== null;
  }

  letter(event, letter) {
    const { activeElement } = document;
    const into = this.place(event);
    const isUsable = !this.station.isCovered() || activeElement.closest("#verdict");
    if (event.key === " " && into !== activeElement && into.value === "" && isUsable) {
      return; // it presses a button, or chooses a radio
    }
    if (into !== activeElement) {
      into.focus();
    }
    if (this.run?.into !== into || event.timeStamp - this.last > PAUSE) {
      this.run = {
        into,
        text: into.value,
        begin: into.selectionStart,
        end: into.selectionEnd,
        since: event.timeStamp,
        count: 0,
      };
      this.whole = this.whole?.into === into ? this.whole : this.run;
    }
    this.last = event.timeStamp;
    this.run.count += 1;
    clearTimeout(this.timer);
    this.timer = setTimeout(() => this.silent(), SILENT);
    if (letter !== event.key) { // a separator of a label
      event.preventDefault();
      into.setRangeText(letter, into.selectionStart, into.selectionEnd, "end");
    }
  }

  /**
   * What was typed into a field, since the last pause and since it got the focus, each with the
   * field's text before.
   */
  typed(field) {
    return [this.run, this.whole]
      .filter(
        (it) => it?.into === field,
      )
      .map(({ text, begin, end }) => {
        const before = text.slice(0, begin);
        const after = text.slice(end);
        const now = field.value;
        const isPlain = now.startsWith(before) && now.endsWith(after) &&
          now.length >= before.length + after.length;
        return {
          scan: isPlain ? now.slice(before.length, now.length - after.length) : "",
          rest: text,
        };
      });
  }

  hasForm(text) {
    const read = stripped(text, this.station.setup.scanner);
    return read !== "" && OF_THEIR_FORM.includes(readCode(read, this.station.setup).kind);
  }

  /**
   * The scan in the scan field: all of it, but where only its end is a code of its own form. The
   * field is empty then.
   */
  scanned() {
    const { value } = this.field;
    const [found] =
      this.hasForm(value) ? [] : this.typed(this.field).filter((it) => this.hasForm(it.scan));
    this.forget();
    this.field.value = "";
    return found ? found.scan : value;
  }

  /**
   * The scan in a field of a form, and what stands in that field without it; null where it is
   * the field's own.
   */
  scanIn(field) {
    const typed = this.typed(field);
    const found =
      [...typed, { scan: field.value, rest: "" }].find((it) => this.hasForm(it.scan));
    if (found || field.inputMode !== "numeric") {
      return found ?? null;
    }
    const { scanner } = this.station.setup;
    const isReel = ({ scan }) => isName(stripped(scan, scanner)) && /[^0-9]/.test(scan);
    return typed.find(isReel) ?? null;
  }

  enter(event) {
    const { activeElement } = document;
    const isCovered = this.station.isCovered();
    const isOwn =
      activeElement === this.field || (isCovered && activeElement.closest("#verdict"));
    const found = !isOwn && isField(activeElement) ? this.scanIn(activeElement) : null;
    clearTimeout(this.timer);
    if (event.key !== "Enter" || found || (isCovered && !isOwn)) { // what lies beneath the
                                                                    // verdict isn't seen
      event.preventDefault();
      event.stopPropagation();
    }
    if (!isOwn) {
      this.forget();
    }
    if (found) {
      activeElement.value = found.rest;
      activeElement.dispatchEvent(new Event("input", { bubbles: true }));
      this.field.focus();
      this.station.scan.take(found.scan);
    } else if (event.key !== "Enter" && (isOwn || !isCovered)) {
      activeElement.form?.requestSubmit();
    }
  }
}
