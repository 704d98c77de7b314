// The time is the server's, as its last answer said it.

const APART = 5_000; // milliseconds: so far the tablet's two clocks are apart only after it
                      // slept, or after somebody set one

let server = null; // milliseconds since 1970, by the server
let at = 0; // of this page's steady clock, when it was said
let wall = 0; // of the tablet's own clock, then

/** Takes the time that an answer of the server says. */
export function hear(headers) {
  const exact = Number(headers.get("X-Station-Now")) * 1000;
  const said = exact > 0 ? exact : Date.parse(headers.get("Date") ?? "");
  if (said > 0) {
    server = said;
    at = performance.now();
    wall = Date.now();
  }
}

/**
 * The server's milliseconds since 1970; null where it never answered, or not since the tablet
 * slept: the steady clock stands still then.
 */
export function now() {
  const passed = performance.now() - at;
  return server === null || Math.abs(Date.now() - wall - passed) > APART ? null : server + passed;
}

/** How many milliseconds the server's clock is ahead of the tablet's. */
export function ahead() {
  return server - wall;
}

/** A time as messages have it. */
export function stamp(milliseconds) {
  return `${new Date(milliseconds).toISOString().slice(0, 19)}Z`;
}

/** The form of a time in the plant's zone, as 2026-03-02 07:05; without one in the tablet's. */
const formIn = (timeZone) =>
  new Intl.DateTimeFormat("sv-SE", { dateStyle: "short", timeStyle: "short", timeZone });
let form = formIn();

/** Has times shown in a zone, as Europe/Berlin; a RangeError where none has this name. */
export function setZone(zone) {
  form = formIn(zone);
}

/** Date and time at the plant, as 2026-03-02 07:05. */
export function local(milliseconds) {
  return form.format(milliseconds);
}

/** Hours and minutes of the day at the plant. */
export function shown(milliseconds) {
  return local(milliseconds).slice(-5);
}

/** The date at the plant, as 2026-03-02. */
export function day(milliseconds) {
  return local(milliseconds).slice(0, -6);
}

/** Date and time for a sheet that is read elsewhere too: with what they differ from UTC. */
export function zoned(milliseconds) {
  const { timeZone } = form.resolvedOptions();
  const parts = new Intl.DateTimeFormat("en", { timeZone, timeZoneName: "longOffset" })
    .formatToParts(milliseconds);
  const offset = parts.find(({ type }) => type === "timeZoneName").value.slice("GMT".length);
  return `${local(milliseconds)} UTC${offset || "+00:00"}`;
}
