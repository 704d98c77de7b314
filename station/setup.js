// What whoever installs the station says of it: /etc/tracedesk/station/setup.json
// (docs/station.md).
import * as desk from "./desk.js";
import { GREATEST_LABEL, MOST_BOARDS } from "./limits.js";
import { around, filled, isName } from "./names.js";
import { isLoggedOut } from "./session.js";
import { TEXTS } from "./words.js";

export const USUAL = {
  title: "Line",
  boards: 10,
  expires: 60,
  splice: 10, // minutes before the end of a slot's reels at which somebody is called
  heldSeconds: 120, // without a scan: then a slot, a reel or an action is forgotten
  badgeMinutes: 60, // without a message: then the badge is
  badgeWanted: false, // whether nothing is sent without a badge
  connectionsADay: 26_000, // of the desk's, which all stations together may use up by looking
  places: {}, // where a part or a reel is in the store
  scanner: { prefix: "", suffix: "", separators: ["{GS}"] },
  codes: { slot: "S/{machine}/{slot}", badge: "B/{badge}", action: "A/{action}" },
  label: { part: "P", reel: "S" },
};

/** Whether a pattern has these places, each once and in this order. */
function hasPlaces(pattern, ...names) {
  const text = typeof pattern === "string" ? pattern : "";
  const found = [...text.matchAll(/\{(\w+)\}/g)].map((it) => it[1]);
  const isLetter = /^[A-Za-z0-9]\{/.test(text); // one letter alone begins many a reel's name
  return found.join() === names.join() && /^[^{]+\{/.test(text) &&
    (names.length > 1 || !isLetter);
}

function isText(it) {
  return typeof it === "string" && it.length <= 200;
}

/** Whether a zone is known here, or none is named. */
function isZone(timeZone) {
  try {
    return timeZone === undefined ||
      (isText(timeZone) && new Intl.DateTimeFormat("en", { timeZone }) !== null);
  } catch {
    return false;
  }
}

/** Whether a group has a text for each of its names. */
function areTexts(group) {
  return group !== null && typeof group === "object" && Object.values(group).every(isText);
}

/** The member that is not as it has to be, or null. */
function faultOf(setup) {
  const whole = (it, most) => Number.isInteger(it) && it >= 1 && it <= most;
  const tests = {
    title: isText(setup.title) && setup.title !== "",
    boards: whole(setup.boards, MOST_BOARDS),
    expires: whole(setup.expires, GREATEST_LABEL),
    splice: whole(setup.splice, 1_440),
    heldSeconds: whole(setup.heldSeconds, 3_600),
    badgeMinutes: whole(setup.badgeMinutes, 1_440),
    badgeWanted: typeof setup.badgeWanted === "boolean",
    connectionsADay: whole(setup.connectionsADay, 1_000_000),
    language: setup.language === undefined || isText(setup.language),
    zone: isZone(setup.zone),
    places: areTexts(setup.places),
    scanner: isText(setup.scanner.prefix) && isText(setup.scanner.suffix) &&
      Array.isArray(setup.scanner.separators) &&
      setup.scanner.separators.every((it) => isText(it) && it !== ""),
    codes: hasPlaces(setup.codes.slot, "machine", "slot") &&
      hasPlaces(setup.codes.badge, "badge") && hasPlaces(setup.codes.action, "action"),
    label:
      /^[0-9]{0,3}[A-Z]$/.test(setup.label.part) && /^[0-9]{0,3}[A-Z]$/.test(setup.label.reel),
  };
  return Object.keys(tests).find((name) => !tests[name]) ?? null;
}

function areMachines(machines) {
  return Array.isArray(machines) && machines.length > 0 && machines.length <= 20 &&
    machines.every(
      (it) => it && isName(it.machine ?? "") && (it.product === undefined || isName(it.product)),
    );
}

/**
 * Two kinds of code of which one may be read as the other, or none: slots of each machine,
 * actions, badges, labels.
 */
function alike({ machines, codes }) {
  const { slot, kinds } = TEXTS.setup;
  const ofSlots = (machine) => {
    const [before] = around(codes.slot, { machine });
    return { kind: filled(slot, { machine }), before };
  };
  const begins = [
    ...machines.map(({ machine }) => ofSlots(machine)),
    ...["action", "badge"].map((it) => ({ kind: kinds[it], before: around(codes[it], {})[0] })),
    { kind: kinds.label, before: "[)>" },
  ];
  return begins.flatMap(
    (it, at) => begins
                  .filter(
                    (other, place) => place !== at && other.before.startsWith(it.before),
                  )
                  .map((other) => [it.kind, other.kind]),
  )[0];
}

/** Why a file isn't had, by the status of the answer: the name of its text. 0 is no answer. */
export function whyNot(status) {
  return status === 404 ? "missing"
    : status === 0 ? "noAnswer"
    : isLoggedOut(status) ? "notAllowed"
                          : "notRead";
}

/** Reads the set-up: {setup}, or {fault} with the name of its text and what that text names. */
export async function read() {
  const { status, told, since } = await desk.file("setup.json");
  if (status !== 200) {
    return { status, fault: whyNot(status) };
  }
  if (Object.keys(told).length === 0) {
    return { status, fault: "json" };
  }
  const setup = { ...USUAL, ...told, since };
  for (const part of ["scanner", "codes", "label"]) {
    setup[part] = { ...USUAL[part], ...told[part] };
  }
  if (!areMachines(setup.machines)) {
    return { status, fault: "machines" };
  }
  const member = faultOf(setup);
  const [one, other] = member ? [] : alike(setup) ?? [];
  return member ? { status, fault: "member", member }
    : one ? { status, fault: "alike", one, other }
                : { status, setup };
}
