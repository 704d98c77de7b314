// What is reckoned of a machine's reports: its sheet, its pace, and its slots as they are shown.
import { lifeOrder } from "./life.js";

const PACE_LEAST = 2 * 60_000; // milliseconds over which a machine's pace is reckoned at least

/** The rows of a sheet, in its order, as the kit list of one board tells them. */
export function sheetOf(rows) {
  const found = new Map();
  rows.forEach(({ slot, part, needed }) => found.set(slot, { slot, part, needed: Number(needed) }));
  return [...found.values()];
}

/**
 * How many boards of a slot's pieces were used between two slot lists. A reel that is gone was
 * used up.
 */
function usedOf({ slot, needed }, before, now) {
  const left = new Map(now.filter((it) => it.slot === slot).map((it) => [it.reel, it.remaining]));
  return sumOf(before
                 .filter(
                   (it) => it.slot === slot,
                 )
                 .map((it) => ({ remaining: it.remaining - (left.get(it.reel) ?? 0) }))) /
    needed;
}

/**
 * How many boards a machine makes a minute: that of the slot in the middle, so that no count,
 * scrap or unloading decides. 0 if it isn't known.
 */
function paceOf({ looks, kit }) {
  const first = looks[0];
  const last = looks.at(-1);
  const minutes = (last?.at - first?.at) / 60_000;
  const of = (list) => list.sort((a, b) => a - b)[list.length >> 1] ?? 0;
  if (!kit || !(last?.at - first?.at >= PACE_LEAST) || first.slots === last.slots) {
    return 0;
  }
  return Math.max(
           0,
           of(kit
                .filter(
                  (it) => it.needed && first.slots.some(({ slot }) => slot === it.slot),
                )
                .map((it) => usedOf(it, first.slots, last.slots))),
         ) /
    minutes;
}

/**
 * The rows of a machine as they are shown: its sheet's, then the slots that are on no row of it.
 * Without a slot list there are none.
 */
export function shownRows(line, setup) {
  if (!line.slots) {
    return [];
  }
  const bySlot = new Map();
  const pace = paceOf(line);
  line.slots.forEach((it) => bySlot.set(it.slot, [...(bySlot.get(it.slot) ?? []), it]));
  const sheet =
    (line.kit ?? []).map((row) => rowOf(row, bySlot.get(row.slot) ?? [], setup, pace));
  const named = new Set(sheet.map((it) => it.slot));
  const off = line.kit ? "OFF" : "NOSHEET";
  const rest = [...bySlot]
                 .filter(
                   ([slot]) => !named.has(slot),
                 )
                 .sort(([a], [b]) => a.localeCompare(b, "en", { numeric: true }));
  return [
    ...sheet,
    ...rest.map(
      ([slot, reels]) => rowOf({ slot, part: reels[0].part, needed: 0 }, reels, setup, 0, off),
    ),
  ];
}

/**
 * A slot as it is shown. `boards` are those of the reels before the first that is expired, and
 * `minutes` how long they last at the machine's pace; `worst` is the reel whose floor life ends
 * first, wherever it is on the tape; `off` says that no row of the sheet names the slot, or that
 * no sheet is known.
 */
function rowOf({ slot, part, needed }, reels, setup, pace, off = null) {
  const front = reels[0] ?? null;
  const pieces = sumOf(reels);
  const expired = reels.findIndex((it) => it.minutes_left === "0");
  const boards =
    needed ? Math.floor(sumOf(expired < 0 ? reels : reels.slice(0, expired)) / needed) : null;
  const minutes = pace && boards !== null ? Math.floor(boards / pace) : null;
  const worst = reels.reduce(
    (least, it) =>
      (least === null || lifeOrder(it.minutes_left) < lifeOrder(least.minutes_left) ? it : least),
    null,
  );
  const life = worst && lifeOrder(worst.minutes_left);
  const others = [...new Set(reels.map((it) => it.part).filter((it) => it !== part))];
  const states = [];
  const isUsed = front && expired !== 0 && boards !== null;
  const isEnding = Boolean(isUsed && minutes !== null && minutes < setup.splice);
  [["EMPTY", !front],
   ["EXPIRED", expired >= 0],
   ["LOW", isEnding || (isUsed && boards < setup.boards)],
   ["EXPIRES", expired < 0 && front && life < setup.expires],
   ["OTHER", others.length],
   [off, off]]
    .forEach(([state, holds]) => {
      if (holds) {
        states.push(state);
      }
    });
  return {
    slot,
    part,
    front,
    behind: reels.slice(1),
    pieces,
    boards,
    minutes,
    isEnding,
    worst,
    life,
    others,
    off,
    states,
  };
}

function sumOf(reels) {
  return reels.reduce((sum, it) => sum + Number(it.remaining), 0);
}
