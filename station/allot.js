// Which reels go to which slots of a line for so many boards: what is on a slot counts first, and
// no reel is promised twice.

import { MOST_BOARDS } from "./limits.js";

export const piecesOf = (reels) =>
  reels.reduce((sum, it) => sum + Number(it.pieces ?? it.remaining), 0);
const order = (minutes) =>
  (minutes === "unlimited" ? 1e9
     : minutes === "unbaked" ? 2e9
                             : Number(minutes));
const byTurn = (a, b) =>
  order(a.minutes_left) - order(b.minutes_left) || (a.reel < b.reel ? -1 : 1);

/**
 * The rows of a machine's sheet for so many boards, with what is on their slots. `kit` is the
 * kit list for the most boards, which names each free reel that it can.
 */
function rowsOf({ machine, kit, slots }, boards) {
  const sheet = new Map(kit.map((it) => [it.slot, it]));
  return [...sheet.values()].map(({ slot, part, needed }) => {
    const on = slots.filter((it) => it.slot === slot);
    const live = on.filter((it) => it.minutes_left !== "0");
    const others = live.filter((it) => it.part !== part);
    return {
      machine,
      slot,
      part,
      needed: (Number(needed) / MOST_BOARDS) * boards,
      mounted: piecesOf(live.filter((it) => it.part === part)),
      other: piecesOf(others),
      otherParts: [...new Set(others.map((it) => it.part))],
      expired: on.filter((it) => it.minutes_left === "0").map((it) => it.reel),
      isEmpty: on.length === 0,
      bring: [],
    };
  });
}

/**
 * The reels that may be brought, in the order in which they are used, each with the parts that
 * it may stand for. `cards` has the own part of some.
 */
function reelsOf(lines, rows, cards) {
  const found = new Map();
  const wanted = new Set(rows.map((it) => `${it.machine} ${it.slot}`));
  lines.flatMap((it) => [...it.kit, ...it.more])
    .filter((it) => it.reel !== "")
    .forEach(({ reel, pieces, minutes_left, part }) => {
      const known = found.get(reel) ?? {
        reel,
        pieces: Number(pieces),
        minutes_left,
        own: cards.get(reel) ?? null,
        parts: new Set(),
      };
      found.set(reel, known);
      known.parts.add(part);
    });
  const standsFor =
    new Map(); // of a part: the parts of the sheet for which its reels were named
  const free = [...found.values()];
  free.filter((it) => it.own)
    .forEach(
      (it) =>
        standsFor.set(it.own, new Set([...(standsFor.get(it.own) ?? [it.own]), ...it.parts])),
    );
  free
    .filter(
      (it) => it.own,
    )
    .forEach((it) => standsFor.get(it.own).forEach((part) => it.parts.add(part)));
  const idle = lines.flatMap(
    ({ machine, slots }) =>
      slots
        .filter(
          (it) => !wanted.has(`${machine} ${it.slot}`) && it.minutes_left !== "0",
        )
        .map((it) => ({ ...it, machine })),
  );
  const movable = idle.map(({ machine, slot, reel, part, remaining, minutes_left }) => ({
                             reel,
                             pieces: Number(remaining),
                             minutes_left,
                             own: part,
                             parts: new Set([part]),
                             from: { machine, slot },
                           }));
  return [...free.sort(byTurn), ...movable.sort(byTurn)];
}

/**
 * Gives reels to the rows until each has `wants(row)` pieces or no reel is left for it. A reel
 * goes to another row where its own can do without.
 */
function give(rows, reels, wants) {
  const has = new Map(rows.flatMap((row) => row.bring.map((it) => [it, row])));
  const lacks = (row) => wants(row) - piecesOf(row.bring);
  const put = (reel, row) => {
    const before = has.get(reel);
    if (before) {
      before.bring = before.bring.filter((it) => it !== reel);
    }
    has.set(reel, row);
    row.bring = [...row.bring, reel];
  };
  const takeFree = (row) => reels.forEach((it) => {
    if (lacks(row) > 0 && !has.has(it) && it.parts.has(row.part)) {
      put(it, row);
    }
  });
  const fill = (row, seen) => {
    takeFree(row);
    for (const reel of reels.filter(
           (it) => has.has(it) && has.get(it) !== row && it.parts.has(row.part),
         )) {
      const other = has.get(reel);
      if (lacks(row) <= 0) {
        break;
      }
      if (!seen.has(reel) && other !== row) {
        seen.add(reel);
        const before = rows.map((it) => it.bring);
        put(reel, row);
        if (lacks(other) > 0 && !fill(other, seen)) {
          has.clear();
          rows.forEach((it, at) => {
            it.bring = before[at];
            it.bring.forEach((one) => has.set(one, it));
          });
        }
      }
    }
    return lacks(row) <= 0;
  };
  rows.forEach(takeFree);
  rows.filter((row) => lacks(row) > 0).forEach((row) => fill(row, new Set()));
}

/**
 * The rows of all machines with what is on the slot, what to bring, and what neither has. `lines`
 * have of each machine its slot list, its kit list for the most boards as `kit` and for `boards`
 * as `more`; `cards` the part of a reel by its name. Pieces of another part on a slot are told
 * apart: whether they may stand there no report says. So nothing is `missing` that they could be,
 * and `unsure` says what would be missing without them.
 */
export function allotted(lines, boards, cards = new Map()) {
  const rows = lines.flatMap((it) => rowsOf(it, boards));
  const reels = reelsOf(lines, rows, cards);
  give(rows, reels, (row) => row.needed - row.mounted - row.other);
  const met =
    new Set(rows.filter((row) => piecesOf(row.bring) >= row.needed - row.mounted - row.other));
  give(rows, reels, (row) => row.needed - row.mounted - (met.has(row) ? 0 : row.other));
  return rows.map((row) => {
    const rest = row.needed - row.mounted - piecesOf(row.bring);
    const missing = Math.max(0, rest - row.other);
    return {
      ...row,
      bring:
        [...row.bring].sort((a, b) => Number("from" in a) - Number("from" in b) || byTurn(a, b)),
      missing,
      unsure: missing ? 0 : Math.max(0, rest),
    };
  });
}

/**
 * The reels whose own part would say more where rows are short: those that are named for another
 * part alone.
 */
export function unclear(lines, rows, cards) {
  const short = new Set(rows.filter((it) => it.missing || it.unsure).map((it) => it.part));
  const named = lines.flatMap((it) => it.kit)
                  .filter(
                    (it) => it.reel !== "" && !cards.has(it.reel) &&
                      [...short].some((part) => part !== it.part),
                  )
                  .map((it) => it.reel);
  return short.size ? [...new Set(named)] : [];
}
