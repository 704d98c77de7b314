// How the machines are, by the line's own answer (docs/line.md, "The state of a machine"): one that
// may work has `go`, and each other one has all its causes.

const PERIOD = 15_000; // milliseconds for which an answer counts
const AT_SLOT = { SlotEmpty: "empty", WrongPart: "wrong", NotBaked: "unbaked", Expired: "expired" };
const OPEN = { work: "refused", differs: "differs" }; // entries of other kinds are of a slot

/** A cause: its name among the texts, and where it is; `entry` is its number in the book. */
function causeOf({ Cause, Kind, Slot, Reel, Refusal, Entry }) {
  const names = {
    NoWork: "idle",
    NoSheet: "sheet",
    Held: "held",
    AtSlot: AT_SLOT[Refusal],
    Open: OPEN[Kind] ?? "slot",
  };
  return {
    cause: names[Cause] ?? Cause,
    slot: Slot ?? null,
    reel: Reel ?? null,
    refusal: Refusal ?? null,
    entry: Entry ?? null,
  };
}

/** How a machine was at a moment of the server. That no board is in work comes last. */
export function stateOf(machine, told, at) {
  const causes = told.Causes.map(causeOf);
  const isIdle = (it) => it.cause === "idle";
  return {
    machine,
    at,
    state: told.State,
    board: told.Board,
    causes: [...causes.filter((it) => !isIdle(it)), ...causes.filter(isIdle)],
  };
}

/** Whether a state still counts at a moment of the server. */
export function isFresh({ at }, now) {
  return at !== null && now !== null && now - at <= PERIOD;
}
