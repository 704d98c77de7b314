// What the page knows of the line: the desk's reports, each with its moment. It asks at the same
// moments of the server's clock as every other station, so that the proxy's cache makes one
// request of all theirs.
import * as clock from "./clock.js";
import { rowsOf } from "./csv.js";
import * as desk from "./desk.js";
import { lifeOrder } from "./life.js";
import { MOST_BOARDS } from "./limits.js";
import { stateOf } from "./machines.js";
import { sheetOf, shownRows } from "./reckon.js";
import * as store from "./store.js";

const LEAST_PERIOD = 3; // seconds
const KIT_PERIOD = 300; // of sheets, free reels and the overdue list, which seldom change
const PACE_WINDOW = 20 * 60_000; // milliseconds over which a machine's pace is reckoned
const STATUS_PERIOD = 3_000; // milliseconds: of how the machines are
const ENOUGH = 6; // free reels to choose from
const CARDS = 24; // that are asked for at most to find more

/**
 * Every how many seconds the slots are asked for, so that all stations together use up so many
 * connections a day at most.
 */
export function period(machines, connections) {
  const rest = connections - kitsADay(machines);
  return rest <= 0 ? 600 : Math.max(LEAST_PERIOD, (machines * 86_400) / rest);
}

/** How many connections a day the sheets, free reels and the overdue list use up. */
export function kitsADay(machines) {
  return ((machines + 1) * 86_400) / KIT_PERIOD;
}

/** Does something; a fault in it stops nothing but that. */
async function survived(act) {
  try {
    await act();
  } catch (fault) {
    console.error(fault);
  }
}

export class Model {
  /** `changed` is called after each report. */
  constructor(setup, changed) {
    this.setup = setup;
    this.changed = changed;
    this.period = period(setup.machines.length, setup.connectionsADay) * 1000;
    this.lines = setup.machines.map(({ machine, product }) => ({
                                      machine,
                                      configured: product ?? null,
                                      slots: null,
                                      text: null,
                                      kit: null,
                                      kitHad: null,
                                      missing: null,
                                      looks: [],
                                      rows: null,
                                    }));
    this.overdue = null;
    this.overdueHad = null;
    this.parts = new Map(); // of reels, as the desk's reports told them
    this.answers = new Map(); // of slots: what the last answer to a scan said, {isLive, reel, at}
    this.unfit = new Set(); // own parts of reels that were refused for a slot's part
    this.selected = {}; // of each machine: what this station's accepted selection said
    this.state = { had: null, age: null, at: 0, old: false, ok: false, status: 0 };
    this.machines = new Map(); // how each machine is, as the line said it last
    this.entries = []; // of the line's book, that wait for a decision
    this.loads = new Map(); // of slots that stop a machine: the free reel to load, or null
    this.kitTurn = null; // which of the server's periods the kits are of
  }

  async begin() {
    this.selected = (await store.note("selected")) ?? {};
    this.watch();
    for (;;) {
      if (!document.hidden) {
        await survived(() => this.all());
        document.body.dataset.asked = "all";
      }
      const now = clock.now() ?? Date.now();
      const next = (Math.floor(now / this.period) + 1) * this.period;
      await new Promise((resolve) => setTimeout(resolve, next - now + 50));
    }
  }

  /** Reads how the machines are, for good. */
  async watch() {
    for (;;) {
      if (!document.hidden) {
        await survived(() => this.lookAtMachines());
      }
      await new Promise((resolve) => setTimeout(resolve, STATUS_PERIOD));
    }
  }

  line(machine) {
    return this.lines.find((it) => it.machine === machine);
  }

  /** The product of a machine, and where this page has it from. */
  product(machine) {
    const configured = this.line(machine)?.configured;
    const chosen = this.selected[machine];
    const said =
      configured && this.setup.since > chosen?.at ? null : chosen; // the later of the two
    return said ? { product: said.product, from: "station", number: said.number, at: said.at }
      : configured ? { product: configured, from: "setup", at: this.setup.since }
                   : null;
  }

  /**
   * What this page's sheet says of a slot that is scanned: its part, by which sheet, known from
   * where.
   */
  wanted({ machine, slot }) {
    const part = slot ? this.slot(machine, slot).part : null;
    return part === null ? { part } : { part, ...this.product(machine) };
  }

  /** Takes an accepted selection of this station. */
  async select(machine, product, number, at) {
    this.selected[machine] = { product, number, at };
    this.line(machine).looks = [];
    await store.setNote("selected", this.selected);
    await this.kits();
  }

  async all() {
    for (const line of this.lines) {
      await this.slots(line);
    }
    if (this.kitTurn === null || this.kitTurn !== this.turn()) {
      await this.kits();
    }
  }

  /** Reads how each machine is and what waits for a decision, and which reel to load. */
  async lookAtMachines() {
    for (const { machine } of this.lines) {
      const told = await desk.had(desk.report("line/state", { machine }));
      if (told) {
        this.machines.set(machine, stateOf(machine, JSON.parse(told.text), told.had));
      }
    }
    this.entries = (await desk.had(desk.rows("line/undecided", {})))?.rows ?? this.entries;
    this.changed();
    await this.findLoads();
  }

  /** The number of the open entry about a scan that was refused; null if there is none. */
  entryOf({ Machine, Slot, Reel }) {
    const causes = this.machines.get(Machine)?.causes ?? [];
    const isIt = ({ cause, slot, reel }) => cause === "slot" && slot === Slot && reel === Reel;
    return causes.find(isIt)?.entry ?? null;
  }

  /** Asks once for a free reel for each slot that stops a machine. */
  async findLoads() {
    const stops = [...this.machines.values()].flatMap(
      ({ machine, causes }) =>
        causes.filter((it) => it.slot !== null).map((it) => ({ machine, ...it })),
    );
    const keys = stops.map((it) => JSON.stringify([it.machine, it.slot, it.cause, it.reel]));
    [...this.loads.keys()]
      .filter(
        (key) => !keys.includes(key),
      )
      .forEach((key) => this.loads.delete(key));
    for (const [at, key] of keys.entries()) {
      if (!this.loads.has(key)) {
        const free = await this.freeFor(stops[at].machine, stops[at].slot);
        this.loads.set(key, { part: free?.part ?? null, reel: free?.reels[0]?.reel ?? null });
        this.changed();
      }
    }
  }

  /**
   * What to load on the slot that stops a machine: {part, reel}, each of which may be null; or to
   * splice, where the slot has a live reel.
   */
  loadFor({ machine, slot, cause, reel }) {
    const load = this.loads.get(JSON.stringify([machine, slot, cause, reel])) ??
      { part: this.slot(machine, slot).part, reel: null };
    return { ...load, isSplice: Boolean(slot && this.line(machine)) && this.isLive(machine, slot) };
  }

  /** The number of the server's period: it changes at the same moment at every station. */
  turn() {
    return Math.floor((clock.now() ?? Date.now()) / (KIT_PERIOD * 1000));
  }

  async kits() {
    const turn = this.turn();
    const areHad = [];
    for (const line of this.lines) {
      areHad.push(await this.kit(line));
    }
    areHad.push(await this.had(desk.rows("overdue", {}), (told) => {
      this.overdue = told.rows.length;
      this.overdueHad = told.had;
    }));
    this.kitTurn =
      areHad.every(Boolean) ? turn : null; // else they are asked for again at the next look
  }

  /**
   * Takes a report where it is had, and notes how the desk is; false where it isn't had. That a
   * thing is unknown is the desk's answer too.
   */
  async had(asking, take, without = () => {}) {
    const heard = (told) => {
      this.state = {
        had: told.had,
        age: told.age,
        at: performance.now(),
        old: told.old,
        ok: true,
        status: 200,
      };
    };
    let isHad = true;
    try {
      const told = await asking;
      heard(told);
      take(told);
    } catch (fault) {
      if (!(fault instanceof desk.NotHad)) {
        throw fault;
      }
      if (fault.isDesk) {
        heard(fault);
        without(fault.body.Kind, fault.had);
      } else {
        this.state = { ...this.state, ok: false, status: fault.status };
        isHad = false;
      }
    }
    this.changed();
    return isHad;
  }

  async slots(line) {
    await this.had(
      desk.report("slots", { machine: line.machine }),
      (told) => {
        if (told.text !== line.text) {
          line.slots = rowsOf(told.text);
          line.slots.forEach((it) => this.parts.set(it.reel, it.part));
        }
        Object.assign(line, { text: told.text, had: told.had, missing: null, rows: null });
        if (told.had !== null) {
          line.looks = [
            ...line.looks.filter((it) => told.had - it.at < PACE_WINDOW),
            { at: told.had, slots: line.slots },
          ];
        }
      },
      (kind, had) =>
        Object.assign(line, { slots: [], text: null, had, missing: kind, rows: null }),
    );
  }

  async kit(line) {
    const product = this.product(line.machine)?.product;
    if (!product) {
      line.kit = line.rows = null;
      return true;
    }
    return this.had(
      desk.rows("kit", { product, machine: line.machine, boards: "1" }),
      (told) => {
        Object.assign(
          line,
          { kit: sheetOf(told.rows), kitHad: told.had, noSheet: false, rows: null },
        );
      },
      (kind, had) => Object.assign(line, { kit: null, kitHad: had, noSheet: true, rows: null }),
    );
  }

  /** A machine's rows as they are shown: reckoned once for each report. */
  rows(line) {
    line.rows ??= shownRows(line, this.setup);
    return line.rows;
  }

  /** How many minutes a slot's reels last, or null. */
  minutes({ machine, slot }) {
    return this.rows(this.line(machine)).find((it) => it.slot === slot)?.minutes ?? null;
  }

  /** The slots whose reels end within the minutes of the set-up, the next one first. */
  ending() {
    const rows = this.lines.flatMap(
      (line) => this.rows(line)
                  .filter(
                    (it) => it.isEnding,
                  )
                  .map((row) => ({ ...row, machine: line.machine })),
    );
    return rows.sort((a, b) => a.minutes - b.minutes);
  }

  /** Asks for a machine's slots at once. */
  async refresh(machine) {
    const line = this.line(machine);
    if (line) {
      await this.slots(line);
    }
  }

  /**
   * The part that a slot wants by the sheet that is shown, and the reels on it, the front first.
   */
  slot(machine, slot) {
    const line = this.line(machine);
    const wanted = line?.kit?.find((it) => it.slot === slot) ?? null;
    return {
      known: Boolean(line?.slots),
      sheet: Boolean(line?.kit),
      part: wanted?.part ?? null,
      reels: (line?.slots ?? []).filter((it) => it.slot === slot),
    };
  }

  /** The slots of a machine as the desk says them now; null where it doesn't answer. */
  async slotsNow(machine) {
    try {
      const { rows, old } = await desk.rows("slots", { machine });
      return old ? null : rows;
    } catch {
      return null;
    }
  }

  /** The slot that a reel is on, by the slot lists; or null. */
  place(reel) {
    const line = this.lines.find((it) => it.slots?.some((on) => on.reel === reel));
    return line ? { machine: line.machine, slot: line.slots.find((it) => it.reel === reel).slot }
                : null;
  }

  /** Takes what an answer to a scan says of a slot: it holds until a later slot list says it. */
  heard({ word, body, answer, about }) {
    if (answer.Refusal === "WrongPart" && about?.part) {
      this.unfit.add(JSON.stringify([this.parts.get(body.Reel), about.part]));
    }
    const isLive = answer.Answer === "Accepted"
      ? { MaterialsLoaded: true, MaterialsSpliced: true, MaterialsUnloaded: false }[word]
      : { SlotTaken: true, SlotEmpty: false }[answer.Refusal];
    if (body.Slot && isLive !== undefined) {
      const said = { isLive, reel: body.Reel, at: clock.now() };
      this.answers.set(JSON.stringify([body.Machine, body.Slot]), said);
    }
  }

  /** Whether a slot has a live reel: by the last slot list, or by an answer after it. */
  isLive(machine, slot) {
    const said = this.answers.get(JSON.stringify([machine, slot]));
    return said && !(this.line(machine).had > said.at)
      ? said.isLive
      : this.slot(machine, slot).reels.length > 0;
  }

  /** Whether a reel is on a slot, by the last slot list or by an answer to a scan of here. */
  isOn(machine, slot, reel) {
    const said = this.answers.get(JSON.stringify([machine, slot]));
    const isSaid = Boolean(said?.isLive) && said.reel === reel;
    return isSaid || this.slot(machine, slot).reels.some((it) => it.reel === reel);
  }

  /** The card of a reel, or null where the desk does not tell it. */
  async card(reel) {
    try {
      const [card] = (await desk.rows("reel", { reel })).rows;
      this.parts.set(reel, card.part);
      return card;
    } catch {
      return null;
    }
  }

  /**
   * The free reels that the kit list names for a slot or another one of the same part, the first
   * to end first, and alternates that it has at earlier slots; null where it isn't had.
   */
  async freeFor(machine, slot) {
    const product = this.product(machine)?.product;
    const found = new Map();
    const earlier = new Map();
    if (!product) {
      return null;
    }
    let part = null;
    for (const boards of ["1", String(MOST_BOARDS)]) {
      let told;
      try {
        told = await desk.rows("kit", { product, machine, boards });
      } catch {
        return null;
      }
      part = told.rows.find((it) => it.slot === slot)?.part ?? null;
      const first = told.rows.findIndex((it) => it.part === part);
      told.rows.forEach(
        (it, at) => it.reel !== "" &&
          (it.part === part ? found
             : at < first ? earlier
                            : new Map()
          ).set(it.reel, it),
      );
    }
    found.forEach((_, reel) => earlier.delete(reel));
    const sorted = (reels) => [...reels].sort(
      (a, b) =>
        lifeOrder(a.minutes_left) - lifeOrder(b.minutes_left) || (a.reel < b.reel ? -1 : 1),
    );
    return {
      part,
      reels: sorted(found.values()),
      alternates:
        part !== null && found.size < ENOUGH ? sorted(await this.alternates(earlier, part)) : [],
    };
  }

  /**
   * Those of some rows' reels whose own part is another than the row's: the kit has an alternate
   * at one slot only, whatever parts it stands for. One that was refused for this part is none.
   */
  async alternates(rows, part) {
    const found = [];
    let cards = 0;
    for (const row of rows.values()) {
      if (!this.parts.has(row.reel) && cards < CARDS) {
        cards += 1;
        await this.card(row.reel);
      }
      const own = this.parts.get(row.reel);
      if (own !== undefined && own !== row.part && !this.unfit.has(JSON.stringify([
            own,
            part,
          ]))) {
        found.push({ ...row, own });
      }
    }
    return found;
  }
}
