// What is asked of the desk, through the proxy that gave this page.
import { hear, now as serverNow } from "./clock.js";
import { rowsOf } from "./csv.js";
import * as session from "./session.js";

const GET_SECONDS = 25;
const POST_SECONDS = 30; // then the same bytes are sent again: a message acts once
const ANEW = 300; // milliseconds until an answer of before is asked for again
const ANEW_TIMES = 8; // and how often that is done while the desk makes a new one
const LOOKED_AT = 1_000; // entries of the book, the newest ones
const CACHE = 3_000; // milliseconds after which the proxy asks the desk anew: two whole seconds
const DECIDED = {
  200: ["Accepted"],
  202: ["Ignored"],
  400: ["Faulty"],
  409: ["Refused"],
  422: ["Faulty"],
};
const OF_THE_REQUEST = ["BadHead", "BadLength", "BadQuery"];

// The server's moment of the last answer to a scan: a report of before may lack what it did.
let answered = 0;

/** The desk has answered a scan: reports that are asked for from now on are no older. */
export function heardAnswer() {
  answered = serverNow() ?? 0;
}

/**
 * No report: `status` 0 is no answer at all; `body` is what was said, and `isDesk` that the desk
 * itself said it, of the moment `had`.
 */
export class NotHad extends Error {
  constructor({ status, body, had, age, old }) {
    super(`status ${status}`);
    Object.assign(this, {
      status,
      body,
      had,
      age,
      old,
      isDesk: status === 404 && body.Answer === "NotFound" && had !== null,
    });
  }
}

function objectOf(text) {
  try {
    const told = JSON.parse(text);
    return told && typeof told === "object" && !Array.isArray(told) ? told : {};
  } catch {
    return {};
  }
}

async function asked(target, how, seconds) {
  try {
    const answer = await fetch(session.addressOf(target), {
      ...how,
      headers: { ...session.headers(), ...how.headers },
      cache: "no-store",
      credentials: "same-origin",
      redirect: "error",
      signal: AbortSignal.timeout(seconds * 1000),
    });
    hear(answer.headers); // before the body, which may take a while
    const text = await answer.text();
    return { status: answer.status, text, headers: answer.headers };
  } catch {
    return { status: 0, text: "", headers: new Headers() };
  }
}

/**
 * An answer of the proxy's cache: of which moment of the server it is, whether the desk didn't
 * answer, and whether it is asked anew at this moment.
 */
async function looked(target) {
  const { status, text, headers } = await asked(target, {}, GET_SECONDS);
  const cached = headers.get("X-Station-Cache");
  const had = Number(headers.get("X-Desk-Answered")) * 1000;
  const now = Number(headers.get("X-Station-Now")) * 1000;
  return {
    status,
    text,
    now,
    had: had > 0 ? had : null,
    age: had > 0 && now > 0 ? Math.max(0, now - had) : null,
    old: cached === "STALE",
    anew: cached === "UPDATING",
  };
}

/**
 * A report: its text, and of which moment of the server it is. It is asked for again while the
 * cache has only one from before the last answer to a scan, or another station asks the desk: its
 * answer is ours too. A report that isn't had is a NotHad.
 */
export async function report(path, query = {}) {
  const words = new URLSearchParams(query).toString();
  const target = `/station/desk/${path}${words ? `?${words}` : ""}`;
  const since = answered;
  const isBefore = ({ had, now, old }) => !old && had !== null && had < since &&
    since <= now; // later than now is a clock that was set back
  let told = await looked(target);
  for (let turn = 0; turn < ANEW_TIMES && (told.anew || isBefore(told)); turn += 1) {
    await new Promise(
      (resolve) => setTimeout(resolve, told.anew ? ANEW : Math.max(ANEW, CACHE - told.age)),
    );
    told = await looked(target);
  }
  if (told.status !== 200) {
    throw new NotHad({ ...told, body: objectOf(told.text) });
  }
  return told;
}

/** The rows of a report by the names of its header, beside what `report` says of it. */
export async function rows(path, query) {
  const told = await report(path, query);
  return { ...told, rows: rowsOf(told.text) };
}

/** What an asking finds, or null where it isn't had. */
export async function had(asking) {
  try {
    return await asking;
  } catch (fault) {
    if (!(fault instanceof NotHad)) {
      throw fault;
    }
    return null;
  }
}

/** A file of the station itself as JSON, or null; `since` is when it was last changed. */
export async function file(name) {
  const { status, text, headers } = await asked(`/station/${name}`, {}, GET_SECONDS);
  return {
    status,
    told: status === 200 ? objectOf(text) : null,
    since: Date.parse(headers.get("Last-Modified") ?? "") || null,
  };
}

/** Whether this log-in may send; null where nothing said so. It hears the server's time too. */
export async function maySend(seconds = GET_SECONDS) {
  const { status } = await asked("/station/may-send.json", {}, seconds);
  return status === 200 ? true : session.isLoggedOut(status) ? false : null;
}

/**
 * The number of the entry that the line's book has of a message: null if there is none among the
 * newest ones, and a NotHad where the line doesn't say.
 */
export async function entryOf(uid) {
  const look = async (target) => {
    const told = await asked(target, {}, GET_SECONDS);
    if (told.status !== 200) {
      throw new NotHad({ ...told, body: {} });
    }
    return told.text;
  };
  const { Entries } = objectOf(await look("/line/counts"));
  const all = rowsOf(await look(`/line/book?after=${Math.max(0, Entries - LOOKED_AT)}`));
  return Number(all.find((it) => it.uid === uid)?.n ?? 0) || null;
}

/**
 * Decides about an entry of the line's book: "had", or "forbidden", or "none" where the line gave
 * no answer.
 */
export async function decide(told) {
  const headers = { "Content-Type": "application/json" };
  const how = { method: "POST", body: JSON.stringify(told), headers };
  const { status } = await asked("/line/decisions", how, POST_SECONDS);
  heardAnswer();
  return status === 200 ? "had" : session.isLoggedOut(status) ? "forbidden" : "none";
}

/**
 * Sends a message once. `answer` is the desk's, where there is one; `again` says that sending
 * again may bring one.
 */
export async function post(text, uid) {
  const { status, text: body, headers } = await asked(
    "/station/messages",
    { method: "POST", body: text, headers: { "Content-Type": "application/json" } },
    POST_SECONDS,
  );
  const told = objectOf(body);
  const isAnswer = DECIDED[status]?.includes(told.Answer) && !OF_THE_REQUEST.includes(told.Fault);
  if (isAnswer && (!["Accepted", "Refused"].includes(told.Answer) || told.UniqueID === uid)) {
    return { answer: told, status };
  }
  const again = status === 0 || status === 408 || status === 429 || status >= 500 || isAnswer;
  return {
    answer: null,
    status,
    told,
    again,
    wait: Math.max(0, Number(headers.get("Retry-After")) || 0),
  };
}
