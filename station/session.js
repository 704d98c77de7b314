// Who is logged in. Who was logged out logs in on the page itself: a prompt of the browser would
// take every key, and what is scanned meanwhile would be lost.

const SECONDS = 20;
let header = null; // of a log-in on this page; before it the browser has one of its own

/**
 * The address of a path of this server, without the log-in that the page's own address may have:
 * a browser makes no request to an address with one.
 */
export function addressOf(path) {
  return new URL(path, location.origin).href;
}

/** The headers by which a request says who asks. */
export function headers() {
  return header === null ? {} : { Authorization: header };
}

/** Whether this is the status of a request by nobody who may make it. */
export function isLoggedOut(status) {
  return status === 401 || status === 403;
}

async function statusOf(path, authorization) {
  const how = { cache: "no-store", signal: AbortSignal.timeout(SECONDS * 1000) };
  try {
    const headers = { Authorization: authorization };
    return (await fetch(addressOf(path), { ...how, headers })).status;
  } catch {
    return 0;
  }
}

/** Lets the browser know a log-in that is right, so that the page can be loaded anew. */
function remember(user, password) {
  const request = new XMLHttpRequest();
  request.open("GET", addressOf("/station/log-in"), true, user, password);
  request.send();
}

/** A log-in by its user and password, as a request has it. */
export function authorizationOf(user, password) {
  const bytes = new TextEncoder().encode(`${user}:${password}`);
  return `Basic ${btoa(String.fromCharCode(...bytes))}`;
}

/**
 * Logs in: "sends" or "reads" by what this log-in may do, "wrong", or "none" without an answer.
 */
export async function logIn(user, password) {
  const authorization = authorizationOf(user, password);
  const sends = await statusOf("/station/may-send.json", authorization);
  const reads = isLoggedOut(sends) ? await statusOf("/station/setup.json", authorization) : 0;
  const may = sends === 200 ? "sends"
    : reads === 200 ? "reads"
    : isLoggedOut(reads) ? "wrong"
                            : "none";
  if (may === "sends" || may === "reads") {
    header = authorization;
  }
  if (may === "sends") {
    remember(user, password);
  }
  return may;
}
