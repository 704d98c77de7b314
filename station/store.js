// What outlives a reload, a crash of the browser and a day without network: the scans and a few
// notes.

const NAME = "tracedesk-station";
const KEPT = 200; // answered scans that are kept to be looked at
let database = null;
let isSafe = null;

function done(request) {
  return new Promise((resolve, reject) => {
    request.onsuccess = () => resolve(request.result);
    request.onerror = () => reject(request.error);
  });
}

function ended(transaction) {
  return new Promise((resolve, reject) => {
    transaction.oncomplete = () => resolve();
    transaction.onabort = transaction.onerror = () =>
      reject(transaction.error ?? new Error("the store broke off"));
  });
}

async function opened() {
  const request = indexedDB.open(NAME, 1);
  request.onupgradeneeded = () => {
    const scans =
      request.result.createObjectStore("scans", { keyPath: "seq", autoIncrement: true });
    scans.createIndex("uid", "uid", { unique: true });
    scans.createIndex("state", "state");
    request.result.createObjectStore("notes");
  };
  return done(request);
}

/**
 * A transaction; where the browser has closed the store after a fault of the disk, in the store
 * opened anew.
 */
async function begun(names, ...how) {
  try {
    return database.transaction(names, ...how);
  } catch (fault) {
    if (fault.name !== "InvalidStateError") {
      throw fault;
    }
    database = await opened();
    return database.transaction(names, ...how);
  }
}

/** Opens the store; a browser that has none can't be a station. */
export async function open() {
  database = await opened();
  navigator.storage?.persist?.().then((it) => {
    isSafe = it;
  });
}

/**
 * Whether the browser may not throw the store away where its disk is full; null where it hasn't
 * said.
 */
export function isKept() {
  return isSafe;
}

/** Keeps a scan on disk. */
export async function keep(scan, state = "waiting") {
  const transaction = await begun("scans", "readwrite", { durability: "strict" });
  const adding = done(transaction.objectStore("scans").add({ ...scan, state }));
  const [seq] = await Promise.all([adding, ended(transaction)]);
  return seq;
}

async function put(scan) {
  const transaction = await begun("scans", "readwrite");
  transaction.objectStore("scans").put(scan);
  await ended(transaction);
}

/** Keeps the answer to a scan. One that isn't a yes is unseen until somebody has seen it. */
export function settle(scan, answer, status) {
  return put({
    ...scan,
    state: "answered",
    answer,
    status,
    unseen: answer.Answer !== "Accepted",
  });
}

async function inState(state) {
  return done((await begun("scans")).objectStore("scans").index("state").getAll(state));
}

/** The scans without an answer, in their order. */
export function waiting() {
  return inState("waiting");
}

/** The scans with an answer that is no yes and that no one has seen, the newest first. */
export async function unseen() {
  return [
    ...(await inState("answered")).filter((it) => it.unseen),
    ...(await inState("notSent")),
  ].sort((a, b) => b.seq - a.seq);
}

export async function byUid(uid) {
  return done((await begun("scans")).objectStore("scans").index("uid").get(uid));
}

/** Notes that somebody has seen the answer to a scan. */
export async function see(uid) {
  const scan = await byUid(uid);
  if (scan?.state === "notSent") {
    (await begun("scans", "readwrite")).objectStore("scans").delete(scan.seq);
  } else if (scan?.unseen) {
    await put({ ...scan, unseen: false });
  }
}

/** The latest scans, the newest first. */
export async function latest(count) {
  const request = (await begun("scans")).objectStore("scans").openCursor(null, "prev");
  const found = [];
  return new Promise((resolve, reject) => {
    request.onerror = () => reject(request.error);
    request.onsuccess = () => {
      if (request.result && found.length < count) {
        found.push(request.result.value);
        request.result.continue();
      } else {
        resolve(found);
      }
    };
  });
}

/** Drops the oldest answered scans beyond those that are kept. */
export async function tidy() {
  const answered = (await inState("answered")).filter((it) => !it.unseen);
  const transaction = await begun("scans", "readwrite");
  answered.slice(0, -KEPT).forEach(({ seq }) => transaction.objectStore("scans").delete(seq));
  await ended(transaction);
}

export async function note(name) {
  return done((await begun("notes")).objectStore("notes").get(name));
}

export async function setNote(name, value) {
  const transaction = await begun("notes", "readwrite");
  transaction.objectStore("notes").put(value, name);
  await ended(transaction);
}
