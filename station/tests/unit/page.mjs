// What a page has and node hasn't: as little as the modules of the station touch when they load.
globalThis.document = { documentElement: {}, body: { dataset: {} }, hidden: false };
globalThis.location = { search: "", href: "https://desk/station/", origin: "https://desk" };
globalThis.localStorage = { getItem: () => null, setItem: () => {} };
globalThis.fetch = async () => {
  throw new Error("there is no network");
};

export const SETUP = {
  machines: [{ machine: "M1", product: "P" }, { machine: "M2", product: "P" }],
  boards: 50,
  expires: 60,
  splice: 10,
  heldSeconds: 120,
  connectionsADay: 26_000,
  scanner: { prefix: "", suffix: "", separators: ["{GS}"] },
  codes: { slot: "S/{machine}/{slot}", badge: "B/{badge}", action: "A/{action}" },
};
