// What the desk takes as a name or a number (docs/messages.md, "Values"), and how codes of the
// plant are read.

export const LEVELS = ["1", "2", "2a", "3", "4", "5", "5a", "6"];

/**
 * Whether a text is a name: 1 to 64 printable ASCII letters and spaces, with no space at its
 * ends.
 */
export function isName(text) {
  return /^[!-~](?:[ -~]{0,62}[!-~])?$/.test(text);
}

/** The whole number that a text is, where it lies in the range; else null. */
export function numberIn(text, least, most) {
  if (!/^[0-9]{1,9}$/.test(text)) {
    return null;
  }
  const number = Number(text);
  return number >= least && number <= most ? number : null;
}

/** The text with its {name} places filled. */
export function filled(text, values) {
  return text.replace(
    /\{(\w+)\}/g,
    (whole, name) => (name in values ? String(values[name]) : whole),
  );
}

/** What the scanner read, without what it is set to put before and behind it. */
export function stripped(text, scanner) {
  let read = text;
  if (scanner.prefix && read.startsWith(scanner.prefix)) {
    read = read.slice(scanner.prefix.length);
  }
  if (scanner.suffix && read.endsWith(scanner.suffix)) {
    read = read.slice(0, -scanner.suffix.length);
  }
  return read.trim();
}

/** What a code has before the last {place} of its pattern, and behind it. */
export function around(pattern, values) {
  const at = pattern.lastIndexOf("{");
  return [filled(pattern.slice(0, at), values), pattern.slice(pattern.indexOf("}", at) + 1)];
}

/**
 * What stands in a text where the pattern has its last {place}; null where the text is of
 * another form.
 */
function placed(text, pattern, values) {
  const [before, after] = around(pattern, values);
  const isOfForm =
    text.startsWith(before) && text.endsWith(after) && text.length > before.length + after.length;
  return isOfForm ? text.slice(before.length, text.length - after.length) : null;
}

/** Whether a text is only the beginning of a code: what its pattern has before a place. */
function isFragment(text, { machines, codes }) {
  const begins = [
    ...machines.map(({ machine }) => around(codes.slot, { machine })[0]),
    ...[codes.slot, codes.action, codes.badge].map((it) => it.slice(0, it.indexOf("{"))),
  ];
  return begins.includes(text);
}

/**
 * What a code is: a slot with its machine, an action, a badge, a supplier's label, or else a
 * reel.
 */
export function readCode(text, setup) {
  if (text.startsWith("[)>")) {
    return { kind: "label", text };
  }
  if (isFragment(text, setup)) {
    return { kind: "fragment", text };
  }
  for (const { machine } of setup.machines) {
    const slot = placed(text, setup.codes.slot, { machine });
    if (slot !== null) {
      return isName(slot) ? { kind: "slot", machine, slot } : { kind: "none", text };
    }
  }
  const action = placed(text, setup.codes.action, {});
  if (action !== null) {
    return { kind: "action", action };
  }
  const badge = placed(text, setup.codes.badge, {});
  if (badge !== null) {
    return isName(badge) ? { kind: "badge", badge } : { kind: "none", text };
  }
  const slotBegins = setup.codes.slot.slice(0, setup.codes.slot.indexOf("{"));
  if (slotBegins && text.startsWith(slotBegins)) {
    return { kind: "foreign", text };
  }
  return isName(text) ? { kind: "reel", reel: text } : { kind: "none", text };
}
