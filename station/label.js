// A supplier's label: ISO/IEC 15434, form 06, with data identifiers of ANSI MH10.8.2, as EIGP 114
// has them.

const ATTRIBUTES = { DateCode: "9D", Supplier: "V", MakerPart: "1P", Order: "K" };
const IDENTIFIER = /^([0-9]{0,3}[A-Z])(.*)$/s;

/**
 * The fields of a label by their identifiers, or null where it is none. `separators` are what
 * the scanner makes of a group separator.
 */
export function fieldsOf(text, separators) {
  let read = text;
  for (const [wedge, control] of
         [...separators.map((it) => [it, "\x1d"]), ["{RS}", "\x1e"], ["{EOT}", "\x04"]]) {
    read = read.split(wedge).join(control);
  }
  // its separators are control characters
  // eslint-disable-next-line no-control-regex
  const envelope = /^\[\)>\x1e?06\x1d?(.*?)\x1e?\x04?$/s.exec(read);
  if (!envelope || !envelope[1].includes("\x1d")) {
    return null;
  }
  const found = {};
  for (const part of envelope[1].split("\x1d")) {
    const [, identifier, value] = IDENTIFIER.exec(part.trim()) ?? [];
    if (identifier && value && !(identifier in found)) {
      found[identifier] = value.trim();
    }
  }
  return Object.keys(found).length ? found : null;
}

/**
 * What is received, as far as the label says it. `names` are the identifiers of part and reel in
 * this plant.
 */
export function receiptOf(fields, names) {
  const quantity = /^[0-9]+/.exec(fields.Q ?? "")?.[0] ?? "";
  return {
    part: fields[names.part] ?? fields["1P"] ?? "",
    lot: fields["1T"] ?? "",
    quantity,
    reel: fields[names.reel] ?? "",
  };
}

/** What a label says of a reel and no desk keeps: the line's book of attributes does. */
export function attributesOf(fields) {
  return Object.fromEntries(
    Object.entries(ATTRIBUTES)
      .map(([name, identifier]) => [name, fields[identifier]])
      .filter(([, value]) => value),
  );
}
