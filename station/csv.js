// The desk's reports as rows, and rows as CSV.

/** The rows of a CSV text, each a list of fields; the header is the first. */
export function fieldsOf(text) {
  const rows = [];
  let row = [];
  let field = "";
  let quoted = false;
  for (let at = 0; at < text.length; at += 1) {
    const letter = text[at];
    if (quoted) {
      if (letter === "\"" && text[at + 1] === "\"") {
        field += "\"";
        at += 1;
      } else if (letter === "\"") {
        quoted = false;
      } else {
        field += letter;
      }
    } else if (letter === "\"") {
      quoted = true;
    } else if (letter === ",") {
      row.push(field);
      field = "";
    } else if (letter === "\n") {
      row.push(field);
      rows.push(row);
      row = [];
      field = "";
    } else if (letter !== "\r") {
      field += letter;
    }
  }
  if (field || row.length) {
    rows.push([...row, field]);
  }
  return rows;
}

/** The rows of a report, each by the names of its header. */
export function rowsOf(text) {
  const [head = [], ...rows] = fieldsOf(text);
  return rows.map((row) => Object.fromEntries(head.map((name, at) => [name, row[at] ?? ""])));
}
