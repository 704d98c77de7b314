// Data Matrix (ISO/IEC 16022, ECC 200, square): a text of printable ASCII as modules. A small
// label has room for one where a Code 128 is too long.
import { el } from "./dom.js";

// the modules of a side, of its codewords those of the data and those that correct errors
const SIZES = [
  [10, 3, 5],
  [12, 5, 7],
  [14, 8, 10],
  [16, 12, 12],
  [18, 18, 14],
  [20, 22, 18],
  [22, 30, 20],
  [24, 36, 24],
  [26, 44, 28],
  [32, 62, 36],
  [36, 86, 42],
  [40, 114, 48],
];
const ONE_REGION = 26; // modules of a side; a larger symbol has four regions
const PAD = 129;
const FIELD = 0x12d; // the polynomial of its arithmetic
const EXP = [];
const LOG = [];
for (let power = 0, value = 1; power < 255; power += 1) {
  EXP[power] = value;
  LOG[value] = power;
  value = value < 128 ? value << 1 : (value << 1) ^ FIELD;
}
const times = (a, b) => (a && b ? EXP[(LOG[a] + LOG[b]) % 255] : 0);

/** The codewords of a text: two digits are one. */
function codewordsOf(text) {
  const parts = text.match(/[0-9]{2}|[ -~]/g) ?? [];
  if (parts.join("") !== text) {
    throw new Error("a label has printable ASCII alone");
  }
  return parts.map((it) => (it.length === 2 ? 130 + Number(it) : it.charCodeAt(0) + 1));
}

/** The data with its padding, which no scanner takes for a pattern. */
function padded(data, count) {
  const whole = [...data];
  while (whole.length < count) {
    const noise = ((149 * (whole.length + 1)) % 253) + 1;
    whole.push(whole.length === data.length ? PAD : (PAD + noise - 1) % 254 + 1);
  }
  return whole;
}

/** The codewords that correct errors (Reed-Solomon). */
function corrections(data, count) {
  let generator = [1];
  for (let power = 1; power <= count; power += 1) {
    const shifted = [...generator, 0];
    generator = shifted.map((it, at) => it ^ times(EXP[power], generator[at - 1] ?? 0));
  }
  const rest = new Array(count).fill(0);
  for (const it of data) {
    const factor = it ^ rest.shift();
    rest.push(0);
    rest.forEach((_, at) => {
      rest[at] ^= times(factor, generator[at + 1]);
    });
  }
  return rest;
}

const UTAH =
  [[-2, -2], [-2, -1], [-1, -2], [-1, -1], [-1, 0], [0, -2], [0, -1], [0, 0]];
// the four corners; a negative place counts from the other end
const CORNERS = [
  [[-1, 0], [-1, 1], [-1, 2], [0, -2], [0, -1], [1, -1], [2, -1], [3, -1]],
  [[-3, 0], [-2, 0], [-1, 0], [0, -4], [0, -3], [0, -2], [0, -1], [1, -1]],
  [[-3, 0], [-2, 0], [-1, 0], [0, -2], [0, -1], [1, -1], [2, -1], [3, -1]],
  [[-1, 0], [-1, -1], [0, -3], [0, -2], [0, -1], [1, -3], [1, -2], [1, -1]],
];

/** The corner that begins at a place of a field of so many modules a side, or none. */
function cornerAt(row, column, side) {
  const found = [
    row === side && column === 0,
    row === side - 2 && column === 0 && side % 4 !== 0,
    row === side - 2 && column === 0 && side % 8 === 4,
    row === side + 4 && column === 2 && side % 8 === 0,
  ].indexOf(true);
  return CORNERS[found];
}

/** The bits of the codewords in their places: rows of 0 and 1. */
function placed(codewords, side) {
  const field = Array.from({ length: side }, () => new Array(side).fill(null));
  let next = 0;
  const put = (places) => {
    places.forEach(([row, column], bit) => {
      field[row][column] = (codewords[next] >> (7 - bit)) & 1;
    });
    next += 1;
  };
  const wrapped = (row, column) => {
    const down = row < 0 ? [row + side, column + 4 - ((side + 4) % 8)] : [row, column];
    return down[1] < 0 ? [down[0] + 4 - ((side + 4) % 8), down[1] + side] : down;
  };
  const utah = (row, column) => {
    const isFree =
      row >= 0 && row < side && column >= 0 && column < side && field[row][column] === null;
    if (isFree) {
      put(UTAH.map(([down, right]) => wrapped(row + down, column + right)));
    }
  };
  let row = 4;
  let column = 0;
  while (row < side || column < side) {
    const corner = cornerAt(row, column, side);
    if (corner) {
      put(corner.map((place) => place.map((it) => (it < 0 ? it + side : it))));
    }
    for (; row >= 0 && column < side; row -= 2, column += 2) {
      utah(row, column);
    }
    row += 1;
    column += 3;
    for (; row < side && column >= 0; row += 2, column -= 2) {
      utah(row, column);
    }
    row += 3;
    column += 1;
  }
  if (field[side - 1][side - 1] === null) { // the corner that no codeword has
    [[1, 1], [2, 2]].forEach(([down, right]) => {
      field[side - down][side - right] = 1;
    });
  }
  return field.map((it) => it.map((bit) => bit ?? 0));
}

/** The modules of a text, rows of 0 and 1; null if it is too long. */
export function modulesOf(text) {
  const data = codewordsOf(text);
  const size = SIZES.find(([, count]) => data.length <= count);
  if (!size) {
    return null;
  }
  const [side, count, errors] = size;
  const whole = padded(data, count);
  const regions = side > ONE_REGION ? 2 : 1;
  const inner = side / regions - 2;
  const field = placed([...whole, ...corrections(whole, errors)], inner * regions);
  const place = (at) => [Math.floor(at / (inner + 2)), at % (inner + 2)];
  const module = (y, x) => {
    const [down, row] = place(y);
    const [right, column] = place(x);
    if (column === 0 || row === inner + 1) {
      return 1; // the solid sides of a region
    }
    if (row === 0 || column === inner + 1) {
      return row === 0 ? (column + 1) % 2 : row % 2; // and its broken ones
    }
    return field[down * inner + row - 1][right * inner + column - 1];
  };
  return Array.from(
    { length: side }, (_, y) => Array.from({ length: side }, (__, x) => module(y, x)),
  );
}

const MODULE = 0.6; // millimetres
const QUIET = 2; // modules around it

/** The modules of a text as a picture; null if it is too long. */
export function matrix(text) {
  const modules = modulesOf(text);
  if (modules === null) {
    return null;
  }
  const side = modules.length + 2 * QUIET;
  const rects = modules.flatMap(
    (row, y) => row.flatMap(
      (bit, x) =>
        (bit ? [el("rect", { x: x + QUIET, y: y + QUIET, width: 1, height: 1 })] : []),
    ),
  );
  const size = `${(side * MODULE).toFixed(1)}mm`;
  return el(
    "svg", { viewBox: `0 0 ${side} ${side}`, class: "matrix", width: size, height: size }, rects,
  );
}
