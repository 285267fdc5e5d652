// What the page was given, and what follows of it.

const byId = (id) => document.getElementById(id);
const data = JSON.parse(byId("data").textContent);
const column = data.columns;
const count = column.number.length;
const UNANSWERED = 1, CANCELLED = 2, STRAY = 4, ONE_WAY = 8;
const TONES = ["plain", "repeat", "forward", "exception", "fault"];
const endsOf = new Map(data.ends.map((it) => [it[0], it]));
const textOf = (number) => (number < 0 ? "" : data.texts[number]);
const kindOf = (row) => data.kinds[column.kind[row]];

/** The row of the message with a number, or -1. */
function rowOf(number) {
  if (column.number[number - 1] === number) return number - 1;
  let low = 0, high = count - 1;
  while (low <= high) {
    const middle = (low + high) >> 1;
    if (column.number[middle] === number) return middle;
    if (column.number[middle] < number) low = middle + 1; else high = middle - 1;
  }
  return -1;
}

/** For each row, that of the request which it answers or cancels, or itself. */
const callOf = Int32Array.from(column.request, (request, row) => {
  const asked = request ? rowOf(request) : -1;
  return asked < 0 ? row : asked;
});

/** For each request, the row of its first answer, or -1. */
const answerOf = new Int32Array(count).fill(-1);
/** For each message, the latency of its call in nanoseconds, or -1. */
const latencyOf = new Float64Array(count).fill(-1);
for (let row = 0; row < count; row++) {
  if (callOf[row] === row || kindOf(row) === "CancelRequest") continue;
  if (answerOf[callOf[row]] < 0) answerOf[callOf[row]] = row;
  latencyOf[callOf[row]] = Math.max(latencyOf[callOf[row]], column.latency[row]);
}

/** The rows that ask one call: by the row of the first, those of its repeats. */
const repeatsOf = new Map();
for (let row = 0; row < count; row++) {
  const first = column.repeats[row] ? rowOf(column.repeats[row]) : -1;
  if (first < 0) continue;
  if (!repeatsOf.has(first)) repeatsOf.set(first, []);
  repeatsOf.get(first).push(row);
}

const flagOf = (row, flag) => (column.flags[row] & flag) !== 0;
const objectOf = (row) => data.objects[column.object[callOf[row]]];
const clientOf = (row) => textOf(column.client[callOf[row]]);

/** The lanes that each row's arrow goes from, and to. */
const laneOf = [0, 1].map((end) => Int32Array.from(column.connection,
  (connection, row) => endsOf.get(connection)[3 + (end ^ column.side[row])]));

function addressesOf(row) {
  const [, opener, acceptor] = endsOf.get(column.connection[row]);
  return column.side[row] ? [acceptor, opener] : [opener, acceptor];
}

/** A time since the first message, in seconds. */
function clock(since) {
  if (since < 0) return "-";
  const micro = Math.floor(since / 1000);
  return `${Math.floor(micro / 1e6)}.${String(micro % 1e6).padStart(6, "0")}`;
}

/** A span of nanoseconds in three digits or so. */
function span(nanoseconds) {
  const units = [[3600e9, "h"], [60e9, "min"], [1e9, "s"], [1e6, "ms"], [1e3, "µs"], [1, "ns"]];
  const [unit, name] = units.find(([size]) => nanoseconds >= size) || units[units.length - 1];
  const value = nanoseconds / unit;
  return `${value.toFixed(unit === 1 || value >= 100 ? 0 : value >= 10 ? 1 : 2)} ${name}`;
}

const digits = (number) => number.toLocaleString("en");
const counted = (number, one) => `${digits(number)} ${one}${number === 1 ? "" : "s"}`;

/** An element with its attributes, and the texts and elements in it. */
function make(name, attributes, ...inside) {
  return fill(document.createElement(name), attributes, inside);
}

function draw(name, attributes, ...inside) {
  return fill(document.createElementNS("http://www.w3.org/2000/svg", name), attributes, inside);
}

function fill(element, attributes, inside) {
  for (const [name, value] of Object.entries(attributes || {})) element.setAttribute(name, value);
  element.append(...inside.filter((it) => it !== null && it !== ""));
  return element;
}

/** What is told of a message beside its row; null while the page has not come so far. */
function moreOf(row) {
  const part = byId(`part${Math.floor(row / data.part)}`);
  if (part === null || (document.readyState === "loading" && part.nextSibling === null)) return null;
  return JSON.parse(part.textContent)[row % data.part];
}
