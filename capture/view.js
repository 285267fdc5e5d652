// Which messages are shown, and the items that they stand among: messages, marks between them, and gaps.

const ROW = 0, MARK = 1, GAP = 2;
// a gap is marked where it is so long in nanoseconds, and so many times as long as most
const GAP_LEAST = 50e6, GAP_TIMES = 20;
// so many lines that join messages stand side by side
const TRACKS = 4;
// what is slow
const SLOW = ">100ms";

let found = null;

/** What is looked through for a text, of each row. */
function texts() {
  found = found || Array.from({ length: count }, (_, row) => [
    kindOf(row), textOf(column.operation[row]), textOf(column.tail[row]), textOf(column.client[row]), ...addressesOf(row),
  ].join("\n").toLowerCase());
  return found;
}

const WORDS = {
  unanswered: (row) => flagOf(row, UNANSWERED),
  exceptions: (row) => TONES[column.tone[row]] === "exception",
  repeats: (row) => column.repeats[row] > 0 || repeatsOf.has(row),
  forwards: (row) => TONES[column.tone[row]] === "forward",
};

const FIELDS = {
  operation: (text) => (row) => textOf(column.operation[row]).toLowerCase() === text,
  client: (text) => (row) => clientOf(row).toLowerCase() === text,
  object: (text) => (row) => {
    const [letter, name, key] = objectOf(row) || ["", "", ""];
    return letter.toLowerCase() === text || name.toLowerCase() === text || key === text;
  },
};

/** A word as a filter takes it. */
const quoted = (word) => (/[\s">]|^$/.test(word) ? `"${word.replace(/["\\]/g, "\\$&")}"` : word);

/** What a filter's words ask of a row. */
function asked(words) {
  const tests = [];
  const rest = words.replace(/(?:^|\s)>=?\s*([\d.]+)\s*(ns|us|µs|ms|s)?(?=\s|$)/g, (_, number, unit) => {
    const least = Number(number) * { ns: 1, us: 1e3, "µs": 1e3, ms: 1e6, s: 1e9 }[unit || "ms"];
    tests.push((row) => latencyOf[callOf[row]] >= least);
    return " ";
  });
  for (const [, field, inQuotes, word] of rest.matchAll(/(?:(operation|object|client):)?(?:"((?:[^"\\]|\\.)*)"?|(\S+))/gi)) {
    const text = (inQuotes === undefined ? word : inQuotes.replace(/\\(.)/g, "$1")).toLowerCase();
    if (field) tests.push(FIELDS[field.toLowerCase()](text));
    else if (inQuotes === undefined && Object.hasOwn(WORDS, text)) tests.push(WORDS[text]);
    else tests.push((row) => texts()[row].includes(text));
  }
  return tests;
}

/** The calls for which each test holds of one of their messages. */
function chosen(tests) {
  const isLeft = new Uint8Array(count);
  for (const test of tests) {
    const holds = new Uint8Array(count);
    for (let row = 0; row < count; row++) if (test(row)) holds[callOf[row]] = 1;
    for (let row = 0; row < count; row++) if (!holds[row]) isLeft[row] = 1;
  }
  return isLeft;
}

/** How many messages each word is about, and how many calls are slow. */
function countsOf() {
  const tests = { ...WORDS, repeats: (row) => column.repeats[row] > 0, [SLOW]: asked(SLOW)[0] };
  return Object.entries(tests).map(([word, test]) => {
    let messages = 0;
    for (let row = 0; row < count; row++) if (test(row) && (word !== SLOW || callOf[row] === row)) messages += 1;
    return [word, messages];
  });
}

/** The least gap that is marked among times. */
function leastGap(rows) {
  const gaps = [];
  const step = Math.max(1, Math.floor(rows.length / 2000));
  for (let n = step; n < rows.length; n += step) {
    const gap = column.since[rows[n]] - column.since[rows[n - 1]];
    if (gap >= 0) gaps.push(gap);
  }
  gaps.sort((a, b) => a - b);
  return Math.max(GAP_LEAST, GAP_TIMES * (gaps[gaps.length >> 1] || 0));
}

/** The items of a filter: their kinds, and which message, which mark, or how long a gap. */
function itemsOf(words) {
  const tests = asked(words);
  const isLeft = chosen(tests);
  const rows = [];
  for (let row = 0; row < count; row++) if (!isLeft[callOf[row]]) rows.push(row);
  const items = { kind: [], it: [], rows, at: new Int32Array(count).fill(-1) };
  const least = leastGap(rows);
  const marks = tests.length ? [] : data.marks;
  let mark = 0, last = -1;
  const put = (kind, it, since) => {
    if (last >= 0 && since - last >= least) { items.kind.push(GAP); items.it.push(since - last); }
    if (since >= 0) last = Math.max(last, since);
    items.kind.push(kind);
    items.it.push(it);
  };
  for (const row of rows) {
    for (; mark < marks.length && marks[mark][0] <= row; mark++) put(MARK, mark, marks[mark][1]);
    put(ROW, row, column.since[row]);
    items.at[row] = items.kind.length - 1;
  }
  for (; mark < marks.length; mark++) put(MARK, mark, marks[mark][1]);
  return join(items);
}

/** The spans of items that a line joins: the transmissions of a call, and an answer that leads on with where the call went. */
function spansOf(items) {
  const spans = [];
  for (const [first, others] of repeatsOf) {
    const places = [first, ...others].map((row) => items.at[row]).filter((place) => place >= 0);
    if (places.length > 1) spans.push({ places, tone: "repeat" });
  }
  for (const row of items.rows) {
    const next = column.next[row] ? rowOf(column.next[row]) : -1;
    if (next >= 0 && items.at[next] >= 0) spans.push({ places: [items.at[row], items.at[next]], tone: "forward" });
  }
  return spans.sort((a, b) => a.places[0] - b.places[0]);
}

/** Lays the lines that join items on tracks, where they are side by side. */
function join(items) {
  items.tracks = [];
  for (const span of spansOf(items)) {
    const free = items.tracks.find((track) => endOf(track[track.length - 1]) < span.places[0]);
    if (free) free.push(span);
    else if (items.tracks.length < TRACKS) items.tracks.push([span]);
  }
  return items;
}

const endOf = (span) => span.places[span.places.length - 1];

/** The span of a track that an item lies in. */
function spanAt(track, place) {
  let low = 0, high = track.length;
  while (low < high) {
    const middle = (low + high) >> 1;
    if (track[middle].places[0] <= place) low = middle + 1; else high = middle;
  }
  return low > 0 && endOf(track[low - 1]) >= place ? track[low - 1] : null;
}

/** The lanes that items have, with the place of each; where there are too many, those of fewest messages share one: the hosts
 * on the left, the addresses on the right. */
function lanesIn(items, most) {
  const uses = new Array(data.lanes.length).fill(0);
  for (const ends of laneOf) for (const row of items.rows) uses[ends[row]] += 1;
  const shown = data.lanes.map((_, lane) => lane).filter((lane) => uses[lane] || !items.rows.length);
  const others = shown.length > most ? [...shown].sort((a, b) => uses[b] - uses[a]).slice(most - 2) : [];
  const [hosts, addresses] = [false, true].map((called) => others.filter((lane) => data.lanes[lane][1] === called));
  const isOther = new Set(others);
  const kept = shown.filter((lane) => !isOther.has(lane));
  const heads = kept.map((lane) => ({ name: data.lanes[lane][0], called: data.lanes[lane][1] }));
  if (hosts.length) heads.unshift({ name: `${hosts.length} hosts`, called: false });
  if (addresses.length) heads.push({ name: `${addresses.length} addresses`, called: true });
  const places = new Map(kept.map((lane, n) => [lane, n + (hosts.length ? 1 : 0)]));
  return { heads, place: data.lanes.map(([, called], lane) => places.get(lane) ?? (called ? heads.length - 1 : 0)) };
}
