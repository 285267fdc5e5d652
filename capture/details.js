// All that is told of a message.

// so many octets are shown before more are asked for, and so many in a line
const OCTETS = 2048, IN_LINE = 8;

/** A row of fields: its name, and what it is. */
const field = (name, inside) => [
  make("dt", {}, name), make("dd", {}, inside instanceof Node ? inside : make("bdi", {}, String(inside))),
];

/** Octets in lines: their place, their digits, and what is ASCII of them. */
function linesOf(hex) {
  const lines = [];
  for (let at = 0; at < hex.length; at += 2 * IN_LINE) {
    const pairs = hex.slice(at, at + 2 * IN_LINE).match(/../g);
    const signs = pairs.map((it) => parseInt(it, 16)).map((it) => (it > 31 && it < 127 ? String.fromCharCode(it) : "."));
    lines.push(`${(at / 2).toString(16).padStart(4, "0")}  ${pairs.join(" ").padEnd(3 * IN_LINE - 1)}  ${signs.join("")}`);
  }
  return lines.join("\n");
}

/** Octets, the first of them until all are asked for. */
function octets(hex, size, number) {
  const has = hex.length / 2;
  const shown = make("pre", { class: "octets", tabindex: "0" }, linesOf(hex.slice(0, 2 * OCTETS)));
  const parts = [shown];
  if (has > OCTETS) {
    const more = make("button", { type: "button" }, `All ${counted(has, "octet")}`);
    more.addEventListener("click", () => { shown.textContent = linesOf(hex); more.remove(); });
    parts.push(more);
  }
  const left = `${counted(size - has, "octet")} more are left out of this page. They are printed by:`;
  if (has < size) parts.push(make("p", { class: "of" }, left), make("code", {}, `giop-capture FILE --call ${number} --bodies`));
  return parts;
}

/** The number of a message, as a link to it. */
const to = (row, words = "") => make("a", { href: `#m${column.number[row]}` }, `${column.number[row]}`, words);

/** Which messages belong to this one. */
function tiesOf(row) {
  const parts = [], number = column.request[row], asked = callOf[row];
  const first = column.repeats[row] ? rowOf(column.repeats[row]) : row;
  const late = latencyOf[row] < 0 ? "" : ` after ${span(latencyOf[row])}`;
  if (asked !== row) parts.push(...field(kindOf(row) === "CancelRequest" ? "cancels" : "answers", to(asked)));
  else if (number) parts.push(...field("answers", number));
  if (answerOf[row] >= 0) parts.push(...field("answered by", to(answerOf[row], late)));
  if (first >= 0 && first !== row) parts.push(...field("repeat of", to(first)));
  const others = first === row && repeatsOf.get(row);
  if (others) parts.push(...field("repeated by", make("span", {}, ...others.slice(0, 20).flatMap((it) => [to(it), " "]))));
  if (column.next[row]) parts.push(...field("goes on in", to(rowOf(column.next[row]))));
  if (flagOf(row, UNANSWERED)) parts.push(...field("answer", make("span", { class: "lost" }, "none")));
  if (flagOf(row, CANCELLED)) parts.push(...field("cancelled", "yes"));
  return parts;
}

/** Where a message is: when it came, from where, and in which packet. */
function placeOf(row, more) {
  const [from, to] = addressesOf(row);
  return [
    ...field("time", more.time || "not known"), ...field("since the first", `${clock(column.since[row])} s`),
    ...(column.latency[row] < 0 ? [] : field("latency", `${digits(column.latency[row])} ns`)),
    ...field("from", from), ...field("to", to), ...field("connection", column.connection[row]),
    ...field("frame", more.frame ?? "-"), ...field("direction", column.side[row] ? "acceptor" : "opener"),
    ...field("octets so far", digits(more.to)),
  ];
}

/** The fields of an object, one below another. */
function tree(it) {
  if (Array.isArray(it)) return make("ol", { start: "0" }, ...it.map((one) => make("li", {}, tree(one))));
  if (it === null || typeof it !== "object") return make("bdi", {}, String(it));
  return make("dl", {}, ...Object.entries(it).flatMap(([name, one]) => field(name, tree(one))));
}

const part = (head, ...inside) => make("section", {}, make("h3", {}, head), ...inside);

const NAMES = {
  version: "version", order: "order", id: "request id", reply: "reply wanted", status: "status", octets: "body octets",
  frames: "frames", note: "note",
};
// what has a part of its own
const APART = ["time", "frame", "to", "contexts", "body", "values", "target", "ft", "exception", "forward"];

/** A context: what its octets mean, and these. */
const contextPart = (it, number) => part(`Context ${it.id} ${it.name || ""}`.trim(),
  it.meaning ? make("p", {}, make("bdi", {}, it.meaning)) : null, ...(it.size ? octets(it.octets, it.size, number) : []));

/** The parts of what is told of a message. */
function partsOf(row, more) {
  const number = column.number[row];
  const own = Object.entries(NAMES).flatMap(([name, words]) => (more[name] === undefined ? [] : field(words, more[name])));
  const known = new Set([...Object.keys(NAMES), ...APART]);
  const others = Object.entries(more).filter(([name]) => !known.has(name)).flatMap(([name, it]) => field(name, tree(it)));
  const ties = tiesOf(row);
  const values = (more.values || []).flatMap(([name, it]) => field(name === "-" ? "result" : name, it));
  return [
    values.length ? part("Values", make("dl", {}, ...values)) : null,
    ties.length ? part("Call", make("dl", {}, ...ties)) : null,
    part("Message", make("dl", {}, ...own, ...others)),
    part("Place", make("dl", {}, ...placeOf(row, more))),
    more.target ? part("Target", tree(more.target)) : null,
    more.exception ? part("Exception", tree(more.exception)) : null,
    more.forward ? part("Leads on to", tree(more.forward)) : null,
    more.ft ? part("FT_REQUEST", tree(more.ft)) : null,
    ...(more.contexts || []).map((it) => contextPart(it, number)),
    more.octets ? part(`Body, ${counted(more.octets, "octet")}`, ...octets(more.body || "", more.octets, number)) : null,
  ].filter((it) => it !== null);
}

/** Shows what is told of a message. */
function showDetails(row) {
  const operation = textOf(column.operation[row]), more = moreOf(row);
  byId("details-head").replaceChildren(`${column.number[row]} ${kindOf(row)} `, make("bdi", {}, operation));
  byId("fields").replaceChildren(...(more === null ? [make("p", {}, "The page is still loading.")] : partsOf(row, more)));
  byId("fields").scrollTop = 0;
  byId("details").hidden = false;
}
