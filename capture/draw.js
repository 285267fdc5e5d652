// Rows of the list: lanes and arrows, and words.

const HEIGHT = 28, TRACK = 12, HEAD = 7, NARROW = 84;
let items = null, lanes = null, wide = 0, gutter = 0;

/** Lays the lanes of the items into a width. */
function layLanes(width) {
  const room = Math.max(260, width * 0.4);
  lanes = lanesIn(items, Math.max(4, Math.min(12, Math.floor(room / NARROW))));
  gutter = items.tracks.length * TRACK + (items.tracks.length ? 6 : 0);
  wide = Math.max(NARROW, Math.min(132, Math.floor((room - gutter) / lanes.heads.length)));
  document.documentElement.style.setProperty("--lanes", `${gutter + wide * lanes.heads.length}px`);
}

const across = (lane) => gutter + wide * lane + Math.floor(wide / 2) + 0.5;

/** The names above the lanes; an address may have its port in a line of its own. */
function laneHeads() {
  return make("div", { class: "heads" }, ...lanes.heads.map(({ name, called }, lane) => {
    const port = called ? name.lastIndexOf(":") : -1;
    const words = port < 0 ? [name] : [name.slice(0, port), document.createElement("wbr"), name.slice(port)];
    const head = make("span", { class: called ? "lane called" : "lane", title: name }, make("bdi", {}, ...words));
    head.style.left = `${gutter + wide * lane + 3}px`;
    head.style.width = `${wide - 6}px`;
    return head;
  }));
}

/** The lines that join an item with others. */
function joinsAt(place) {
  const middle = HEIGHT / 2;
  return items.tracks.flatMap((track, number) => {
    const span = spanAt(track, place);
    if (span === null) return [];
    const x = TRACK * number + TRACK / 2 + 1;
    const line = `M${x} ${place > span.places[0] ? 0 : middle}V${place < endOf(span) ? HEIGHT : middle}`;
    const isOne = span.places.includes(place);
    return [draw("path", { class: `join ${span.tone}`, d: line }),
      isOne ? draw("circle", { class: `dot ${span.tone}`, cx: x, cy: middle, r: 3.5 }) : null];
  });
}

/** The arrow of a message. */
function arrowOf(row) {
  const [from, to] = laneOf.map((ends) => lanes.place[ends[row]]);
  const middle = HEIGHT / 2, kind = kindOf(row), tone = TONES[column.tone[row]];
  const start = across(from), isLost = flagOf(row, UNANSWERED);
  const end = from === to ? start + wide / 3 : across(to);
  const way = end > start ? 1 : -1;
  const isBack = kind === "Reply" || kind === "LocateReply";
  const name = `arrow ${isLost && tone === "plain" ? "lost" : tone}${isBack ? " back" : ""}`;
  const tip = isLost ? end - way * 16 : end - way * 2;
  const head = isLost
    ? `M${tip - 5} ${middle - 5}l10 10m0 -10l-10 10`
    : kind === "CloseConnection" ? `M${tip} ${middle - 6}v12`
      : `M${tip - way * HEAD} ${middle - 4.5}L${tip} ${middle}L${tip - way * HEAD} ${middle + 4.5}${isBack ? "" : "z"}`;
  const isOpen = isLost || isBack || kind === "CloseConnection";
  return [
    draw("path", { class: name, d: `M${start + way * 2} ${middle}H${isOpen ? tip : tip - way * 4}` }),
    draw("path", { class: `${name} ${isOpen ? "open" : "head"}`, d: head }),
  ];
}

/** The sign of a mark on its lane. */
function signOf([, , connection, side, tone, sign]) {
  const x = across(lanes.place[endsOf.get(connection)[side ? 4 : 3]]), y = HEIGHT / 2;
  const name = `sign ${TONES[tone]}`;
  if (sign === "end") return [draw("path", { class: name, d: `M${x - 8} ${y}h16` })];
  if (sign === "reset") return [draw("path", { class: name, d: `M${x - 5} ${y - 5}l10 10m0 -10l-10 10` })];
  return [draw("path", { class: `${name} filled`, d: `M${x} ${y - 6}l6 6l-6 6l-6 -6z` })];
}

/** The lanes of an item, and what stands on them. */
function laneCell(place, name, signs) {
  const width = gutter + wide * lanes.heads.length;
  const lines = lanes.heads.map((_, lane) => `M${across(lane)} 0V${HEIGHT}`).join("");
  return make("td", { class: "lanes" }, draw("svg", { width, height: HEIGHT, "aria-hidden": "true", focusable: "false" },
    draw("path", { class: name, d: lines }), ...joinsAt(place), ...signs));
}

/** A link to a message. */
const link = (number, words) => make("a", { href: `#m${number}`, class: "tag" }, words);
const tag = (words, name = "") => make("span", { class: `tag ${name}` }, words);

/** What stands behind the words of a message. */
function tagsOf(row) {
  const isAsk = kindOf(row) === "Request" || kindOf(row) === "LocateRequest";
  const client = column.client[row];
  return [
    client >= 0 ? tag(make("bdi", {}, textOf(client)), "client") : null,
    column.repeats[row] ? link(column.repeats[row], `repeat of ${column.repeats[row]}`) : null,
    flagOf(row, UNANSWERED) ? tag(flagOf(row, CANCELLED) ? "cancelled, no answer" : "no answer", "bad") : null,
    isAsk && flagOf(row, ONE_WAY) ? tag("wants no answer") : null,
    flagOf(row, STRAY) ? tag("no request", "bad") : null,
    column.next[row] ? link(column.next[row], `goes on in ${column.next[row]}`) : null,
  ];
}

/** The words of a message. */
function wordsOf(row) {
  const kind = kindOf(row), operation = textOf(column.operation[row]), tail = textOf(column.tail[row]);
  const isReply = kind === "Reply" || kind === "LocateReply";
  const first = kind === "Request" || kind === "Reply" ? operation : tail === kind ? "" : `${kind} ${operation}`.trim();
  const [from, to] = addressesOf(row), tone = TONES[column.tone[row]];
  return make("td", { class: "words" }, make("div", {},
    make("span", { class: "quiet" }, `${kind} from ${from} to ${to}: `),
    first ? make("bdi", { class: isReply ? "of" : `operation ${tone}` }, first) : null, first && tail && isReply ? " " : null,
    make("bdi", { class: `tail ${tone}` }, tail), ...tagsOf(row)));
}

/** The row of a message. */
function messageRow(place, row) {
  const number = column.number[row];
  const late = column.latency[row] < 0 ? "" : span(column.latency[row]);
  const object = kindOf(row) === "Request" || kindOf(row) === "LocateRequest" ? objectOf(row) : null;
  return [
    make("td", { class: "number" }, make("a", { href: `#m${number}`, "data-place": place }, String(number))),
    make("td", { class: "time" }, clock(column.since[row])),
    laneCell(place, "line", arrowOf(row)),
    make("td", { class: "object", title: object ? object[1] : "" }, object ? make("bdi", {}, object[0] || object[1]) : ""),
    wordsOf(row),
    make("td", { class: "late" }, late),
  ];
}

/** The row of a mark. */
function markRow(place, mark) {
  const side = endsOf.get(mark[2])[mark[3] ? 2 : 1];
  const words = make("bdi", { class: TONES[mark[4]] }, `connection ${mark[2]} ${mark[6]}`);
  return [
    make("td", { class: "number" }), make("td", { class: "time" }, clock(mark[1])), laneCell(place, "line", signOf(mark)),
    make("td", { class: "object" }),
    make("td", { class: "words mark" }, make("div", {}, words, make("span", { class: "quiet" }, ` by ${side}`))),
    make("td", { class: "late" }),
  ];
}

/** The row of a gap. */
function gapRow(place, gap) {
  const words = [
    make("span", { class: "quiet" }, `${span(gap)} later`), make("span", { "aria-hidden": "true" }, `+ ${span(gap)}`),
  ];
  return [
    make("td", { class: "number" }), make("td", { class: "time gap" }, ...words), laneCell(place, "line broken", []),
    make("td", { class: "object" }), make("td", { class: "words" }), make("td", { class: "late" }),
  ];
}

/** The row of an item. */
function rowAt(place) {
  const it = items.it[place], kind = items.kind[place];
  const cells = kind === ROW ? messageRow(place, it) : kind === MARK ? markRow(place, data.marks[it]) : gapRow(place, it);
  const name = kind === ROW ? "message" : kind === MARK ? "between" : "between gap";
  return make("tr", { class: name, "aria-rowindex": place + 2 }, ...cells);
}
