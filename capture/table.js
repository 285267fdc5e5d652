// The table of operations.

const SHOWN = 8, WIDE = 100, TALL = 18;
const OF_TABLE = [["Operation", ""], ["Object", ""], ["Requests", "number"], ["Answers", "number"], ["Repeats", "number"],
  ["No answer", "number"], ["Exceptions", "number"], ["50%", "number"], ["90%", "number"], ["99%", "number"],
  ["Greatest", "number"], ["Latencies", "bars"]];

/** How many answers came after how long, as bars. */
function bars(counts) {
  const most = Math.max(1, ...counts), edges = data.operations.bars;
  const said = counts.flatMap((it, n) => (it ? [`${it} of ${span(edges[n])} to ${span(edges[n + 1])}`] : []));
  const step = Math.max(4, Math.min(12, Math.floor(WIDE / counts.length))), width = counts.length * step;
  const ground = `M0 ${TALL + 0.5}H${width}`;
  const drawn = counts.map((it, n) => (it ? draw("rect", {
    x: n * step, width: step - 1, height: Math.max(2, Math.round(TALL * it / most)),
    y: TALL - Math.max(2, Math.round(TALL * it / most)),
  }) : null));
  return draw("svg", { class: "bars", role: "img", width, height: TALL + 1, "aria-label": said.join(", ") || "none" },
    draw("title", {}, said.join("\n")), draw("path", { d: ground }), ...drawn);
}

/** A row of the table. */
function callsRow([operation, letter, object, requests, answers, repeats, lost, raised, ...rest]) {
  const counts = rest[4];
  const words = operation === null ? "LocateRequest" : `operation:${quoted(operation)}`;
  const name = make("button", { type: "button", class: "link" }, make("bdi", {}, operation ?? "LocateRequest"));
  name.addEventListener("click", () => setFilter(words));
  const cell = (it, tone = "") => make("td", { class: `number ${it ? tone : "zero"}` }, digits(it));
  return make("tr", {}, make("th", { scope: "row" }, name),
    make("td", { class: "of-object", title: object }, make("bdi", {}, letter), " ", make("bdi", { class: "of" }, object)),
    cell(requests), cell(answers), cell(repeats, "repeat"), cell(lost, "lost"), cell(raised, "exception"),
    ...rest.slice(0, 4).map((it) => make("td", { class: "number" }, it === null ? "" : span(it))),
    make("td", { class: "bars" }, counts.some((it) => it) ? bars(counts) : ""));
}

/** Shows the table: its first rows, or all. */
function showTable(isWhole) {
  const { rows, count: all, bars: edges } = data.operations;
  const head = OF_TABLE.map(([words, name]) => make("th", { scope: "col", class: name }, words,
    name === "bars" && edges.length ? make("small", {}, `${span(edges[0])} to ${span(edges[edges.length - 1])}`) : null));
  byId("operations").tHead.replaceChildren(make("tr", {}, ...head));
  byId("operations").tBodies[0].replaceChildren(...rows.slice(0, isWhole ? rows.length : SHOWN).map(callsRow));
  byId("all").hidden = isWhole || rows.length <= SHOWN;
  byId("all").textContent = `${all > rows.length ? `The first ${digits(rows.length)} of` : "All"} ${digits(all)} rows`;
  byId("calls").hidden = rows.length === 0;
}
