// What is shown, and what a reader does.

// so many rows are made above and below those that are seen, and so many are printed
const BEYOND = 20, PRINTED = 5000;
// how wide a printed page is
const PAPER = 1010;
// how wide a small window is, and what share of it fields leave there
const SMALL = 760, SHARE = 0.45;
const input = byId("filter"), rows = byId("rows"), list = byId("list");
const made = new Map();
let active = -1, selected = -1, isPrinting = false, isDrawn = false;

/** Where the first item is, or would be, in the window. */
const topOf = () => list.getBoundingClientRect().top + list.tHead.offsetHeight;

/** How much of the window is covered from above. */
const headHeight = () => list.tHead.offsetHeight + byId("bar").offsetHeight;

/** Which items are seen, and some beyond. */
function range() {
  if (isPrinting) return [0, Math.min(items.kind.length, PRINTED)];
  const first = Math.max(0, Math.floor(-topOf() / HEIGHT) - BEYOND);
  return [Math.min(first, items.kind.length), Math.min(items.kind.length, first + Math.ceil(innerHeight / HEIGHT) + 2 * BEYOND)];
}

function setHeight(id, height) {
  byId(id).hidden = height === 0;
  byId(id).rows[0].cells[0].style.height = `${height}px`;
}

/** Makes the rows that come into view, and drops those that left it. */
function render() {
  isDrawn = false;
  const [first, last] = range();
  for (const [place, row] of made) {
    if (place >= first && place < last) continue;
    if (row.contains(document.activeElement)) list.focus({ preventScroll: true });
    row.remove();
    made.delete(place);
  }
  let next = rows.firstChild;
  for (let place = first; place < last; place++) {
    const known = made.get(place);
    if (known) { next = known.nextSibling; continue; }
    const row = rowAt(place);
    made.set(place, row);
    rows.insertBefore(row, next);
  }
  setHeight("above", first * HEIGHT);
  setHeight("below", isPrinting ? 0 : (items.kind.length - last) * HEIGHT);
  markRows();
}

function soon() {
  if (!isDrawn) requestAnimationFrame(render);
  isDrawn = true;
}

/** Marks the row that is selected, and the one that keys begin at. */
function markRows() {
  for (const [place, row] of made) {
    const isOne = items.kind[place] === ROW && items.it[place] === selected;
    row.classList.toggle("selected", isOne);
    if (isOne) row.setAttribute("aria-current", "true"); else row.removeAttribute("aria-current");
  }
}

/** Shows all anew: what is chosen, in the room that there is. */
function lay() {
  layLanes(isPrinting ? PAPER : list.parentNode.clientWidth);
  document.documentElement.style.setProperty("--bar", `${byId("bar").offsetHeight}px`);
  list.tHead.rows[0].cells[2].replaceChildren(make("span", { class: "quiet" }, "From and to: "), laneHeads());
  list.setAttribute("aria-rowcount", items.kind.length + 1);
  rows.replaceChildren();
  made.clear();
  render();
}

/** Shows the messages of a filter. */
function setFilter(words) {
  if (input.value !== words) input.value = words;
  items = itemsOf(words);
  active = -1;
  byId("none").hidden = items.rows.length > 0;
  byId("none").textContent = count ? "No message is like this." : "There is no message.";
  const left = items.rows.length === count ? "" : `${digits(items.rows.length)} of `;
  byId("shown").textContent = left + counted(count, "message");
  for (const chip of byId("chips").children) chip.setAttribute("aria-pressed", String(wordsIn(words).includes(chip.value)));
  lay();
}

const wordsIn = (words) => words.toLowerCase().trim().split(/\s+/);

/** Puts a word into the filter, or takes it out. */
function toggle(word) {
  const words = wordsIn(input.value);
  setFilter(words.includes(word) ? words.filter((it) => it !== word).join(" ") : `${input.value.trim()} ${word}`.trim());
}

/** Scrolls until an item is seen. */
function reveal(place, isMiddle) {
  const head = headHeight();
  const at = topOf() + place * HEIGHT;
  const below = byId("details").hidden || innerWidth > SMALL ? innerHeight : SHARE * innerHeight;
  if (at >= head && at + HEIGHT <= below) return;
  const wanted = isMiddle ? Math.max(head, below / 3) : at < head ? head : below - HEIGHT - 8;
  scrollBy(0, at - wanted);
  render();
}

/** The item that keys begin at: the one behind where they were, or the first that is seen. */
function begin(step) {
  const place = active >= 0 || selected < 0 ? active : items.at[selected];
  return place >= 0 ? place + step : Math.max(0, Math.ceil((headHeight() - topOf()) / HEIGHT));
}

/** Moves to the next message, or the one before. */
function move(step) {
  let place = begin(step);
  while (place >= 0 && place < items.kind.length && items.kind[place] !== ROW) place += step;
  if (place < 0 || place >= items.kind.length) return;
  active = place;
  reveal(place, false);
  made.get(place).querySelector("td.number a").focus({ preventScroll: true });
  if (selected >= 0) location.replace(`#m${column.number[items.it[place]]}`);
}

/** Shows the message that the address names, or none. */
function follow() {
  const named = /^#m(\d+)$/.exec(location.hash);
  const row = named ? rowOf(Number(named[1])) : -1;
  const wasOpen = selected >= 0;
  selected = row;
  document.body.classList.toggle("open", row >= 0);
  byId("details").hidden = row < 0;
  if (row >= 0 && items.at[row] < 0) setFilter("");
  else if (wasOpen !== (row >= 0)) lay();
  if (row >= 0) {
    showDetails(row);
    active = items.at[row];
    reveal(active, true);
  }
  markRows();
}

function close() {
  const place = selected >= 0 ? items.at[selected] : -1;
  history.replaceState(null, "", location.pathname + location.search);
  follow();
  if (place >= 0 && made.has(place)) made.get(place).querySelector("td.number a").focus({ preventScroll: true });
}

/** What a key does. */
function press(event) {
  if (event.ctrlKey || event.metaKey || event.altKey) return;
  const isIn = event.target === input;
  const does = {
    "/": isIn ? null : () => { input.focus(); input.select(); },
    Escape: selected >= 0 ? close : isIn && input.value ? () => setFilter("") : null,
    Enter: isIn ? () => move(1) : event.target.closest("tr.selected td.number") ? () => byId("details").focus() : null,
    ArrowDown: isIn || byId("details").contains(event.target) ? null : () => move(1),
    ArrowUp: isIn || byId("details").contains(event.target) ? null : () => move(-1),
  }[event.key];
  if (!does) return;
  event.preventDefault();
  does();
}

/** What stands above the list. */
function showHead() {
  const last = count ? column.since[count - 1] : 0;
  byId("title").replaceChildren(make("bdi", {}, data.title));
  const time = data.start === null ? "" : new Date(Number(BigInt(data.start) / 1000000n)).toISOString();
  byId("about").textContent = `${counted(data.messages, "message")} on ${counted(data.connections, "connection")}${
    last > 0 ? ` in ${span(last)}` : ""}${time && `, from ${time.replace("T", " ").replace("Z", " UTC")}`}`;
  if (data.left === null) return;
  byId("left").hidden = byId("ways").hidden = false;
  byId("left").textContent = `${counted(data.left.count, "message")} behind message ${digits(data.left.after)} ${
    data.left.count === 1 ? "is" : "are"} left out here; the table counts all.${
    data.left.ways.length ? " An option of giop-capture brings them:" : ""}`;
  byId("ways").replaceChildren(make("ul", {}, ...data.left.ways.map(
    ([words, number]) => make("li", {}, make("code", {}, words), make("span", { class: "of" }, ` ${digits(number)} of them`)))));
}

/** Words that a filter may have. */
function showWords() {
  const clients = new Set(column.client.filter((it) => it >= 0).map(textOf));
  const operations = new Set(data.operations.rows.map(([name]) => name).filter((it) => it !== null));
  const objects = data.objects.map(([letter, text]) => letter || text);
  const words = [["operation", [...operations]], ["client", [...clients]], ["object", objects]]
    .flatMap(([name, all]) => all.slice(0, 200).map((it) => `${name}:${quoted(it)}`));
  byId("words").append(...words.filter((it) => it.length < 200).map((it) => make("option", { value: it })));
  byId("chips").replaceChildren(...countsOf().filter(([, number]) => number).map(([word, number]) => {
    const chip = make("button", { type: "button", value: word, "aria-pressed": "false" }, `${word === SLOW ? "> 100 ms" : word} `,
      make("span", { class: "of" }, digits(number)));
    chip.addEventListener("click", () => toggle(word));
    return chip;
  }));
}

/** Prints all rows of the filter, as far as there is room. */
function print(isOn) {
  isPrinting = isOn;
  showTable(isOn);
  lay();
  byId("cut").hidden = !isOn || items.kind.length <= PRINTED;
}

/** Columns as wide as what is longest in them. */
function layColumns() {
  const { style } = document.documentElement;
  const longest = [String(column.number[count - 1] ?? 0), clock(column.since.reduce((most, it) => Math.max(most, it), 0))];
  style.setProperty("--row", `${HEIGHT}px`);
  style.setProperty("--number", `${Math.max(44, 9 * longest[0].length + 18)}px`);
  style.setProperty("--time", `${Math.max(88, 9 * longest[1].length + 18)}px`);
}

layColumns();
list.tabIndex = -1;
showHead();
showTable(false);
showWords();
setFilter("");
performance.mark("rows");
follow();
input.addEventListener("input", () => setFilter(input.value));
byId("all").addEventListener("click", () => { showTable(true); lay(); });
byId("close").addEventListener("click", close);
rows.addEventListener("click", (event) => {
  const row = event.target.closest("tr.message");
  if (row && !event.target.closest("a") && !String(getSelection())) location.hash = row.querySelector("td.number a").hash;
});
rows.addEventListener("focusin", (event) => { active = Number(event.target.dataset.place ?? active); });
addEventListener("scroll", soon, { passive: true });
addEventListener("resize", () => { if (!isPrinting) lay(); });
addEventListener("hashchange", follow);
addEventListener("keydown", press);
addEventListener("beforeprint", () => print(true));
addEventListener("afterprint", () => print(false));
addEventListener("DOMContentLoaded", () => { if (selected >= 0) showDetails(selected); });
