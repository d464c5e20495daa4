"use strict";
// the row that tells what a bound is made of stays behind that of its task
const isParts = (row) => row?.classList.contains("parts");
const partsOf = (row) => isParts(row.nextElementSibling) ? [row.nextElementSibling] : [];
const rowsOf = (table) => [...table.tBodies[0].rows].filter((it) => !isParts(it));
// sorts a table by a column's data-v, or its text: numbers by their value, all else by its letters; what has none goes last
function sortBy(head) {
  const table = head.closest("table"), body = table.tBodies[0], place = head.cellIndex;
  const down = head.getAttribute("aria-sort") === "ascending";
  for (const it of table.tHead.rows[0].cells) if (it.hasAttribute("aria-sort")) it.setAttribute("aria-sort", "none");
  head.setAttribute("aria-sort", down ? "descending" : "ascending");
  const value = (row) => row.cells[place].dataset.v ?? row.cells[place].textContent.trim();
  const compare = (a, b) => {
    const x = value(a), y = value(b);
    if (x === "" || y === "") return (x === "") - (y === "");
    const both = Number(x) - Number(y);
    const order = Number.isNaN(both) && x !== y ? x.localeCompare(y, "en", { numeric: true }) : both || 0;
    return down ? -order : order;
  };
  const groups = new Map(rowsOf(table).map((row) => [row, [row, ...partsOf(row)]]));
  body.append(...[...groups.keys()].sort(compare).flatMap((row) => groups.get(row)));
}
// shows the rows that have all words of the field and the choices of the lists
function filter(tools) {
  const table = document.getElementById(tools.dataset.of);
  const words = tools.querySelector("input").value.toLowerCase().split(/\s+/).filter(Boolean);
  const choices = [...tools.querySelectorAll("select")].filter((it) => it.value);
  let shown = 0;
  const rows = rowsOf(table);
  for (const row of rows) {
    const text = row.dataset.words.toLowerCase();
    row.hidden = !(words.every((it) => text.includes(it)) && choices.every((it) => row.dataset[it.name].split(" ").includes(it.value)));
    for (const it of partsOf(row)) it.hidden = row.hidden;
    shown += !row.hidden;
  }
  tools.querySelector("output").textContent = `${shown} of ${rows.length}`;
}
for (const it of document.querySelectorAll("th[aria-sort] button")) it.addEventListener("click", () => sortBy(it.parentElement));
for (const tools of document.querySelectorAll(".tools[data-of]")) {
  tools.addEventListener("input", () => filter(tools));
  tools.addEventListener("keydown", (it) => {
    if (it.key === "Escape") {
      for (const field of tools.querySelectorAll("input, select")) field.value = "";
      filter(tools);
    }
  });
  filter(tools);
}
// what a bound is made of: the parts as a bar, and one by one
const made = JSON.parse(document.getElementById("made").textContent);
// a number of ticks as the page tells it: those that become times are listed
const time = (ticks) => made.times[ticks] ?? `${ticks}`;
function element(name, look, text) {
  const it = document.createElement(name);
  if (look) it.className = look;
  if (text !== undefined) it.textContent = text;
  return it;
}
function blockOf(name, kind) {
  const it = element("i", `lift${kind === "own" ? " own" : ""}`), hue = made.hues[name];
  // what isn't jobs of a task is hatched
  if (kind === "own" || kind === "rival") [it.style.background, it.style.color] = hue;
  else it.classList.add("other");
  return it;
}
function lineOf(list, look, ...cells) {
  const line = list.appendChild(element("div"));
  cells.forEach((it, place) => { const cell = line.appendChild(element(place ? "dd" : "dt", look + (place === 1 || place === 2 ? " n" : ""))); cell.append(it); });
}
function dotOf(name, kind) {
  const who = element("span"), dot = who.appendChild(blockOf(name, kind));
  dot.className = `dot ${dot.className}`;
  who.append(name);
  return who;
}
function partsOfTask(told) {
  const room = element("div");
  if (told.why) {
    for (const it of told.why) room.append(element("p", "", it));
    return room;
  }
  for (const it of told.by) room.append(element("p", "small", `started by ${it}`));
  for (const it of told.clocks || []) room.append(element("p", "small", it));
  room.append(element("p", "", told.job));
  const whole = told.bound + told.came, bar = room.appendChild(element("div", "stack")), list = room.appendChild(element("dl"));
  bar.setAttribute("role", "img");
  bar.setAttribute("aria-label", told.parts.map(([of, count, each]) => `${of} ${time(count * each)}`).join(", "));
  for (const [of, count, each, kind, note] of told.parts) {
    const block = bar.appendChild(blockOf(of, kind)), share = count * each / whole;
    block.style.width = `${100 * share}%`;
    block.title = `${of}: ${count} · ${time(each)} = ${time(count * each)}${note ? `, ${note}` : ""}`;
    if (kind === "own" || kind === "rival") block.textContent = of.length < 110 * share ? of : "";
    lineOf(list, "", dotOf(of, kind), `${count} · ${time(each)}`, time(count * each), note);
  }
  if (told.came) {
    const mark = bar.appendChild(element("u"));
    mark.style.left = `${100 * told.came / whole}%`;
    mark.title = `the job comes ${time(told.came)} after the window began`;
    lineOf(list, "", "before the job came, the line in the bar", "", `−${time(told.came)}`, "");
  }
  lineOf(list, "sum", "bound", "", time(told.bound), "");
  return room;
}
// the bounds along a path, and whom it waits for
function partsOfPath(told) {
  const room = element("div"), list = room.appendChild(element("dl"));
  for (const [name, bound, waits] of told.tasks) lineOf(list, "", dotOf(name, "rival"), "", bound === null ? "overload" : time(bound), waits);
  if (told.worst !== null) lineOf(list, "sum", "worst", "", time(told.worst), "");
  for (const it of told.waits) room.append(element("p", "", it));
  return room;
}
for (const it of document.querySelectorAll("button[data-made]")) it.addEventListener("click", () => {
  const row = it.closest("tr"), open = partsOf(row);
  it.setAttribute("aria-expanded", String(!open.length));
  if (open.length) return open[0].remove();
  const parts = element("tr", "parts"), cell = parts.appendChild(element("td"));
  cell.colSpan = row.cells.length;
  const told = made[it.dataset.kind][it.dataset.made];
  cell.append(it.dataset.kind === "task" ? partsOfTask(told) : partsOfPath(told));
  row.after(parts);
});
const look = document.getElementById("look");
look.hidden = false;
look.addEventListener("click", () => {
  const root = document.documentElement;
  const is = root.dataset.look ?? (matchMedia("(prefers-color-scheme: dark)").matches ? "dark" : "light");
  root.dataset.look = is === "dark" ? "light" : "dark";
});
// the graph in full size, in a window of its own
const full = document.getElementById("full");
if (full) {
  const copy = document.querySelector(".graph svg").cloneNode(true);
  copy.removeAttribute("style");
  full.href = URL.createObjectURL(new Blob([new XMLSerializer().serializeToString(copy)], { type: "image/svg+xml" }));
  full.hidden = false;
}
// the number of a resource's tasks leads to them
for (const it of document.querySelectorAll("button[data-show]")) it.addEventListener("click", () => {
  const tools = document.querySelector(".tools[data-of=task-table]"), list = tools.querySelector("select[name=on]");
  list.value = it.dataset.show;
  filter(tools);
  list.focus({ preventScroll: true });
  document.getElementById("tasks").scrollIntoView();
});
// what is folded up is printed too
let folded = [];
addEventListener("beforeprint", () => { folded = [...document.querySelectorAll("details:not([open])")]; for (const it of folded) it.open = true; });
addEventListener("afterprint", () => { for (const it of folded) it.open = false; });
