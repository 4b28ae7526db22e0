"use strict";

// The session: its steps, each with what came of a request and the map of what stands then. Step 0 is
// the start. Of a map's rows only those are kept that differ from the step before.
const session = JSON.parse(byId("session").textContent);
const last = session.steps.length - 1;
const slider = byId("slider");

// How many requests are listed beside the one at hand, on either side.
const NEAR = 12;
// The least width of a part of the strip in pixels: as long as there is room, and always.
const [LEAST, NARROWEST] = [96, 7];
const APART = ["paged out", "dead", "under an ill-formed entry", "ill-formed"];

let shown = { step: -1, rows: [] };

function byId(id) {
  return document.getElementById(id);
}

// An element; whatever is no element is its text, which is never read as markup.
function make(tag, name, ...inside) {
  const element = document.createElement(tag);
  element.className = name;
  element.append(...inside.filter((one) => one !== null));
  return element;
}

// A line that the map has too.
function said(name, ...inside) {
  return make("p", ("said " + name).trim(), ...inside);
}

function hex(address) {
  return "0x" + address.toString(16).padStart(8, "0");
}

// The rows of a step, from those of the last one shown, or from the first on.
function rowsAt(step) {
  let { step: at, rows } = shown.step <= step ? shown : { step: -1, rows: [] };
  while (at < step) {
    const next = session.steps[++at];
    rows = [...rows.slice(0, next.front), ...next.rows, ...rows.slice(rows.length - next.back)];
  }
  return rows;
}

// ---- the request

function mark(step) {
  if (step.request === undefined) return "";
  if (step.refusal === undefined) return "–";
  return step.refusal === 0 ? "✓" : "✗" + step.refusal;
}

function tone(step) {
  if (step.refusal === undefined) return "none";
  return step.refusal === 0 ? "granted" : "refused";
}

function showRequest(step, rows) {
  const box = byId("request");
  if (step.request === undefined) {
    box.replaceChildren(make("p", "ask", "The start, before any request."));
    return;
  }
  const differences = (step.differences || []).map((one) => make("p", "differs", "! " + one));
  box.replaceChildren(
    make("p", "ask", make("small", "", "line " + step.line), step.request),
    make("p", "answer " + tone(step), make("b", "", mark(step).slice(0, 1)), step.answer),
    ...(step.stop ? [stopLine(step.stop, rows)] : []),
    ...differences,
  );
}

function stopLine(stop, rows) {
  const row = rows.find((one) => one.number === stop.number);
  const title = row === undefined ? "#" + stop.number : row.title;
  const why = stop.why === null ? "" : ": " + stop.why;
  const line = make("p", "stop", "stopped at " + title + why);
  line.addEventListener("click", () => {
    document.querySelectorAll(".row.stopped").forEach((one) => one.scrollIntoView({ block: "center" }));
  });
  return line;
}

// The table of checks: how far the request came. Its own checks stand in their order.
function showChecks(step) {
  const checks = step.request === undefined ? [] : ordered(session.checks, step.checks);
  const items = checks.map(([number, words]) => {
    return make("li", stateOf(number, step), make("b", "", String(number)), words);
  });
  byId("checks").replaceChildren(...items);
}

// Those of a request that are not by rising numbers stand first.
function ordered(checks, own) {
  if (own.every((number, at) => at === 0 || own[at - 1] < number)) return checks;
  const used = own.map((number) => checks.find((check) => check[0] === number));
  return [...used, ...checks.filter((check) => !own.includes(check[0]))];
}

function stateOf(number, step) {
  if (!step.checks.includes(number)) return "unused";
  if (step.refusal === number) return "stopped";
  const passed = step.refusal === 0 || step.checks.indexOf(number) < step.checks.indexOf(step.refusal);
  return passed ? "passed" : "open";
}

// The requests around the one at hand.
function showRequests(at) {
  const from = Math.max(0, Math.min(at - NEAR, last - 2 * NEAR));
  const near = session.steps.slice(from, from + 2 * NEAR + 1);
  const links = near.map((step, index) => {
    const number = from + index;
    const differs = step.differences && step.differences.length > 0 ? " differs" : "";
    const link = make("a", tone(step) + differs, make("b", "", mark(step)), step.request || "start");
    link.href = "#" + number;
    if (number === at) link.setAttribute("aria-current", "step");
    return link;
  });
  byId("requests").replaceChildren(...links);
}

// ---- the strip

// Where memory is parted: each part is a column, as wide as it is long but never too narrow.
function columns(parts) {
  const edges = parts.flatMap((row) => row.reach);
  return [...new Set(edges)].sort((one, other) => one - other);
}

function showStrip(step, rows) {
  const parts = rows.filter((row) => row.kind === "direct" || row.kind === "gap");
  const edges = columns(parts);
  const strip = byId("strip");
  const least = leastWidth(edges.length - 1);
  const widths = edges.slice(1).map((edge, at) => `minmax(${least}px, ${edge - edges[at]}fr)`);
  strip.style.gridTemplateColumns = widths.join(" ");
  const lanes = [];
  const blocks = parts.map((row) => {
    const lane = freeLane(lanes, row.reach);
    return placed(block(step, row), edges, row.reach, lane + 1);
  });
  strip.replaceChildren(...blocks, ...touchedMarks(step, edges, lanes.length + 1));
  const wanted = strip.querySelector(".stopped") || strip.querySelector(".named");
  if (wanted) intoView(wanted);
}

// A strip with many parts is wider than the page.
function intoView(block) {
  const frame = byId("frame");
  frame.scrollLeft = block.offsetLeft + block.offsetWidth / 2 - frame.clientWidth / 2;
}

// Most of the room is for what is long, if there are not too many.
function leastWidth(count) {
  const room = (0.6 * byId("frame").clientWidth) / Math.max(1, count);
  return Math.floor(Math.max(NARROWEST, Math.min(LEAST, room)));
}

// Segments that overlap stand below each other.
function freeLane(lanes, [start, end]) {
  const free = lanes.findIndex((taken) => taken <= start);
  const lane = free < 0 ? lanes.length : free;
  lanes[lane] = end;
  return lane;
}

function placed(element, edges, [start, end], lane) {
  element.style.gridColumn = `${edges.indexOf(start) + 1} / ${edges.indexOf(end) + 1}`;
  element.style.gridRow = String(lane);
  return element;
}

function block(step, row) {
  const [start, end] = row.reach;
  const name = "block " + row.kind + (row.lock ? " lock" : "") + marks(step, row);
  const lock = row.lock === null ? null : make("span", "holder", row.lock);
  const title = make("span", "title", make("b", "", row.lead + " "), make("em", "", row.title));
  const length = make("span", "", end - start + " bytes");
  const element = make("div", name, title, length, make("span", "address", hex(start)), lock);
  element.title = [row.lead + " " + row.title, hex(start), row.words, row.lock, row.wrong]
    .filter((one) => one)
    .join("\n");
  element.addEventListener("click", () => byId("at" + start).scrollIntoView({ block: "center" }));
  return element;
}

// The bytes that an access asks for, in every column that has some of them.
function touchedMarks(step, edges, lane) {
  if (!step.touched) return [];
  const [start, end] = step.touched;
  return edges.slice(1).flatMap((edge, at) => {
    const [from, to] = [Math.max(start, edges[at]), Math.min(end, edge)];
    if (from >= to) return [];
    const length = edge - edges[at];
    const element = make("div", "touched " + tone(step));
    element.style.marginLeft = `min(${(100 * (from - edges[at])) / length}%, 100% - 6px)`;
    element.style.width = (100 * (to - from)) / length + "%";
    return [placed(element, edges, [edges[at], edge], lane)];
  });
}

// ---- the rows

function marks(step, row) {
  if (row.number === null) return "";
  const stopped = step.stop && step.stop.number === row.number;
  const named = step.named && step.named.includes(row.number);
  return (stopped ? " stopped" : "") + (named ? " named" : "");
}

function showRows(step, rows, before) {
  const old = new Set(before.map(textOf));
  const list = [];
  let segment = [0, 0];
  let kind = "";
  for (const row of rows) {
    if (row.kind === "direct") segment = row.reach;
    if (row.kind !== kind && APART.includes(row.kind)) list.push(said("what", row.kind));
    kind = row.kind;
    const changed = before.length > 0 && !old.has(textOf(row)) ? " changed" : "";
    list.push(make("div", "row " + row.kind + marks(step, row) + changed, ...lines(row, segment)));
  }
  byId("rows").replaceChildren(...list);
}

function textOf(row) {
  return [row.kind, row.title, row.words, row.lock, row.wrong].join("|");
}

// What the map says of a row, line by line.
function lines(row, segment) {
  const wrong = row.wrong === null ? null : said("wrong", row.wrong);
  const lock = row.lock === null ? null : said("holder", row.lock);
  const words = make("b", "", row.title);
  if (row.kind === "derived") {
    const line = make("div", "line", bar(row, segment), make("span", "tree", tree(row.lead)));
    line.append(said("", words, ": " + row.words));
    return [line, wrong].filter((one) => one);
  }
  if (APART.includes(row.kind)) return [said("", words, ": " + row.words), wrong];
  const rule = said("rule", hex(row.reach[0]) + " " + row.lead + " ", words);
  rule.id = "at" + row.reach[0];
  const own = row.words === "" ? null : said("", row.words);
  return [rule, wrong, own, lock].filter((one) => one);
}

function tree(lead) {
  return lead.replaceAll("|-", "├─").replaceAll("`-", "└─").replaceAll("|", "│");
}

// A derived entry's place in its owner's segment.
function bar(row, [start, end]) {
  const [from, to] = [Math.max(start, row.reach[0]), Math.min(end, row.reach[1])];
  if (from >= to) return make("span", "bar outside", "outside");
  const part = make("i", "");
  part.style.left = (100 * (from - start)) / (end - start) + "%";
  part.style.width = (100 * (to - from)) / (end - start) + "%";
  return make("span", "bar", part);
}

// ---- steps

function show(wanted) {
  const at = Math.max(0, Math.min(last, Math.floor(wanted) || 0));
  const step = session.steps[at];
  const before = at > 0 ? rowsAt(at - 1) : [];
  if (at > 0) shown = { step: at - 1, rows: before };
  shown = { step: at, rows: rowsAt(at) };
  slider.value = at;
  byId("place").textContent = at + " of " + last;
  byId("back").disabled = at === 0;
  byId("on").disabled = at === last;
  showRequest(step, shown.rows);
  showChecks(step);
  showRequests(at);
  byId("head").replaceChildren(...step.head.map((line) => said("", line)));
  showStrip(step, shown.rows);
  showRows(step, shown.rows, before);
  document.body.dataset.step = at;
}

// The step is part of the address, so that it can be kept and handed on.
function go(at) {
  const to = "#" + Math.max(0, Math.min(last, at));
  if (location.hash !== to) location.replace(to);
}

function fromAddress() {
  show(Number(location.hash.slice(1)));
}

function onKey(event) {
  const at = shown.step;
  const steps = { ArrowLeft: at - 1, ArrowRight: at + 1, Home: 0, End: last };
  if (event.altKey || event.ctrlKey || event.metaKey || !(event.key in steps)) return;
  event.preventDefault();
  go(steps[event.key]);
}

window.addEventListener("error", (event) => {
  byId("trouble").hidden = false;
  byId("trouble").textContent = "This page has a fault: " + event.message;
});
byId("file").textContent = session.file;
byId("about").textContent = session.about;
byId("verdict").textContent = session.verdict;
slider.max = last;
slider.addEventListener("input", () => go(Number(slider.value)));
byId("back").addEventListener("click", () => go(shown.step - 1));
byId("on").addEventListener("click", () => go(shown.step + 1));
window.addEventListener("hashchange", fromAddress);
window.addEventListener("keydown", onKey);
fromAddress();
