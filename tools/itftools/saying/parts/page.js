"use strict";
// The page of a check. The data are hostile: they reach the page as text alone (textContent), never as
// HTML, and no name of theirs is a key of an object that has other keys.
(() => {

const read = id => JSON.parse(document.getElementById(id).textContent);
const data = read("data"), allWords = read("words");
const $ = id => document.getElementById(id);
const UNIT = 10 ** data.scale, STEP = 200;      // units of a metre, rows of the list at once
let language = data.language, words = allWords[language];
let chosen = null, order = { key: "id", up: true }, most = STEP;
const filter = { kind: "", part: "", text: "" };

// Elements, and text with places for values: {name}.

function el(tag, settings, ...children) {
  const made = document.createElement(tag);
  for (const [name, value] of Object.entries(settings || {})) {
    if (name.startsWith("on")) made.addEventListener(name.slice(2), value);
    else if (name === "class") made.className = value;
    else if (value !== null && value !== false) made.setAttribute(name, value === true ? "" : value);
  }
  for (const child of children) if (child !== null) made.append(child);    // a string becomes a text
  return made;
}
const put = (id, ...children) => $(id).replaceChildren(...children);
const button = (text, does, more) => el("button", { type: "button", onclick: does, ...more }, text);
const fill = (text, values) => text.replace(/\{(\w+)\}/g, (_, name) => String(values[name]));
const ui = (name, values) => fill(words.ui[name], values || {});
const count = number => number.toLocaleString(language + "-CH");
const kind = name => words.kinds[name] || [name, "", ""];
const sign = name => name.startsWith("FINDING_") ? "F" : name.startsWith("SURFACE_") ? "S"
  : name.startsWith("STRUCTURE_") ? "!" : { MEETING: "X", ON: "O", OUTSIDE: "A", TWO: "2", EMPTY: "E", CUT: "C", UNDECIDED: "~", HINT: "i" }[name] || "?";
const dot = (name, judged) => el("span", { class: "dot " + (judged ? "fault" : "unjudged"), "aria-hidden": "true" }, sign(name));
const say = text => { $("live").textContent = text; };
// The part of a fault: an AREA, a SURFACE, or the table and the attribute of a finding.
const nameOf = fault => fault.names.length ? fault.names.filter(name => name).join(".")
  : fault.rows.length && fault.rows[0].table ? fault.rows[0].topic + "." + fault.rows[0].table : "";

// The verdict, what it means and what it does not, and the summary.

function showVerdict() {
  const [title, means, not] = words.verdicts[data.verdict];
  const stop = data.stop ? (words.stops[data.stop[0]] || data.stop[0]) : "";
  const faults = Object.entries(data.counts).reduce((sum, [name, its]) => sum + (isFault(name) ? its : 0), 0);
  document.querySelector("header").className =
    { ACCEPTED: "good", REJECTED: "bad", UNDECIDED: "open", NOTPROVED: "open", NONE: "bad" }[data.verdict];
  const transfer = data.files.find(file => file.role === "transfer");
  $("subject").textContent = ui("subject", { name: transfer.name });
  $("verdict").textContent = fill(data.verdict === "REJECTED" && faults === 1 ? ui("rejectedOne") : title, { faults: count(faults), objects: count(data.objects || 0) });
  document.title = $("verdict").textContent;
  const skipped = data.parts.reduce((sum, part) => sum + (part.kind === "SURFACE" && part.answer[0] === "PROVED" ? Number(part.answer[2]) : 0), 0);
  const list = [...means];
  if (stop) list.push(stop + " " + data.stop.slice(1).join(" "));
  if (data.stop_text) list.push(data.stop_text.line + ": " + data.stop_text.text);
  if (data.curves + data.points) list.push(ui("objects", { curves: count(data.curves), points: count(data.points) }));
  const nots = [...not];
  if (skipped) nots.push(ui("skipped", { n: count(skipped) }));
  if (data.verdict === "REJECTED") {
    const has = front => Object.keys(data.counts).some(name => name.startsWith(front));
    const areas = data.parts.filter(part => part.kind === "AREA");
    if (areas.length && areas.every(part => part.all_listed)) list.push(ui("allListed"));
    if (areas.length && !data.has_list) nots.push(ui("noList"));
    if (has("STRUCTURE_")) nots.push(ui("notStructure"));
    if (has("FINDING_")) nots.push(ui("notFindings"));
    if (has("SURFACE_") && data.parts.some(part => part.kind === "SURFACE" && !part.object_counts)) nots.push(ui("notSurface"));
    if (has("OPEN") || has("OUTER") || has("UNJUDGED")) nots.push(ui("notOpen"));
    nots.push(ui("notGround"));
  }
  if (data.parts.some(part => part.notes.some(note => note !== "OUTER" && note !== "BENT"))) nots.push(ui("notAll"));
  put("means", ...list.map(text => el("li", {}, text)));
  put("not", ...nots.map(text => el("li", {}, text)));
  $("means-title").textContent = ui("means");
  $("not-title").textContent = ui("not");
}
const NOT_FAULTS = new Set(["OPEN", "UNJUDGED", "UNDECIDED", "UNSETTLED", "OUTER", "MANY", "NOTPROVED", "HINT"]);
const isFault = name => !NOT_FAULTS.has(name);

// Kinds in the order of the words; those that are there.
const kindsHere = () => Object.keys(words.kinds).filter(name => data.counts[name]);

function showSummary() {
  $("summary-title").textContent = ui("summary");
  const kinds = kindsHere(), rows = new Map();
  for (const part of data.parts) rows.set(part.kind + " " + part.names.join("."), { part, counts: part.counts });
  for (const table of data.tables) rows.set(table.names.length ? ui("table") + " " + table.names.join(".") : ui("transfer"), { part: null, names: table.names, counts: table.counts });
  const head = el("tr", {}, el("th", { scope: "col" }, ui("part")), el("th", { scope: "col" }, ui("state")),
    ...kinds.map(name => el("th", { scope: "col" }, kind(name)[0])));
  const body = [...rows].map(([name, row]) => el("tr", {}, el("th", { scope: "row" }, name),
    el("td", { "data-label": ui("state") }, row.part ? state(row.part) : "-"),
    ...kinds.map(its => el("td", { class: "number", "data-label": kind(its)[0] }, !row.counts[its] ? "" : button(count(row.counts[its]),
      () => { setFilter({ kind: its, part: (row.part || row).names.join("."), text: "" }); $("list-title").scrollIntoView(); },
      { "aria-label": ui("showThese", { n: count(row.counts[its]), kind: kind(its)[0], part: name }) })))));
  if (!body.length) return put("summary", el("p", {}, ui("nothing")));
  put("summary", el("table", {}, el("thead", {}, head), el("tbody", {}, ...body)));
}

function state(part) {
  const its = part.object_counts;
  if (its) return fill(words.states.SURFACE_LISTED, { a: its[0], b: its[1], c: its[2], d: its[3] });
  const answer = part.answer, name = part.kind + "_" + (answer[0] === "PROVED" ? "PROVED" : answer[0] === "UNDECIDED" ? "UNDECIDED" : answer[0] === "NOTPROVED" ? "NOTPROVED" : "FAULT");
  return fill(words.states[name] || answer.join(" "), { a: answer[1], b: answer[2], c: answer[3] });
}

// The map. A place is in units from the origin; the view has a middle and pixels a unit.

const canvas = $("map"), pen = canvas.getContext("2d");
const view = { x: 0, y: 0, k: 1 };
let wide = 0, high = 0, isDue = false;
const layers = { lines: true, points: true, faults: true, unjudged: true };     // which are shown
const isShown = fault => fault === chosen || (fault.judged ? layers.faults : layers.unjudged);

function polylines(lists) {
  return lists.map(flat => {
    const line = new Float64Array(flat.length), box = [Infinity, Infinity, -Infinity, -Infinity];
    let x = 0, y = 0;
    for (let k = 0; k < flat.length; k += 2) {
      line[k] = x += flat[k];
      line[k + 1] = y += flat[k + 1];
      box[0] = Math.min(box[0], x); box[1] = Math.min(box[1], y);
      box[2] = Math.max(box[2], x); box[3] = Math.max(box[3], y);
    }
    return { line, box };
  });
}
const lines = polylines(data.lines), overview = polylines(data.view);
data.lines = data.view = null;
for (const fault of data.faults) {
  fault.marks = polylines(fault.marks);
  fault.rings = polylines(fault.rings);
}
const hasMap = data.size[0] + data.size[1] > 1 && (lines.length + overview.length > 0 || data.faults.some(fault => fault.u));

const across = x => (x - view.x) * view.k + wide / 2, down = y => high / 2 - (y - view.y) * view.k;

function trace(shape, closed) {
  const line = shape.line;
  let u = across(line[0]), v = down(line[1]);
  pen.moveTo(u, v);
  for (let k = 2; k < line.length; k += 2) {
    const s = across(line[k]), t = down(line[k + 1]);
    // What is shorter than a pixel is left out, but for the last place.
    if (k + 2 < line.length && Math.abs(s - u) + Math.abs(t - v) < 1) continue;
    pen.lineTo(u = s, v = t);
  }
  if (closed) pen.closePath();
}
function seen(box, edge) {
  return box[2] >= edge[0] && box[0] <= edge[2] && box[3] >= edge[1] && box[1] <= edge[3];
}
function stroke(shapes, edge, colour, width) {
  pen.beginPath();
  let rest = 0;
  for (const shape of shapes) {
    if (!seen(shape.box, edge)) continue;
    trace(shape);
    if (++rest % 5000 === 0) { pen.strokeStyle = colour; pen.lineWidth = width; pen.stroke(); pen.beginPath(); }
  }
  pen.strokeStyle = colour; pen.lineWidth = width; pen.stroke();
}
function mark(fault, strong, small) {
  const x = across(fault.u[0]), y = down(fault.u[1]);
  if (x < -20 || y < -20 || x > wide + 20 || y > high + 20) return;
  const size = small ? 3 : 7, colour = fault.judged ? "#b00020" : "#8a5a00";
  if (strong) {
    // A ring round the place, so that what is there can be seen.
    pen.beginPath(); pen.arc(x, y, 16, 0, 7); pen.lineWidth = 3; pen.strokeStyle = "#1d4e89"; pen.stroke();
    pen.beginPath(); pen.arc(x, y, 2.5, 0, 7); pen.fillStyle = colour; pen.fill();
    return;
  }
  pen.beginPath();
  if (fault.judged) pen.arc(x, y, size, 0, 7); else pen.rect(x - size, y - size, 2 * size, 2 * size);
  pen.fillStyle = colour; pen.fill();
  if (small) return;
  pen.lineWidth = 1; pen.strokeStyle = "#fff"; pen.stroke();
  pen.fillStyle = "#fff"; pen.fillText(sign(fault.kind), x, y + 0.5);
}

function draw() {
  isDue = false;
  const ratio = window.devicePixelRatio || 1;
  pen.setTransform(ratio, 0, 0, ratio, 0, 0);
  pen.clearRect(0, 0, wide, high);
  if (!hasMap) return;
  const edge = [view.x - wide / 2 / view.k, view.y - high / 2 / view.k, view.x + wide / 2 / view.k, view.y + high / 2 / view.k];
  if (layers.lines && !data.whole) stroke(overview, edge, "#c9ccd1", 0.7);
  if (layers.lines) stroke(lines, edge, "#5b6470", 0.8);
  if (layers.points && view.k * UNIT > 1.5) {                // objects' points, where a metre has some pixels
    pen.fillStyle = "#3b6ea5";
    for (let k = 0; k < data.places.length; k += 2) {
      const x = data.places[k], y = data.places[k + 1];
      if (x >= edge[0] && x <= edge[2] && y >= edge[1] && y <= edge[3]) pen.fillRect(across(x) - 1.5, down(y) - 1.5, 3, 3);
    }
  }
  pen.font = "bold 10px Arial"; pen.textAlign = "center"; pen.textBaseline = "middle";
  const list = found().filter(isShown);
  for (const fault of list) {
    if (fault.rings.length && seen(fault.rings[0].box, edge)) {
      pen.beginPath();
      for (const ring of fault.rings) trace(ring, true);
      pen.fillStyle = fault.judged ? "rgba(176,0,32,.16)" : "rgba(138,90,0,.14)";
      pen.fill("evenodd");
    }
    if (view.k * UNIT > 0.5 || fault === chosen) stroke(fault.marks, edge, fault.judged ? "#b00020" : "#8a5a00", fault === chosen ? 3 : 1.6);
  }
  // Of very many in view each is a dot without a letter.
  const inView = list.filter(fault => fault.u && fault !== chosen && seen([...fault.u, ...fault.u], edge))
    .sort((one, other) => one.judged - other.judged);       // faults above what is not judged
  for (const fault of inView) mark(fault, false, inView.length > 500);
  if (chosen && chosen.u) mark(chosen, true);
  scaleBar();
  inset();
}
// Where in the delivery the view is: a small picture in a corner.
function inset() {
  const size = 90, k = size / Math.max(data.size[0], data.size[1], 1), left = wide - size - 10, top = 10;
  if (view.k < 1.5 * Math.min(wide / data.size[0], high / data.size[1])) return;
  const x = its => left + Math.min(Math.max(its, 0), data.size[0]) * k, y = its => top + size - Math.min(Math.max(its, 0), data.size[1]) * k;
  pen.fillStyle = "rgba(255,255,255,.88)"; pen.fillRect(left - 4, top - 4, size + 8, size + 8);
  pen.lineWidth = 1; pen.strokeStyle = "#767676"; pen.strokeRect(x(0), y(data.size[1]), data.size[0] * k, data.size[1] * k);
  pen.fillStyle = "#b00020";
  for (const fault of found()) if (fault.u) pen.fillRect(x(fault.u[0]) - 1, y(fault.u[1]) - 1, 2, 2);
  const edge = [x(view.x - wide / 2 / view.k), x(view.x + wide / 2 / view.k), y(view.y + high / 2 / view.k), y(view.y - high / 2 / view.k)];
  pen.lineWidth = 2; pen.strokeStyle = "#1d4e89";
  pen.strokeRect(edge[0] - 3, edge[2] - 3, edge[1] - edge[0] + 6, edge[3] - edge[2] + 6);
}
function scaleBar() {
  const metres = 10 ** Math.floor(Math.log10(120 / view.k / UNIT));
  const length = [5, 2, 1].map(times => times * metres).find(its => its * UNIT * view.k <= 140) || metres;
  const size = length * UNIT * view.k;
  pen.fillStyle = "rgba(255,255,255,.85)"; pen.fillRect(6, high - 30, size + 16, 25);
  pen.strokeStyle = "#1a1a1a"; pen.lineWidth = 2;
  pen.beginPath(); pen.moveTo(14, high - 14); pen.lineTo(14, high - 10); pen.lineTo(14 + size, high - 10); pen.lineTo(14 + size, high - 14); pen.stroke();
  pen.fillStyle = "#1a1a1a"; pen.font = "12px Arial";
  pen.fillText(length >= 1000 ? count(length / 1000) + " km" : length >= 1 ? count(length) + " m" : length >= 0.01 ? Math.round(length * 100) + " cm" : Math.round(length * 1e4) / 10 + " mm", 14 + size / 2, high - 20);
}
const due = () => { if (!isDue) { isDue = true; requestAnimationFrame(draw); } };

function fit(box, least) {
  const width = Math.max(box[2] - box[0], least), height = Math.max(box[3] - box[1], least);
  view.x = (box[0] + box[2]) / 2; view.y = (box[1] + box[3]) / 2;
  view.k = Math.min(wide / width, high / height) * 0.88;
  due();
}
const fitAll = () => fit([0, 0, data.size[0], data.size[1]], UNIT);
function fitFaults() {
  const boxes = found().filter(fault => fault.u).map(fault => [...fault.u, ...fault.u]);
  if (!boxes.length) return fitAll();
  fit(boxes.reduce((one, box) => [Math.min(one[0], box[0]), Math.min(one[1], box[1]), Math.max(one[2], box[2]), Math.max(one[3], box[3])]), 40 * UNIT);
}
// So near that what is wrong can be seen: a crossing by millimetres needs another view than a parcel.
function fitFault(fault) {
  if (!fault.u) return;
  let box = [...fault.u, ...fault.u], least = 30 * UNIT;
  // Of a region all, but of a sliver so much that its width has some pixels.
  if (fault.rings.length && fault.info.width > 0.1) { box = fault.rings[0].box; least = 2 * UNIT; }
  else if (fault.rings.length) least = Math.max(fault.info.width * 30 * UNIT, UNIT / 50);
  else if (!fault.marks.length) least = Math.max(least, 2.5 * nearestLine(fault.u));
  else if (fault.info.depth) least = Math.min(least, Math.max(fault.info.depth * 12 * UNIT, UNIT / 20));
  fit(box, least);
}
// How far the next vertex is, so that the view of a lonely point has something else in it.
function nearestLine([x, y]) {
  let least = Infinity;
  for (const { line } of lines) for (let k = 0; k < line.length; k += 2) {
    const way = Math.abs(line[k] - x) + Math.abs(line[k + 1] - y);
    if (way < least) least = way;
  }
  return least === Infinity ? 0 : least;
}
function zoom(times, x, y) {
  const u = x === undefined ? 0 : (x - wide / 2) / view.k, v = y === undefined ? 0 : (high / 2 - y) / view.k;
  const k = Math.min(Math.max(view.k * times, Math.min(wide, high) / Math.max(...data.size, 1) / 4), 60);
  view.x += u - u * view.k / k; view.y += v - v * view.k / k; view.k = k;
  due();
}
function resize() {
  const ratio = window.devicePixelRatio || 1;
  wide = canvas.clientWidth; high = canvas.clientHeight;
  canvas.width = wide * ratio; canvas.height = high * ratio;
  due();
}

const pointers = new Map();
let moved = 0, last = null, apart = 0;
const at = event => { const box = canvas.getBoundingClientRect(); return [event.clientX - box.left - 1, event.clientY - box.top - 1]; };
canvas.addEventListener("pointerdown", event => {
  try { canvas.setPointerCapture(event.pointerId); } catch (_) { /* a pointer that is gone */ }
  pointers.set(event.pointerId, at(event)); moved = 0; last = at(event); apart = 0;
});
canvas.addEventListener("pointermove", event => {
  const [x, y] = at(event);
  $("pointer").textContent = hasMap ? text(view.x + (x - wide / 2) / view.k, 0) + " / " + text(view.y + (high / 2 - y) / view.k, 1) : "";
  if (!pointers.has(event.pointerId)) return;
  const before = pointers.get(event.pointerId);
  pointers.set(event.pointerId, [x, y]);
  if (pointers.size === 2) {                // two fingers zoom
    const [p, q] = [...pointers.values()], now = Math.hypot(p[0] - q[0], p[1] - q[1]);
    if (apart) zoom(now / apart, (p[0] + q[0]) / 2, (p[1] + q[1]) / 2);
    apart = now; moved = 99;
    return;
  }
  moved += Math.abs(x - before[0]) + Math.abs(y - before[1]);
  view.x -= (x - before[0]) / view.k; view.y += (y - before[1]) / view.k;
  due();
});
for (const name of ["pointerup", "pointercancel"]) canvas.addEventListener(name, event => {
  pointers.delete(event.pointerId); apart = 0;
  if (name === "pointerup" && moved < 5) pick(...at(event));
});
canvas.addEventListener("wheel", event => {
  event.preventDefault();
  zoom(Math.exp(-Math.sign(event.deltaY) * Math.min(Math.abs(event.deltaY), 100) / 300), ...at(event));
}, { passive: false });
canvas.addEventListener("keydown", event => {
  const way = 60 / view.k;
  const does = { ArrowLeft: () => { view.x -= way; }, ArrowRight: () => { view.x += way; }, ArrowUp: () => { view.y += way; },
    ArrowDown: () => { view.y -= way; }, "+": () => zoom(1.5), "=": () => zoom(1.5), "-": () => zoom(1 / 1.5), "0": fitAll,
    f: fitFaults, n: () => step(1), p: () => step(-1) }[event.key];
  if (!does || event.ctrlKey || event.metaKey || event.altKey) return;
  event.preventDefault(); does(); due();
});
// The fault nearest to a click; at one place each click takes the next.
function pick(x, y) {
  const near = found().filter(fault => fault.u && isShown(fault)).map(fault => [Math.hypot(across(fault.u[0]) - x, down(fault.u[1]) - y), fault])
    .filter(([way]) => way < 14).sort((one, other) => one[0] - other[0]).map(([, fault]) => fault);
  if (near.length) choose(near[(near.indexOf(chosen) + 1) % near.length], false);
}
const text = (value, axis) => ((value + data.origin[axis]) / UNIT).toFixed(data.scale);

// The list.

let foundNow = null;
function found() {
  if (foundNow) return foundNow;
  const wanted = filter.text.toLowerCase();
  const has = fault => [kind(fault.kind)[0], nameOf(fault), ...(fault.at || []), ...fault.rows.flatMap(row => [String(row.line), row.tid || "", row.text])]
    .some(its => its.toLowerCase().includes(wanted));
  const key = { id: fault => fault.id, kind: fault => kind(fault.kind)[0], part: nameOf, line: fault => fault.rows.length ? fault.rows[0].line : -1,
    tid: fault => fault.rows.length && fault.rows[0].tid || "", place: fault => fault.u ? fault.u[0] : -Infinity }[order.key];
  const compare = (one, other) => typeof one === "number" ? one - other : one.localeCompare(other, language, { numeric: true });
  foundNow = data.faults.filter(fault => (!filter.kind || fault.kind === filter.kind)
    && (!filter.part || nameOf(fault).startsWith(filter.part)) && (!wanted || has(fault)));
  foundNow.sort((one, other) => (order.up ? 1 : -1) * compare(key(one), key(other)) || one.id - other.id);
  return foundNow;
}
function setFilter(wanted) {
  Object.assign(filter, wanted); most = STEP; foundNow = null;
  showFilters(); showList(); due();
}
function showFilters() {
  const select = (name, label, options) => {
    const made = el("select", { onchange: event => setFilter({ [name]: event.target.value }) },
      el("option", { value: "" }, ui("all")), ...options.map(([value, its]) => el("option", { value, selected: filter[name] === value }, its)));
    return el("label", {}, label, el("br"), made);
  };
  const parts = [...new Set(data.faults.map(nameOf).concat(filter.part))].filter(name => name).sort();
  const input = el("input", { type: "search", size: "24", value: filter.text,
    oninput: event => { filter.text = event.target.value; foundNow = null; most = STEP; showList(); due(); } });
  put("filters", select("kind", ui("kind"), kindsHere().map(name => [name, kind(name)[0]])), select("part", ui("part"), parts.map(name => [name, name])),
    el("label", {}, ui("search"), el("br"), input), button(ui("reset"), () => setFilter({ kind: "", part: "", text: "" })));
}
function showList() {
  const list = found(), columns = ["id", "kind", "part", "line", "tid", "place"];
  $("list-title").textContent = ui("list");
  $("list-part").hidden = !data.faults.length;
  $("shown").textContent = ui("shown", { n: count(list.length), total: count(data.total) }) + (data.total > data.faults.length ? " " + ui("cut", { n: count(data.faults.length) }) : "");
  document.querySelector("#list thead").replaceChildren(el("tr", {}, ...columns.map(name => el("th", { scope: "col",
    "aria-sort": order.key !== name ? "none" : order.up ? "ascending" : "descending" },
    button(ui("column_" + name) + (order.key !== name ? "" : order.up ? " \u25b2" : " \u25bc"), () => {
      order = { key: name, up: order.key !== name || !order.up }; foundNow = null; showList(); }, { id: "sort-" + name })))));
  document.querySelector("#list tbody").replaceChildren(...list.slice(0, most).map(row));
  $("more").hidden = list.length <= most;
  $("more").textContent = ui("more", { n: count(Math.min(STEP, list.length - most)) });
}
function row(fault) {
  const first = fault.rows[0];
  const cell = (name, its, isNumber) => el("td", { class: isNumber ? "number" : "", "data-label": ui("column_" + name) }, its);
  return el("tr", { id: "row-" + fault.id, class: fault === chosen ? "chosen" : "" }, cell("id", String(fault.id), true),
    el("td", {}, dot(fault.kind, fault.judged), button(kind(fault.kind)[0], () => choose(fault, true))), cell("part", nameOf(fault)),
    cell("line", fault.rows.map(its => its.line).join(", "), true), cell("tid", first && first.tid || ""),
    cell("place", fault.at ? fault.at.join(" / ") : "-", true));
}
$("more").addEventListener("click", () => { most += STEP; showList(); });

// One fault.

function choose(fault, go) {
  const before = chosen && $("row-" + chosen.id);
  if (before) before.className = "";
  chosen = fault;
  const its = fault && $("row-" + fault.id);
  if (its) its.className = "chosen";
  if (fault && go) { fitFault(fault); if (fault.u) $("map-part").scrollIntoView({ block: "nearest" }); }
  if (fault) say(ui("chosen", { id: fault.id, kind: kind(fault.kind)[0] }));
  showDetail(); due(); remember();
}
function step(way) {
  const list = found(), index = list.indexOf(chosen);
  if (list.length) choose(list[index < 0 ? (way > 0 ? 0 : list.length - 1) : (index + way + list.length) % list.length], true);
}
function copyButton(its) {
  return button(ui("copy"), () => {
    // A page of a file may not have the clipboard: then a field that is selected is copied.
    const field = el("textarea", { class: "hidden", readonly: true });
    field.value = its; document.body.append(field); field.select();
    const done = document.execCommand("copy");
    field.remove();
    say(ui(done ? "copied" : "notCopied", { text: its }));
  }, { class: "no-print", "aria-label": ui("copy") + " " + its });
}
function showDetail() {
  $("detail-title").textContent = ui("detail");
  $("detail-part").hidden = !data.faults.length;
  if (!chosen) return put("detail", el("p", { class: "quiet" }, ui("choose")));
  const [title, what, mend] = kind(chosen.kind), info = chosen.info, facts = [];
  const fact = (name, ...its) => facts.push(el("dt", {}, ui(name)), ...its.map(one => el("dd", {}, one)));
  fact("what", what, ...(info.how ? [fill(words.how[info.how], { depth: info.depth })] : []),
    ...(info.bent ? [ui("bent")] : []), ...(info.size !== undefined ? [ui("size", { size: count(info.size), width: info.width }) + (chosen.kind === "EMPTY" ? " " + ui(info.width < 0.1 ? "sliver" : "missing") : "")] : []));
  if (mend) fact("mend", mend);
  if (chosen.at) fact("place", el("span", {}, el("code", {}, chosen.at.join(" / ")), " ", copyButton(chosen.at.join(" "))));
  if (info.first) fact("firstPoint", el("span", {}, el("code", {}, info.first.join(" / ")), " ", copyButton(info.first.join(" "))));
  if (nameOf(chosen)) fact("part", nameOf(chosen));
  if (info.tid) fact("surfaceObject", ui("tid") + " " + info.tid);
  if (info.attribute) fact("attribute", info.attribute);
  if (info.value) fact("value", el("code", {}, info.value));
  if (info.allowed) fact("allowed", el("code", {}, info.allowed));
  if (info.ends && info.ends.length) fact("ends", ...info.ends.map(end => ui("end", { place: end.at.join(" / "), way: end.way, line: end.line })
    + (end.gap === null ? "" : " " + ui("gap", { gap: end.gap, line: end.gap_line }))));
  if (chosen.side) fact("side", ui(chosen.side));
  const beside = its => ui("what_" + its.what, { tid: its.tid, line: its.line });
  if (info.sides_of_line) fact("sides", ...info.sides_of_line.map(its => ui("side_" + its.side) + ": " + beside(its)));
  if (info.beside && info.beside.length) fact("beside", ...info.beside.map(beside));
  for (const its of chosen.rows) fact("row", ui("line", { line: its.line }) + (its.table ? ", " + its.topic + "." + its.table : "") + (its.tid ? ", " + ui("tid") + " " + its.tid : ""), el("code", { class: "row" }, its.text));
  put("detail", el("h3", {}, dot(chosen.kind, chosen.judged), chosen.id + ". " + title), el("dl", {}, ...facts));
}

// All that has words.

function showMap() {
  $("map-title").textContent = ui("map");
  $("map-part").hidden = !hasMap;
  canvas.setAttribute("aria-label", ui("mapLabel", { n: count(data.total) }));
  put("map-buttons", button("+", () => zoom(1.5), { "aria-label": ui("nearer") }), button("\u2212", () => zoom(1 / 1.5), { "aria-label": ui("farther") }),
    button(ui("whole"), fitAll), button(ui("toFaults"), fitFaults, { disabled: !data.faults.length }),
    button(ui("previous"), () => step(-1), { disabled: !data.faults.length }), button(ui("next"), () => step(1), { disabled: !data.faults.length }));
  $("layers").setAttribute("aria-label", ui("layers"));
  put("layers", el("span", {}, ui("layers") + ":"), ...Object.keys(layers).map(name => el("label", {},
    el("input", { type: "checkbox", checked: layers[name], onchange: event => { layers[name] = event.target.checked; due(); } }),
    ui("layer_" + name))));
  $("map-help").textContent = ui("mapHelp");
  $("thinned").textContent = data.whole ? "" : ui(data.radius ? "thinned" : "thinnedAll", { n: count(data.vertices), radius: data.radius });
  put("legend", ...kindsHere().filter(name => data.faults.some(fault => fault.kind === name && fault.u))
    .map(name => el("li", {}, dot(name, isFault(name)), kind(name)[0])));
}
function showFiles() {
  $("files-title").textContent = ui("files");
  put("files", el("table", {}, el("tbody", {}, ...data.files.map(file => el("tr", {}, el("th", { scope: "row" }, ui(file.role)),
    el("td", {}, el("code", {}, file.name)), el("td", { class: "number" }, count(file.bytes)), el("td", {}, el("code", {}, "sha256 " + file.sha256)))))));
  $("proves").textContent = ui("crs_" + data.crs.from, { epsg: data.crs.epsg || "-" }) + " " + ui("proves");
}
function showKinds() {
  $("kinds-title").textContent = ui("kinds");
  $("kinds-title").parentElement.hidden = !kindsHere().length;
  put("kinds", ...kindsHere().flatMap(name => [el("dt", {}, dot(name, isFault(name)), kind(name)[0]), el("dd", {}, kind(name)[1]), ...(kind(name)[2] ? [el("dd", {}, kind(name)[2])] : [])]));
}
function showAll() {
  document.documentElement.lang = language;
  $("languages").setAttribute("aria-label", ui("language"));
  put("languages", ...Object.keys(allWords).map(name => button(allWords[name].language, () => setLanguage(name),
    { lang: name, id: "lang-" + name, "aria-pressed": String(name === language) })));
  showVerdict(); showSummary(); showMap(); showFilters(); showList(); showDetail(); showKinds(); showFiles();
}
function setLanguage(name) {
  language = name; words = allWords[name]; foundNow = null;
  showAll(); due(); remember();
  $("lang-" + name).focus();
}
// The language and the fault stand in the address, so that a link leads to them.
function remember() {
  try { history.replaceState(null, "", "#" + language + (chosen ? "/" + chosen.id : "")); } catch (_) { /* not everywhere */ }
}
const [wanted, number] = location.hash.slice(1).split("/");
if (Object.prototype.hasOwnProperty.call(allWords, wanted)) { language = wanted; words = allWords[language]; }
showAll();
resize();
window.addEventListener("resize", resize);
if (hasMap) fitFaults();
const given = data.faults.find(fault => String(fault.id) === number);
if (given) choose(given, true);
// Printed it has all faults of the page, the map of all of them, and the day.
window.addEventListener("beforeprint", () => {
  most = data.faults.length; showList();
  $("printed").textContent = ui("printed", { date: new Date().toLocaleDateString(language + "-CH") });
  if (hasMap && !chosen) { fitFaults(); draw(); }
});
document.documentElement.setAttribute("data-ready", String(Math.round(performance.now())));
})();
