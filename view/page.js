// The page of a replay: draws what is seen of it as SVG, and tells what stands under the pointer.
// A view is a range of events. Bars that are narrower than two pixels and marks in one place are drawn as one.
"use strict";

const D = JSON.parse(document.getElementById("data").textContent);
const COUNT = D.line.length;
const FATES = ["committed", "squashed", "dropped", "alive"];
const COLOURS = { committed: "#3a7d5b", squashed: "#c0392b", dropped: "#8b95a5", alive: "#4a7fc1" };
const KINDS = ["step", "idle", "stalled", "reached", "full", "met", "fork", "restart", "halted", "commit", "squash", "end"];
const MARKS = {
  step: "#6d7b90", idle: "#c3cad4", stalled: "#e0a030", reached: "#1c2430", full: "#7b3fa0", met: "#7b3fa0", fork: "#2f5d9b",
  restart: "#2f5d9b", halted: "#c0392b", commit: "#2d6a4b", squash: "#c0392b", end: "#1c2430",
};
const KIND_OF = {
  forked: "fork", started: "restart", committed: "commit", squashed: "squash", ended: "end", moved: "step", stepped: "step",
};
const SHAPES = new Set(["full", "met", "fork", "restart", "halted", "squash", "end"]);
const INSIDE = -1;
const LEFT = 128, RIGHT = 14, TOP = 8, LANE = 30, NOTES = 16, CHART = 58, GAP = 16;
const CHARTS = [["committed position", D.positions], ["live tasks", D.live], ["master's lead", D.lead]];
const T = Object.fromEntries(D.columns.map((name, at) => [name, at]));

const kindOfLine = D.lines.map((line) => KINDS.indexOf(kind(line)));
const squashes = D.tasks.map((task, number) => [task, number]).filter(([task]) => task[T.fate] === 1);
const noteRows = Math.min(3, squashes.length);
const perLane = D.lanes.map(() => []);
D.tasks.forEach((task, number) => perLane[2 + task[T.slave]].push(number));
const lanesEnd = TOP + D.lanes.length * LANE + noteRows * NOTES;
const height = lanesEnd + 22 + CHARTS.length * (CHART + GAP);
const svg = document.getElementById("svg"), tip = document.getElementById("tip"), kept = document.getElementById("kept");
let view = [0, Math.max(1, COUNT)], width = 800;

function kind(line) {
  const [word, second] = line.split(" ");
  if (word === "done") return second;
  return KIND_OF[word] || word;
}

const scale = () => (width - LEFT - RIGHT) / (view[1] - view[0]);
const x = (event) => LEFT + (event - view[0]) * scale();
const laneAt = (event) => D.laneOf[D.event.charCodeAt(event) - 48];
const endOf = (task) => (task[T.ended] === null ? COUNT : task[T.ended] + 1);
const px = (value) => value.toFixed(1);
const laneTop = (lane) => TOP + lane * LANE;
const escaped = (text) => String(text).replace(/[&<>"]/g, (c) => ({ "&": "&amp;", "<": "&lt;", ">": "&gt;", '"': "&quot;" })[c]);
const place = (pc) => (D.places[pc] ? ` ${D.places[pc]}` : "");
const number = (value) => value.toLocaleString("en");

// ---- what is drawn ------------------------------------------------------------------------------------------------------

function laneBands() {
  return D.lanes.map((name, lane) =>
    `<rect class="lane${lane % 2 ? " odd" : ""}" x="0" y="${laneTop(lane)}" width="${width}" height="${LANE}"/>` +
    `<text x="8" y="${laneTop(lane) + 19}">${name}</text>`).join("");
}

function bar(number, from, to) {
  const task = D.tasks[number], y = laneTop(2 + task[T.slave]) + 5, wide = Math.max(1, to - from);
  const fate = FATES[task[T.fate]], rest = `y="${y}" height="${LANE - 10}"`, fill = `fill="${COLOURS[fate]}"`;
  let out = `<rect class="task ${fate}" data-task="${number}" x="${px(from)}" width="${px(wide)}" ${rest} rx="2" ${fill}/>`;
  const done = task[T.done] === null ? to : Math.min(to, Math.max(from, x(task[T.done] + 1)));
  if (to - done > 1) out += `<rect class="wait" x="${px(done)}" width="${px(to - done)}" ${rest}/>`;
  return out;
}

function label(number, from, to) {
  const task = D.tasks[number], text = task[T.pc] ? `${number} from ${task[T.pc]}${place(task[T.pc])}` : String(number);
  const short = to - from > 8 + 6.6 * text.length ? text : String(number);
  if (to - from < 9 + 6.3 * short.length) return "";
  const y = laneTop(2 + task[T.slave]) + 17;
  const pale = task[T.done] !== null && x(task[T.done] + 1) - Math.max(from, LEFT) < 4 + 6.3 * short.length;
  return `<text class="inside${pale ? " dark" : ""}" x="${px(Math.max(from, LEFT) + 4)}" y="${y}">${escaped(short)}</text>`;
}

function link(number, from) {
  const task = D.tasks[number], source = task[T.restarted] ? 0 : 1, middle = from + scale() / 2;
  if (middle < LEFT || middle > width - RIGHT) return "";
  return `<path class="link" d="M${px(middle)} ${laneTop(source) + LANE / 2}V${laneTop(2 + task[T.slave]) + 5}"/>`;
}

function tasksIn(lane) {
  const numbers = perLane[lane];
  let low = 0, high = numbers.length;
  while (low < high) {
    const middle = (low + high) >> 1, end = D.tasks[numbers[middle]][T.ended];
    if ((end === null ? COUNT : end) < view[0]) low = middle + 1; else high = middle;
  }
  let end = low;
  while (end < numbers.length && D.tasks[numbers[end]][T.begun] < view[1]) end++;
  return numbers.slice(low, end);
}

function bars() {
  const out = [], links = [], labels = [];
  for (let lane = 2; lane < D.lanes.length - 1; lane++) {
    let last = -1;
    for (const number of tasksIn(lane)) {
      const task = D.tasks[number];
      const from = Math.max(LEFT, x(task[T.begun])), to = Math.min(width - RIGHT, x(endOf(task)));
      if (to - from < 2 && Math.floor(from / 2) === last && task[T.fate] !== 1) continue;
      last = Math.floor(from / 2);
      out.push(bar(number, from, to));
      if (to - from > 12) labels.push(label(number, from, to));
      if (to - from > 6) links.push(link(number, x(task[T.begun])));
    }
  }
  return links.join("") + out.join("") + `<g id="labels">${labels.join("")}</g>`;
}

function shape(name, at, top) {
  const y = top + LANE / 2;
  switch (name) {
    case "fork": return `M${at - 4} ${y + 6}L${at} ${y - 6}L${at + 4} ${y + 6}Z`;
    case "restart": return `M${at - 4} ${y - 6}L${at + 6} ${y}L${at - 4} ${y + 6}Z`;
    case "halted": return `M${at - 5} ${y - 5}h10v10h-10Z`;
    case "met": case "full": return `M${at} ${y - 6}L${at + 5} ${y}L${at} ${y + 6}L${at - 5} ${y}Z`;
    case "squash": return `M${at - 6} ${y - 8}l6 6l6 -6l2 2l-6 6l6 6l-2 2l-6 -6l-6 6l-2 -2l6 -6l-6 -6Z`;
    case "end": return `M${at - 5} ${y - 9}h10v18h-10Z`;
  }
  return "";
}

function tick(name, lane, at, wide) {
  const top = laneTop(lane), left = px(at - wide / 2), w = px(wide);
  const inTask = lane > 1 && lane < D.lanes.length - 1;
  if (name === "commit" || name === "reached") return `M${px(at - 1.2)} ${top + 4}h2.4v${LANE - 8}h-2.4Z`;
  if (name === "idle") return `M${left} ${top + LANE - 4}h${w}v2h-${w}Z`;
  if (name === "stalled") return `M${left} ${top + 9}h${w}v${LANE - 18}h-${w}Z`;
  return inTask ? `M${left} ${top + LANE - 9}h${w}v3h-${w}Z` : `M${left} ${top + 11}h${w}v${LANE - 22}h-${w}Z`;
}

function marks() {
  const s = scale(), paths = new Map(), last = new Map();
  const wide = Math.max(1.5, Math.min(12, s * 0.6));
  for (let event = Math.max(0, Math.floor(view[0])); event < Math.min(COUNT, Math.ceil(view[1])); event++) {
    const k = kindOfLine[D.line[event]], lane = laneAt(event), key = lane * 16 + k, name = KINDS[k];
    const of = name === "step" && lane > 1 ? INSIDE : k;
    const at = LEFT + (event + 0.5 - view[0]) * s;
    const bin = Math.floor(at / (SHAPES.has(name) ? 7 : 2));
    if (at < LEFT || last.get(key) === bin) continue;
    last.set(key, bin);
    const piece = SHAPES.has(name) ? shape(name, Math.round(at * 10) / 10, laneTop(lane)) : tick(name, lane, at, wide);
    if (paths.has(of)) paths.get(of).push(piece); else paths.set(of, [piece]);
  }
  return [...paths.keys()].sort((a, b) => a - b).map((k) => {
    const name = k === INSIDE ? "step" : KINDS[k];
    const fill = k === INSIDE ? ` fill="#fff" opacity=".6"` : ` fill="${name === "full" ? "#fff" : MARKS[name]}"`;
    const hollow = name === "full" ? `${fill} stroke="${MARKS.full}" stroke-width="1.5"` : fill;
    return `<path class="mark ${name}" data-marks="${paths.get(k).length}"${hollow} d="${paths.get(k).join("")}"/>`;
  }).join("");
}

// the cell of a squash and both values, each with its name where it is an address
function parts(task) {
  const [, cell, predicted, found] = task[T.line].match(/^squashed (.*) predicted (\S+) found (\S+)$/);
  const at = (value) => (cell === "pc" ? place(value) : "");
  const named = cell.startsWith("byte ") ? place(cell.slice(5)) : "";
  return [[cell, named], [predicted, at(predicted)], [found, at(found)]];
}

function squashText([task, number]) {
  const [[cell, named], [value], [other, at]] = parts(task);
  const said = `${cell}${named}: predicted ${value}, found ${other}${at}`;
  const start = task[T.pc] ? ` from ${task[T.pc]}${place(task[T.pc])}` : "";
  return `squashed task ${number}${start}, ${said}`;
}

function notes() {
  const seen = squashes.filter(([task]) => task[T.ended] >= view[0] && task[T.ended] < view[1]);
  if (seen.length > noteRows) {
    const y = lanesEnd - noteRows * NOTES + 12;
    return `<text class="squashed" x="${LEFT}" y="${y}">${seen.length} squashes here: zoom in, or see the table below</text>`;
  }
  return seen.map((one, row) => {
    const at = x(one[0][T.ended] + 0.5), left = at < width / 2, y = lanesEnd - (noteRows - row) * NOTES + 12;
    const text = squashText(one), long = 6.8 * text.length;
    const from = left ? Math.min(at - 6, width - RIGHT - long) : Math.max(at + 6, 4 + long);
    const where = `text-anchor="${left ? "start" : "end"}" x="${px(left ? Math.max(4, from) : Math.min(width - 4, from))}"`;
    return `<text class="squashed" ${where} y="${y}">${escaped(text)}</text>`;
  }).join("");
}

function niceStep(span, pieces) {
  const raw = Math.max(1, span / pieces), power = 10 ** Math.floor(Math.log10(raw));
  return Math.max(1, [1, 2, 5, 10].map((n) => n * power).find((n) => n >= raw));
}

function axis() {
  const step = niceStep(view[1] - view[0], Math.max(2, Math.floor((width - LEFT) / 110))), out = [];
  for (let event = Math.ceil(view[0] / step) * step; event < view[1]; event += step) {
    const at = x(event + 0.5);
    if (at > width - 30) break;
    out.push(`<path stroke="#d5dae2" d="M${px(at)} ${TOP}V${height - GAP}"/>` +
      `<text class="small" x="${px(at)}" y="${lanesEnd + 14}" text-anchor="middle">${number(event)}</text>`);
  }
  return [out.join(""), `<text class="small" x="8" y="${lanesEnd + 14}">event</text>`];
}

// the value of a row of changes (event, value, event, value, ...) after an event
function valueAt(changes, event) {
  let low = 0, high = changes.length / 2;
  while (low < high) {
    const middle = (low + high) >> 1;
    if (changes[2 * middle] <= event) low = middle + 1; else high = middle;
  }
  return low ? changes[2 * low - 1] : 0;
}

function chart([name, changes], index) {
  const top = lanesEnd + 22 + index * (CHART + GAP), s = scale();
  let most = 1;
  for (let i = 1; i < changes.length; i += 2) most = Math.max(most, changes[i]);
  const y = (value) => top + CHART - 3 - (value / most) * (CHART - 8);
  let path = `M${LEFT} ${px(y(valueAt(changes, view[0] - 1)))}`, column = -1, low = 0, high = 0, value = 0;
  const flush = () => { if (column >= 0) path += `H${column}V${px(y(low))}V${px(y(high))}V${px(y(value))}`; };
  let i = 0;
  while (i < changes.length && changes[i] < view[0]) i += 2;
  for (; i < changes.length && changes[i] < view[1]; i += 2) {
    const at = Math.round(LEFT + (changes[i] + 0.5 - view[0]) * s);
    value = changes[i + 1];
    if (at !== column) {
      const now = value;
      value = i > 1 ? changes[i - 1] : 0;
      flush();
      value = low = high = now;
      column = at;
    }
    low = Math.min(low, value); high = Math.max(high, value);
  }
  flush();
  return `<rect class="lane" x="${LEFT}" y="${top}" width="${width - LEFT - RIGHT}" height="${CHART}"/>` +
    name.split(" ").map((word, row) => `<text class="small" x="8" y="${top + 13 + 14 * row}">${word}</text>`).join("") +
    `<text class="small" x="${LEFT - 5}" y="${top + CHART - 2}" text-anchor="end">0</text>` +
    `<text class="small" x="${LEFT - 5}" y="${top + 13}" text-anchor="end">${number(most)}</text>` +
    `<path class="chart" d="${path}H${px(Math.min(width - RIGHT, x(COUNT)))}"/>`;
}

function draw() {
  width = Math.max(480, svg.parentElement.clientWidth);
  svg.setAttribute("viewBox", `0 0 ${width} ${height}`);
  svg.setAttribute("height", height);
  const [lines, name] = axis();
  const charts = CHARTS.map(chart).join(""), line = `<path id="cursor" class="cursor"/>`;
  svg.innerHTML = laneBands() + charts + lines + name + bars() + marks() + notes() + line;
  const last = Math.min(COUNT, Math.ceil(view[1])) - 1;
  const first = Math.max(0, Math.floor(view[0]));
  document.getElementById("range").textContent = `events ${number(first)} to ${number(last)} of ${number(COUNT)}`;
}

let asked = false;
function redraw() {
  if (asked) return;
  asked = true;
  requestAnimationFrame(() => { asked = false; draw(); });
}

function show(from, to) {
  const span = Math.min(Math.max(8, to - from), Math.max(8, COUNT)), most = Math.max(0, COUNT - span);
  const start = Math.min(Math.max(0, from), most);
  view = [start, start + span];
  redraw();
}

function zoom(factor, middle) {
  const span = (view[1] - view[0]) * factor, share = (middle - view[0]) / (view[1] - view[0]);
  show(middle - share * span, middle + (1 - share) * span);
}

// ---- what is told -------------------------------------------------------------------------------------------------------

function fateText(n) {
  const task = D.tasks[n], fate = FATES[task[T.fate]];
  const ways = {
    committed: () => `committed at event ${number(task[T.ended])}`,
    squashed: () => `squashed at event ${number(task[T.ended])}`,
    dropped: () => `given up at event ${number(task[T.ended])}, behind task ${task[T.behind]}`,
    alive: () => "alive at the end of the list",
  };
  const done = task[T.ending] ? `, done ${task[T.ending]} at event ${number(task[T.done])}` : "";
  return `task ${n}: begun at event ${number(task[T.begun])}, ${number(task[T.steps])} steps${done}, ${ways[fate]()}`;
}

function taskText(n) {
  const task = D.tasks[n], out = [fateText(n)];
  if (task[T.pc]) {
    out.push(`it starts at ${task[T.pc]}${place(task[T.pc])}`);
    if (D.words[task[T.pc]]) out.push(...D.words[task[T.pc]].map((word) => "    " + word));
  } else out.push("no line tells where it starts");
  if (task[T.fate] === 1) out.push(squashText([task, n]));
  return out;
}

function eventText(event) {
  const line = D.lines[D.line[event]], name = D.events[D.event.charCodeAt(event) - 48];
  const address = line.match(/^started ([0-9a-f]{8})|byte ([0-9a-f]{8})|misfetch ([0-9a-f]{8})/);
  const at = address && (address[1] || address[2] || address[3]);
  const out = [`event ${number(event)}, ${name}: ${line}${at ? place(at) : ""}`];
  if (D.task[event] >= 0) out.push(...taskText(D.task[event]));
  return out;
}

function groupText(lane, from, to) {
  const counts = new Map();
  for (let event = from; event <= to; event++) {
    if (laneAt(event) !== lane) continue;
    const word = D.lines[D.line[event]].split(" ").slice(0, D.lines[D.line[event]].startsWith("done") ? 2 : 1).join(" ");
    counts.set(word, (counts.get(word) || 0) + 1);
  }
  return [`events ${number(from)} to ${number(to)}, ${D.lanes[lane]}:`,
    [...counts].map(([word, count]) => `${number(count)} ${word}`).join(", ") || "none of them is its own"];
}

function nearest(lane, from, to, middle) {
  let best = -1, rank = -1;
  for (let event = Math.max(0, from); event <= Math.min(COUNT - 1, to); event++) {
    if (laneAt(event) !== lane) continue;
    const k = kindOfLine[D.line[event]], near = k * 1000 - Math.abs(event - middle) / (to - from + 1);
    if (near > rank) { rank = near; best = event; }
  }
  return best;
}

function taskUnder(lane, event) {
  if (lane < 2 || lane >= D.lanes.length - 1) return -1;
  const found = perLane[lane].find((n) => D.tasks[n][T.begun] <= event && event < endOf(D.tasks[n]));
  return found === undefined ? -1 : found;
}

function told(across, down) {
  const event = Math.floor(view[0] + (across - LEFT) / scale()), lane = Math.floor((down - TOP) / LANE);
  if (across < LEFT || event < 0 || event >= COUNT) return null;
  const values = CHARTS.map(([name, changes]) => `${name} ${number(valueAt(changes, event))}`).join(", ");
  if (lane < 0 || lane >= D.lanes.length) return [`event ${number(event)}`, values];
  const reach = scale() < 4 ? Math.ceil(4 / scale()) : 0;
  const from = Math.max(0, event - reach), to = Math.min(COUNT - 1, event + reach);
  const found = nearest(lane, from, to, event), out = [];
  if (found >= 0) out.push(...eventText(found));
  const under = taskUnder(lane, event);
  if (under >= 0 && (found < 0 || D.task[found] !== under)) out.push(...taskText(under));
  if (to > from) out.push(...groupText(lane, from, to));
  if (!out.length) out.push(`event ${number(event)} is another's`);
  return [...out, values];
}

function point(mouse) {
  const box = svg.getBoundingClientRect(), unit = width / box.width;
  const across = (mouse.clientX - box.left) * unit, down = (mouse.clientY - box.top) * unit;
  return [across, down, told(across, down)];
}

function tableOfSquashes() {
  const section = document.getElementById("squashes"), most = 500;
  if (!squashes.length) { section.innerHTML = "<h2>No task was squashed</h2>"; return; }
  const rows = squashes.slice(0, most).map(([task, n]) => {
    const values = parts(task).map(([value, name]) => `<code>${value}</code>${escaped(name)}`);
    const cells = [
      number(task[T.ended]), n, `<code>${task[T.pc] || "not told"}</code>${escaped(place(task[T.pc]))}`,
      ...values, number(task[T.position]), number(task[T.steps]),
    ];
    return `<tr class="row" data-event="${task[T.ended]}">${cells.map((text) => `<td>${text}</td>`).join("")}</tr>`;
  });
  const more = squashes.length > most ? `, the first ${most} of ${number(squashes.length)}` : "";
  const heads = ["event", "task", "it starts at", "cell", "predicted", "found", "committed position", "its steps"];
  const head = `<tr>${heads.map((text) => `<th>${text}</th>`).join("")}</tr>`;
  section.innerHTML = `<h2>Squashes${more}</h2><table>${head}${rows.join("")}</table>`;
}

function head() {
  const s = D.summary;
  const said = [`${number(COUNT)} events, ${D.slaves} slaves: committed position <b>${s.position}</b>`,
    `<b>${s["by-tasks"]}</b> steps by tasks (<b>${s.tasks}</b>) and <b>${s.serial}</b> serial`, `<b>${s.squashed}</b> squashed`,
    `<b>${s.dropped}</b> dropped behind a commit`, `end ${escaped(s.end)}`].join(", ");
  const none = D.tasks.length ? "" : ". <b>No task was begun.</b>";
  document.getElementById("summary").innerHTML = said + none + D.remarks.map((remark) => `<br>${escaped(remark)}`).join("");
  const swatch = FATES.map((fate) => `<span><i style="background:${COLOURS[fate]}"></i>${fate}</span>`).join("");
  const names = ["restart", "fork", "stalled", "halted", "reached", "met", "full", "commit", "squash", "end", "idle"];
  const texts = { reached: "done reached", met: "done met", full: "done full", end: "end of the run" };
  const mark = (name) => SHAPES.has(name) ? shape(name, 9, -6) : name === "idle" ? "M3 12h12v2h-12Z" : "M7.5 2h3v14h-3Z";
  document.getElementById("legend").innerHTML = swatch + names.map((name) =>
    `<span><svg viewBox="0 0 18 18"><path d="${mark(name)}" fill="${name === "full" ? "#fff" : MARKS[name]}"` +
    `${name === "full" ? ` stroke="${MARKS.full}" stroke-width="1.5"` : ""}/></svg>${texts[name] || name}</span>`).join("");
}

// ---- what the reader does -----------------------------------------------------------------------------------------------

function nextSquash() {
  const middle = (view[0] + view[1]) / 2, next = squashes.find(([task]) => task[T.ended] > middle + 0.5) || squashes[0];
  if (next) around(next[0][T.ended]);
}

function around(event) {
  const span = Math.min(view[1] - view[0], 240);
  show(event - span / 2, event + span / 2);
}

function act(what) {
  const middle = (view[0] + view[1]) / 2, span = view[1] - view[0];
  const acts = {
    in: () => zoom(0.5, middle), out: () => zoom(2, middle), all: () => show(0, COUNT), squash: nextSquash,
    left: () => show(view[0] - span / 3, view[1] - span / 3), right: () => show(view[0] + span / 3, view[1] + span / 3),
  };
  if (acts[what]) acts[what]();
}

document.getElementById("controls").addEventListener("click", (e) => act(e.target.dataset.do));
document.getElementById("squashes").addEventListener("click", (e) => {
  const row = e.target.closest("tr.row");
  if (row) { around(Number(row.dataset.event)); window.scrollTo(0, 0); }
});
document.addEventListener("keydown", (e) => {
  if (e.ctrlKey || e.metaKey || e.altKey) return;
  act({ "+": "in", "=": "in", "-": "out", 0: "all", ArrowLeft: "left", ArrowRight: "right", s: "squash" }[e.key]);
});
svg.addEventListener("wheel", (e) => {
  e.preventDefault();
  const [across] = point(e);
  zoom(e.deltaY > 0 ? 1.25 : 0.8, view[0] + (Math.max(LEFT, across) - LEFT) / scale());
}, { passive: false });
let drag = null;
svg.addEventListener("pointerdown", (e) => { drag = { x: e.clientX, view: [...view], moved: false }; });
window.addEventListener("pointerup", (e) => {
  if (drag && !drag.moved && svg.contains(e.target)) {
    const [, , text] = point(e);
    kept.hidden = !text;
    kept.textContent = text ? text.join("\n") : "";
  }
  drag = null;
});
svg.addEventListener("pointermove", (e) => {
  const [across, , text] = point(e);
  if (drag && Math.abs(e.clientX - drag.x) > 3) {
    drag.moved = true;
    const shift = (drag.x - e.clientX) / scale();
    show(drag.view[0] + shift, drag.view[1] + shift);
  }
  const line = document.getElementById("cursor");
  if (line && across >= LEFT) line.setAttribute("d", `M${across} ${TOP}V${height - GAP}`);
  tip.hidden = !text || (drag && drag.moved);
  if (!text) return;
  tip.textContent = text.join("\n");
  tip.style.left = `${Math.min(e.clientX + 14, window.innerWidth - tip.offsetWidth - 8)}px`;
  tip.style.top = `${Math.min(e.clientY + 16, window.innerHeight - tip.offsetHeight - 8)}px`;
});
svg.addEventListener("pointerleave", () => { tip.hidden = true; });
window.addEventListener("resize", redraw);

head();
tableOfSquashes();
draw();
document.documentElement.dataset.ready = Math.round(performance.now());
document.documentElement.dataset.bars = svg.querySelectorAll("rect.task").length;
