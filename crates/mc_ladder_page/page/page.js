"use strict";
// Shows what stands in the page's data, and adds nothing: the ladder row by row, and beside it the network after each row.
const by_id = (id) => document.getElementById(id);
const make = (tag, classes, text) => {
  const made = document.createElement(tag);
  if (classes) made.className = classes;
  if (text !== undefined) made.textContent = text;
  return made;
};
const drawn = (tag, attributes) => {
  const made = document.createElementNS("http://www.w3.org/2000/svg", tag);
  for (const name in attributes) made.setAttribute(name, attributes[name]);
  return made;
};

// ---- the data: boxes by columns, slots by number, and for each row the numbers of the cells that it changes, with the cells

const data = JSON.parse(by_id("data").textContent);
const slot_count = data.slots.length;
const ids = data.rows.map((row) => row[0]);
const far = (slot) => slot ^ 1;

// The cells after the row that is looked at, and what each row changed: so a step back is a step, too.
const cells = [];
const before = data.rows.map((row) => {
  const old = [];
  for (let i = 1; i < row.length; i += 2) {
    old.push(row[i], cells[row[i]]);
    cells[row[i]] = row[i + 1];
  }
  return old;
});
let looked_at = ids.length - 1;

// Makes the cells those after a row, and answers the numbers of those that are others than before.
function walk_to(k) {
  const changed = new Set();
  const change = (list, from) => {
    for (let i = from; i < list.length; i += 2) {
      cells[list[i]] = list[i + 1];
      changed.add(list[i]);
    }
  };
  while (looked_at < k) change(data.rows[++looked_at], 1);
  while (looked_at > k) change(before[looked_at--], 0);
  return changed;
}

const slot_cell = (slot) => cells[3 * slot];
const media_cell = (slot) => cells[3 * slot + 1];
const path_cell = (slot) => cells[3 * slot + 2];
const box_cell = (who) => cells[3 * slot_count + who];
const place = (slot) => names.get(data.slots[slot][0]) + "/" + data.slots[slot][1];
const names = new Map(data.boxes.map(([who, name]) => [who, name]));
const slot_at = new Map(data.slots.map((_, slot) => [place(slot), slot]));

// The slot that a slot is linked with, or undefined.
function partner(slot) {
  const [word, other] = slot_cell(slot)[2].split(" ");
  return word === "link" ? slot_at.get(names.get(data.slots[slot][0]) + "/" + other) : undefined;
}

// ---- the ladder: its rows in blocks, of which a browser draws those in view alone

const BLOCK = 32;
const ladder = by_id("ladder");
const picture = ladder.querySelector("svg");
const width = +picture.getAttribute("width");
const height_of = (row) => +/,(\d+)\)/.exec(row.getAttribute("transform"))[1];
const rows = new Map();

function part_of(top, bottom, lines) {
  const part = drawn("svg", { width, height: bottom - top, viewBox: "0 0 " + width + " " + (bottom - top) });
  part.append(drawn("path", { class: "v", d: lines.replace(/M(\d+) \d+V\d+/g, "M$1 0V" + (bottom - top)) }));
  return part;
}

function lay_out() {
  const all = [...picture.querySelectorAll(":scope > g[id]")];
  const lines = picture.querySelector(":scope > path.v").getAttribute("d");
  const bottom = +picture.getAttribute("height") - 8;
  const heads = drawn("svg", { width, height: 44, viewBox: "0 0 " + width + " 44" });
  heads.append(...picture.querySelectorAll(":scope > .hd, :scope > text"));
  const top = make("div", "heads");
  top.append(heads);
  const made = [top];
  for (let i = 0; i < all.length; i += BLOCK) {
    const block = all.slice(i, i + BLOCK);
    const y = height_of(block[0]);
    const end = i + BLOCK < all.length ? height_of(all[i + BLOCK]) : bottom;
    const part = part_of(y, end, lines);
    const numbers = drawn("svg", { class: "numbers", width: 60, height: end - y });
    block.forEach((row, j) => {
      const from = height_of(row);
      const next = j + 1 < block.length ? height_of(block[j + 1]) : end;
      const number = row.nextElementSibling;
      rows.set(row.id, { row, number, title: row.querySelector("title").textContent, columns: columns_in(row), top: from, bottom: next });
      for (const it of [row, number]) it.setAttribute("transform", "translate(0," + (from - y) + ")");
      row.prepend(drawn("rect", { class: "ground", width, height: next - from }));
      number.prepend(...number_ground(row.classList.contains("se"), next - from));
      part.append(row);
      numbers.append(number);
    });
    const holder = make("div", "block");
    holder.style.cssText = "width:" + width + "px;height:" + (end - y) + "px;contain-intrinsic-size:" + width + "px " + (end - y) + "px";
    holder.append(part, numbers);
    made.push(holder);
  }
  // the stylesheet of the picture is that of its parts, too
  document.head.append(picture.querySelector("style"));
  picture.replaceWith(...made);
}

// What stands behind a number, so that it can be read over what is scrolled below it.
function number_ground(is_settle, height) {
  const ground = [drawn("rect", { class: "ground", width: 60, height })];
  if (is_settle) {
    ground.push(drawn("rect", { class: "u", y: 6, width: 60, height: height - 14 }));
    ground.push(drawn("path", { class: "v", d: "M0 6H60M0 " + (height - 8) + "H60" }));
  }
  return ground;
}

// The columns of the boxes that take part in a row.
const columns_in = (row) => [...row.classList].filter((it) => /^b\d+$/.test(it)).map((it) => +it.slice(1));

// Where one can stop: at each row that the ladder has, of which it may have some alone, and before the first of them.
let stops = [];
function find_stops() {
  const drawn_rows = ids.map((_, k) => k).filter((k) => rows.has(ids[k]));
  stops = [drawn_rows.length ? drawn_rows[0] - 1 : 0, ...drawn_rows];
}

// ---- the network: a box below the other, in the order of their columns, with tunnels at the left, and links within

const LEGEND = 24;
const HEAD = 28;
const LINE = 24;
const GAP = 10;
const DEPTH = 10;
const network = by_id("network");
const map = make("div", "map");
const boxes = [];
const lines = [];
const heights = [];
const arcs = [];
const dots = [];
let links;

// For each tunnel the least depth at which it covers no part of a lower tunnel's height.
function depths() {
  const taken = [];
  return arcs_ends().map(([from, to]) => {
    let depth = 0;
    while ((taken[depth] || []).some(([a, b]) => from < b && a < to)) depth++;
    (taken[depth] = taken[depth] || []).push([from, to]);
    return depth;
  });
}
const arcs_ends = () => {
  const ends = [];
  for (let slot = 0; slot < slot_count; slot += 2) ends.push([heights[slot], heights[slot + 1]].sort((a, b) => a - b));
  return ends;
};

// What the words of a slot's line are.
function legend() {
  const line = make("p", "legend");
  line.append(make("b", "", "slot"), make("span", "fl", "state"), make("span", "", "goal or link"), make("span", "coming op", "◄ under way to it"));
  return line;
}

function lay_out_network() {
  map.append(legend());
  // a box has the column of its head, if it has one
  const heads = [...document.querySelectorAll(".hd")].map((head) => [head.textContent, +head.dataset.c]);
  const column_of = new Map(heads);
  let y = LEGEND;
  data.boxes.forEach(([who, name, kind]) => {
    const column = column_of.has(name) ? column_of.get(name) : -2;
    const own = data.slots.map((_, slot) => slot).filter((slot) => data.slots[slot][0] === who);
    const box = make("section", "box " + kind);
    const head = make("button", "", name);
    const note = make("span", "pr");
    head.dataset.c = column;
    head.setAttribute("aria-pressed", "false");
    head.append(note);
    box.append(head);
    box.style.top = y + "px";
    own.forEach((slot, i) => {
      heights[slot] = y + HEAD + LINE * i + LINE / 2;
      lines[slot] = make("p");
      lines[slot].id = "slot-" + slot;
      box.append(lines[slot]);
    });
    boxes.push({ box, note, who, column, top: y, bottom: y + HEAD + LINE * own.length });
    y += HEAD + LINE * own.length + 6 + GAP;
    map.append(box);
  });
  const deep = depths();
  const left = 14 + DEPTH * (1 + Math.max(0, ...deep));
  map.style.cssText = "height:" + y + "px;--left:" + (left + 10) + "px";
  document.body.style.setProperty("--map", y + "px");
  const sketch = drawn("svg", { width: left + 40, height: y });
  arcs_ends().forEach(([from, to], tunnel) => {
    const x = left - DEPTH * (1 + deep[tunnel]);
    arcs[tunnel] = drawn("path", { d: "M" + left + " " + from + "H" + (x + 6) + "q-6 0-6 6V" + (to - 6) + "q0 6 6 6H" + left });
    sketch.append(arcs[tunnel]);
  });
  links = drawn("g", { transform: "translate(" + left + ",0)" });
  sketch.append(links);
  for (let slot = 0; slot < slot_count; slot++) {
    dots[slot] = drawn("circle", { cx: left, cy: heights[slot], r: 4 });
    sketch.append(dots[slot]);
  }
  map.append(sketch);
  network.prepend(map);
}

// ---- what stands after a row

const STATE_CLASS = { closed: "d", opening: "op", opened: "op", flowing: "fl", closing: "cl" };
const trimmed = (words) => words.trim();

// For each slot on a path that flows how the path looks, and what its ends hear.
function flows() {
  const look = [];
  const hears = [];
  for (let low = 0; low < slot_count; low++) {
    const [word, high, flow, at_low, at_high] = path_cell(low);
    if (word !== "path" || flow !== "flowing") continue;
    const heard = at_low !== "none" || at_high !== "none" ? "heard" : "silent";
    hears[low] = at_low;
    hears[high] = at_high;
    for (let slot = low, left = slot_count; left > 0; left--) {
      look[slot] = look[far(slot)] = heard;
      if (far(slot) === high) break;
      slot = partner(far(slot));
      if (slot === undefined) break;
    }
  }
  return { look, hears };
}

function slot_words(slot, hears) {
  const [, state, goal, ...coming] = slot_cell(slot);
  const [, receives, sends] = media_cell(slot);
  const line = [make("b", "", data.slots[slot][1]), make("span", "state " + STATE_CLASS[state], state), make("span", "d", goal)];
  if (hears !== undefined) line.push(make("span", hears === "none" ? "hears d" : "hears fl", "hears " + hears));
  if (kinds.get(data.slots[slot][0]) === "device") {
    if (trimmed(receives) === "none") line.push(make("span", "d", "receives none"));
    if (trimmed(sends) === "none") line.push(make("span", "d", "sends none"));
  }
  if (coming.length) line.push(make("span", "coming op", "◄ " + coming.map((it) => trimmed(it).replace(/ (of|for) \S+ \d+$/, "")).join(", ")));
  return line;
}
const kinds = new Map(data.boxes.map(([who, , kind]) => [who, kind]));

function slot_title(slot) {
  const [, state, goal, ...coming] = slot_cell(slot);
  const [, receives, sends] = media_cell(slot);
  const media = "receives " + trimmed(receives) + ", sends " + trimmed(sends);
  const words = [place(slot) + " " + state + " " + goal + ", " + data.slots[slot][2], media];
  coming.forEach((it) => words.push("under way: " + trimmed(it)));
  return words.join("\n");
}

const shown = [];
function show_slots({ look, hears }) {
  for (let slot = 0; slot < slot_count; slot++) {
    const key = JSON.stringify([slot_cell(slot), media_cell(slot), hears[slot]]);
    if (shown[slot] === key) continue;
    shown[slot] = key;
    lines[slot].replaceChildren(...slot_words(slot, hears[slot]));
    lines[slot].title = slot_title(slot);
  }
  for (let slot = 0; slot < slot_count; slot++) set_class(dots[slot], look[slot] || "");
  arcs.forEach((arc, tunnel) => set_class(arc, look[2 * tunnel] || tunnel_class(2 * tunnel)));
}
const set_class = (element, classes) => {
  if ((element.getAttribute("class") || "") !== classes) element.setAttribute("class", classes);
};

// A tunnel that no flowing path goes over: by the states of its two slots.
function tunnel_class(slot) {
  const states = [slot_cell(slot)[1], slot_cell(far(slot))[1]];
  if (states.every((state) => state === "flowing")) return "flows";
  if (states.includes("closing")) return "closes";
  return states.every((state) => state === "closed") ? "" : "asked";
}

let links_shown = "";
function show_links({ look }) {
  const paths = [];
  for (let slot = 0; slot < slot_count; slot++) {
    const other = partner(slot);
    if (other === undefined || heights[other] < heights[slot]) continue;
    const deep = 4 + 2 * Math.min((heights[other] - heights[slot]) / LINE, 4);
    paths.push([look[slot] && look[slot] === look[other] ? look[slot] : "", "M0 " + heights[slot] + "h" + deep + "V" + heights[other] + "h-" + deep]);
  }
  const key = JSON.stringify(paths);
  if (key === links_shown) return;
  links_shown = key;
  links.replaceChildren(...paths.map(([look, d]) => drawn("path", { class: look, d })));
}

function show_boxes() {
  for (const { note, who } of boxes) {
    const [, state, told] = box_cell(who);
    const words = state + (told ? " · told " + told : "");
    if (note.textContent !== words) note.textContent = words;
  }
}

// ---- the row that is looked at

let at = 0;
let chosen = [];
function show_row() {
  for (const it of chosen) it.classList.remove("now", "on", "acts");
  const id = ids[stops[at]];
  const row = at ? rows.get(id) : undefined;
  chosen = [];
  const mark = (element, name) => {
    element.classList.add(name);
    chosen.push(element);
  };
  let words = "before " + (stops[0] ? ids[stops[1]].replace("-", " ") : "the first turn");
  if (row) {
    mark(row.row, "now");
    mark(row.number, "now");
    words = (is_turn(at) ? id.slice(5) + "  " : "") + row.title;
    if (is_turn(at)) boxes_of(row).forEach(({ box }) => mark(box, "acts"));
    const changed = data.rows[stops[at]].filter((_, i) => i % 2 === 1).filter((it) => it < 3 * slot_count && it % 3 < 2);
    for (const slot of new Set(changed.map((it) => Math.floor(it / 3)))) mark(lines[slot], "on");
    bring_into_view(row);
  } else {
    ladder.scrollTop = 0;
    network.scrollTop = 0;
  }
  by_id("words").textContent = words;
  by_id("slider").value = at;
  by_id("slider").setAttribute("aria-valuetext", words);
}
const is_turn = (stop) => ids[stops[stop]].startsWith("turn");
const boxes_of = (row) => boxes.filter((it) => row.columns.includes(it.column));

// Measures are known, so no layout has to be waited for. Heads and numbers cover the upper and left edge.
function bring_into_view(shown) {
  const { row, columns, top, bottom } = shown;
  const height = ladder.clientHeight;
  if (top - 44 < ladder.scrollTop || bottom + 20 > ladder.scrollTop + height) ladder.scrollTop = top - height / 2;
  if (!columns.length || row.classList.contains("se")) return;
  const left = Math.min(...columns) * 136 + 176 - 110;
  const right = Math.max(...columns) * 136 + 176 + 110;
  if (right - left > ladder.clientWidth - 60) ladder.scrollLeft = left - 60;
  else if (left < ladder.scrollLeft + 60) ladder.scrollLeft = left - 60;
  else if (right > ladder.scrollLeft + ladder.clientWidth) ladder.scrollLeft = right - ladder.clientWidth;
  const of = boxes_of(shown);
  const first = Math.min(...of.map((it) => it.top));
  const last_line = Math.max(...of.map((it) => it.bottom));
  if (first < network.scrollTop || last_line > network.scrollTop + network.clientHeight - 40) network.scrollTop = first - LEGEND;
}

// Browsers allow few changes of the address in a second, so it follows once no more steps come.
let waits = 0;
function tell_address() {
  clearTimeout(waits);
  waits = setTimeout(() => history.replaceState(null, "", at ? "#" + ids[stops[at]] : location.pathname + location.search), 150);
}

function go(stop, told = true) {
  at = Math.max(0, Math.min(stops.length - 1, stop));
  walk_to(stops[at]);
  const now = flows();
  show_slots(now);
  show_links(now);
  show_boxes();
  show_row();
  if (told) tell_address();
}

// ---- a chosen box: the others' arrows fade

let only = -1;
const takes_part = (stop) => only < 0 || stop <= 0 || !is_turn(stop) || rows.get(ids[stops[stop]]).columns.includes(only);

function choose(column) {
  only = only === column ? -1 : column;
  const other = ":not(.b" + only + ")";
  by_id("only").textContent = only < 0 ? "" : "#ladder g[id]" + other + ":not(.se)>:not(.ground),#ladder .se>g" + other + "{opacity:.13}";
  for (const head of document.querySelectorAll("[data-c]")) head.setAttribute("aria-pressed", String(+head.dataset.c === only));
  boxes.forEach(({ box, column }) => box.classList.toggle("chosen", column === only));
}

function step(by) {
  let stop = at + by;
  while (stop > 0 && stop < stops.length && !takes_part(stop)) stop += by;
  if (stop >= 0 && stop < stops.length) go(stop);
}

function settle(by) {
  let stop = at + by;
  while (stop > 0 && stop < stops.length - 1 && is_turn(stop)) stop += by;
  go(stop);
}

// ---- keys, buttons and links

function keys(event) {
  if (event.ctrlKey || event.altKey || event.metaKey) return;
  const head = event.target.closest(".hd");
  if (head && (event.key === "Enter" || event.key === " ")) {
    choose(+head.dataset.c);
    return event.preventDefault();
  }
  const far_on = event.shiftKey ? settle : step;
  const done = {
    ArrowRight: () => far_on(1),
    ArrowDown: () => far_on(1),
    ArrowLeft: () => far_on(-1),
    ArrowUp: () => far_on(-1),
    PageDown: () => settle(1),
    PageUp: () => settle(-1),
    "]": () => settle(1),
    "[": () => settle(-1),
    Home: () => go(0),
    End: () => go(stops.length - 1),
    Escape: () => only >= 0 && choose(only),
  }[event.key];
  if (!done) return;
  done();
  event.preventDefault();
}

function clicked(event) {
  const head = event.target.closest("[data-c]");
  if (head) return choose(+head.dataset.c);
  const row = event.target.closest("#ladder g[id]");
  if (row && rows.has(row.id)) go(stop_of(row.id));
}

const stop_of = (id) => (rows.has(id) ? stops.indexOf(ids.indexOf(id), 1) : 0);
const follow = () => go(stop_of(location.hash.slice(1)), false);

lay_out();
find_stops();
lay_out_network();
by_id("slider").max = stops.length - 1;
by_id("slider").oninput = (event) => go(+event.target.value);
by_id("back").onclick = () => step(-1);
by_id("on").onclick = () => step(1);
by_id("settle-back").onclick = () => settle(-1);
by_id("settle-on").onclick = () => settle(1);
for (const head of document.querySelectorAll(".hd")) {
  head.setAttribute("tabindex", "0");
  head.setAttribute("role", "button");
  head.setAttribute("aria-pressed", "false");
}
document.addEventListener("click", clicked);
document.addEventListener("keydown", keys);
addEventListener("hashchange", follow);
// a browser goes to the row of its address by itself, and puts it elsewhere
addEventListener("load", () => requestAnimationFrame(follow));
follow();
