// visits.mjs BROWSER FOLDER [PICTURES]: opens each NAME.html of a folder in a browser, visits each row forwards and
// backwards by keys and by the slider, and compares what stands there with the world of NAME.media after those lines,
// replayed by world.mjs, and with the rows of the ladder in text, NAME.text, if it is there. Where NAME.settle names a
// settle, the ladder has its rows alone. Then it measures how long the page of the most rows takes to open and to step,
// and puts pictures of all pages into a folder, if one is named.
import { existsSync, mkdirSync, mkdtempSync, readFileSync, readdirSync } from "node:fs";
import { rmSync, statSync, writeFileSync } from "node:fs";
import { tmpdir } from "node:os";
import { join } from "node:path";
import { pathToFileURL } from "node:url";
import { Browser } from "./browser.mjs";
import { cells_of, goal_words, make_turn, network_of, path_lines, paths_of } from "./world.mjs";
import { place, receives, sends, under_way } from "./world.mjs";

const OPENS_MS = 1000;
const STEPS_MS = 50;
const listed = (codecs) => (codecs.length ? codecs.join(" ") : "none");

// ---- what is to stand on a page, by the replay

// The boxes by their columns: in the order in which channels name them, and then the others.
const columns_of = (net) => [...new Set([...net.channels.flatMap((channel) => channel.ends), ...net.boxes])];

function slot_words(net, slot, hears) {
  const words = [slot.name, slot.state, goal_words(slot)];
  if (hears.has(slot)) words.push("hears " + hears.get(slot));
  if (slot.box.kind === "device" && !receives(slot).length) words.push("receives none");
  if (slot.box.kind === "device" && !sends(slot).length) words.push("sends none");
  const coming = under_way(net, slot).map((it) => it.replace(/ (of|for) \S+ \d+$/, ""));
  if (coming.length) words.push("◄ " + coming.join(", "));
  return words;
}

const slot_title = (net, slot) =>
  [
    place(slot) + " " + slot.state + " " + goal_words(slot) + ", " + slot.medium,
    "receives " + listed(receives(slot)) + ", sends " + listed(sends(slot)),
    ...under_way(net, slot).map((it) => "under way: " + it),
  ].join("\n");

function tunnel_look(look, ends) {
  const states = ends.map((slot) => slot.state);
  if (look.has(ends[0])) return look.get(ends[0]);
  if (states.every((state) => state === "flowing")) return "flows";
  if (states.includes("closing")) return "closes";
  return states.every((state) => state === "closed") ? "" : "asked";
}

// What stands there of a world, of which these slots changed in the last line, and these boxes took part in it.
function page_of(net, changed, acting) {
  const look = new Map();
  const hears = new Map();
  for (const path of paths_of(net).filter((it) => it.flows)) {
    const is_heard = path.hears.some((codec) => codec !== "none");
    path.slots.forEach((slot) => look.set(slot, is_heard ? "heard" : "silent"));
    hears.set(path.low, path.hears[0]).set(path.high, path.hears[1]);
  }
  const after = (slot) => slot.box.slots.indexOf(slot) < slot.box.slots.indexOf(slot.link);
  return {
    boxes: columns_of(net).map((box) => ({
      name: box.name,
      kind: box.kind,
      note: (box.state || "") + (box.told ? " · told " + box.told : ""),
      acts: acting.includes(box),
      slots: box.slots.map((slot) => ({
        words: slot_words(net, slot, hears),
        title: slot_title(net, slot),
        on: changed.has(slot),
      })),
    })),
    tunnels: net.slots
      .filter((slot) => slot.number % 2 === 0)
      .map((slot) => tunnel_look(look, [slot, net.slots[slot.number + 1]])),
    dots: net.slots.map((slot) => look.get(slot) || ""),
    links: net.slots.filter((slot) => slot.link && after(slot)).map((slot) => look.get(slot) || ""),
  };
}

// The words of each row of a ladder in text, without the picture before them.
function text_rows(text, columns) {
  const rows = [];
  let number = 0;
  for (const line of text.split("\n")) {
    const words = [...line].slice(14 + 12 * columns).join("").trim().replace(/ +/g, " ");
    if (/^ *\d+ /.test(line)) rows.push(words);
    else if (/settle \d+$/.test(line)) rows.push({ settle: ++number, paths: [] });
    else if (/^(path|hears) /.test(words)) rows.at(-1).paths.push(words);
  }
  return rows;
}

// The boxes of a turn: the one that acts, and of a Take the one that sent.
function boxes_of(net, [event, name, slot_name]) {
  const box = net.boxes.find((it) => it.name === name);
  if (event !== "take") return [box];
  const slot = box.slots.find((it) => it.name === slot_name);
  return [box, net.slots[slot.number ^ 1].box];
}

// For the place before the first line, and for each line, what is to stand on the page.
function worlds_of(text, ladder) {
  const net = network_of(text);
  const rows = ladder === undefined ? undefined : text_rows(ladder, net.boxes.length);
  const worlds = [{ id: "", words: "before the first turn", ...page_of(net, new Set(), []) }];
  let turns = 0;
  let settles = 0;
  let cells = cells_of(net);
  net.journal.forEach((line, k) => {
    const turn = line[0] === "turn";
    const acting = turn ? boxes_of(net, line.slice(1)) : [];
    if (turn) make_turn(net, line.slice(1));
    const now = cells_of(net);
    const is_other = (k) => String(now[k]) !== String(cells[k]);
    const changed = new Set(net.slots.filter((_, i) => is_other(3 * i) || is_other(3 * i + 1)));
    cells = now;
    const id = turn ? "turn-" + ++turns : "settle-" + ++settles;
    const words = rows && (turn ? turns + " " + rows[k] : "settle " + rows[k].settle);
    if (rows && !turn && rows[k].paths.join("\n") !== path_lines(net).join("\n"))
      throw new Error("the ladder in text has other paths at " + id);
    worlds.push({ id, words, ...page_of(net, changed, acting) });
  });
  return worlds;
}

// The worlds of the rows of one settle, and before them that which they begin with.
function worlds_of_settle(worlds, settle) {
  const ends = worlds.map((world, k) => (world.id.startsWith("settle") ? k : -1)).filter((k) => k >= 0);
  const first = settle > 1 ? ends[settle - 2] + 1 : 1;
  const { boxes, tunnels, dots, links } = worlds[first - 1];
  const still = (slots) => slots.map((slot) => ({ ...slot, on: false }));
  const at_first = boxes.map((box) => ({ ...box, acts: false, slots: still(box.slots) }));
  const words = first > 1 ? "before " + worlds[first].id.replace("-", " ") : worlds[0].words;
  return [{ id: "", words, boxes: at_first, tunnels, dots, links }, ...worlds.slice(first, ends[settle - 1] + 1)];
}

// ---- what stands on it

const SEEN = `() => {
  const all = (at, of) => [...at.querySelectorAll(of)];
  const look = (it) => it.getAttribute("class") || "";
  const now = all(document, "#ladder g[id].now");
  const inside = (it) => {
    const view = document.getElementById("ladder").getBoundingClientRect();
    const at = it.getBoundingClientRect();
    return at.top >= view.top && at.top < view.bottom;
  };
  return {
    id: now.map((it) => it.id).join(),
    inside: now.every(inside),
    slider: +document.getElementById("slider").value,
    words: document.getElementById("words").textContent.replace(/ +/g, " "),
    boxes: all(document, ".box").map((box) => ({
      name: box.querySelector("button").firstChild.textContent,
      kind: box.classList.contains("feature") ? "feature" : "device",
      note: box.querySelector("button span").textContent,
      acts: box.classList.contains("acts"),
      slots: all(box, "p").map((it) => ({
        words: [...it.children].map((word) => word.textContent),
        title: it.title,
        on: it.classList.contains("on"),
      })),
    })),
    tunnels: all(document, ".map>svg>path").map(look),
    dots: all(document, ".map circle").map(look),
    links: all(document, ".map g path").map(look),
  };
}`;

// The first place where two values differ, in words.
function difference(wanted, seen, at = "") {
  if (wanted === undefined) return "";
  const other = at + ": " + JSON.stringify(seen) + " stands there, and not " + JSON.stringify(wanted);
  if (typeof wanted !== "object") return wanted === seen ? "" : other;
  if (Array.isArray(wanted) && wanted.length !== seen.length) return other;
  for (const key in wanted) {
    const found = difference(wanted[key], seen[key], at + " " + key);
    if (found) return found;
  }
  return "";
}

class Visit {
  constructor(browser, name, worlds) {
    Object.assign(this, { browser, name, worlds, compared: 0 });
  }

  // Compares what stands there with the world after so many lines.
  async compare(row, how) {
    const seen = await this.browser.run(SEEN);
    const found = difference({ ...this.worlds[row], slider: row, inside: true }, seen);
    if (found) throw new Error(this.name + ", row " + row + ", " + how + ":" + found);
    this.compared++;
  }

  // Presses a key for each of these rows, and compares each, of a long page each sixteenth and the last.
  async keys(key, rows, how) {
    for (const row of rows) {
      await this.browser.key(key);
      if (!this.is_long() || row % 16 === 0 || row === rows.at(-1)) await this.compare(row, how);
    }
  }

  is_long() {
    return this.worlds.length > 200;
  }

  // Draws the slider's knob from place to place.
  async slide(rows) {
    const { left, top, width, height } = await this.browser.run(
      `() => JSON.parse(JSON.stringify(document.getElementById("slider").getBoundingClientRect()))`,
    );
    const knob = 16;
    const at = (row) => left + knob / 2 + (row / (this.worlds.length - 1)) * (width - knob);
    await this.browser.mouse("mousePressed", at(0), top + height / 2);
    for (const row of rows) {
      await this.browser.mouse("mouseMoved", at(row), top + height / 2);
      await this.compare(row, "by the slider");
    }
    await this.browser.mouse("mouseReleased", at(rows.at(-1)), top + height / 2);
  }

  async click(of) {
    const { left, top, width } = await this.browser.run(
      `(of) => JSON.parse(JSON.stringify(document.querySelector(of).getBoundingClientRect()))`,
      of,
    );
    await this.browser.mouse("mousePressed", left + width / 2, top + 10);
    await this.browser.mouse("mouseReleased", left + width / 2, top + 10);
  }

  // Where a box is chosen, keys lead to its turns and to settles alone.
  async one_box() {
    const { worlds } = this;
    const rows = worlds.map((_, k) => k).filter((k) => worlds[k].id.startsWith("settle") || worlds[k].boxes[0].acts);
    await this.browser.key("Home");
    await this.click(".box button");
    await this.keys("ArrowRight", rows, "by turns of one box");
    await this.browser.key("Escape");
    await this.browser.key("Home");
    await this.keys("ArrowRight", [1, 2], "after the choice of a box");
  }

  // A row that is clicked, and one that the address names.
  async one_row() {
    await this.browser.key("Home");
    await this.click("#" + this.worlds[2].id + " .ground");
    await this.compare(2, "by a click");
    await this.browser.run("(id) => { location.hash = id; }", this.worlds[3].id);
    await this.browser.drawn();
    await this.compare(3, "by the address");
  }

  // Of a long page the first 128 rows are visited forwards, and the last 128 backwards.
  async all() {
    const last = this.worlds.length - 1;
    const forwards = Array.from({ length: last }, (_, k) => k + 1);
    const backwards = forwards.map((k) => last - k);
    const settles = forwards.filter((k) => this.worlds[k].id.startsWith("settle"));
    const length = this.is_long() ? 128 : last;
    await this.compare(0, "at first");
    await this.keys("ArrowRight", forwards.slice(0, length), "forwards by keys");
    await this.keys("End", [last], "at the end");
    await this.keys("ArrowLeft", backwards.slice(0, length), "backwards by keys");
    await this.keys("Home", [0], "at the beginning");
    await this.keys("]", settles, "from settle to settle");
    await this.keys("[", [...settles.slice(0, -1).reverse(), 0], "back from settle to settle");
    if (this.is_long()) return;
    await this.slide([0, ...forwards, ...backwards]);
    await this.one_box();
    await this.one_row();
  }
}

// ---- how long it takes

const median = (numbers) => [...numbers].sort((a, b) => a - b)[Math.floor(numbers.length / 2)];

// Steps through a page, and answers of each step how long it took until it was laid out and drawn.
const STEPS = `async (count) => {
  const took = [];
  for (let k = 0; k < count; k++) {
    const from = performance.now();
    document.body.dispatchEvent(new KeyboardEvent("keydown", { key: "ArrowRight", bubbles: true }));
    document.getElementById("network").getBoundingClientRect();
    const laid = performance.now() - from;
    await new Promise((answer) => requestAnimationFrame(() => setTimeout(answer)));
    took.push([laid, performance.now() - from]);
  }
  return took;
}`;

// How long a page takes to open and to step, on the clock, and of the page's own thread. A page is judged by the latter,
// as the clock tells of all that the machine does meanwhile.
async function measure(browser, address, rows) {
  await browser.ask("Performance.enable", { timeDomain: "threadTicks" });
  const busy = async () => {
    const { metrics } = await browser.ask("Performance.getMetrics");
    return 1000 * metrics.find((it) => it.name === "TaskDuration").value;
  };
  const opens = [];
  for (let k = 0; k < 3; k++) {
    await browser.open(address);
    const loaded = `() => performance.getEntriesByType("navigation")[0].loadEventEnd`;
    opens.push([await browser.run(loaded), await busy()]);
  }
  const before = await busy();
  const steps = await browser.run(STEPS, rows);
  const busy_step = ((await busy()) - before) / rows;
  const median_of = (list, k) => median(list.map((it) => it[k]));
  return {
    opens: median_of(opens, 0),
    busy_open: median_of(opens, 1),
    laid: median_of(steps, 0),
    drawn: median_of(steps, 1),
    busy_step,
  };
}

// ---- pictures of a page, as persons see it

async function pictures(browser, address, name, row, folder) {
  for (const [word, width, height, dark, telephone] of [
    ["light", 1280, 800, false, false],
    ["dark", 1280, 800, true, false],
    ["telephone", 390, 844, false, true],
    ["telephone-dark", 390, 844, true, true],
  ]) {
    await browser.window(width, height, dark, telephone);
    await browser.open(address + "#" + row);
    await browser.drawn();
    writeFileSync(join(folder, name + "-" + word + ".png"), await browser.picture());
  }
}

// Visits all rows of a page, and answers what is to stand there.
async function visit(browser, folder, name) {
  const path = join(folder, name);
  const ladder = existsSync(path + ".text") ? readFileSync(path + ".text", "utf8") : undefined;
  const all = worlds_of(readFileSync(path + ".media", "utf8"), ladder);
  const settle = existsSync(path + ".settle") ? +readFileSync(path + ".settle", "utf8") : undefined;
  const worlds = settle ? worlds_of_settle(all, settle) : all;
  await browser.window(1280, 800, false, false);
  await browser.open(pathToFileURL(path + ".html").href);
  const visits = new Visit(browser, name, worlds);
  await visits.all();
  const bytes = statSync(path + ".html").size;
  const rows = worlds.length - 1;
  tell(name + ": " + bytes + " bytes, " + rows + " rows, " + visits.compared + " visits as the journal says");
  return worlds;
}

const tell = (line) => console.log("pages: " + line);

// Tells how long a page takes; answers whether that is quick enough.
async function is_quick(browser, address, name, rows) {
  await browser.window(1280, 800, false, false);
  const took = await measure(browser, address, rows);
  const ms = (time) => time.toFixed(1) + " ms";
  tell(name + " opens in " + ms(took.opens) + " (" + ms(took.busy_open) + " of its thread)");
  const drawn = "laid out in " + ms(took.laid) + ", and drawn in " + ms(took.drawn);
  tell("a step of it is " + drawn + " (" + ms(took.busy_step) + " of its thread)");
  const good = took.busy_open < OPENS_MS && took.busy_step < STEPS_MS;
  if (!good) tell("that is more than " + OPENS_MS + " ms to open, or " + STEPS_MS + " ms for a step");
  return good;
}

async function visit_all(browser, folder, shown) {
  const names = readdirSync(folder).filter((it) => it.endsWith(".html")).map((it) => it.slice(0, -5));
  const address = (name) => pathToFileURL(join(folder, name + ".html")).href;
  const worlds = new Map();
  for (const name of names) worlds.set(name, await visit(browser, folder, name));
  const rows = (name) => worlds.get(name).length - 1;
  const longest = names.reduce((a, b) => (rows(b) > rows(a) ? b : a));
  const good = await is_quick(browser, address(longest), longest, Math.min(rows(longest), 300));
  if (!shown) return good;
  mkdirSync(shown, { recursive: true });
  for (const name of names) {
    const row = worlds.get(name)[Math.ceil(rows(name) * 0.6)].id;
    await pictures(browser, address(name), name, row, shown);
  }
  return good;
}

async function main([program, folder, shown]) {
  const profile = mkdtempSync(join(tmpdir(), "browser-"));
  const browser = new Browser(program, profile);
  try {
    await browser.begin();
    return (await visit_all(browser, folder, shown)) ? 0 : 1;
  } finally {
    await browser.end();
    rmSync(profile, { recursive: true, force: true });
  }
}

process.exit(await main(process.argv.slice(2)).catch((error) => (tell(error.message), 1)));
