// A network and its journal by the rules of docs/PROTOCOL.md, apart from the proved code: what stands after each line.
// It takes texts and journals that are good, and looks for no fault of them.

const is_live = (slot) => slot.state === "opened" || slot.state === "flowing";
const is_same = (one, other) => JSON.stringify(one) === JSON.stringify(other);

// ---- a network, as its lines declare it

export function network_of(text) {
  const net = { boxes: [], slots: [], channels: [], script: [], journal: [] };
  const box_named = (name) => net.boxes.find((box) => box.name === name);
  let part, program, in_journal = false;
  for (const line of text.split("\n")) {
    const words = line.trim().split(/ +/);
    const [first, ...rest] = words;
    if (!first || first.startsWith("#")) continue;
    if (first === "journal") in_journal = true;
    else if (in_journal) net.journal.push(words);
    else if (first === "dev" || first === "feat") add_box(net, first, rest);
    else if (first === "send") box_named(rest[0]).sends = rest.slice(1);
    else if (first === "chan") add_channel(net, rest, box_named);
    else if (first === "also") add_tunnel(net, net.channels.at(-1), rest);
    else if (first === "prog") program = box_named(rest[0]).program = rest.slice(1).map(state_named);
    else if (first === "state") part = program.find((state) => state.name === rest[0]);
    else if (first === "begin") program = undefined;
    else if (first === "goal") part.goals.push(rest);
    else if (first === "when") part.whens.push(rest);
    else if (first === "link" && program) part.goals.push(rest.length === 2 ? [rest[0], "link", rest[1]] : rest);
    else if (first !== "media" && first !== "codec") net.script.push(words), (program = undefined);
  }
  return net;
}

const state_named = (name) => ({ name, goals: [], whens: [] });

function add_box(net, kind, [name, ...words]) {
  const version = kind === "dev" && /^\d/.test(words[0] || "") ? +words.shift() : 1;
  const box = { name, kind: kind === "dev" ? "device" : "feature", version, receives: words, sends: words };
  net.boxes.push({ ...box, slots: [], told: "", state: undefined });
}

function add_channel(net, [medium, near, near_slot, far, far_slot], box_named) {
  const channel = { ends: [box_named(near), box_named(far)], tunnels: 0, lanes: [[], []] };
  net.channels.push(channel);
  add_tunnel(net, channel, [medium, near_slot, far_slot]);
}

// Slot 2t is at the initiator, slot 2t + 1 at the other end of tunnel t.
function add_tunnel(net, channel, [medium, ...slot_names]) {
  const tunnel = channel.tunnels++;
  slot_names.forEach((name, side) => {
    const box = channel.ends[side];
    const slot = {
      name, number: net.slots.length, box, channel, tunnel, side, medium,
      state: "closed", goal: "close", link: undefined, hears: true, talks: true, version: box.version,
      sent: undefined, got: undefined, chosen: undefined, answered: undefined,
    };
    box.slots.push(slot);
    net.slots.push(slot);
  });
}

export const place = (slot) => slot.box.name + "/" + slot.name;
const far = (net, slot) => net.slots[slot.number ^ 1];

// ---- what a slot has of its own, and what it sends

const is_device = (slot) => slot.box.kind === "device";
export const receives = (slot) => (is_device(slot) && slot.hears ? slot.box.receives : []);
export const sends = (slot) => (is_device(slot) && slot.talks ? slot.box.sends : []);
const own = (slot) => ({ origin: slot.number, version: slot.version, codecs: receives(slot) });

// The first codec of a descriptor that the sender has, for that descriptor.
function choice(slot) {
  const codec = slot.got.codecs.find((it) => sends(slot).includes(it)) || "none";
  return { origin: slot.got.origin, version: slot.got.version, from: slot.number, codec };
}

const empty = { sent: undefined, got: undefined, chosen: undefined, answered: undefined };

function send(slot, word, carried) {
  slot.channel.lanes[1 - slot.side].push({ tunnel: slot.tunnel, word, carried });
  if (word === "open") Object.assign(slot, empty, { state: "opening", sent: carried });
  else if (word === "close") slot.state = "closing";
  else if (word === "oack") Object.assign(slot, { state: "flowing", sent: carried });
  else if (word === "describe") slot.sent = carried;
  else if (word === "select") slot.answered = carried;
}

// Takes a signal, by the table of slots; answers whether a close was taken that closed it, or a closeack.
function take(slot, { word, carried }) {
  if (word === "close") {
    slot.channel.lanes[1 - slot.side].push({ tunnel: slot.tunnel, word: "closeack" });
    if (slot.state === "closing") return "";
    Object.assign(slot, empty, { state: "closed" });
    return "closed";
  }
  if (slot.state === "closing") {
    if (word !== "closeack") return "";
    Object.assign(slot, empty, { state: "closed" });
    return "acknowledged";
  }
  if (word === "open" && (slot.state === "closed" || (slot.state === "opening" && slot.side === 1)))
    Object.assign(slot, empty, { state: "opened", got: carried });
  else if (word === "oack") Object.assign(slot, { state: "flowing", got: carried });
  else if (word === "describe") slot.got = carried;
  else if (word === "select") slot.chosen = carried;
  return "";
}

// ---- goal turns

function end_turn(slot, pushed) {
  if (slot.goal === "close") {
    if (["opening", "opened", "flowing"].includes(slot.state)) send(slot, "close");
  } else if (slot.state === "closed") {
    if (slot.goal === "open" && pushed) send(slot, "open", own(slot));
  } else if (slot.state === "opened") {
    send(slot, "oack", own(slot));
    send(slot, "select", choice(slot));
  } else if (slot.state === "flowing") {
    if (!is_same(slot.sent, own(slot))) send(slot, "describe", own(slot));
    if (!is_same(slot.answered, choice(slot))) send(slot, "select", choice(slot));
  }
}

function link_turn(one, other, was_closed) {
  const pair = one.box.slots.indexOf(one) < one.box.slots.indexOf(other) ? [one, other] : [other, one];
  const ways = [pair, [pair[1], pair[0]]];
  if (was_closed) {
    const left = was_closed === one ? other : one;
    if (["opening", "opened", "flowing"].includes(left.state)) return send(left, "close");
  }
  for (const [live, closed] of ways)
    if (is_live(live) && closed.state === "closed") return send(closed, "open", live.got);
  if (!pair.every(is_live)) return;
  for (const [slot, from] of ways) {
    if (slot.state === "opened") send(slot, "oack", from.got);
    else if (!is_same(slot.sent, from.got)) send(slot, "describe", from.got);
  }
  for (const [slot, from] of ways) {
    const it = from.chosen;
    const answers = it && it.origin === slot.got.origin && it.version === slot.got.version;
    if (answers && !is_same(slot.answered, it)) send(slot, "select", it);
  }
}

const goal_turn = (slot, pushed, was_closed) =>
  slot.link ? link_turn(slot, slot.link, was_closed ? slot : undefined) : end_turn(slot, pushed);

// Sets goals, [slot, goal] or [slot, "link", slot]; then each goal that isn't as it was has a turn.
function set_goals(box, changes) {
  const before = box.slots.map((slot) => [slot.goal, slot.link]);
  const named = (name) => box.slots.find((slot) => slot.name === name);
  for (const [name, goal, other] of changes) {
    const set = other ? [named(name), named(other)] : [named(name)];
    for (const slot of set) {
      const partner = slot.link;
      if (partner) Object.assign(partner, { goal: "hold", link: undefined });
      Object.assign(slot, { goal, link: undefined });
    }
    if (other) [set[0].link, set[1].link] = [set[1], set[0]];
  }
  const turned = new Set();
  box.slots.forEach((slot, i) => {
    if ((slot.goal === before[i][0] && slot.link === before[i][1]) || turned.has(slot)) return;
    turned.add(slot).add(slot.link);
    goal_turn(slot, true, false);
  });
}

// ---- turns

// The transition that is enabled: to which state, and whether a told word is used up.
export function shift_of(box) {
  if (!box.program) return undefined;
  if (box.state === undefined) return { to: box.program[0].name };
  const state = box.program.find((it) => it.name === box.state);
  for (const when of state.whens) {
    if (when[0] === "told" && box.told === when[1]) return { to: when[2], told: true };
    if (when[0] === "is" && box.slots.find((slot) => slot.name === when[1]).state === when[2]) return { to: when[3] };
  }
  return undefined;
}

export const owes_retry = (slot) => slot.goal === "open" && slot.state === "closed";
export const front_of = (slot) => {
  const front = slot.channel.lanes[slot.side][0];
  return front && front.tunnel === slot.tunnel ? front : undefined;
};

function shift(box) {
  const { to, told } = shift_of(box);
  if (told) box.told = "";
  box.state = to;
  set_goals(box, box.program.find((it) => it.name === to).goals);
}

// Makes the turn of a line of a journal, after its first word.
export function make_turn(net, [event, name, ...rest]) {
  const box = net.boxes.find((it) => it.name === name);
  const slot = box.slots.find((it) => it.name === rest[0]);
  if (event === "take") {
    const done = take(slot, slot.channel.lanes[slot.side].shift());
    goal_turn(slot, done === "acknowledged", done === "closed");
  } else if (event === "retry") goal_turn(slot, true, false);
  else if (event === "shift") shift(box);
  else if (event === "tell") box.told = rest[0];
  else if (event === "set") set_goals(box, [[rest[0], rest[1]]]);
  else if (event === "link") set_goals(box, [[rest[0], "link", rest[1]]]);
  else if (event === "hear") (slot.hears = rest[1] === "on"), slot.version++, goal_turn(slot, false, false);
  else if (event === "talk") (slot.talks = rest[1] === "on"), goal_turn(slot, false, false);
  else throw new Error("no turn: " + event);
}

// ---- what is seen of a world

const listed = (codecs) => (codecs.length ? codecs.join(" ") : "none");

export function signal_words(net, { word, carried }) {
  if (!carried) return word;
  const of = place(net.slots[carried.origin]) + " " + carried.version;
  if (word === "select") return word + " " + carried.codec + " for " + of;
  return word + " " + listed(carried.codecs) + " of " + of;
}

export const under_way = (net, slot) =>
  slot.channel.lanes[slot.side].filter((it) => it.tunnel === slot.tunnel).map((it) => signal_words(net, it));

// The slots of a path from an end to an end, or none where it comes to no end.
function walk(net, low) {
  const slots = [low];
  for (;;) {
    const next = far(net, slots.at(-1));
    slots.push(next);
    if (!next.link) return slots;
    if (slots.length > net.slots.length) return undefined;
    slots.push(next.link);
  }
}

// Each path, by the number of its lower end: its slots, whether it flows, and what its ends hear.
export function paths_of(net) {
  const paths = [];
  for (const low of net.slots) {
    const slots = low.link ? undefined : walk(net, low);
    if (!slots || slots.at(-1).number < low.number) continue;
    const high = slots.at(-1);
    const flows = low.state === "flowing" && high.state === "flowing";
    const hears = [low, high].map((end) => (flows && end.chosen ? end.chosen.codec : "none"));
    paths.push({ low, high, slots, flows, hears });
  }
  return paths;
}

export const goal_words = (slot) => (slot.link ? "link " + slot.link.name : slot.goal);

// The lines that a settle prints of its paths.
export function path_lines(net) {
  return paths_of(net).flatMap(({ low, high, flows, hears }) => [
    ["path", place(low), place(high), low.goal, high.goal, flows ? "flowing" : "closed", low.medium].join(" "),
    ...(flows ? ["hears " + place(low) + " " + hears[0], "hears " + place(high) + " " + hears[1]] : []),
  ]);
}

// ---- a world in cells, as a page has it: three for each slot, one for each box

export function cells_of(net) {
  const paths = new Map(paths_of(net).map((path) => [path.low, path]));
  const spaced = (words) => " " + words;
  const slots = net.slots.flatMap((slot) => {
    const path = paths.get(slot);
    return [
      ["slot", slot.state, goal_words(slot), ...under_way(net, slot).map(spaced)],
      ["media", spaced(listed(receives(slot))), spaced(listed(sends(slot)))],
      path ? ["path", path.high.number, path.flows ? "flowing" : "closed", ...path.hears] : ["none"],
    ];
  });
  return [...slots, ...net.boxes.map((box) => ["box", box.state || "", box.told])];
}

// ---- a journal by random turns, for a network without a ring whose commands all come at once

export function drawn_journal(net, seed) {
  let x = seed;
  const draw = (count) => ((x = (x * 1103515245n + 12345n) % 2147483648n), Number((x >> 16n) % BigInt(count)));
  const lines = [];
  const make = (words) => (lines.push(["turn", ...words]), make_turn(net, words));
  const left = new Map(net.boxes.map((box) => [box, []]));
  for (const words of net.script) {
    if (words[0] !== "settle") {
      left.get(net.boxes.find((box) => box.name === words[1])).push(words);
      continue;
    }
    for (let retried = false; ; ) {
      const commands = [...left.values()].filter((it) => it.length).map((it) => () => make(it.shift()));
      const takes = net.slots.filter(front_of).map((it) => () => make(["take", it.box.name, it.name]));
      const shifts = net.boxes.filter(shift_of).map((it) => () => make(["shift", it.name]));
      const all = [...commands, ...takes, ...shifts];
      if (all.length) all[draw(all.length)]();
      else if (retried) break;
      else (retried = true), net.slots.filter(owes_retry).forEach((it) => make(["retry", it.box.name, it.name]));
    }
    lines.push(["settle"]);
  }
  return "journal\n" + lines.map((line) => line.join(" ") + "\n").join("");
}
