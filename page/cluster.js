"use strict";
// A cluster as the form has it, read from the three files and written into them. All conversions are exact: a number is held
// as the text that was typed or as whole ticks, and rounded to the nearest, a half away from 0, where it has to be whole.

const TICKS = 1000000n;
// The parameters in the order of the files; of each its range, the unit that the form has, and what it is.
const NAMES = [...MEANT.keys()];
const IN_FORM = new Map([["pAllowHaltDueToClock", "0 or 1"], ["xRateBound", "ppm"], ["xChangeBound", "ppm a cycle"], ["xDelayError", "ns"]]);
const PARAMETERS = [...MEANT].map(([name, [least, most, unit, told]]) =>
  [name, least, most, IN_FORM.get(name) || unit, told[0].toUpperCase() + told.slice(1)]);

// Rows of a script about frames on their way, and those of a bit.
const isOfFrames = (kind) => (FORMS.script[1].get(kind) || []).some((field) => field.kind === "channel");
const hasBit = (kind) => (FORMS.script[1].get(kind) || []).some((field) => field.kind === "bit");

// No file of flexray has more bytes, and the shortest record of a file for frames or clocks has 15: more are none.
const MOST_BYTES = 16777216, MOST_RECORDS = 1118481;

// A text in a message, which never holds a long one whole.
const cut = (text, most = 60) => (text.length <= most ? text : `${text.slice(0, most - 3)}...`);

// ---- exact numbers

// A decimal number as [numerator, denominator], or null.
function decimal(text) {
  const found = /^\s*([+-]?)(\d{0,24})(?:[.,](\d{0,24}))?\s*$/.exec(text);
  if (!found || !(found[2] || found[3])) return null;
  const part = found[3] || "";
  const whole = BigInt((found[2] || "0") + part);
  return [found[1] === "-" ? -whole : whole, 10n ** BigInt(part.length)];
}

function nearest(numerator, denominator) {
  if (denominator < 0n) [numerator, denominator] = [-numerator, -denominator];
  const away = (2n * (numerator < 0n ? -numerator : numerator) + denominator) / (2n * denominator);
  return numerator < 0n ? -away : away;
}

// A number with so many digits behind the point, and none of the last zeros.
function digits(numerator, denominator, count) {
  const scaled = nearest(numerator * 10n ** BigInt(count), denominator);
  const text = (scaled < 0n ? -scaled : scaled).toString().padStart(count + 1, "0");
  const whole = text.slice(0, text.length - count), part = text.slice(text.length - count).replace(/0+$/, "");
  return (scaled < 0n ? "-" : "") + whole + (part ? "." + part : "");
}

// Ticks of a time in us or ns, where a microtick lasts so many ns.
function ticksOf(text, unit, microtick) {
  const value = decimal(text), size = decimal(microtick);
  if (!value || !size || size[0] <= 0n) return null;
  return nearest(value[0] * (unit === "us" ? 1000n : 1n) * size[1] * TICKS, value[1] * size[0]);
}

// The ticks of a microtick of an oscillator that is off by so many ppm; above 0 it is fast, and the microtick short.
function lengthOf(text) {
  const value = decimal(text);
  if (!value) return null;
  const below = TICKS * value[1] + value[0];
  return below > 0n ? nearest(TICKS * TICKS * value[1], below) : null;
}

// The same of an exact ppm, [numerator, denominator], above -1000000.
function lengthAt([over, under]) {
  return nearest(TICKS * TICKS * under, TICKS * under + over);
}

// The shortest decimal that stands for these ticks.
function shortest(back, numerator, denominator, ticks) {
  for (let count = 0; count < 18; count += 1) {
    const text = digits(numerator, denominator, count);
    if (back(text) === ticks) return text;
  }
  return digits(numerator, denominator, 18);
}

function timeText(ticks, unit, microtick) {
  const size = decimal(microtick);
  return shortest((text) => ticksOf(text, unit, microtick), ticks * size[0], TICKS * size[1] * (unit === "us" ? 1000n : 1n),
    ticks);
}

function ppmText(length) {
  return shortest(lengthOf, TICKS * TICKS - TICKS * length, length, length);
}

// ---- lists of nodes and cycles, as 1-4,6 and 0-399/2 (each second one)

// The numbers of a list in ascending order, or null where it is none, or names more than a million.
function listOf(text, least, most) {
  const found = new Set();
  let count = 0;
  for (const part of text.split(",")) {
    const range = /^\s*(\d{1,9})\s*(?:-\s*(\d{1,9})\s*(?:\/\s*(\d{1,9}))?)?\s*$/.exec(part);
    if (!range) return null;
    const first = Number(range[1]), last = Number(range[2] ?? range[1]), step = Number(range[3] ?? 1);
    if (first < least || last > most || last < first || step < 1) return null;
    count += Math.floor((last - first) / step) + 1;
    if (count > 1000000) return null;
    for (let at = first; at <= last; at += step) found.add(at);
  }
  return [...found].sort((one, other) => one - other);
}

function listText(numbers) {
  const parts = [];
  for (let at = 0; at < numbers.length;) {
    const step = at + 1 < numbers.length ? numbers[at + 1] - numbers[at] : 0;
    let end = at;
    while (step && end + 1 < numbers.length && numbers[end + 1] - numbers[end] === step) end += 1;
    if (end - at >= 2 || (step === 1 && end > at)) {
      parts.push(`${numbers[at]}-${numbers[end]}${step > 1 ? "/" + step : ""}`);
      at = end + 1;
    } else {
      parts.push(String(numbers[at]));
      at += 1;
    }
  }
  return parts.join(",");
}

// ---- the files

// The records of a file with their lines, as flexray numbers them: empty lines are none. Quotes are not taken apart here.
function recordsOf(text) {
  const found = [];
  let at = 0;
  const plain = text.replace(/^\ufeff/, "");
  for (const line of plain.split(/\r\n|\n|\r/)) {
    if (line !== "") found.push({ number: found.length + 1, at, text: line, fields: line.split(",") });
    at += line.length + (plain.startsWith("\r\n", at + line.length) ? 2 : 1);
  }
  return found;
}

const MOST_ROWS = 60000;

// Why a text is no name of a node, or null; others are the names of the other nodes. A name is of flexlab's file alone.
function nameFault(name, others) {
  if (typeof name !== "string" || !name || [...name.slice(0, 999)].length > 128 || /[\p{C}\p{Z}]/u.test(name.replaceAll(" ", "")) || name !== name.trim()) {
    return "a text of 1 to 128 printable characters is wanted, without blanks at its ends";
  }
  if (/^\p{Nd}+$/u.test(name)) return "it is a number, and a node's number is its id";
  return others.includes(name) ? "another node has this name" : null;
}

// The names of the nodes that the form has, a Map by their number as a text.
function namesOf(cluster) {
  return new Map(cluster && cluster.nodes ? cluster.nodes.filter((node) => node.name).map((node) => [node.id.trim(), node.name]) : []);
}

// The cluster of three files, or a text that says why the form cannot show it. What the form has is then exactly what the
// files say, but for the order of records, and the names of nodes, which are in no file of the program.
function readCluster(files, microtick, names = new Map()) {
  const found = { microtick, version: 1, parameters: Object.create(null), nodes: [], slots: [], doubles: "", lengths: [], delays: [], faults: [] };
  const whole = (text) => /^-?\d{1,18}$/.test(text);
  const nodes = new Map();
  const no = (name, record) => `${name}.csv, record ${record.number}: ${cut(record.text, 200)}`;
  const long = Object.entries(files).find(([, text]) => text.length > MOST_BYTES);
  if (long) return `${long[0]}.csv has more than ${MOST_BYTES} bytes`;
  const parameters = recordsOf(files.params), drift = recordsOf(files.drift), script = recordsOf(files.script);
  if (parameters.length > MOST_ROWS || drift.length + script.length > MOST_ROWS) return `the files have more records than the form can show well, ${MOST_ROWS}`;
  for (const record of parameters) {
    const [kind, one, two, three, four] = record.fields;
    if (record.fields.length !== 5) return no("params", record);
    if (kind === "version" && Number(one) === 2) found.version = 2;
    else if (kind === "param" && NAMES.includes(one) && !(one in found.parameters)) found.parameters[one] = two;
    else if (kind === "node" && whole(one) && !nodes.has(Number(one)) && nodes.size < 64 && ["A", "B", "AB"].includes(three)) {
      nodes.set(Number(one), { id: one, name: names.get(String(Number(one))) ?? "", key: two, channels: three, cold: four === "1", arbitrary: false, ppm: "0", start: "0",
        rate: "0", double: "", reference: "" });
    } else if (kind === "slot") found.slots.push({ slot: one, node: two, base: three, repetition: four });
    else return no("params", record);
  }
  found.nodes = [...nodes.values()];
  const delays = new Map(), lengths = new Map(), frames = new Map();
  const node = (text) => (whole(text) ? nodes.get(Number(text)) : undefined);
  for (const record of drift) {
    const [kind, one, two, three, four, five] = record.fields;
    if (record.fields.length !== 6) return no("drift", record);
    if (kind === "doubles" && !found.doubles) found.doubles = one;
    else if (kind === "start" && node(one) && whole(two)) {
      node(one).start = timeText(BigInt(two), "us", microtick);
      node(one).rate = three;
    } else if (kind === "length" && node(one) && whole(two) && whole(three) && BigInt(three) > 0n) {
      if (Number(two) === 0) node(one).ppm = ppmText(BigInt(three));
      else {
        if (!lengths.has(Number(one))) lengths.set(Number(one), new Map());
        lengths.get(Number(one)).set(Number(two), BigInt(three));
      }
    } else if (kind === "delay" && node(one) && node(two) && whole(four) && whole(five) && "AB".includes(three) && three) {
      const key = five;
      if (!delays.has(key)) delays.set(key, []);
      delays.get(key).push([Number(one), Number(two), three, Number(four)]);
    } else return no("drift", record);
  }
  for (const record of script) {
    const [kind, one, two, three, four, five, six] = record.fields;
    if (record.fields.length !== 7) return no("script", record);
    if (kind === "arbitrary" && node(one)) node(one).arbitrary = true;
    else if (kind === "join" && node(two) && whole(one) && whole(three)) {
      node(two).double = one;
      node(two).reference = three;
    } else if (isOfFrames(kind) && whole(one) && node(two) && node(three) && four && "AB".includes(four)) {
      if (kind === "say" && !whole(five)) return no("script", record);
      const key = [kind, five, six].join(",");
      if (!frames.has(key)) frames.set(key, []);
      frames.get(key).push([Number(two), Number(three), four, Number(one)]);
    } else return no("script", record);
  }
  for (const [id, steps] of lengths) found.lengths.push(...stepsShown(id, steps, lengthOf(node(String(id)).ppm)));
  for (const [ticks, links] of delays) {
    for (const group of grouped(links, found)) {
      found.delays.push({ ...group, ns: timeText(BigInt(ticks), "ns", microtick) });
    }
  }
  for (const [key, links] of frames) {
    const [kind, value, bytes] = key.split(",");
    for (const group of grouped(links, found)) {
      found.faults.push({ ...group, kind, bytes, value: kind === "say" ? timeText(BigInt(value), "us", microtick) : value });
    }
  }
  return found;
}

// The steps of an oscillator as rows; such that a ramp gives are one row, where the ramp gives exactly these.
function stepsShown(id, steps, before) {
  const cycles = [...steps.keys()].sort((one, other) => one - other);
  const last = cycles[cycles.length - 1];
  if (cycles.length > 3) {
    for (let begin = cycles[0] - 4; begin <= cycles[0]; begin += 1) {
      for (let end = last; end <= last + 4; end += 1) {
        if (begin < 1 || end <= begin) continue;
        const row = { node: String(id), first: String(begin), last: String(end), from: ppmText(before),
          to: ppmText(steps.get(last)) };
        if (rampIs(row, before, steps)) return [row];
      }
    }
  }
  return cycles.map((cycle) => ({ node: String(id), first: String(cycle), last: "", from: ppmText(steps.get(cycle)), to: "" }));
}

// A row of the form as {first, last, begin, end}, with ppm as exact fractions, or null; a ramp is linear in ppm.
function rampOf(row) {
  const first = Number(row.first), begin = lengthOf(row.from) !== null && decimal(row.from), is_step = row.last === "" && row.to === "";
  if (!/^\d{1,6}$/.test(row.first) || first > LAST_CYCLE || !begin) return null;
  if (is_step) return { first, last: first, begin, end: begin };
  const end = lengthOf(row.to) !== null && decimal(row.to), last = Number(row.last);
  return end && /^\d{1,6}$/.test(row.last) && last > first && last <= LAST_CYCLE ? { first, last, begin, end } : null;
}

// [cycle, ticks] at which the length changes, from one cycle until before another, where it was so before. Lengths of a ramp go
// one way, so the next change is looked for in steps that double.
function* rampChanges({ first, last, begin, end }, from, until, before) {
  const span = BigInt(Math.max(last - first, 1)), under = begin[1] * end[1] * span, is_one = begin[0] * end[1] === end[0] * begin[1];
  const at = (cycle) => {
    const done = BigInt(cycle - first);
    return lengthAt([begin[0] * end[1] * (span - done) + end[0] * begin[1] * done, under]);
  };
  for (let cycle = from; cycle < until;) {
    const ticks = at(cycle);
    if (ticks !== before) yield [cycle, ticks];
    before = ticks;
    if (is_one || first === last) return;
    let low = cycle, high = cycle;
    for (let step = 1; high === low; step *= 2) {
      const probe = Math.min(low + step, until - 1);
      if (probe === low) return;
      if (at(probe) === ticks) low = high = probe;
      else high = probe;
    }
    while (high - low > 1) {
      const amid = low + Math.floor((high - low) / 2);
      if (at(amid) === ticks) low = amid;
      else high = amid;
    }
    cycle = high;
  }
}

// The cycles at which the length changes in a row of the form, each with its ticks, or null.
function ramp(row, before) {
  const plan = rampOf(row);
  return plan && new Map(rampChanges(plan, plan.first, plan.last + 1, before));
}

// Whether a row of the form says exactly these changes.
function rampIs(row, before, steps) {
  const plan = rampOf(row);
  let count = 0;
  for (const [cycle, ticks] of plan ? rampChanges(plan, plan.first, plan.last + 1, before) : []) {
    if (steps.get(cycle) !== ticks) return false;
    count += 1;
  }
  return plan !== null && count === steps.size;
}

const common = (one, other) => [...one.channels].filter((channel) => other.channels.includes(channel));

// The links of a row, each as [sender, receiver, channel]; null where a list is wrong.
function linksOf(row, cluster) {
  const byId = new Map(cluster.nodes.map((node) => [Number(node.id), node]));
  const ids = (text, most) => (text.trim() === "all"
    ? cluster.nodes.filter((node) => !node.arbitrary).map((node) => Number(node.id)) : listOf(text, 1, most));
  const senders = ids(row.from, 64), receivers = ids(row.to, 64);
  if (!senders || !receivers || ![...senders, ...receivers].every((id) => byId.has(id))) return null;
  const found = [];
  for (const sender of senders) {
    for (const receiver of receivers) {
      if (sender === receiver) continue;
      for (const channel of common(byId.get(sender), byId.get(receiver))) {
        if (row.channels.includes(channel)) found.push([sender, receiver, channel]);
      }
    }
  }
  return found;
}

// Rows of the form for links with their cycles: [sender, receiver, channel, cycle]. They say exactly these.
function grouped(links, cluster) {
  const key = (...parts) => parts.join(" ");
  const cycles = new Map();
  for (const [sender, receiver, channel, cycle] of links) {
    const link = key(sender, receiver, channel);
    if (!cycles.has(link)) cycles.set(link, []);
    cycles.get(link).push(cycle);
  }
  const byCycles = new Map();
  for (const [link, list] of cycles) {
    const text = listText(list.sort((one, other) => one - other));
    if (!byCycles.has(text)) byCycles.set(text, []);
    byCycles.get(text).push(link);
  }
  const found = [];
  for (const [text, list] of byCycles) found.push(...factored(list, cluster).map((row) => ({ ...row, cycles: text })));
  return found;
}

function factored(list, cluster) {
  const byId = new Map(cluster.nodes.map((node) => [Number(node.id), node]));
  const channels = new Map();
  for (const link of list) {
    const [sender, receiver, channel] = link.split(" ");
    const pair = `${sender} ${receiver}`;
    channels.set(pair, (channels.get(pair) || "") + channel);
  }
  const bySender = new Map();
  for (const [pair, some] of channels) {
    const [sender, receiver] = pair.split(" ").map(Number);
    const all = common(byId.get(sender), byId.get(receiver)).join("");
    const spelt = [...some].sort().join("") === all ? "AB" : some;
    const name = `${sender} ${spelt}`;
    if (!bySender.has(name)) bySender.set(name, []);
    bySender.get(name).push(receiver);
  }
  const correct = cluster.nodes.filter((node) => !node.arbitrary).map((node) => Number(node.id));
  const rows = new Map();
  for (const [name, receivers] of bySender) {
    const [sender, spelt] = name.split(" ");
    receivers.sort((one, other) => one - other);
    const reached = correct.filter((id) => id !== Number(sender) && common(byId.get(Number(sender)), byId.get(id)).length);
    const is_all = reached.length > 1 && receivers.join() === reached.join();
    const key = `${is_all ? "all" : listText(receivers)} ${spelt}`;
    if (!rows.has(key)) rows.set(key, []);
    rows.get(key).push(Number(sender));
  }
  const found = [];
  for (const [key, senders] of rows) {
    const [to, spelt] = key.split(" ");
    senders.sort((one, other) => one - other);
    const from = to === "all" && senders.join() === correct.join() ? "all" : listText(senders);
    found.push({ from, to, channels: spelt });
  }
  const said = found.flatMap((row) => linksOf(row, cluster)).map((link) => link.join(" ")).sort().join();
  if (said === [...list].sort().join()) return found;
  return list.map((link) => {
    const [sender, receiver, channel] = link.split(" ");
    return { from: sender, to: receiver, channels: channel };
  });
}

// The three files of a cluster, and the fields that cannot be written: {files, wrong: [[part, number, field, why]]}, where the
// part is that of the cluster, as nodes, and the number that of its row, or null.
function writeCluster(cluster) {
  const wrong = [], parameters = [], drift = [], script = [];
  let count = 0;
  const bad = (part, at, field, why) => wrong.push([part, at, field, why]);
  // Whether so many records more have room.
  const room = (part, at, field, more) => {
    count += more;
    if (count > MOST_RECORDS) bad(part, at, field, `this makes ${count} records, and a file of flexray may have ${MOST_BYTES} bytes, so ${MOST_RECORDS} at most`);
    return count <= MOST_RECORDS;
  };
  const size = decimal(cluster.microtick);
  if (!size || size[0] < size[1] || size[0] > 1000n * size[1]) bad("run", null, "microtick", "a number of nanoseconds from 1 to 1000 is wanted");
  if (cluster.version === 2) parameters.push("version,2,,,");
  for (const name of NAMES) {
    if (name in cluster.parameters) parameters.push(`param,${name},${cluster.parameters[name].trim()},,`);
  }
  cluster.nodes.forEach((node, at) => {
    parameters.push(`node,${node.id.trim()},${node.key.trim()},${node.channels},${node.cold ? 1 : 0}`);
    const fault = node.name && nameFault(node.name, cluster.nodes.filter((other) => other !== node).map((other) => other.name));
    if (fault) bad("nodes", at, "name", fault);
  });
  for (const slot of cluster.slots) {
    parameters.push(`slot,${slot.slot.trim()},${slot.node.trim()},${slot.base.trim()},${slot.repetition.trim()}`);
  }
  drift.push(`doubles,${cluster.doubles.trim()},,,,`);
  cluster.nodes.forEach((node, at) => {
    const ticks = ticksOf(node.start, "us", cluster.microtick);
    if (ticks === null) bad("nodes", at, "start", "a number of microseconds is wanted");
    else if (!node.arbitrary && (ticks !== 0n || node.rate.trim() !== "0")) drift.push(`start,${node.id},${ticks},${node.rate.trim()},,`);
  });
  cluster.nodes.forEach((node, number) => {
    const before = lengthOf(node.ppm), steps = new Map(before === null ? [] : [[0, before]]);
    if (before === null) bad("nodes", number, "ppm", "a number of ppm is wanted");
    cluster.lengths.forEach((row, at) => {
      if (row.node.trim() !== node.id.trim()) return;
      const begin = row.last === "" ? null : lengthOf(row.from), made = ramp(row, begin);
      if (made === null) bad("lengths", at, "from", "a cycle and ppm are wanted; of a ramp two cycles and two numbers of ppm");
      else if (!room("lengths", at, "last", made.size)) return;
      for (const [cycle, ticks] of made || []) steps.set(cycle, ticks);
      if (made && row.last !== "" && begin !== before) steps.set(Number(row.first), begin);
    });
    for (const cycle of [...steps.keys()].sort((one, other) => one - other)) {
      if (!node.arbitrary && !(cycle === 0 && steps.get(0) === TICKS)) drift.push(`length,${node.id},${cycle},${steps.get(cycle)},,`);
    }
  });
  cluster.lengths.forEach((row, at) => {
    if (!cluster.nodes.some((node) => node.id.trim() === row.node.trim())) bad("lengths", at, "node", "there is no such node");
  });
  const delays = new Map();
  cluster.delays.forEach((row, at) => {
    const ticks = ticksOf(row.ns, "ns", cluster.microtick), links = linksOf(row, cluster);
    const cycles = listOf(row.cycles, 0, LAST_CYCLE);
    if (ticks === null) bad("delays", at, "ns", "a number of nanoseconds is wanted");
    if (!links || !links.length) bad("delays", at, "to", "nodes are wanted that have a common channel of these, as 1-4,6 or all");
    if (!cycles) bad("delays", at, "cycles", "cycles are wanted, as 0 or 10-20,30");
    if (ticks === null || !links || !cycles || !room("delays", at, "cycles", cycles.length * links.length)) return;
    for (const link of links.map((one) => one.join())) for (const cycle of cycles) delays.set(`${link},${cycle}`, ticks);
  });
  for (const [link, ticks] of delays) drift.push(`delay,${link},${ticks}`);
  for (const node of cluster.nodes) if (node.arbitrary) script.push(`arbitrary,${node.id},,,,,`);
  for (const node of cluster.nodes) {
    if (node.double.trim() !== "") script.push(`join,${node.double.trim()},${node.id},${node.reference.trim()},,,`);
  }
  const frames = new Map();
  const least = Math.min(LAST_CYCLE + 1, 2 * Number(cluster.doubles) || 2);
  cluster.faults.forEach((row, at) => {
    const links = linksOf(row, cluster);
    const cycles = listOf(row.cycles.trim() === "all" ? `0-${least - 1}` : row.cycles, 0, LAST_CYCLE);
    const value = row.kind === "say" ? ticksOf(row.value, "us", cluster.microtick) : hasBit(row.kind) ? row.value.trim() : "";
    if (value === null) bad("faults", at, "value", "a number of microseconds is wanted, above 0 late");
    if (!links || !links.length) bad("faults", at, "to", "nodes are wanted that have a common channel of these, as 1-4,6 or all");
    if (!cycles) bad("faults", at, "cycles", "cycles are wanted, as 0-399, 10-20,30 or all");
    if (value === null || !links || !cycles || !room("faults", at, "cycles", cycles.length * links.length)) return;
    const spelt = links.map((link) => link.join()), end = `${value},${row.kind === "say" ? row.bytes.trim() : ""}`;
    for (const cycle of cycles) {
      if (!frames.has(cycle)) frames.set(cycle, new Map());
      const known = frames.get(cycle);
      for (const link of spelt) known.set(link, `${row.kind},${cycle},${link},${end}`);
    }
  });
  for (const cycle of [...frames.keys()].sort((one, other) => one - other)) script.push(...frames.get(cycle).values());
  const text = (lines) => lines.map((line) => line + "\n").join("");
  return { files: { params: text(parameters), drift: text(drift), script: text(script) }, wrong };
}
