"use strict";
// What lines of the program say, in plain words: refusals with the record and the field, by the forms of records, FORMS, which
// tools/forms writes; gaps, checks.

const kindsOf = (kinds) => new Map(Object.entries(kinds));
const REASONS = {
  Shape: "The record has not as many fields as a record of this file, or a field that has to be empty is not.",
  UnknownName: "The first field is no kind of record of this file, or no parameter has this name.",
  NotNumber: "A field has to be a whole number and is none.",
  OutOfRange: "A number is outside its range.",
  UnknownNode: "The cluster has no such node.",
  BadChannel: "The channels are spelt otherwise: A, B, or for a node AB.",
  Role: "The fields do not go together, or the record may not stand there.",
  Link: "The channel is not one that both nodes have, or they have none in common.",
  NotHex: "The bytes are no hexadecimal digits, two for each byte.",
  Repeated: "There is such a record already.",
};
// Where no single field is at fault; of the other kinds of a file at last.
const RULES = kindsOf({
  "params node Role": "A coldstart node needs a key slot.",
  "params version Role": "This record has to be the first one.",
  "params slot Role": "The repetition is 1, 2, 4, 8, 16, 32 or 64, and the base is below it.",
  "drift delay Role": "Sender and receiver are the same node.",
  "script arbitrary Role": "An arbitrary node needs a key slot, and these records stand before all others.",
  "script join Role": "A node cannot be its own reference, neither of both may be arbitrary, and the reference needs a key slot and "
    + "does not join itself.",
  "script say Role": "The sender has to be an arbitrary node, the receiver a correct one, and not the same.",
  "script Role": "Sender and receiver are two correct nodes.",
});
const CONSTRAINTS = [
  null,
  (p) => [`gMacroPerCycle is gNumberOfStaticSlots times gdStaticSlot plus gdNIT`,
    `${p.gMacroPerCycle} is not ${p.gNumberOfStaticSlots} · ${p.gdStaticSlot} + ${p.gdNIT} = `
    + `${p.gNumberOfStaticSlots * p.gdStaticSlot + +p.gdNIT}`
    + (p.gMacroPerCycle > p.gNumberOfStaticSlots * p.gdStaticSlot
      ? `; with gdNIT ${p.gMacroPerCycle - p.gNumberOfStaticSlots * p.gdStaticSlot} it is` : "")],
  (p) => ["gdActionPointOffset is less than gdStaticSlot", `${p.gdActionPointOffset} is not less than ${p.gdStaticSlot}`],
  (p) => ["the static slots end before gOffsetCorrectionStart, and that lies before the end of the cycle",
    `the slots end at ${p.gNumberOfStaticSlots * p.gdStaticSlot}, the offset correction starts at ${p.gOffsetCorrectionStart}, `
    + `the cycle ends at ${p.gMacroPerCycle}`],
  (p) => ["every correction within its limit leaves each macrotick a microtick",
    `pOffsetCorrectionOut ${p.pOffsetCorrectionOut} is too much for the ${p.gMacroPerCycle - p.gOffsetCorrectionStart} macroticks `
    + "behind gOffsetCorrectionStart: start the correction earlier, or lower its limit"],
  (p) => ["gMaxWithoutClockCorrectionPassive is at most gMaxWithoutClockCorrectionFatal",
    `${p.gMaxWithoutClockCorrectionPassive} is more than ${p.gMaxWithoutClockCorrectionFatal}`],
  () => ["1 to 15 nodes have a key slot", "give at least one node a key slot, and at most fifteen"],
  (p) => [`each key slot is at most gNumberOfStaticSlots (${p.gNumberOfStaticSlots}), and no two nodes have the same`,
    p.keys.flatMap(([node, key], at) => [
      key > p.gNumberOfStaticSlots ? `node ${node} has ${key}` : null,
      ...p.keys.slice(0, at).filter((other) => other[1] === key).map((other) => `nodes ${other[0]} and ${node} have ${key}`),
    ]).filter(Boolean).join(", ")],
  (p) => [`each further slot is at most gNumberOfStaticSlots (${p.gNumberOfStaticSlots}), and none is a key slot`,
    p.slots.filter((slot) => slot > p.gNumberOfStaticSlots || p.keys.some((key) => key[1] === slot)).map((slot) => `slot ${slot} is not so`).join(", ")],
];
// An earlier record that is of the same, or undefined.
function earlierOf(role, record, records) {
  const [, kinds, once] = FORMS[role];
  const key = ({ fields: [kind, ...texts] }) => once.has(kind) && JSON.stringify([isOfFrames(kind) || kind, ...kinds.get(kind).map(
    ({ name }, at) => (!once.get(kind).includes(name) ? "" : /^-?\d+$/.test(texts[at]) ? Number(texts[at]) : texts[at]))]);
  return once.has(record.fields[0]) ? records.find((other) => other.number < record.number && key(other) === key(record)) : undefined;
}

// The values of parameters by their names; a name that is none of flexray's is left out.
function parametersOf(text) {
  const found = Object.create(null);
  for (const { fields } of recordsOf(text)) if (fields[0] === "param" && NAMES.includes(fields[1])) found[fields[1]] = fields[2];
  return found;
}

// The range of a numeric field as [least, most, unit]; parameters decide some.
function rangeOf(field, record, known) {
  if (field.kind === "value") {
    const row = PARAMETERS.find((one) => one[0] === record.fields[1]);
    return row ? [row[1], row[2], row[0].startsWith("x") ? "ticks" : row[3]] : [-Infinity, Infinity, ""];
  }
  const unit = field.unit || "";
  if (field.kind === "bit") return [...decided(field, known), `${unit} of a frame`];
  if (field.limit) return [...decided(field, known), `${unit} (${field.limit[0]})`];
  const told = record.fields[0] === "length" && field.name === "TICKS" ? ": the length of a microtick, 1000000 where the oscillator is right" : "";
  return [field.least, field.most, unit + told];
}

function decided({ limit: [name, times, and, timesMost, andMost] }, known) {
  return [times * known[name] + and, timesMost * known[name] + andMost];
}

function fieldFault(reason, role, field, text, record, known) {
  const whole = /^-?\d{1,18}$/.test(text), numeric = NUMERIC.includes(field.kind) && !(field.kind === "key" && text === "");
  if (reason === "Shape" && field.kind === "empty" && text !== "") return "has to be empty";
  if (reason === "UnknownName" && field.kind === "name") return "is no parameter of a file of this version, spelt exactly";
  if (reason === "NotNumber" && numeric && !whole) {
    return text === "" ? "is empty, and a number is wanted" : "is no whole number: an optional - and 1 to 18 digits, without blanks";
  }
  if (reason === "OutOfRange" && numeric && whole) {
    const [least, most, unit] = rangeOf(field, record, known);
    if (Number(text) < least || Number(text) > most) return `is not from ${least} to ${most} ${unit}`.trimEnd();
  }
  if (reason === "OutOfRange" && field.kind === "hex" && new TextEncoder().encode(text).length > FRAME_DIGITS) return `has more than ${FRAME_DIGITS} bytes`;
  if (reason === "UnknownNode" && field.kind === "node" && whole && (role === "params" || !known.nodes.includes(Number(text)))) {
    return role === "params" ? "is a node that no earlier record is of" : `is none of the nodes ${known.nodes.join(", ")}`;
  }
  if (reason === "BadChannel" && field.words && !field.words.includes(text)) {
    return `has to be ${field.words.slice(0, -1).join(", ")} or ${field.words.at(-1)}`;
  }
  if (reason === "NotHex" && field.kind === "hex") return "has an odd number of digits, or one that is none";
  return null;
}

// {title, lines, role, record} of the line of a failure: record is {at, text} where it is of one.
function explain(line, files) {
  const found = /^(params|drift|script): record (\d+): (\w+)$/.exec(line);
  const of = (kind) => recordsOf(files.params).filter((one) => one.fields[0] === kind).map((one) => one.fields);
  const known = Object.assign(parametersOf(files.params), { nodes: of("node").map((fields) => Number(fields[1])),
    keys: of("node").filter((fields) => fields[2]).map((fields) => [fields[1], Number(fields[2])]), slots: of("slot").map((fields) => Number(fields[1])) });
  if (found) {
    const [, role, told, reason] = found, record = recordsOf(files[role])[Number(told) - 1];
    const title = `${role}.csv, record ${told}, is refused: ${reason}`;
    if (!record) return { title, lines: [REASONS[reason]], role };
    const [count, kinds] = FORMS[role], kind = record.fields[0], lines = [];
    if (reason === "Shape" && record.fields.length !== count) {
      lines.push(`It has ${record.fields.length} fields, and a record of this file has ${count}: commas behind the last value belong to it.`);
    }
    if (reason === "UnknownName" && !kinds.has(kind)) lines.push(`“${cut(kind)}” is none of ${[...kinds.keys()].join(", ")}.`);
    (kinds.get(kind) || []).forEach((field, at) => {
      const text = record.fields[at + 1], why = text === undefined ? null : fieldFault(reason, role, field, text, record, known);
      if (why) lines.push(`${field.kind === "value" ? cut(record.fields[1]) : field.name || "Field " + (at + 2)} “${cut(text)}” ${why}.`);
    });
    const same = reason === "Repeated" ? earlierOf(role, record, recordsOf(files[role])) : undefined;
    if (same) lines.push(`Record ${same.number} is of the same: ${cut(same.text, 200)}`);
    const rule = RULES.get(`${role} ${kind} ${reason}`) || RULES.get(`${role} ${reason}`);
    if (!lines.length && rule) lines.push(rule);
    return { title, lines: [REASONS[reason], ...lines], role, record };
  }
  const constraint = /^params: constraint ([1-8])$/.exec(line), missing = /^(params|drift): missing (\w+)$/.exec(line);
  if (constraint) {
    const [asks, has] = CONSTRAINTS[constraint[1]](known);
    return { title: `The parameters do not fit together: constraint ${constraint[1]}`, lines: [`It asks that ${asks}.`, has && `Here ${has}.`].filter(Boolean), role: "params" };
  }
  if (missing) {
    const row = PARAMETERS.find((one) => one[0] === missing[2]);
    return { title: `${missing[1]}.csv lacks ${missing[2]}`, role: missing[1],
      lines: [row ? `A record param,${row[0]},VALUE,, is wanted, ${row[1]} to ${row[2]}.` : "A record doubles,COUNT,,,, says how many double cycles the run has."] };
  }
  if (/: too long$/.test(line)) return { title: line, lines: ["A file may have 16,777,216 bytes."] };
  if (line === "no memory") return { title: "Memory ran out", lines: ["The browser gave the program no more. Fewer cycles or nodes need less."] };
  return { title: "The program stopped", lines: [line, "This comes of the way to WebAssembly or of the browser, since the program itself ends with one of its own lines."] };
}

const WHY = {
  1: ["The damping has to outweigh what a rate value may be off", "pClusterDriftDamping up, or xChangeBound or xDelayError down"],
  2: ["The rate limit has to suffice for two oscillators at opposite ends", "pRateCorrectionOut up, or xRateBound down"],
  3: ["The offset limit has to suffice for the precision", "pOffsetCorrectionOut up, or what widens the precision down"],
  4: ["An early arrival must not fall before its slot", "gdActionPointOffset up, or what widens the precision down"],
  5: ["A late arrival must not fall behind its slot", "gdStaticSlot up, or gdActionPointOffset down"],
  6: ["The rate limit has to suffice for the first rate of a node that joins", "pRateCorrectionOut up, or xRateBound down"],
  7: ["The offset limit has to suffice for the reach of a node that joins", "pOffsetCorrectionOut up"],
  8: ["An early arrival within reach must not fall before its slot", "gdActionPointOffset up"],
  9: ["A late arrival within reach must not fall behind its slot", "gdStaticSlot up, or gdActionPointOffset down"],
};

// The words behind `covered no`, in a sentence.
function gapWords(gap, show) {
  const [kind, ...rest] = gap.split(" ");
  if (kind === "check") return `Check C${rest[0]} fails. ${WHY[rest[0]][0]}: turn ${WHY[rest[0]][1]}.`;
  if (kind === "count") return `${rest[0]} correct sync nodes do not outweigh ${rest[1]} arbitrary ones: one needs three, two need six.`;
  if (kind === "length") return `In cycle ${rest[1]} the oscillator of node ${rest[0]} is off by ${show.ppm(rest[2])} ppm, further than xRateBound says.`;
  if (kind === "change") return `In cycle ${rest[1]} the oscillator of node ${rest[0]} changes by ${rest[2]} ppm or so, more than xChangeBound says.`;
  if (kind === "delay") return `In cycle ${rest[3]} frames of node ${rest[0]} travel ${show.ns(rest[4])} ns to node ${rest[1]} on channel ${rest[2]}, further from the compensation than xDelayError says.`;
  if (kind === "link") return `In double cycle ${rest[2]} no channel carries the frames of node ${rest[0]} to node ${rest[1]} in both cycles.`;
  return gap;
}

// For how long from sync on something is proved of a run, by the lines behind its series, where that is not to its end. It is of a
// covered run, and of one that is covered through losses: that one has a bound.
function lastingWords({ "sharp covered": [covered], "sharp synced": [first, lasts], lost: [, , bound] }) {
  if (first === "-" || lasts === "on" || (covered !== "yes" && bound === "-")) return "";
  return lasts === "0" ? "nothing is proved from there on" : `proved for ${lasts} double cycles from there on`;
}
