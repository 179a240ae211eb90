"use strict";
// Written by tools/forms from python/flexlab/base/specified.py: which kinds of fields are numbers; and of each file how many
// fields a record has, and by its first field those behind it, each with its name, its kind and its range. A limit is
// a parameter, and of which multiple and which number each end is the sum. At last by which fields a second record is
// of the same. What the first field of a record says is of a stranger, so these are Maps: it may be constructor.
const LAST_CYCLE = 199999, NUMERIC = ["number", "node", "key", "value", "rate", "bit", "offset"];
const FORMS = {
  params: [5, new Map([
    ["version", [
      { name: "VERSION", kind: "number", least: 2, most: 2 },
      { kind: "empty" },
      { kind: "empty" },
      { kind: "empty" },
    ]],
    ["param", [
      { name: "NAME", kind: "name" },
      { name: "VALUE", kind: "value" },
      { kind: "empty" },
      { kind: "empty" },
    ]],
    ["node", [
      { name: "ID", kind: "number", least: 1, most: 64 },
      { name: "KEY", kind: "key", least: 1, most: 1023 },
      { name: "CHANNELS", kind: "channels", words: ["A", "B", "AB"] },
      { name: "COLD", kind: "number", least: 0, most: 1 },
    ]],
    ["slot", [
      { name: "SLOT", kind: "number", least: 1, most: 1023 },
      { name: "NODE", kind: "node", least: 1, most: 64 },
      { name: "BASE", kind: "number", least: 0, most: 63 },
      { name: "REPETITION", kind: "number", least: 1, most: 64 },
    ]],
  ]), new Map([["param", ["NAME"]], ["node", ["ID"]], ["slot", ["SLOT"]]])],
  drift: [6, new Map([
    ["doubles", [
      { name: "COUNT", kind: "number", least: 1, most: 100000, unit: "double cycles" },
      { kind: "empty" },
      { kind: "empty" },
      { kind: "empty" },
      { kind: "empty" },
    ]],
    ["start", [
      { name: "NODE", kind: "node", least: 1, most: 64 },
      { name: "TICKS", kind: "number", least: 0, most: 1000000000000, unit: "ticks" },
      { name: "RATE", kind: "rate", unit: "microticks", limit: ["pRateCorrectionOut", -1, 0, 1, 0] },
      { kind: "empty" },
      { kind: "empty" },
    ]],
    ["length", [
      { name: "NODE", kind: "node", least: 1, most: 64 },
      { name: "FROM", kind: "number", least: 0, most: 199999, unit: "cycles" },
      { name: "TICKS", kind: "number", least: 500000, most: 1500000, unit: "ticks" },
      { kind: "empty" },
      { kind: "empty" },
    ]],
    ["delay", [
      { name: "SENDER", kind: "node", least: 1, most: 64 },
      { name: "RECEIVER", kind: "node", least: 1, most: 64 },
      { name: "CHANNEL", kind: "channel", words: ["A", "B"] },
      { name: "FROM", kind: "number", least: 0, most: 199999, unit: "cycles" },
      { name: "TICKS", kind: "number", least: 0, most: 1000000000, unit: "ticks" },
    ]],
  ]), new Map([["doubles", []], ["start", ["NODE"]], ["length", ["NODE", "FROM"]], ["delay", ["SENDER", "RECEIVER", "CHANNEL", "FROM"]]])],
  script: [7, new Map([
    ["arbitrary", [
      { name: "NODE", kind: "node", least: 1, most: 64 },
      { kind: "empty" },
      { kind: "empty" },
      { kind: "empty" },
      { kind: "empty" },
      { kind: "empty" },
    ]],
    ["say", [
      { name: "CYCLE", kind: "number", least: 0, most: 199999 },
      { name: "SENDER", kind: "node", least: 1, most: 64 },
      { name: "RECEIVER", kind: "node", least: 1, most: 64 },
      { name: "CHANNEL", kind: "channel", words: ["A", "B"] },
      { name: "SHIFT", kind: "number", least: -1000000000000, most: 1000000000000, unit: "ticks" },
      { name: "BYTES", kind: "hex" },
    ]],
    ["lose", [
      { name: "CYCLE", kind: "number", least: 0, most: 199999 },
      { name: "SENDER", kind: "node", least: 1, most: 64 },
      { name: "RECEIVER", kind: "node", least: 1, most: 64 },
      { name: "CHANNEL", kind: "channel", words: ["A", "B"] },
      { kind: "empty" },
      { kind: "empty" },
    ]],
    ["flip", [
      { name: "CYCLE", kind: "number", least: 0, most: 199999 },
      { name: "SENDER", kind: "node", least: 1, most: 64 },
      { name: "RECEIVER", kind: "node", least: 1, most: 64 },
      { name: "CHANNEL", kind: "channel", words: ["A", "B"] },
      { name: "BIT", kind: "bit", unit: "bits", limit: ["gPayloadLengthStatic", 0, 0, 16, 63] },
      { kind: "empty" },
    ]],
    ["join", [
      { name: "DOUBLE", kind: "number", least: 0, most: 99999, unit: "double cycles" },
      { name: "NODE", kind: "node", least: 1, most: 64 },
      { name: "REFERENCE", kind: "node", least: 1, most: 64 },
      { kind: "empty" },
      { kind: "empty" },
      { kind: "empty" },
    ]],
  ]), new Map([["arbitrary", ["NODE"]], ["join", ["NODE"]], ["say", ["CYCLE", "SENDER", "RECEIVER", "CHANNEL"]], ["lose", ["CYCLE", "SENDER", "RECEIVER", "CHANNEL"]], ["flip", ["CYCLE", "SENDER", "RECEIVER", "CHANNEL"]]])],
};
// Each parameter in the order of the files: its range, its unit, and what it is.
const MEANT = new Map([
  ["gMacroPerCycle", [10, 16000, "macroticks", "a cycle"]],
  ["pMicroPerCycle", [10, 640000, "microticks", "a cycle, before correction"]],
  ["gNumberOfStaticSlots", [1, 1023, "slots", "static slots a cycle"]],
  ["gdStaticSlot", [2, 1000, "macroticks", "a static slot"]],
  ["gdActionPointOffset", [1, 63, "macroticks", "from the start of a static slot to its action point"]],
  ["gdNIT", [1, 15999, "macroticks", "the rest of the cycle after the static slots"]],
  ["gPayloadLengthStatic", [0, 127, "two-byte words", "the payload of a static frame"]],
  ["gOffsetCorrectionStart", [1, 15999, "macroticks", "the macrotick at which the offset correction starts"]],
  ["gMaxWithoutClockCorrectionPassive", [1, 15, "double cycles", "without a correction term, until a node is passive"]],
  ["gMaxWithoutClockCorrectionFatal", [1, 15, "double cycles", "without a correction term, until a node may halt"]],
  ["pAllowHaltDueToClock", [0, 1, "", "whether a node may halt: 1 yes, 0 no"]],
  ["pAllowPassiveToActive", [0, 31, "double cycles", "good ones until a passive node is active; 0: never"]],
  ["pClusterDriftDamping", [0, 100, "microticks", "by which the rate term is damped toward 0"]],
  ["pOffsetCorrectionOut", [1, 16000, "microticks", "the limit of the offset term"]],
  ["pRateCorrectionOut", [1, 2000, "microticks", "the limit of the rate term"]],
  ["pDelayCompensation", [0, 200, "microticks", "taken off each measured arrival"]],
  ["pDelayCompensationA", [0, 200, "microticks", "taken off each arrival measured on channel A"]],
  ["pDelayCompensationB", [0, 200, "microticks", "taken off each arrival measured on channel B"]],
  ["xRateBound", [0, 1500, "ticks", "the greatest distance of a microtick's length from nominal"]],
  ["xChangeBound", [0, 1500, "ticks", "the greatest change of that length from one cycle to the next"]],
  ["xDelayError", [0, 10000000, "ticks", "the greatest distance of a delay from the compensation"]],
]);
// Printed lines that the page takes apart: each value is a group, and so is what is one of several texts.
const LINES = {
  precision: /^precision (\d+)$/,
  sync: /^in sync (never|\d+)$/,
  skew: /^greatest skew (-?\d+) cycle (\d+) macrotick (-?\d+)$/,
  nodes: /^nodes (\d+) sync (\d+) arbitrary (\d+) doubles (\d+)$/,
  covered: /^covered (yes|no (?:check \d+ -?\d+ -?\d+|count \d+ \d+|length \d+ \d+ -?\d+|change \d+ \d+ -?\d+|delay \d+ \d+ (?:A|B) \d+ -?\d+|link \d+ \d+ \d+))$/,
  sent: /^sent (A|B) (\d+) xor ([0-9A-F]{6})$/,
  heard: /^heard stored (\d+) outside (\d+) damaged (\d+) id (\d+) cycle (\d+) length (\d+) plain (\d+)$/,
  cut: /^cut (\d+)$/,
  node: /^node (\d+) (active|passive|halt) next (-?\d+) rate (-?\d+) offset (-?\d+)$/,
};
