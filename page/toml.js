"use strict";
// The TOML file of flexlab: its tables as the three files, and the form as such a file. What is refused here is what flexlab
// refuses, and besides what is for flexlab alone: numbers that are drawn, dotted names, texts of several lines. Names of nodes are
// of this file, and of none of the three.

class NoToml extends Error {}

// TABLES, the tables of flexlab with their keys, are written by tools/keys; of [values] any key is one.
const AMOUNTS = ["us", "ns", "microticks", "ticks"];
const SINGLE = [...TABLES].filter(([, { many }]) => !many).map(([name]) => name), LISTED = [...TABLES.keys()].filter((name) => !SINGLE.includes(name));
// How many bytes a file may have, how many digits a number before the point and behind it, as in flexlab, and how deep values may
// lie in each other: more is no cluster, and takes long.
const MOST_TOML = 4194304, MOST_DIGITS = 30, MOST_DEPTH = 8;
// How much work a file may ask for, in links and cycles.
const MOST_WORK = 5000000;

// ---- the text as tables

// How alike two words are, from 0 to 1, as Python's difflib has it.
function alike(one, other) {
  const shared = (from, to, first, last) => {
    let best = 0, at = from, there = first;
    for (let i = from; i < to; i += 1) {
      for (let j = first; j < last; j += 1) {
        let length = 0;
        while (i + length < to && j + length < last && one[i + length] === other[j + length]) length += 1;
        if (length > best) [best, at, there] = [length, i, j];
      }
    }
    return best && best + shared(from, at, first, there) + shared(at + best, to, there + best, last);
  };
  return one.length + other.length ? (2 * shared(0, one.length, 0, other.length)) / (one.length + other.length) : 1;
}

// The known name that is spelt most like a word, whatever the case of letters, or null.
function near(word, known) {
  if (word.length > 60) return null;
  const scored = known.map((name) => [alike(name.toLowerCase(), word.toLowerCase()), name]).filter(([score]) => score >= 0.6);
  return scored.sort((one, other) => other[0] - one[0] || (one[1].toLowerCase() < other[1].toLowerCase() ? 1 : -1))[0]?.[1] ?? null;
}

// A number of a TOML text as an exact [numerator, denominator], with what was written; null for what is none.
function numberOf(told) {
  const based = /^0(?:x[\dA-Fa-f]+(?:_[\dA-Fa-f]+)*|o[0-7]+(?:_[0-7]+)*|b[01]+(?:_[01]+)*)$/.test(told);
  const found = /^([+-]?)(0|[1-9]\d*(?:_\d+)*)(?:\.(\d+(?:_\d+)*))?(?:[eE]([+-]?)(\d+(?:_\d+)*))?$/.exec(told);
  if (!based && !found) return null;
  const plain = (text) => (text || "").replace(/_/g, ""), many = `a number has at most ${MOST_DIGITS} digits before the point, and as many behind it`;
  if (based) {
    const value = BigInt(plain(told));
    if (value >= 10n ** BigInt(MOST_DIGITS)) throw new NoToml(many);
    return { number: [value, 1n], whole: true, text: String(value) };
  }
  const behind = plain(found[3]), power = plain(found[5]).replace(/^0+(?=\d)/, ""), spelt = (plain(found[2]) + behind).replace(/^0+(?=\d)/, "");
  // The power of ten of the last digit.
  const last = power.length > 3 ? NaN : (found[4] === "-" ? -1 : 1) * Number(power || 0) - behind.length;
  if (!(last >= -MOST_DIGITS && spelt.length + last <= MOST_DIGITS)) throw new NoToml(many);
  const over = (found[1] === "-" ? -1n : 1n) * BigInt(spelt) * 10n ** BigInt(Math.max(last, 0)), is_whole = found[3] === undefined && found[5] === undefined;
  return { number: [over, 10n ** BigInt(Math.max(-last, 0))], whole: is_whole, text: is_whole ? String(over) : told };
}

// The tables of a text: a Map of names to {many, line, tables}, each table a Map of keys to {line, value}. A value is a text,
// true or false, a list, a number as above, or {drawn}. It goes through the text once.
function tablesOf(text) {
  if (new TextEncoder().encode(text).length > MOST_TOML) throw new NoToml(`it has more than ${MOST_TOML} bytes`);
  const plain = text.replace(/^\ufeff/, "").replace(/\r\n/g, "\n"), found = new Map();
  let at = 0, line = 1, table = null;
  const no = (why) => { throw new NoToml(`line ${line}: ${why}`); };
  const taken = (pattern) => {
    pattern.lastIndex = at;
    const match = pattern.exec(plain);
    if (match) at = pattern.lastIndex;
    return match;
  };
  const blanks = () => taken(/[ \t]*/y);
  const control = () => {
    if (at < plain.length && /[\0-\x08\x0b-\x1f\x7f]/.test(plain[at])) no("a control character stands where TOML has none");
  };
  // Blanks, comments and ends of lines.
  const gaps = () => {
    for (;;) {
      blanks();
      if (plain[at] === "#") {
        taken(/#[^\0-\x08\x0a-\x1f\x7f]*/y);
        if (at < plain.length && plain[at] !== "\n") control();
      }
      if (plain[at] !== "\n") return;
      at += 1;
      line += 1;
    }
  };
  const ended = (what) => {
    blanks();
    if (plain[at] === "#") taken(/#[^\0-\x08\x0a-\x1f\x7f]*/y);
    control();
    if (at >= plain.length || plain[at] === "\n") return;
    const rest = taken(/[^\n]*/y)[0];
    no(`${cut(rest)} stands behind ${cut(what)}${/^,\d/.test(rest) ? "; a number has a point, no comma" : ""}`);
  };
  const ESCAPES = new Map([["b", "\b"], ["t", "\t"], ["n", "\n"], ["f", "\f"], ["r", "\r"], ['"', '"'], ["\\", "\\"]]);
  const quoted = () => {
    if (plain.startsWith('"""', at) || plain.startsWith("'''", at)) no("texts of several lines are for flexlab alone");
    const literal = taken(/'([^'\0-\x08\x0a-\x1f\x7f]*)'/y);
    if (literal) return literal[1];
    const spelt = taken(/"((?:[^"\\\0-\x08\x0a-\x1f\x7f]|\\[^\n])*)"/y);
    if (!spelt) no("a text has no quote at its end");
    return spelt[1].replace(/\\(?:u([\dA-Fa-f]{4})|U([\dA-Fa-f]{8})|(.))/gsu, (whole, short, long, letter) => {
      const code = parseInt(short || long || "", 16);
      if (letter !== undefined) return ESCAPES.get(letter) ?? no(`${cut(whole)} is no escape of TOML`);
      return code > 0x10ffff || (code >= 0xd800 && code <= 0xdfff) ? no(`${whole} is no letter`) : String.fromCodePoint(code);
    });
  };
  const name = () => {
    blanks();
    const bare = taken(/[A-Za-z0-9_-]+/y);
    const told = bare ? bare[0] : plain[at] === '"' || plain[at] === "'" ? quoted() : no(`a name is wanted, and not ${cut(taken(/[^\n]*/y)[0]) || "the end of the line"}`);
    blanks();
    if (plain[at] === ".") no("names with a point between are for flexlab alone");
    return told;
  };
  const pair = (into) => {
    const here = line, key = name();
    if (plain[at] !== "=") no(`${cut(key)} has no = behind it`);
    if (into.has(key)) no(`the key \`${cut(key)}\` is there already`);
    at += 1;
    blanks();
    into.set(key, { line: here, value: value(0) });
    return key;
  };
  const list = (depth) => {
    const values = [];
    at += 1;
    for (;;) {
      gaps();
      control();
      if (at >= plain.length) no("a list has no ] at its end");
      if (plain[at] === "]") break;
      values.push(value(depth + 1));
      gaps();
      if (plain[at] === ",") at += 1;
      else if (plain[at] !== "]") no(at < plain.length ? "a list wants a comma or ] here" : "a list has no ] at its end");
    }
    at += 1;
    return values;
  };
  const drawn = (depth) => {
    const values = new Map();
    if (depth > MOST_DEPTH) no(`values lie more than ${MOST_DEPTH} deep in each other`);
    at += 1;
    blanks();
    while (plain[at] !== "}") {
      if (at >= plain.length) no("a table in braces has no } at its end");
      const key = name();
      if (plain[at] !== "=" || values.has(key)) no(`${cut(key)} has no = behind it, or is there already`);
      at += 1;
      blanks();
      values.set(key, value(depth + 1));
      blanks();
      if (plain[at] === ",") at += 1;
      else if (plain[at] !== "}") no("a table in braces wants a comma or } here");
    }
    at += 1;
    return { drawn: true };
  };
  const value = (depth) => {
    if (depth > MOST_DEPTH) no(`values lie more than ${MOST_DEPTH} deep in each other`);
    if (plain[at] === '"' || plain[at] === "'") return quoted();
    if (plain[at] === "[") return list(depth);
    if (plain[at] === "{") return drawn(depth);
    const told = taken(/[^\s,\]}#=]*/y)[0];
    if (told === "true" || told === "false") return told === "true";
    let number = null;
    try {
      // Digits alone are asked of a long one, so that no pattern goes through it.
      number = told.length <= 100 ? numberOf(told) : no(`${cut(told)} has ${told.length} letters, and is no number of a cluster`);
    } catch (why) {
      no(why.message.replace(/^line \d+: /, ""));
    }
    return number ?? no(told ? `${cut(told)} is no value that this page reads${/^[A-Za-z]/.test(told) ? "; a text has quotes" : ""}` : "a value is wanted");
  };
  for (gaps(); at < plain.length; gaps()) {
    control();
    if (plain[at] !== "[") {
      if (!table) no(`${cut(taken(/[^\n]*/y)[0])} stands in no table`);
      ended(pair(table));
      continue;
    }
    const many = plain[at + 1] === "[", here = line;
    at += many ? 2 : 1;
    const told = name();
    if (!plain.startsWith(many ? "]]" : "]", at)) no(`[${cut(told)} has no ${many ? "]]" : "]"} behind it`);
    at += many ? 2 : 1;
    ended("the name of a table");
    if (!TABLES.has(told)) {
      const like = near(told, [...TABLES.keys()]);
      no(`there is no table \`${cut(told)}\`${like ? `; did you mean \`${like}\`?` : `; there are ${[...SINGLE, ...LISTED].join(", ")}`}`);
    }
    if (many === SINGLE.includes(told)) no(`\`${told}\` has to be ${many ? `one table [${told}]` : `[[${told}]] tables`}`);
    if (found.has(told) && !many) no(`there is a table [${told}] already`);
    if (!found.has(told)) found.set(told, []);
    table = new Map();
    found.get(told).push({ line: here, keys: table });
  }
  return found;
}

// ---- exact fractions, as [numerator, denominator above 0]

const below = (one, other) => one[0] * other[1] < other[0] * one[1];
const fraction = (number) => (Array.isArray(number) ? number : [BigInt(number), 1n]);
const product = (...factors) => factors.map(fraction).reduce((one, other) => [one[0] * other[0], one[1] * other[1]], [1n, 1n]);
const inverse = ([over, under]) => (over < 0n ? [-under, -over] : [under, over]);

function shownNumber(number) {
  const [over, under] = fraction(number);
  return over % under === 0n ? cut(String(over / under)) : cut(digits(over, under, 6));
}

function shownValue(value) {
  if (typeof value === "string") return `"${cut(value)}"`;
  if (Array.isArray(value)) return cut(`[${value.slice(0, 20).map(shownValue).join(", ")}${value.length > 20 ? ", .." : ""}]`);
  return value && value.number ? cut(value.text) : String(value);
}

// ---- one table: hands out its values, and refuses what does not fit

class Table {
  constructor(source, name, index, entry) {
    Object.assign(this, { source, name, index, keys: entry ? entry.keys : new Map(), line: entry ? entry.line : null, described: TABLES.get(name).keys });
  }

  refuse(key, why) {
    const line = (key !== null && this.keys.get(key)?.line) || this.line;
    const table = this.index === null ? this.name : `${this.name}[${this.index + 1}]`;
    throw new NoToml(`${line ? `line ${line}: ` : ""}${table}${key === null ? "" : `.${cut(key)}`}: ${why}`);
  }

  has(key) {
    return this.keys.has(key);
  }

  // What is given, or else what the key stands for where it is left out, or may stand for here.
  take(key, wanted, other = this.described.get(key)?.other ?? undefined) {
    if (this.has(key)) {
      const { value } = this.keys.get(key);
      return value && value.drawn ? this.refuse(key, "numbers that are drawn are for flexlab alone") : value;
    }
    return other === undefined ? this.refuse(null, `the key \`${key}\` is missing: ${wanted}`) : other;
  }

  // A number as an exact fraction, or the name of one of [values], a - before it allowed.
  plain(key, value, span) {
    if (typeof value === "string") {
      const named = /^([+-]?)\s*([A-Za-z_]\w*)$/.exec(value), known = this.source.values;
      if (!named || !known.has(named[2])) {
        this.refuse(key, `${shownValue(value)} is neither ${span} nor a name of [values] (there: ${cut([...known.keys()].sort().join(", ")) || "none"})`
          + (/^[+-]?\d+([.,]\d+)?$/.test(value) ? "; write it without quotes" : ""));
      }
      const [over, under] = known.get(named[2]);
      return [named[1] === "-" ? -over : over, under];
    }
    return value && value.number ? value.number : this.refuse(key, `${shownValue(value)} is not ${span}`);
  }

  // How many ns one of each unit of a time has.
  lengths() {
    const { microtick } = this.source;
    return { ns: [1n, 1n], us: [1000n, 1n], microticks: microtick, ticks: product(microtick, [1n, TICKS]) };
  }

  // The ends of the range of a key, in its unit.
  span(key) {
    const { unit, least, most } = this.described.get(key), ns = this.lengths();
    return [least, most].map(([over, under, of]) => (of === unit ? [over, under] : product([over, under], ns[of], inverse(ns[unit]))));
  }

  number(key, more = "") {
    const [least, most] = this.span(key), { unit } = this.described.get(key);
    const span = `a number from ${shownNumber(least)} to ${shownNumber(most)}${unit ? ` ${unit}` : ""}`;
    const told = this.take(key, span), value = Array.isArray(told) && typeof told[0] === "bigint" ? told : this.plain(key, told, span);
    if (below(value, fraction(least)) || below(fraction(most), value)) this.refuse(key, `${shownNumber(value)} is not ${span}${more}`);
    return value;
  }

  // A whole number, as a Number; ends that are given are those of this cluster.
  whole(key, ...ends) {
    const [least, most] = ends.length ? ends : this.span(key).map(([over]) => Number(over)), { unit, other } = this.described.get(key);
    const span = `a whole number from ${least} to ${most}${unit ? ` ${unit}` : ""}`;
    if (!this.has(key) && other !== null) return Number(other[0]);
    const value = this.plain(key, this.take(key, span), span);
    if (value[0] % value[1] !== 0n || below(value, fraction(least)) || below(fraction(most), value)) this.refuse(key, `${shownNumber(value)} is not ${span}`);
    return Number(value[0] / value[1]);
  }

  flag(key) {
    const value = this.take(key, "true or false");
    return typeof value === "boolean" ? value : this.refuse(key, `${shownValue(value)} is not true or false`);
  }

  channels(key) {
    const value = this.take(key, '"A", "B" or "AB"');
    return ["A", "B", "AB"].includes(value) ? value : this.refuse(key, `${shownValue(value)} is not "A", "B" or "AB"`);
  }

  hexadecimal(key, most) {
    const value = this.take(key, "hexadecimal digits");
    if (typeof value === "string" && value.length > most) this.refuse(key, `${value.length} digits are more than ${most}`);
    return typeof value === "string" && /^([0-9A-Fa-f]{2})*$/.test(value) ? value
      : this.refuse(key, `${shownValue(value)} is not text of hexadecimal digits, two a byte`);
  }

  // The ticks of a time that is given as PREFIXus, PREFIXns, PREFIXmicroticks or PREFIXticks.
  amount(prefix, other) {
    const given = AMOUNTS.filter((unit) => this.has(prefix + unit)), ns = this.lengths();
    if (!given.length && other !== undefined) return other;
    if (given.length !== 1) {
      this.refuse(given.length ? prefix + given[1] : null, `it wants one of ${AMOUNTS.map((unit) => `\`${prefix}${unit}\``).join(", ")}, and not ${given.length}`);
    }
    return nearest(...product(this.number(prefix + given[0]), ns[given[0]], inverse(ns.ticks)));
  }

  // Node numbers: one, a list, "all", or a text such as "1-4,6"; in ascending order.
  nodes(key) {
    const wanted = 'a node number, a list of them, "all", or a text such as "1-4,6"', value = this.take(key, wanted);
    const known = this.source.nodes, found = new Set();
    if (value === "all") return [...known.keys()];
    const parts = Array.isArray(value) ? value : typeof value === "string" ? value.split(",").map((part) => part.trim()) : [value];
    for (const part of parts) {
      const text = typeof part === "string" ? part : part && part.whole ? part.text : "";
      const span = /^(\d{1,3})(?:\s*-\s*(\d{1,3}))?$/.exec(text);
      if (!span) this.refuse(key, `${shownValue(part)} is not ${wanted}`);
      const first = Number(span[1]), last = Number(span[2] ?? first);
      if (first > last) this.refuse(key, `${shownValue(part)} runs backward`);
      this.source.spend(last - first + 1);
      for (let node = first; node <= last; node += 1) {
        if (!known.has(node)) this.refuse(key, `there is no node ${node}; nodes are ${[...known.keys()].join(", ")}`);
        found.add(node);
      }
    }
    return [...found].sort((one, another) => one - another);
  }

  one(key) {
    const found = this.nodes(key);
    return found.length === 1 ? found[0] : this.refuse(key, "one node is wanted");
  }

  // The first and the last cycle: one number, "all", "FROM-TO" or "FROM-". They may lie behind the end of the run.
  cycles() {
    const wanted = `a cycle from 0 to ${LAST_CYCLE}, "all", "FROM-TO" or "FROM-"`, value = this.take("cycles", wanted), end = this.source.cycles - 1;
    if (value === "all") return [0, end];
    const text = typeof value === "string" ? value : value && value.whole ? value.text : "";
    const span = /^(\d{1,6})(\s*-\s*(\d{1,6})?)?$/.exec(text);
    if (!span) this.refuse("cycles", `${shownValue(value)} is not ${wanted}`);
    const first = Number(span[1]), last = !span[2] ? first : Number(span[3] ?? Math.max(first, end));
    if (last < first) this.refuse("cycles", `${shownValue(value)} runs backward`);
    return last > LAST_CYCLE ? this.refuse("cycles", `${shownValue(value)} is not ${wanted}`) : [first, last];
  }
}

// ---- the cluster of a text

class Source {
  constructor(text) {
    Object.assign(this, { tables: tablesOf(text), values: new Map(), nodes: new Map(), microtick: [1n, 1n], cycles: 2, work: 0, rows: 0 });
    for (const name of TABLES.keys()) {
      for (const table of SINGLE.includes(name) ? [this.single(name)] : this.many(name)) {
        for (const key of name === "values" ? [] : table.keys.keys()) {
          if (!TABLES.get(name).keys.has(key)) {
            const known = [...TABLES.get(name).keys.keys()], like = near(key, known), home = SINGLE.find((one) => TABLES.get(one).keys.has(key));
            table.refuse(key, `there is no such key${home ? `: it belongs into [${home}]` : like ? `; did you mean \`${like}\`?` : `; it may have ${known.sort().join(", ")}`}`);
          }
        }
      }
    }
    const values = this.single("values");
    for (const [key, { value }] of values.keys) {
      if (value && value.drawn) values.refuse(key, "numbers that are drawn are for flexlab alone");
      this.values.set(key, value && value.number ? value.number : values.refuse(key, `${shownValue(value)} is not a number`));
    }
  }

  single(name) {
    return new Table(this, name, null, this.tables.get(name)?.[0]);
  }

  many(name) {
    return (this.tables.get(name) || []).map((entry, index) => new Table(this, name, index, entry));
  }

  // Counts work, so that no file makes the page reckon without end.
  spend(count) {
    this.work += count;
    if (this.work > MOST_WORK) throw new NoToml(`the file asks for more than ${MOST_WORK} links and cycles, which is too much for this page: flexlab takes it`);
  }

  // Counts records, of which no file may have more.
  room(table, count) {
    this.rows += count;
    if (this.rows > MOST_RECORDS) {
      table.refuse(null, `this makes ${this.rows} records and more, and a file of flexray may have ${MOST_BYTES} bytes, so ${MOST_RECORDS} at most`);
    }
    this.spend(count);
  }

  correct() {
    return [...this.nodes.values()].filter((node) => !node.arbitrary).map((node) => node.id);
  }

  // [sender, receiver, channel] of different nodes with a common channel; none at all is refused.
  links(table, senders, receivers, channels, key) {
    const found = [];
    this.spend(senders.length * receivers.length);
    for (const sender of senders) {
      for (const receiver of receivers) {
        if (sender === receiver) continue;
        for (const channel of common(this.nodes.get(sender), this.nodes.get(receiver))) if (channels.includes(channel)) found.push([sender, receiver, channel]);
      }
    }
    return found.length ? found : table.refuse(key, `no two of these nodes have a common channel of ${channels}`);
  }

  // The correct nodes at an end of links, where nothing is said of arbitrary ones.
  correctOnly(table, key, why) {
    if (!table.has(key) || table.take(key) === "all") return this.correct();
    const found = table.nodes(key), wrong = found.find((node) => this.nodes.get(node).arbitrary);
    return wrong === undefined ? found : table.refuse(key, `node ${wrong} is arbitrary, and ${why}`);
  }
}

function limitsOf(source) {
  const table = source.single("limits"), found = new Map();
  const one_of = (key, other) => {
    if (table.has(key) === table.has(other)) table.refuse(null, `it wants \`${key}\` or \`${other}\` (ticks), one of both`);
    return table.has(key);
  };
  if (one_of("oscillator_ppm", "xRateBound")) {
    const [over, under] = table.number("oscillator_ppm", "; a slower oscillator has a microtick of more than 1500 ticks beside the nominal one");
    const off = [1n, -1n].map((sign) => nearest(TICKS * TICKS * under, TICKS * under + sign * over) - TICKS).map((one) => (one < 0n ? -one : one));
    found.set("xRateBound", off[0] > off[1] ? off[0] : off[1]);
  } else found.set("xRateBound", table.whole("xRateBound"));
  if (one_of("change_ppm_per_cycle", "xChangeBound")) {
    const [over, under] = table.number("change_ppm_per_cycle");
    found.set("xChangeBound", (over + under - 1n) / under);
  } else found.set("xChangeBound", table.whole("xChangeBound"));
  const beside = table.has("xDelayError") && AMOUNTS.map((unit) => `delay_error_${unit}`).find((key) => table.has(key));
  if (beside) table.refuse(beside, "`xDelayError` (ticks) stands beside it: it wants one of both");
  return found.set("xDelayError", table.has("xDelayError") ? table.whole("xDelayError") : table.amount("delay_error_"));
}

function nodesOf(source, most_rate) {
  const tables = source.many("node"), nodes = new Map();
  if (!tables.length) throw new NoToml("the file has no [[node]]");
  for (const table of tables) {
    const id = table.whole("id"), key = table.has("key_slot") ? table.whole("key_slot") : "";
    if (nodes.has(id)) table.refuse("id", `node ${id} is there already`);
    const name = table.take("name", "a text", ""), fault = table.has("name") ? nameFault(name, [...nodes.values()].map((node) => node.name)) : null;
    if (fault) table.refuse("name", `node ${id}: ${fault}`);
    const node = { id, name, key, channels: table.channels("channels"), cold: table.flag("coldstart"), arbitrary: table.flag("arbitrary"),
      ppm: table.number("ppm"), start: table.amount("start_", 0n),
      rate: table.whole("rate", -most_rate, most_rate), table };
    if (node.cold && key === "") table.refuse("coldstart", "a coldstart node needs a `key_slot`");
    if (node.arbitrary && key === "") table.refuse("arbitrary", "an arbitrary node needs a `key_slot`");
    nodes.set(id, node);
  }
  for (const id of [...nodes.keys()].sort((one, other) => one - other)) source.nodes.set(id, nodes.get(id));
}

function slotsOf(source) {
  const found = new Map();
  for (const table of source.many("slot")) {
    const slot = table.whole("slot"), node = table.nodes("node");
    if (node.length !== 1) table.refuse("node", "a further slot has one node");
    const base = table.whole("base"), repetition = table.whole("repetition");
    if (![1, 2, 4, 8, 16, 32, 64].includes(repetition)) table.refuse("repetition", `${repetition} is not 1, 2, 4, 8, 16, 32 or 64 cycles`);
    if (base >= repetition) table.refuse("base", `${base} is not below the repetition, ${repetition}`);
    if (found.has(slot)) table.refuse("slot", `slot ${slot} is there already`);
    found.set(slot, `slot,${slot},${node[0]},${base},${repetition}`);
  }
  return [...found.values()];
}

// What is done to frames, one record for each cycle and link: a Map by cycle.
function framesOf(source) {
  const words = Number(source.single("cluster").whole("gPayloadLengthStatic")), said = [], known = new Set(), found = new Map();
  const put = (table, links, [first, last], kind, value, bytes) => {
    const end = Math.min(last, source.cycles - 1);
    if (end >= first) source.room(table, (end - first + 1) * links.length);
    for (let cycle = first; cycle <= end; cycle += 1) {
      if (!found.has(cycle)) found.set(cycle, []);
      const list = found.get(cycle);
      for (const [sender, receiver, channel] of links) {
        const key = ((cycle * 64 + sender) * 65 + receiver) * 2 + (channel === "A" ? 0 : 1);
        if (known.has(key)) {
          table.refuse(null, `cycle ${cycle}, node ${sender} to node ${receiver}, channel ${channel}: another table says something of these frames already`);
        }
        known.add(key);
        list.push(`${kind},${cycle},${sender},${receiver},${channel},${value},${bytes}`);
      }
    }
  };
  for (const name of ["two_faced", "say"]) {
    for (const table of source.many(name)) {
      const node = table.one("node");
      if (source.nodes.get(node).key === "") table.refuse("node", `node ${node} has no key slot, and an arbitrary node needs one`);
      source.nodes.get(node).arbitrary = true;
      said.push([name, table, node]);
    }
  }
  for (const [name, table, node] of said) {
    const span = table.cycles(), channels = table.channels("channels");
    if (name === "say") {
      const receivers = source.correctOnly(table, "to", "hears nothing"), ticks = table.amount("", 0n), bytes = table.hexadecimal("frame", FRAME_DIGITS);
      put(table, source.links(table, [node], receivers, channels, "channels"), span, "say", ticks, bytes);
      continue;
    }
    const ticks = table.amount(""), groups = new Map();
    for (const [key, shift] of [["early", -ticks], ["late", ticks], ["on_time", 0n]]) {
      for (const receiver of table.nodes(key)) {
        if (source.nodes.get(receiver).arbitrary) table.refuse(key, `node ${receiver} is arbitrary, and hears nothing`);
        if (groups.has(receiver)) table.refuse(key, `node ${receiver} is in two of \`early\`, \`late\` and \`on_time\``);
        groups.set(receiver, shift);
      }
    }
    if (!groups.size) table.refuse(null, "it wants receivers: `early`, `late` or `on_time`");
    for (const [receiver, shift] of groups) put(table, source.links(table, [node], [receiver], channels, "channels"), span, "say", shift, "");
  }
  for (const kind of [...FORMS.script[1].keys()].filter((one) => isOfFrames(one) && one !== "say")) {
    for (const table of source.many(kind)) {
      const senders = source.correctOnly(table, "from", "says only what [[say]] says"), receivers = source.correctOnly(table, "to", "hears nothing");
      const span = table.cycles(), channels = table.channels("channels"), bit = hasBit(kind) ? table.whole("bit", 0, 8 * (8 + 2 * words) - 1) : "";
      put(table, source.links(table, senders, receivers, channels, "channels"), span, kind, bit, "");
    }
  }
  return found;
}

function joinsOf(source) {
  const found = new Map(), tables = source.many("join");
  const correct = (table, key) => {
    const node = table.one(key);
    return source.nodes.get(node).arbitrary ? table.refuse(key, `node ${node} is arbitrary, and only correct nodes join`) : node;
  };
  for (const table of tables) {
    const double = table.whole("double_cycle"), node = correct(table, "node"), reference = correct(table, "reference");
    const { start, rate } = source.nodes.get(node);
    if (found.has(node)) table.refuse("node", `node ${node} joins already`);
    if (start || rate) table.refuse("node", `node ${node} has a start or a rate, and both come of what it hears as it joins`);
    if (node === reference) table.refuse("reference", `node ${node} cannot be its own reference`);
    if (source.nodes.get(reference).key === "") table.refuse("reference", `node ${reference} has no key slot, and a reference needs one`);
    if (!common(source.nodes.get(reference), source.nodes.get(node)).length) table.refuse("reference", `nodes ${node} and ${reference} have no channel in common`);
    found.set(node, `join,${double},${node},${reference},,,`);
  }
  for (const table of tables) {
    const reference = correct(table, "reference");
    if (found.has(reference)) table.refuse("reference", `node ${reference} joins itself, and a reference is there from cycle 0 on`);
  }
  return [...found.values()];
}

// The cycles at which the lengths of microticks change, one record each: of each cycle the latest table holds.
function lengthsOf(source) {
  const plans = new Map(), found = [], least = 500000n, most = 1500000n;
  const length = (table, key, ppm) => {
    const ticks = lengthAt(ppm);
    if (ticks < least || ticks > most) table.refuse(key, `a microtick would last ${ticks} ticks, which is not from 500000 to 1500000`);
  };
  for (const node of source.nodes.values()) {
    length(node.table, "ppm", node.ppm);
    plans.set(node.id, [{ first: 0, last: source.cycles - 1, begin: node.ppm, end: node.ppm, table: node.table }]);
  }
  for (const table of source.many("oscillator")) {
    const nodes = table.nodes("nodes"), [first, last] = table.cycles();
    const [one, other] = table.has("ppm") ? ["ppm", "ppm"] : ["ppm_from", "ppm_to"];
    if (table.has("ppm") && (table.has("ppm_from") || table.has("ppm_to"))) table.refuse("ppm", "it wants `ppm`, or `ppm_from` and `ppm_to`, and not both");
    const row = { first, last, begin: table.number(one), end: table.number(other), table };
    length(table, one, row.begin);
    length(table, other, row.end);
    source.spend(nodes.length);
    for (const node of nodes) plans.get(node).push(row);
  }
  for (const [id, plan] of plans) {
    if (source.nodes.get(id).arbitrary) continue;
    let before = null;
    for (const { from, until, row } of segments(plan, source.cycles)) {
      for (const [cycle, ticks] of rampChanges(row, from, until, before)) {
        source.room(row.table, 1);
        found.push(`length,${id},${cycle},${ticks},,`);
        before = ticks;
      }
    }
  }
  return found;
}

// Which row of a plan holds from which cycle until before which: the last one that has the cycle. Each cycle is given away once.
function segments(plan, cycles) {
  if (plan.length === 1) return [{ from: 0, until: cycles, row: plan[0] }];
  const owner = new Int32Array(cycles).fill(-1), next = Int32Array.from({ length: cycles + 1 }, (_, at) => at), found = [];
  const free = (at) => {
    let end = at;
    while (next[end] !== end) end = next[end];
    for (let step = at; next[step] !== end;) {
      const after = next[step];
      next[step] = end;
      step = after;
    }
    return end;
  };
  for (let at = plan.length - 1; at >= 0; at -= 1) {
    for (let cycle = free(Math.min(plan[at].first, cycles)); cycle < cycles && cycle <= plan[at].last; cycle = free(cycle)) {
      owner[cycle] = at;
      next[cycle] = cycle + 1;
    }
  }
  for (let cycle = 0; cycle < cycles; cycle += 1) {
    if (cycle && owner[cycle] === owner[cycle - 1]) found[found.length - 1].until = cycle + 1;
    else found.push({ from: cycle, until: cycle + 1, row: plan[owner[cycle]] });
  }
  return found;
}

function delaysOf(source) {
  const found = new Map();
  const ends = (table, key) => (!table.has(key) || table.take(key) === "all" ? source.correct() : table.nodes(key).filter((node) => !source.nodes.get(node).arbitrary));
  for (const table of source.many("delay")) {
    const senders = ends(table, "from"), receivers = ends(table, "to"), channels = table.channels("channels");
    const first = table.whole("from_cycle"), ticks = table.amount("");
    if (!senders.length || !receivers.length) continue;
    for (const [sender, receiver, channel] of source.links(table, senders, receivers, channels, "channels")) {
      const key = `${sender},${receiver},${channel},${first}`;
      if (!found.has(key)) source.room(table, 1);
      found.set(key, ticks);
    }
  }
  return [...found].map(([key, ticks]) => `delay,${key},${ticks}`);
}

// The three files that flexlab makes of a TOML text, the length of its microtick, and the names of its nodes, a Map by their
// number as a text: {files, microtick, names}; else NoToml is thrown.
function filesOfToml(text) {
  const source = new Source(text), bench = source.single("bench"), cluster = source.single("cluster");
  bench.number("bit_rate_mbit");
  bench.whole("start_bits");
  source.microtick = bench.number("microtick_ns");
  const microtick = digits(...source.microtick, 24);
  if (below(source.microtick, decimal(microtick)) || below(decimal(microtick), source.microtick)) bench.refuse("microtick_ns", "it has more than 24 digits behind the point");
  const params = new Map();
  const of_channels = ["pDelayCompensationA", "pDelayCompensationB"], given = of_channels.find((name) => cluster.has(name));
  if (given && cluster.has("pDelayCompensation")) {
    cluster.refuse(given, "`pDelayCompensation` stands beside it, which is for both channels: give that one, or `pDelayCompensationA` and `pDelayCompensationB`");
  }
  for (const name of TABLES.get("cluster").keys.keys()) {
    if (given ? name !== "pDelayCompensation" : !of_channels.includes(name)) params.set(name, cluster.whole(name));
  }
  for (const [name, value] of limitsOf(source)) params.set(name, value);
  const doubles = source.single("run").whole("double_cycles");
  source.single("run").whole("seed");
  source.cycles = 2 * doubles;
  nodesOf(source, params.get("pRateCorrectionOut"));
  const slots = slotsOf(source), frames = framesOf(source), joins = joinsOf(source), lengths = lengthsOf(source), delays = delaysOf(source);
  const nodes = [...source.nodes.values()];
  const starts = nodes.filter((node) => !node.arbitrary && (node.start || node.rate)).map((node) => `start,${node.id},${node.start},${node.rate},,`);
  const joined = (lines) => lines.map((line) => `${line}\n`).join("");
  return { microtick, names: new Map(nodes.filter((node) => node.name).map((node) => [String(node.id), node.name])), files: {
    params: joined([...(given ? ["version,2,,,"] : []), ...NAMES.filter((name) => params.has(name)).map((name) => `param,${name},${params.get(name)},,`),
      ...nodes.map((node) => `node,${node.id},${node.key},${node.channels},${node.cold ? 1 : 0}`), ...slots]),
    drift: joined([`doubles,${doubles},,,,`, ...starts, ...lengths, ...delays]),
    script: joined([...nodes.filter((node) => node.arbitrary).map((node) => `arbitrary,${node.id},,,,,`), ...joins,
      ...[...frames.keys()].sort((one, other) => one - other).flatMap((cycle) => frames.get(cycle))]),
  } };
}

// ---- the form as a TOML file of flexlab; NoToml is thrown where a field is not understood, or it would be too long

const MOST_TABLES = 20000;

function tomlOf(cluster) {
  const { wrong } = writeCluster(cluster);
  if (wrong.length) throw new NoToml(`${wrong.length === 1 ? "1 field is" : `${wrong.length} fields are`} not understood`);
  const lines = ["# Of the page of flexray. flexlab run FILE.toml prints its page; docs/FLEXLAB.md has the file."];
  let count = 0;
  // flexlab has no steps in lists of nodes, as the form has them.
  const quoted = (text) => (/^\d+$/.test(text.trim()) ? text.trim() : `"${text.includes("/") ? listOf(text, 1, 64).join(",") : text.trim()}"`);
  const table = (name, pairs) => {
    count += 1;
    if (count <= MOST_TABLES) lines.push("", name, ...pairs.filter(([, told]) => told !== null).map(([key, told]) => `${key} = ${told}`));
  };
  const clean = (text) => { const told = decimal(text); return told ? digits(told[0], told[1], 24) : text; };
  table("[bench]", [["microtick_ns", clean(cluster.microtick)]]);
  const parameters = NAMES.filter((name) => name in cluster.parameters).map((name) => [name, cluster.parameters[name]]);
  table("[cluster]", parameters.filter(([name]) => !name.startsWith("x")));
  table("[limits]", parameters.filter(([name]) => name.startsWith("x")));
  table("[run]", [["double_cycles", cluster.doubles.trim()]]);
  for (const node of cluster.nodes) {
    table("[[node]]", [["id", node.id], ["name", node.name ? JSON.stringify(node.name) : null], ["key_slot", node.key.trim() || null], ["channels", `"${node.channels}"`], ["coldstart", node.cold || null],
      ["arbitrary", node.arbitrary || null], ["ppm", node.arbitrary ? null : clean(node.ppm)],
      ["start_us", node.arbitrary || node.double.trim() ? null : clean(node.start)], ["rate", node.arbitrary || node.double.trim() || node.rate.trim() === "0" ? null : node.rate.trim()]]);
  }
  for (const slot of cluster.slots) table("[[slot]]", ["slot", "node", "base", "repetition"].map((key) => [key, slot[key].trim()]));
  for (const node of cluster.nodes.filter((one) => one.double.trim())) table("[[join]]", [["node", node.id], ["reference", node.reference.trim()], ["double_cycle", node.double.trim()]]);
  for (const row of cluster.lengths) {
    if (row.last === "") table("[[oscillator]]", [["nodes", row.node], ["cycles", `"${row.first}-"`], ["ppm", clean(row.from)]]);
    else {
      table("[[oscillator]]", [["nodes", row.node], ["cycles", `"${row.first}-${row.last}"`], ["ppm_from", clean(row.from)], ["ppm_to", clean(row.to)]]);
      table("[[oscillator]]", [["nodes", row.node], ["cycles", `"${Number(row.last) + 1}-"`], ["ppm", clean(row.to)]]);
    }
  }
  for (const row of cluster.delays) {
    for (const cycle of listOf(row.cycles, 0, LAST_CYCLE)) {
      table("[[delay]]", [["from", quoted(row.from)], ["to", quoted(row.to)], ["channels", `"${row.channels}"`], ["from_cycle", cycle || null], ["ns", clean(row.ns)]]);
    }
  }
  for (const row of cluster.faults) {
    const spans = row.cycles.trim() === "all" ? ["all"] : listOf(row.cycles, 0, LAST_CYCLE).reduce((known, cycle) => {
      const last = known[known.length - 1];
      if (last && last[1] === cycle - 1) last[1] = cycle;
      else known.push([cycle, cycle]);
      return known;
    }, []).map(([first, last]) => (first === last ? String(first) : `${first}-${last}`));
    for (const told of spans) {
      const of = [["to", quoted(row.to)], ["channels", `"${row.channels}"`], ["cycles", quoted(told)]];
      if (row.kind === "say") {
        for (const sender of row.from.trim() === "all" ? [] : listOf(row.from, 1, 64)) {
          table("[[say]]", [["node", sender], ...of, ["us", clean(row.value)], ["frame", row.bytes.trim() ? `"${row.bytes.trim()}"` : null]]);
        }
      } else table(`[[${row.kind}]]`, [["from", quoted(row.from)], ...of, ["bit", hasBit(row.kind) ? row.value.trim() : null]]);
    }
  }
  if (count > MOST_TABLES) throw new NoToml(`it would have ${count} tables, and ${MOST_TABLES} are the most that this page writes`);
  return `${lines.join("\n")}\n`;
}
