"use strict";
const STATUSES = { 0: "Done", 1: "No", 2: "Usage", 3: "ReadFault", 4: "WriteFault", 5: "Refused", 6: "NoMemory", 7: "TooLong" };
const MOST_FLUTTER = 20000000;
const $ = (id) => document.getElementById(id);

// ---- small functions

function element(name, attributes = {}, ...inside) {
  const found = document.createElement(name);
  for (const [key, value] of Object.entries(attributes)) {
    if (key.startsWith("on")) found.addEventListener(key.slice(2), value);
    else if (value === true) found.setAttribute(key, "");
    else if (value !== false && value !== null && value !== undefined) found.setAttribute(key, value);
  }
  found.append(...inside.filter((one) => one !== null && one !== undefined && one !== false));
  return found;
}

async function unpacked(id) {
  const bytes = Uint8Array.from(atob($(id).textContent.trim()), (letter) => letter.charCodeAt(0));
  return new Response(new Blob([bytes]).stream().pipeThrough(new DecompressionStream("gzip"))).text();
}

// ---- what works beside the page, so that it answers meanwhile and Stop can end it

// Asks a worker of this script; `first` is what it is told at its begin.
function asker(script, first) {
  return {
    worker: null, number: 0, waiting: new Map(),
    start() {
      const place = URL.createObjectURL(new Blob([script()], { type: "text/javascript" }));
      this.worker = new Worker(place);
      this.worker.onmessage = ({ data }) => {
        this.waiting.get(data.number)?.(data);
        this.waiting.delete(data.number);
      };
      // What ends a worker, as want of memory, is an answer to all that wait.
      this.worker.onerror = (event) => {
        const waiting = [...this.waiting.values()], fault = String(event.message || "the browser ended it");
        this.stop();
        for (const done of waiting) done({ status: -1, text: "", line: fault, fault });
      };
      if (first) this.worker.postMessage(first());
      setTimeout(() => URL.revokeObjectURL(place), 10000);
    },
    // What works is given up, and its answers never come.
    stop() {
      this.worker.terminate();
      this.waiting.clear();
      this.start();
    },
    ask(given) {
      const number = this.number += 1;
      return new Promise((done) => {
        this.waiting.set(number, done);
        this.worker.postMessage({ ...given, number });
      });
    },
  };
}

const program = asker(() => $("worker").textContent, () => ({ packed: $("module").textContent.trim() }));
// The answer {status, text, line, ms} of the words of `flexray`, or of `flexray-series`; files are bytes or texts.
program.request = (words, files, series = false) => program.ask({ words, name: series ? "flexray_series_request" : "flexray_request",
  files: files.map((file) => (typeof file === "string" ? new TextEncoder().encode(file) : file)) });
// Reads and writes files.
const reader = asker(() => `${$("shared").textContent}\n${$("reader").textContent}`);

// ---- what is shown

const page = { files: { params: "", drift: "", script: "" }, cluster: null, microtick: "25", editor: "Cluster", answers: "Summary",
  printed: "report", found: null, timer: 0, turn: 0, name: "cluster",
  // What was edited last and is not taken in yet: "form", "files" or "toml"; the text of the latter; a microtick that was typed.
  edited: null, toml: "", retick: null, wrong: [],
  // Whether the verdict is not that of what is shown, and whether the editor waits for what is taken in.
  stale: false, waits: false,
  // Where the cluster comes from: {kind, name, kept, left}, and whether it was edited since.
  source: null, touched: false };

const us = (ticks, count = 3) => {
  const size = decimal(page.microtick) || [25n, 1n];
  const text = digits(BigInt(ticks) * size[0], TICKS * size[1] * 1000n, count);
  return (text.includes(".") ? text : text + ".") .padEnd(text.split(".")[0].length + 1 + count, "0").replace(/\.$/, "");
};
const usNumber = (ticks) => (Number(ticks) * Number(page.microtick) / 1e9);
const show = { ppm: (ticks) => ppmShort(BigInt(ticks)), ns: (ticks) => timeText(BigInt(ticks), "ns", page.microtick) };
const ppmShort = (length) => {
  const text = digits(TICKS * TICKS - TICKS * length, length, 2);
  return text.startsWith("-") || text === "0" ? text : "+" + text;
};
const msOfCycle = (cycle, known) => ((cycle * known.pMicroPerCycle * Number(page.microtick)) / 1e6).toFixed(3).replace(/\.?0+$/, "");
const percent = (part, whole) => (whole > 0 ? `${((100 * Number(part)) / Number(whole)).toFixed(1)} %` : "");

// Of the checks that are asked where nodes join, which fail: {holds, text}. Some are of one side alone, without arbitrary nodes
// or beside them.
function ofJoins({ checks }, side) {
  const failing = checks.filter((check) => check.number > 5 && !check.holds && (!check.side || check.side === side));
  const names = failing.map((check) => `C${check.number}`).join(", ");
  return { holds: !failing.length, text: failing.length ? `${names} ${failing.length > 1 ? "fail" : "fails"}` : "C6 to C9 hold" };
}

// ---- computing

function state(name, text) {
  document.documentElement.dataset.state = name;
  $("state").textContent = text;
  $("stop").hidden = name !== "busy";
  for (const id of ["verdict", "results"]) $(id).classList.toggle("stale", name === "busy" || page.stale);
}

// Says what stands against the verdict, or nothing. It stays in sight wherever the page is scrolled to, and so does the field
// that is typed in.
function notice(...cards) {
  const focused = document.activeElement;
  $("notice").replaceChildren(...cards);
  document.documentElement.style.scrollPaddingTop = cards.length ? `${$("notice").offsetHeight + 8}px` : "";
  if (cards.length && focused && focused !== document.body && !$("notice").contains(focused)) focused.scrollIntoView({ block: "nearest" });
}

// Tells that the verdict is not that of what is shown, and why.
function stale(short, title, lines, ...buttons) {
  page.stale = true;
  state("stale", short);
  notice(element("div", { class: "card bad refused", id: "stale", role: "alert" }, element("h2", {}, page.found && page.found.series && !page.found.fault ? "What stands below is of the cluster before" : "Nothing is computed yet"),
    element("div", { class: "big" }, title), ...lines.map((line) => element("p", {}, line)),
    buttons.length ? element("p", {}, ...buttons.map(([name, onclick]) => element("button", { type: "button", onclick }, name))) : null));
}

function later(pause = 250) {
  clearTimeout(page.timer);
  // What is under way is of the cluster before, and its answers are not waited for.
  page.turn += 1;
  state("busy", "computing");
  page.timer = setTimeout(compute, pause);
}

// Takes in what was edited last: the form into the files, or the files or the TOML text into the form. Answers whether it could.
async function understood(turn) {
  const { edited } = page, names = namesOf(page.cluster);
  let wrong = [];
  if (edited) {
    const told = await reader.ask(edited === "form" ? { job: "write", cluster: page.cluster }
      : edited === "toml" ? { job: "toml", text: page.toml } : { job: "read", files: page.files, microtick: page.microtick, names });
    if (turn !== page.turn) return false;
    if (told.fault || told.no) {
      if ($("toml-fault")) $("toml-fault").textContent = told.no || told.fault;
      $("file-toml")?.setAttribute("aria-invalid", "true");
      stale("not understood", edited === "toml" ? "The TOML file is not understood" : "This page cannot read it", [told.no || told.fault]);
      return false;
    }
    wrong = told.wrong || [];
    if (!wrong.length) {
      if (told.files) page.files = told.files;
      if (told.cluster !== undefined) page.cluster = told.cluster;
      if (told.microtick) page.microtick = told.microtick;
      page.edited = null;
      if (edited === "toml") page.retick = null;
      if ($("toml-fault")) $("toml-fault").textContent = "";
      $("file-toml")?.setAttribute("aria-invalid", "false");
    }
  }
  if (page.retick !== null) {
    const size = decimal(page.retick);
    if (!size || size[0] < size[1] || size[0] > 1000n * size[1]) wrong = [...wrong, ["run", null, "microtick", "a number of nanoseconds from 1 to 1000 is wanted"]];
    else if (!wrong.length) {
      page.microtick = digits(...size, 24);
      page.retick = null;
      const told = await reader.ask({ job: "read", files: page.files, microtick: page.microtick, names: namesOf(page.cluster) });
      if (turn !== page.turn) return false;
      page.cluster = told.cluster ?? told.fault;
    }
  }
  page.wrong = wrong;
  markWrong();
  if (!wrong.length) return true;
  const short = `${wrong.length} ${wrong.length === 1 ? "field is" : "fields are"} not understood`;
  stale(short, short, [...wrong.slice(0, 4).map((one) => `${wordsOf(one)}: ${one[3]}.`), ...(wrong.length > 4 ? [`And ${wrong.length - 4} more.`] : [])],
    ["Show the field", () => showField(wrong[0])]);
  return false;
}

const PARTS = new Map([["run", ["Cluster", ""]], ["nodes", ["Nodes", "node"]], ["slots", ["Nodes", "slot"]], ["lengths", ["Clocks and delays", "change"]],
  ["delays", ["Clocks and delays", "delay"]], ["faults", ["Faults", "fault"]]]);
const rowOf = ([part, at]) => (at === null ? page.cluster : page.cluster[part][at]);
// Where a field is that is not understood, and what stands there.
function wordsOf([part, at, field]) {
  const [tab, name] = PARTS.get(part), text = field === "microtick" ? page.retick ?? page.microtick : rowOf([part, at])[field];
  return `${tab}, ${name ? `${name} ${at + 1}, ` : ""}${field === "last" && name === "change" ? "to cycle" : field} “${cut(String(text))}”`;
}

function showField([part, at, field]) {
  selectTab("editor", PARTS.get(part)[0]);
  const found = field === "microtick" ? $("microtick") : [...document.querySelectorAll("#editor-panel [data-field]")].find((one) => one.row === rowOf([part, at]) && one.dataset.field === field);
  found?.focus();
  found?.scrollIntoView({ block: "nearest" });
}

async function compute() {
  clearTimeout(page.timer);
  page.turn += 1;
  const turn = page.turn;
  for (const one of [program, reader]) if (one.waiting.size) one.stop();
  state("busy", "computing");
  const begun = performance.now(), is_understood = await understood(turn);
  if (turn !== page.turn) return;
  // A reader that was stopped owes the TOML file.
  const owed = page.editor === "TOML" && page.edited !== "toml" && $("file-toml") && !$("file-toml").value;
  if (page.waits || owed) showEditor();
  showSource();
  if (!is_understood) return;
  const files = { ...page.files }, given = [files.params, files.drift, files.script];
  const report = await program.request(["run", "first", "second", "third"], given);
  if (turn !== page.turn) return;
  const found = { files, report, texts: { report: report.text } };
  if (report.status === 0) {
    const series = await program.request(["first", "second", "third", "sharp"], given, true);
    const joins = /(?:^\ufeff?|[\r\n])join,/.test(files.script);
    const bound = await program.request(joins ? ["bound", "first", "join"] : ["bound", "first"], given.slice(0, 1));
    if (turn !== page.turn) return;
    const told = readSeries(series.text), flutter = Math.min(MOST_FLUTTER, Number(told.last.flutter?.[0] || 0));
    const sharp = await program.request(["bound", "first", "sharp", String(flutter), ...(joins ? ["join"] : [])], given.slice(0, 1));
    if (turn !== page.turn) return;
    found.fault = [series, bound, sharp].find((answer) => answer.status !== 0);
    Object.assign(found.texts, { series: series.text, bound: bound.text, sharp: sharp.text });
    Object.assign(found, { run: readReport(report.text), series: told, bound: readBounds(bound.text), sharp: readBounds(sharp.text),
      flutter, joins, known: parametersOf(files.params) });
  }
  const failed = report.status !== 0 ? report : found.fault;
  if (failed) {
    // A file may have a million records, so the reader looks for the one that is refused.
    const told = await reader.ask({ job: "explain", line: failed.line, files });
    if (turn !== page.turn) return;
    found.told = told.title ? told : { title: cut(failed.line, 200), lines: [told.fault || ""] };
  }
  page.found = found;
  page.stale = false;
  if (failed) state("failed", STATUSES[failed.status] || "stopped");
  else state("ready", `${Math.round(performance.now() - begun)} ms`);
  showVerdict();
  showResults();
}

// ---- the verdict

function card(kind, title, big, ...lines) {
  return element("div", { class: `card ${kind}` }, element("h2", {}, title), element("div", { class: "big" }, big),
    ...lines.filter(Boolean).map((line) => element("p", {}, line)));
}

function showVerdict() {
  markWrong();
  const found = page.found, failed = found.report.status !== 0 ? found.report : found.fault, cards = [];
  if (failed) {
    const { told } = found, fields = told.record ? told.record.fields : [];
    if (fields[0] === "param" && $(`parameter-${fields[1]}`)) $(`parameter-${fields[1]}`).setAttribute("aria-invalid", "true");
    notice(element("div", { class: "card bad refused", id: "refusal", role: "alert" }, element("h2", {}, `flexray: ${cut(failed.line, 300)}`),
      element("div", { class: "big" }, told.title), ...told.lines.map((line) => element("p", {}, line)),
      told.record && element("p", {}, element("code", {}, cut(told.record.text, 300))),
      told.role && element("p", {}, element("button", { type: "button", onclick: () => showRecord(told) },
        told.record ? "Show the record" : `Show ${told.role}.csv`))));
    $("verdict").replaceChildren();
    return;
  }
  notice();
  const { run, series, bound, sharp, joins, known } = found, { last } = series;
  const kind = last.sharp[1], first = last["sharp synced"][0];
  const covered = last["sharp covered"][0] === "yes", cycle = Number(first) * 2;
  cards.push(card(covered ? "good" : "bad", "Covered", covered ? "yes" : "no",
    covered ? "in sync no macroticks lie further apart than the precision" : gapWords(last["sharp covered"][3], show),
    joins && `nodes that join: ${ofJoins(sharp, kind).text}`));
  cards.push(card(first === "-" ? "bad" : "good", "In sync", first === "-" ? "never" : `from ${msOfCycle(cycle, known)} ms`,
    first === "-" ? null : `double cycle ${first}, cycle ${cycle}`, lastingWords(last)));
  const skew = last["sharp greatest"][0];
  cards.push(card("", `Precision, ${kind === "beside" ? "beside arbitrary nodes" : "no arbitrary node"}`, `${us(last.sharp[0])} us`,
    skew === "-" ? null : `the skew was ${us(skew)} us at most since, ${percent(skew, last.sharp[0])} of it`));
  cards.push(card(run.covered ? "good" : "bad", "Classically covered", run.covered ? "yes" : "no",
    run.covered ? null : gapWords(run.gap, show), run.inSync === null ? "never in sync" : `in sync from double cycle ${run.inSync} (${msOfCycle(2 * run.inSync, known)} ms)`,
    joins && `nodes that join: ${ofJoins(bound).text}`));
  const since = last.greatest[0];
  cards.push(card("", "Classical bound", `${us(run.precision)} us`,
    since === "-" ? null : `the skew in sync was ${us(since)} us at most, ${percent(since, run.precision)} of it`));
  cards.push(card("", "Greatest skew of all", `${us(run.greatest.ticks)} us`, `cycle ${run.greatest.cycle}, macrotick ${run.greatest.macrotick}`,
    run.inSync === null || run.greatest.cycle < 2 * run.inSync ? "before sync, so not to be held against a precision" : null));
  $("verdict").replaceChildren(...cards);
}

function showRecord({ role, record }) {
  selectTab("editor", "Files");
  const area = $(`file-${role}`);
  if (!area) return;
  const { value } = area;
  const skipped = value.startsWith("\ufeff") ? 1 : 0;
  area.focus();
  // A text area has one line feed for each end of a line.
  const at = record ? page.files[role].slice(0, record.at + skipped).replace(/\r\n/g, "\n").length : 0;
  area.setSelectionRange(at, record ? at + record.text.length : 0);
  area.scrollTop = Math.max(0, value.slice(0, at).split("\n").length - 4) * 18;
}

// ---- tabs

function tabs(list, names, which) {
  list.replaceChildren(...names.map((name) => element("button", { type: "button", role: "tab", id: `tab-${which}-${name}`,
    "aria-controls": list.dataset.panels, onclick: () => selectTab(which, name) }, name)));
  list.onkeydown = (event) => {
    const step = { ArrowRight: 1, ArrowLeft: -1 }[event.key];
    if (!step) return;
    const at = names.indexOf(page[which]), next = names[(at + step + names.length) % names.length];
    selectTab(which, next);
    $(`tab-${which}-${next}`).focus();
    event.preventDefault();
  };
}

function selectTab(which, name) {
  page[which] = name;
  for (const button of document.querySelectorAll(`[id^="tab-${which}-"]`)) {
    const is_it = button.id === `tab-${which}-${name}`;
    button.setAttribute("aria-selected", is_it);
    button.tabIndex = is_it ? 0 : -1;
    if (is_it) $(button.getAttribute("aria-controls")).setAttribute("aria-labelledby", button.id);
  }
  if (which === "editor") showEditor();
  else showResults();
}

// ---- results

function plainTable(heads, rows) {
  return element("div", { class: "scroll" }, element("table", {}, element("thead", {}, element("tr", {},
    ...heads.map((head) => element("th", { scope: "col", class: head.startsWith(" ") ? "number" : null }, head.trim())))),
  element("tbody", {}, ...rows.map((row) => element("tr", {}, ...row.map((cell, at) =>
    element("td", { class: heads[at].startsWith(" ") ? "number" : null }, cell)))))));
}

// The three precisions in words, that of this run's kind in bold; and where nodes join, whether their checks hold.
function precisionsLine() {
  const { run, series, bound, sharp, joins } = page.found, kind = series.last.sharp[1];
  const one = (name, text, ofThisRun) => element(ofThisRun ? "strong" : "span", { class: `key ${name}` }, ofThisRun ? `${text}, this run's` : text);
  const checks = (told) => element("span", { class: told.holds ? "good-text" : "bad-text" }, told.text);
  return element("p", { id: "precisions" }, element("span", {}, "Precisions:"),
    one("alone", `no arbitrary node ${us(sharp["alone precision"])} us`, kind === "alone"),
    one("beside", `beside arbitrary nodes ${us(sharp["beside precision"])} us`, kind === "beside"),
    one("older", `classical ${us(run.precision)} us`, false),
    joins && element("span", {}, "Nodes that join: ", checks(ofJoins(sharp, kind)), ", by the classical bound ", checks(ofJoins(bound))));
}

function showChart() {
  const { run, series, sharp } = page.found, { last, skew } = series;
  const points = skew.map(usNumber), first = last["sharp synced"][0];
  const since = run.inSync === null ? null : 2 * run.inSync, sharply = first === "-" ? null : 2 * Number(first);
  const levels = [{ value: usNumber(run.precision), name: `classical bound ${us(run.precision)}`, class: "older" },
    { value: usNumber(sharp["beside precision"]), name: `beside arbitrary nodes ${us(sharp["beside precision"])}`, class: "beside" },
    { value: usNumber(sharp["alone precision"]), name: `no arbitrary node ${us(sharp["alone precision"])}`, class: "alone" }];
  const most = Math.max(...levels.map(({ value }) => value), ...(points.length < 50000 ? points : [usNumber(run.greatest.ticks)])) * 1.14 || 1;
  const width = Math.max(320, Math.min(1100, $("chart").clientWidth || 760));
  const charts = [chart(points, levels, { most, since, sharp: sharply, width, label: "Greatest skew of each cycle, beside the precisions" }), precisionsLine()];
  const from = sharply ?? since, late = points.slice(from === null ? points.length : Math.min(points.length - 1, from + 4));
  const high = late.reduce((one, other) => Math.max(one, other), 0) * 1.25;
  if (late.length > 4 && high > 0 && high < most * 0.6) {
    charts.push(element("p", { class: "note" }, `The same from cycle ${from + 4} on, in its own scale:`),
      chart(points, levels, { most: high, since: null, sharp: null, first: from + 4, width, height: 190, label: "The later skew in its own scale" }));
  }
  $("chart").replaceChildren(...charts, curveTable(points));
}

// The curve in numbers, of some twenty parts of the run.
function curveTable(points) {
  const step = Math.max(1, Math.ceil(points.length / 20)), rows = [];
  for (let from = 0; from < points.length; from += step) {
    const part = points.slice(from, from + step), most = part.reduce((one, other) => Math.max(one, other)), least = part.reduce((one, other) => Math.min(one, other));
    rows.push([part.length > 1 ? `${from} to ${from + part.length - 1}` : String(from), least.toFixed(3), most.toFixed(3), String(from + part.indexOf(most))]);
  }
  return element("details", { id: "curve" }, element("summary", {}, "The curve in numbers"),
    plainTable(["cycles", " least skew, us", " greatest skew, us", " in cycle"], rows));
}

addEventListener("resize", () => {
  if (page.found && page.found.series) showChart();
});

const RESULTS = {
  Summary() {
    const { run, series, bound, sharp, known, joins } = page.found, { last } = series, list = [];
    const add = (name, text) => list.push([name, text]);
    add("Cluster", `${run.counts.nodes} nodes, ${run.counts.sync} with a key slot, ${run.counts.arbitrary} arbitrary`);
    add("Run", `${2 * run.counts.doubles} cycles of ${msOfCycle(1, known)} ms, ${msOfCycle(2 * run.counts.doubles, known)} ms in all`);
    add("In sync at the end, by the classical bound", last.synced[0] === "yes" ? "yes" : `no: from double cycle ${last.synced[1]} on none is`);
    add("Within the precision", within(last["sharp within"]));
    add("Within the classical bound", within(last.within));
    const place = /^delay (\d+) (\d+) ([AB]) (\d+)$/.exec(last.flutter[3]), since = Number(last["sharp synced"][0]) || 0;
    add("Delays flutter by", `${show.ns(last.flutter[0])} ns at most within a double cycle${since ? `, from double cycle ${since} on` : ""}${
      place ? `: the delay of node ${place[1]}'s frames at node ${place[2]} on channel ${place[3]}, last in double cycle ${place[4]}` : ""}`);
    add("Frames sent", `${run.sentA} on channel A, ${run.sentB} on B`);
    add("Heard", run.heard);
    add("Terms cut to their limit", run.cut);
    if (joins) add("Nodes that join", `${ofJoins(sharp, last.sharp[1]).text}, by the classical bound ${ofJoins(bound).text}`);
    return plainTable(["", ""], list);
  },
  Nodes() {
    const { run, known, files } = page.found, names = namesOf(page.cluster), called = (node) => names.get(node) ?? "", arbitrary = [...files.script.matchAll(/(?:^\ufeff?|[\r\n])arbitrary,([^,\r\n]*)/g)].map((found) => found[1]);
    const rows = run.ends.map((one) => [one.node, called(one.node), one.state, one.rate, one.offset]);
    rows.push(...arbitrary.map((node) => [node, called(node), "arbitrary: it has no clock", "", ""]));
    return element("div", {}, plainTable([" node", "name", "at the end", " rate term", " offset term"], rows),
      element("p", { class: "note" }, `Terms are in microticks; above 0 they lengthen the cycle. Limits: ${known.pRateCorrectionOut} and ${known.pOffsetCorrectionOut}.`));
  },
  Checks() {
    const { bound, sharp, series, joins } = page.found, kind = series.last.sharp[1], lasts = sharp[joins ? "first rates last" : "lasts"];
    const held = !joins && lasts === "on" ? sharp.checks.find((check) => check.number === 1 && !check.holds) : undefined;
    const of = (checks) => checks.map((check) => [`C${check.number}`, element("span", { class: check.holds || check === held ? "good-text" : "bad-text" }, check.holds ? "holds" : "fails"),
      percent(check.right, check.left), check.holds ? WHY[check.number][0] : `${WHY[check.number][0]}: ${check === held ? "it fails, but the walk is held" : `turn ${WHY[check.number][1]}`}`]);
    return element("div", {}, element("h3", {}, `Of the precision, ${kind === "beside" ? "beside arbitrary nodes" : "without arbitrary nodes"}`),
      plainTable(["check", "", " used", "what it is for"], of(sharp.checks.filter((check) => !check.side || check.side === kind))),
      element("h3", {}, "Of the classical bound"), plainTable(["check", "", " used", "what it is for"], of(bound.checks)),
      joins && element("p", { class: "note" }, "C6 to C9 are of nodes that join: the action points of one that follows lie at most "
        + `${us(sharp[`${kind} reach`])} us from those of the others, by the classical bound ${us(bound.reach)} us.`),
      element("p", { class: "note" }, "That a check of the classical bound fails is no fault if those of the precision hold: it does not rest on them. "
        + (held ? "C1 of these fails, but the walk is held: no oscillator changes, so where no frame is lost lengths come less than a microtick beyond their range, on and on."
          : `The rate limit holds the walk of rates${joins ? ", and suffices for first rates," : ""} ${lasts === "on" ? "on and on" : `for ${lasts} double cycles`}.`)));
  },
  "As printed"() {
    const join = page.found.joins ? " join" : "", names = { report: "flexray run PARAMS DRIFT SCRIPT", series: "flexray-series PARAMS DRIFT SCRIPT sharp",
      bound: `flexray bound PARAMS${join}`, sharp: `flexray bound PARAMS sharp ${page.found.flutter}${join}` };
    const choice = element("select", { "aria-label": "Which text", onchange: (event) => {
      page.printed = event.target.value;
      showResults();
    } }, ...Object.entries(names).map(([key, name]) => element("option", { value: key, selected: key === page.printed }, name)));
    const text = page.found.texts[page.printed];
    return element("div", {}, element("div", { class: "row" }, choice, element("button", { type: "button", onclick: () => copy(text) }, "Copy"),
      element("button", { type: "button", onclick: () => download(`${page.name}-${page.printed}.txt`, text) }, "Save")),
    element("pre", { id: "printed", tabindex: "0" }, text));
  },
};

// A page from disk may have no clipboard of its own; a field that is selected has one.
function copy(text) {
  const area = element("textarea");
  area.value = text;
  document.body.append(area);
  area.select();
  state("ready", document.execCommand("copy") ? "copied" : "not copied");
  area.remove();
}

function within(fields) {
  if (fields[0] === "-") return "it was never in sync";
  return fields[0] === "yes" ? "yes, since it was first in sync" : `no: in cycle ${fields[1]}, macrotick ${fields[2]} it was not`;
}

function showResults() {
  const found = page.found;
  if (!found || found.report.status !== 0 || found.fault) {
    $("chart").replaceChildren(element("p", { class: "note" }, found ? "No run: see above." : ""));
    // So that the next run is drawn, whatever its turn.
    delete $("chart").dataset.turn;
    $("results-panel").replaceChildren();
    return;
  }
  if (page.drawn !== found || !$("chart").dataset.turn) {
    page.drawn = found;
    $("chart").dataset.turn = page.turn;
    showChart();
  }
  $("results-panel").replaceChildren(RESULTS[page.answers]());
}

// ---- the editor

function edited(what = "form") {
  page.edited = what;
  page.touched = true;
  later();
}

function markWrong() {
  const found = new Map(page.cluster && page.cluster.nodes ? page.wrong.map((one) => [one, rowOf(one)]) : []);
  for (const input of document.querySelectorAll("#editor-panel [data-field]")) {
    const wrong = page.wrong.find((one) => found.get(one) === input.row && one[2] === input.dataset.field);
    input.setAttribute("aria-invalid", Boolean(wrong));
    input.title = wrong ? wrong[3] : input.dataset.title || "";
  }
}

function input(row, key, label, { type = "text", options, width, title } = {}) {
  const change = (value) => {
    row[key] = value;
    edited();
  };
  let found;
  if (type === "check") {
    found = element("input", { type: "checkbox", checked: row[key], "aria-label": label, onchange: (event) => change(event.target.checked) });
  } else if (options) {
    found = element("select", { "aria-label": label, onchange: (event) => change(event.target.value) },
      ...options.map(([value, name]) => element("option", { value, selected: value === row[key] }, name)));
  } else {
    found = element("input", { value: row[key], "aria-label": label, autocomplete: "off", spellcheck: "false", size: width || 6, oninput: (event) => change(event.target.value) });
  }
  if (width && found.size) found.style.width = `${width + 1.3}ch`;
  found.row = row;
  found.dataset.field = key;
  if (title) found.dataset.title = found.title = title;
  return found;
}

const CHANNELS = { options: [["A", "A"], ["B", "B"], ["AB", "AB"]] };

// More rows than these are not shown: a browser would take long for them.
const MOST_SHOWN = 400;

function editTable(title, note, rows, columns, fresh, name) {
  const list = rows.slice(0, MOST_SHOWN), shown = columns.filter((column) => !column.when || list.some(column.when));
  const add = element("button", { type: "button", class: "add", onclick: () => {
    rows.push(fresh());
    showEditor();
    document.querySelector(`[aria-label="${columns[0].head}, ${name} ${rows.length}"]`)?.focus();
    edited();
  } }, `Add ${name}`);
  const removed = (at) => {
    rows.splice(at, 1);
    showEditor();
    // The one behind it, else the one before, else the button that adds one.
    const next = [at + 1, at].map((number) => document.querySelector(`[aria-label="Remove ${name} ${number}"]`)).find(Boolean);
    (next || [...document.querySelectorAll("#editor-panel .add")].find((button) => button.textContent === `Add ${name}`))?.focus();
    edited();
  };
  const head = element("tr", {}, ...shown.map((column) => element("th", { scope: "col", title: column.title }, column.head)), element("th", {}));
  const body = list.map((row, at) => element("tr", {}, ...shown.map((column) => element("td", { class: column.type === "check" ? "check" : null },
    !column.when || column.when(row) ? input(row, column.key, `${column.head}, ${name} ${at + 1}`, column) : "")),
  element("td", {}, element("button", { type: "button", class: "remove", "aria-label": `Remove ${name} ${at + 1}`, title: "Remove", onclick: () => removed(at) }, "×"))));
  return element("fieldset", {}, element("legend", {}, title), note && element("p", { class: "note" }, note),
    rows.length ? element("div", { class: "scroll" }, element("table", {}, element("thead", {}, head), element("tbody", {}, ...body))) : null,
    rows.length > MOST_SHOWN ? element("p", { class: "note" }, `And ${rows.length - MOST_SHOWN} more, which hold as they are; Files has all.`) : null, add);
}

function parameterField([name, least, most, unit, label]) {
  const row = { get value() {
    const text = page.cluster.parameters[name];
    return name === "xDelayError" && /^\d{1,18}$/.test(text) ? timeText(BigInt(text), "ns", page.microtick) : text;
  }, set value(text) {
    const ticks = name === "xDelayError" ? ticksOf(text, "ns", page.microtick) : null;
    page.cluster.parameters[name] = ticks === null ? text : String(ticks);
  } };
  const range = name === "xDelayError" ? `0 to ${us(most)} us` : `${least} to ${most}`;
  const field = input(row, "value", `${label}, ${name}`, { title: `${name}: ${range} ${name === "xDelayError" ? "" : unit}`.trim() });
  field.id = `parameter-${name}`;
  return element("div", { class: "field" }, element("label", { for: field.id }, label, element("span", { class: "name" }, name)), field, element("small", {}, unit));
}

const GROUPS = ["The cycle", "Corrections", "Limits of oscillators and delays", "When a node gives up"];
const groupOf = (name) => (name.startsWith("x") ? 2 : /^(gMax|pAllow)/.test(name) ? 3 : /^p(?!Micro)/.test(name) ? 1 : 0);

// A text that is longer than this is not put into a field: a browser would take long for it.
const MOST_EDITED = 2000000;

const EDITOR = {
  Cluster() {
    const microtick = element("input", { id: "microtick", "data-field": "microtick", value: page.retick ?? page.microtick, size: 6, "aria-label": "A microtick lasts, in nanoseconds", autocomplete: "off",
      oninput: (event) => {
        page.retick = event.target.value;
        page.touched = true;
        later();
      },
      // Times of the form are of the new microtick as soon as it is taken in.
      onchange: () => {
        if (page.retick === null) showEditor();
        else page.waits = true;
      } });
    microtick.row = page.cluster;
    microtick.dataset.title = microtick.title = "1 to 1000 ns";
    const doubles = input(page.cluster, "doubles", "Double cycles of the run", { title: "1 to 100000" });
    doubles.id = "doubles";
    return element("div", {}, element("fieldset", {}, element("legend", {}, "The run"), element("div", { class: "fields" },
      element("div", { class: "field" }, element("label", { for: "microtick" }, "A microtick lasts", element("span", { class: "name" }, "not in the files, which have ticks")), microtick, element("small", {}, "ns")),
      element("div", { class: "field" }, element("label", { for: "doubles" }, "Length of the run"), doubles, element("small", {}, "double cycles")))),
    ...GROUPS.map((title, at) => element("fieldset", {}, element("legend", {}, title),
      element("div", { class: "fields" }, ...PARAMETERS.filter(([name]) => groupOf(name) === at && name in page.cluster.parameters).map(parameterField)))));
  },
  Nodes() {
    const next = (rows, key) => String(Math.max(0, ...rows.map((row) => Number(row[key]) || 0)) + 1);
    return element("div", {}, editTable("Nodes", "A node with a key slot sends sync frames. An arbitrary one has no clock, and says what Faults have it say. One that joins listens to another in that double cycle, and takes part six cycles behind its begin.",
      page.cluster.nodes, [
        { key: "id", head: "node", width: 2 }, { key: "name", head: "name", width: 7, title: "of the TOML file alone; it may be empty" }, { key: "key", head: "key slot", width: 3, title: "empty: it sends no sync frames" },
        { key: "channels", head: "channels", ...CHANNELS }, { key: "cold", head: "cold-start", type: "check" },
        { key: "arbitrary", head: "arbitrary", type: "check" },
        { key: "ppm", head: "ppm", width: 6, title: "of its oscillator; above 0 it is fast" },
        { key: "start", head: "start, us", width: 5, title: "when its first cycle starts" },
        { key: "rate", head: "first rate", width: 2, title: "microticks" },
        { key: "double", head: "joins in", width: 2, title: "the double cycle in which it listens; empty: it is there from the beginning" },
        { key: "reference", head: "listens to", width: 2, title: "the node that it listens to as it joins" },
      ], () => ({ id: next(page.cluster.nodes, "id"), name: "", key: next(page.cluster.nodes, "key"), channels: "AB", cold: false, arbitrary: false, ppm: "0", start: "0", rate: "0", double: "", reference: "" }), "node"),
    editTable("Further slots", "", page.cluster.slots, [{ key: "slot", head: "slot", width: 4 }, { key: "node", head: "node", width: 3 }, { key: "base", head: "base", width: 3 }, { key: "repetition", head: "repetition", width: 4 }],
      () => ({ slot: next(page.cluster.slots.concat(page.cluster.nodes.map((node) => ({ slot: node.key }))), "slot"), node: page.cluster.nodes[0]?.id || "1", base: "0", repetition: "1" }), "slot"));
  },
  "Clocks and delays"() {
    return element("div", {}, editTable("Oscillators that change", "A row with one cycle holds from there on. With a last cycle it is a ramp, linear in ppm.", page.cluster.lengths,
      [{ key: "node", head: "node", width: 3 }, { key: "first", head: "from cycle", width: 6 }, { key: "from", head: "ppm", width: 7 }, { key: "last", head: "to cycle", width: 6 }, { key: "to", head: "ppm there", width: 7 }],
      () => ({ node: page.cluster.nodes[0]?.id || "1", first: "100", from: "0", last: "200", to: "50" }), "change"),
    editTable("Delays", "Where nothing is said, a delay is the compensation of its channel. A delay holds from its cycle on. Nodes are as 1-4,6 or all; cycles as 0, 10-20 or 0-398/2.", page.cluster.delays,
      [{ key: "from", head: "from nodes", width: 7 }, { key: "to", head: "to nodes", width: 7 }, { key: "channels", head: "channels", ...CHANNELS }, { key: "cycles", head: "from cycle", width: 8 }, { key: "ns", head: "delay, ns", width: 7 }],
      () => ({ from: "all", to: "all", channels: "AB", cycles: "0", ns: "100" }), "delay"));
  },
  Faults() {
    const is = (kind) => (row) => row.kind === kind;
    return element("div", {}, editTable("What is done to frames", "An arbitrary node says its frame early (below 0) or late, to each receiver another time if you like: that is a two-faced node. Of correct nodes frames are lost, or a bit is inverted. Nodes are as 1-4,6 or all; cycles as 0-399, 7 or all.", page.cluster.faults,
      [{ key: "kind", head: "what", options: [...FORMS.script[1].keys()].filter(isOfFrames).map((kind) => [kind, kind]), title: [...FORMS.script[1].keys()].filter(isOfFrames).map((kind) => `${kind}: ${TABLES.get(kind)?.meaning || kind}`).join("; ") }, { key: "from", head: "of nodes", width: 5 }, { key: "to", head: "to nodes", width: 6 }, { key: "channels", head: "channels", ...CHANNELS }, { key: "cycles", head: "cycles", width: 9 },
        { key: "value", head: "us late, or bit", width: 6, when: (row) => is("say")(row) || hasBit(row.kind) }, { key: "bytes", head: "bytes", width: 10, title: "hexadecimal digits; empty: the frame that it would send", when: is("say") }],
      () => {
        const arbitrary = page.cluster.nodes.find((node) => node.arbitrary);
        return arbitrary ? { kind: "say", from: arbitrary.id, to: "all", channels: "AB", cycles: "all", value: "1", bytes: "" }
          : { kind: "lose", from: page.cluster.nodes[0]?.id || "1", to: "all", channels: "AB", cycles: "10", value: "0", bytes: "" };
      }, "fault"));
  },
  Files() {
    const area = (name) => element("div", {}, element("h3", {}, element("label", { for: `file-${name}` }, `${name}.csv`)),
      page.files[name].length > MOST_EDITED ? element("p", { class: "note" }, `It has ${page.files[name].length} letters, which is too much to be edited here. Open another file in its place.`)
        : element("textarea", { id: `file-${name}`, spellcheck: "false", autocomplete: "off", oninput: (event) => {
          page.files = { ...page.files, [name]: event.target.value };
          page.wrong = [];
          edited("files");
        } }));
    const found = element("div", {}, element("p", { class: "note" }, "These are what the program reads, in its own units: ticks, a millionth of a microtick. The other tabs write them."), area("params"), area("drift"), area("script"));
    for (const name of ["params", "drift", "script"]) {
      const place = found.querySelector(`#file-${name}`);
      if (place) place.value = page.files[name];
    }
    return found;
  },
};

// The file of flexlab: what the form has, and back.
EDITOR.TOML = () => {
  const fault = element("p", { class: "bad-text", role: "alert", id: "toml-fault" });
  const area = element("textarea", { id: "file-toml", class: "tall", spellcheck: "false", autocomplete: "off", "aria-label": "The TOML file of flexlab", oninput: () => {
    page.toml = area.value;
    page.wrong = [];
    edited("toml");
  } });
  if (page.edited === "toml") area.value = page.toml;
  else {
    reader.ask({ job: "written", cluster: page.cluster }).then((told) => {
      // What was typed meanwhile stays.
      if (!area.isConnected || area.value) return;
      if (told.no || told.fault) fault.textContent = `There is no such file of this cluster: ${told.no || told.fault}.`;
      else if (told.text.length > MOST_EDITED) fault.textContent = "The file is too long to be edited here: Save TOML writes it.";
      else area.value = told.text;
    });
  }
  return element("div", {}, element("p", { class: "note" }, "The same cluster as flexlab reads it: edit it here, or paste one. Numbers that are drawn, and [[power]], are for flexlab alone."),
    area, fault);
};

// Which of the form, the files and the TOML text a tab shows.
const shownIn = (tab) => ({ Files: "files", TOML: "toml" }[tab] || "form");

function showEditor() {
  const panel = $("editor-panel"), kind = shownIn(page.editor);
  // What is shown in another tab than where it was typed is taken in first.
  if (page.edited && page.edited !== kind && document.documentElement.dataset.state !== "stale") {
    if (!page.waits) {
      page.waits = true;
      panel.replaceChildren(element("p", { class: "note" }, "The last edit is taken in."));
      compute();
    }
    return;
  }
  page.waits = false;
  if (kind === "form" && (page.cluster === null || typeof page.cluster === "string")) {
    panel.replaceChildren(element("p", { class: "note" }, `The form cannot show these files: ${page.cluster || ""}`),
      element("button", { type: "button", onclick: () => selectTab("editor", "Files") }, "Edit the files"));
    return;
  }
  if (kind === "toml" && page.edited !== "toml" && typeof page.cluster === "string") {
    panel.replaceChildren(element("p", { class: "note" }, `There is no TOML file of these files: ${page.cluster}`));
    return;
  }
  const before = page.edited && page.edited !== kind;
  panel.replaceChildren(...[before && element("p", { class: "note bad-text" }, "The last edit, in another tab, is not taken in: this is the cluster before it."), EDITOR[page.editor]()].filter(Boolean));
  markWrong();
}

// Where the cluster comes from, and how long its microtick is, of which CSV files say nothing.
function showSource() {
  const { source } = page;
  if (!source) return;
  const lasts = `a microtick lasts ${page.microtick} ns`;
  const texts = { example: `Example ${source.name}: ${lasts}.`, toml: `${source.name}: ${lasts}.`,
    files: `${source.name}: ${lasts}, as the field under Cluster says, since such files have ticks alone.` };
  const more = [source.kept && `${source.kept} as before.`, source.left && `Left out: ${source.left}.`, page.touched && "Edited since."].filter(Boolean);
  $("source").textContent = [texts[source.kind], ...more].join(" ");
}

// ---- files

// Whether the files are those of what is shown: what was typed last is taken in first.
async function saved() {
  if (!page.edited && page.retick === null) return true;
  clearTimeout(page.timer);
  page.turn += 1;
  const turn = page.turn, is_understood = await understood(turn);
  if (turn !== page.turn) return false;
  if (is_understood) compute();
  return is_understood;
}

function download(name, text) {
  const link = element("a", { href: URL.createObjectURL(new Blob([text], { type: "text/plain" })), download: name });
  document.body.append(link);
  link.click();
  link.remove();
  setTimeout(() => URL.revokeObjectURL(link.href), 10000);
}

// Takes a cluster: {files, cluster, microtick, source}.
function take({ files, cluster, microtick, source }) {
  Object.assign(page, { files, cluster, microtick, source, touched: false, wrong: [], edited: null, retick: null, stale: false,
    name: source.name.replace(/\.toml$/i, "").replace(/, .*/, "") });
  $("example").value = source.kind === "example" ? source.name : "";
  showEditor();
  showSource();
  later(0);
}

// Reads with the reader; what comes of a turn that is past never comes.
async function taken(given, source) {
  clearTimeout(page.timer);
  page.turn += 1;
  const turn = page.turn;
  for (const one of [program, reader]) if (one.waiting.size) one.stop();
  state("busy", "reading");
  const told = await reader.ask(given);
  if (turn !== page.turn) return;
  if (told.no || told.fault) unopened(source.name, told.no || told.fault);
  else take({ files: given.files, microtick: given.microtick, ...told, source });
}

// Tells that a file is not taken: what is shown is not what was asked for.
function unopened(name, why) {
  clearTimeout(page.timer);
  page.turn += 1;
  $("example").value = page.source && page.source.kind === "example" ? page.source.name : "";
  stale("not opened", `${cut(name)} is not opened`, [why], ...(page.source ? [[`Go on with ${cut(page.source.name)}`, () => compute()]] : []));
}

async function textOf(file, most) {
  if (file.size > most) throw new NoToml(`It has ${file.size} bytes, and such a file may have ${most}.`);
  const bytes = await file.arrayBuffer();
  try {
    return new TextDecoder("utf-8", { fatal: true, ignoreBOM: true }).decode(bytes);
  } catch {
    throw new NoToml("It is no UTF-8: have the editor keep the file as UTF-8.");
  }
}

async function opened(list) {
  const chosen = [...list], toml = chosen.find((file) => /\.toml$/i.test(file.name)), roles = new Map();
  if (!chosen.length) return;
  // From now on what is shown is of the cluster before; who chooses something else meanwhile is answered, and this is not.
  clearTimeout(page.timer);
  page.turn += 1;
  const { turn } = page;
  state("busy", "reading");
  const roleOf = (file) => ["params", "drift", "script"].find((name) => file.name.toLowerCase().includes(name));
  let name = chosen[0].name;
  try {
    if (toml) {
      ({ name } = toml);
      const left = chosen.filter((file) => file !== toml).map((file) => cut(file.name)).join(", "), text = await textOf(toml, MOST_TOML);
      if (turn === page.turn) await taken({ job: "toml", text }, { kind: "toml", name, left: cut(left, 200) });
      return;
    }
    for (const file of chosen) {
      const role = roleOf(file);
      ({ name } = file);
      if (role && roles.has(role)) throw new NoToml(`${cut(roles.get(role).name)} has ${role} in its name too: one file of each is wanted.`);
      if (role) roles.set(role, { name, text: await textOf(file, MOST_BYTES) });
    }
    ({ name } = chosen[0]);
    if (!roles.size) throw new NoToml("A .toml file is wanted, or files whose names hold params, drift or script.");
  } catch (why) {
    if (turn === page.turn) unopened(name, why instanceof NoToml ? why.message : `The browser cannot read it: ${why.message}`);
    return;
  }
  if (turn !== page.turn) return;
  const files = { ...page.files };
  for (const [role, { text }] of roles) files[role] = text;
  await taken({ job: "read", files, microtick: page.microtick, names: namesOf(page.cluster) }, { kind: "files", name: [...roles.values()].map((one) => cut(one.name)).join(", "),
    kept: ["params", "drift", "script"].filter((role) => !roles.has(role)).join(" and "), left: cut(chosen.filter((file) => !roleOf(file)).map((file) => file.name).join(", "), 200) });
}

async function begin() {
  tabs(document.querySelector('[data-panels="editor-panel"]'), Object.keys(EDITOR), "editor");
  tabs(document.querySelector('[data-panels="results-panel"]'), Object.keys(RESULTS), "answers");
  if (!WebAssembly.validate(new Uint8Array([0, 97, 115, 109, 1, 0, 0, 0, 5, 3, 1, 4, 1]))) {
    $("verdict").replaceChildren(element("div", { class: "card bad refused" }, element("div", { class: "big" }, "This browser is too old for this page"),
      element("p", {}, "It needs WebAssembly with 64-bit memory: Chrome and Edge from 133 on, Firefox from 134 on.")));
    state("failed", "not possible here");
    return;
  }
  program.start();
  reader.start();
  const examples = JSON.parse(await unpacked("examples"));
  const choice = $("example");
  choice.append(element("option", { value: "", disabled: true }, "own files"), ...Object.entries(examples).map(([name, [told]]) => element("option", { value: name }, `${name}: ${told}`)));
  // An example brings the microtick that its times are meant in.
  const show_example = (name) => {
    const [, params, drift, script] = examples[name];
    return taken({ job: "read", files: { params, drift, script }, microtick: "25", names: new Map() }, { kind: "example", name });
  };
  choice.onchange = () => show_example(choice.value);
  $("open").onclick = () => $("files").click();
  $("files").onchange = (event) => {
    const chosen = [...event.target.files];
    // So that the same file, changed meanwhile, is an event again.
    event.target.value = "";
    return opened(chosen);
  };
  for (const kind of ["dragover", "dragleave", "drop"]) {
    document.addEventListener(kind, (event) => {
      if (![...event.dataTransfer?.types || []].includes("Files")) return;
      event.preventDefault();
      document.documentElement.classList.toggle("dropping", kind === "dragover");
      if (kind === "drop") opened(event.dataTransfer.files);
    });
  }
  $("save").onclick = async () => {
    if (await saved()) for (const [name, text] of Object.entries(page.files)) download(`${name}.csv`, text);
  };
  $("save-toml").onclick = async () => {
    if (!await saved()) return;
    const told = !page.cluster || typeof page.cluster === "string" ? { no: "the form cannot show these files" } : await reader.ask({ job: "written", cluster: page.cluster });
    if (told.no || told.fault) state(document.documentElement.dataset.state, `no TOML file: ${told.no || told.fault}`);
    else download(`${page.name}.toml`, told.text);
  };
  $("stop").onclick = () => {
    clearTimeout(page.timer);
    page.turn += 1;
    program.stop();
    reader.stop();
    stale("stopped", "Stopped before it was computed", [], ["Compute", () => compute()]);
    if (page.waits) showEditor();
  };
  document.addEventListener("keydown", (event) => {
    if (event.key === "Enter" && (event.ctrlKey || event.metaKey)) compute();
  });
  selectTab("editor", "Cluster");
  selectTab("answers", "Summary");
  choice.value = Object.keys(examples)[0];
  show_example(choice.value);
}

begin();
