"use strict";
// The scripts of the page without a browser: each line of standard input is a task as JSON, each line of output its answer.
// They are given scopes of their own, as the reader's worker has one, so that what a file leaves behind is seen.
const fs = require("fs"), path = require("path"), readline = require("readline"), vm = require("vm");

const PAGE = path.join(__dirname, "..", "..", "page");
const names = /^SHARED = \((.*)\)$/m.exec(fs.readFileSync(path.join(__dirname, "..", "page"), "utf8"))[1].match(/\w+\.js/g);
const context = vm.createContext({ TextEncoder, structuredClone });
vm.runInContext(`${names.map((name) => fs.readFileSync(path.join(PAGE, name), "utf8").replace('"use strict";', "")).join("\n")}
globalThis.page = { tables: Object.fromEntries([...TABLES].map(([name, { keys }]) => [name, [...keys.keys()]])), single: SINGLE, parameters: PARAMETERS, filesOfToml, readCluster, writeCluster, tomlOf, explain, lastingWords, listOf, NoToml, texts: { run: readReport, series: readSeries, bound: readBounds },
  left: () => [Object.getOwnPropertyNames(Object.prototype).length, Object.keys(Object.prototype).length, Object.getOwnPropertyNames(Array.prototype).length].join() };`, context);
const { page } = context, untouched = page.left();

const TASKS = new Map([
  // The keys of each table, and the range of each parameter.
  ["tables", () => ({ tables: page.tables, one: page.single, ranges: page.parameters })],
  // A TOML file as the three files, and these in the form, written again, and as a TOML file.
  ["toml", ({ text }) => {
    const { files, microtick, names: called } = page.filesOfToml(text), cluster = page.readCluster(files, microtick, called);
    const found = { files, microtick, names: Object.fromEntries(called), form: typeof cluster };
    if (typeof cluster === "string") return { ...found, why: cluster };
    const { files: written, wrong } = page.writeCluster(structuredClone(cluster));
    return { ...found, written, wrong, toml: again(cluster) };
  }],
  // Three files in the form and written again; and what is said of a failure.
  ["files", ({ files, microtick, line }) => {
    const cluster = page.readCluster(files, microtick), told = line ? page.explain(line, files) : null;
    const { files: written, wrong } = typeof cluster === "string" ? {} : page.writeCluster(structuredClone(cluster));
    return { form: typeof cluster, why: typeof cluster === "string" ? cluster : "", written, wrong, told: told && [told.title, ...told.lines] };
  }],
  // A printed text of a kind, taken apart.
  ["printed", ({ kind, text }) => page.texts[kind](text)],
  // For how long something is proved of a run, by its printed series.
  ["lasting", ({ text }) => ({ words: page.lastingWords(page.texts.series(text).last) })],
  // A form as a person may fill it.
  ["form", ({ cluster }) => ({ wrong: page.writeCluster(cluster).wrong, toml: again(cluster) })],
]);

// The TOML file of a form, or null with a reason.
function again(cluster) {
  try {
    return page.tomlOf(structuredClone(cluster));
  } catch (why) {
    if (why instanceof page.NoToml) return null;
    throw why;
  }
}

readline.createInterface({ input: process.stdin }).on("line", (line) => {
  const task = JSON.parse(line), begun = process.cpuUsage();
  let found;
  try {
    found = TASKS.get(task.task)(task);
  } catch (why) {
    found = why instanceof page.NoToml ? { no: why.message } : { fault: `${why && why.constructor && why.constructor.name}: ${why && why.message}`, stack: String(why && why.stack).slice(0, 600) };
  }
  const { user, system } = process.cpuUsage(begun);
  process.stdout.write(`${JSON.stringify({ ...found, seconds: (user + system) / 1e6, clean: page.left() === untouched })}\n`);
});
