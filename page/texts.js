"use strict";
// The printed texts, taken apart as far as the page shows them. tools/tests/test_page_scripts.py holds this against what the package
// flexray takes of the examples.

function readReport(text) {
  const found = Object.assign(Object.create(null), { ends: [] });
  const READ = {
    nodes: (nodes, sync, arbitrary, doubles) => { found.counts = { nodes: +nodes, sync: +sync, arbitrary: +arbitrary, doubles: +doubles }; },
    precision: (ticks) => { found.precision = ticks; },
    covered: (told) => { [found.covered, found.gap] = [told === "yes", told.split(" ").slice(1).join(" ")]; },
    sync: (double) => { found.inSync = /\d/.test(double) ? +double : null; },
    skew: (ticks, cycle, macrotick) => { found.greatest = { ticks, cycle: +cycle, macrotick: +macrotick }; },
    sent: (channel, frames) => { found["sent" + channel] = frames; },
    cut: (terms) => { found.cut = terms; },
    node: (node, state, next, rate, offset) => { found.ends.push({ node, state, rate, offset }); },
  };
  for (const line of text.split("\n")) {
    if (LINES.heard.test(line)) found.heard = line.slice(line.indexOf(" ") + 1);
    for (const [name, read] of Object.entries(READ)) {
      const groups = LINES[name].exec(line);
      if (groups) read(...groups.slice(1));
    }
  }
  return found;
}

function readSeries(text) {
  const found = { skew: [], last: Object.create(null) };
  for (const line of text.split("\n")) {
    const fields = line.split(",");
    if (/^\d/.test(line)) found.skew.push(Number(fields[2]));
    else if (fields.length > 1) found.last[fields[0]] = fields.slice(1);
  }
  return found;
}

function readBounds(text) {
  const found = Object.assign(Object.create(null), { checks: [] });
  for (const line of text.split("\n")) {
    const check = /^(?:(alone|beside) )?C(\d) (holds|fails) (\d+) (\d+)$/.exec(line), words = line.split(" ");
    if (check) found.checks.push({ side: check[1] || "", number: +check[2], holds: check[3] === "holds", left: check[4], right: check[5] });
    else if (words.length > 1) found[words.slice(0, -1).join(" ")] = words[words.length - 1];
  }
  return found;
}
