"use strict";
// Reads files into the form and writes the form into files, in a worker of its own, behind the scripts that tools/page calls shared; and says
// what a refusal means.
const JOBS = new Map([
  ["read", ({ files, microtick, names }) => ({ cluster: readCluster(files, microtick, names) })],
  ["toml", ({ text }) => {
    const { files, microtick, names } = filesOfToml(text);
    return { files, microtick, cluster: readCluster(files, microtick, names) };
  }],
  ["write", ({ cluster }) => writeCluster(cluster)],
  ["written", ({ cluster }) => ({ text: tomlOf(cluster) })],
  ["explain", ({ line, files }) => explain(line, files)],
]);

// What a job answers; {no} with a reason where the text is refused, {fault} where this page has a fault or memory ran out.
function answered(data) {
  try {
    return JOBS.get(data.job)(data);
  } catch (why) {
    return why instanceof NoToml ? { no: why.message } : { fault: `this page cannot read it: ${cut(String(why && why.message || why), 200)}` };
  }
}

self.onmessage = ({ data }) => self.postMessage({ ...answered(data), number: data.number });
