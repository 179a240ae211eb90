"use strict";
// Answers requests with the program as WebAssembly. Each request has an instance of its own, so that it begins with an empty
// memory and nothing of an earlier one is left, also after a trap.
let compiled = null;

async function module(packed) {
  const bytes = Uint8Array.from(atob(packed), (letter) => letter.charCodeAt(0));
  const plain = new Blob([bytes]).stream().pipeThrough(new DecompressionStream("gzip"));
  return WebAssembly.compile(await new Response(plain).arrayBuffer());
}

// A place in the memory of the program, for bytes that are handed over or for a text.
function placed(program, length, bytes) {
  const place = program.page_take(BigInt(Math.max(length, 1)));
  if (place === 0n) throw new Error("no memory");
  if (bytes) new Uint8Array(program.memory.buffer, Number(place), length).set(bytes);
  return place;
}

// What the request `flexray_request` or `flexray_series_request` answers; words are one to a line.
function answered(program, name, words, files) {
  const spelt = new TextEncoder().encode(words.join("\n"));
  const lent = [spelt, ...files];
  while (lent.length < 4) lent.push(new Uint8Array(0));
  const given = lent.flatMap((bytes) => [placed(program, bytes.length, bytes), BigInt(bytes.length)]);
  const texts = placed(program, 16);
  let rooms = [1 << 16, 512];
  for (;;) {
    const places = rooms.map((room) => placed(program, room));
    const status = program[name](...given, places[0], BigInt(rooms[0]), places[1], BigInt(rooms[1]), texts);
    const told = new DataView(program.memory.buffer, Number(texts), 16);
    const lengths = [Number(told.getBigUint64(0, true)), Number(told.getBigUint64(8, true))];
    if (lengths[0] <= rooms[0] && lengths[1] <= rooms[1]) {
      const shown = lengths.map((length, at) =>
        new TextDecoder().decode(new Uint8Array(program.memory.buffer, Number(places[at]), length)));
      return { status, text: shown[0], line: shown[1].replace(/\n$/, ""), bytes: program.memory.buffer.byteLength };
    }
    rooms = rooms.map((room, at) => Math.max(room, lengths[at]));
  }
}

self.onmessage = async ({ data }) => {
  if (data.packed) {
    compiled = module(data.packed);
    // A fault is told at the first request.
    compiled.catch(() => {});
    return;
  }
  const begun = performance.now();
  let answer;
  try {
    const program = new WebAssembly.Instance(await compiled, {}).exports;
    answer = answered(program, data.name, data.words, data.files);
  } catch (fault) {
    answer = { status: -1, text: "", line: String(fault && fault.message || fault) };
  }
  self.postMessage({ ...answer, number: data.number, ms: performance.now() - begun });
};
