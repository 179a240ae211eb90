"use strict";
// The skew of each cycle as a picture: a curve, and levels that it is held against.

const SVG = "http://www.w3.org/2000/svg";

function drawn(name, attributes, text) {
  const found = document.createElementNS(SVG, name);
  for (const [key, value] of Object.entries(attributes)) found.setAttribute(key, value);
  if (text !== undefined) found.textContent = text;
  return found;
}

// Round steps for an axis up to the most, about so many.
function steps(most, count) {
  const rough = most / count, power = 10 ** Math.floor(Math.log10(rough || 1));
  const step = [1, 2, 5, 10].map((one) => one * power).find((one) => one >= rough) || 1;
  const found = [];
  for (let at = 0; at <= most * 1.0001; at += step) found.push(Number(at.toPrecision(12)));
  return found;
}

// `points` has the skew of each cycle in us; `levels` are [{value, name, class}], of which those above `most` are left out;
// `since` is the first cycle in sync, `sharp` that in sharp sync, or null.
function chart(points, levels, { most, since, sharp, label, width, first = 0, height = 250 }) {
  const left = 54, right = 10, top = 12, bottom = 32;
  const wide = width - left - right, high = height - top - bottom;
  const last = Math.max(first + 1, points.length - 1);
  const x = (cycle) => left + (wide * (cycle - first)) / (last - first), y = (skew) => top + high * (1 - Math.min(skew, most) / most);
  const picture = drawn("svg", { viewBox: `0 0 ${width} ${height}`, role: "img", "aria-label": label, class: "chart" });
  for (const at of steps(most, 6)) {
    picture.append(drawn("line", { x1: left, x2: width - right, y1: y(at), y2: y(at), class: "grid" }),
      drawn("text", { x: left - 7, y: y(at) + 4, "text-anchor": "end" }, String(at)));
  }
  const step = steps(last - first, width / 90)[1] || 1;
  for (let at = Math.ceil(first / step) * step; at <= last; at += step) {
    if (Number.isInteger(at)) picture.append(drawn("text", { x: x(at), y: height - bottom + 17, "text-anchor": "middle" }, String(at)));
  }
  picture.append(drawn("text", { x: width - right, y: height - 2, "text-anchor": "end" }, "cycle"),
    drawn("text", { x: 2, y: top + high / 2, transform: `rotate(-90 11 ${top + high / 2})`, "text-anchor": "middle", class: "axis" }, "skew in us"));
  const names = [];
  for (const [cycle, name, tall] of [[since, "in sync", 0], [sharp, "sharp sync", 14]]) {
    if (cycle !== null && cycle >= first && cycle < points.length) {
      picture.append(drawn("line", { x1: x(cycle), x2: x(cycle), y1: top, y2: top + high, class: "since" }));
      names.push(drawn("text", { x: x(cycle) + 4, y: top + 10 + tall, class: "since" }, name));
    }
  }
  // Of many cycles each column has its least and its greatest.
  const columns = new Map();
  for (let cycle = first; cycle < points.length; cycle += 1) {
    const column = points.length - first > 2 * wide ? Math.round(x(cycle)) : x(cycle), known = columns.get(column);
    if (!known) columns.set(column, [points[cycle], points[cycle]]);
    else columns.set(column, [Math.min(known[0], points[cycle]), Math.max(known[1], points[cycle])]);
  }
  const path = [...columns].map(([column, [low, top_]]) => (low === top_ ? `${column.toFixed(1)} ${y(low).toFixed(1)}`
    : `${column} ${y(low).toFixed(1)} L${column} ${y(top_).toFixed(1)}`)).join(" L");
  picture.append(drawn("path", { d: `M${path}`, class: "skew" }));
  const places = [];
  for (const level of levels.filter(({ value }) => value <= most).sort((one, other) => one.value - other.value)) {
    let at = y(level.value) - 4;
    while (places.some((other) => Math.abs(other - at) < 14)) at -= 14;
    places.push(at);
    picture.append(drawn("line", { x1: left, x2: width - right, y1: y(level.value), y2: y(level.value), class: `level ${level.class}` }),
      drawn("text", { x: width - right - 4, y: at, "text-anchor": "end", class: level.class }, level.name));
  }
  picture.append(...names);
  const cross = drawn("line", { y1: top, y2: top + high, class: "cross", visibility: "hidden" });
  const read = drawn("text", { y: top + 4, class: "read", visibility: "hidden" });
  picture.append(cross, read);
  picture.addEventListener("pointermove", (event) => {
    const box = picture.getBoundingClientRect(), at = ((event.clientX - box.left) / box.width) * width;
    const cycle = Math.min(points.length - 1, Math.max(first, Math.round(first + ((at - left) / wide) * (last - first))));
    for (const one of [cross, read]) one.setAttribute("visibility", "visible");
    cross.setAttribute("x1", x(cycle));
    cross.setAttribute("x2", x(cycle));
    read.setAttribute("x", Math.min(x(cycle) + 6, width - 170));
    read.textContent = `cycle ${cycle}: ${points[cycle].toFixed(3)} us`;
  });
  picture.addEventListener("pointerleave", () => {
    for (const one of [cross, read]) one.setAttribute("visibility", "hidden");
  });
  return picture;
}
