"use strict";
/* Where the labels of a picture's lines stand: above all boxes, and where they cover no box, no arrow head and no other label, as far as there is room. */
const LABEL_PLACES = [0.5, 0.42, 0.58, 0.34, 0.66, 0.26, 0.74, 0.18, 0.82];

function overlap(one, other) {
  const wide = Math.min(one.x + one.width, other.x + other.width) - Math.max(one.x, other.x);
  const high = Math.min(one.y + one.height, other.y + other.height) - Math.max(one.y, other.y);
  return wide > 0 && high > 0 ? wide * high : 0;
}

function grown(box, by) {
  return { x: box.x - by, y: box.y - by, width: box.width + 2 * by, height: box.height + 2 * by };
}

/** A label in a group of its own, behind all else and so above it, or null where the line has none. */
function liftedLabel(edge, layer) {
  const lines = [...edge.querySelectorAll("text")];
  if (!lines.length) return null;
  const label = svg("g", { class: `${edge.getAttribute("class")} label` }, ...lines);
  Object.assign(label.dataset, edge.dataset);
  layer.append(label);
  return label;
}

/** The places that a label may take along a line: the one that it has, then others, on the line and beside it. */
function candidates(path, box) {
  const found = [[0, 0]], long = path.getTotalLength(), middle = [box.x + box.width / 2, box.y + box.height / 2];
  for (const part of LABEL_PLACES) {
    const point = path.getPointAtLength(long * part);
    for (const [right, down] of [[0, 0], [box.width / 2 + 5, 0], [-box.width / 2 - 5, 0], [0, box.height / 2 + 4], [0, -box.height / 2 - 4]]) found.push([point.x + right - middle[0], point.y + down - middle[1]]);
  }
  return found;
}

function moved(box, [right, down]) {
  return { x: box.x + right, y: box.y + down, width: box.width, height: box.height };
}

/** Moves a label to where it covers least, and gives the box that it then has. */
function placeLabel(label, path, taken) {
  const box = label.getBBox();
  let best = null;
  for (const [place, shift] of (path ? candidates(path, box) : [[0, 0]]).entries()) {
    const there = moved(box, shift);
    const cost = taken.reduce((sum, other) => sum + overlap(there, other), 0) + 0.01 * place;
    if (!best || cost < best.cost) best = { cost, shift, there };
    if (cost < 1) break;
  }
  if (best.shift[0] || best.shift[1]) label.setAttribute("transform", `translate(${best.shift.map((by) => by.toFixed(1)).join(" ")})`);
  return best.there;
}

/** Places all labels of a picture that stands in the page, and makes the picture as large as they need. */
function placeLabels(picture) {
  const whole = picture.querySelector(":scope > g"), boxes = (selector) => [...whole.querySelectorAll(selector)].map((each) => grown(each.getBBox(), 2));
  const taken = [...boxes(".node"), ...boxes(".edge .head")], layer = svg("g", {});
  whole.append(layer);
  for (const edge of [...whole.querySelectorAll(".edge")]) {
    const path = edge.querySelector("path") || whole.querySelector(`.edge[data-from="${edge.dataset.from}"][data-to="${edge.dataset.to}"] path`);
    const label = liftedLabel(edge, layer);
    if (label) taken.push(placeLabel(label, path, taken));
  }
  const all = whole.getBBox(), move = whole.transform.baseVal.consolidate().matrix, box = picture.viewBox.baseVal;
  const left = Math.min(box.x, all.x + move.e - 4), top = Math.min(box.y, all.y + move.f - 4);
  const right = Math.max(box.x + box.width, all.x + all.width + move.e + 4), low = Math.max(box.y + box.height, all.y + all.height + move.f + 4);
  picture.setAttribute("viewBox", [left, top, right - left, low - top].map(Math.round).join(" "));
}
