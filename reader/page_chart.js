"use strict";
/* The steps so far as a message-sequence chart: a line down for each component that took part, and across for each event, from the latest steps back. */
const CHART = { steps: 60, parts: 16, across: 132, down: 30, head: 30, side: 70 };

/** The last steps of a history that a chart has room for, and the components that took part in them, in their order. */
function chartOf(history, owners) {
  const parts = [], steps = [];
  for (const step of history.filter((each) => each.event !== undefined).slice(-CHART.steps).reverse()) {
    const fresh = owners[step.event].filter((part) => !parts.includes(part));
    if (parts.length + fresh.length > CHART.parts) break;
    parts.push(...fresh);
    steps.unshift(step.event);
  }
  return { parts: parts.sort((one, other) => one - other), steps };
}

function chartLine(points, name) {
  return svg("polyline", { class: name, points: points.map((point) => point.join(",")).join(" ") });
}

/** Draws a chart. `titles` are what stands above the lines, `texts` the names of events. */
function drawnChart({ parts, steps }, owners, titles, texts) {
  const at = new Map(parts.map((part, place) => [part, CHART.side + place * CHART.across]));
  const high = CHART.head + 14 + steps.length * CHART.down + 12, wide = 2 * CHART.side + (parts.length - 1) * CHART.across;
  const made = parts.flatMap((part) => [
    svg("text", { class: "title", x: at.get(part), y: 18 }, titles(part)),
    chartLine([[at.get(part), CHART.head], [at.get(part), high]], "life"),
  ]);
  steps.forEach((step, place) => {
    const down = CHART.head + 24 + place * CHART.down, ends = owners[step].map((part) => at.get(part)).sort((one, other) => one - other);
    if (ends.length > 1) made.push(chartLine([[ends[0], down], [ends[ends.length - 1], down]], "message"));
    for (const end of ends) made.push(svg("circle", { cx: end, cy: down, r: 4 }));
    made.push(svg("text", { x: ((ends[0] + ends[ends.length - 1]) / 2).toFixed(1), y: down - 6 }, texts(step)));
  });
  return svg("svg", { class: "chart", viewBox: `0 0 ${wide} ${high}`, width: wide, height: high, role: "img", "aria-label": `The last ${steps.length} events as a sequence chart` }, ...made);
}
