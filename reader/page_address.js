"use strict";
/* What the page shows at a moment, as the end of its address: the component that is open, the run that is followed, the steps that were taken. */
const LONGEST_ADDRESS = 2000;

/** `#open=2&run=0&steps=4.7.p3-1`: an event by its number, a choice as component and acceptance. Nothing where it would be too long, or more than one settled at once. */
function addressOf(selected, run, history) {
  const steps = [];
  for (const step of history) {
    if (step.event !== undefined) steps.push(String(step.event));
    else steps.push(...step.chosen.map(([part, place]) => `p${part}-${place === null ? "x" : place}`));
  }
  const text = `#open=${selected}&run=${run}${steps.length ? `&steps=${steps.join(".")}` : ""}`;
  return text.length > LONGEST_ADDRESS ? `#open=${selected}&run=${run}` : text;
}

/** What an address says: the component, the run, and steps (an event, or a component with its acceptance); null where it says nothing of the kind. */
function readAddress(hash) {
  const found = /^#open=(\d+)&run=(\d+|none)(?:&steps=([\dp.x-]*))?$/.exec(hash);
  if (!found) return null;
  const steps = (found[3] || "").split(".").filter((piece) => piece).map((piece) => {
    const picked = /^p(\d+)-(\d+|x)$/.exec(piece);
    return picked ? { part: Number(picked[1]), place: picked[2] === "x" ? null : Number(picked[2]) } : { event: Number(piece) };
  });
  return { selected: Number(found[1]), run: found[2] === "none" ? null : Number(found[2]), steps };
}
