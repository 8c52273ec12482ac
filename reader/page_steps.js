"use strict";
/* Steps of the network over the normal tables of its components. A table is deterministic: a node and an event fix the next node. Where a component may
   come to rest in more than one way, or offers less than all that it may do, it has acceptances, and the reader of the page may pick one for it. */
class Network {
  constructor(components, eventCount) {
    this.components = components.map((component) => ({
      alphabet: new Set(component.alphabet),
      // a component without a table stands at a node where it does nothing
      nodes: (component.table || [[[], 0]]).map(([flat, accepts]) => ({ steps: Network.stepsOf(flat), accepts: accepts || null })),
    }));
    this.owners = Array.from({ length: eventCount }, () => []);
    this.components.forEach((component, part) => component.alphabet.forEach((event) => this.owners[event].push(part)));
    this.restart();
  }

  static stepsOf(flat) {
    const steps = new Map();
    for (let place = 0; place < flat.length; place += 2) steps.set(flat[place], flat[place + 1]);
    return steps;
  }

  /** All components at their start, with nothing picked. */
  restart() {
    this.at = this.components.map(() => 0);
    this.picks = new Map();
    this.history = [];
  }

  node(part) {
    return this.components[part].nodes[this.at[part]];
  }

  /** The acceptances between which a component may choose where it stands, or null where it offers all that it can do. */
  choices(part) {
    return this.node(part).accepts;
  }

  /** The events that a component offers: those of the picked acceptance, else all that it can do. */
  offers(part) {
    const node = this.node(part);
    return this.picks.has(part) ? node.accepts[this.picks.get(part)] : [...node.steps.keys()];
  }

  isOffered(part, event) {
    const node = this.node(part);
    return this.picks.has(part) ? node.accepts[this.picks.get(part)].includes(event) : node.steps.has(event);
  }

  /** The events that are possible: each is offered by all components that have it in their alphabet. */
  possible() {
    const counts = new Map();
    this.components.forEach((_, part) => {
      for (const event of this.offers(part)) counts.set(event, (counts.get(event) || 0) + 1);
    });
    return [...counts].filter(([event, count]) => count === this.owners[event].length).map(([event]) => event).sort((one, other) => one - other);
  }

  /** Whether all that have the event can do it where they stand, whatever is picked. */
  canFollow(event) {
    const owners = this.owners[event] || [];
    return owners.length > 0 && owners.every((part) => this.node(part).steps.has(event));
  }

  /** Takes an event: all that have it in their alphabet move, and what was picked for them is gone. */
  take(event) {
    if (!this.canFollow(event)) return false;
    const before = this.owners[event].map((part) => [part, this.at[part], this.picks.get(part)]);
    for (const [part] of before) {
      this.at[part] = this.node(part).steps.get(event);
      this.picks.delete(part);
    }
    this.history.push({ event, before });
    return true;
  }

  /** Picks an acceptance for each of some components, or none (null): one step, that can be taken back. */
  pick(chosen) {
    this.history.push({ chosen: [...chosen], before: [...chosen.keys()].map((part) => [part, this.at[part], this.picks.get(part)]) });
    for (const [part, place] of chosen) {
      if (place === null) this.picks.delete(part);
      else this.picks.set(part, place);
    }
  }

  /** One step back; gives what is undone. */
  back() {
    const last = this.history.pop();
    for (const [part, at, picked] of last ? last.before : []) {
      this.at[part] = at;
      if (picked === undefined) this.picks.delete(part);
      else this.picks.set(part, picked);
    }
    return last;
  }

  /** The components without which a component's offers can't happen: (event, those that don't offer it). */
  waits(part) {
    return this.offers(part).map((event) => ({ event, for: this.owners[event].filter((other) => other !== part && !this.isOffered(other, event)) }));
  }

  /** Acceptances, by component, under which nothing is possible here; null where there are none, or where the search gives up. */
  standstill() {
    let budget = 20000;
    const chosen = new Map();
    const free = (part) => !this.picks.has(part) && !chosen.has(part) && this.choices(part);
    const without = (events, accepted, part) => events.filter((event) => accepted.includes(event) || !this.components[part].alphabet.has(event));
    const search = (events) => {
      if (events.length === 0) return true;
      if (--budget < 0) return false;
      let best = null;
      for (const event of events) {
        const ways = [];
        for (const part of this.owners[event]) {
          if (free(part)) this.choices(part).forEach((accepted, place) => accepted.includes(event) || ways.push([part, place, accepted]));
        }
        if (!best || ways.length < best.length) best = ways;
        if (best.length === 0) return false;
      }
      for (const [part, place, accepted] of best) {
        chosen.set(part, place);
        if (search(without(events, accepted, part))) return true;
        chosen.delete(part);
      }
      return false;
    };
    return search(this.possible()) ? chosen : null;
  }
}

/** A walk that is followed: its events, how many of them were taken, and where the steps left it. */
class Walk {
  constructor(name, events, isStuck) {
    this.name = name;
    this.events = events;
    this.isStuck = isStuck;
    this.taken = 0;
    this.leftAt = null;
  }

  took(event) {
    if (this.leftAt === null && this.events[this.taken] !== event) this.leftAt = this.taken;
    this.taken += 1;
  }

  wentBack() {
    this.taken -= 1;
    if (this.leftAt !== null && this.taken <= this.leftAt) this.leftAt = null;
  }

  /** The next event of the walk, or undefined where it was left or is over. */
  next() {
    return this.leftAt === null ? this.events[this.taken] : undefined;
  }

  isOver() {
    return this.leftAt === null && this.taken >= this.events.length;
  }
}

/** The events of a pasted report of `run`, by number; or a line that is none of its events, or that can't happen there. */
function readWalk(text, numbers, network) {
  const events = [];
  const trial = new Network([], 0);
  Object.assign(trial, { components: network.components, owners: network.owners });
  trial.restart();
  let isStuck = false;
  for (const [place, whole] of text.split("\n").entries()) {
    const line = whole.trim();
    if (line === "" || /^run of \d+ steps?$/.test(line) || /^component \d+ silent$/.test(line) || line === "goes on") continue;
    if (line === "stuck") {
      isStuck = true;
      continue;
    }
    if (!numbers.has(line)) return { fault: `Line ${place + 1}: “${line.slice(0, 60)}” is no event of this network.` };
    if (!trial.take(numbers.get(line))) return { fault: `Line ${place + 1}: ${line} is not possible there.` };
    events.push(numbers.get(line));
  }
  return events.length ? { events, isStuck } : { fault: "There is no event in it." };
}
