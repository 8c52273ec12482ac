"use strict";
/* The page: what is shown of the network, of a component and of the steps, and what keys and buttons do. */
const data = JSON.parse(document.getElementById("data").textContent);
const network = new Network(data.parts, data.events.length);
const numbers = new Map(data.events.map((name, event) => [name, event]));
const culprits = new Set(data.culprits);
const walks = data.walks.map((walk) => new Walk(walk.name, walk.events, walk.stuck));
const view = { selected: data.culprits[0] || 0, walk: null, zoom: null, parts: data.view, picture: "first", shownParts: 60, wait: null, ring: [], moved: new Set(), channels: new Map(), hasKeys: true };
const at = (id) => document.getElementById(id);
const firstPicture = document.querySelector("#picture svg");
const canStep = data.parts.length > 0 && data.parts.every((part) => part.table);
const MOST_BUTTONS = 40, MANY_BUTTONS = 12, FEW_EVENTS = 4, MANY_EVENTS = 24, MOST_WAITS = 12, MOST_OFFERS = 12, NEAR_NODES = 14, MOST_IN_RING = 120;

function el(tag, attributes, ...children) {
  const made = document.createElement(tag);
  for (const [name, value] of Object.entries(attributes || {})) {
    if (name === "on") made.addEventListener("click", value);
    else if (value === true) made.setAttribute(name, "");
    else if (value !== false && value !== null) made.setAttribute(name, value);
  }
  made.append(...children);
  return made;
}

const event = (number) => data.events[number];
const call = (part) => data.parts[part].call;
const eventSet = (events) => (events.length ? `{${events.slice(0, 8).map(event).join(", ")}${events.length > 8 ? `, and ${events.length - 8} more` : ""}}` : "nothing at all");
const counted = (count, word) => `${count} ${word}${count === 1 ? "" : "s"}`;
const listed = (parts, most = 4) => parts.slice(0, most).map(call).join(", ") + (parts.length > most ? ` and ${parts.length - most} more` : "");

/** A component's name as a button that opens it. */
function partButton(part) {
  return el("button", { type: "button", class: "link", "data-part": part, on: () => select(part) }, data.parts[part].title);
}

// the picture of the network

function neighbours(part) {
  return data.links.filter(([one, other]) => one === part || other === part).map(([one, other]) => (one === part ? other : one));
}

/** The components about one, as many as a picture holds. */
function about(part) {
  const kept = [part];
  for (const other of kept) {
    if (kept.length >= 24) break;
    neighbours(other).forEach((next) => kept.includes(next) || kept.length >= 24 || kept.push(next));
  }
  return kept;
}

function plainNetwork(parts) {
  const places = new Map(parts.map((part, place) => [part, place]));
  const inside = data.links.filter(([one, other]) => places.has(one) && places.has(other));
  const withLabels = inside.length <= 8 || (inside.length <= data.most.labelled && inside.length === parts.length);
  const nodes = parts.map((part) => {
    const title = data.parts[part].title;
    return { name: part, lines: [title, "at node 0"], shape: "box", w: Math.max(96, title.length * 8.2 + 24), h: 46 };
  });
  const edges = inside.map(([one, other, directed, events]) => ({ from: places.get(one), to: places.get(other), directed: directed === 1, lines: withLabels ? eventLines(events.map(event)) : [] }));
  const cells = data.cells && parts.map((part) => data.cells[part]);
  return plainPicture(nodes, edges, { across: false, both: !edges.some((edge) => edge.directed), cells, gap: { main: 100, side: 48 } });
}

/** Components in a ring, each with a line to the next; `lines` says what stands at it, and what kind of line it is. */
function ringPicture(ring, lines, directed) {
  const nodes = ring.map((part) => ({ name: part, lines: [data.parts[part].title, "at node 0"], shape: "box", w: Math.max(96, data.parts[part].title.length * 8.2 + 24), h: 46 }));
  const edges = ring.map((part, place) => ({ from: place, to: (place + 1) % ring.length, directed, lines: ring.length > 1 && ring.length <= data.most.labelled ? eventLines(lines(part, ring[(place + 1) % ring.length])) : [] }));
  return plainPicture(nodes, ring.length === 2 ? edges.slice(0, directed ? 2 : 1) : edges, { across: false, both: true, ring: ring.length > 2 ? [...ring.keys()] : null, gap: { main: 100, side: 48 } });
}

const sharedEvents = (one, other) => data.links.find(([left, right]) => (left === one && right === other) || (left === other && right === one))?.[3] || [];

/** The circle that the report tells, and nothing else. */
function showCircle() {
  view.parts = data.circle;
  view.picture = "circle";
  showPicture(ringPicture(data.circle, (one, other) => sharedEvents(one, other).map(event), false));
  showLegend();
  markPicture();
}

/** The components that wait for one another in a circle where the network stands still. */
function showWaiting() {
  view.parts = view.ring;
  view.picture = "waiting";
  const wanted = (one, other) => network.waits(one).filter((wait) => wait.for.includes(other)).map((wait) => event(wait.event));
  showPicture(ringPicture(view.ring, wanted, true));
  showLegend();
  markPicture();
}

/** Puts a picture in its room: nodes get names and keys. */
function showPicture(picture) {
  picture.setAttribute("role", "group");
  picture.setAttribute("aria-label", "Components and links");
  const marks = svg("defs", {}, svg("marker", { id: "waits-head", viewBox: "0 0 10 10", refX: 9, refY: 5, markerWidth: 5, markerHeight: 5, orient: "auto-start-reverse" }, svg("path", { d: "M0 0L10 5L0 10z" })));
  picture.prepend(marks);
  for (const node of picture.querySelectorAll(".node")) {
    const part = Number(node.dataset.node);
    node.setAttribute("tabindex", "0");
    node.setAttribute("role", "button");
    node.classList.toggle("culprit", culprits.has(part));
    node.querySelectorAll("text")[1]?.classList.add("at");
    node.addEventListener("click", () => select(part));
    node.addEventListener("keydown", (press) => {
      if (press.key !== "Enter" && press.key !== " ") return;
      press.preventDefault();
      select(part);
    });
  }
  const marked = new Set(data.marked.flatMap(([one, other]) => [`${one}-${other}`, `${other}-${one}`]));
  for (const edge of picture.querySelectorAll(".edge")) {
    edge.classList.toggle("marked", marked.has(`${edge.dataset.from}-${edge.dataset.to}`));
    const link = data.links.find(([one, other]) => one === Number(edge.dataset.from) && other === Number(edge.dataset.to));
    if (link) edge.append(svg("title", {}, `${call(link[0])} ${link[2] ? "→" : "–"} ${call(link[1])}: ${link[3].map(event).join(", ")}`));
  }
  at("picture").replaceChildren(picture);
  if (!picture.querySelector(".label")) placeLabels(picture);
  view.zoom = Math.min(1.25, fitOf(picture, at("picture")));
  scaled(picture, view.zoom);
  at("whole-view").hidden = view.picture === "first";
  // where all components are drawn, and all are in the circle, there is nothing to leave out
  const isAll = view.parts.length === data.parts.length && data.circle.length === data.parts.length;
  at("only-circle").hidden = view.picture === "circle" || data.circle.length < 2 || isAll;
}

/** The scale at which all of a picture is seen in its room, without a bar to scroll it. */
function fitOf(picture, room) {
  scaled(picture, 0);
  const box = picture.viewBox.baseVal, style = getComputedStyle(room), sum = (...names) => names.reduce((all, name) => all + parseFloat(style[name]), 0);
  const wide = room.clientWidth - sum("paddingLeft", "paddingRight");
  const high = parseFloat(style.maxHeight) - sum("paddingTop", "paddingBottom", "borderTopWidth", "borderBottomWidth");
  return Math.max(0.05, Math.min((wide - 1) / box.width, (high - 1) / box.height));
}

function scaled(picture, scale) {
  const box = picture.viewBox.baseVal;
  picture.setAttribute("width", Math.floor(box.width * scale));
  picture.setAttribute("height", Math.floor(box.height * scale));
}

/** Scrolls a room, and nothing else, to what is shown in it. */
function toMiddle(room, shown) {
  if (!shown) return;
  const box = shown.getBoundingClientRect(), outside = room.getBoundingClientRect();
  room.scrollBy(box.left + box.width / 2 - outside.left - outside.width / 2, box.top + box.height / 2 - outside.top - outside.height / 2);
}

function zoom(step) {
  const picture = document.querySelector("#picture svg"), room = at("picture");
  view.zoom = step === 0 ? Math.min(1.25, fitOf(picture, room)) : Math.min(3, Math.max(0.2, view.zoom * (step > 0 ? 1.25 : 0.8)));
  scaled(picture, view.zoom);
  toMiddle(room, picture.querySelector(`.node[data-node="${view.selected}"]`));
}

function showFirstPicture() {
  view.parts = data.view;
  view.picture = "first";
  showPicture(firstPicture || plainNetwork(view.parts));
  showLegend();
}

function showLegend() {
  const directed = data.links.some((link) => link[2] === 1);
  const says = [];
  const sorts = { first: "those of the answer, and what is about them", about: `what is about ${call(view.selected)}`, circle: "the circle that the answer tells", waiting: "those that wait for one another in a circle" };
  if (view.parts.length < data.parts.length) says.push(`${view.parts.length} of ${data.parts.length} components: ${sorts[view.picture]}. The others are in the list below.`);
  else says.push(`${counted(data.parts.length, "component")}, ${counted(data.links.length, "link")}.`);
  if (directed) says.push(document.body.dataset.rule === "resource" ? "An arrow goes from a user to a resource." : "An arrow goes from a client to its server.");
  if (!data.known) says.push("How components are called and their alphabets could not be read from the script, so an event counts as theirs where their tables have it.");
  if (culprits.size) says.push(data.culprits.length > 1 ? "Red is what the answer names." : "Red is the component that the answer names.");
  at("legend").textContent = says.join(" ");
}

/** Colours of the moment: who moved, who waits for whom, where each stands. */
function markPicture() {
  const waiting = new Map();
  if (view.wait) {
    for (const [part, others] of view.wait) others.forEach((other) => waiting.set(`${part}-${other}`, true));
  }
  for (const node of document.querySelectorAll("#picture .node")) {
    const part = Number(node.dataset.node), text = node.querySelectorAll("text")[1];
    node.classList.toggle("selected", part === view.selected);
    node.classList.toggle("moved", view.moved.has(part));
    node.classList.toggle("waits", Boolean(view.wait && view.wait.has(part)));
    const where = data.parts[part].table ? `at node ${network.at[part]}` : "no table";
    if (text) text.textContent = where;
    node.setAttribute("aria-label", `${data.parts[part].title}, ${where}${culprits.has(part) ? ", named by the answer" : ""}`);
    node.setAttribute("aria-pressed", part === view.selected);
  }
  for (const edge of document.querySelectorAll("#picture .edge")) {
    const { from, to } = edge.dataset, path = edge.querySelector("path");
    const there = waiting.has(`${from}-${to}`), back = waiting.has(`${to}-${from}`);
    edge.classList.toggle("waits", there || back);
    edge.classList.toggle("waits-back", back && !there);
    if (!path) continue;
    path.toggleAttribute("marker-end", false);
    path.toggleAttribute("marker-start", false);
    if (there && !edge.querySelector(".head")) path.setAttribute("marker-end", "url(#waits-head)");
    if (back) path.setAttribute("marker-start", "url(#waits-head)");
  }
}

// the list of components

function shownParts() {
  const wanted = at("part-filter").value.trim().toLowerCase();
  const order = [...data.culprits, ...data.parts.keys()];
  return [...new Set(order)].filter((part) => !wanted || data.parts[part].title.toLowerCase().includes(wanted));
}

function showParts() {
  const parts = shownParts();
  at("all-parts-head").textContent = `All ${counted(data.parts.length, "component")} in a list`;
  if (!at("all-parts").open) return;
  const rows = parts.slice(0, view.shownParts).map((part) => {
    const waits = network.waits(part), offered = waits.map((wait) => wait.event);
    const others = [...new Set(waits.flatMap((wait) => wait.for))];
    return el("tr", { class: culprits.has(part) ? "culprit" : null }, el("td", {}, partButton(part)), el("td", {}, String(network.at[part])), el("td", { class: "event" }, eventSet(offered)),
      el("td", {}, !canStep ? "" : waits.some((wait) => wait.for.length === 0) ? "can move" : listed(others)));
  });
  at("part-rows").replaceChildren(...rows);
  at("more-parts").hidden = parts.length <= view.shownParts;
}

// a component

function select(part) {
  view.selected = part;
  if (!view.parts.includes(part)) {
    view.parts = about(part);
    view.picture = "about";
    showPicture(plainNetwork(view.parts));
    showLegend();
  }
  showPart();
  markPicture();
  at("component").scrollIntoView({ block: "nearest" });
  keepAddress();
}

/** The node of a component that the answer is about, with what is said of it. */
function toldNodes(part) {
  const told = [];
  const follow = (trace) => trace.reduce((node, step) => (node === undefined ? node : network.components[part].nodes[node].steps.get(step)), 0);
  const after = (trace) => (trace.length ? `after <${trace.map(event).join(", ")}>` : "at the start");
  for (const [own, trace] of data.traces) {
    if (own === part) told.push({ node: follow(trace), text: `The answer speaks of it ${after(trace)}` });
  }
  for (const each of data.crossed) {
    if (each.user === part) told.push({ node: follow(each.trace), text: `${after(each.trace)[0].toUpperCase()}${after(each.trace).slice(1)} it holds ${call(each.holds)} and may want ${call(each.wants)}` });
  }
  return told.filter((each) => each.node !== undefined);
}

function showPart() {
  const part = view.selected, own = data.parts[part], told = toldNodes(part);
  at("part-choice").value = String(part);
  at("component-head").textContent = own.title;
  const nodes = network.components[part].nodes;
  at("part-definition").replaceChildren(`Component ${part} of ${data.parts.length}, ${own.table ? counted(nodes.length, "node") : "without a table here"}. `, ...(own.line ? ["Defined on ", el("a", { href: `#line-${own.line}` }, `line ${own.line}`), "."] : []));
  at("part-told").hidden = !told.length;
  at("part-told").textContent = told.map((each) => `${each.text}: node ${each.node}.`).join(" ");
  at("part-choices").replaceChildren(...(canStep && network.choices(part) ? [choiceRow(part)] : []));
  showMachine(part, told);
  at("part-links").replaceChildren(...data.links.filter(([one, other]) => one === part || other === part).map(([one, other, directed, events]) => {
    const away = one === part ? other : one;
    const how = !directed ? "with" : document.body.dataset.rule === "resource" ? (one === part ? "uses" : "is used by") : one === part ? "is a client of" : "serves";
    return el("li", {}, `${how} `, partButton(away), " by ", el("span", { class: "event" }, eventSet(events)));
  }));
  showNodes(part);
}

/** The nodes of a table that are drawn: all of them, or those that are next to where it stands. */
function drawnNodes(part) {
  const nodes = network.components[part].nodes;
  if (nodes.length <= data.most.nodes && new Set(nodes.flatMap((node, from) => [...node.steps.values()].map((to) => `${from}-${to}`))).size <= data.most.ways) return [...nodes.keys()];
  const kept = [network.at[part]];
  for (const from of kept) {
    for (const to of nodes[from].steps.values()) {
      if (!kept.includes(to) && kept.length < NEAR_NODES) kept.push(to);
    }
  }
  return kept;
}

/** The ways between nodes of a table: events by the two nodes between which they lead. */
function waysOf(part, drawn) {
  const ways = new Map(), within = new Set(drawn);
  for (const from of drawn) {
    network.components[part].nodes[from].steps.forEach((to, step) => {
      const key = `${from}-${to}`;
      if (!within.has(to)) return;
      if (!ways.has(key)) ways.set(key, { from, to, events: [] });
      ways.get(key).events.push(step);
    });
  }
  return ways;
}

function sortOf(node) {
  return !node.accepts ? "circle" : node.accepts.some((offer) => offer.length === 0) ? "doublecircle" : "box";
}

function plainMachine(part, drawn, ways) {
  const all = network.components[part].nodes, place = new Map(drawn.map((number, at) => [number, at]));
  const nodes = drawn.map((number) => ({ name: number, lines: [String(number)], shape: sortOf(all[number]), w: Math.max(36, String(number).length * 10 + 12), h: 36 }));
  const edges = [...ways.values()].map((way) => ({ from: place.get(way.from), to: place.get(way.to), directed: true, lines: eventLines(way.events.map(event)) }));
  const long = Math.max(0, ...edges.flatMap((edge) => edge.lines.map((line) => line.length)));
  return plainPicture(nodes, edges, { across: true, roots: [0], gap: { main: Math.max(70, long * 7.5), side: 64 } });
}

/** What the page's picture of a table has at its lines, and how it is coloured at the moment. */
function markMachine(picture, part, ways, told) {
  const possible = new Set(network.possible()), marks = new Set(told.map((each) => each.node));
  for (const edge of picture.querySelectorAll(".edge[data-from]")) {
    const way = ways.get(`${edge.dataset.from}-${edge.dataset.to}`);
    const lines = eventLines(way.events.map(event));
    edge.querySelectorAll("text").forEach((text, place) => (text.textContent = lines[place] || ""));
    edge.classList.toggle("open", way.from === network.at[part] && way.events.some((step) => possible.has(step) && network.isOffered(part, step)));
    edge.append(svg("title", {}, `${way.from} to ${way.to}: ${way.events.map(event).join(", ")}`));
  }
  for (const node of picture.querySelectorAll(".node[data-node]")) {
    node.classList.toggle("now", Number(node.dataset.node) === network.at[part]);
    node.classList.toggle("culprit", marks.has(Number(node.dataset.node)));
  }
}

function showMachine(part, told) {
  const nodes = network.components[part].nodes, number = data.machines[part];
  at("machine").hidden = at("machine-legend").hidden = at("node-list").hidden = !data.parts[part].table;
  if (!data.parts[part].table) return;
  const drawn = drawnNodes(part), ways = waysOf(part, drawn);
  const picture = number === undefined ? plainMachine(part, drawn, ways) : at(`machine-${number}`).content.firstElementChild.cloneNode(true);
  markMachine(picture, part, ways, told);
  picture.setAttribute("role", "img");
  picture.setAttribute("aria-label", `The table of ${data.parts[part].title} as a state machine, now at node ${network.at[part]}`);
  at("machine").replaceChildren(picture);
  // all of it, as far as its texts can be read
  scaled(picture, Math.min(1.25, Math.max(0.6, fitOf(picture, at("machine")))));
  toMiddle(at("machine"), picture.querySelector(".node.now"));
  const says = ["Blue is where it stands, and what can happen there now."];
  if (drawn.length < nodes.length) says.push(`Drawn are ${drawn.length} of ${nodes.length} nodes, from there on.`);
  if (drawn.some((each) => nodes[each].accepts)) says.push("In a square node it may settle on less than all that it can do; with a double ring, on nothing at all.");
  at("machine-legend").textContent = says.join(" ");
}

function showNodes(part) {
  if (!at("node-list").open) return;
  const nodes = network.components[part].nodes, here = network.at[part];
  // of a great table the nodes from the present one on
  const first = nodes.length <= 200 ? 0 : here, last = Math.min(nodes.length, first + 200);
  const rows = [];
  for (let number = first; number < last; number += 1) {
    const steps = [...nodes[number].steps], few = steps.slice(0, 40).map(([step, to]) => `${event(step)} → ${to}`).join(", ");
    rows.push(el("tr", { class: number === here ? "now" : null }, el("td", {}, String(number)), el("td", { class: "event" }, few + (steps.length > 40 ? `, and ${steps.length - 40} more` : "")),
      el("td", { class: "event" }, (nodes[number].accepts || []).slice(0, 20).map(eventSet).join(" or "))));
  }
  if (last < nodes.length) rows.push(el("tr", {}, el("td", { colspan: 3 }, `and ${nodes.length - last} more nodes`)));
  at("node-rows").replaceChildren(...rows);
}

// steps

function choiceRow(part) {
  const picked = network.picks.get(part);
  const button = (place, text) => el("button", { type: "button", "aria-pressed": String((picked === undefined ? null : picked) === place), "data-pick": place === null ? "open" : place, on: () => pick(part, place) }, text);
  return el("div", { class: "offer", role: "group", "aria-label": `What ${call(part)} settles on`, "data-part": part }, el("span", {}, `${data.parts[part].title} settles on`), button(null, "anything"),
    ...network.choices(part).slice(0, MOST_OFFERS).map((offer, place) => button(place, eventSet(offer))), network.choices(part).length > MOST_OFFERS ? `and ${network.choices(part).length - MOST_OFFERS} more` : "");
}

function showChoices(possible) {
  const open = data.parts.map((_, part) => part).filter((part) => network.choices(part));
  const acts = new Set(possible.flatMap((step) => network.owners[step]));
  open.sort((one, other) => acts.has(other) - acts.has(one) || network.picks.has(other) - network.picks.has(one) || one - other);
  const rows = open.slice(0, 8).map(choiceRow);
  const room = at("choices");
  room.replaceChildren();
  if (!open.length) return;
  const find = possible.length ? [el("p", {}, el("button", { type: "button", id: "find", on: findStandstill }, "Can it stand still here?"), " ", el("span", { id: "found", role: "status" }))] : [];
  room.append(el("div", { class: "group" }, el("p", {}, "These may choose by themselves what they wait for, and then take nothing else:"), ...rows, ...(open.length > 8 ? [el("p", {}, `and ${open.length - 8} more, each where its table is shown`)] : []), ...find));
}

function eventButton(step, place, along) {
  const owners = network.owners[step];
  return el("button", { type: "button", class: step === along ? "along" : null, "data-event": event(step), on: () => take(step) }, el("kbd", {}, place < 9 ? String(place + 1) : "·"), el("span", { class: "event" }, event(step)),
    el("small", {}, (owners.length === 1 ? `${call(owners[0])} alone` : owners.map(call).join(" with ")) + (step === along ? ", next of the run" : "")));
}

function possibleInOrder() {
  const possible = network.possible(), along = view.walk ? view.walk.next() : undefined;
  return along !== undefined && possible.includes(along) ? [along, ...possible.filter((step) => step !== along)] : possible;
}

/** The possible events that are shown: where there are many, those that have what is looked for in their names. */
function shownEvents() {
  const possible = possibleInOrder(), wanted = at("event-filter").value.trim().toLowerCase();
  at("event-find").hidden = possible.length <= MANY_EVENTS;
  return possible.length <= MANY_EVENTS || !wanted ? possible : possible.filter((step) => event(step).toLowerCase().includes(wanted));
}

/** Many events by their channels: the next of the run first, then each channel with how many there are. */
function byChannel(possible, along) {
  const channels = new Map();
  for (const step of possible) {
    const channel = event(step).split(".")[0];
    channels.set(channel, [...(channels.get(channel) || []), step]);
  }
  const places = new Map(possible.map((step, place) => [step, place]));
  return [...channels].map(([channel, steps]) => {
    const buttons = steps.slice(0, MOST_BUTTONS).map((step) => eventButton(step, places.get(step), along));
    const more = steps.length > MOST_BUTTONS ? [el("p", {}, `and ${steps.length - MOST_BUTTONS} more`)] : [];
    if (steps.length < FEW_EVENTS) return el("div", { class: "events" }, ...buttons);
    const isOpen = view.channels.has(channel) ? view.channels.get(channel) : steps.includes(along) || channels.size === 1;
    const room = el("details", { class: "channel", open: isOpen }, el("summary", {}, el("span", { class: "event" }, channel), ` ${counted(steps.length, "event")}`), el("div", { class: "events" }, ...buttons), ...more);
    room.addEventListener("toggle", () => view.channels.set(channel, room.open));
    return room;
  });
}

function showPossible() {
  const along = view.walk ? view.walk.next() : undefined, possible = shownEvents();
  const buttons = possible.length > MANY_BUTTONS ? byChannel(possible, along) : [el("div", { class: "events" }, ...possible.map((step, place) => eventButton(step, place, along)))];
  at("possible").replaceChildren(...(possible.length ? [el("div", { class: "group" }, el("p", {}, "Take one of the events that are possible:"), ...buttons)] : []));
}

/** A shortest way from a component back to it, along what is waited for. */
function ringFrom(start, wait) {
  const before = new Map([[start, null]]), todo = [start];
  for (const part of todo) {
    for (const other of wait.get(part)) {
      if (other === start) {
        const ring = [];
        for (let each = part; each !== null; each = before.get(each)) ring.unshift(each);
        return ring;
      }
      if (!before.has(other)) {
        before.set(other, part);
        todo.push(other);
      }
    }
  }
  return [];
}

/** Components of which each waits for the next, and the last for the first: three or more where there are such, else two, else none. */
function circleOf(wait) {
  const rings = [...wait.keys()].map((start) => ringFrom(start, wait)).filter((ring) => ring.length);
  const long = rings.filter((ring) => ring.length > 2);
  return (long.length ? long : rings).sort((one, other) => one.length - other.length)[0] || [];
}

function waitLine(part) {
  const waits = network.waits(part);
  if (!waits.length) return el("li", {}, partButton(part), " has stopped: it offers nothing.");
  const few = waits.slice(0, 3).flatMap((wait, place) => [place ? "; for " : " waits for ", el("span", { class: "event" }, event(wait.event)), `, which ${wait.for.map(call).join(" and ")} ${wait.for.length === 1 ? "does" : "do"} not offer`]);
  return el("li", {}, partButton(part), ...few, waits.length > 3 ? `; and for ${waits.length - 3} more.` : ".");
}

function showStandstill(isStill) {
  view.wait = isStill ? new Map(data.parts.map((_, part) => [part, [...new Set(network.waits(part).flatMap((wait) => wait.for))]])) : null;
  const ring = (view.ring = isStill ? circleOf(view.wait) : []);
  at("standstill").hidden = !isStill;
  at("only-waiting").hidden = ring.length < 2;
  if (!isStill) return;
  const order = [...new Set([...ring, ...data.culprits, ...data.parts.keys()])];
  const circle = ring.length ? [el("p", {}, `Each waits for the next: ${ring.slice(0, 12).map(call).join(" → ")}${ring.length > 12 ? " → … → " : " → "}${call(ring[0])}.`)] : [];
  at("standstill").replaceChildren(el("strong", {}, "Standstill"), el("p", {}, "Nothing can happen here: this is a deadlock of the network."), ...circle, el("ul", {}, ...order.slice(0, MOST_WAITS).map(waitLine)),
    ...(order.length > MOST_WAITS ? [el("p", {}, `and ${order.length - MOST_WAITS} more, which the list of all components has.`)] : []));
  if (ring.length) view.wait = new Map(ring.map((part, place) => [part, [ring[(place + 1) % ring.length]]]));
}

/** The picture follows where the network comes to a standstill, or leaves it: a circle of waiting that it has not whole is drawn by itself. */
function showPictureOfMoment() {
  if (view.picture === "waiting") {
    if (view.ring.length > 1) showWaiting();
    else showFirstPicture();
  } else if (view.ring.length <= MOST_IN_RING && view.ring.some((part) => !view.parts.includes(part))) showWaiting();
}

function pickedText({ chosen, before }) {
  if (chosen.length > 1) return `${chosen.length} components settle`;
  const [part, place] = chosen[0];
  return `${call(part)}: ${place === null ? "anything" : eventSet(network.components[part].nodes[before[0][1]].accepts[place])}`;
}

function showTrail() {
  const steps = network.history, first = Math.max(0, steps.length - 80);
  const items = steps.slice(first).map((step, place) => {
    const text = step.event === undefined ? pickedText(step) : event(step.event);
    const number = first + place + 1;
    return el("li", {}, el("button", { type: "button", class: step.event === undefined ? "event picked" : "event", title: `back to after step ${number}`, "aria-label": `step ${number}, ${text}: back to after it`, on: () => backTo(number) }, text));
  });
  if (first) items.unshift(el("li", {}, `${first} before, `));
  at("trail").replaceChildren(...items);
  at("trail-room").hidden = at("chart-room").hidden = !steps.length;
  at("trail").scrollTop = at("trail").scrollHeight;
  showChart();
}

function showChart() {
  if (!at("chart-room").open || at("chart-room").hidden) return;
  const chart = chartOf(network.history, network.owners), taken = network.history.filter((step) => step.event !== undefined).length;
  at("chart").replaceChildren(drawnChart(chart, network.owners, call, event));
  at("chart-legend").textContent = chart.steps.length < taken ? `The last ${chart.steps.length} of ${taken} events.` : "";
  at("chart").scrollTop = at("chart").scrollHeight;
}

/** The place of the focus among what is drawn anew, as a function that puts it there again. */
function heldFocus() {
  const now = document.activeElement;
  const rooms = ["possible", "choices", "standstill", "trail"].filter((id) => at(id).contains(now));
  if (!rooms.length) return () => {};
  const pick = now.dataset.pick, part = now.closest("[data-part]")?.dataset.part;
  return () => {
    const same = pick !== undefined ? document.querySelector(`#${rooms[0]} [data-part="${part}"] [data-pick="${pick}"]`) : null;
    const found = same || (rooms[0] === "trail" ? at("trail").querySelector("li:last-child button") : null) || at("possible").querySelector("button.along, button") || (at("standstill").hidden ? at("steps-head") : at("standstill"));
    // what is closed can't have the focus
    found.closest("details:not([open])")?.setAttribute("open", "");
    found.focus({ preventScroll: true });
  };
}

function stateText(possible) {
  const taken = network.history.filter((step) => step.event !== undefined).length, walk = view.walk;
  const where = !walk ? `After ${counted(taken, "step")}` : walk.leftAt === null ? `Step ${taken} of ${walk.events.length} of the run` : `Off the run since step ${walk.leftAt}`;
  return `${where}: ${possible.length ? `${counted(possible.length, "event")} possible.` : "nothing can happen."}`;
}

function show() {
  const possible = network.possible(), isStill = canStep && possible.length === 0, toFocus = heldFocus();
  showPossible();
  showChoices(possible);
  showStandstill(isStill);
  showTrail();
  at("state").textContent = stateText(possible);
  document.body.dataset.state = isStill ? "stuck" : "moving";
  at("back").disabled = at("restart").disabled = !network.history.length;
  at("next").disabled = at("end").disabled = !view.walk || view.walk.next() === undefined;
  // where it stands still at the start no button does anything
  at("controls").hidden = isStill && !network.history.length;
  showPictureOfMoment();
  showPart();
  markPicture();
  showParts();
  toFocus();
  keepAddress();
}

/** Writes what is shown into the end of the address, once it has been so for a moment. */
function keepAddress() {
  clearTimeout(view.addressTimer);
  view.addressTimer = setTimeout(() => {
    const run = view.walk ? walks.indexOf(view.walk) : -1;
    history.replaceState(null, "", addressOf(view.selected, run < 0 || run >= data.walks.length ? "none" : run, network.history));
  }, 200);
}

/** Goes to what an address says, as far as it can be gone. */
function goTo(address) {
  view.walk = (address.run !== null && walks[address.run]) || null;
  at("walk-choice").value = view.walk ? String(address.run) : "none";
  network.restart();
  for (const step of address.steps) {
    const isPick = step.event === undefined;
    if (isPick ? !(data.parts[step.part] && network.choices(step.part) && (step.place === null || step.place < network.choices(step.part).length)) : !network.canFollow(step.event)) break;
    if (isPick) network.pick(new Map([[step.part, step.place]]));
    else if (network.take(step.event)) took(step.event);
  }
  if (data.parts[address.selected]) view.selected = address.selected;
  show();
  if (!view.parts.includes(view.selected)) select(view.selected);
}

function took(step) {
  view.moved = new Set(network.owners[step]);
  if (view.walk) view.walk.took(step);
}

function take(step) {
  if (!network.take(step)) return;
  took(step);
  settle();
  show();
}

/** At the end of a run that is stuck: components settle on what leaves nothing possible. */
function settle() {
  if (!view.walk || !view.walk.isStuck || !view.walk.isOver()) return;
  const chosen = network.standstill();
  if (chosen && chosen.size) network.pick(chosen);
}

function pick(part, place) {
  network.pick(new Map([[part, place]]));
  view.moved = new Set();
  show();
}

function undo() {
  const last = network.back();
  if (last && last.event !== undefined && view.walk) view.walk.wentBack();
  return last;
}

function back() {
  // what was settled at the end of a run goes with its last step
  const isSettled = view.walk && view.walk.isStuck && view.walk.isOver();
  let last = undo();
  if (isSettled && last && last.event === undefined && network.history.length) last = undo();
  const before = network.history[network.history.length - 1];
  view.moved = new Set(before && before.event !== undefined ? network.owners[before.event] : []);
  if (last) show();
}

function backTo(count) {
  while (network.history.length > count) undo();
  view.moved = new Set();
  show();
}

function restart() {
  network.restart();
  if (view.walk) view.walk = Object.assign(view.walk, { taken: 0, leftAt: null });
  view.moved = new Set();
  settle();
  show();
}

function next() {
  if (view.walk && view.walk.next() !== undefined) return take(view.walk.next());
  const possible = network.possible();
  if (possible.length === 1) take(possible[0]);
}

function toEnd() {
  while (view.walk && view.walk.next() !== undefined && network.take(view.walk.next())) took(view.walk.next());
  settle();
  show();
}

function findStandstill() {
  const chosen = network.standstill();
  if (!chosen) return (at("found").textContent = "None was found in this state.");
  network.pick(chosen);
  view.moved = new Set();
  show();
  at("standstill").scrollIntoView({ block: "nearest" });
}

function follow(walk) {
  view.walk = walk;
  restart();
}

function showWalks() {
  const options = [el("option", { value: "none" }, "no run: choose each step"), ...walks.map((walk, place) => el("option", { value: place }, walk.name))];
  at("walk-choice").replaceChildren(...options);
}

function followPasted() {
  const read = readWalk(at("paste").value, numbers, network);
  at("paste-fault").textContent = read.fault || "";
  if (read.fault) return;
  walks.push(new Walk(`pasted: ${counted(read.events.length, "event")}`, read.events, read.isStuck));
  showWalks();
  at("walk-choice").value = String(walks.length - 1);
  follow(walks[walks.length - 1]);
}

// keys and buttons

function toFilter() {
  at("all-parts").open = true;
  at("part-filter").focus();
}

const KEYS = { n: next, ArrowRight: next, b: back, ArrowLeft: back, r: restart, e: toEnd, "/": toFilter, "?": () => at("keys").showModal() };

function pressed(press) {
  if (press.ctrlKey || press.metaKey || press.altKey || at("keys").open || press.target.closest("input, textarea, select")) return;
  if (!view.hasKeys && press.key.length === 1) return;
  // arrows move what is scrolled, where that has the focus
  if (press.key.startsWith("Arrow") && press.target.closest(".picture-room, .table-room")) return;
  const place = /^[1-9]$/.test(press.key) ? Number(press.key) - 1 : -1;
  const possible = place >= 0 && canStep ? shownEvents() : [];
  if (place >= 0 && place < possible.length) take(possible[place]);
  else if (KEYS[press.key] && (canStep || "/?".includes(press.key))) KEYS[press.key]();
  else return;
  press.preventDefault();
}

function connect() {
  const on = (id, does) => at(id).addEventListener("click", does);
  on("restart", restart);
  on("back", back);
  on("next", next);
  on("end", toEnd);
  on("follow", followPasted);
  on("zoom-in", () => zoom(1));
  on("zoom-out", () => zoom(-1));
  on("zoom-fit", () => zoom(0));
  on("whole-view", () => (showFirstPicture(), markPicture()));
  on("only-circle", showCircle);
  on("only-waiting", showWaiting);
  on("more-parts", () => ((view.shownParts += 100), showParts()));
  at("walk-choice").addEventListener("change", () => follow(walks[at("walk-choice").value] || null));
  at("part-choice").addEventListener("change", () => select(Number(at("part-choice").value)));
  at("part-filter").addEventListener("input", showParts);
  at("event-filter").addEventListener("input", showPossible);
  at("all-parts").addEventListener("toggle", showParts);
  at("chart-room").addEventListener("toggle", showChart);
  at("node-list").addEventListener("toggle", () => showNodes(view.selected));
  at("to-standstill")?.addEventListener("click", () => {
    at("steps").scrollIntoView();
    at("next").focus({ preventScroll: true });
  });
  document.addEventListener("keydown", pressed);
}

/** Whether letters, digits and signs are keys: what was chosen is kept by the browser where it keeps such things. */
function connectKeyChoice() {
  const kept = (does) => {
    try {
      return does(localStorage);
    } catch {
      return null;
    }
  };
  view.hasKeys = kept((storage) => storage.getItem("dlcheck-keys")) !== "off";
  at("letter-keys").checked = view.hasKeys;
  at("letter-keys").addEventListener("change", () => {
    view.hasKeys = at("letter-keys").checked;
    kept((storage) => storage.setItem("dlcheck-keys", view.hasKeys ? "on" : "off"));
  });
}

function begin() {
  const address = readAddress(location.hash);
  at("show-keys").addEventListener("click", () => at("keys").showModal());
  at("close-keys").addEventListener("click", () => at("keys").close());
  if (innerWidth >= 1080) document.querySelector("#verdict details.used, #verdict details.meaning")?.setAttribute("open", "");
  const marked = document.querySelector(".script .marked");
  if (marked) marked.parentElement.scrollTop = marked.offsetTop - marked.parentElement.offsetTop - 60;
  if (!data.parts.length) return;
  document.body.classList.remove("still");
  document.body.classList.toggle("no-steps", !canStep);
  document.addEventListener("click", (press) => {
    const link = press.target.closest("a[data-part]");
    if (link) select(Number(link.dataset.part));
  });
  at("part-choice").replaceChildren(...data.parts.map((part, place) => el("option", { value: place }, part.title)));
  connect();
  connectKeyChoice();
  showFirstPicture();
  showWalks();
  view.walk = walks[0] || null;
  at("walk-choice").value = walks.length ? "0" : "none";
  if (address) goTo(address);
  else restart();
  addEventListener("hashchange", () => readAddress(location.hash) && goTo(readAddress(location.hash)));
}

begin();
