"use strict";
/* A plain layout for graphs, where there is no picture by Graphviz: nodes in layers, lines as curves. What it makes has the same form as those pictures. */
const SVG = "http://www.w3.org/2000/svg";

function svg(tag, attributes, ...children) {
  const made = document.createElementNS(SVG, tag);
  for (const [name, value] of Object.entries(attributes || {})) made.setAttribute(name, value);
  made.append(...children);
  return made;
}

/** The lines of a label: a few events, one below the other. */
function eventLines(events) {
  return events.length <= 3 ? events : [...events.slice(0, 2), `and ${events.length - 2} more`];
}

/** The layer of each node: its distance from the roots along the edges, or along them in both directions where `both` is set. */
function layersOf(count, edges, roots, both) {
  const after = Array.from({ length: count }, () => []);
  for (const { from, to } of edges) {
    after[from].push(to);
    if (both) after[to].push(from);
  }
  const layer = new Array(count).fill(-1);
  const todo = [];
  const begin = (node, at) => {
    if (layer[node] >= 0) return;
    layer[node] = at;
    todo.push(node);
  };
  const walk = () => {
    for (let place = 0; place < todo.length; place += 1) after[todo[place]].forEach((other) => begin(other, layer[todo[place]] + 1));
    todo.length = 0;
  };
  roots.forEach((root) => begin(root, 0));
  walk();
  for (let node = 0; node < count; node += 1) {
    begin(node, 0);
    walk();
  }
  return layer;
}

/** Roots of a graph with directions: nodes to which nothing leads, or else the first one. */
function rootsOf(count, edges) {
  const reached = new Set(edges.filter(({ from, to }) => from !== to).map(({ to }) => to));
  const roots = Array.from({ length: count }, (_, node) => node).filter((node) => !reached.has(node));
  return roots.length ? roots : [0];
}

/** Nodes by layer, each layer in an order in which neighbours stand near each other. */
function ordered(layer, edges) {
  const rows = [];
  layer.forEach((at, node) => (rows[at] = rows[at] || []).push(node));
  const near = layer.map(() => []);
  for (const { from, to } of edges) {
    near[from].push(to);
    near[to].push(from);
  }
  const place = new Array(layer.length).fill(0);
  rows.forEach((row) => row.forEach((node, at) => (place[node] = at / row.length)));
  for (let sweep = 0; sweep < 8; sweep += 1) {
    const order = sweep % 2 ? [...rows.keys()].reverse() : [...rows.keys()];
    for (const at of order) {
      const middle = (node) => {
        const others = near[node].filter((other) => layer[other] !== at);
        return others.length ? others.reduce((sum, other) => sum + place[other], 0) / others.length : place[node];
      };
      const wanted = new Map(rows[at].map((node) => [node, middle(node)]));
      rows[at].sort((one, other) => wanted.get(one) - wanted.get(other) || one - other);
      rows[at].forEach((node, index) => (place[node] = (index + 0.5) / rows[at].length));
    }
  }
  return rows;
}

/** Places the nodes: layers from left to right or from top to bottom, each in the middle. Long layers are broken into several. */
function placed(nodes, rows, across, gap) {
  const main = across ? "w" : "h", side = across ? "h" : "w";
  const broken = rows.flatMap((row) => {
    const parts = [];
    for (let at = 0; at < row.length; at += 12) parts.push(row.slice(at, at + 12));
    return parts;
  });
  let along = 0;
  for (const row of broken) {
    const deep = Math.max(...row.map((node) => nodes[node][main]));
    const wide = row.reduce((sum, node) => sum + nodes[node][side] + gap.side, -gap.side);
    let beside = -wide / 2;
    for (const node of row) {
      const middle = beside + nodes[node][side] / 2;
      [nodes[node].x, nodes[node].y] = across ? [along + deep / 2, middle] : [middle, along + deep / 2];
      beside += nodes[node][side] + gap.side;
    }
    along += deep + gap.main;
  }
}

/** Where a line from a node's middle towards a point leaves the node. */
function border(node, x, y) {
  const dx = x - node.x, dy = y - node.y;
  if (dx === 0 && dy === 0) return [node.x, node.y];
  if (node.shape !== "box") {
    const long = Math.hypot(dx, dy);
    return [node.x + (dx / long) * (node.w / 2), node.y + (dy / long) * (node.h / 2)];
  }
  const scale = Math.min(node.w / 2 / Math.abs(dx || 1e-9), node.h / 2 / Math.abs(dy || 1e-9));
  return [node.x + dx * scale, node.y + dy * scale];
}

/** The curve of an edge: its four points. */
function curve(one, other, bend) {
  if (one === other) {
    const top = one.y - one.h / 2;
    return [[one.x - 8, top + 2], [one.x - 30, top - 34], [one.x + 30, top - 34], [one.x + 8, top + 2]];
  }
  const dx = other.x - one.x, dy = other.y - one.y, long = Math.hypot(dx, dy) || 1;
  const off = [(-dy / long) * bend, (dx / long) * bend];
  const first = [one.x + dx / 3 + off[0], one.y + dy / 3 + off[1]], second = [one.x + (2 * dx) / 3 + off[0], one.y + (2 * dy) / 3 + off[1]];
  return [border(one, ...first), first, second, border(other, ...second)];
}

function numbersOf(points) {
  return points.map((point) => point.map((value) => value.toFixed(1)).join(",")).join(" ");
}

function arrow([, , [cx, cy], [x, y]]) {
  const long = Math.hypot(x - cx, y - cy) || 1, ux = (x - cx) / long, uy = (y - cy) / long;
  return numbersOf([[x, y], [x - ux * 10 - uy * 4, y - uy * 10 + ux * 4], [x - ux * 10 + uy * 4, y - uy * 10 - ux * 4]]);
}

function texts(lines, x, y, size) {
  return lines.map((line, at) => svg("text", { x: x.toFixed(1), y: (y + (at - (lines.length - 1) / 2) * size + size * 0.3).toFixed(1) }, line));
}

/** The point of a curve that lies at a part of it. */
function pointOf(points, part) {
  const rest = 1 - part, shares = [rest ** 3, 3 * rest * rest * part, 3 * rest * part * part, part ** 3];
  return [0, 1].map((axis) => shares.reduce((sum, share, place) => sum + share * points[place][axis], 0));
}

/** An edge in two groups: its line, and its label, which is drawn above all lines and nodes. `along` says where on the line the label stands. */
function edgeGroups(edge, nodes, bend, along) {
  const points = curve(nodes[edge.from], nodes[edge.to], bend);
  const ends = { class: "edge", "data-from": nodes[edge.from].name, "data-to": nodes[edge.to].name };
  const line = svg("g", ends, svg("path", { d: `M${numbersOf(points.slice(0, 1))} C${numbersOf(points.slice(1))}` }));
  if (edge.directed) line.append(svg("polygon", { class: "head", points: arrow(points) }));
  const place = pointOf(points, edge.from === edge.to ? 0.5 : along);
  const label = svg("g", ends, ...texts(edge.lines || [], place[0], place[1], 13));
  const wide = Math.max(0, ...(edge.lines || []).map((text) => text.length * 3.6));
  return { line, label, corners: [...points, [place[0] - wide, place[1] - 22], [place[0] + wide, place[1] + 22]] };
}

function nodeGroup(node) {
  const group = svg("g", { class: "node", "data-node": node.name });
  const left = node.x - node.w / 2, top = node.y - node.h / 2;
  if (node.shape === "box") {
    group.append(svg("polygon", { points: numbersOf([[left, top], [left + node.w, top], [left + node.w, top + node.h], [left, top + node.h]]) }));
  } else {
    group.append(svg("ellipse", { cx: node.x.toFixed(1), cy: node.y.toFixed(1), rx: node.w / 2, ry: node.h / 2 }));
    if (node.shape === "doublecircle") group.append(svg("ellipse", { cx: node.x.toFixed(1), cy: node.y.toFixed(1), rx: node.w / 2 - 4, ry: node.h / 2 - 4 }));
  }
  group.append(...texts(node.lines, node.x, node.y, 16));
  return group;
}

/** How far each edge bends: those that run the same way or back lie apart, and those that pass over layers go round what is there. */
function bends(edges, layer, wide) {
  const pairs = new Set(edges.map(({ from, to }) => `${from}-${to}`));
  return edges.map(({ from, to }) => {
    const far = Math.abs(layer[from] - layer[to]);
    if (far > 1) return wide * 0.7 + 18 * far;
    return pairs.has(`${to}-${from}`) && from !== to ? 30 : far === 0 ? 34 : 0;
  });
}

/** The order of nodes round a ring, or null where they are none: each has two neighbours, and all hang together. */
function ringOf(count, edges) {
  const near = Array.from({ length: count }, () => new Set());
  for (const { from, to } of edges) {
    near[from].add(to);
    near[to].add(from);
  }
  if (count < 3 || near.some((others) => others.size !== 2)) return null;
  const order = [0];
  for (let at = [...near[0]][0]; at !== 0 && order.length <= count; at = [...near[at]].find((other) => !order.slice(-2).includes(other)) ?? 0) order.push(at);
  return order.length === count ? order : null;
}

/** A long ring in rows: the first row goes to the right, further rows back and forth behind the first column, and the first column leads back up. */
function placedInRows(nodes, order) {
  const wide = Math.max(...nodes.map((node) => node.w)) + 44, high = nodes[0].h + 60;
  const rows = 2 * Math.max(1, Math.round(Math.sqrt((order.length * wide) / high / 1.6 / 4) * 1)), columns = Math.ceil(order.length / rows) + 1;
  const cells = [];
  for (let row = 0; row < rows; row += 1) {
    const across = Array.from({ length: columns - 1 }, (_, column) => column + 1);
    for (const column of row % 2 ? across.reverse() : across) cells.push([row, column]);
  }
  for (let row = rows - 1; row >= 0; row -= 1) cells.push([row, 0]);
  // where there are more cells than nodes, the last ones of the way back stay free
  const surplus = cells.length - order.length;
  const kept = surplus > 0 ? [...cells.slice(0, cells.length - rows).slice(0, order.length - Math.min(rows, order.length - 1)), ...cells.slice(-Math.min(rows, order.length - 1))] : cells;
  order.forEach((node, place) => ([nodes[node].x, nodes[node].y] = [kept[place][1] * wide, kept[place][0] * high]));
}

function placedInRing(nodes, order) {
  if (order.length > 20) return placedInRows(nodes, order);
  const wide = Math.max(...nodes.map((node) => node.w)) + 110, round = Math.max(150, (order.length * wide) / (2 * Math.PI));
  order.forEach((node, place) => {
    const angle = (2 * Math.PI * place) / order.length - Math.PI / 2;
    [nodes[node].x, nodes[node].y] = [round * Math.cos(angle), round * 0.75 * Math.sin(angle)];
  });
}

/** Places the nodes in a grid: each has its row, its column, and which it is of those that stand there. */
function placedInGrid(nodes, cells) {
  const wide = Math.max(...nodes.map((node) => node.w)) + 70, kinds = 1 + Math.max(...cells.map(([, , which]) => which));
  const [low, left] = [0, 1].map((axis) => Math.min(...cells.map((cell) => cell[axis])));
  cells.forEach(([row, column, which], node) => {
    nodes[node].x = (column - left) * (wide + 60 * (kinds - 1)) + 60 * which;
    nodes[node].y = (row - low) * (116 + 60 * (kinds - 1)) + 60 * which;
  });
}

/** Draws a graph. A node is { name, lines, shape, w, h }, an edge { from, to, lines, directed } by places of nodes. */
function plainPicture(nodes, edges, { across, both, roots, ring: known, cells, gap }) {
  const ring = known || (across ? null : ringOf(nodes.length, edges));
  const layer = layersOf(nodes.length, edges, roots || rootsOf(nodes.length, edges), both);
  if (cells && !known) placedInGrid(nodes, cells);
  else if (ring) placedInRing(nodes, ring);
  else placed(nodes, ordered(layer, edges), across, gap);
  const bend = bends(edges, layer, Math.max(...nodes.map((node) => (across ? node.h : node.w))));
  // neighbouring labels stand at different heights
  const drawn = edges.map((edge, place) => edgeGroups(edge, nodes, ring ? 0 : bend[place], edges.length > 3 ? [0.36, 0.5, 0.64][place % 3] : 0.5));
  const corners = drawn.flatMap((edge) => edge.corners);
  for (const node of nodes) corners.push([node.x - node.w / 2, node.y - node.h / 2], [node.x + node.w / 2, node.y + node.h / 2]);
  const low = [0, 1].map((axis) => Math.min(...corners.map((point) => point[axis])) - 6);
  const size = [0, 1].map((axis) => Math.ceil(Math.max(...corners.map((point) => point[axis])) - low[axis] + 6));
  const inside = [...drawn.map((edge) => edge.line), ...nodes.map(nodeGroup), ...drawn.map((edge) => edge.label)];
  const whole = svg("g", { transform: `translate(${-low[0].toFixed(1)} ${-low[1].toFixed(1)})` }, ...inside);
  return svg("svg", { class: "picture", viewBox: `0 0 ${size[0]} ${size[1]}`, width: size[0], height: size[1] }, whole);
}
