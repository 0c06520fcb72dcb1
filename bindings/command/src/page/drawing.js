// The trees and the strip of leaves, as SVG. A leaf has one column in all of them. Where there is room a tree is boxes
// and lines, else boxes upon boxes; nothing is folded, since that would tell what will be cut off.
const FONT = '"Helvetica Neue",Helvetica,Arial,"Liberation Sans",sans-serif';
const pen = document.createElement("canvas").getContext("2d");
const room = {size: 16, narrow: false, linked: true, column: 20, width: 600, level: 40, box: 20, row: 20, head: 2};

const SIGNS = {"&": "&amp;", "<": "&lt;", ">": "&gt;", '"': "&quot;"};
const escaped = s => s.replace(/[&<>"]/g, c => SIGNS[c]);
const f = v => +v.toFixed(1);
const nameOf = (tree, k) => tree.names[k] ? k + " " + tree.names[k] : "" + k;
const outline = (x, y, w, h) => `M${f(x)} ${f(y)}h${f(w)}v${f(h)}h${f(-w)}z`;

function rect(x, y, w, h, r = 0, kind = "box") {
  return `<rect class="${kind}" x="${f(x)}" y="${f(y)}" width="${f(w)}" height="${f(h)}"${r ? ` rx="${f(r)}"` : ""}/>`;
}

function svg(width, high, name, inner) {
  const size = `viewBox="0 0 ${f(width)} ${f(high)}" style="width:${f(width)}px;height:${f(high)}px"`;
  return `<svg role="img" aria-label="${escaped(name)}" ${size}>${inner}</svg>`;
}

function wide(text, em = 1, bold = false) {
  pen.font = `${bold ? "bold " : ""}${room.size * em}px ${FONT}`;
  return pen.measureText(text).width;
}

// A text whose middle is at a height; turned, it reads from below.
function label(x, y, text, em, kind, turned = false) {
  const size = room.size * em, half = size * .36;
  const at = turned ? `transform="translate(${f(x + half)} ${f(y)}) rotate(-90)"` : `x="${f(x)}" y="${f(y + half)}"`;
  return `<text class="${kind}" font-size="${f(size)}" ${at}>${escaped(text)}</text>`;
}

// How large everything is, so that all runs fit the window, or a page of A4, where that can be.
function measure(tree, runs, paper = false) {
  const L = tree.columns.length, R = runs.length, [across, down] = paper ? [1040, 690] : [innerWidth, innerHeight];
  room.narrow = !paper && matchMedia("(max-width:760px)").matches;
  room.size = paper ? 12 : letters(tree, R, across, down);
  const {size, narrow} = room, space = paper ? across - 20 * size : document.getElementById("leaves").clientWidth;
  room.column = L <= 60 && !paper ? Math.max(space / L, size * 1.15) : space / L;
  room.width = room.column * L;
  room.row = size * (narrow ? 2.1 : 1.45);
  room.head = room.column > size * 1.6 ? size * 1.1 : 2;
  const bars = [...document.querySelectorAll("header,.controls")].reduce((sum, e) => sum + e.offsetHeight, 0);
  const free = (down - bars - (1.45 * R + 6) * size) / R - 1.7 * size;
  levels(tree.deepest, Math.max(free, (paper ? 8 : 10) * size)); // the words beside a tree take as much
  document.body.classList.toggle("scrolls", room.width > space + 1);
  document.body.classList.toggle("stacked", !room.linked);
}

// The size of the letters: as large as a wall allows.
function letters(tree, runs, across, down) {
  const root = document.documentElement, L = tree.columns.length;
  root.style.fontSize = "";
  const size = parseFloat(getComputedStyle(root).fontSize);
  if (room.narrow) return size;
  const panel = (across - 22 * size) / L > 1.1 * size ? 2.9 * tree.deepest + 4.2 : 1.6 * tree.deepest + 4;
  const large = Math.min(30, down / (runs * Math.max(12.5, panel) + 17), across / (2.4 * L + 23));
  root.style.fontSize = Math.max(size, large) + "px";
  return Math.max(size, large);
}

// The height of a depth of the tree, and is there room for boxes and lines?
function levels(deepest, free) {
  const {size, narrow, column} = room, high = narrow && deepest < 8 || free - size >= size * 1.9 * (deepest + .45);
  const within = (least, level, most) => Math.max(size * least, Math.min(size * most, level));
  room.linked = column >= size * 1.1 && high;
  room.level = room.linked ? within(2.2, (free - size) / (deepest + .45), 4.4)
    : within(narrow ? 1.3 : .64, (free - 10) / (deepest + 1), 3);
  room.box = Math.min(room.level * .62, size * 1.6);
}

const HATCH = `<defs><pattern id="hatch" width="6" height="6" patternUnits="userSpaceOnUse"
 patternTransform="rotate(45)"><path class="hatch" d="M0 0V6"/></pattern></defs>`;

// A run's tree at a step.
function drawTree(tree, run, t) {
  const frame = frameOf(tree, run, t), {level, box, size, linked, width} = room, line = new Set(run.line);
  const drawing = {tree, frame, edges: [], nodes: [], slim: {gone: "", ghost: "", wall: "", tick: ""}};
  drawing.best = k => frame.finished && line.has(k);
  drawing.middle = k => (tree.from[k] + tree.to[k]) / 2 * room.column;
  drawing.top = k => tree.depth[k] * level + (linked ? box / 2 + size * .6 : 1);
  (function walk(k) {
    if (frame.hidden.has(k)) return;
    if (linked) drawBox(drawing, k); else drawBlock(drawing, k);
    tree.children(k).forEach(walk);
  })(0);
  for (const cut of frame.cuts) drawCut(drawing, cut);
  const high = level * tree.deepest + (linked ? box + size * 1.1 : level + 10);
  const slim = Object.entries(drawing.slim).map(([kind, d]) => d && `<path class="${kind}" d="${d}"/>`);
  const edges = drawing.edges.sort((p, q) => p[0] - q[0]).map(e => e[1]);
  return svg(width, high, `${run.title}, ${frame.done} of ${count(tree.columns.length)} evaluated`,
    HATCH + [...slim, ...edges, ...drawing.nodes].join(""));
}

// What a node looks like, and what is known of it.
function look({tree, frame, best}, k) {
  const {entered, bounds: {low, high}, path, now, changed} = frame, on = entered.has(k), leaf = tree.leaf(k);
  const exact = on && low[k] === high[k], value = !leaf ? known(low[k], high[k]) : on ? number(tree.worth[k]) : "";
  const kinds = {node: true, leaf, on, exact, changed: changed.has(k), hot: path.has(k), now: k === now};
  if (best(k)) Object.assign(kinds, {best: true, hot: false, now: false});
  const kind = Object.keys(kinds).filter(word => kinds[word]).join(" ");
  const side = (tree.max[k] ? "Max" : "Min") + " moves" + (tree.again.has(k) ? " again" : "");
  const what = !leaf ? side + (value && ", " + value) : on ? "a leaf worth " + value : "a leaf, not evaluated";
  const open = `<g class="${kind}" data-node="${k}"><title>node ${escaped(nameOf(tree, k))}: ${what}</title>`;
  return {value, kind, on, exact, leaf, open};
}

// A node as a box on a line: corners where Max moves, round where Min does, a dashed ring where a side moves again.
function drawBox(drawing, k) {
  const {tree, edges, nodes} = drawing, {box, column, size} = room, x = drawing.middle(k), y = drawing.top(k);
  const {value, on, exact, leaf, open, kind} = look(drawing, k), span = (tree.to[k] - tree.from[k]) * column;
  if (k) edges.push(edge(drawing, tree.parent[k], x, y - (leaf && !on ? 3 : box / 2), y - box / 2, kind));
  if (leaf && !on) { nodes.push(`${open}<circle class="box" cx="${f(x)}" cy="${f(y)}" r="3"/></g>`); return; }
  let em = .92, w = Math.max(box, wide(value, em, exact) + size * .75), turned = false;
  if (leaf && w > span - 2) {
    w = Math.min(span - 2, size * 1.35);
    turned = wide(value, em, true) > w;
  } else if (value && w > span + column * .5) {
    em = Math.max(.62, em * (span + column * .5) / w);
    w = wide(value, em, exact) + size * .5;
  }
  const h = turned ? Math.max(box, wide(value, .85, true) + size * .5) : box, left = x - w / 2, top = y - box / 2;
  const round = leaf ? 3 : tree.max[k] ? 0 : h / 2, again = tree.again.has(k);
  const named = column > size * 2.2 || !leaf && span > w + wide(nameOf(tree, k), .66);
  nodes.push(open, again ? rect(left - 3, top - 3, w + 6, h + 6, round && round + 3, "ring") : "",
    rect(left, top, w, h, round), label(x, top + h / 2, value, turned ? .85 : em, "value", turned),
    named ? label(left - (again ? 6 : 3), top, nameOf(tree, k), .66, "number") : "", "</g>");
}

// A line from a node down to a child: by its trunk. What matters more lies above.
function edge(drawing, parent, x, end, top, kind) {
  const start = drawing.top(parent) + room.box / 2, bus = top - (room.level - room.box) * .5, words = kind.split(" ");
  const grade = ["cut", "", "on", "hot", "best"].findLastIndex(word => words.includes(word));
  const path = `M${f(drawing.middle(parent))} ${f(start)}V${f(bus)}H${f(x)}V${f(end)}`;
  return [grade, `<path class="edge ${kind}" d="${path}"/>`];
}

// How high a block is: a little less than its level.
const blockHeight = () => room.level - Math.min(3, room.level * .1);

// A node as a block upon the blocks of its children; too narrow ones of a kind are one path.
function drawBlock(drawing, k) {
  const {tree, nodes, slim, frame} = drawing, {column} = room, on = frame.entered.has(k), h = blockHeight();
  const x = tree.from[k] * column, y = drawing.top(k), span = (tree.to[k] - tree.from[k]) * column - 1;
  const w = Math.max(span, on ? 1.6 : 0);
  if (w < 6 && !frame.path.has(k) && !drawing.best(k)) {
    const which = tree.leaf(k) && on ? "tick" : on ? "wall" : w > 1.5 ? "ghost" : "";
    if (which) slim[which] += outline(x, y, w, h);
  } else if (w > 1.5 || on) {
    const round = tree.leaf(k) || tree.max[k] ? 0 : Math.min(h / 2, w / 2, 9);
    const again = tree.again.has(k) && w > 12 && h > 9;
    const ring = again ? rect(x + 2, y + 2, w - 4, h - 4, round && round - 2, "ring") : "";
    nodes.push(look(drawing, k).open, rect(x, y, w, h, round), ring, blockText(drawing, k, x, y, w, h), "</g>");
  }
  if (k === frame.now) nodes.push(`<path class="pointer" d="M${f(x + w / 2)} ${f(y + h + 1)}l-5 9h10z"/>`);
}

// What stands in a block, as far as there is room.
function blockText(drawing, k, x, y, w, h) {
  const {size} = room, {value, exact, leaf, on} = look(drawing, k), name = nameOf(drawing.tree, k);
  const em = value && w > size && [.92, .78, .66, .56].find(e => size * e * .95 < h && wide(value, e, exact) < w - 5);
  const turned = leaf && on && !em && w > size * .5 && wide(value, .62) < h;
  const named = !leaf && h > size && w > size * 2 && w > wide(value, .92, true) + 2 * wide(name, .62) + 16;
  return (em || turned ? label(x + w / 2, y + h / 2, value, em || .62, "value", turned) : "")
    + (named ? label(x + 5, y + size * .5, name, .62, "number start") : "");
}

// What was cut off, hatched, with the reason where it fits.
function drawCut(drawing, cut) {
  const {tree, nodes} = drawing, {column, level, box, linked} = room, {first, last} = cut;
  const x = tree.from[first] * column, w = (tree.to[last] - tree.from[first]) * column;
  const gap = linked ? Math.min(4, column * .1) : .5, y = drawing.top(first) - (linked ? box / 2 : 0);
  const plies = Math.max(...tree.lowest.slice(first, last + 1)) - tree.depth[first];
  const h = plies * level + (linked ? box : blockHeight()), kind = cut.now ? "cut now" : "cut";
  if (linked) drawing.edges.push(edge(drawing, tree.parent[first], x + w / 2, y, y, kind));
  else if (w < 6 && !cut.now) { drawing.slim.gone += outline(x, y, Math.max(w - 1, .8), h); return; }
  nodes.push(`<g class="${kind}" data-cut="${first}"><title>${escaped(cutHint(tree, cut))}</title>`,
    rect(x + gap, y, Math.max(w - 2 * gap, .8), h), cutText(cut, x + w / 2, y + h / 2, w - 2 * gap - 6, h), "</g>");
}

// The reason in one line or in two, in the largest letters that fit.
function cutText({text}, x, y, w, h) {
  const {size} = room, one = text.join("; "), fits = test => w > size * 3 && [.8, .7, .6].find(test);
  const em = fits(e => wide(one, e) < w);
  if (em) return label(x, y, one, em, "why");
  const two = fits(e => Math.max(...text.map(s => wide(s, e))) < w && h > size * e * 2.5);
  return two ? text.map((s, i) => label(x, y + (i - .5) * 1.2 * size * two, s, two, "why")).join("") : "";
}

const leavesOf = (tree, {first, last}) => tree.to[last] - tree.from[first];

function nodesOf(tree, {first, last}) {
  return first === last ? `node ${nameOf(tree, first)}` : `nodes ${first}\u2013${last}`;
}

function cutHint(tree, cut) {
  const leaves = leavesOf(tree, cut);
  return `${nodesOf(tree, cut)}, ${count(leaves)}: cut off. ${sentences(tree, cut.reason, leaves)}`;
}

// The strip: a column for each leaf, a row for each run; a leaf gets its number once it is evaluated.
function drawLeaves(tree, runs, t, tinted) {
  const {column, row, head, size, narrow, width} = room, out = [], tint = new Set(tinted), R = runs.length;
  const middle = j => head + (j + (narrow ? .7 : .5)) * row;
  runs.forEach((_, j) => out.push(`<path class="rule" d="M0 ${f(middle(j))}H${f(width)}"/>`));
  tree.columns.forEach((leaf, i) => {
    const x = (i + .5) * column;
    if (tint.has(leaf)) out.push(rect(i * column, head, column, row * R, 0, "tint"));
    if (head > 2) out.push(label(x, size * .5, nameOf(tree, leaf), .66, "number middle"));
    runs.forEach((run, j) => out.push(drawMark(run, leaf, t, x, middle(j))));
  });
  if (narrow) runs.forEach((run, j) => out.push(label(0, middle(j) - size, run.title, .68, "number start")));
  const name = `the leaves from left to right, a row for each of ${runs.map(r => r.title).join(", ")}`;
  return svg(width, head + row * R + 2, name, out.join(""));
}

// A leaf in the row of a run: a dot until it is evaluated, then its number in the order, or a bar.
function drawMark(run, leaf, t, x, y) {
  const {column, size} = room, rank = run.rank.get(leaf), large = column >= size * 1.1;
  const dot = (r, kind) => `<circle class="${kind}" cx="${f(x)}" cy="${f(y)}" r="${f(r)}"/>`;
  if (!rank || rank > t) return column < 4 ? "" : dot(Math.min(1.6, column * .2), "dot");
  const half = Math.max(column * .4, .8);
  const number = label(x, y, "" + rank, rank > 99 ? .55 : .74, "value");
  const sign = large ? dot(Math.min(size * .66, column * .46), "box") + number
    : rect(x - half, y - size * .58, 2 * half, size * 1.16);
  return `<g class="mark${rank === t ? " now" : ""}" data-leaf="${leaf}">${sign}</g>`;
}
