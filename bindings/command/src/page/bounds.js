"use strict";
// What the evaluated leaves say of every node (SPEC 6.1), and why nothing below a node can matter any more: the same as
// bounds.rs. A low of -32,001 and a high of 32,001 say nothing.
const NONE = 32001;

// A tree from its data: a node has the children first .. first + count - 1, its leaves the columns from .. to - 1.
function makeTree(data) {
  const n = data.count.length, again = new Set(data.again);
  const tree = {n, again, count: data.count, worth: data.worth, names: data.names};
  Object.assign(tree, {first: [], parent: [-1], depth: [0], max: [true]});
  for (let k = 0, next = 1; k < n; next += tree.count[k], k++) {
    tree.first.push(next);
    for (let c = next; c < next + tree.count[k]; c++) {
      tree.parent[c] = k;
      tree.depth[c] = tree.depth[k] + 1;
      tree.max[c] = tree.max[k] === again.has(c);
    }
  }
  tree.children = k => Array.from({length: tree.count[k]}, (_, i) => tree.first[k] + i);
  tree.leaf = k => tree.count[k] === 0;
  tree.deepest = Math.max(...tree.depth);
  tree.lowest = tree.depth.slice(); // the depth of the deepest node below
  for (let k = n - 1, {lowest, parent} = tree; k > 0; k--) lowest[parent[k]] = Math.max(lowest[parent[k]], lowest[k]);
  addColumns(tree);
  return tree;
}

function addColumns(tree) {
  tree.from = new Array(tree.n);
  tree.to = new Array(tree.n);
  tree.columns = [];
  (function walk(k) {
    tree.from[k] = tree.columns.length;
    if (tree.leaf(k)) tree.columns.push(k); else tree.children(k).forEach(walk);
    tree.to[k] = tree.columns.length;
  })(0);
}

class Bounds {
  constructor(tree) {
    this.tree = tree;
    this.low = new Array(tree.n).fill(-NONE);
    this.high = new Array(tree.n).fill(NONE);
  }

  // Evaluates a leaf; the inner nodes whose bounds change, from below.
  add(leaf) {
    const {tree, low, high} = this, changed = [];
    low[leaf] = high[leaf] = tree.worth[leaf];
    for (let k = tree.parent[leaf]; k >= 0; k = tree.parent[k]) {
      const best = tree.max[k] ? Math.max : Math.min, children = tree.children(k);
      const newLow = best(...children.map(c => low[c])), newHigh = best(...children.map(c => high[c]));
      if (newLow === low[k] && newHigh === high[k]) break;
      low[k] = newLow;
      high[k] = newHigh;
      changed.push(k);
    }
    return changed;
  }

  // The best that the side to move at the parent has beside a child, or null where nothing is known.
  beside(parent, child) {
    const {tree, low, high} = this, max = tree.max[parent];
    let best = max ? -NONE : NONE, by = -1;
    for (let c = tree.first[parent]; c < tree.first[parent] + tree.count[parent]; c++) {
      const bound = max ? low[c] : high[c];
      if (c !== child && (max ? bound > best : bound < best)) { best = bound; by = c; }
    }
    return by < 0 ? null : {at: parent, by, value: best};
  }

  // The nearest pair of choices beside the path to a node, one of Max and one of Min, between which nothing can pass.
  reason(node) {
    const {max, parent} = this.tree, offers = [];
    for (let child = node; parent[child] >= 0; child = parent[child]) {
      const offer = this.beside(parent[child], child);
      if (!offer) continue;
      const closes = o => max[o.at] ? o.value >= offer.value : offer.value >= o.value;
      const met = offers.find(o => max[o.at] !== max[offer.at] && closes(o));
      if (met) return {at: met.at, by: met.by, known: met.value, above: offer.at, other: offer.by, has: offer.value};
      offers.push(offer);
    }
    return null;
  }
}

const number = v => v < 0 ? "\u2212" + -v : "" + v;

function known(low, high) {
  if (low === high) return number(low);
  if (low === -NONE) return high === NONE ? "" : "\u2264 " + number(high);
  return high === NONE ? "\u2265 " + number(low) : number(low) + " to " + number(high);
}

// A reason in two short lines. A node is always called one: "1 \u2264 1" would read as a sum.
function brief(tree, r, node) {
  const place = r.at === tree.parent[node] ? "" : ` at node ${r.at}`;
  return [`${tree.max[r.at] ? "\u2265" : "\u2264"} ${number(r.known)}${place}`,
    `${tree.max[r.at] ? "Min" : "Max"} has ${number(r.has)} at node ${r.other}`];
}

// A reason in plain words, for so many leaves.
function sentences(tree, r, leaves) {
  const known = number(r.known), has = number(r.has);
  const these = leaves === 1 ? "this leaf holds" : `these ${leaves} leaves hold`;
  const end = `gains nothing by coming here, whatever ${these}.`;
  return tree.max[r.at]
    ? `At node ${r.at} Max can reach ${known} or more, by node ${r.by}. `
      + `Higher up Min already has ${has} or less, at node ${r.other}. So Min ${end}`
    : `At node ${r.at} Min can hold Max to ${known} or less, by node ${r.by}. `
      + `Higher up Max already has ${has} or more, at node ${r.other}. So Max ${end}`;
}
