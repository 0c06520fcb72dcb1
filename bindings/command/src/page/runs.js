// A run step by step: what each step asked, which bounds it changed, and what it cut off.
function replay(tree, data) {
  const run = {...data, steps: [null], rank: new Map(data.order.map((leaf, i) => [leaf, i + 1]))};
  run.line = [...data.flags].flatMap((flag, k) => flag === "3" ? [k] : []);
  const entered = new Set();
  for (const leaf of data.order) for (let k = leaf; k >= 0 && !entered.has(k); k = tree.parent[k]) entered.add(k);
  // what is never entered, as large as it can be taken
  let open = tree.parent.map((_, k) => k).filter(k => !entered.has(k) && entered.has(tree.parent[k]));
  const bounds = new Bounds(tree), asks = new Asks(tree, run.method);
  for (const leaf of data.order) {
    const step = {leaf, ...asks.now(bounds, leaf), late: bounds.reason(leaf) !== null};
    const changed = bounds.add(leaf);
    step.changed = changed.map(k => [k, bounds.low[k], bounds.high[k]]);
    [step.cuts, open] = cutOff(tree, bounds, open, leaf, changed);
    asks.after(bounds);
    run.steps.push(step);
  }
  run.passes = asks.pass;
  return run;
}

// What falls to a reason now, and what stays open. A reason can be new only beside a bound that has changed: below the
// parent of the highest node that changed, the root left out. Neighbours that fall together are shown together.
function cutOff(tree, bounds, open, leaf, changed) {
  const highest = [leaf, ...changed].filter(k => k > 0).pop(), near = tree.parent[highest], cuts = [];
  if (near === undefined) return [cuts, open];
  const stays = open.filter(k => {
    const below = tree.from[near] <= tree.from[k] && tree.from[k] < tree.to[near], reason = below && bounds.reason(k);
    if (!reason) return true;
    const text = brief(tree, reason, k), last = cuts[cuts.length - 1];
    const joins = last && last.last + 1 === k && tree.parent[k] === tree.parent[last.first];
    if (joins && last.text.join() === text.join()) last.last = k;
    else cuts.push({first: k, last: k, reason, text});
    return false;
  });
  return [cuts, stays];
}

// What a method asks at each leaf. All of it comes out of the bounds: alpha and beta are those of elder siblings,
// SSS*'s merit and MTD's test the root's high; MTD(f) puts its own tests to the root, the first of them the guess.
class Asks {
  constructor(tree, method) {
    this.tree = tree;
    this.guess = method.startsWith("mtdf:") ? +method.slice(5) : null;
    this.test = this.guess === null ? NONE : Math.max(1 - NONE, Math.min(NONE, this.guess));
    this.pass = 1;
  }

  now(bounds, leaf) {
    const {first, parent, max} = this.tree;
    let alpha = -NONE, beta = NONE;
    for (let k = leaf; k > 0; k = parent[k]) for (let c = first[parent[k]]; c < k; c++)
      if (max[parent[k]]) alpha = Math.max(alpha, bounds.low[c]); else beta = Math.min(beta, bounds.high[c]);
    return {alpha, beta, test: this.test, pass: this.pass};
  }

  after({low: [low], high: [high]}) {
    if (this.guess === null) {
      if (high !== this.test) this.pass++;
      this.test = high;
    } else if (high < this.test || low >= this.test) {
      if (low !== high) this.pass++;
      this.test = low >= this.test && low !== high ? low + 1 : high;
    }
  }
}

// Everything that is known of a run after step t.
function frameOf(tree, run, t) {
  const done = Math.min(t, run.order.length), now = t > 0 && t <= run.order.length ? run.order[t - 1] : -1;
  const frame = {t, now, done, finished: done === run.order.length, bounds: new Bounds(tree), cuts: []};
  const changed = now < 0 ? [] : run.steps[t].changed.map(([k]) => k);
  Object.assign(frame, {hidden: new Set(), entered: new Set(), path: new Set(), changed: new Set(changed)});
  const {low, high} = frame.bounds;
  for (let i = 1; i <= done; i++) {
    const {leaf, changed, cuts} = run.steps[i];
    low[leaf] = high[leaf] = tree.worth[leaf];
    for (const [k, l, h] of changed) { low[k] = l; high[k] = h; }
    for (const cut of cuts) frame.cuts.push({...cut, now: i === t});
    for (let k = leaf; k >= 0 && !frame.entered.has(k); k = tree.parent[k]) frame.entered.add(k);
  }
  for (const cut of frame.cuts) for (let k = cut.first; k <= cut.last; k++) frame.hidden.add(k);
  for (let k = now; k >= 0; k = tree.parent[k]) frame.path.add(k);
  return frame;
}

const count = (k, what = "leaf", many = "leaves") => `${k} ${k === 1 ? what : many}`;
const isGuess = run => run.method.startsWith("mtdf:");

// What the runs on a tree have in common, computed from their leaves. Proved for every tree is that SSS*, MTD and
// MTD(f) evaluate no leaf that alpha-beta passes over, that MTD and SSS* evaluate the same leaves in the same order,
// and that each leaf passed over has a reason.
function compare(tree, runs) {
  const leaves = tree.columns.length, by = name => runs.find(r => r.method === name);
  const ab = by("ab"), mtd = by("mtd"), sss = by("sss"), less = sss || mtd || runs.find(isGuess), said = [];
  if (leaves === 1) return {said: ["There is one leaf, and each run evaluated it."], tinted: []};
  const tinted = ab && less ? ab.order.filter(l => !less.rank.has(l)) : [];
  if (ab && less) said.push(inside(less, ab), alone(tinted));
  if (mtd && sss) said.push(sameOrder(mtd, sss));
  for (const run of runs) if (isGuess(run) && !(ab && run === less)) said.push(guessed(run, mtd || sss || ab));
  if (by("plain")) said.push(`Plain minimax evaluated all ${leaves}.`);
  if (!said.length) said.push(runs.map(r => `${r.title} evaluated ${r.order.length} of ${count(leaves)}.`).join(" "));
  const passed = runs.some(r => r.order.length < leaves), reason = "each leaf passed over has a reason";
  if (ab && less || mtd && sss) said.push(`Proved for every tree${passed ? `, as is that ${reason}` : ""}.`);
  else if (passed) said.push(`That ${reason} is proved for every tree.`);
  return {said, tinted};
}

// The sentence: no leaf that alpha-beta passed over.
function inside(less, ab) {
  const foreign = less.order.filter(l => !ab.rank.has(l)).length, n = less.order.length;
  if (foreign) return `${less.title} evaluated ${count(foreign)} that alpha-beta passed over.`;
  return `${less.title} evaluated no leaf that alpha-beta passed over: `
    + `${n === 1 ? "its one leaf is" : `each of its ${n} is`} one of alpha-beta\u2019s ${ab.order.length}.`;
}

function alone(leaves) {
  if (!leaves.length) return "Here alpha-beta evaluated no other.";
  return `Alpha-beta alone: ${leaves.length <= 12 ? leaves.join(", ") : count(leaves.length)} (tinted).`;
}

function sameOrder(mtd, sss) {
  const same = mtd.order.join() === sss.order.join();
  return same ? "MTD evaluated the same leaves as SSS*, in the same order." : "MTD went another way than SSS*.";
}

// What a guess saves.
function guessed(run, other) {
  const said = `${run.title} evaluated ${count(run.order.length)}`;
  if (!other) return `${said}.`;
  const saved = other.order.length - run.order.length, title = other.method === "ab" ? "alpha-beta" : other.title;
  return `${said}: ${saved > 0 ? `${saved} fewer than` : saved < 0 ? `${-saved} more than` : "as many as"} ${title}.`;
}
