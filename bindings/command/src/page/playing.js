// The page: its words, its controls, and the steps. Step 0 is the start, the last one the comparison.
const $ = id => document.getElementById(id);
const DATA = JSON.parse($("data").textContent), query = new URLSearchParams(location.search);
let tree, runs, last, compared, t = 0, timer = 0, asked = null;

const ABOUT = {
  ab: "From left to right; it skips what cannot matter any more.",
  mtd: "In passes: each asks whether the root is below a test.",
  sss: "Always on where the most is still possible.",
  plain: "From left to right, every leaf.",
};

// What a run asks at a step.
function ask(run, {alpha, beta, test, pass}) {
  const low = alpha === -NONE ? "" : "more than " + number(alpha);
  const high = beta === NONE ? "" : "less than " + number(beta);
  const merit = test === NONE ? "Merit: everything is still possible." : `Merit ${number(test)}: no more is possible.`;
  const below = test === NONE ? "how much is possible?" : `is the root below ${number(test)}?`;
  switch (run.method) {
    case "ab": return low || high ? `What matters: ${[low, high].filter(Boolean).join(", ")}.` : "Any worth matters.";
    case "mtd": return `Pass ${pass}: ${below}`;
    case "sss": return merit;
    case "plain": return "";
    default: return `Test ${pass}: ${below}`;
  }
}

// The words beside a run's tree.
function say(run) {
  const all = run.order.length, out = [];
  const p = (kind, text) => text && out.push(`<p class="${kind}">${escaped(text)}</p>`);
  if (t === 0) p("ask", ABOUT[run.method] || "In tests of the root, the first of them the guess.");
  else if (t <= all) sayStep(run, run.steps[t], p);
  if (t >= all) p("done", finish(run));
  const cut = toExplain(run);
  if (cut) p("reason", explained(cut));
  return out.join("");
}

function sayStep(run, step, p) {
  const {leaf, changed, cuts} = step, gone = cuts.reduce((sum, c) => sum + leavesOf(tree, c), 0);
  const bounds = changed.map(([k, low, high]) => `${k ? "node " + k : "the root"}: ${known(low, high)}`).join(", ");
  const places = cuts.length < 5 ? cuts.map(c => nodesOf(tree, c)).join(", ") : cuts.length + " places";
  const goes = t < run.order.length; // at the end of a run its result takes the room
  if (goes) p("ask", ask(run, step));
  p("now", `Leaf ${nameOf(tree, leaf)} is worth ${number(tree.worth[leaf])}.`);
  if (step.late) p("ask", "It can no longer change the value; the rule takes it all the same.");
  if (goes && bounds) p("", `So ${bounds}.`);
  if (goes && cuts.length > 1) p("", `Cut off: ${places}, ${count(gone)}.`);
}

function finish(run) {
  const line = run.line.slice(1), value = number(tree.worth[run.line[run.line.length - 1]]);
  const dash = line.length < 5 ? "\u00a0\u2013\u2060\u00a0" : "\u00a0\u2013 ";
  const best = line.map(k => tree.names[k] || k).join(line.some(k => tree.names[k]) ? ", " : dash);
  const tests = run.method === "mtd" ? ["pass", "passes"] : isGuess(run) ? ["test", "tests"] : null;
  const passes = tests ? " in " + count(run.passes, ...tests) : "";
  return `Done after ${count(run.order.length)}${passes}. Value ${value}${best && ", best line " + best}.`;
}

// What is said in plain words: what was clicked on, else the largest part cut off now, at the end the largest of all.
function toExplain(run) {
  const {cuts, finished} = frameOf(tree, run, t), fresh = cuts.filter(c => c.now);
  const chosen = cuts.find(c => asked && asked.run === run && c.first === asked.first);
  const among = fresh.length ? fresh : finished ? cuts : [];
  return chosen || among.reduce((a, b) => a && leavesOf(tree, a) >= leavesOf(tree, b) ? a : b, null);
}

function explained(cut) {
  const why = sentences(tree, cut.reason, leavesOf(tree, cut)), nodes = nodesOf(tree, cut);
  return `N${nodes.slice(1)}, ${count(leavesOf(tree, cut))}, cut off: a${why.slice(1)}`;
}

// Takes a tree of the page.
function choose(i) {
  const data = DATA[i];
  tree = makeTree(data);
  runs = data.runs.map(run => replay(tree, run));
  last = Math.max(...runs.map(r => r.order.length)) + 1;
  compared = compare(tree, runs);
  asked = null;
  $("file").textContent = data.file;
  $("about").textContent = `${count(tree.n, "node", "nodes")}, ${count(tree.columns.length)}. Max (\u25a1) moves first `
    + "and wants the most, Min (\u25ef) the least; \u2264 at most, \u2265 at least; hatched: cut off.";
  $("slider").max = last;
  $("runs").innerHTML = runs.map((run, j) => `<section class="run" id="run${j}" aria-label="${escaped(run.title)}">
<div class="say"><h2>${escaped(run.title)} <span></span></h2>
<div class="bar"><i></i></div><div class="words"></div></div><div class="tree"></div></section>`).join("");
  measure(tree, runs);
}

function show() {
  runs.forEach((run, j) => showRun(run, $("run" + j)));
  const end = t >= last, [head, ...more] = compared.said, {row, linked} = room;
  const style = j => `height:${row}px;line-height:${row}px;margin-top:${j ? 0 : room.head}px`;
  const titles = runs.map((run, j) => `<span style="${style(j)}">${escaped(run.title)}</span>`);
  const about = linked ? "its number says when a run evaluated it." : "a bar where a run evaluated it.";
  $("leaves").innerHTML = drawLeaves(tree, runs, t, end ? compared.tinted : []);
  $("rows").innerHTML = "<b>The leaves</b>" + titles.join("");
  $("end").innerHTML = end ? `<b>${escaped(head)}</b> ${escaped(more.join(" "))}`
    : `A column for each leaf, from left to right; ${about}`;
  $("slider").value = t;
  $("at").textContent = t === 0 ? "start" : end ? "end" : `leaf ${t}`;
  $("slider").setAttribute("aria-valuetext", $("at").textContent);
}

function showRun(run, section) {
  const all = tree.columns.length, done = Math.min(t, run.order.length), now = run.order[t - 1];
  const holder = section.querySelector(".tree");
  section.querySelector("h2 span").innerHTML = `<b>${done}</b> of ${count(all)}`;
  section.querySelector(".bar i").style.width = 100 * done / all + "%";
  section.querySelector(".words").innerHTML = say(run);
  holder.innerHTML = drawTree(tree, run, t);
  if (now !== undefined && holder.scrollWidth > holder.clientWidth)
    holder.scrollLeft = (tree.from[now] + .5) * room.column - holder.clientWidth / 2;
}

// For those who listen; while it plays nothing is said.
function tell() {
  const words = j => [...$("run" + j).querySelectorAll(".words p")].map(p => p.textContent).join(" ");
  const said = runs.map((run, j) => `${run.title}: ${words(j)}`);
  if (t >= last) said.push($("end").textContent);
  $("live").textContent = timer ? "" : said.join(" ");
}

function go(to) {
  t = Math.max(0, Math.min(last, Math.trunc(to) || 0));
  asked = null;
  show();
  tell();
}

const stop = to => { play(false); go(to); };
const beat = () => [2600, 1700, 1100, 700, 350, 150, 50][$("speed").value];

function play(on) {
  clearTimeout(timer);
  timer = 0;
  $("play").textContent = on ? "Pause" : "Play";
  if (!on) return;
  if (t >= last) go(0);
  timer = setTimeout(next, beat());
  tell();
}

function next() {
  go(t + 1);
  if (t < last) timer = setTimeout(next, beat());
  else if (query.has("loop")) timer = setTimeout(again, 12000);
  else { play(false); tell(); }
}

// On a wall: the next tree, or the same again.
function again() {
  change((+$("tree").value + 1) % DATA.length);
  play(true);
}

// Another tree, from its start.
function change(i) {
  $("tree").value = i;
  choose(i);
  go(0);
}

const KEYS = {
  ArrowRight: () => stop(t + 1), ArrowLeft: () => stop(t - 1), Home: () => stop(0), End: () => stop(last),
  " ": () => play(!timer), "+": () => $("speed").stepUp(), "-": () => $("speed").stepDown(),
};

function listen() {
  $("first").onclick = KEYS.Home;
  $("back").onclick = KEYS.ArrowLeft;
  $("on").onclick = KEYS.ArrowRight;
  $("last").onclick = KEYS.End;
  $("play").onclick = KEYS[" "];
  $("slider").oninput = e => stop(+e.target.value);
  $("tree").onchange = e => { play(false); change(+e.target.value); };
  addEventListener("keydown", pressed);
  addEventListener("click", clicked);
  addEventListener("resize", () => { measure(tree, runs); show(); });
  let before = 0;
  addEventListener("beforeprint", () => { before = t; play(false); t = last; measure(tree, runs, true); show(); });
  addEventListener("afterprint", () => { t = before; measure(tree, runs); show(); });
}

function pressed(e) {
  const {type, tagName} = e.target; // a control has keys of its own
  const own = tagName === "SELECT" || tagName === "BUTTON" && e.key === " " || type === "range" && e.key.length > 1;
  if (!KEYS[e.key] || own || e.ctrlKey || e.metaKey || e.altKey) return;
  e.preventDefault();
  KEYS[e.key]();
}

function clicked(e) {
  if (e.detail && e.target.tagName === "BUTTON") e.target.blur(); // so that Space plays after a click
  const cut = e.target.closest("[data-cut]"), section = e.target.closest(".run");
  if (!cut) return;
  asked = {run: runs[+section.id.slice(3)], first: +cut.dataset.cut}; // the reason of what was clicked on
  show();
  tell();
}

$("tree").innerHTML = DATA.map((data, i) => `<option value="${i}">${escaped(data.file)}</option>`).join("");
$("trees").hidden = DATA.length < 2;
$("file").hidden = DATA.length > 1;
listen();
change(Math.max(0, Math.min(DATA.length, Math.trunc(query.get("tree")) || 1) - 1));
go(query.get("step") === "end" ? last : query.get("step"));
if (query.has("play") || query.has("loop")) play(true);
