"""Pages and pictures of the command in a real browser: test_pages.py BUULSET CHROMIUM [FOLDER for screenshots]

What a page shows is read from its own elements and held against a minimax of the test's own, step by step, by keys, by
the slider and by the buttons, at three window sizes.
"""
import base64
import json
import os
import re
import subprocess
import sys
import tempfile
import time
import traceback

from devtools import Browser
from model import Tree, chain, grow, known, number, regular

sys.dont_write_bytecode = True
ROOT = os.path.dirname(os.path.dirname(os.path.dirname(os.path.abspath(__file__))))
SIZES = {"phone": (390, 844), "laptop": (1280, 800), "wall": (1920, 1080)}
METHODS = "ab,mtd,sss,mtdf:-2,plain"
SAMPLES = [os.path.join(ROOT, "samples", f"{name}.tree") for name in ("seven", "ending", "captures", "wins")]
LARGE = [os.path.join(ROOT, "docs", "pictures", f"{name}.tree") for name in ("two-hundred", "largest")]

# what stands on the page, by its own elements
READ = """[...document.querySelectorAll('.run')].map(run => ({
  title: run.querySelector('h2').firstChild.textContent.trim(),
  count: +run.querySelector('h2 b').textContent,
  words: [...run.querySelectorAll('.words p')].map(p => p.textContent),
  nodes: [...run.querySelectorAll('[data-node]')].map(g => [+g.dataset.node, (g.querySelector('.value')
    || {}).textContent || '', g.querySelector('title').textContent, g.getAttribute('class')]),
  cuts: [...run.querySelectorAll('[data-cut]')].map(g => [+g.dataset.cut, g.querySelector('title').textContent]),
}))"""
MARKS = """[...document.querySelectorAll('#leaves .mark')].map(g =>
  [+g.dataset.leaf, (g.querySelector('.value') || {}).textContent])"""
# what its script computes
STEPS = """DATA.map((data, i) => {
  choose(i);
  const words = step => ({...step, cuts: step.cuts.map(c => ({...c, words: sentences(tree, c.reason, 1)}))});
  return {said: compared.said, tinted: compared.tinted, runs: runs.map(({method, order, steps}) =>
    ({method, order, steps: steps.slice(1).map(words)}))};
})"""


def command(*arguments):
    return subprocess.run([BUULSET, *arguments], check=True, capture_output=True, text=True).stdout


def page(folder, name, *arguments):
    path = os.path.join(folder, name)
    with open(path, "w") as file:
        file.write(command("watch", *arguments))
    return "file://" + path


def tree_of(path):
    with open(path) as file:
        return Tree(file.read())


# every number that the page's script computes, at every step

def check_steps(tree, run, every):
    evaluated, low, high, cut = set(), *tree.bounds(set()), set()
    never = tree.never(run["order"])
    assert [step["leaf"] for step in run["steps"]] == run["order"]
    for at, step in enumerate(run["steps"]):
        if run["method"] == "ab":
            assert (step["alpha"], step["beta"]) == tree.window(step["leaf"])
        if run["method"] in ("mtd", "sss"):
            assert step["test"] == high[0]
        assert step["late"] == tree.closed(step["leaf"], low, high)
        before = list(zip(low, high))
        evaluated.add(step["leaf"])
        low, high = tree.bounds(evaluated)
        now = list(zip(low, high))
        changed = {k: [k, *now[k]] for k in range(tree.n) if not tree.leaf(k) and now[k] != before[k]}
        assert {c[0]: c for c in step["changed"]} == changed, (run["method"], at)
        cut |= {k for c in step["cuts"] for k in range(c["first"], c["last"] + 1)}
        if at % every == 0 or at + 1 == len(run["steps"]):
            assert cut == {k for k in never if tree.closed(k, low, high)}, (run["method"], at)
        for c in step["cuts"]:
            check_reason(tree, c, low, high)
    assert low[0] == high[0] == tree.value[0] and cut == set(never)


def check_reason(tree, cut, low, high):
    """Two choices beside the path, of Max and of Min, that leave nothing between them; and the words say so."""
    r, node = cut["reason"], cut["first"]
    path = list(tree.path(node))
    places = [above for above, _ in path]
    assert places.index(r["at"]) < places.index(r["above"]) and tree.max[r["at"]] != tree.max[r["above"]]
    for at, child, value in ((r["at"], r["by"], r["known"]), (r["above"], r["other"], r["has"])):
        assert child in tree.children[at] and (at, child) not in path
        assert value == (low if tree.max[at] else high)[child]
    assert r["known"] >= r["has"] if tree.max[r["at"]] else r["has"] >= r["known"]
    sign, side = ("\u2265", "Min") if tree.max[r["at"]] else ("\u2264", "Max")
    place = "" if r["at"] == tree.parent[node] else f" at node {r['at']}"
    has = f"{side} has {number(r['has'])} at node {r['other']}"
    assert cut["text"] == [f"{sign} {number(r['known'])}{place}", has]
    assert cut["words"].startswith(f"At node {r['at']} ")
    assert f" at node {r['other']}. So {side} gains nothing" in cut["words"]


def check_comparison(tree, data):
    """The last step's sentences, from the runs' leaves."""
    order = {run["method"]: run["order"] for run in data["runs"]}
    said = " ".join(data["said"])
    leaves = sum(tree.leaf(k) for k in range(tree.n))
    if leaves == 1:
        assert "one leaf" in said
        return
    assert set(order["sss"]) <= set(order["ab"]) and order["mtd"] == order["sss"]
    assert said.startswith("SSS* evaluated no leaf that alpha-beta passed over: ")
    assert f"alpha-beta\u2019s {len(order['ab'])}." in said and f"Plain minimax evaluated all {leaves}." in said
    assert "MTD evaluated the same leaves as SSS*, in the same order." in said
    saved = len(order["mtd"]) - len(order["mtdf:-2"])
    words = f"{saved} fewer than" if saved > 0 else f"{-saved} more than" if saved < 0 else "as many as"
    assert f"{words} MTD." in said
    assert data["tinted"] == [leaf for leaf in order["ab"] if leaf not in set(order["sss"])]


def test_numbers(browser, folder):
    paths = list(SAMPLES) + LARGE[:1]
    for seed in range(40):
        paths.append(os.path.join(folder, f"random-{seed}.tree"))
        with open(paths[-1], "w") as file:
            file.write(grow(seed))
    browser.open(page(folder, "numbers.html", *paths, "--methods", METHODS))
    steps = 0
    for path, data in zip(paths, browser.run(STEPS), strict=True):
        tree = tree_of(path)
        for run in data["runs"]:
            check_steps(tree, run, 1 if tree.n < 150 else 9)
            steps += len(run["steps"])
        check_comparison(tree, data)
    assert not browser.errors(), browser.errors()
    return f"{steps} steps of {len(paths)} trees"


# what the page shows

def check_frame(tree, orders, t, shown, marks, whole=True):
    """The trees and the strip of a step; no value stands before its evaluation. A large tree is not shown whole."""
    last = max(map(len, orders)) + 1
    for order, run in zip(orders, shown, strict=True):
        done = min(t, len(order))
        evaluated = set(order[:done])
        low, high = tree.bounds(evaluated)
        assert run["count"] == done, (t, run["count"])
        cut = {k for k in tree.never(order) if tree.closed(k, low, high)}
        gone = {k for k in range(tree.n) if k in cut or any(above in cut for above, _ in tree.path(k))}
        nodes, rest = {k for k, *_ in run["nodes"]}, set(range(tree.n)) - gone
        assert nodes == rest if whole else 0 in nodes <= rest, (t, run["title"])
        assert {k for k, _ in run["cuts"]} <= cut and (bool(run["cuts"]) == bool(cut) or not whole)
        for k, value, hint, kind in run["nodes"]:
            if tree.leaf(k):
                right = number(tree.worth[k]) if k in evaluated else ""
                assert hint.endswith("worth " + right if right else "not evaluated")
            else:
                right = known(low[k], high[k])
                assert hint.endswith(", " + right) if right else hint.endswith((" moves", " again")), (hint, right)
                assert (": Max moves" if tree.max[k] else ": Min moves") in hint
            assert value in ("", right), (t, k, value, right)
            assert "best" not in kind.split() or done == len(order), "the best line shows before the end"
        if 0 < t <= len(order):
            leaf = order[t - 1]
            assert f"Leaf {leaf} is worth {number(tree.worth[leaf])}." in run["words"]
        assert any(w.startswith("Done after") for w in run["words"]) == (t >= len(order))
    found = sorted((leaf, rank) for leaf, rank in marks)
    ranks = sorted((leaf, str(i)) for order in orders for i, leaf in enumerate(order[:min(t, last)], 1))
    assert [leaf for leaf, _ in found] == [leaf for leaf, _ in ranks]
    assert all(rank is None or rank == right for (_, rank), (_, right) in zip(found, ranks))


def orders_of(path):
    """The evaluated leaves of the three runs, as the command lists them."""
    return [[int(line.split()[0]) for line in command("order", m, path).splitlines()] for m in ("ab", "mtd", "sss")]


def at(browser):
    return browser.run("[t, +$('slider').value, $('at').textContent, last]")


def test_keys(browser, folder):
    """Every step by the right arrow at three sizes, and back by all other keys."""
    frames = 0
    for path in SAMPLES:
        tree = tree_of(path)
        orders = orders_of(path)
        last = max(map(len, orders)) + 1
        address = page(folder, "keys.html", path)
        for name, (width, height) in SIZES.items():
            browser.size(width, height, name == "phone")
            browser.open(address)
            for t in range(last + 1):
                assert at(browser) == [t, t, "start" if t == 0 else "end" if t == last else f"leaf {t}", last]
                check_frame(tree, orders, t, browser.run(READ), browser.run(MARKS))
                end = browser.run("$('end').textContent")
                assert ("SSS* evaluated no leaf that alpha-beta passed over" in end) == (t == last)
                assert browser.run("document.documentElement.scrollWidth <= innerWidth"), (name, "the page is too wide")
                fits = browser.run("document.documentElement.scrollHeight <= innerHeight + 2")
                assert fits or name != "wall", (path, t, "a wall cannot be scrolled")
                frames += 1
                browser.key("ArrowRight")
            assert at(browser)[0] == last, "it ends"
            for key, place in (("ArrowLeft", last - 1), ("Home", 0), ("ArrowLeft", 0), ("End", last)):
                browser.key(key)
                assert at(browser)[0] == place
                check_frame(tree, orders, place, browser.run(READ), browser.run(MARKS))
        assert not browser.errors(), browser.errors()
    return f"{frames} frames"


def test_controls(browser, folder):
    """Buttons, slider, speed, playing, the address, and the choice of a tree."""
    address, tree, orders = page(folder, "controls.html", SAMPLES[1]), tree_of(SAMPLES[1]), orders_of(SAMPLES[1])
    for name, (width, height) in SIZES.items():
        browser.size(width, height)
        browser.open(address)
        for selector, place in (("#on", 1), ("#on", 2), ("#back", 1), ("#last", 16), ("#on", 16), ("#first", 0),
                                ("#back", 0)):
            browser.click(selector)
            assert at(browser)[0] == place, (name, selector)
            check_frame(tree, orders, place, browser.run(READ), browser.run(MARKS))
        for place in (7, 15, 3, 16, 0, 7):
            browser.run(f"$('slider').value = {place}; $('slider').dispatchEvent(new Event('input'))")
            assert at(browser)[0] == place
            check_frame(tree, orders, place, browser.run(READ), browser.run(MARKS))
        browser.click("#slider")  # in its middle
        assert at(browser)[0] == 8
        browser.key("ArrowRight")  # the slider's own key
        assert at(browser)[0] == 9
        browser.run("document.activeElement.blur()")
        browser.run("$('speed').value = 6")
        browser.key(" ")
        assert browser.run("$('play').textContent") == "Pause" and browser.run("$('live').textContent") == ""
        until(browser, "t === last && !timer")
        assert browser.run("$('play').textContent") == "Play" and "passed over" in browser.run("$('live').textContent")
        browser.click("#play")  # from the start again
        until(browser, "t > 1")
        browser.key(" ")
        place = at(browser)[0]
        time.sleep(0.3)
        assert at(browser)[0] == place and browser.run("$('play').textContent") == "Play"
        for key, speed in (("-", 5), ("-", 4), ("+", 5)):
            browser.key(key)
            assert browser.run("+$('speed').value") == speed
    browser.size(*SIZES["laptop"])
    for query, place in (("?step=7", 7), ("?step=end", 16), ("?step=99", 16), ("?step=-3", 0), ("?step=x", 0)):
        browser.open(address + query)
        assert at(browser)[0] == place, query
    browser.open(address + "?play")
    assert browser.run("timer !== 0")
    browser.open(address + "?loop&step=15")
    browser.run("$('speed').value = 6; clearTimeout(timer); next(); true")
    assert browser.run("t === last && timer !== 0"), "a loop goes on"
    browser.open(address + "?step=end")
    browser.click("#run2 [data-cut='14']")
    said = browser.run("$('run2').querySelector('.reason').textContent")
    assert said.startswith("Nodes 14\u201315, 2 leaves, cut off: at node 4 Min"), said
    if SHOTS:  # docs/pictures has this one
        browser.size(1360, 800)
        browser.open(address + "?step=end")
        shot(browser, "ending-page", "webp", quality=60)
    several = page(folder, "several.html", *SAMPLES, "--methods", "ab,sss")
    browser.open(several + "?tree=2&step=3")
    assert browser.run("[$('tree').value, $('file').textContent, runs.length, t]") == ["1", "ending.tree", 2, 3]
    browser.run("$('tree').value = 0; $('tree').dispatchEvent(new Event('change'))")
    assert browser.run("[$('file').textContent, t, tree.n]") == ["seven.tree", 0, 7]
    assert not browser.errors(), browser.errors()
    return "buttons, slider, playing, addresses, trees"


def until(browser, condition, seconds=20):
    end = time.time() + seconds
    while not browser.run(condition):
        assert time.time() < end, condition
        time.sleep(0.05)


# for everybody

CONTRAST = """(() => {
  const parse = c => c.match(/[\\d.]+/g).map(Number);
  const part = v => v / 255 <= .03928 ? v / 255 / 12.92 : ((v / 255 + .055) / 1.055) ** 2.4;
  const light = c => { const [r, g, b] = parse(c).map(part); return .2126 * r + .7152 * g + .0722 * b + .05; };
  const contrast = (a, b) => Math.max(light(a) / light(b), light(b) / light(a));
  const behind = e => {
    for (; e; e = e.parentElement) {
      const colour = getComputedStyle(e).backgroundColor;
      if (parse(colour)[3] !== 0) return colour;
    }
    return 'rgb(255,255,255)';
  };
  const out = [], texts = 'h1,h2,h2 span,h2 b,p,label,button,select,#at,#rows span,#end b,svg text';
  for (const e of document.querySelectorAll(texts)) {
    if (!e.textContent.trim() || !e.getClientRects().length || e.closest('.hidden')) continue;
    const drawn = e.closest('svg'), box = drawn && e.parentNode.querySelector('.box'), style = getComputedStyle(e);
    const inside = box && e.classList.contains('value') && getComputedStyle(box).fill;
    const back = inside && inside.startsWith('rgb') ? inside : behind(drawn ? document.body : e);
    const ratio = contrast(drawn ? style.fill : style.color, back);
    if (ratio < 4.5) out.push([e.textContent.slice(0, 40), e.getAttribute('class'), ratio.toFixed(2)]);
  }
  return out;
})()"""
NAMED = """[...document.querySelectorAll('button,input,select')].every(e => e.getAttribute('aria-label')
  || e.tagName === 'BUTTON' && e.textContent.trim() || e.labels && e.labels.length)"""
LABELLED = """[...document.querySelectorAll('section,svg')].every(e => e.getAttribute('aria-label'))
  && [...document.querySelectorAll('svg')].every(e => e.getAttribute('role') === 'img')"""
SMALL = "[...document.querySelectorAll('button')].some(b => b.offsetHeight < 24 || b.offsetWidth < 24)"


def test_access(browser, folder):
    address = page(folder, "access.html", SAMPLES[1], SAMPLES[2])
    for scheme in ("light", "dark"):
        browser.media(scheme)
        for name, (width, height) in SIZES.items():
            browser.size(width, height)
            for step in ("0", "8", "15", "end"):
                browser.open(f"{address}?step={step}")
                faint = browser.run(CONTRAST)
                assert not faint, (scheme, name, step, faint)
    browser.media("light")
    assert browser.run(NAMED), "a control without a name"
    assert browser.run("document.documentElement.lang === 'en' && document.title !== ''")
    assert browser.run(LABELLED), "a part without a label"
    browser.open(address)
    order = []
    for _ in range(8):
        browser.key("Tab")
        order.append(browser.run("document.activeElement.id"))
        outline = browser.run("getComputedStyle(document.activeElement).outlineStyle")
        assert outline != "none", (order, "no focus is seen")
    assert order == ["tree", "first", "back", "play", "on", "last", "slider", "speed"], order
    assert not browser.run(SMALL), "a button is too small to hit"
    browser.open(address + "?step=5")
    said = browser.run("$('live').getAttribute('aria-live') + ' ' + $('live').textContent")
    assert said.startswith("polite Alpha-beta: ") and "Leaf " in said and "MTD: " in said and "SSS*: " in said
    return "names, focus order, contrast, live region, light and dark"


def test_print(browser, folder):
    for path in (SAMPLES[1], LARGE[1]):
        browser.size(*SIZES["laptop"])
        browser.open(page(folder, "print.html", path) + "?step=3")
        browser.run("window.printed = []; addEventListener('beforeprint', () => printed.push(t)); true")
        pdf = browser.call("Page.printToPDF", preferCSSPageSize=True, printBackground=True)["data"]
        data = base64.b64decode(pdf)
        assert browser.run("printed[0] === last"), "the last frame is printed"
        assert at(browser)[0] == 3, "and the page goes back to its own"
        assert len(re.findall(rb"/Type\s*/Page\b", data)) == 1, "one page"
    return "one page, the last frame"


def test_large(browser, folder):
    """Large, wide and deep trees fit the window, and a step is quick."""
    paths = [*LARGE]
    made = {"wide": regular(40, 2, 1), "binary": regular(2, 10, 2), "deep": chain(3), "leaf": "000000000007\n"}
    for name, text in made.items():
        paths.append(os.path.join(folder, name + ".tree"))
        with open(paths[-1], "w") as file:
            file.write(text)
    slowest = 0
    for path in paths:
        for name, (width, height) in SIZES.items():
            browser.size(width, height)
            start = time.time()
            browser.open(page(folder, "large.html", path) + "?step=end")
            slowest = max(slowest, time.time() - start)
            assert browser.run("document.documentElement.scrollWidth <= innerWidth"), (path, name)
            if name == "wall":
                assert browser.run("document.documentElement.scrollHeight <= innerHeight + 2"), (path, "at the end")
            took = browser.run("[performance.now(), go(Math.trunc(last / 2)), performance.now()]")
            assert took[2] - took[0] < 2000, (path, took)
            tree, orders = tree_of(path), orders_of(path)
            for t in {1, max(map(len, orders)) // 2, max(map(len, orders)) + 1}:
                browser.run(f"go({t})")
                check_frame(tree, orders, t, browser.run(READ), browser.run(MARKS), whole=False)
            if SHOTS:
                shot(browser, f"{os.path.basename(path)[:-5]}-{name}")
        assert not browser.errors(), browser.errors()
    return f"{len(paths)} trees, {slowest:.1f} s at most to open"


TEXTS = """(() => {
  const svg = document.documentElement, s = svg.getScreenCTM();
  const [, , w, h] = svg.getAttribute('viewBox').split(' ').map(Number);
  const boxes = [...svg.querySelectorAll('text')].map(e => {
    const b = e.getBoundingClientRect();
    return [e.textContent, (b.left - s.e) / s.a, (b.top - s.f) / s.d, (b.right - s.e) / s.a, (b.bottom - s.f) / s.d];
  });
  const out = boxes.filter(([, l, t, r, b]) => l < 0 || t < -2 || r > w || b > h + 2).map(b => ['outside', b[0]]);
  boxes.forEach(([one, l, t, r, b], i) => boxes.slice(i + 1).forEach(([other, l2, t2, r2, b2]) => {
    const wide = Math.min(r, r2) - Math.max(l, l2), high = Math.min(b, b2) - Math.max(t, t2);
    if (wide > 1.5 && high > 5) out.push(['one upon another', one, other]);
  }));
  return out;
})()"""


def test_pictures(browser, folder):
    """The texts of a picture stay inside it, and none lies upon another."""
    trees = [*SAMPLES, *LARGE]
    made = {"wide": regular(40, 2, 1), "deep": chain(3)} | {f"random-{i}": grow(i) for i in range(12)}
    for name, text in made.items():
        trees.append(os.path.join(folder, name + ".tree"))
        with open(trees[-1], "w") as file:
            file.write(text)
    names = os.path.join(folder, "names")
    count = 0
    browser.size(*SIZES["wall"])
    for path in trees:
        nodes = tree_of(path).n
        every = [["--all"]] if nodes < 300 else []
        with open(names, "w") as file:
            file.write("".join(f"{k} {k % 50 + 1}-{k % 47 + 2}\n" for k in range(1, min(nodes, 300))))
        for more in [[], ["--method", "ab", "--rows", "90"], ["--names", names], *every]:
            drawn = os.path.join(folder, "picture.svg")
            with open(drawn, "w") as file:
                file.write(command("draw", path, *more))
            browser.open("file://" + drawn)
            wrong = browser.run(TEXTS)
            assert not wrong, (path, more, wrong)
            count += 1
            if SHOTS and more == []:
                shot(browser, f"draw-{os.path.basename(path)[:-5]}")
    return f"{count} pictures"


def shot(browser, name, kind="png", **more):
    data = browser.call("Page.captureScreenshot", format=kind, **more)["data"]
    with open(os.path.join(SHOTS, f"{name}.{kind}"), "wb") as file:
        file.write(base64.b64decode(data))


def main():
    browser, failed = Browser(CHROMIUM), 0
    tests = (test_numbers, test_keys, test_controls, test_access, test_print, test_large, test_pictures)
    try:
        with tempfile.TemporaryDirectory() as folder:
            for test in tests:
                name = test.__name__.removeprefix("test_")
                try:
                    print(f"ok      {name}: {test(browser, folder)}", flush=True)
                except AssertionError as error:
                    failed += 1
                    traceback.print_exc()
                    print(f"FAILED  {name}: {json.dumps(error.args, default=str)[:2000]}", flush=True)
    finally:
        browser.close()
    print(f"{len(tests) - failed} passed, {failed} failed")
    sys.exit(failed > 0)


if __name__ == "__main__":
    BUULSET, CHROMIUM = sys.argv[1:3]
    SHOTS = sys.argv[3] if len(sys.argv) > 3 else None
    main()
