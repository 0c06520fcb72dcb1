//! The page that `buulset watch` makes: its data, its template, and the numbers of its script, where there is a node to
//! run it, against the bounds of the command. `bindings/browser` tries the page itself.
#[allow(dead_code)]
#[path = "../src/bounds.rs"]
mod bounds;
mod common;
mod minimax;
#[allow(dead_code)]
#[path = "../src/plan.rs"]
mod plan;

use bounds::Bounds;
use buulset::Tree;
use common::{prints, root, Folder};
use minimax::{random, runs, stored};
use plan::Plan;
use std::fmt::Write;
use std::fs;
use std::process::Command;

const METHODS: &str = "ab,mtd,sss,mtdf:-2,mtdf:31490,plain";

/// The data of a page.
fn data(page: &str) -> &str {
    let (_, rest) = page.split_once("<script id=\"data\" type=\"application/json\">").unwrap();
    rest.split_once("</script>").unwrap().0
}

#[test]
fn the_page_stands_by_itself() {
    let page = prints(&["watch", "samples/ending.tree"]);
    assert_eq!(
        page,
        fs::read_to_string(root().join("docs/pictures/ending.html")).unwrap(),
        "docs/pictures/ending.html"
    );
    assert!(page.contains("<title>ending.tree: runs compared</title>"));
    for word in ["http:", "https:", "src=", "@import", "{{"] {
        assert!(!page.contains(word), "{word} loads something or was left open");
    }
    let order = prints(&["order", "sss", "samples/ending.tree"]);
    let order: Vec<&str> = order.lines().map(|line| line.split(' ').next().unwrap()).collect();
    assert!(data(&page).contains(&format!("\"title\":\"SSS*\",\"order\":[{}]", order.join(","))));
    let flags = fs::read_to_string(root().join("samples/ending.certificate")).unwrap();
    assert!(data(&page).contains(&format!("\"flags\":\"{}\"", flags.trim_end())));
}

#[test]
fn methods_trees_and_names_are_chosen() {
    let page = prints(&["watch", "samples/ending.tree", "--methods", "ab,mtdf:-20,plain"]);
    let titles: Vec<&str> = data(&page).split("\"title\":\"").skip(1).map(|t| t.split('"').next().unwrap()).collect();
    assert_eq!(titles, ["Alpha-beta", "MTD(f) from −20", "Plain minimax"]);
    let page = prints(&["watch", "samples/ending.tree", "--methods", "mtdf:-1,000,ab"]);
    assert!(data(&page).contains("\"method\":\"mtdf:-1000\""), "{}", data(&page));
    let two = prints(&["watch", "samples/ending.tree", "samples/seven.tree", "--methods=sss"]);
    assert!(data(&two).contains("\"file\":\"ending.tree\"") && data(&two).contains("\"file\":\"seven.tree\""));
    assert!(two.contains("<title>2 trees: runs compared</title>"));
    // what a name or a file is called cannot leave its place
    let folder = Folder::new("watch");
    let names = folder.file("names", "2 </script>\"\\{{SCRIPT}}\n");
    let odd = folder.file("{{DATA}}<b>&.tree", fs::read(root().join("samples/seven.tree")).unwrap());
    let page = prints(&["watch", &odd, "--names", &names]);
    assert!(data(&page).contains("\"names\":{\"2\":\"\\u003c/script>\\\"\\\\{{SCRIPT}}\"}"));
    assert!(page.contains("<title>{{DATA}}&lt;b>&amp;.tree: runs compared</title>"));
    assert_eq!(page.matches("class Bounds").count(), 1);
    for (arguments, words) in [
        (&["watch", "samples/seven.tree", "--methods", "ab,x"][..], "METHOD is ab, mtd, mtdf:N, sss or plain, not x"),
        (&["watch", "samples/seven.tree", "--methods", "ab,ab"], "ab is named twice"),
        (&["watch", "samples/seven.tree", "samples/seven.tree", "--names", "x"], "--names is for one FILE"),
        (&["watch", "samples/seven.tree", "--methods", "mtdf:1,0"], "not mtdf:1,0"),
        (&["watch", "samples/seven.tree", "--methods", "mtdf:1,000,mtdf:1000"], "mtdf:1000 is named twice"),
        (&["watch", "-", "-"], "more than once"),
    ] {
        let (status, out, err) = runs(arguments);
        assert!(status == 2 && out.is_empty() && err.contains(words), "{err}");
    }
    assert_eq!(runs(&["watch", "samples/seven.tree", "samples/refused-7.tree"]).1, "refused 7 0\n");
}

/// What the script computes, in lines: of each step its leaf, the bounds that it changed, and the places that it cut
/// off with their reasons.
const PRINT: &str = r#"
for (const data of JSON.parse(require("fs").readFileSync(0, "utf8"))) {
  const tree = makeTree(data);
  for (const run of data.runs.map(r => replay(tree, r))) {
    console.log(`${data.file} ${run.method}`);
    for (const step of run.steps.slice(1)) {
      const changed = step.changed.map(([k, low, high]) => ` ${k} ${low} ${high}`).sort().join("");
      console.log(`${step.leaf} ${step.late}${changed}`);
      for (const cut of step.cuts) for (let k = cut.first; k <= cut.last; k++)
        console.log(`cut ${k}: ${cut.text.join("; ")}. ${k > cut.first ? "" : sentences(tree, cut.reason, 2)}`);
    }
    console.log(`passes ${run.passes}`);
  }
}
"#;

/// The same by the command's bounds.
fn expected(out: &mut String, tree: &Tree, order: &[usize]) {
    let (plan, n) = (Plan::new(tree), tree.nodes());
    let mut entered = vec![false; n];
    for &leaf in order {
        let mut node = Some(leaf);
        while let Some(k) = node {
            entered[k] = true;
            node = plan.parent[k];
        }
    }
    let mut open: Vec<usize> = (1..n).filter(|&k| !entered[k] && plan.parent[k].is_some_and(|p| entered[p])).collect();
    let mut bounds = Bounds::new(tree, &plan);
    for &leaf in order {
        let before: Vec<(i32, i32)> = (0..n).map(|k| bounds.of(k)).collect();
        write!(out, "{leaf} {}", bounds.reason(leaf).is_some()).unwrap();
        bounds.add(leaf);
        let changed = (0..n).filter(|&k| tree.stored(k).is_none() && bounds.of(k) != before[k]);
        let mut changed: Vec<String> = changed.map(|k| format!(" {k} {} {}", bounds.of(k).0, bounds.of(k).1)).collect();
        changed.sort();
        writeln!(out, "{}", changed.concat()).unwrap();
        let mut last = None;
        open.retain(|&k| {
            let Some(reason) = bounds.reason(k) else { return true };
            let brief = reason.brief(&plan, k);
            // neighbours with one reason are shown together
            let follows = last == Some((k - 1, plan.parent[k], brief.clone()));
            let words = if follows { String::new() } else { reason.sentences(&plan, 2) };
            writeln!(out, "cut {k}: {brief}. {words}").unwrap();
            last = Some((k, plan.parent[k], brief));
            false
        });
    }
    assert!(open.is_empty(), "{open:?} was passed over without a reason");
}

#[test]
fn the_script_computes_what_the_command_does() {
    let folder = Folder::new("script");
    let random: Vec<String> = (0..60).map(|seed| folder.file(&format!("{seed}.tree"), random(seed))).collect();
    let files: Vec<String> = stored().into_iter().chain(random).collect();
    let names: Vec<&str> = files.iter().map(String::as_str).collect();
    let page = prints(&[&["watch", "--methods", METHODS], names.as_slice()].concat());
    let json = folder.file("data.json", data(&page));
    let source = |name| fs::read_to_string(root().join("bindings/command/src/page").join(name)).unwrap();
    let script = folder.file("script.js", source("bounds.js") + &source("runs.js") + PRINT);
    let Ok(output) = Command::new("node").arg(script).stdin(fs::File::open(json).unwrap()).output() else {
        println!("left out: there is no node to run the page's script; bindings/browser runs it");
        return;
    };
    assert!(output.status.success(), "{}", String::from_utf8_lossy(&output.stderr));
    let said = String::from_utf8(output.stdout).unwrap();
    let mut said = said.lines();
    for file in &files {
        let tree = Tree::from_file(&fs::read(root().join(file)).unwrap()).unwrap();
        let shown = std::path::Path::new(file).file_name().unwrap().to_str().unwrap();
        for method in METHODS.split(',') {
            let (order, passes) = searched(&tree, method);
            let mut text = format!("{shown} {method}\n");
            expected(&mut text, &tree, &order);
            for line in text.lines() {
                assert_eq!(said.next(), Some(line), "{file} by {method}");
            }
            let found = said.next().unwrap();
            assert!(passes.is_none_or(|passes| found == format!("passes {passes}")), "{file} by {method}: {found}");
        }
    }
    assert_eq!(said.next(), None);
}

/// The leaves of a method, all from left to right for the plain engine; the passes of MTD, or the tests of MTD(f).
fn searched(tree: &Tree, method: &str) -> (Vec<usize>, Option<usize>) {
    fn leaves(tree: &Tree, k: usize) -> Vec<usize> {
        match tree.stored(k) {
            Some(_) => vec![k],
            None => tree.children(k).flat_map(|c| leaves(tree, c)).collect(),
        }
    }
    let search = match method {
        "ab" => tree.alphabeta(),
        "mtd" => tree.mtd(),
        "sss" => tree.sss(),
        "plain" => return (leaves(tree, 0), None),
        other => tree.mtdf(other[5..].parse().unwrap()),
    };
    let passes = method.starts_with("mtd").then_some(search.found.steps);
    (search.order.into_iter().map(usize::from).collect(), passes)
}
