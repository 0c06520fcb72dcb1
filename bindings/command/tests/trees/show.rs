//! `show`: every node once, in the order of the children, with its marks.
use crate::line;
use crate::random::{self, Nodes, Random};
use crate::user::{gives, is_refused, is_wrong_use, prints, root, with_input};
use std::process::Command;

/// A line of the tree: the columns before its number, the number, and the words after it.
fn shown(text: &str) -> Vec<(usize, usize, String)> {
    let (_, tree) = text.split_once("\n\n").expect("a heading, and the tree");
    let line = |line: &str| {
        let label = line.trim_start_matches(['│', '├', '└', '─', '|', '-', '`', ' ']);
        let (number, rest) = label.split_once(' ').unwrap();
        (line.chars().count() - label.chars().count(), number.parse().unwrap(), rest.to_string())
    };
    tree.lines().map(line).collect()
}

/// Is the text as narrow as a pager wants it? Only a leaf with its worth may pass 80 columns.
fn is_narrow(text: &str) -> bool {
    text.lines().all(|line| line.chars().count() <= if line.contains("(worth ") { 90 } else { 80 })
}

/// What is expected after the number of a node.
fn label(nodes: &Nodes, k: usize, order: &[usize], best: &[usize]) -> String {
    let mut label = match nodes.stored[k] {
        None => if nodes.max[k] { "Max" } else { "Min" }.into(),
        Some(value) if value == nodes.value[k] => format!("= {value}"),
        Some(value) => format!("= {value} (worth {})", nodes.value[k]),
    };
    if nodes.is_second_capture[k] {
        label += " (second capture)";
    }
    if let Some(i) = order.iter().position(|&leaf| leaf == k) {
        label += &format!(" #{}", i + 1);
    }
    label + if best.contains(&k) { " *" } else { "" }
}

#[test]
fn every_node_is_named_once() {
    let mut random = Random(53);
    for _ in 0..300 {
        let nodes = Nodes::new(&random::tree(&mut random));
        let file = nodes.file();
        let method = random.pick(&["ab", "mtd", "sss", "mtdf:0"]);
        let text = gives(&["show", "-", "--method", method], &file);
        let listed = gives(&["order", method, "-"], &file);
        let order: Vec<usize> = listed.lines().map(|l| l.split(' ').next().unwrap().parse().unwrap()).collect();
        let best = line::read(&gives(&["line", "-"], &file)).1;
        let expected: Vec<(usize, usize, String)> = nodes
            .in_text_order()
            .into_iter()
            .map(|k| (3 * nodes.depth[k], k, label(&nodes, k, &order, &best)))
            .collect();
        assert!(shown(&text) == expected, "{text}");
        assert!(is_narrow(&text), "{text}");
        assert!(text.starts_with(&format!("value {}, ", nodes.value[0])), "{text}");
    }
}

#[test]
fn the_tree_is_drawn_by_lines() {
    let tree = "\
0 Max *
├─ 1 Max (second capture) *
│  ├─ 3 = -10 #1
│  ├─ 4 = 40 #2 *
│  └─ 5 Min
│     ├─ 8 = 30 #3
│     └─ 9 = 60
└─ 2 Min
   ├─ 6 = 50 #4
   └─ 7 Min (second capture)
      ├─ 10 Max
      │  └─ 12 = 45 #5
      └─ 11 = 20 #6
";
    let heading = "\
value 40, move 1; the best line is marked *
sss evaluated 6 of 7 leaves, marked #1 to #6 in their order
";
    let printed = prints(&["show", "samples/captures.tree"]);
    assert_eq!(printed, format!("{heading}\n{tree}"));
    let ascii = prints(&["show", "samples/captures.tree", "--ascii"]);
    let plain = tree.replace("├─", "|-").replace("└─", "`-").replace('│', "|");
    assert_eq!(ascii, format!("{heading}\n{plain}"));
    let wins = prints(&["show", "samples/wins.tree"]);
    assert!(wins.contains("├─ 2 = 31500 (worth 31499) #2 *\n"), "{wins}");
}

#[test]
fn a_search_is_chosen() {
    let show = |method: &str| prints(&["show", "samples/ending.tree", "--method", method]);
    assert_eq!(show("sss"), prints(&["show", "samples/ending.tree"]));
    assert!(show("ab").contains("\nab evaluated 15 of 19 leaves, marked #1 to #15 in their order\n"));
    assert!(show("mtdf:-20").contains("\nmtdf:-20 evaluated "));
    let plain = show("plain");
    assert!(plain.contains("\nplain evaluated all 19 leaves\n") && !plain.contains('#'), "{plain}");
    let leaf = gives(&["show", "-"], "00000000FFFB\n");
    let heading = "value -5, no move; the best line is marked *\nsss evaluated 1 of 1 leaves, marked #1\n";
    assert_eq!(leaf, format!("{heading}\n0 = -5 #1 *\n"));
    let wrong = with_input(&["show", "samples/ending.tree", "--method", "x"], "");
    is_wrong_use(&wrong, "METHOD is ab, mtd, mtdf:N, sss or plain, not x");
    is_refused(&with_input(&["show", "samples/refused-8.tree"], ""), "refused 8 2", "there are too many lines");
    assert_eq!(gives(&["show"], "00000000FFFB\n"), leaf, "a pipe stands for FILE");
    is_wrong_use(&with_input(&["show", "-", "--names", "-"], ""), "more than once");
}

#[test]
fn depth_cuts_and_names_are_shown() {
    let cut = prints(&["show", "samples/ending.tree", "--depth", "1", "--names", "samples/ending.names"]);
    let tree = "\
0 Max *
├─ 1 [31-27] Min .. 9 nodes below
├─ 2 [32-28] Min * .. 2 nodes below
├─ 3 [33-29] Min .. 9 nodes below
└─ 4 [34-30] Min .. 3 nodes below
";
    assert!(cut.ends_with(&format!("\n\n{tree}")), "{cut}");
    assert!(prints(&["show", "samples/ending.tree", "--depth=0"]).ends_with("\n\n0 Max * .. 27 nodes below\n"));
    let whole = prints(&["show", "samples/captures.tree"]);
    assert_eq!(prints(&["show", "samples/captures.tree", "--depth", "4"]), whole);
    let cut = prints(&["show", "samples/captures.tree", "--depth", "3"]);
    assert!(cut.contains("├─ 10 Max .. 1 node below\n"), "{cut}");
    is_wrong_use(&with_input(&["show", "-", "--depth", "x"], ""), "--depth is no number that fits: x");
    let unknown = with_input(&["show", "samples/ending.tree", "--names", "-"], "28 32-28\n");
    is_wrong_use(&unknown, "standard input, line 1: node 28 is not in the tree, whose last node is 27");
}

#[test]
fn the_largest_tree_fits_a_pager() {
    let text = prints(&["show", "docs/pictures/largest.tree"]);
    assert_eq!(shown(&text).len(), 4096);
    assert!(is_narrow(&text));
    // 18 levels of 40 nodes, with leaves of -32,000, which have a worth, and of -29,975, which are worth their value
    let lines = |value: &str| {
        let inner = (0..18).map(|k| format!("{:04X}{:02X}000000\n", 1 + 40 * k, 40));
        let mut frames: Vec<String> =
            inner.flat_map(|line| [vec![line], vec![value.to_string(); 39]].concat()).collect();
        // a level is its one inner node and 39 leaves; the root stands alone
        frames.drain(1..40);
        frames.extend(vec![value.to_string(); 40]);
        frames.concat()
    };
    for (value, widest) in [("000000008300\n", 90), ("000000008AE9\n", 80)] {
        let text = gives(&["show", "-", "--method", "ab"], lines(value));
        assert_eq!(shown(&text).len(), 721);
        assert!(is_narrow(&text) && text.lines().all(|line| line.chars().count() <= widest), "{text}");
    }
}

#[test]
fn colour_is_for_terminals() {
    assert!(!prints(&["show", "samples/seven.tree"]).contains('\x1b'));
    let on_terminal = |no_color: &str, term: &str| {
        let command = format!("{} show samples/seven.tree", env!("CARGO_BIN_EXE_buulset"));
        let output = Command::new("script")
            .args(["-qec", &command, "/dev/null"])
            .current_dir(root())
            .envs([("NO_COLOR", no_color), ("TERM", term)])
            .output()
            .ok()?;
        Some(String::from_utf8(output.stdout).unwrap().replace("\r\n", "\n"))
    };
    // `script` gives a command a terminal; where it is missing nothing can be asked
    let Some(coloured) = on_terminal("", "xterm") else { return };
    assert!(coloured.contains("\x1b[2m└─ \x1b[m\x1b[1m2 Min\x1b[m\x1b[1m *\x1b[m\n"), "{coloured:?}");
    assert!(coloured.contains("\x1b[m3 = 1\x1b[36m #1\x1b[m\n"), "{coloured:?}");
    let plain = prints(&["show", "samples/seven.tree"]);
    assert_eq!(on_terminal("1", "xterm").unwrap(), plain);
    assert_eq!(on_terminal("", "dumb").unwrap(), plain);
}
