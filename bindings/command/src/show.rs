//! `buulset show`: the tree in the terminal, a node a line, in the order of the children.
use crate::arguments::Arguments;
use crate::names::Names;
use crate::plan::Plan;
use crate::{commands, files, Done};
use buulset::{Search, Tree};
use std::ffi::OsStr;
use std::io::IsTerminal;

pub fn run(mut arguments: Arguments) -> Done {
    let file = arguments.last_file()?;
    let deepest = arguments.optional("--depth")?.unwrap_or(usize::MAX);
    let names = arguments.option("--names").map(OsStr::to_os_string);
    commands::once(&arguments, [Some(&file), names.as_ref()].iter().filter(|n| **n == Some(&"-".into())).count())?;
    let method = arguments.option("--method").unwrap_or("sss".as_ref());
    let tree = commands::tree(&file)?;
    let search = commands::searched(&arguments, method, &tree)?;
    let shown = Shown {
        plan: Plan::new(&tree),
        ranks: ranks(&tree, &search),
        line: tree.line().nodes,
        names: Names::read(names.as_deref(), tree.nodes())?,
        deepest,
        branches: if arguments.has("--ascii") { &ASCII } else { &BOXES },
        coloured: is_coloured(),
        tree: &tree,
    };
    let mut text = shown.heading(&method.to_string_lossy(), &search);
    shown.node(&mut text, 0, "", "");
    files::print(text.as_bytes())
}

/// What leads to a child: before a child and before the last one, and then before all below each of them.
struct Branches {
    child: &'static str,
    last: &'static str,
    below_child: &'static str,
    below_last: &'static str,
}

// three columns a level: at depth 18 a leaf ends within 80 columns, one with its worth within 90
const BOXES: Branches = Branches { child: "├─ ", last: "└─ ", below_child: "│  ", below_last: "   " };
const ASCII: Branches = Branches { child: "|- ", last: "`- ", below_child: "|  ", below_last: "   " };

const BOLD: &str = "1";
const DIM: &str = "2";
const CYAN: &str = "36";

/// Is standard output a terminal that is to have colours?
fn is_coloured() -> bool {
    let is_set = |name| std::env::var_os(name).is_some_and(|value| !value.is_empty());
    let is_dumb = std::env::var_os("TERM").is_some_and(|term| term == "dumb");
    std::io::stdout().is_terminal() && !is_set("NO_COLOR") && !is_dumb
}

/// The number of each evaluated leaf in the order, from 1.
fn ranks(tree: &Tree, search: &Search) -> Vec<Option<usize>> {
    let mut ranks = vec![None; tree.nodes()];
    for (i, &leaf) in search.order.iter().enumerate() {
        ranks[usize::from(leaf)] = Some(i + 1);
    }
    ranks
}

/// What is shown of a tree.
struct Shown<'a> {
    tree: &'a Tree,
    plan: Plan,
    ranks: Vec<Option<usize>>,
    line: Vec<usize>,
    names: Names,
    /// Nodes below this depth are only counted.
    deepest: usize,
    branches: &'static Branches,
    coloured: bool,
}

impl Shown<'_> {
    /// What the marks mean, with the value and the move.
    fn heading(&self, method: &str, search: &Search) -> String {
        let (leaves, evaluated) = (self.plan.leaves[0], search.order.len());
        let root_move = search.found.root_move.map_or("no move".into(), |child| format!("move {child}"));
        let marks = match evaluated {
            0 => format!("{method} evaluated all {leaves} leaves"),
            1 => format!("{method} evaluated 1 of {leaves} leaves, marked #1"),
            _ => format!("{method} evaluated {evaluated} of {leaves} leaves, marked #1 to #{evaluated} in their order"),
        };
        format!("value {}, {root_move}; the best line is marked *\n{marks}\n\n", search.found.value)
    }

    /// The line of a node and of all below it: `lead` stands before its own line, `below` before the others.
    fn node(&self, out: &mut String, node: usize, lead: &str, below: &str) {
        let children = self.tree.children(node);
        let is_cut = self.plan.depth[node] >= self.deepest && !children.is_empty();
        let hidden = if is_cut { self.hidden(node) } else { String::new() };
        *out += &format!("{}{}{}\n", self.painted(DIM, lead), self.label(node), self.painted(DIM, &hidden));
        if is_cut {
            return;
        }
        for child in children.clone() {
            let (branch, more) = match child + 1 == children.end {
                true => (self.branches.last, self.branches.below_last),
                false => (self.branches.child, self.branches.below_child),
            };
            self.node(out, child, &format!("{below}{branch}"), &format!("{below}{more}"));
        }
    }

    /// A node's number and name, what it is, and its marks.
    fn label(&self, node: usize) -> String {
        let name = self.names.of(node).map_or(String::new(), |name| format!(" [{name}]"));
        let is_best = self.line.contains(&node);
        let is_passed_over = self.tree.stored(node).is_some() && self.ranks[node].is_none();
        let style = match is_best {
            true => BOLD,
            false if is_passed_over => DIM,
            false => "",
        };
        let mut label = self.painted(style, &format!("{node}{name} {}", self.kind(node)));
        if let Some(rank) = self.ranks[node] {
            label += &self.painted(CYAN, &format!(" #{rank}"));
        }
        if is_best {
            label += &self.painted(BOLD, " *");
        }
        label
    }

    /// Who moves at an inner node; the value of a leaf.
    fn kind(&self, node: usize) -> String {
        let worth = self.plan.worth[node];
        match self.tree.stored(node) {
            Some(value) if i32::from(value) == worth => format!("= {value}"),
            Some(value) => format!("= {value} (worth {worth})"),
            None => {
                let side = if self.plan.max[node] { "Max" } else { "Min" };
                format!("{side}{}", if self.tree.second_capture(node) { " (second capture)" } else { "" })
            }
        }
    }

    /// How much is below a node that `--depth` cuts off.
    fn hidden(&self, node: usize) -> String {
        match self.below(node) {
            1 => " .. 1 node below".into(),
            count => format!(" .. {count} nodes below"),
        }
    }

    fn below(&self, node: usize) -> usize {
        self.tree.children(node).map(|child| 1 + self.below(child)).sum()
    }

    fn painted(&self, style: &str, text: &str) -> String {
        match self.coloured && !style.is_empty() && !text.is_empty() {
            true => format!("\x1b[{style}m{text}\x1b[m"),
            false => text.into(),
        }
    }
}
