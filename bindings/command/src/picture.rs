//! A tree as one page of SVG: the root at the left, and at the right each row of the tree is a row of a table.
mod fold;
mod key;
mod layout;
mod lines;
mod place;
mod rows;
mod text;
mod words;

use crate::bounds::{Bounds, Reason};
use crate::names::Names;
use crate::plan::Plan;
use crate::run::Run;
use buulset::Tree;
use place::Row;
use std::collections::BTreeMap;
use std::fmt::Write;
use text::{escape, N};

/// What is drawn of a tree.
pub struct Subject<'a> {
    /// The name of the file, as it is shown.
    pub file: String,
    /// A search; without one a certificate alone is drawn.
    pub run: Option<&'a Run>,
    /// The solution trees are those of this certificate, else those of the search.
    pub certificate: Option<&'a [u8]>,
    /// The first root move that reaches the value.
    pub root_move: Option<usize>,
    pub names: &'a Names,
    /// How many rows there may be.
    pub rows: usize,
    /// Draw every node, also what was passed over.
    pub all: bool,
}

struct Picture<'a> {
    tree: &'a Tree,
    plan: &'a Plan,
    of: &'a Subject<'a>,
    flags: &'a [u8],
    /// The number of an evaluated leaf in the order, from 1.
    rank: Vec<Option<usize>>,
    /// Is it a leaf that was evaluated, or that the certificate names?
    used: Vec<bool>,
    /// How many such leaves are there at the node or below it?
    seen: Vec<usize>,
    /// What those leaves say.
    bounds: Bounds<'a>,
    /// The nodes in both solution trees: a path from the root to a leaf.
    line: Vec<usize>,
    /// Nodes whose children are shown, and nodes that share their row with no neighbour.
    open: Vec<bool>,
    alone: Vec<bool>,
    rows: Vec<Row>,
    /// The height of what is shown: open nodes, and the first node of each row.
    y: BTreeMap<usize, f64>,
    /// Why a row was passed over, by its first node.
    reasons: BTreeMap<usize, Reason>,
}

/// The picture.
pub fn svg(tree: &Tree, plan: &Plan, of: &Subject) -> String {
    let mut picture = Picture::new(tree, plan, of);
    picture.unfold();
    picture.place(0);
    picture.find_reasons();
    picture.write()
}

impl<'a> Picture<'a> {
    fn new(tree: &'a Tree, plan: &'a Plan, of: &'a Subject<'a>) -> Picture<'a> {
        let n = tree.nodes();
        let flags = of.certificate.or(of.run.map(|run| run.flags.as_slice())).expect("a run or a certificate is drawn");
        let flags = &flags[..n];
        let mut rank = vec![None; n];
        for (i, &leaf) in of.run.iter().flat_map(|run| &run.order).enumerate() {
            rank[leaf] = Some(i + 1);
        }
        let used: Vec<bool> =
            (0..n).map(|k| tree.stored(k).is_some() && (rank[k].is_some() || flags[k] != 0)).collect();
        let mut seen: Vec<usize> = used.iter().map(|&used| used.into()).collect();
        let mut bounds = Bounds::new(tree, plan);
        for k in (0..n).rev() {
            if used[k] {
                bounds.add(k);
            }
            if let Some(parent) = plan.parent[k] {
                seen[parent] += seen[k];
            }
        }
        let line = (0..n).filter(|&k| flags[k] == 3).collect();
        let (open, alone) = (vec![false; n], vec![false; n]);
        let (rows, y, reasons) = (Vec::new(), BTreeMap::new(), BTreeMap::new());
        Picture { tree, plan, of, flags, rank, used, seen, bounds, line, open, alone, rows, y, reasons }
    }

    fn is_leaf(&self, k: usize) -> bool {
        self.tree.stored(k).is_some()
    }

    fn on_line(&self, k: usize) -> bool {
        self.flags[k] == 3
    }

    /// The whole text of the picture.
    fn write(&self) -> String {
        let layout = self.layout();
        let mut out = String::new();
        let (width, height) = (N(layout.width), N(layout.height));
        writeln!(out, "<svg xmlns=\"http://www.w3.org/2000/svg\" viewBox=\"0 0 {width} {height}\">").ok();
        let (title, description) = (escape(&self.title()), escape(&self.sentence()));
        writeln!(out, "<title>{title}</title>\n<desc>{description}</desc>").ok();
        writeln!(out, "<style>\n{}</style>", include_str!("picture/style.css")).ok();
        self.head(&mut out, &layout);
        writeln!(out, "<g transform=\"translate(0 {})\">", N(layout.zero)).ok();
        self.lines(&mut out, &layout);
        for row in &self.rows {
            self.row(&mut out, &layout, row);
        }
        for &k in self.y.keys().filter(|&&k| self.open[k]) {
            self.node(&mut out, &layout, k);
        }
        out.push_str("</g>\n");
        layout.key.write(&mut out, layout.foot);
        out.push_str("</svg>\n");
        out
    }
}
