//! What a picture says in words: its head, the labels of its rows, and a hint for everything.
use super::layout::{Layout, MARGIN, ORDER, TOP, WORTH};
use super::place::{Kind, Row};
use super::rows::text;
use super::text::{escape, leaves, wide, N};
use super::Picture;
use crate::bounds::{known, number};
use std::fmt::Write;

impl Picture<'_> {
    fn value(&self) -> String {
        number(self.bounds.of(0).0)
    }

    pub fn title(&self) -> String {
        format!("{}: value {}", self.of.file, self.value())
    }

    /// The best line: its name, and its moves.
    fn best_line(&self) -> Option<(&'static str, String)> {
        let moves = self.line.get(1..).filter(|moves| !moves.is_empty())?;
        let named = moves.iter().any(|k| self.of.names.of(*k).is_some());
        let words: Vec<String> =
            moves.iter().map(|k| self.of.names.of(*k).map_or(k.to_string(), String::from)).collect();
        // a certificate may prove the value by another best move
        let name = if self.of.root_move == Some(moves[0]) { "best line" } else { "a best line" };
        Some((name, words.join(if named { ", " } else { " – " })))
    }

    /// What was done, in a sentence or two.
    pub fn sentence(&self) -> String {
        if self.tree.nodes() == 1 {
            return "The root is a leaf.".into();
        }
        let all = self.plan.leaves[0];
        let needed = (0..self.used.len()).filter(|&k| self.used[k] && self.flags[k] != 0).count();
        let mut said = match self.of.run {
            None => format!("A certificate: {needed} of {} prove the value.", leaves(all)),
            Some(run) => {
                let count = run.order.len();
                let of =
                    if count == all { format!("all {}", leaves(all)) } else { format!("{count} of {}", leaves(all)) };
                let foreign = (0..self.used.len()).any(|k| self.used[k] && self.rank[k].is_none());
                match (foreign, needed == count) {
                    (true, _) => {
                        format!("{} evaluated {of}. Drawn is another certificate, of {}.", run.title, leaves(needed))
                    }
                    (_, true) => format!("{} evaluated {of}; all of them prove the value.", run.title),
                    _ => format!("{} evaluated {of}; {needed} of them prove the value.", run.title),
                }
            }
        };
        if let (Some(best), Some(first)) = (self.of.root_move, self.line.get(1)) {
            if best != *first {
                let _ = write!(said, " The move, the first best one, is {best}.");
            }
        }
        said
    }

    /// The width that the head takes.
    pub fn head_width(&self) -> f64 {
        let line = self.best_line().map_or(0.0, |(name, moves)| wide(name, 16.0) + 10.0 + wide(&moves, 17.0));
        let top = wide(&format!("Value {}", self.value()), 25.0) + 16.0 + line + 30.0 + wide(&self.of.file, 11.0);
        top.max(wide(&self.sentence(), 12.0)) + 2.0 * MARGIN
    }

    /// The caption and the head of the table.
    pub fn head(&self, out: &mut String, layout: &Layout) {
        let value = format!("Value {}", self.value());
        text(out, "h", MARGIN, 42.0, &value);
        if let Some((name, moves)) = self.best_line() {
            let (x, moves) = (N(MARGIN + wide(&value, 25.0) + 16.0), escape(&moves));
            write!(out, "<text class=\"l\" x=\"{x}\" y=\"42\">{name} <tspan class=\"x\">{moves}</tspan></text>").ok();
        }
        text(out, "t e", layout.width - MARGIN, 42.0, &self.of.file);
        out.push('\n');
        text(out, "", MARGIN, 66.0, &self.sentence());
        text(out, "t e", layout.at + WORTH, TOP + 8.0, "worth");
        if self.has_order() {
            text(out, "t e", layout.at + ORDER, TOP + 8.0, "evaluated as");
        }
        let (from, to) = (N(layout.at - 4.0), N(layout.width - MARGIN));
        writeln!(out, "<path class=\"r\" d=\"M{from} {}H{to}\"/>", N(TOP + 14.0)).ok();
    }

    /// Is there an order of leaves to show?
    pub fn has_order(&self) -> bool {
        self.of.run.is_some_and(|run| run.ordered)
    }

    pub fn left_out(&self) -> &'static str {
        if self.of.run.is_some() {
            "passed over"
        } else {
            "not in the certificate"
        }
    }

    /// A node's number and its move, or the numbers of neighbours.
    pub fn name(&self, first: usize, last: usize) -> String {
        match self.of.names.of(first) {
            _ if first != last => format!("{first}–{last}"),
            Some(name) => format!("{first} {name}"),
            None => first.to_string(),
        }
    }

    /// What stands at the end of a branch that is not a leaf.
    pub fn label(&self, row: &Row) -> String {
        let all: usize = (row.first..=row.last).map(|c| self.plan.leaves[c]).sum();
        let seen: usize = (row.first..=row.last).map(|c| self.seen[c]).sum();
        let word = if self.of.run.is_some() { "evaluated" } else { "in the certificate" };
        match row.kind {
            Kind::Passed if self.of.all => format!("worth {}", number(self.plan.worth[row.first])),
            Kind::Passed => leaves(all),
            _ if seen < all => format!("{seen} of {} {word}", leaves(all)),
            _ => format!("{}, all {word}", leaves(all)),
        }
    }

    /// Why a row was passed over, in a few words.
    pub fn brief(&self, row: &Row) -> Option<String> {
        self.reasons.get(&row.first).map(|reason| reason.brief(self.plan, row.first))
    }

    /// What a leaf holds where that is not its worth.
    pub fn note(&self, k: usize) -> Option<String> {
        let stored = self.tree.stored(k).map(i32::from).filter(|&stored| stored != self.plan.worth[k])?;
        let what = if stored > 0 { "a win" } else { "a loss" };
        Some(format!("{what}, stored as {}", number(stored)))
    }

    /// What a browser shows where the pointer rests on a node.
    pub fn hint(&self, k: usize) -> String {
        let mut said = format!("node {}: ", self.name(k, k));
        if self.is_leaf(k) {
            said += &format!("a leaf worth {}", number(self.plan.worth[k]));
            said += &self.note(k).map_or(String::new(), |note| format!(", {note}"));
        } else {
            let (side, known) = (if self.plan.max[k] { "Max" } else { "Min" }, known(self.bounds.of(k)));
            let again = if self.tree.second_capture(k) { " again" } else { "" };
            said += &format!("{side} moves{again}, value {}", if known.is_empty() { "not known" } else { &known });
        }
        if let (Some(rank), true) = (self.rank[k], self.has_order()) {
            said += &format!(", evaluated as no. {rank}");
        }
        said += ["", ", in the max solution tree", ", in the min solution tree", ", on the best line"]
            [usize::from(self.flags[k])];
        said + if self.of.root_move == Some(k) { ", the move" } else { "" }
    }

    pub fn row_hint(&self, row: &Row) -> String {
        if row.kind == Kind::Leaf {
            return self.hint(row.first);
        }
        let nodes = if row.first == row.last { "node" } else { "nodes" };
        let mut said = format!("{nodes} {}: {}", self.name(row.first, row.last), self.label(row));
        if row.kind == Kind::Passed {
            said += &format!(", {}.", self.left_out());
            said += &self.in_plain_words(row).map_or(String::new(), |words| format!(" {words}"));
        }
        said
    }

    /// Why a row was passed over, in plain words.
    pub fn in_plain_words(&self, row: &Row) -> Option<String> {
        let all = (row.first..=row.last).map(|c| self.plan.leaves[c]).sum();
        self.reasons.get(&row.first).map(|reason| reason.sentences(self.plan, all))
    }
}
