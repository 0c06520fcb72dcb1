//! The rows of the table and the boxes of the tree.
use super::layout::{Layout, NOTE, ORDER, WORTH};
use super::place::{Kind, Row};
use super::text::{escape, wide, N};
use super::Picture;
use crate::bounds::{known, number};
use std::fmt::Write;

impl Picture<'_> {
    /// One row: the end of a branch, and what the table says of it.
    pub fn row(&self, out: &mut String, layout: &Layout, row: &Row) {
        let (k, y) = (row.first, row.y);
        let left = layout.x[self.plan.depth[k]];
        write!(out, "<g><title>{}</title>", escape(&self.row_hint(row))).ok();
        if k != 0 {
            self.number(out, k, row.last, left - 5.0, y - 4.0);
        }
        let end = left + layout.tail[&k];
        match row.kind {
            Kind::Leaf => {
                let worth = wide(&number(self.plan.worth[k]), 12.5);
                self.leader(out, y, end, layout.at + (WORTH - worth - 6.0).min(8.0));
                self.leaf(out, k, left, y, layout.at);
            }
            Kind::Passed => self.passed(out, row, left, end, layout.at),
            _ => self.folded(out, row, left, layout.boxes[&k]),
        }
        out.push_str("</g>\n");
    }

    fn leaf(&self, out: &mut String, k: usize, left: f64, y: f64, at: f64) {
        let flag = self.flags[k];
        let radius = if flag == 3 { 5.0 } else { 3.4 };
        write!(out, "<circle class=\"d f{flag}\" cx=\"{}\" cy=\"{}\" r=\"{radius}\"/>", N(left + 3.0), N(y)).ok();
        let class = if flag == 0 { "w u" } else { "w" };
        text(out, class, at + WORTH, y + 4.0, &number(self.plan.worth[k]));
        if let (Some(rank), true) = (self.rank[k], self.has_order()) {
            text(out, "e", at + ORDER, y + 4.0, &format!("no. {rank}"));
        }
        if let Some(note) = self.note(k) {
            text(out, "q", at + NOTE, y + 4.0, &note);
        }
    }

    fn passed(&self, out: &mut String, row: &Row, left: f64, end: f64, at: f64) {
        let y = row.y;
        write!(out, "<path class=\"c\" d=\"M{} {}l3 -10m1 10l3 -10\"/>", N(left - 1.0), N(y + 5.0)).ok();
        text(out, "q", left + 11.0, y + 4.0, &self.label(row));
        if let Some(brief) = self.brief(row) {
            self.leader(out, y, end + 4.0, at - 2.0);
            text(out, "q", at + 4.0, y + 4.0, &brief);
        }
    }

    /// Neighbours together are no node: what is known of them has no box.
    fn folded(&self, out: &mut String, row: &Row, left: f64, width: f64) {
        let (k, y, bounds) = (row.first, row.y, self.together(row));
        if row.first == row.last {
            self.shape(out, k, (left, y), width);
        }
        let mut class = String::from(if bounds.0 == bounds.1 { "v x" } else { "v" });
        if self.on_line(k) && row.first == row.last {
            class += " f3";
        }
        text(out, &class, left + width / 2.0, y + 4.0, &known(bounds));
        text(out, "q", left + width + 8.0, y + 4.0, &self.label(row));
    }

    /// An open node with what is known of it.
    pub fn node(&self, out: &mut String, layout: &Layout, k: usize) {
        let (left, y, width) = (layout.x[self.plan.depth[k]], self.y[&k], layout.boxes[&k]);
        let (low, high) = self.bounds.of(k);
        write!(out, "<g><title>{}</title>", escape(&self.hint(k))).ok();
        self.shape(out, k, (left, y), width);
        let best = if self.on_line(k) { " f3" } else { "" };
        let exact = if low == high { " x" } else { "" };
        text(out, &format!("v{exact}{best}"), left + width / 2.0, y + 4.0, &known((low, high)));
        let ring = if self.tree.second_capture(k) { 3.0 } else { 0.0 };
        if k == 0 {
            self.number(out, k, k, left + width / 2.0 + 3.0, y - 13.0);
        } else {
            self.number(out, k, k, left - 5.0, y - 4.0 - ring);
        }
        out.push_str("</g>\n");
    }

    /// The number of a node, or of neighbours, on their branch.
    fn number(&self, out: &mut String, first: usize, last: usize, x: f64, y: f64) {
        let class = if first == last && self.on_line(first) { "n f3" } else { "n" };
        text(out, class, x, y, &self.name(first, last));
    }
}

/// A text at a place.
pub fn text(out: &mut String, class: &str, x: f64, y: f64, text: &str) {
    if !text.is_empty() {
        write!(out, "<text class=\"{class}\" x=\"{}\" y=\"{}\">{}</text>", N(x), N(y), escape(text)).ok();
    }
}
