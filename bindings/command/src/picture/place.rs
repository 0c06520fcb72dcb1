//! The rows and their heights.
use super::Picture;
use crate::bounds::Bounds;
use std::collections::BTreeMap;

pub const ROW: f64 = 23.0;

/// What stands in a row.
#[derive(Clone, Copy, PartialEq, Eq)]
pub enum Kind {
    /// A leaf that counts.
    Leaf,
    /// Neighbours with leaves that count, drawn as one.
    Folded,
    /// Neighbours without such a leaf.
    Passed,
    /// No row: a node whose children have rows.
    Open,
}

pub struct Row {
    pub kind: Kind,
    pub first: usize,
    pub last: usize,
    pub y: f64,
}

impl Picture<'_> {
    /// Gives a node and all below it their rows. A node stands in the middle of its children, the best line straight.
    pub fn place(&mut self, k: usize) {
        if !self.open[k] {
            return self.put(Row { kind: Kind::Leaf, first: k, last: k, y: 0.0 });
        }
        let mut ends = Vec::new();
        for row in self.groups(k) {
            let first = row.first;
            match row.kind {
                Kind::Open => self.place(first),
                _ => self.put(row),
            }
            ends.push(self.y[&first]);
        }
        let straight = self.tree.children(k).find(|&c| self.on_line(k) && self.on_line(c)).map(|c| self.y[&c]);
        self.y.insert(k, straight.unwrap_or((ends[0] + ends[ends.len() - 1]) / 2.0));
    }

    fn put(&mut self, mut row: Row) {
        row.y = ROW * self.rows.len() as f64;
        self.y.insert(row.first, row.y);
        self.rows.push(row);
    }

    /// The reason of each passed-over row as it was when it first held, so that "has" is true of that moment.
    pub fn find_reasons(&mut self) {
        let passed = self.rows.iter().filter(|row| row.kind == Kind::Passed);
        let mut waiting: Vec<usize> = passed.map(|row| row.first).collect();
        let (mut bounds, mut reasons) = (Bounds::new(self.tree, self.plan), BTreeMap::new());
        let run = self.of.run.map_or(&[][..], |run| &run.order);
        // a certificate beside a run names leaves that the run may lack
        let others = (0..self.tree.nodes()).filter(|&k| self.used[k] && self.rank[k].is_none());
        for leaf in run.iter().copied().chain(others) {
            bounds.add(leaf);
            waiting.retain(|&k| match bounds.reason(k) {
                Some(reason) => reasons.insert(k, reason).is_some(),
                None => true,
            });
        }
        self.reasons = reasons;
    }
}
