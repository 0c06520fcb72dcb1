//! Which nodes get rows of their own: from the best line outwards, as far as there are rows.
use super::place::{Kind, Row};
use super::Picture;
use std::cmp::Reverse;
use std::collections::BinaryHeap;

/// What could be unfolded next, nearest first: how far from the best line, the place among its like, and the node; and
/// is the node to be opened, or only to stand alone?
type Wish = Reverse<(usize, usize, usize, bool)>;

impl Picture<'_> {
    /// Opens nodes within the budget. The best line is open; then its rivals get rows of their own, then their inside.
    pub fn unfold(&mut self) {
        if self.of.all {
            self.open = (0..self.tree.nodes()).map(|k| !self.is_leaf(k)).collect();
            self.alone.fill(true);
            return;
        }
        let line: Vec<usize> = self.line.clone();
        for &k in &line {
            self.open[k] = !self.is_leaf(k);
            self.alone[k] = true;
        }
        let mut wishes: BinaryHeap<Wish> = BinaryHeap::new();
        let mut used = usize::from(self.is_leaf(0));
        for &k in line.iter().filter(|&&k| !self.is_leaf(k)) {
            used += self.rows_of(k);
            self.wish(&mut wishes, 0, k);
        }
        while let Some(Reverse((distance, _, c, opens))) = wishes.pop() {
            let taken = if opens { self.try_open(c, used) } else { self.try_alone(c, used) };
            let Some(rows) = taken else { continue };
            used = rows;
            if opens {
                self.wish(&mut wishes, distance, c);
            } else if !self.is_leaf(c) {
                let place = usize::from(self.flags[c] == 0) * self.tree.nodes() + self.plan.leaves[c];
                wishes.push(Reverse((distance + 1, place, c, true)));
            }
        }
    }

    /// The children of an open node wish to stand alone, the strongest rivals first.
    fn wish(&self, wishes: &mut BinaryHeap<Wish>, distance: usize, k: usize) {
        let mut rivals: Vec<usize> = self.tree.children(k).filter(|&c| self.seen[c] != 0 && !self.alone[c]).collect();
        rivals.sort_by_key(|&c| {
            let (low, high) = self.bounds.of(c);
            if self.plan.max[k] {
                -high
            } else {
                low
            }
        });
        wishes.extend(rivals.into_iter().enumerate().map(|(place, c)| Reverse((distance, place, c, false))));
    }

    /// Gives a node a row of its own; the rows that are then used, unless they are too many.
    fn try_alone(&mut self, c: usize, used: usize) -> Option<usize> {
        let parent = self.plan.parent[c]?;
        let before = self.rows_of(parent);
        self.alone[c] = true;
        let rows = used + self.rows_of(parent) - before;
        if rows > self.of.rows {
            self.alone[c] = false;
            return None;
        }
        Some(rows)
    }

    /// Shows the children of a node.
    fn try_open(&mut self, c: usize, used: usize) -> Option<usize> {
        self.open[c] = true;
        let groups = self.groups(c);
        let rows = used + self.rows_of(c) - 1;
        // its children as one row say no more than the node, unless there is room to go on
        let useless = matches!(groups.as_slice(), [Row { kind: Kind::Folded, .. }]);
        if rows + usize::from(useless) > self.of.rows {
            self.open[c] = false;
            return None;
        }
        Some(rows)
    }

    fn rows_of(&self, k: usize) -> usize {
        self.groups(k).iter().filter(|row| row.kind != Kind::Open).count()
    }

    /// The rows and open nodes under an open node; neighbours that do not stand alone are folded together.
    pub fn groups(&self, k: usize) -> Vec<Row> {
        let mut found: Vec<Row> = Vec::new();
        for c in self.tree.children(k) {
            let kind = match () {
                _ if self.open[c] => Kind::Open,
                _ if self.seen[c] == 0 => Kind::Passed,
                _ if self.is_leaf(c) => Kind::Leaf,
                _ => Kind::Folded,
            };
            match found.last_mut() {
                Some(row) if self.joins(row, c, kind) => {
                    row.last = c;
                    row.kind = if kind == Kind::Passed { kind } else { Kind::Folded };
                }
                _ => found.push(Row { kind, first: c, last: c, y: 0.0 }),
            }
        }
        found
    }

    /// Does a child share the row of its elder siblings?
    fn joins(&self, row: &Row, c: usize, kind: Kind) -> bool {
        match (row.kind, kind) {
            (Kind::Passed, Kind::Passed) => !self.of.all,
            (Kind::Leaf | Kind::Folded, Kind::Leaf | Kind::Folded) => !self.alone[c] && !self.alone[row.last],
            _ => false,
        }
    }
}
