//! Where everything stands: a column for each depth, and the table behind the deepest.
use super::key::Key;
use super::place::{Kind, Row, ROW};
use super::text::wide;
use super::Picture;
use crate::bounds::known;
use std::collections::BTreeMap;

/// The height of a node's box.
pub const BOX: f64 = 17.0;
pub const MARGIN: f64 = 28.0;
/// The line with a node's number, at least and at most.
const BRANCH: f64 = 34.0;
const LONGEST: f64 = 150.0;
/// Width to height that a page should have: between A4 and a screen.
const SHAPE: f64 = 1.5;
const NARROWEST: f64 = 640.0;
/// The height of the head, of the table's head, and of what stands below the rows.
pub const TOP: f64 = 84.0;
const TABLE_TOP: f64 = 26.0;
const BOTTOM: f64 = 58.0;
/// From the table's left edge to the end of the worth, of the order, and to the note behind them.
pub const WORTH: f64 = 46.0;
pub const ORDER: f64 = 132.0;
pub const NOTE: f64 = 146.0;

pub struct Layout {
    /// The left edge of the boxes of a depth, and the length of the branch before it.
    pub x: Vec<f64>,
    pub branch: Vec<f64>,
    /// The width of a box.
    pub boxes: BTreeMap<usize, f64>,
    /// Where the text of a row ends.
    pub tail: BTreeMap<usize, f64>,
    /// The table's left edge.
    pub at: f64,
    pub width: f64,
    pub height: f64,
    /// The height of the first row and of the key.
    pub zero: f64,
    pub foot: f64,
    pub key: Key,
}

impl Picture<'_> {
    pub fn layout(&self) -> Layout {
        let boxes = self.boxes();
        let tail = self.tails(&boxes);
        let rooms = self.rooms(&boxes);
        let mut branch = self.branches();
        let deepest = branch.len() - 1;
        let rows = ROW * self.rows.len() as f64;
        let table = self.table();
        let height = TOP + TABLE_TOP + rows + BOTTOM;
        let (mut x, mut at) = self.columns(&rooms, &branch, &tail);
        let spare = NARROWEST.max(SHAPE * height) - (at + table + MARGIN);
        if spare > 0.0 && deepest > 0 {
            branch.iter_mut().for_each(|b| *b = b.max(LONGEST).min(*b + spare / deepest as f64));
            (x, at) = self.columns(&rooms, &branch, &tail);
        }
        let width = (at + table + MARGIN).max(self.head_width());
        let key = self.key(width.max(NARROWEST) - 2.0 * MARGIN);
        let width = width.max(key.width() + 2.0 * MARGIN).ceil();
        let zero = TOP + TABLE_TOP + ROW / 2.0;
        let foot = zero + rows + 22.0;
        Layout { x, branch, boxes, tail, at, width, height: (foot + key.height() + 12.0).ceil(), zero, foot, key }
    }

    /// The widths of the boxes of open nodes and folded rows, which hold what is known.
    fn boxes(&self) -> BTreeMap<usize, f64> {
        let folded = self.rows.iter().filter(|row| row.kind == Kind::Folded);
        let folded = folded.map(|row| (row.first, known(self.together(row))));
        let open = self.y.keys().filter(|&&k| self.open[k]).map(|&k| (k, known(self.bounds.of(k))));
        open.chain(folded).map(|(k, text)| (k, BOX.max(wide(&text, 11.5) + 12.0))).collect()
    }

    /// The bounds of a row, as the parent takes them.
    pub fn together(&self, row: &Row) -> (i32, i32) {
        let max = self.plan.parent[row.first].is_none_or(|parent| self.plan.max[parent]);
        self.bounds.together(row.first..=row.last, max)
    }

    fn tails(&self, boxes: &BTreeMap<usize, f64>) -> BTreeMap<usize, f64> {
        let tail = |row: &Row| match row.kind {
            Kind::Leaf => 12.0,
            Kind::Folded => 12.0 + wide(&self.label(row), 12.0) + boxes[&row.first],
            _ => 12.0 + wide(&self.label(row), 12.0),
        };
        self.rows.iter().map(|row| (row.first, tail(row))).collect()
    }

    /// The room that the boxes of a depth take, with the line to their trunk.
    fn rooms(&self, boxes: &BTreeMap<usize, f64>) -> Vec<f64> {
        let mut rooms = vec![0.0f64; self.deepest() + 1];
        for (&k, width) in boxes.iter().filter(|(&k, _)| self.open[k]) {
            rooms[self.plan.depth[k]] = rooms[self.plan.depth[k]].max(*width);
        }
        rooms.iter().map(|room| room + 14.0).collect()
    }

    fn deepest(&self) -> usize {
        self.y.keys().map(|&k| self.plan.depth[k]).max().unwrap_or(0)
    }

    /// The branches of a depth: as long as the longest name on them.
    fn branches(&self) -> Vec<f64> {
        let mut branches = vec![BRANCH; self.deepest() + 1];
        let open = self.y.keys().filter(|&&k| self.open[k]).map(|&k| (k, k));
        for (first, last) in self.rows.iter().map(|row| (row.first, row.last)).chain(open) {
            let branch = &mut branches[self.plan.depth[first]];
            *branch = branch.max(wide(&self.name(first, last), 9.5) + 14.0);
        }
        branches
    }

    /// Where each depth begins, and where the table does.
    fn columns(&self, rooms: &[f64], branch: &[f64], tail: &BTreeMap<usize, f64>) -> (Vec<f64>, f64) {
        let mut x = vec![MARGIN + 8.0];
        for d in 1..branch.len() {
            x.push(x[d - 1] + rooms[d - 1] + branch[d]);
        }
        let ends = tail.iter().map(|(&k, tail)| x[self.plan.depth[k]] + tail);
        let at = ends.fold(0.0, f64::max) + 24.0;
        (x, at)
    }

    /// The width of the table.
    fn table(&self) -> f64 {
        let order = if self.has_order() { ORDER + 4.0 } else { 60.0 };
        let texts = self.rows.iter().map(|row| match row.kind {
            Kind::Leaf => self.note(row.first).map_or(0.0, |note| NOTE + wide(&note, 12.0)),
            _ => self.brief(row).map_or(0.0, |text| 8.0 + wide(&text, 12.0)),
        });
        texts.fold(order, f64::max)
    }
}
