//! The key: the signs that occur with what they mean, and one reason in plain words.
use super::place::Kind;
use super::text::{escape, wide, wrap, N};
use super::Picture;
use crate::bounds::known;
use std::fmt::Write;

const LINE: f64 = 18.0;

/// A sign, its width, and what it means.
struct Item {
    sign: String,
    size: f64,
    text: String,
}

impl Item {
    fn new(sign: impl Into<String>, size: f64, text: impl Into<String>) -> Item {
        Item { sign: sign.into(), size, text: text.into() }
    }

    /// Where the text begins.
    fn text_at(&self) -> f64 {
        if self.size > 0.0 {
            self.size + 6.0
        } else {
            0.0
        }
    }

    fn width(&self) -> f64 {
        self.text_at() + wide(&self.text, 11.0)
    }
}

pub struct Key {
    lines: Vec<Vec<Item>>,
}

const GAP: f64 = 15.0;

impl Key {
    pub fn height(&self) -> f64 {
        LINE * self.lines.len() as f64
    }

    pub fn width(&self) -> f64 {
        let width = |line: &Vec<Item>| line.iter().map(|item| item.width() + GAP).sum::<f64>() - GAP;
        self.lines.iter().map(width).fold(0.0, f64::max)
    }

    /// Writes the key from this height on.
    pub fn write(&self, out: &mut String, top: f64) {
        for (i, line) in self.lines.iter().enumerate() {
            let (mut x, y) = (super::layout::MARGIN, top + LINE * i as f64);
            for item in line {
                let (sign, at, text) = (&item.sign, N(item.text_at()), escape(&item.text));
                let (left, down) = (N(x), N(y));
                write!(out, "<g transform=\"translate({left} {down})\">{sign}").ok();
                writeln!(out, "<text class=\"k\" x=\"{at}\">{text}</text></g>").ok();
                x += item.width() + GAP;
            }
        }
    }
}

impl Picture<'_> {
    pub fn key(&self, width: f64) -> Key {
        let mut lines: Vec<Vec<Item>> = Vec::new();
        let mut x = width;
        for item in self.items() {
            if x + item.width() > width {
                lines.push(Vec::new());
                x = 0.0;
            }
            x += item.width() + GAP;
            lines.last_mut().expect("a line was begun").push(item);
        }
        if let Some(example) = self.example() {
            lines.extend(wrap(&example, 11.0, width).into_iter().map(|text| vec![Item::new("", 0.0, text)]));
        }
        Key { lines }
    }

    /// The reason of the passed-over row with the most leaves, in plain words.
    fn example(&self) -> Option<String> {
        let leaves = |first, last| -> usize { (first..=last).map(|c| self.plan.leaves[c]).sum() };
        let passed = self.rows.iter().filter(|row| row.kind == Kind::Passed && self.reasons.contains_key(&row.first));
        let most = passed.rev().max_by_key(|row| leaves(row.first, row.last))?;
        let (what, verb) = match (most.first == most.last, self.of.run.is_some()) {
            (true, true) => ("node", "was"),
            (false, true) => ("nodes", "were"),
            (true, false) => ("node", "is"),
            (false, false) => ("nodes", "are"),
        };
        let (nodes, words) = (self.name(most.first, most.last), self.in_plain_words(most)?);
        Some(format!("Why {what} {nodes} {verb} {}: {words}", self.left_out()))
    }

    fn items(&self) -> Vec<Item> {
        if self.tree.nodes() == 1 {
            return Vec::new();
        }
        let inner: Vec<usize> = self.y.keys().copied().filter(|&k| !self.is_leaf(k) && self.seen[k] != 0).collect();
        let any = |of: &dyn Fn(usize) -> bool| inner.iter().any(|&k| of(k));
        let mut items = Vec::new();
        if any(&|k| self.plan.max[k]) {
            items.push(Item::new("<path class=\"b\" d=\"M2 -12h17v15h-17z\"/>", 22.0, "Max moves, for the most"));
        }
        if any(&|k| !self.plan.max[k]) {
            let sign = "<rect class=\"b\" x=\"1\" y=\"-12\" width=\"20\" height=\"15\" rx=\"7.5\"/>";
            items.push(Item::new(sign, 22.0, "Min moves, for the least"));
        }
        if any(&|k| self.tree.second_capture(k)) {
            items.push(Item::new("<path class=\"a\" d=\"M1 -13h20v17h-20z\"/>", 22.0, "the same side moves again"));
        }
        if any(&|k| known(self.bounds.of(k)).starts_with(['≤', '≥'])) {
            items.push(Item::new("", 0.0, "≤ ≥ at most, at least"));
        }
        items.push(Item::new("<text class=\"n\" x=\"12\" y=\"-2\">7</text>", 14.0, "number of the node"));
        items.extend(self.line_items());
        items
    }

    /// What the lines mean.
    fn line_items(&self) -> Vec<Item> {
        let stroke = |class: &str| format!("<path class=\"{class}\" d=\"M0 -4H22\"/>");
        let any = |of: &dyn Fn(usize) -> bool| self.y.keys().any(|&k| of(k));
        let value = known((self.bounds.of(0).0, self.bounds.of(0).0));
        let mut items = vec![Item::new(stroke("f3"), 22.0, "best line")];
        if any(&|k| self.flags[k] == 1) {
            items.push(Item::new(stroke("f1"), 22.0, format!("shows ≤ {value}: max solution tree")));
        }
        if any(&|k| self.flags[k] == 2) {
            items.push(Item::new(stroke("f2"), 22.0, format!("shows ≥ {value}: min solution tree")));
        }
        if any(&|k| self.flags[k] == 0 && self.seen[k] != 0) {
            items.push(Item::new(stroke("f0"), 22.0, "evaluated, not needed"));
        }
        if self.rows.iter().any(|row| row.kind == Kind::Passed) {
            let sign = "<path class=\"p\" d=\"M0 -4H14\"/><path class=\"c\" d=\"M13 1l3 -10m1 10l3 -10\"/>";
            items.push(Item::new(sign, 22.0, format!("{}, and why", self.left_out())));
        }
        items
    }
}
