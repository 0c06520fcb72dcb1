//! The branches: right-angled, on a common trunk; what proves more lies above the rest.
use super::layout::Layout;
use super::text::N;
use super::Picture;
use std::fmt::Write;

impl Picture<'_> {
    pub fn lines(&self, out: &mut String, layout: &Layout) {
        let mut lines: Vec<(Option<u8>, String)> = Vec::new();
        let last = |k: usize| self.rows.iter().find(|row| row.first == k).map_or(k, |row| row.last);
        for &k in self.y.keys() {
            let Some(parent) = self.plan.parent[k] else { continue };
            let proof = (k..=last(k)).fold(0, |flag, c| flag | self.flags[c] & self.flags[parent]);
            let seen = (k..=last(k)).any(|c| self.seen[c] != 0);
            let class = if seen { format!("f{proof}") } else { "p".into() };
            let path = format!("<path class=\"{class}\" d=\"{}\"/>", self.path(layout, parent, k));
            lines.push((seen.then_some(proof), path));
        }
        lines.sort_by_key(|(proof, _)| *proof);
        for (_, path) in lines {
            out.push_str(&path);
            out.push('\n');
        }
    }

    /// From the box of a node to a child: to the trunk, along it, and round the corner.
    fn path(&self, layout: &Layout, parent: usize, k: usize) -> String {
        let depth = self.plan.depth[k];
        let (start, end) = (layout.x[depth - 1] + layout.boxes[&parent], layout.x[depth]);
        let (y1, y2) = (self.y[&parent], self.y[&k]);
        if y1 == y2 {
            return format!("M{} {}H{}", N(start), N(y1), N(end));
        }
        let bend = (y2 - y1).clamp(-5.0, 5.0);
        let trunk = end - layout.branch[depth];
        let corner = format!("q0 {} {} {}", N(bend), N(bend.abs()), N(bend));
        format!("M{} {}H{}V{}{corner}H{}", N(start), N(y1), N(trunk), N(y2 - bend), N(end))
    }

    /// The box of a node: corners where Max moves, round where Min does, in a dashed ring where the same side moves
    /// again.
    pub fn shape(&self, out: &mut String, k: usize, (x, y): (f64, f64), width: f64) {
        const HEIGHT: f64 = super::layout::BOX;
        let round = |by: f64| if self.plan.max[k] { 0.0 } else { HEIGHT / 2.0 + by };
        let rect = |class: &str, by: f64| {
            let (left, top) = (N(x - by), N(y - HEIGHT / 2.0 - by));
            let (wide, high, round) = (N(width + 2.0 * by), N(HEIGHT + 2.0 * by), N(round(by)));
            format!(
                "<rect class=\"{class}\" x=\"{left}\" y=\"{top}\" width=\"{wide}\" height=\"{high}\" rx=\"{round}\"/>"
            )
        };
        if self.tree.second_capture(k) {
            out.push_str(&rect("a", 3.5));
        }
        out.push_str(&rect(&format!("b f{}", self.flags[k]), 0.0));
    }

    /// A dotted leader between two places of a row.
    pub fn leader(&self, out: &mut String, y: f64, from: f64, to: f64) {
        if to > from {
            write!(out, "<path class=\"i\" d=\"M{} {}H{}\"/>", N(from), N(y), N(to)).ok();
        }
    }
}
