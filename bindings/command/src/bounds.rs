//! What a set of evaluated leaves says of every node (SPEC 6.1), and why nothing below a node can matter any more.
use crate::plan::Plan;
use buulset::Tree;

/// A low of -32,001 and a high of 32,001 say nothing.
pub const NONE: i32 = 32001;

/// The low and the high of every node; leaves are added one by one.
pub struct Bounds<'a> {
    tree: &'a Tree,
    plan: &'a Plan,
    low: Vec<i32>,
    high: Vec<i32>,
}

/// Beside the path to a node one side has a choice at `at`, and higher up the other side has one at `above` that is at
/// least as good for it: so nothing below the node can change the root's value.
#[derive(Clone, Copy, PartialEq, Eq, Debug)]
pub struct Reason {
    /// The lower of the two nodes, its child, and what the child is worth: at least where Max moves, at most for Min.
    pub at: usize,
    pub by: usize,
    pub known: i32,
    /// The same of the upper one.
    pub above: usize,
    pub other: usize,
    pub has: i32,
}

impl<'a> Bounds<'a> {
    pub fn new(tree: &'a Tree, plan: &'a Plan) -> Bounds<'a> {
        let n = tree.nodes();
        Bounds { tree, plan, low: vec![-NONE; n], high: vec![NONE; n] }
    }

    pub fn of(&self, node: usize) -> (i32, i32) {
        (self.low[node], self.high[node])
    }

    /// The bounds of neighbours, as their parent takes them.
    pub fn together(&self, nodes: impl Iterator<Item = usize> + Clone, max: bool) -> (i32, i32) {
        let best = |bounds: &[i32]| {
            let bounds = nodes.clone().map(|k| bounds[k]);
            if max { bounds.max() } else { bounds.min() }.unwrap_or(0)
        };
        (best(&self.low), best(&self.high))
    }

    /// Evaluates a leaf.
    pub fn add(&mut self, leaf: usize) {
        self.low[leaf] = self.plan.worth[leaf];
        self.high[leaf] = self.plan.worth[leaf];
        let mut node = self.plan.parent[leaf];
        while let Some(k) = node {
            let bounds = self.together(self.tree.children(k), self.plan.max[k]);
            if bounds == self.of(k) {
                return;
            }
            (self.low[k], self.high[k]) = bounds;
            node = self.plan.parent[k];
        }
    }

    /// The best that the side to move at the parent of `child` has beside it, and how good that is; `None` where
    /// nothing is known.
    fn beside(&self, parent: usize, child: usize) -> Option<(usize, i32)> {
        let others = self.tree.children(parent).filter(|&c| c != child);
        let best = match self.plan.max[parent] {
            true => others.map(|c| (c, self.low[c])).reduce(|a, b| if b.1 > a.1 { b } else { a }),
            false => others.map(|c| (c, self.high[c])).reduce(|a, b| if b.1 < a.1 { b } else { a }),
        };
        best.filter(|(_, bound)| bound.abs() != NONE)
    }

    /// The nearest reason why nothing below the node can matter.
    pub fn reason(&self, node: usize) -> Option<Reason> {
        let mut offers: Vec<(usize, usize, i32)> = Vec::new();
        let mut child = node;
        while let Some(above) = self.plan.parent[child] {
            if let Some((other, has)) = self.beside(above, child) {
                let closes = |&&(at, _, known): &&(usize, usize, i32)| match (self.plan.max[at], self.plan.max[above]) {
                    (true, false) => known >= has,
                    (false, true) => has >= known,
                    _ => false,
                };
                if let Some(&(at, by, known)) = offers.iter().find(closes) {
                    return Some(Reason { at, by, known, above, other, has });
                }
                offers.push((above, other, has));
            }
            child = above;
        }
        None
    }
}

impl Reason {
    /// In a few words, for a row of a table. A node is always called one, since "1 ≤ 1" would read as a sum.
    pub fn brief(&self, plan: &Plan, node: usize) -> String {
        let (sign, side) = if plan.max[self.at] { ("≥", "Min") } else { ("≤", "Max") };
        let place = if plan.parent[node] == Some(self.at) { String::new() } else { format!(" at node {}", self.at) };
        format!("{sign} {}{place}; {side} has {} at node {}", number(self.known), number(self.has), self.other)
    }

    /// In plain words, for so many leaves.
    pub fn sentences(&self, plan: &Plan, leaves: usize) -> String {
        let Reason { at, by, other, .. } = self;
        let (known, has) = (number(self.known), number(self.has));
        let these = if leaves == 1 { "this leaf holds".into() } else { format!("these {leaves} leaves hold") };
        match plan.max[*at] {
            true => format!(
                "At node {at} Max can reach {known} or more, by node {by}. Higher up Min already has {has} or less, at \
                 node {other}. So Min gains nothing by coming here, whatever {these}."
            ),
            false => format!(
                "At node {at} Min can hold Max to {known} or less, by node {by}. Higher up Max already has {has} or \
                 more, at node {other}. So Max gains nothing by coming here, whatever {these}."
            ),
        }
    }
}

/// A number with a minus sign, not a hyphen.
pub fn number(value: i32) -> String {
    if value < 0 {
        format!("−{}", value.unsigned_abs())
    } else {
        value.to_string()
    }
}

/// What is known of a node, in as few signs as possible.
pub fn known((low, high): (i32, i32)) -> String {
    match (low, high) {
        _ if low == high => number(low),
        (l, h) if l == -NONE && h == NONE => String::new(),
        (l, _) if l == -NONE => format!("≤ {}", number(high)),
        (_, h) if h == NONE => format!("≥ {}", number(low)),
        _ => format!("{} to {}", number(low), number(high)),
    }
}
