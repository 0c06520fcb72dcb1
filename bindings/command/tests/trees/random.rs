//! Random accepted trees, with the tests' own file, text and minimax of each.
use std::collections::VecDeque;

/// A generator that gives the same numbers for the same seed (splitmix64).
pub struct Random(pub u64);

impl Random {
    fn next(&mut self) -> u64 {
        self.0 = self.0.wrapping_add(0x9E37_79B9_7F4A_7C15);
        let mut z = self.0;
        z = (z ^ (z >> 30)).wrapping_mul(0xBF58_476D_1CE4_E5B9);
        z = (z ^ (z >> 27)).wrapping_mul(0x94D0_49BB_1331_11EB);
        z ^ (z >> 31)
    }

    pub fn below(&mut self, end: usize) -> usize {
        (self.next() % end as u64) as usize
    }

    pub fn one_in(&mut self, n: usize) -> bool {
        self.below(n) == 0
    }

    pub fn pick<T: Copy>(&mut self, of: &[T]) -> T {
        of[self.below(of.len())]
    }
}

/// A tree as its text nests it.
pub enum Nest {
    Leaf(i32),
    /// Does the same side move as at the parent? And the children.
    Inner(bool, Vec<Nest>),
}

/// A tree of one of several kinds: small, bushy, narrow and deep, wide.
pub fn tree(random: &mut Random) -> Nest {
    let widest = random.pick(&[1, 2, 3, 5, 40]);
    let deepest = random.pick(&[0, 1, 2, 4, 18]);
    let mut room = random.pick(&[5, 30, 200, 4095]);
    node(random, widest, deepest, &mut room, true)
}

fn node(random: &mut Random, widest: usize, depth: usize, room: &mut usize, is_root: bool) -> Nest {
    let count = (1 + random.below(widest)).min(*room);
    if depth == 0 || count == 0 || !is_root && random.one_in(4) {
        return Nest::Leaf(value(random));
    }
    *room -= count;
    let is_second_capture = !is_root && random.one_in(5);
    Nest::Inner(is_second_capture, (0..count).map(|_| node(random, widest, depth - 1, room, false)).collect())
}

fn value(random: &mut Random) -> i32 {
    match random.below(4) {
        0 => random.pick(&[-32000, -31000, -30999, -30990, -1, 0, 1, 30990, 30999, 31000, 31500, 32000]),
        1 => random.below(64001) as i32 - 32000,
        _ => random.below(21) as i32 - 10,
    }
}

/// What is known of the nodes, by their numbers.
pub struct Nodes {
    pub children: Vec<Vec<usize>>,
    pub depth: Vec<usize>,
    /// Does Max move?
    pub max: Vec<bool>,
    pub is_second_capture: Vec<bool>,
    pub stored: Vec<Option<i32>>,
    /// The minimax value over the leaves' worths.
    pub value: Vec<i32>,
}

impl Nodes {
    pub fn new(tree: &Nest) -> Nodes {
        let (children, depth, max) = (Vec::new(), vec![0], vec![true]);
        let mut nodes =
            Nodes { children, depth, max, is_second_capture: Vec::new(), stored: Vec::new(), value: Vec::new() };
        let mut queue = VecDeque::from([tree]);
        while let Some(nest) = queue.pop_front() {
            nodes.add(nest);
            if let Nest::Inner(_, children) = nest {
                queue.extend(children);
            }
        }
        nodes.value = vec![0; nodes.stored.len()];
        for k in (0..nodes.stored.len()).rev() {
            let values = nodes.children[k].iter().map(|&child| nodes.value[child]);
            let best = if nodes.max[k] { values.max() } else { values.min() };
            nodes.value[k] = best.unwrap_or_else(|| worth(nodes.stored[k].unwrap(), nodes.depth[k]));
        }
        nodes
    }

    /// The next node: its depth and its side are there already, those of its children follow.
    fn add(&mut self, nest: &Nest) {
        let (k, first) = (self.stored.len(), self.depth.len());
        let below: &[Nest] = if let Nest::Inner(_, below) = nest { below } else { &[] };
        for child in below {
            let is_second_capture = matches!(child, Nest::Inner(true, _));
            self.depth.push(self.depth[k] + 1);
            self.max.push(self.max[k] == is_second_capture);
        }
        self.children.push((first..first + below.len()).collect());
        self.is_second_capture.push(matches!(nest, Nest::Inner(true, _)));
        self.stored.push(if let Nest::Leaf(value) = nest { Some(*value) } else { None });
    }

    /// The tree file.
    pub fn file(&self) -> String {
        let line = |k: usize| {
            let (first, count) = (self.children[k].first().copied().unwrap_or(0), self.children[k].len());
            let (again, value) = (u8::from(self.is_second_capture[k]), self.stored[k].unwrap_or(0) as i16);
            format!("{first:04X}{count:02X}{again:02X}{value:04X}\n")
        };
        (0..self.stored.len()).map(line).collect()
    }

    /// The nodes as they are come to from the root: a node, then all below its first child, and so on.
    pub fn in_text_order(&self) -> Vec<usize> {
        let (mut order, mut stack) = (Vec::new(), vec![0]);
        while let Some(k) = stack.pop() {
            order.push(k);
            stack.extend(self.children[k].iter().rev());
        }
        order
    }
}

fn worth(value: i32, depth: usize) -> i32 {
    match value {
        31000.. => value - depth as i32,
        ..=-31000 => value + depth as i32,
        _ => value,
    }
}

/// The text of a tree, with white space and comments at random.
pub fn text(random: &mut Random, tree: &Nest) -> String {
    let mut text = space(random, "");
    match tree {
        Nest::Leaf(value) => text += &format!("={}{value}", space(random, "")),
        Nest::Inner(_, children) => write(random, children, &mut text),
    }
    text + &space(random, "")
}

fn write(random: &mut Random, children: &[Nest], out: &mut String) {
    for (i, child) in children.iter().enumerate() {
        // two values must not touch
        let is_after_value = i > 0 && matches!(children[i - 1], Nest::Leaf(_));
        *out += &space(random, if is_after_value { " " } else { "" });
        match child {
            Nest::Leaf(value) => *out += &value.to_string(),
            Nest::Inner(is_second_capture, below) => {
                *out += if *is_second_capture { "x" } else { "" };
                *out += &format!("{}({}", space(random, ""), space(random, ""));
                write(random, below, out);
                *out += &format!("{})", space(random, ""));
            }
        }
    }
}

/// White space that begins with this.
fn space(random: &mut Random, least: &str) -> String {
    let more = ["", "", "", " ", "\n", "\t", "\r\n", "  ", "# (a comment = ~ x\n", "\u{A0}", "#\r\n\n"];
    format!("{least}{}", random.pick(&more))
}
