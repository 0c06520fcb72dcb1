//! Trees for the tests of pictures and pages, with a minimax of their own: it shares nothing with the command.
#![allow(dead_code)]

use std::ops::Range;

pub const NONE: i32 = 32001;

/// Exit status, standard output and standard error of a command.
pub fn runs(arguments: &[&str]) -> (i32, String, String) {
    let ran = crate::common::run(arguments);
    (ran.status, ran.out, ran.err)
}

/// The accepted samples and the trees of the pictures.
pub fn stored() -> Vec<String> {
    let names = ["seven", "ending", "captures", "wins"].map(|name| format!("samples/{name}.tree"));
    names.into_iter().chain(["two-hundred", "largest"].map(|name| format!("docs/pictures/{name}.tree"))).collect()
}

/// A tree file, read by rules of its own.
pub struct Model {
    pub children: Vec<Range<usize>>,
    pub parent: Vec<usize>,
    pub max: Vec<bool>,
    pub worth: Vec<i32>,
}

impl Model {
    pub fn new(file: &str) -> Model {
        let field = |line: &str, at: Range<usize>| usize::from_str_radix(&line[at], 16).unwrap();
        let lines: Vec<&str> = file.lines().collect();
        let n = lines.len();
        let children: Vec<Range<usize>> =
            lines.iter().map(|l| field(l, 0..4)..field(l, 0..4) + field(l, 4..6)).collect();
        let (mut parent, mut depth, mut max) = (vec![0; n], vec![0; n], vec![true; n]);
        for k in 0..n {
            for c in children[k].clone() {
                (parent[c], depth[c]) = (k, depth[k] + 1);
                max[c] = if field(lines[c], 6..8) == 1 { max[k] } else { !max[k] };
            }
        }
        let worth = |(line, depth): (&&str, &i32)| match i32::from(field(line, 8..12) as u16 as i16) {
            value if value >= 31000 => value - depth,
            value if value <= -31000 => value + depth,
            value => value,
        };
        let worth = lines.iter().zip(&depth).map(worth).collect();
        Model { children, parent, max, worth }
    }

    pub fn nodes(&self) -> usize {
        self.worth.len()
    }

    pub fn leaf(&self, k: usize) -> bool {
        self.children[k].is_empty()
    }

    /// The value of every node, where a leaf counts with this.
    pub fn minimax(&self, leaf: impl Fn(usize) -> i32) -> Vec<i32> {
        let mut value = vec![0; self.nodes()];
        for k in (0..self.nodes()).rev() {
            let below = self.children[k].clone().map(|c| value[c]);
            value[k] = if self.max[k] { below.max() } else { below.min() }.unwrap_or_else(|| leaf(k));
        }
        value
    }

    /// Low and high of every node: the value where all other leaves hold less than any, and more than any.
    pub fn bounds(&self, evaluated: &[bool]) -> (Vec<i32>, Vec<i32>) {
        let with = |unknown: i32| self.minimax(|k| if evaluated[k] { self.worth[k] } else { unknown });
        (with(-NONE), with(NONE))
    }

    /// The nodes above a node, each with the child that leads to it.
    pub fn path(&self, mut k: usize) -> Vec<(usize, usize)> {
        let mut path = Vec::new();
        while k != 0 {
            path.push((self.parent[k], k));
            k = self.parent[k];
        }
        path
    }

    /// Is there, beside the path to a node, a choice of Max and one of Min between which nothing can pass?
    pub fn closed(&self, k: usize, low: &[i32], high: &[i32]) -> bool {
        let (mut most, mut least) = (-NONE, NONE);
        for (above, child) in self.path(k) {
            for other in self.children[above].clone().filter(|&c| c != child) {
                if self.max[above] {
                    most = most.max(low[other]);
                } else {
                    least = least.min(high[other]);
                }
            }
        }
        most != -NONE && least != NONE && most >= least
    }
}

/// A source of numbers: xorshift64*.
pub struct Rng(pub u64);

impl Rng {
    pub fn below(&mut self, n: usize) -> usize {
        self.0 ^= self.0 >> 12;
        self.0 ^= self.0 << 25;
        self.0 ^= self.0 >> 27;
        ((self.0.wrapping_mul(0x2545F4914F6CDD1D) >> 11) % n as u64) as usize
    }
}

/// The file of a random tree with many ties, some wins and losses, and some second captures.
pub fn random(seed: u64) -> String {
    let mut rng = Rng(seed * 2 + 77);
    let mut nodes = vec![(0, 0)]; // children and depth
    let mut k = 0;
    while k < nodes.len() {
        if nodes[k].1 < 6 && nodes.len() < 90 && (k == 0 || rng.below(5) < 3) {
            nodes[k].0 = 1 + rng.below(4);
            nodes.extend(vec![(0, nodes[k].1 + 1); nodes[k].0]);
        }
        k += 1;
    }
    let (mut file, mut first) = (String::new(), 1);
    for (k, &(children, _)) in nodes.iter().enumerate() {
        let again = u8::from(children > 0 && k > 0 && rng.below(5) == 0);
        let value = match rng.below(4) {
            0 => [31500, -31500][rng.below(2)],
            _ => rng.below(7) as i16 - 3,
        };
        let (start, value) = if children > 0 { (first, 0) } else { (0, value) };
        file += &format!("{start:04X}{children:02X}{again:02X}{:04X}\n", value as u16);
        first += children;
    }
    file
}
