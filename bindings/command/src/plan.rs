//! What a picture and a list need to know of a tree's nodes.
use buulset::Tree;

pub struct Plan {
    pub parent: Vec<Option<usize>>,
    pub depth: Vec<usize>,
    /// Does Max move?
    pub max: Vec<bool>,
    /// The leaves below a node, itself included.
    pub leaves: Vec<usize>,
    /// What a leaf counts with: a win less its depth, a loss plus its depth, any other value itself; 0 on an inner
    /// node.
    pub worth: Vec<i32>,
}

/// From this value up a leaf is a win, from its negative down a loss.
const WIN: i32 = 31000;

impl Plan {
    pub fn new(tree: &Tree) -> Plan {
        let n = tree.nodes();
        let (mut parent, mut depth, mut max) = (vec![None; n], vec![0; n], vec![true; n]);
        let mut leaves: Vec<usize> = (0..n).map(|k| usize::from(tree.stored(k).is_some())).collect();
        for k in 0..n {
            for c in tree.children(k) {
                parent[c] = Some(k);
                depth[c] = depth[k] + 1;
                max[c] = max[k] == tree.second_capture(c);
            }
        }
        for k in (0..n).rev() {
            if let Some(p) = parent[k] {
                leaves[p] += leaves[k];
            }
        }
        let worth = (0..n).map(|k| tree.stored(k).map_or(0, |v| worth(v.into(), depth[k]))).collect();
        Plan { parent, depth, max, leaves, worth }
    }
}

fn worth(value: i32, depth: usize) -> i32 {
    match value {
        WIN.. => value - depth as i32,
        v if v <= -WIN => value + depth as i32,
        _ => value,
    }
}
