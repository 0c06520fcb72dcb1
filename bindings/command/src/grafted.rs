//! Which node of either tree got which number in a graft.
use buulset::Tree;
use std::collections::VecDeque;

/// A line for each node of the first tree, then of the second: the tree, the node, and its number in the result. The
/// leaf that gave its place has the number of the second tree's root.
pub fn map(first: &Tree, leaf: usize, second: &Tree) -> String {
    let (mut of_first, mut of_second) = (vec![0; first.nodes()], vec![0; second.nodes()]);
    let (mut queue, mut number) = (VecDeque::from([(true, 0)]), 0);
    // the result is numbered breadth-first, as both trees are
    while let Some((in_first, node)) = queue.pop_front() {
        let (in_first, node) = if in_first && node == leaf { (false, 0) } else { (in_first, node) };
        if in_first {
            of_first[node] = number;
            queue.extend(first.children(node).map(|child| (true, child)));
        } else {
            of_second[node] = number;
            queue.extend(second.children(node).map(|child| (false, child)));
        }
        number += 1;
    }
    of_first[leaf] = of_second[0];
    let lines = |tree: &'static str, numbers: Vec<usize>| {
        numbers.into_iter().enumerate().map(move |(node, number)| format!("{tree} {node} {number}\n"))
    };
    lines("first", of_first).chain(lines("second", of_second)).collect()
}
