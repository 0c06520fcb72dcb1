//! The bounds and reasons that pictures show, against a minimax of the tests' own, at every step of every run.
#[allow(dead_code)]
#[path = "../src/bounds.rs"]
mod bounds;
mod common;
mod minimax;
#[allow(dead_code)]
#[path = "../src/plan.rs"]
mod plan;

use bounds::{Bounds, NONE};
use buulset::Tree;
use common::root;
use minimax::{random, stored, Model, Rng};
use plan::Plan;

/// The evaluated leaves of each method, in their order.
fn runs(tree: &Tree) -> Vec<(String, Vec<usize>)> {
    let searches = [("ab", tree.alphabeta()), ("mtd", tree.mtd()), ("sss", tree.sss())];
    let guesses = [-31490, -2, 0, 3, 31490].map(|start| ("mtdf", tree.mtdf(start)));
    let order = |order: Vec<u16>| order.into_iter().map(usize::from).collect();
    searches.into_iter().chain(guesses).map(|(name, search)| (name.into(), order(search.order))).collect()
}

/// A reason is what it says: two choices beside the path, of Max and of Min, that leave nothing between them.
fn is_right(model: &Model, k: usize, reason: &bounds::Reason, low: &[i32], high: &[i32]) {
    let path = model.path(k);
    let place = |node| path.iter().position(|&(above, _)| above == node).expect("the node is on the path");
    assert!(place(reason.at) < place(reason.above), "the second is higher up");
    for (node, child, value) in [(reason.at, reason.by, reason.known), (reason.above, reason.other, reason.has)] {
        assert!(model.children[node].contains(&child) && path[place(node)].1 != child, "a choice beside the path");
        assert_eq!(value, if model.max[node] { low[child] } else { high[child] });
    }
    assert_ne!(model.max[reason.at], model.max[reason.above]);
    let (max, min) = if model.max[reason.at] { (reason.known, reason.has) } else { (reason.has, reason.known) };
    assert!(max >= min && max != -NONE && min != NONE);
}

/// Every step of a run on a small tree, a dozen of them on a large one.
fn check(file: &str, seed: u64) {
    let (model, tree) = (Model::new(file), Tree::from_file(file.as_bytes()).unwrap());
    let (plan, n) = (Plan::new(&tree), model.nodes());
    let value = model.minimax(|k| model.worth[k]);
    let mut rng = Rng(seed + 5);
    for (name, order) in runs(&tree) {
        let (mut bounds, mut evaluated) = (Bounds::new(&tree, &plan), vec![false; n]);
        let every = if n < 300 { 1 } else { order.len() / 12 + 1 };
        for (step, &leaf) in order.iter().enumerate() {
            bounds.add(leaf);
            evaluated[leaf] = true;
            if step % every != 0 && step + 1 != order.len() {
                continue;
            }
            let (low, high) = model.bounds(&evaluated);
            assert!((0..n).all(|k| bounds.of(k) == (low[k], high[k]) && low[k] <= value[k] && value[k] <= high[k]));
            let mut dead = vec![false; n];
            for k in (0..n).filter(|&k| model.leaf(k)) {
                let reason = bounds.reason(k);
                assert_eq!(reason.is_some(), model.closed(k, &low, &high), "{name}: node {k} at step {step}");
                if let Some(reason) = reason.filter(|_| !evaluated[k]) {
                    is_right(&model, k, &reason, &low, &high);
                    dead[k] = true;
                }
            }
            // whatever leaves with a reason hold, the root's value stays
            for _ in 0..3 {
                let noise: Vec<i32> = (0..n).map(|_| rng.below(64001) as i32 - 32000).collect();
                assert_eq!(model.minimax(|k| if dead[k] { noise[k] } else { model.worth[k] })[0], value[0], "{name}");
            }
            if step + 1 == order.len() {
                assert_eq!(bounds.of(0), (value[0], value[0]));
                let passed = (0..n).filter(|&k| model.leaf(k) && !evaluated[k]);
                assert!(passed.into_iter().all(|k| dead[k]), "{name}: a leaf was passed over without a reason");
            }
        }
    }
}

#[test]
fn bounds_and_reasons_are_those_of_minimax() {
    for path in stored() {
        check(&std::fs::read_to_string(root().join(path)).unwrap(), 0);
    }
    for seed in 0..120 {
        check(&random(seed), seed);
    }
}

#[test]
fn bounds_and_reasons_are_said_in_few_words() {
    let said = [(-NONE, NONE), (-NONE, -5), (7, NONE), (-66, -51), (3, 3)].map(bounds::known);
    assert_eq!(said, ["", "≤ −5", "≥ 7", "−66 to −51", "3"]);
    // Max(Min(3, 5), Min(2, 9)): after 3, 5 and 2 the leaf 9 cannot matter
    let file = "000102000000\n000302000000\n000502000000\n000000000003\n000000000005\n000000000002\n000000000009\n";
    let tree = Tree::from_file(file.as_bytes()).unwrap();
    let plan = Plan::new(&tree);
    let mut bounds = Bounds::new(&tree, &plan);
    for leaf in [3, 4] {
        bounds.add(leaf);
        assert_eq!(bounds.reason(6), None);
    }
    bounds.add(5);
    let reason = bounds.reason(6).unwrap();
    assert_eq!((reason.at, reason.by, reason.known, reason.above, reason.other, reason.has), (2, 5, 2, 0, 1, 3));
    assert_eq!(reason.brief(&plan, 6), "≤ 2; Max has 3 at node 1");
    assert!(reason
        .sentences(&plan, 1)
        .starts_with("At node 2 Min can hold Max to 2 or less, by node 5. Higher up Max"));
    assert!(reason.sentences(&plan, 1).ends_with("whatever this leaf holds."));
}
