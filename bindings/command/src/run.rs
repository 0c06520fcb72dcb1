//! A run of a search, as a picture or a page shows it.
use crate::plan::Plan;
use buulset::{Search, Tree};

pub struct Run {
    /// As it is written after `--method`.
    pub method: String,
    /// As it is called.
    pub title: String,
    /// The evaluated leaves, in their order.
    pub order: Vec<usize>,
    /// Did the search give that order? The plain engine gives none: it reckons from left to right.
    pub ordered: bool,
    /// The certificate.
    pub flags: Vec<u8>,
}

impl Run {
    pub fn new(tree: &Tree, plan: &Plan, method: &str, search: Search) -> Run {
        let ordered = method != "plain";
        let order = match ordered {
            true => search.order.iter().map(|&leaf| leaf.into()).collect(),
            false => from_left_to_right(tree, plan),
        };
        Run { method: method.into(), title: title(method), order, ordered, flags: search.certificate }
    }
}

/// What a method is called in a sentence.
fn title(method: &str) -> String {
    match method {
        "ab" => "Alpha-beta".into(),
        "mtd" => "MTD".into(),
        "sss" => "SSS*".into(),
        "plain" => "Plain minimax".into(),
        other => match other.strip_prefix("mtdf:").and_then(crate::arguments::number) {
            Some(start) => format!("MTD(f) from {}", crate::bounds::number(start)),
            None => other.into(),
        },
    }
}

/// All leaves from left to right.
fn from_left_to_right(tree: &Tree, plan: &Plan) -> Vec<usize> {
    let (mut leaves, mut stack) = (Vec::with_capacity(plan.leaves[0]), vec![0]);
    while let Some(k) = stack.pop() {
        match tree.stored(k) {
            Some(_) => leaves.push(k),
            None => stack.extend(tree.children(k).rev()),
        }
    }
    leaves
}
