//! Microseconds of each call, and how many times that of the same work in plain Rust (tests/model): one thread, both
//! built for release, the same input, every buffer lent once and not cleared between the calls.
//! `cargo bench`, with file names as arguments for trees of one's own.
#[path = "../tests/model/mod.rs"]
mod model;

use buulset::MAX_NODES;
use model::{Lent, Method, Rng};
use std::{hint::black_box, time::Instant};

/// The least time of a call, over 1,000 rounds of about a fifth of a millisecond: short enough to run between others.
fn time(mut call: impl FnMut()) -> f64 {
    let start = Instant::now();
    call();
    let rounds = (2e-4 / start.elapsed().as_secs_f64().max(1e-7)).ceil() as u32;
    let one = |_| {
        let start = Instant::now();
        for _ in 0..rounds {
            call();
        }
        start.elapsed().as_secs_f64() / f64::from(rounds)
    };
    1e6 * (0..1000).map(one).fold(f64::INFINITY, f64::min)
}

/// Times both sides, and puts a cell of the table behind the others.
macro_rules! cell {
    ($cells:ident, $ours:expr, $theirs:expr) => {{
        let ours = time(|| {
            black_box($ours).ok();
        });
        let theirs = time(|| {
            black_box($theirs).ok();
        });
        $cells.push(format!("{ours:.1} ({:.2})", ours / theirs));
    }};
}

fn row(name: &str, t: &[u8]) {
    let mut cells = Vec::new();
    files(t, &mut cells);
    searches(t, &mut cells);
    trees(t, &mut cells);
    let file = model::file(t);
    cell!(cells, Ok::<_, ()>(buulset::report(black_box(&file))), Ok::<_, ()>(model::report(black_box(&file))));
    println!("| {name} | {} |", cells.join(" | "));
}

fn files(t: &[u8], cells: &mut Vec<String>) {
    let file = model::file(t);
    let (mut table, mut text) = (vec![0; 24576], vec![0; 53248]);
    cell!(cells, buulset::read(black_box(&file), &mut table), model::read(black_box(&file), &mut table));
    cell!(cells, buulset::write(black_box(t), &mut text), model::write(black_box(t), &mut text));
    cell!(cells, buulset::convert(black_box(&file), &mut text), model::convert(black_box(&file), &mut text));
    cell!(cells, buulset::check(black_box(t)), model::check(black_box(t)));
}

fn searches(t: &[u8], cells: &mut Vec<String>) {
    let n = t.len() / 6;
    let (mut e, mut c, mut o) = (vec![0; n], vec![0; n], vec![0; n]);
    macro_rules! search {
        ($ours:expr, $method:expr) => {
            cell!(cells, $ours, {
                let lent = Lent { evaluated: &mut e, certificate: &mut c, order: &mut o };
                model::search($method, black_box(t), lent)
            })
        };
    }
    search!(buulset::alphabeta(black_box(t), &mut e, &mut c, &mut o), Method::AlphaBeta);
    search!(buulset::plain(black_box(t), &mut e, &mut c), Method::Plain);
    search!(buulset::mtd(black_box(t), &mut e, &mut c, &mut o), Method::Mtd);
    search!(buulset::mtdf(black_box(t), 0, &mut e, &mut c, &mut o), Method::Mtdf(0));
    search!(buulset::sss(black_box(t), &mut e, &mut c, &mut o, MAX_NODES), Method::Sss(MAX_NODES));
    let tree = buulset::Tree::from_table(t.to_vec()).unwrap();
    let (sss, ab) = (tree.sss().certificate, tree.alphabeta().certificate);
    cell!(cells, buulset::verify(black_box(t), &sss), model::verify(black_box(t), &sss));
    cell!(cells, buulset::shorter(black_box(t), &ab, &sss), model::shorter(black_box(t), &ab, &sss));
}

fn trees(t: &[u8], cells: &mut Vec<String>) {
    let (n, second, mut result) = (t.len() / 6, model::full(&mut Rng(9), 2, 3, 100), vec![0; 24576]);
    let leaf = (0..n).rev().find(|&k| t[6 * k + 2] == 0).unwrap();
    let wanted = i32::from(buulset::Tree::from_table(t.to_vec()).unwrap().plain().found.value);
    match (0..n).find(|&k| model::graft(t, k, &second, &mut result).is_ok()) {
        Some(k) => cell!(
            cells,
            buulset::graft(black_box(t), k, &second, &mut result),
            model::graft(black_box(t), k, &second, &mut result)
        ),
        None => cells.push("-".into()),
    }
    cell!(cells, buulset::least_value(black_box(t), leaf, wanted), model::least_value(black_box(t), leaf, wanted));
    let mut table = t.to_vec();
    cell!(cells, buulset::fill(black_box(&mut table)), model::fill(black_box(&mut table)));
}

fn main() {
    let mut rng = Rng(1);
    let calls = "read write convert check alphabeta plain mtd mtdf sss verify shorter graft least_value fill report";
    println!("| tree | {} |", calls.replace(' ', " | "));
    println!("|{}", "---|".repeat(16));
    row("width 2", &model::full(&mut rng, 2, 10, 32000));
    row("width 5", &model::full(&mut rng, 5, 4, 32000));
    row("width 15", &model::full(&mut rng, 15, 3, 32000));
    row("captures", &model::tree(&mut rng, 3000, 4, 31000, 3, 18));
    row("chain", &model::full(&mut rng, 1, 17, 100));
    for path in std::env::args().skip(1).filter(|a| !a.starts_with('-')) {
        let file = std::fs::read(&path).expect("a file that can be read");
        row(&path, buulset::Tree::from_file(&file).expect("an accepted file").table());
    }
}
