//! Every call against the model, on random trees and files, good and damaged, with buffers that are long enough, too
//! long and too short. Each comparison is of the answer and of every byte of every lent buffer. `COUNT` (rounds, 2000)
//! and `SEED` can be set in the environment.
mod model;

use buulset::{Refusal, Within};
use model::{Lent, Method, Rng};
use std::collections::BTreeMap;
use std::sync::Mutex;

/// How often each call gave a result (0) and each refusal (its number).
static SEEN: Mutex<BTreeMap<(&str, u8), usize>> = Mutex::new(BTreeMap::new());

fn saw(what: &'static str, number: u8) {
    *SEEN.lock().unwrap().entry((what, number)).or_default() += 1;
}

/// Each of these answers of a call was given, and no other.
fn was_given(what: &'static str, numbers: &[u8]) {
    let seen = SEEN.lock().unwrap();
    let given: Vec<u8> = seen.keys().filter(|k| k.0 == what).map(|k| k.1).collect();
    for number in numbers {
        // a short run may miss one
        assert!(given.contains(number) || setting("COUNT", COUNT) < COUNT, "{what}: {number} was never given");
    }
    for number in given {
        assert!(numbers.contains(&number) || number == 2, "{what}: {number}");
    }
}

/// How many comparisons were made: "spent" and "the second" only note a kind of result.
fn compared() -> usize {
    SEEN.lock().unwrap().iter().filter(|(k, _)| k.0 != "spent" && k.0 != "the second").map(|(_, n)| n).sum()
}

const COUNT: u64 = 2000;

fn setting(name: &str, otherwise: u64) -> u64 {
    std::env::var(name).map_or(otherwise, |v| v.parse().expect(name))
}

/// What a buffer holds before a call: no call writes it at random.
fn lent(rng: &mut Rng, length: usize) -> Vec<u8> {
    let seed = rng.next() as u8;
    (0..length).map(|i| (i as u8).wrapping_mul(37) ^ seed).collect()
}

/// Both give one answer and leave one buffer; a refusal leaves it as it was.
fn same<T: PartialEq + std::fmt::Debug>(
    what: &'static str,
    before: &[u8],
    ours: impl FnOnce(&mut [u8]) -> Result<T, Refusal>,
    theirs: impl FnOnce(&mut [u8]) -> Result<T, Refusal>,
) -> Result<T, Refusal> {
    let (mut a, mut b) = (before.to_vec(), before.to_vec());
    let got = ours(&mut a);
    assert_eq!(got, theirs(&mut b), "{what}");
    assert!(a == b, "{what}: lent memory");
    if got.is_err() {
        assert!(a == before, "{what}: lent memory after a refusal");
    }
    saw(what, got.as_ref().map_or_else(|refusal| refusal.number, |_| 0));
    got
}

fn searched(method: Method, t: &[u8], lent: Lent) -> Result<Within, Refusal> {
    let (e, c, o) = (lent.evaluated, lent.certificate, lent.order);
    match method {
        Method::AlphaBeta => buulset::alphabeta(t, e, c, o).map(Within::Found),
        Method::Plain => buulset::plain(t, e, c).map(Within::Found),
        Method::Mtd => buulset::mtd(t, e, c, o).map(Within::Found),
        Method::Mtdf(start) => buulset::mtdf(t, start, e, c, o).map(Within::Found),
        Method::Sss(allowance) => buulset::sss(t, e, c, o, allowance),
    }
}

/// A search with buffers of these lengths; where it finds, the value and the certificate's buffer.
fn compare_search(method: Method, t: &[u8], lengths: [usize; 3], rng: &mut Rng) -> Option<(i16, Vec<u8>)> {
    let [marks, flags, list] = lengths;
    let before = lent(rng, marks + flags);
    let order: Vec<u16> = (0..list).map(|i| (i as u16).wrapping_mul(0x1357) ^ 0xA5A5).collect();
    let (mut ours, mut theirs, mut certificate) = (order.clone(), order.clone(), Vec::new());
    let got = same(
        method.name(),
        &before,
        |b| {
            let (evaluated, c) = b.split_at_mut(marks);
            let got = searched(method, t, Lent { evaluated, certificate: c, order: &mut ours });
            certificate = c.to_vec();
            got
        },
        |b| {
            let (evaluated, certificate) = b.split_at_mut(marks);
            model::search(method, t, Lent { evaluated, certificate, order: &mut theirs })
        },
    );
    assert!(ours == theirs, "{}: the order of leaves", method.name());
    match got {
        Ok(Within::Found(found)) => Some((found.value, certificate)),
        Ok(Within::Spent(_)) => {
            saw("spent", 0);
            None
        }
        Err(_) => {
            assert!(ours == order, "{}: the list after a refusal", method.name());
            None
        }
    }
}

/// The root's value, in buffers of their own.
fn value_of(t: &[u8]) -> Result<i16, Refusal> {
    let n = t.len() / 6;
    buulset::plain(t, &mut vec![0; n], &mut vec![0; n]).map(|f| f.value)
}

fn tree(accepted: &[u8]) -> buulset::Tree {
    buulset::Tree::from_table(accepted.to_vec()).unwrap()
}

/// Every call that takes a table, on a table of about n nodes.
fn compare_table(t: &[u8], n: usize, rng: &mut Rng) {
    let accepted = same("check", &[], |_| buulset::check(t), |_| model::check(t)).is_ok();
    if accepted {
        let marks: Vec<bool> = tree(t).alphabeta().evaluated.iter().map(|&mark| mark == 1).collect();
        assert_eq!(marks, model::baudet(t), "alpha-beta evaluates by Baudet's condition");
    }
    let certificates = compare_searches(t, n, rng);
    compare_certificates(t, n, certificates, rng);
    for room in [n, n + rng.below(9), n.saturating_sub(1 + rng.below(3))] {
        compare_line(t, room);
    }
    for room in [13 * n, 13 * n + rng.below(30), (13 * n).saturating_sub(1 + rng.below(13))] {
        let before = lent(rng, room);
        same("write", &before, |b| buulset::write(t, b), |b| model::write(t, b)).ok();
    }
    // children, of accepted tables and of any bytes
    for _ in 0..3 {
        let node = if rng.one_in(8) { rng.next() as usize } else { rng.below(t.len() / 6 + 2) };
        assert_eq!(buulset::children(t, node), model::children(t, node));
        saw("children", 0);
    }
    compare_least_value(t, n, rng);
    let got = same("fill", t, buulset::fill, model::fill);
    if accepted {
        let leaves = tree(t).filled().0.alphabeta().found.leaves;
        assert_eq!(Ok(leaves), got, "alpha-beta evaluates every leaf of the worst case");
    }
}

/// Every search, with room enough and with room that may be short; the certificates that were found.
fn compare_searches(t: &[u8], n: usize, rng: &mut Rng) -> Vec<Vec<u8>> {
    let rooms = [n, n + rng.below(9), n.saturating_sub(1 + rng.below(3))];
    let start = rng.pick(&[i32::MIN, -32001, -1, 0, 1, 31000, 32001, i32::MAX]);
    let within = [buulset::MAX_NODES, rng.below(n + 2)].map(Method::Sss);
    let mut certificates = Vec::new();
    for method in [Method::AlphaBeta, Method::Plain, Method::Mtd, Method::Mtdf(start)].into_iter().chain(within) {
        let enough = [(); 3].map(|()| rng.pick(&rooms[..2]));
        if let Some((value, certificate)) = compare_search(method, t, enough, rng) {
            assert_eq!(buulset::verify(t, &certificate), Ok(value));
            certificates.push(certificate);
        }
        let some = [(); 3].map(|()| rng.pick(&rooms));
        compare_search(method, t, some, rng);
    }
    certificates
}

/// The best line, in a list of this length.
fn compare_line(t: &[u8], room: usize) {
    let before: Vec<u16> = (0..room).map(|i| (i as u16).wrapping_mul(0x1357) ^ 0xA5A5).collect();
    let (mut ours, mut theirs) = (before.clone(), before.clone());
    let got = same("line", &[], |_| buulset::line(t, &mut ours), |_| model::line(t, &mut theirs));
    assert!(ours == theirs, "the best line");
    match got {
        Ok(found) => {
            let nodes: Vec<usize> = ours[..found.length].iter().map(|&node| node.into()).collect();
            assert_eq!(nodes.get(1).copied(), found.root_move, "the line begins with the move");
            assert_eq!(tree(t).line(), buulset::Line { value: found.value, nodes });
        }
        Err(_) => assert!(ours == before, "the list after a refusal"),
    }
}

/// The calls on certificates: any bytes, as found, of a tree of the same shape with other values, damaged, cut.
fn compare_certificates(t: &[u8], n: usize, found: Vec<Vec<u8>>, rng: &mut Rng) {
    let mut certificates = vec![lent(rng, n)];
    certificates.extend(found);
    if buulset::check(t).is_ok() {
        certificates.push(tree(t).filled().0.mtd().certificate);
    }
    let mut damaged = certificates[certificates.len() - 1].clone();
    if !damaged.is_empty() {
        for _ in 0..1 + rng.below(2) {
            let at = rng.below(damaged.len());
            damaged[at] = rng.pick(&[0, 1, 2, 3, 3, 4, 255]);
        }
    }
    certificates.push(damaged);
    certificates.push(certificates[0][..n.saturating_sub(1)].to_vec());
    for c in &certificates {
        same("verify", &[], |_| buulset::verify(t, c), |_| model::verify(t, c)).ok();
    }
    for _ in 0..4 {
        let (a, b) = (&certificates[rng.below(certificates.len())], &certificates[rng.below(certificates.len())]);
        let got = same("shorter", &[], |_| buulset::shorter(t, a, b), |_| model::shorter(t, a, b));
        if let Ok(part) = got {
            assert!(part.as_ptr() == a.as_ptr() || part.as_ptr() == b.as_ptr(), "a part of one of the two");
            if part.as_ptr() == b.as_ptr() && a.as_ptr() != b.as_ptr() {
                saw("the second", 0);
            }
        }
    }
}

/// A leaf's value for values about the root's, at the borders, and out of range.
fn compare_least_value(t: &[u8], n: usize, rng: &mut Rng) {
    let root = value_of(t).map_or(0, i32::from);
    for _ in 0..3 {
        let node = if rng.one_in(3) { rng.below(n + 2) } else { n.saturating_sub(1 + rng.below(n / 2 + 1)) };
        let wanted = match rng.below(5) {
            0 => root,
            1 => root + rng.below(5) as i32 - 2,
            2 => i32::from(rng.value(31000)),
            3 => rng.pick(&[32000, 32001, -32000, -32001, i32::MAX, i32::MIN, 0]),
            _ => i32::from(rng.value(5)),
        };
        let ours = |_: &mut [u8]| buulset::least_value(t, node, wanted);
        if let Ok(value) = same("least_value", &[], ours, |_| model::least_value(t, node, wanted)) {
            let mut with = t.to_vec();
            with[6 * node + 4..6 * node + 6].copy_from_slice(&value.to_be_bytes());
            assert_eq!(value_of(&with).map(i32::from), Ok(wanted), "the value does what is wanted");
        }
    }
}

fn compare_graft(one: &[u8], two: &[u8], rng: &mut Rng) {
    let (n, m) = (one.len() / 6, two.len() / 6);
    for _ in 0..4 {
        let node = if rng.one_in(9) { rng.next() as usize } else { rng.below(n + 2) };
        let exact = 6 * (n + m).saturating_sub(1);
        let more = exact + rng.below(13);
        let room = rng.pick(&[exact, more, exact.saturating_sub(1), 0]).min(30000);
        let before = lent(rng, room);
        let got = same("graft", &before, |b| buulset::graft(one, node, two, b), |b| model::graft(one, node, two, b));
        if got.is_ok() {
            let mut result = before.clone();
            let size = buulset::graft(one, node, two, &mut result).unwrap();
            assert_eq!(buulset::check(&result[..6 * size]), Ok(size), "a graft is accepted");
        }
    }
}

/// Every call that takes a file.
fn compare_file(file: &[u8], rng: &mut Rng) {
    let lines = file.len() / 13 + 1;
    for room in [6 * lines, (6 * lines).saturating_sub(1 + rng.below(13)), 6 * lines + rng.below(40)] {
        let before = lent(rng, room);
        same("read", &before, |b| buulset::read(file, b), |b| model::read(file, b)).ok();
    }
    for room in [13 * lines, (13 * lines).saturating_sub(1 + rng.below(30)), 13 * lines + rng.below(40)] {
        let before = lent(rng, room);
        same("convert", &before, |b| buulset::convert(file, b), |b| model::convert(file, b)).ok();
        let less = rng.pick(&[room, 13, 12, 11, 0]);
        let before = lent(rng, room.min(less));
        same("capitals", &before, |b| buulset::capitals(file, b), |b| model::capitals(file, b)).ok();
    }
    for _ in 0..4 {
        let at = match rng.below(4) {
            0 => rng.next() as usize,
            1 => rng.below(file.len() + 20),
            _ => 13 * rng.below(lines + 1),
        };
        assert_eq!(buulset::read_line(file, at), model::read_line(file, at));
        saw("read_line", 0);
    }
    let text = buulset::report(file);
    assert_eq!(text.to_string(), model::report(file));
    assert!(text.padded()[text.as_bytes().len()..].iter().all(|&b| b == 0));
    saw("report", 0);
}

fn random_tree(rng: &mut Rng, large: bool, deepest: usize) -> Vec<u8> {
    let want = rng.pick(&[1, 3, 7, 20, 63, 64, 65, 66, 200, 1000, 4096][..if large { 11 } else { 9 }]);
    let (width, spread) = (rng.pick(&[1, 2, 3, 5, 40]), rng.pick(&[0, 1, 3, 100, 32000, 31000, 31000]));
    let captures = rng.pick(&[0, 1, 2, 5]);
    model::tree(rng, want, width, spread, captures, deepest)
}

fn damage(rng: &mut Rng, bytes: &mut [u8], with: impl Fn(&mut Rng, u8) -> u8) {
    for _ in 0..1 + rng.below(3) {
        if !bytes.is_empty() {
            let at = rng.below(bytes.len());
            bytes[at] = with(rng, bytes[at]);
        }
    }
}

#[test]
fn tables() {
    let mut rng = Rng(setting("SEED", 0x9E3779B97F4A7C15) | 1);
    let (mut last, rounds) = (vec![0; 6], setting("COUNT", COUNT));
    for i in 0..rounds {
        let deep = random_tree(&mut rng, false, 20);
        compare_table(&deep, deep.len() / 6, &mut rng);
        let mut t = random_tree(&mut rng, i % 40 == 0, 18);
        let n = t.len() / 6;
        assert_eq!(buulset::check(&t), Ok(n), "a good tree is accepted");
        compare_table(&t, n, &mut rng);
        compare_graft(&last, &t, &mut rng);
        compare_graft(&t, &last, &mut rng);
        last = t.clone();
        let cut = rng.below(t.len() + 1);
        compare_table(&t[..cut], cut / 6, &mut rng);
        for other in [&deep[..], &t[..cut]] {
            compare_graft(&last, other, &mut rng);
            compare_graft(other, &last, &mut rng);
        }
        damage(&mut rng, &mut t, |r, b| match r.below(4) {
            0 => r.next() as u8,
            1 => b ^ 1,
            2 => r.pick(&[0, 1, 40, 41, 125, 126, 130, 131]),
            _ => 0,
        });
        compare_table(&t, n, &mut rng);
        if i % 3 == 0 {
            compare_graft(&last, &t, &mut rng);
        }
    }
    every_answer_was_given();
    println!("{rounds} rounds of trees; {} comparisons so far", compared());
}

/// Every answer that a call on tables can give.
fn every_answer_was_given() {
    let table = [0, 1, 3, 4, 5, 6, 7, 8, 9];
    let with = |more: &[u8]| [&table, more].concat();
    was_given("check", &table);
    was_given("fill", &table);
    for what in ["alphabeta", "plain", "mtd", "mtdf", "sss", "line", "write"] {
        was_given(what, &with(&[10]));
    }
    for what in ["verify", "shorter"] {
        was_given(what, &with(&[10, 11, 12, 13, 14]));
    }
    was_given("graft", &with(&[10, 17, 18]));
    was_given("least_value", &with(&[19, 20, 21]));
    was_given("spent", &[0]);
    was_given("the second", &[0]);
}

#[test]
fn files() {
    let mut rng = Rng(setting("SEED", 0x9E3779B97F4A7C15).wrapping_add(77) | 1);
    let rounds = setting("COUNT", COUNT);
    for i in 0..rounds {
        let deepest = if i % 10 == 0 { 20 } else { 18 };
        let t = random_tree(&mut rng, i % 40 == 0, deepest);
        let mut file = model::file(&t);
        if rng.one_in(2) {
            file.pop();
        }
        compare_file(&file, &mut rng);
        if rng.one_in(2) {
            let at = rng.below(file.len());
            file[at..].make_ascii_lowercase();
            compare_file(&file, &mut rng);
        }
        damage(&mut rng, &mut file, |r, b| match r.below(3) {
            0 => r.next() as u8,
            1 => r.pick(b"0123456789ABCDEFabcdef\n\r gG"),
            _ => b ^ 32,
        });
        compare_file(&file, &mut rng);
        file.truncate(rng.below(file.len() + 1));
        compare_file(&file, &mut rng);
    }
    was_given("read", &[0, 1, 3, 4, 5, 6, 7, 8, 9, 10, 16]);
    was_given("convert", &[0, 1, 3, 4, 5, 6, 7, 8, 9, 10]);
    was_given("capitals", &[0, 10]);
    println!("{rounds} rounds of files; {} comparisons so far", compared());
}

#[test]
fn every_allowance() {
    let mut rng = Rng(setting("SEED", 5) | 1);
    for _ in 0..setting("COUNT", COUNT) / 20 {
        let t = random_tree(&mut rng, false, 18);
        let n = t.len() / 6;
        for allowance in 0..=n.min(80) {
            compare_search(Method::Sss(allowance), &t, [n, n, n], &mut rng);
        }
        compare_search(Method::Sss(usize::MAX), &t, [n, n, n], &mut rng);
    }
}

#[test]
fn all_small_inputs() {
    for byte in 0..=255 {
        assert_eq!(buulset::digit(byte), model::digit(byte));
    }
    for width in (0..=42).chain([usize::MAX]) {
        for depth in (0..=20).chain([usize::MAX]) {
            assert_eq!(buulset::least_leaves(width, depth), model::least_leaves(width, depth));
        }
    }
    for number in 0..=255 {
        for place in [0, 9, 10, 4096, usize::MAX] {
            let refusal = Refusal { number, place };
            assert_eq!(buulset::refused(refusal).to_string(), format!("{refusal}\n"));
        }
    }
}

#[test]
fn ends_of_the_range() {
    let mut rng = Rng(7);
    compare_file(&[], &mut rng);
    for n in [1, 12, 13, 14, 831, 832, 833, 845, 53246, 53247, 53248, 53249, 70000] {
        compare_file(&vec![b'0'; n], &mut rng);
        compare_file(&vec![b'\n'; n], &mut rng);
        let lines: Vec<u8> = b"000000000000\n".iter().cycle().take(n).copied().collect();
        compare_file(&lines, &mut rng);
    }
    for n in [0, 1, 5, 6, 7, 24570, 24575, 24576, 24577, 24582, 1 << 20] {
        compare_table(&vec![0; n], n.min(24576) / 6, &mut rng);
        compare_graft(&vec![0; n], &[0; 6], &mut rng);
        compare_graft(&[0; 6], &vec![0; n], &mut rng);
    }
    for (width, depth) in [(1, 18), (1, 19), (2, 11), (15, 3), (40, 2), (4095, 1)] {
        let t = model::full(&mut rng, width.min(255), depth, 31000);
        compare_table(&t, t.len() / 6, &mut rng);
        compare_file(&model::file(&t), &mut rng);
    }
    grafts_at_the_limits(&mut rng);
    // question 2, which no random input gets
    let calls = "read write convert check alphabeta plain mtd sss line verify shorter graft least_value fill";
    for what in calls.split(' ') {
        assert!(SEEN.lock().unwrap().contains_key(&(what, 2)), "{what}: 2 was never given");
    }
}

fn grafts_at_the_limits(rng: &mut Rng) {
    // the most nodes, and one more, by a graft onto a leaf at depth 2
    for (n, m) in [(4096, 1), (4095, 1), (4095, 2), (4094, 3), (4096, 2), (2048, 2049), (2048, 2050), (1641, 2456)] {
        let (one, two) = (model::sized(n), model::sized(m));
        let before = vec![9; 24576 + 6];
        let got =
            same("graft", &before, |b| buulset::graft(&one, 1640, &two, b), |b| model::graft(&one, 1640, &two, b));
        assert_eq!(got.is_ok(), n + m <= 4097);
    }
    // grafts at the limits of depth
    let (chain, fan) = (model::full(rng, 1, 9, 3), model::full(rng, 15, 3, 3));
    for (one, two) in [(&chain, &chain), (&fan, &chain), (&fan, &fan), (&chain, &fan)] {
        for node in 0..one.len() / 6 {
            let before = vec![9; 24576];
            same("graft", &before, |b| buulset::graft(one, node, two, b), |b| model::graft(one, node, two, b)).ok();
        }
    }
}

#[test]
fn threads_share_nothing() {
    let mut rng = Rng(11);
    let trees: Vec<_> = (0..8).map(|_| model::tree(&mut rng, 2000, 3, 100, 3, 18)).collect();
    std::thread::scope(|s| {
        for t in &trees {
            // a quarter of a megabyte is enough for every call
            let small = std::thread::Builder::new().stack_size(256 << 10);
            small
                .spawn_scoped(s, move || {
                    let tree = buulset::Tree::from_table(t.clone()).unwrap();
                    let (first, file) = (tree.sss(), tree.to_file());
                    for _ in 0..20 {
                        assert_eq!(first, tree.sss());
                        assert_eq!(buulset::Tree::from_file(&file).as_ref(), Ok(&tree));
                        buulset::report(&file);
                    }
                })
                .unwrap();
        }
    });
}
