//! The calls in plain Rust; the tests compare the two, and the bench their speed. It shares no code with the Rattle
//! crates or with `checks/oracle.py`. Alpha-beta and MTD are figures 3 and 4 of 001, SSS* is the list of 01, and the
//! rest is written from the papers' sentences; who wrote it had read the crates' definitions.
#![allow(dead_code)]

use buulset::{Found, LineFound, Printed, Refusal, Spent, Within};
use std::cmp::Reverse;
use std::collections::BTreeSet;
use std::ops::Range;

const LOW: i32 = -32001;
const HIGH: i32 = 32001;
const WIN: i32 = 31000;

type Answer<T> = Result<T, Refusal>;

fn no<T>(number: u8, place: usize) -> Answer<T> {
    Err(Refusal { number, place })
}

// ---- files

pub fn digit(byte: u8) -> Option<u8> {
    match byte {
        b'0'..=b'9' => Some(byte - b'0'),
        b'A'..=b'F' => Some(byte - b'A' + 10),
        b'a'..=b'f' => Some(byte - b'a' + 10),
        _ => None,
    }
}

fn six(line: &[u8]) -> Option<[u8; 6]> {
    if line.len() != 12 {
        return None;
    }
    let mut bytes = [0; 6];
    for (byte, pair) in bytes.iter_mut().zip(line.chunks(2)) {
        *byte = 16 * digit(pair[0])? + digit(pair[1])?;
    }
    Some(bytes)
}

pub fn read_line(file: &[u8], at: usize) -> Option<([u8; 6], usize)> {
    let rest = file.get(at..)?;
    let bytes = six(rest.get(..12)?)?;
    match rest.get(12) {
        None => Some((bytes, at + 12)),
        Some(b'\n') => Some((bytes, at + 13)),
        Some(_) => None,
    }
}

fn decoded(file: &[u8]) -> Answer<Vec<u8>> {
    if file.is_empty() {
        return no(1, 0);
    }
    if file.len() > 53248 {
        return no(2, 0);
    }
    let body = file.strip_suffix(b"\n").unwrap_or(file);
    let mut table = Vec::with_capacity(file.len() / 2);
    for (i, line) in body.split(|&b| b == b'\n').enumerate() {
        match six(line) {
            Some(bytes) => table.extend(bytes),
            None => return no(3, i),
        }
    }
    match body.split(|&b| b == b'\n').position(|l| l.iter().any(|b| (b'a'..=b'f').contains(b))) {
        Some(i) => no(16, i),
        None => frames(&table).map(|_| table),
    }
}

pub fn read(file: &[u8], table: &mut [u8]) -> Answer<usize> {
    let got = decoded(file)?;
    if table.len() < got.len() {
        return no(10, 0);
    }
    table[..got.len()].copy_from_slice(&got);
    Ok(got.len() / 6)
}

/// The file of any whole frames.
pub fn file(table: &[u8]) -> Vec<u8> {
    const CAPITALS: &[u8; 16] = b"0123456789ABCDEF";
    let mut file = Vec::with_capacity(table.len() / 6 * 13);
    for frame in table.chunks(6) {
        for b in frame {
            file.extend([CAPITALS[usize::from(b / 16)], CAPITALS[usize::from(b % 16)]]);
        }
        file.push(b'\n');
    }
    file
}

pub fn write(table: &[u8], buffer: &mut [u8]) -> Answer<usize> {
    let n = check(table)?;
    if buffer.len() < 13 * n {
        return no(10, 0);
    }
    buffer[..13 * n].copy_from_slice(&file(table));
    Ok(13 * n)
}

pub fn convert(file: &[u8], buffer: &mut [u8]) -> Answer<usize> {
    let lifted: Vec<u8> = file.iter().map(|b| if (b'a'..=b'f').contains(b) { b - 32 } else { *b }).collect();
    write(&decoded(&lifted)?, buffer)
}

/// What the program prints: the converted file, or the line of its refusal where there is room for that.
pub fn capitals(file: &[u8], buffer: &mut [u8]) -> Answer<Printed> {
    match convert(file, buffer) {
        Ok(length) => Ok(Printed::File(length)),
        Err(refusal) => {
            let line = format!("{refusal}\n");
            match buffer.get_mut(..line.len()) {
                Some(front) => front.copy_from_slice(line.as_bytes()),
                None => return no(10, 0),
            }
            Ok(Printed::Line(refusal, line.len()))
        }
    }
}

// ---- tables

pub fn check(table: &[u8]) -> Answer<usize> {
    match table.len() {
        0 => no(1, 0),
        l if l > 24576 => no(2, 0),
        l if l % 6 != 0 => no(3, l / 6),
        _ => frames(table),
    }
}

fn first(f: &[u8]) -> usize {
    usize::from(u16::from_be_bytes([f[0], f[1]]))
}

fn stored(f: &[u8]) -> i32 {
    i32::from(i16::from_be_bytes([f[4], f[5]]))
}

fn frames(table: &[u8]) -> Answer<usize> {
    let n = table.len() / 6;
    let mut next = 1;
    for (k, f) in table.chunks(6).enumerate() {
        let count = usize::from(f[2]);
        let inner = count != 0;
        if f[3] != 0 && !(f[3] == 1 && inner && k != 0) {
            return no(4, k);
        }
        if count > 40 {
            return no(5, k);
        }
        if if inner { first(f) != next || first(f) <= k } else { first(f) != 0 } {
            return no(6, k);
        }
        if if inner { stored(f) != 0 } else { stored(f).abs() > 32000 } {
            return no(7, k);
        }
        next += count;
    }
    if next != n {
        return no(8, n);
    }
    let mut depth = vec![0; n];
    for (k, f) in table.chunks(6).enumerate() {
        if depth[k] > 18 {
            return no(9, k);
        }
        for c in first(f)..first(f) + usize::from(f[2]) {
            depth[c] = depth[k] + 1;
        }
    }
    Ok(n)
}

pub fn children(table: &[u8], node: usize) -> &[u8] {
    let whole = &table[..table.len() / 6 * 6];
    let Some(f) = whole.chunks(6).nth(node) else { return &[] };
    whole.get(6 * first(f)..6 * (first(f) + usize::from(f[2]))).unwrap_or(&[])
}

// ---- trees

pub struct Tree {
    n: usize,
    kids: Vec<Range<usize>>,
    worth: Vec<i32>,
    parent: Vec<usize>,
    depth: Vec<i32>,
    max: Vec<bool>,
    /// Nodes at and below a node, and nodes before it from top and left.
    size: Vec<usize>,
    left: Vec<usize>,
}

/// A state of SSS*, in the order in which states are taken: its merit, its place from the left, its node, and whether
/// it is solved.
type State = (Reverse<i32>, usize, usize, bool);

/// What is known of a node for the side that moves there.
#[derive(Clone, Copy)]
struct Bounds {
    low: i32,
    high: i32,
}

fn worth(value: i32, depth: i32) -> i32 {
    match value {
        WIN.. => value - depth,
        v if v <= -WIN => value + depth,
        _ => value,
    }
}

impl Tree {
    /// The tree of an accepted table.
    pub fn new(table: &[u8]) -> Tree {
        let n = table.len() / 6;
        let kids: Vec<_> = table.chunks(6).map(|f| first(f)..first(f) + usize::from(f[2])).collect();
        let (mut parent, mut depth, mut max) = (vec![0; n], vec![0; n], vec![true; n]);
        let (mut size, mut left) = (vec![1; n], vec![0; n]);
        for k in 0..n {
            for c in kids[k].clone() {
                parent[c] = k;
                depth[c] = depth[k] + 1;
                max[c] = max[k] == (table[6 * c + 3] == 1);
            }
        }
        for k in (1..n).rev() {
            size[parent[k]] += size[k];
        }
        for k in 0..n {
            let mut at = left[k] + 1;
            for c in kids[k].clone() {
                left[c] = at;
                at += size[c];
            }
        }
        let worth = table.chunks(6).zip(&depth).map(|(f, &d)| worth(stored(f), d)).collect();
        Tree { n, kids, worth, parent, depth, max, size, left }
    }

    fn leaf(&self, k: usize) -> bool {
        self.kids[k].is_empty()
    }

    fn best(&self, k: usize, of: &[i32]) -> i32 {
        let below = of[self.kids[k].clone()].iter().copied();
        if self.max[k] { below.max() } else { below.min() }.unwrap()
    }

    fn fold(&self, leaf: impl Fn(usize) -> i32) -> Vec<i32> {
        let mut v = vec![0; self.n];
        for k in (0..self.n).rev() {
            v[k] = if self.leaf(k) { leaf(k) } else { self.best(k, &v) };
        }
        v
    }

    /// Alpha-beta with a table of bounds (001, figure 3), in the eyes of the side that moves.
    fn alphabeta(&self, k: usize, alpha: i32, beta: i32, known: &mut [Bounds], out: &mut Vec<usize>) -> i32 {
        let Bounds { low, high } = known[k];
        if high <= alpha || high == low {
            return high;
        }
        if low >= beta {
            return low;
        }
        if self.leaf(k) {
            out.push(k);
            let g = if self.max[k] { self.worth[k] } else { -self.worth[k] };
            known[k] = Bounds { low: g, high: g };
            return g;
        }
        let (mut g, mut a) = (LOW, alpha);
        for c in self.kids[k].clone() {
            g = g.max(match self.max[c] == self.max[k] {
                true => self.alphabeta(c, a, beta, known, out),
                false => -self.alphabeta(c, -beta, -a, known, out),
            });
            a = a.max(g);
            if g >= beta {
                break;
            }
        }
        if g < beta {
            known[k].high = g;
        }
        if g > alpha {
            known[k].low = g;
        }
        g
    }

    fn nothing_known(&self) -> Vec<Bounds> {
        vec![Bounds { low: LOW, high: HIGH }; self.n]
    }

    /// A row of such searches (001, figure 4): the value, and how many.
    fn mtd(&self, out: &mut Vec<usize>) -> (i32, usize) {
        let (mut known, mut g, mut passes) = (self.nothing_known(), HIGH, 0);
        loop {
            let test = g;
            g = self.alphabeta(0, test - 1, test, &mut known, out);
            passes += 1;
            if g == test {
                return (g, passes);
            }
        }
    }

    fn mtdf(&self, mut start: i32, out: &mut Vec<usize>) -> (i32, usize) {
        let (mut low, mut high) = (vec![LOW; self.n], vec![HIGH; self.n]);
        let mut tests = 0;
        while low[0] != high[0] {
            let not_below = self.not_below(0, start.clamp(low[0] + 1, high[0]), &mut low, &mut high, out);
            start = if not_below { low[0] + 1 } else { high[0] };
            tests += 1;
        }
        let value = low[0];
        if !self.leaf(0) {
            self.enter(0, value, &mut low, &mut high, out);
        }
        (value, tests)
    }

    fn not_below(&self, k: usize, test: i32, low: &mut [i32], high: &mut [i32], out: &mut Vec<usize>) -> bool {
        if high[k] < test || low[k] >= test {
            return low[k] >= test;
        }
        if !self.leaf(k) {
            return self.enter(k, test, low, high, out);
        }
        out.push(k);
        (low[k], high[k]) = (self.worth[k], self.worth[k]);
        self.worth[k] >= test
    }

    fn enter(&self, k: usize, test: i32, low: &mut [i32], high: &mut [i32], out: &mut Vec<usize>) -> bool {
        let mut kids = self.kids[k].clone();
        let answer = if self.max[k] {
            kids.any(|c| self.not_below(c, test, low, high, out))
        } else {
            kids.all(|c| self.not_below(c, test, low, high, out))
        };
        (low[k], high[k]) = (self.best(k, low), self.best(k, high));
        answer
    }

    /// The end of the run: what stands for a value where it is finished, and the merit where it is spent; replacements.
    fn sss(&self, allowance: usize, out: &mut Vec<usize>) -> (Result<i32, i32>, usize) {
        let mut list = List { states: BTreeSet::new(), at: vec![None; self.n] };
        list.put((Reverse(HIGH), 0, 0, false));
        for steps in 0.. {
            let (Reverse(merit), _, k, solved) = list.take();
            if k == 0 && solved {
                return (Ok(merit), steps);
            }
            let mut put = |merit, k: usize, solved| list.put((Reverse(merit), self.left[k], k, solved));
            let (kids, p) = (self.kids[k].clone(), self.parent[k]);
            match solved {
                false if self.leaf(k) && out.len() == allowance => return (Err(merit), steps),
                false if self.leaf(k) => {
                    out.push(k);
                    put(merit.min(self.worth[k]), k, true);
                }
                false if self.max[k] => kids.for_each(|c| put(merit, c, false)),
                false => put(merit, kids.start, false),
                true if self.max[p] => {
                    list.purge(self.left[p]..self.left[p] + self.size[p]);
                    list.put((Reverse(merit), self.left[p], p, true));
                }
                true if k + 1 < self.kids[p].end => put(merit, k + 1, false),
                true => put(merit, p, true),
            }
        }
        unreachable!("a run ends")
    }

    fn flags(&self, valued: &[u8]) -> Vec<u8> {
        let low = self.fold(|k| if valued[k] == 1 { self.worth[k] } else { LOW });
        let high = self.fold(|k| if valued[k] == 1 { self.worth[k] } else { HIGH });
        let mut flags = vec![0; self.n];
        flags[0] = 3;
        for k in 0..self.n {
            let (all, one, bound) = if self.max[k] { (1, 2, &low) } else { (2, 1, &high) };
            for c in self.kids[k].clone() {
                flags[c] |= flags[k] & all;
            }
            if flags[k] & one != 0 && !self.leaf(k) {
                let c = self.kids[k].clone().find(|&c| bound[c] == bound[k]).unwrap();
                flags[c] |= one;
            }
        }
        flags
    }

    /// The lowest node that breaks the rule of the max tree (bit 1) or the min tree (bit 2).
    fn broken(&self, flags: &[u8], bit: u8) -> Option<usize> {
        (0..self.n).find(|&k| {
            let members = self.kids[k].clone().filter(|&c| flags[c] & bit != 0).count();
            let wanted = match () {
                _ if flags[k] & bit == 0 => 0,
                _ if self.max[k] == (bit == 1) => self.kids[k].len(),
                _ => self.kids[k].len().min(1),
            };
            members != wanted || (k == 0 && flags[0] & bit == 0)
        })
    }

    fn root_move(&self) -> Option<usize> {
        let value = self.fold(|k| self.worth[k]);
        self.kids[0].clone().find(|&c| value[c] == value[0])
    }
}

/// The states on the list, and each by its place from the left; a node has one at most.
struct List {
    states: BTreeSet<State>,
    at: Vec<Option<State>>,
}

impl List {
    fn put(&mut self, state: State) {
        self.states.insert(state);
        self.at[state.1] = Some(state);
    }

    fn take(&mut self) -> State {
        let state = self.states.pop_first().expect("a state is on the list");
        self.at[state.1] = None;
        state
    }

    fn purge(&mut self, places: Range<usize>) {
        for state in self.at[places].iter_mut().filter_map(Option::take) {
            self.states.remove(&state);
        }
    }
}

// ---- searches

#[derive(Clone, Copy, Debug)]
pub enum Method {
    AlphaBeta,
    Plain,
    Mtd,
    Mtdf(i32),
    Sss(usize),
}

impl Method {
    pub fn name(self) -> &'static str {
        match self {
            Method::AlphaBeta => "alphabeta",
            Method::Plain => "plain",
            Method::Mtd => "mtd",
            Method::Mtdf(_) => "mtdf",
            Method::Sss(_) => "sss",
        }
    }
}

/// What a search is lent.
pub struct Lent<'a> {
    pub evaluated: &'a mut [u8],
    pub certificate: &'a mut [u8],
    pub order: &'a mut [u16],
}

pub fn search(method: Method, table: &[u8], lent: Lent) -> Answer<Within> {
    let n = check(table)?;
    let plain = matches!(method, Method::Plain);
    if lent.evaluated.len() < n || lent.certificate.len() < n || (!plain && lent.order.len() < n) {
        return no(10, 0);
    }
    let tree = Tree::new(table);
    let mut out = Vec::with_capacity(n);
    let (end, steps) = match method {
        Method::AlphaBeta => (Ok(tree.alphabeta(0, LOW, HIGH, &mut tree.nothing_known(), &mut out)), 0),
        Method::Plain => {
            out.extend((0..n).filter(|&k| tree.leaf(k)));
            (Ok(tree.fold(|k| tree.worth[k])[0]), 0)
        }
        Method::Mtd => {
            let (value, passes) = tree.mtd(&mut out);
            (Ok(value), passes)
        }
        Method::Mtdf(start) => {
            let (value, tests) = tree.mtdf(start, &mut out);
            (Ok(value), tests)
        }
        Method::Sss(allowance) => tree.sss(allowance, &mut out),
    };
    lent.evaluated[..n].fill(0);
    out.iter().for_each(|&k| lent.evaluated[k] = 1);
    let leaves = if plain { 0 } else { out.len() };
    for (entry, &leaf) in lent.order.iter_mut().zip(&out[..leaves]) {
        *entry = leaf as u16;
    }
    Ok(match end {
        Ok(value) => {
            lent.certificate[..n].copy_from_slice(&tree.flags(lent.evaluated));
            Within::Found(Found { value: value as i16, root_move: tree.root_move(), leaves, steps })
        }
        Err(merit) => Within::Spent(Spent { merit, leaves, replacements: steps }),
    })
}

/// The best line: at each node the child that is in both trees of the certificate of SSS*. Each node on it is worth the
/// root's value, by plain minimax.
pub fn line(table: &[u8], line: &mut [u16]) -> Answer<LineFound> {
    let n = check(table)?;
    if line.len() < n {
        return no(10, 0);
    }
    let (mut evaluated, mut certificate, mut order) = (vec![0; n], vec![0; n], vec![0; n]);
    let lent = Lent { evaluated: &mut evaluated, certificate: &mut certificate, order: &mut order };
    search(Method::Sss(n), table, lent)?;
    let tree = Tree::new(table);
    let value = tree.fold(|k| tree.worth[k]);
    let (mut node, mut length) = (0, 0);
    loop {
        assert_eq!(value[node], value[0], "node {node} of the line");
        line[length] = node as u16;
        length += 1;
        let mut shared = tree.kids[node].clone().filter(|&c| certificate[c] == 3);
        match (shared.next(), shared.next()) {
            (Some(child), None) => node = child,
            (None, None) if tree.leaf(node) => break,
            _ => panic!("node {node} of the line has not one child in both trees"),
        }
    }
    Ok(LineFound { value: value[0] as i16, root_move: tree.root_move(), length })
}

/// Is a leaf evaluated by alpha-beta? Baudet's condition: of the minimax values of elder siblings on its path, the
/// greatest below a Max node is less than the least below a Min node. For an accepted table.
pub fn baudet(table: &[u8]) -> Vec<bool> {
    let tree = Tree::new(table);
    let value = tree.fold(|k| tree.worth[k]);
    let mut window = vec![(LOW, HIGH); tree.n];
    for k in 0..tree.n {
        let (mut alpha, mut beta) = window[k];
        for c in tree.kids[k].clone() {
            window[c] = (alpha, beta);
            if tree.max[k] {
                alpha = alpha.max(value[c]);
            } else {
                beta = beta.min(value[c]);
            }
        }
    }
    (0..tree.n).map(|k| tree.leaf(k) && window[k].0 < window[k].1).collect()
}

// ---- certificates

fn judge(tree: &Tree, flags: &[u8]) -> Answer<i16> {
    if flags.len() < tree.n {
        return no(10, 0);
    }
    if let Some(k) = flags[..tree.n].iter().position(|&f| f > 3) {
        return no(11, k);
    }
    for (number, bit) in [(12, 1), (13, 2)] {
        if let Some(k) = tree.broken(flags, bit) {
            return no(number, k);
        }
    }
    let of = |bit| (0..tree.n).filter(move |&k| tree.leaf(k) && flags[k] & bit != 0).map(|k| tree.worth[k]);
    let (max, min) = (of(1).max().unwrap(), of(2).min().unwrap());
    if max == min {
        Ok(max as i16)
    } else {
        no(14, 0)
    }
}

pub fn verify(table: &[u8], flags: &[u8]) -> Answer<i16> {
    check(table)?;
    judge(&Tree::new(table), flags)
}

pub fn shorter<'a>(table: &[u8], first: &'a [u8], second: &'a [u8]) -> Answer<&'a [u8]> {
    let n = check(table)?;
    let tree = Tree::new(table);
    let leaves = |flags: &[u8]| (0..tree.n).filter(|&k| tree.leaf(k) && flags[k] != 0).count();
    match (judge(&tree, first), judge(&tree, second)) {
        (Ok(_), Ok(_)) if leaves(second) < leaves(first) => Ok(&second[..n]),
        (Ok(_), _) => Ok(&first[..n]),
        (Err(_), Ok(_)) => Ok(&second[..n]),
        (Err(refusal), Err(_)) => Err(refusal),
    }
}

// ---- trees into trees

pub fn graft(one: &[u8], node: usize, two: &[u8], result: &mut [u8]) -> Answer<usize> {
    check(one)?;
    check(two)?;
    let (a, b) = (Tree::new(one), Tree::new(two));
    if node >= a.n || !a.leaf(node) || !a.max[node] {
        return no(17, node);
    }
    let size = a.n + b.n - 1;
    if size > 4096 || a.depth[node] + b.depth.iter().max().unwrap() > 18 {
        return no(18, 0);
    }
    if result.len() < 6 * size {
        return no(10, 0);
    }
    // breadth first: which tree, and which node of it
    let mut queue = Vec::with_capacity(size);
    let put = |second: bool, k: usize| if !second && k == node { (true, 0) } else { (second, k) };
    queue.push(put(false, 0));
    let mut i = 0;
    while i < queue.len() {
        let (second, k) = queue[i];
        let (tree, table) = if second { (&b, two) } else { (&a, one) };
        let child = if tree.leaf(k) { 0 } else { queue.len() as u16 };
        result[6 * i..6 * i + 2].copy_from_slice(&child.to_be_bytes());
        result[6 * i + 2..6 * i + 6].copy_from_slice(&table[6 * k + 2..6 * k + 6]);
        queue.extend(tree.kids[k].clone().map(|c| put(second, c)));
        i += 1;
    }
    Ok(size)
}

pub fn least_value(table: &[u8], node: usize, wanted: i32) -> Answer<i16> {
    check(table)?;
    let tree = Tree::new(table);
    if node >= tree.n || !tree.leaf(node) {
        return no(19, node);
    }
    if !(-32000..=32000).contains(&wanted) {
        return no(20, 0);
    }
    // on the way to the root: which side moves, and the best that the other children give it
    let value = tree.fold(|k| tree.worth[k]);
    let mut way = Vec::new();
    let mut k = node;
    while k != 0 {
        let p = tree.parent[k];
        let others = tree.kids[p].clone().filter(|&c| c != k).map(|c| value[c]);
        way.push((tree.max[p], if tree.max[p] { others.max() } else { others.min() }));
        k = p;
    }
    let root = |x: i32| {
        way.iter().fold(x, |x, &(max, other)| match other {
            None => x,
            Some(o) if max => x.max(o),
            Some(o) => x.min(o),
        })
    };
    match (-32000..=32000).find(|&v| root(worth(v, tree.depth[node])) == wanted) {
        Some(v) => Ok(v as i16),
        None => no(21, node),
    }
}

pub fn fill(table: &mut [u8]) -> Answer<usize> {
    check(table)?;
    let tree = Tree::new(table);
    fn visit(tree: &Tree, k: usize, rank: &mut u16, table: &mut [u8]) {
        if tree.leaf(k) {
            table[6 * k + 4..6 * k + 6].copy_from_slice(&rank.to_be_bytes());
            *rank += 1;
        } else if tree.max[k] {
            tree.kids[k].clone().for_each(|c| visit(tree, c, rank, table));
        } else {
            tree.kids[k].clone().rev().for_each(|c| visit(tree, c, rank, table));
        }
    }
    let mut rank = 0;
    visit(&tree, 0, &mut rank, table);
    Ok(usize::from(rank))
}

pub fn least_leaves(width: usize, depth: usize) -> Answer<u16> {
    if !(1..=40).contains(&width) {
        return no(22, 0);
    }
    if depth > 18 {
        return no(23, 0);
    }
    let power = |e: usize| (width as u128).pow(e as u32);
    Ok((power(depth.div_ceil(2)) + power(depth / 2) - 1).min(65535) as u16)
}

pub fn report(file: &[u8]) -> String {
    let mut table = vec![0; 24576];
    match read(file, &mut table) {
        Err(refusal) => format!("{refusal}\n"),
        Ok(n) => {
            let mut text = String::from("method value move leaves\n");
            for (name, method) in [("ab", Method::AlphaBeta), ("mtd", Method::Mtd), ("sss", Method::Sss(n))] {
                let (e, c, o) = (&mut vec![0; n], &mut vec![0; n], &mut vec![0; n]);
                match search(method, &table[..6 * n], Lent { evaluated: e, certificate: c, order: o }).unwrap() {
                    Within::Found(f) => {
                        text += &format!("{name} {} {} {}\n", f.value, f.root_move.unwrap_or(0), f.leaves)
                    }
                    Within::Spent(_) => unreachable!(),
                }
            }
            text
        }
    }
}

// ---- inputs

/// xorshift64*.
pub struct Rng(pub u64);

impl Rng {
    pub fn next(&mut self) -> u64 {
        self.0 ^= self.0 >> 12;
        self.0 ^= self.0 << 25;
        self.0 ^= self.0 >> 27;
        self.0.wrapping_mul(0x2545F4914F6CDD1D)
    }
    pub fn below(&mut self, n: usize) -> usize {
        ((self.next() >> 11) % n as u64) as usize
    }
    pub fn one_in(&mut self, n: usize) -> bool {
        self.below(n) == 0
    }
    pub fn pick<T: Copy>(&mut self, of: &[T]) -> T {
        of[self.below(of.len())]
    }
    /// A leaf's value: small, of the whole range, or about the borders of wins and losses.
    pub fn value(&mut self, spread: i32) -> i16 {
        let v = match spread {
            31000 => self.pick(&[31000, -31000]) + self.below(61) as i32 - 30,
            s => self.below(2 * s as usize + 1) as i32 - s,
        };
        v.clamp(-32000, 32000) as i16
    }
}

/// The table of a random tree with about `want` nodes, at most `width` children a node, second captures on one in
/// `captures` inner nodes (0: none), and no node below the depth `deepest`.
pub fn tree(rng: &mut Rng, want: usize, width: usize, spread: i32, captures: usize, deepest: usize) -> Vec<u8> {
    let (mut counts, mut depth) = (Vec::new(), vec![0]);
    let mut k = 0;
    while k < depth.len() {
        let total = depth.len();
        let mut count = 0;
        if total < want && depth[k] < deepest {
            count = rng.below(width + 1);
            if k + 1 == total && count == 0 {
                count = 1 + rng.below(width);
            }
        }
        count = count.min(4096 - total);
        depth.extend(vec![depth[k] + 1; count]);
        counts.push(count);
        k += 1;
    }
    let mut next = 1u16;
    let mut table = Vec::new();
    for (k, count) in counts.into_iter().enumerate() {
        let inner = count != 0;
        table.extend(if inner { next } else { 0 }.to_be_bytes());
        table.push(count as u8);
        table.push((inner && k != 0 && captures != 0 && rng.one_in(captures)) as u8);
        table.extend(if inner { 0 } else { rng.value(spread) }.to_be_bytes());
        next += count as u16;
    }
    table
}

/// The table of a full tree of one width and depth.
pub fn full(rng: &mut Rng, width: usize, depth: u32, spread: i32) -> Vec<u8> {
    let inner: usize = (0..depth).map(|d| width.pow(d)).sum();
    let mut table = Vec::new();
    for k in 0..inner {
        table.extend(((1 + k * width) as u16).to_be_bytes());
        table.extend([width as u8, 0, 0, 0]);
    }
    for _ in 0..width.pow(depth) {
        table.extend([0, 0, 0, 0]);
        table.extend(rng.value(spread).to_be_bytes());
    }
    table
}

/// The table of a tree with exactly n nodes, each with 40 children as long as there are any left; its leaves hold 0.
pub fn sized(n: usize) -> Vec<u8> {
    let mut table = Vec::new();
    let mut next = 1;
    for _ in 0..n {
        let count = (n - next).min(40);
        table.extend(if count != 0 { next as u16 } else { 0 }.to_be_bytes());
        table.extend([count as u8, 0, 0, 0]);
        next += count;
    }
    table
}
