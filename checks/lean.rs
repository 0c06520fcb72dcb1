//! The public calls with no needless work, in plain safe Rust: slices, bounds checks, vectors of as many entries as there
//! are nodes. The same answers and lent buffers as the library's. `rustc -O --crate-type staticlib`; the exports at the
//! end, which take C's pointers, are all that is not safe.
use std::cmp::{max, min};
use std::io::Write;

const FRAME: usize = 6;
const LINE: usize = 13;
const MAX_NODES: usize = 4096;
const MAX_CHILDREN: u8 = 40;
const MAX_DEPTH: u8 = 18;
const MAX_VALUE: i32 = 32000;
const WIN: i32 = 31000;
const GREATEST: i32 = 32001;
const LEAST: i32 = -GREATEST;

#[repr(C)]
#[derive(Clone, Copy, Default)]
pub struct Answer {
    refused: u8,
    spent: u8,
    value: i32,
    place: usize,
    count: usize,
    root_move: usize,
    steps: usize,
}

#[repr(C)]
#[derive(Default)]
pub struct Choice {
    refused: u8,
    chosen: u8,
    place: usize,
    count: usize,
}

#[repr(C)]
pub struct Text {
    bytes: [u8; 256],
    length: usize,
}

type Refusal = (u8, usize);
type Result<T> = std::result::Result<T, Refusal>;

/// A node with its position: how deep it lies and who moves; the score is that of a leaf.
#[derive(Clone, Copy, Default)]
struct Node {
    first: u16,
    parent: u16,
    score: i16,
    count: u8,
    depth: u8,
    max: bool,
}

impl Node {
    fn children(self) -> std::ops::Range<usize> {
        let first = usize::from(self.first);
        first..first + usize::from(self.count)
    }
}

struct Frame {
    first: u16,
    count: u8,
    byte_3: u8,
    value: i16,
}

fn frame_of(f: &[u8]) -> Frame {
    Frame { first: u16::from_be_bytes([f[0], f[1]]), count: f[2], byte_3: f[3], value: i16::from_be_bytes([f[4], f[5]]) }
}

fn score_at(value: i32, depth: u8) -> i32 {
    match value {
        WIN.. => value - i32::from(depth),
        _ if value <= -WIN => value + i32::from(depth),
        _ => value,
    }
}

/// Questions 4 to 7.
fn question(k: usize, f: &Frame, next: usize) -> Result<()> {
    let inner = f.count > 0;
    if f.byte_3 > u8::from(inner && k > 0) {
        Err((4, k))
    } else if f.count > MAX_CHILDREN {
        Err((5, k))
    } else if if inner { usize::from(f.first) != next || next <= k } else { f.first != 0 } {
        Err((6, k))
    } else if if inner { f.value != 0 } else { i32::from(f.value).abs() > MAX_VALUE } {
        Err((7, k))
    } else {
        Ok(())
    }
}

/// The nodes so far, and their parents, found on the way: `below` is a child of the node `parent`, where the other side
/// moves, and these children end before `end`.
struct Tree {
    nodes: Vec<Node>,
    parent: usize,
    below: Node,
    end: usize,
    next: usize,
    too_deep: Option<usize>,
}

impl Tree {
    fn new(n: usize) -> Tree {
        let below = Node { max: true, ..Node::default() };
        Tree { nodes: Vec::with_capacity(n), parent: 0, below, end: 1, next: 1, too_deep: None }
    }

    fn next_parent(&mut self, k: usize) {
        let after = self.parent + usize::from(k > 1);
        self.parent = after + self.nodes[after..].iter().position(|node| node.count > 0).expect("a parent");
        let up = self.nodes[self.parent];
        self.end += usize::from(up.count);
        self.below = Node { parent: self.parent as u16, depth: up.depth.wrapping_add(1), max: !up.max, ..Node::default() };
        if self.below.depth > MAX_DEPTH && self.too_deep.is_none() {
            self.too_deep = Some(k);
        }
    }

    fn push(&mut self, f: Frame) {
        let k = self.nodes.len();
        if k == self.end && k < self.next {
            self.next_parent(k);
        }
        let Node { parent, depth, max, .. } = self.below;
        let score = score_at(i32::from(f.value), depth) as i16;
        self.nodes.push(Node { first: f.first, parent, score, count: f.count, depth, max: max != (f.byte_3 == 1) });
        self.next += usize::from(f.count);
    }

    fn finish(self) -> Result<Vec<Node>> {
        match self.too_deep {
            _ if self.next != self.nodes.len() => Err((8, self.nodes.len())),
            Some(k) => Err((9, k)),
            None => Ok(self.nodes),
        }
    }
}

fn check_size(table: &[u8]) -> Result<()> {
    match table.len() {
        0 => Err((1, 0)),
        n if n > FRAME * MAX_NODES => Err((2, 0)),
        n if n % FRAME != 0 => Err((3, n / FRAME)),
        _ => Ok(()),
    }
}

/// The depth of each level's end, for a check without nodes.
struct Levels {
    depth: usize,
    end: usize,
    next: usize,
    too_deep: Option<usize>,
}

impl Levels {
    fn new() -> Levels {
        Levels { depth: 0, end: 1, next: 1, too_deep: None }
    }

    fn push(&mut self, k: usize, count: u8) {
        if k == self.end {
            self.depth += 1;
            if self.depth == usize::from(MAX_DEPTH) + 1 {
                self.too_deep = Some(k);
            }
            self.end = self.next;
        }
        self.next += usize::from(count);
    }

    fn finish(self, n: usize) -> Result<(usize, usize)> {
        match self.too_deep {
            _ if self.next != n => Err((8, n)),
            Some(k) => Err((9, k)),
            None => Ok((n, self.depth)),
        }
    }
}

/// Questions 1 to 9: how many nodes there are, and the depth of the last.
fn check(table: &[u8]) -> Result<(usize, usize)> {
    check_size(table)?;
    let mut levels = Levels::new();
    for (k, frame) in table.chunks_exact(FRAME).enumerate() {
        let frame = frame_of(frame);
        question(k, &frame, levels.next)?;
        levels.push(k, frame.count);
    }
    levels.finish(table.len() / FRAME)
}

fn scan(table: &[u8]) -> Result<Vec<Node>> {
    check_size(table)?;
    let mut tree = Tree::new(table.len() / FRAME);
    for (k, frame) in table.chunks_exact(FRAME).enumerate() {
        let frame = frame_of(frame);
        question(k, &frame, tree.next)?;
        tree.push(frame);
    }
    tree.finish()
}

// ---- files

const SMALL: u8 = 16;
const OTHER: u8 = 32;

const fn digits(lenient: bool) -> [u8; 256] {
    let mut of = [OTHER; 256];
    let mut i = 0;
    while i < 16 {
        of[b"0123456789ABCDEF"[i] as usize] = i as u8;
        if i >= 10 {
            of[b"abcdef"[i - 10] as usize] = if lenient { i as u8 } else { SMALL };
        }
        i += 1;
    }
    of
}

static STRICT: [u8; 256] = digits(false);
static LENIENT: [u8; 256] = digits(true);

/// The frame of a line, and what kinds of bytes it has.
fn decode(digit: &[u8; 256], line: &[u8]) -> ([u8; FRAME], u8) {
    let (mut frame, mut kinds) = ([0; FRAME], 0);
    if line.len() < LINE - 1 || line.len() == LINE && line[LINE - 1] != b'\n' {
        return (frame, OTHER);
    }
    for (byte, pair) in frame.iter_mut().zip(line.chunks_exact(2)) {
        let (high, low) = (digit[usize::from(pair[0])], digit[usize::from(pair[1])]);
        kinds |= high | low;
        *byte = high << 4 | low;
    }
    (frame, kinds)
}

/// Questions 1 to 3 and 16, and for each line, as long as 4 to 7 got no "no", what is done with its frame.
fn read_lines(digit: &[u8; 256], file: &[u8], mut each: impl FnMut(usize, [u8; FRAME]) -> Result<()>) -> Result<()> {
    if file.is_empty() {
        return Err((1, 0));
    }
    if file.len() > LINE * MAX_NODES {
        return Err((2, 0));
    }
    let (mut small, mut asked) = (None, Ok(()));
    for (k, line) in file.chunks(LINE).enumerate() {
        let (frame, kinds) = decode(digit, line);
        if kinds & OTHER != 0 {
            return Err((3, k));
        }
        if kinds & SMALL != 0 && small.is_none() {
            small = Some(k);
        }
        if asked.is_ok() && small.is_none() {
            asked = each(k, frame);
        }
    }
    small.map_or(asked, |k| Err((16, k)))
}

fn read_frames(digit: &[u8; 256], file: &[u8]) -> Result<Vec<u8>> {
    let mut frames = Vec::with_capacity(FRAME * (file.len() / LINE + 1));
    let mut levels = Levels::new();
    read_lines(digit, file, |k, frame| {
        let fields = frame_of(&frame);
        question(k, &fields, levels.next)?;
        levels.push(k, fields.count);
        frames.extend_from_slice(&frame);
        Ok(())
    })?;
    levels.finish(frames.len() / FRAME)?;
    Ok(frames)
}

fn read_nodes(file: &[u8]) -> Result<Vec<Node>> {
    let mut tree = Tree::new(file.len() / LINE + 1);
    read_lines(&STRICT, file, |k, frame| {
        let frame = frame_of(&frame);
        question(k, &frame, tree.next)?;
        tree.push(frame);
        Ok(())
    })?;
    tree.finish()
}

fn lent<T>(buffer: &mut [T], n: usize) -> Result<&mut [T]> {
    buffer.get_mut(..n).ok_or((10, 0))
}

fn read(file: &[u8], table: &mut [u8]) -> Result<usize> {
    let frames = read_frames(&STRICT, file)?;
    lent(table, frames.len())?.copy_from_slice(&frames);
    Ok(frames.len() / FRAME)
}

fn write_lines(table: &[u8], file: &mut [u8]) -> Result<usize> {
    let length = LINE * (table.len() / FRAME);
    for (line, frame) in lent(file, length)?.chunks_exact_mut(LINE).zip(table.chunks_exact(FRAME)) {
        for (pair, byte) in line.chunks_exact_mut(2).zip(frame) {
            pair[0] = b"0123456789ABCDEF"[usize::from(byte >> 4)];
            pair[1] = b"0123456789ABCDEF"[usize::from(byte & 15)];
        }
        line[LINE - 1] = b'\n';
    }
    Ok(length)
}

fn write(table: &[u8], file: &mut [u8]) -> Result<usize> {
    check(table)?;
    write_lines(table, file)
}

fn convert(file: &[u8], converted: &mut [u8]) -> Result<usize> {
    write_lines(&read_frames(&LENIENT, file)?, converted)
}

// ---- bounds and certificates

type Bounds = (i16, i16);

const UNKNOWN: Bounds = (LEAST as i16, GREATEST as i16);

/// What a search finds, with the evaluated leaves in their order.
#[derive(Default)]
struct Found {
    value: i32,
    root_move: usize,
    leaves: usize,
    steps: usize,
    spent: bool,
}

/// The bounds of each node by the evaluated leaves.
fn bounds(nodes: &[Node], order: &[u16]) -> Vec<Bounds> {
    let mut of = vec![UNKNOWN; nodes.len()];
    let mut visited = vec![false; nodes.len()];
    visited[0] = true;
    for &leaf in order {
        let mut k = usize::from(leaf);
        of[k] = (nodes[k].score, nodes[k].score);
        while !visited[k] {
            visited[k] = true;
            k = usize::from(nodes[k].parent);
        }
    }
    for k in (0..nodes.len()).rev().filter(|&k| visited[k] && nodes[k].count > 0) {
        let (below, worst) = (&of[nodes[k].children()], if nodes[k].max { UNKNOWN.0 } else { UNKNOWN.1 });
        let best = if nodes[k].max { i16::max } else { i16::min };
        of[k] = below.iter().fold((worst, worst), |(low, high), of| (best(low, of.0), best(high, of.1)));
    }
    of
}

/// The first child whose bound on the side that moves is the node's.
fn deciding(nodes: &[Node], of: &[Bounds], k: usize) -> usize {
    let mut children = nodes[k].children();
    let found = if nodes[k].max {
        children.find(|&c| of[c].0 == of[k].0)
    } else {
        children.find(|&c| of[c].1 == of[k].1)
    };
    found.expect("a deciding child")
}

fn write_certificate(nodes: &[Node], flags: &mut [u8], deciding: impl Fn(usize) -> usize) -> usize {
    let mut root_move = 0;
    flags.fill(0);
    flags[0] = 3;
    for (k, node) in nodes.iter().enumerate() {
        if flags[k] == 0 || node.count == 0 {
            continue;
        }
        let (own, all) = (flags[k], flags[k] & if node.max { 1 } else { 2 });
        flags[node.children()].fill(all);
        if own != all {
            let c = deciding(k);
            flags[c] = own;
            if k == 0 {
                root_move = c;
            }
        }
    }
    root_move
}

struct Lent<'a> {
    evaluated: &'a mut [u8],
    certificate: &'a mut [u8],
    order: &'a mut [u16],
}

fn search(table: &[u8], l: Lent, run: impl FnOnce(&[Node], &mut [u16]) -> Found) -> Result<Answer> {
    let nodes = scan(table)?;
    let n = nodes.len();
    let (evaluated, flags, order) = (lent(l.evaluated, n)?, lent(l.certificate, n)?, lent(l.order, n)?);
    let found = run(&nodes, order);
    let order = &order[..found.leaves];
    evaluated.fill(0);
    order.iter().for_each(|&k| evaluated[usize::from(k)] = 1);
    if !found.spent {
        let of = bounds(&nodes, order);
        write_certificate(&nodes, flags, |k| deciding(&nodes, &of, k));
    }
    Ok(Answer {
        spent: u8::from(found.spent),
        value: found.value,
        count: found.leaves,
        root_move: found.root_move,
        steps: found.steps,
        ..Answer::default()
    })
}

// ---- alpha-beta

struct Visits<'a> {
    nodes: &'a [Node],
    order: &'a mut [u16],
    leaves: usize,
}

impl Visits<'_> {
    fn evaluate(&mut self, k: usize) -> i32 {
        self.order[self.leaves] = k as u16;
        self.leaves += 1;
        i32::from(self.nodes[k].score)
    }

    fn alpha_beta(&mut self, k: usize, mut alpha: i32, mut beta: i32) -> i32 {
        let node = self.nodes[k];
        if node.count == 0 {
            return self.evaluate(k);
        }
        for c in node.children() {
            let value = self.alpha_beta(c, alpha, beta);
            if node.max {
                alpha = max(alpha, value);
            } else {
                beta = min(beta, value);
            }
            if alpha >= beta {
                break;
            }
        }
        if node.max { alpha } else { beta }
    }
}

fn alpha_beta(nodes: &[Node], order: &mut [u16]) -> Found {
    let mut v = Visits { nodes, order, leaves: 0 };
    let mut found = Found { value: LEAST, ..Found::default() };
    if nodes[0].count == 0 {
        found.value = v.evaluate(0);
    }
    for c in nodes[0].children() {
        let value = v.alpha_beta(c, found.value, GREATEST);
        if value > found.value {
            (found.value, found.root_move) = (value, c);
        }
    }
    found.leaves = v.leaves;
    found
}

// ---- the plain engine

fn values(nodes: &[Node]) -> Vec<i16> {
    let mut of = vec![0; nodes.len()];
    for (k, node) in nodes.iter().enumerate().rev() {
        let below = of[node.children()].iter().copied();
        of[k] = if node.max { below.max() } else { below.min() }.unwrap_or(node.score);
    }
    of
}

fn plain(table: &[u8], evaluated: &mut [u8], certificate: &mut [u8]) -> Result<Answer> {
    let nodes = scan(table)?;
    let (evaluated, flags) = (lent(evaluated, nodes.len())?, lent(certificate, nodes.len())?);
    let of = values(&nodes);
    evaluated.iter_mut().zip(&nodes).for_each(|(mark, node)| *mark = u8::from(node.count == 0));
    let root_move = write_certificate(&nodes, flags, |k| {
        nodes[k].children().find(|&c| of[c] == of[k]).expect("a deciding child")
    });
    Ok(Answer { value: i32::from(of[0]), root_move, ..Answer::default() })
}

// ---- MTD

/// A high has this added once a pass found the node not below; before it is tried it is GREATEST. The children of a Min
/// node before `from` are not below.
const NOT_BELOW: i32 = 1 << 20;
const KNOWN: i32 = NOT_BELOW + LEAST;

struct Passes<'a> {
    v: Visits<'a>,
    highs: Vec<i32>,
    from: Vec<u8>,
}

impl Passes<'_> {
    fn below(&mut self, k: usize, test: i32) -> bool {
        let node = self.v.nodes[k];
        if node.count == 0 {
            if self.highs[k] == GREATEST {
                self.highs[k] = self.v.evaluate(k);
            }
        } else if node.max {
            let mut most = LEAST;
            for c in node.children() {
                if self.highs[c] >= test && (self.highs[c] >= KNOWN || !self.below(c, test)) {
                    self.highs[k] += NOT_BELOW;
                    return false;
                }
                most = max(most, self.highs[c]);
            }
            self.highs[k] = most;
        } else {
            for c in node.children().skip(usize::from(self.from[k])) {
                if self.highs[c] < test || self.highs[c] < KNOWN && self.below(c, test) {
                    self.from[k] = (c - usize::from(node.first)) as u8;
                    self.highs[k] = self.highs[c];
                    return true;
                }
            }
        }
        let below = self.highs[k] < test;
        if !below {
            self.highs[k] += NOT_BELOW;
        }
        below
    }
}

fn mtd(nodes: &[Node], order: &mut [u16]) -> Found {
    let n = nodes.len();
    let mut p = Passes { v: Visits { nodes, order, leaves: 0 }, highs: vec![GREATEST; n], from: vec![0; n] };
    let mut found = Found { value: GREATEST, steps: 1, ..Found::default() };
    while p.below(0, found.value) {
        found.value = p.highs[0];
        found.steps += 1;
    }
    found.root_move = nodes[0].children().find(|&c| p.highs[c] >= found.value).unwrap_or(0);
    found.leaves = p.v.leaves;
    found
}

// ---- MTD(f)

/// Every test to come lies between the root's bounds: the children before `from` cannot tell it.
struct Tests<'a> {
    v: Visits<'a>,
    of: Vec<Bounds>,
    root: Bounds,
    from: Vec<u8>,
}

impl Tests<'_> {
    fn tells(&mut self, c: usize, test: i32) -> bool {
        i32::from(self.of[c].1) >= test && (i32::from(self.of[c].0) >= test || self.not_below(c, test))
    }

    fn not_below(&mut self, k: usize, test: i32) -> bool {
        let node = self.v.nodes[k];
        if node.count == 0 {
            let score = self.v.evaluate(k);
            self.of[k] = (score as i16, score as i16);
            return score >= test;
        }
        let (end, root) = (node.children().end, self.root);
        let mut c = node.children().start + usize::from(self.from[k]);
        while c + 1 < end && if node.max { self.of[c].1 < root.0 } else { self.of[c].0 >= root.1 } {
            c += 1;
        }
        self.from[k] = (c - usize::from(node.first)) as u8;
        let begin = c;
        let mut answer = !node.max;
        while c < end && answer != node.max {
            answer = self.tells(c, test);
            c += 1;
        }
        let below = self.of[begin..end].iter();
        self.of[k] = if node.max {
            below.fold((UNKNOWN.0, UNKNOWN.0), |(low, high), of| (max(low, of.0), max(high, of.1)))
        } else {
            below.fold((UNKNOWN.1, UNKNOWN.1), |(low, high), of| (min(low, of.0), min(high, of.1)))
        };
        answer
    }
}

fn mtdf(nodes: &[Node], order: &mut [u16], mut start: i32) -> Found {
    let n = nodes.len();
    let v = Visits { nodes, order, leaves: 0 };
    let mut t = Tests { v, of: vec![UNKNOWN; n], root: UNKNOWN, from: vec![0; n] };
    let mut found = Found::default();
    while t.root.0 != t.root.1 {
        let (low, high) = t.root;
        let answer = t.not_below(0, min(i32::from(high), max(i32::from(low) + 1, start)));
        t.root = (t.of[0].0.clamp(low, high), t.of[0].1.clamp(low, high));
        start = if answer { i32::from(t.root.0) + 1 } else { i32::from(t.root.1) };
        found.steps += 1;
    }
    found.value = i32::from(t.root.0);
    found.root_move = nodes[0].children().find(|&c| t.tells(c, found.value)).unwrap_or(0);
    found.leaves = t.v.leaves;
    found
}

// ---- SSS*

/// An entry is the greatest merit at or below a node, whether the node's own state is solved, and the child to go down
/// to, or 0 where the node has a state itself.
const SOLVED: u32 = MAX_NODES as u32;
const MERIT: u32 = 2 * SOLVED;

fn packed(merit: i32) -> u32 {
    (merit - LEAST) as u32 * MERIT
}

/// Makes the entries above k anew while the greatest merit falls below that of the test; the node where it stays.
fn refresh_ancestors(nodes: &[Node], front: &mut [u32], mut k: usize, test: u32) -> usize {
    while k != 0 && front[k] < test {
        let up = usize::from(nodes[k].parent);
        let (mut best, mut merit) = (k, front[k]);
        if nodes[up].max {
            let first = usize::from(nodes[up].first);
            (best, merit) = (first, front[first] | (MERIT - 1));
            for (i, &entry) in front[nodes[up].children()].iter().enumerate() {
                if entry > merit {
                    (best, merit) = (first + i, entry | (MERIT - 1));
                }
            }
        }
        front[up] = merit / MERIT * MERIT + best as u32;
        k = up;
    }
    k
}

fn sss(nodes: &[Node], order: &mut [u16], allowance: usize) -> Found {
    let (mut front, mut test, mut k) = (vec![0; nodes.len()], packed(GREATEST), 0);
    let mut found = Found::default();
    front[0] = test;
    loop {
        while front[k] % SOLVED != 0 {
            k = (front[k] % SOLVED) as usize;
        }
        let (node, up) = (nodes[k], usize::from(nodes[k].parent));
        if front[k] & SOLVED != 0 {
            if k == 0 {
                break;
            }
            if nodes[up].max || k + 1 == nodes[up].children().end {
                front[up] = test + SOLVED;
                if up == 0 {
                    found.root_move = k;
                }
            } else {
                front[k + 1] = test;
                front[up] = test + k as u32 + 1;
            }
            k = up;
        } else if node.count == 0 {
            if found.leaves == allowance {
                (found.spent, found.root_move) = (true, 0);
                break;
            }
            order[found.leaves] = k as u16;
            found.leaves += 1;
            front[k] = min(packed(i32::from(node.score)), test) + SOLVED;
            k = refresh_ancestors(nodes, &mut front, k, test);
            test = front[0] / MERIT * MERIT;
        } else {
            let children = node.children();
            let begun = if node.max { children } else { children.start..children.start + 1 };
            front[begun].fill(test);
            front[k] = test + u32::from(node.first);
        }
        found.steps += 1;
    }
    found.value = (test / MERIT) as i32 + LEAST;
    found
}

fn line(table: &[u8], line: &mut [u16]) -> Result<Answer> {
    let nodes = scan(table)?;
    let line = lent(line, nodes.len())?;
    let mut order = vec![0; nodes.len()];
    let found = sss(&nodes, &mut order, MAX_NODES);
    let of = bounds(&nodes, &order[..found.leaves]);
    let (mut k, mut count) = (0, 1);
    line[0] = 0;
    while nodes[k].count > 0 {
        k = deciding(&nodes, &of, k);
        line[count] = k as u16;
        count += 1;
    }
    Ok(Answer { value: found.value, root_move: found.root_move, count, ..Answer::default() })
}

// ---- certificates

/// The value, and how many leaves are flagged.
fn verify_nodes(nodes: &[Node], flags: &[u8]) -> Result<(i32, usize)> {
    let flags = flags.get(..nodes.len()).ok_or((10, 0))?;
    if let Some(k) = flags.iter().position(|&f| f > 3) {
        return Err((11, k));
    }
    let (mut greatest, mut least, mut flagged, mut min_broken) = (i16::MIN, i16::MAX, 0, None);
    if flags[0] & 1 == 0 {
        return Err((12, 0));
    }
    for (k, (node, &own)) in nodes.iter().zip(flags).enumerate() {
        if node.count == 0 {
            flagged += usize::from(own > 0);
            if own & 1 != 0 {
                greatest = max(greatest, node.score);
            }
            if own & 2 != 0 {
                least = min(least, node.score);
            }
            continue;
        }
        let (mut of_max, mut of_min) = (0, 0);
        for &f in &flags[node.children()] {
            of_max += f & 1;
            of_min += f >> 1;
        }
        let (max_due, min_due) = if node.max { (node.count, 1) } else { (1, node.count) };
        if of_max != max_due * (own & 1) {
            return Err((12, k));
        }
        if of_min != min_due * (own >> 1) && min_broken.is_none() {
            min_broken = Some(k);
        }
    }
    match min_broken {
        _ if flags[0] & 2 == 0 => Err((13, 0)),
        Some(k) => Err((13, k)),
        None if greatest != least => Err((14, 0)),
        None => Ok((i32::from(greatest), flagged)),
    }
}

fn shorter(table: &[u8], first: &[u8], second: &[u8]) -> Result<(u8, usize)> {
    let nodes = scan(table)?;
    let chosen = match (verify_nodes(&nodes, first), verify_nodes(&nodes, second)) {
        (Err(no), Err(_)) => return Err(no),
        (Ok((_, a)), Ok((_, b))) => 1 + u8::from(b < a),
        (one, _) => 1 + u8::from(one.is_err()),
    };
    Ok((chosen, nodes.len()))
}

// ---- trees

/// Copies frames, their first children counted anew; how many children they have.
fn copy_frames(frames: &[u8], result: &mut [u8], at: &mut usize, next: &mut usize) -> usize {
    let before = *next;
    for (frame, to) in frames.chunks_exact(FRAME).zip(result[*at..].chunks_exact_mut(FRAME)) {
        to.copy_from_slice(frame);
        if frame[2] > 0 {
            to[..2].copy_from_slice(&(*next as u16).to_be_bytes());
            *next += usize::from(frame[2]);
        }
    }
    *at += frames.len();
    *next - before
}

/// Level by level: what lies left of the leaf and of what is below it, the second tree's level, and the rest.
fn graft(first: &[u8], node: usize, second: &[u8], result: &mut [u8]) -> Result<usize> {
    let nodes = scan(first)?;
    let (added, deepest) = check(second)?;
    let leaf = nodes.get(node).filter(|leaf| leaf.count == 0 && leaf.max).ok_or((17, node))?;
    let n = nodes.len() + added - 1;
    if n > MAX_NODES || usize::from(leaf.depth) + deepest > usize::from(MAX_DEPTH) {
        return Err((18, 0));
    }
    let result = lent(result, FRAME * n)?;
    let (mut from, mut split, mut end, mut below, mut at, mut next) = (0, 0, 1, false, 0, 1);
    let (mut second_from, mut second_end) = (0, 0);
    while at < result.len() {
        let here = !below && node < end;
        let (left, right) = if here { (node, node + 1) } else if below { (split, split) } else { (end, end) };
        if here {
            (below, second_end) = (true, 1);
        }
        let left_children = copy_frames(&first[FRAME * from..FRAME * left], result, &mut at, &mut next);
        let grafted = copy_frames(&second[FRAME * second_from..FRAME * second_end], result, &mut at, &mut next);
        let right_children = copy_frames(&first[FRAME * right..FRAME * end], result, &mut at, &mut next);
        (second_from, second_end) = (second_end, second_end + grafted);
        (from, split) = (end, end + left_children);
        end = split + right_children;
    }
    Ok(n)
}

/// The root's value where the leaf counts x.
fn root_value(nodes: &[Node], of: &[i16], leaf: usize, mut x: i16) -> i32 {
    let mut k = leaf;
    while k != 0 {
        let up = nodes[usize::from(nodes[k].parent)];
        for c in up.children().filter(|&c| c != k) {
            x = if up.max { max(x, of[c]) } else { min(x, of[c]) };
        }
        k = usize::from(nodes[k].parent);
    }
    i32::from(x)
}

fn least_value(table: &[u8], node: usize, wanted: i32) -> Result<i32> {
    let nodes = scan(table)?;
    let leaf = nodes.get(node).filter(|leaf| leaf.count == 0).ok_or((19, node))?;
    if wanted < -MAX_VALUE || wanted > MAX_VALUE {
        return Err((20, 0));
    }
    let (of, depth) = (values(&nodes), i32::from(leaf.depth));
    let (low, high) = (root_value(&nodes, &of, node, UNKNOWN.0), root_value(&nodes, &of, node, UNKNOWN.1));
    let gives = |&v: &i32| v.abs() <= MAX_VALUE && score_at(v, leaf.depth).clamp(low, high) == wanted;
    [-MAX_VALUE, wanted - depth, wanted, wanted + depth].into_iter().find(gives).ok_or((21, node))
}

/// Ranks from `rank` on for the leaves below node k; the next rank.
fn put_ranks(table: &mut [u8], k: usize, max: bool, rank: u16) -> u16 {
    let frame = frame_of(&table[FRAME * k..FRAME * (k + 1)]);
    if frame.count == 0 {
        table[FRAME * k + 4..FRAME * k + 6].copy_from_slice(&rank.to_be_bytes());
        return rank + 1;
    }
    let first = usize::from(frame.first);
    let children = first..first + usize::from(frame.count);
    let mut put = |rank, c| {
        let same = table[FRAME * c + 3] == 1;
        put_ranks(table, c, max == same, rank)
    };
    if max { children.fold(rank, &mut put) } else { children.rev().fold(rank, &mut put) }
}

fn fill(table: &mut [u8]) -> Result<usize> {
    check(table)?;
    Ok(usize::from(put_ranks(table, 0, true, 0)))
}

fn least_leaves(width: usize, depth: usize) -> Result<usize> {
    if width < 1 || width > usize::from(MAX_CHILDREN) {
        return Err((22, 0));
    }
    if depth > usize::from(MAX_DEPTH) {
        return Err((23, 0));
    }
    let power = width.pow(depth as u32 / 2);
    Ok(min(power + power * if depth % 2 == 1 { width } else { 1 } - 1, 65535))
}

fn report(file: &[u8]) -> Text {
    let mut text = Text { bytes: [0; 256], length: 0 };
    let mut rest = &mut text.bytes[..];
    let written = match read_nodes(file) {
        Err((number, place)) => writeln!(rest, "refused {number} {place}"),
        Ok(nodes) => {
            let mut order = vec![0; nodes.len()];
            let (a, m) = (alpha_beta(&nodes, &mut order), mtd(&nodes, &mut order));
            let s = sss(&nodes, &mut order, MAX_NODES);
            writeln!(rest, "method value move leaves\nab {} {} {}\nmtd {} {} {}\nsss {} {} {}", a.value, a.root_move,
                     a.leaves, m.value, m.root_move, m.leaves, s.value, s.root_move, s.leaves)
        }
    };
    written.expect("room for the report");
    text.length = 256 - rest.len();
    text
}

// ---- C's side

fn counted(of: Result<usize>) -> Answer {
    answered(of.map(|count| Answer { count, ..Answer::default() }))
}

fn valued(of: Result<i32>) -> Answer {
    answered(of.map(|value| Answer { value, ..Answer::default() }))
}

fn answered(of: Result<Answer>) -> Answer {
    of.unwrap_or_else(|(refused, place)| Answer { refused, place, ..Answer::default() })
}

/// An export: a `*name` is a slice that is read, a `&name` one that is written, each with its length behind it.
macro_rules! export {
    ($name:ident($($kind:tt $arg:ident $len:ident: $of:ty),*; $($n:ident: $number:ty),*) -> $out:ty { $body:expr }) => {
        #[unsafe(no_mangle)]
        pub extern "C" fn $name($($arg: ptr!($kind $of), $len: usize,)* $($n: $number),*) -> $out {
            $(let $arg = slice!($kind $arg $len);)*
            $body
        }
    };
}

macro_rules! ptr {
    (r $of:ty) => { *const $of };
    (w $of:ty) => { *mut $of };
}

macro_rules! slice {
    (r $p:ident $len:ident) => {
        unsafe { if $len == 0 { &[][..] } else { std::slice::from_raw_parts($p, $len) } }
    };
    (w $p:ident $len:ident) => {
        unsafe { if $len == 0 { &mut [][..] } else { std::slice::from_raw_parts_mut($p, $len) } }
    };
}

export! { rust_read(r file a: u8, w table b: u8;) -> Answer { counted(read(file, table)) } }
export! { rust_write(r table a: u8, w file b: u8;) -> Answer { counted(write(table, file)) } }
export! { rust_convert(r file a: u8, w new b: u8;) -> Answer { counted(convert(file, new)) } }
export! { rust_check(r table a: u8;) -> Answer { counted(check(table).map(|of| of.0)) } }
export! { rust_alphabeta(r table a: u8, w evaluated b: u8, w certificate c: u8, w order d: u16;) -> Answer {
    answered(search(table, Lent { evaluated, certificate, order }, alpha_beta))
} }
export! { rust_plain(r table a: u8, w evaluated b: u8, w certificate c: u8;) -> Answer {
    answered(plain(table, evaluated, certificate))
} }
export! { rust_mtd(r table a: u8, w evaluated b: u8, w certificate c: u8, w order d: u16;) -> Answer {
    answered(search(table, Lent { evaluated, certificate, order }, mtd))
} }
export! { rust_sss(r table a: u8, w evaluated b: u8, w certificate c: u8, w order d: u16; allowance: usize) -> Answer {
    answered(search(table, Lent { evaluated, certificate, order }, |nodes, order| sss(nodes, order, allowance)))
} }
export! { rust_line(r table a: u8, w nodes b: u16;) -> Answer { answered(line(table, nodes)) } }
export! { rust_verify(r table a: u8, r flags b: u8;) -> Answer {
    valued(scan(table).and_then(|nodes| verify_nodes(&nodes, flags)).map(|of| of.0))
} }
export! { rust_shorter(r table a: u8, r first b: u8, r second c: u8;) -> Choice {
    match shorter(table, first, second) {
        Ok((chosen, count)) => Choice { chosen, count, ..Choice::default() },
        Err((refused, place)) => Choice { refused, place, ..Choice::default() },
    }
} }
export! { rust_least_value(r table a: u8; node: usize, wanted: i32) -> Answer { valued(least_value(table, node, wanted)) } }
export! { rust_fill(w table a: u8;) -> Answer { counted(fill(table)) } }
export! { rust_report(r file a: u8;) -> Text { report(file) } }

#[unsafe(no_mangle)]
pub extern "C" fn rust_mtdf(t: *const u8, a: usize, start: i32, e: *mut u8, b: usize, c: *mut u8, d: usize, o: *mut u16,
                            f: usize) -> Answer {
    let (table, evaluated, certificate, order) = (slice!(r t a), slice!(w e b), slice!(w c d), slice!(w o f));
    answered(search(table, Lent { evaluated, certificate, order }, |nodes, order| mtdf(nodes, order, start)))
}

#[unsafe(no_mangle)]
pub extern "C" fn rust_graft(t: *const u8, a: usize, node: usize, s: *const u8, b: usize, r: *mut u8, c: usize) -> Answer {
    counted(graft(slice!(r t a), node, slice!(r s b), slice!(w r c)))
}

#[unsafe(no_mangle)]
pub extern "C" fn rust_least_leaves(width: usize, depth: usize) -> Answer {
    counted(least_leaves(width, depth))
}
