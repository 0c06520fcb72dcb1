//! Safe calls of the proved searches of Buulset: tree files, tables, searches, certificates.
//!
//! A *file* is a line of twelve hexadecimal digits a node, a *table* six bytes a node; the README of the repository
//! says what stands in them. [`Tree`] keeps a checked table and lends the buffers of each call itself:
//!
//! ```
//! let file = b"000102000000\n000302000000\n000502000000\n000000000001\n000000000002\n000000000003\n000000000004\n";
//! let tree = buulset::Tree::from_file(file)?;
//! let search = tree.sss();
//! assert_eq!((search.found.value, search.found.root_move, search.found.leaves), (3, Some(2), 3));
//! assert_eq!(search.order, [3, 5, 6]);
//! assert_eq!(tree.verify(&search.certificate), Ok(3));
//! # Ok::<(), buulset::Refusal>(())
//! ```
//!
//! The functions of this module are the calls themselves, over buffers that the caller lends. Every call takes any
//! bytes, ends, and gives a result or one [`Refusal`]: there is nothing to test before a call. After a refusal every
//! lent buffer is as it was; after a result, what lies past the part that the call writes keeps its contents. What the
//! proofs assume of a caller, that a buffer which is written overlaps no other argument, Rust's own rules give.
//!
//! A call takes up to 112 kB of stack ([`report`]; `bindings/README.md` has a table): give a thread 256 kB. The library
//! has no state, so any number of threads may call it at once.
#![deny(missing_docs, unsafe_code)]

use std::{error, fmt};

mod ffi;
mod tree;

pub use tree::{Line, Search, Stopped, Tree};

/// The most nodes of a tree. As an allowance of [`sss`] it never stops a run.
pub const MAX_NODES: usize = 4096;
/// The most children of a node.
pub const MAX_CHILDREN: usize = 40;
/// The most moves from the root to a leaf.
pub const MAX_DEPTH: usize = 18;
/// Bytes of a node in a table.
pub const FRAME_SIZE: usize = 6;
/// Bytes of a node in a file, with the line feed.
pub const LINE_SIZE: usize = 13;
/// The most bytes of a table.
pub const MAX_TABLE: usize = FRAME_SIZE * MAX_NODES;
/// The most bytes of a file.
pub const MAX_FILE: usize = LINE_SIZE * MAX_NODES;
/// The version of this crate: 10,000 times the major, 100 times the minor, and the patch number. [`version`] is that of
/// the library that is linked.
pub const VERSION: u32 = 20000;

/// The first question that got a "no" (docs/SPEC.md, section 4).
#[derive(Clone, Copy, PartialEq, Eq, Hash, Debug)]
pub struct Refusal {
    /// The number of the question, 1 to 23.
    pub number: u8,
    /// Where: a node, a line, a number of frames, or 0.
    pub place: usize,
}

impl Refusal {
    /// What the "no" means, in a few words.
    ///
    /// ```
    /// assert_eq!(buulset::check(&[0; 7]).unwrap_err().meaning(), "not whole lines or frames");
    /// ```
    pub fn meaning(&self) -> &'static str {
        match self.number {
            1 => "no bytes",
            2 => "too many bytes",
            3 => "not whole lines or frames",
            4 => "a wrong byte 3",
            5 => "too many children",
            6 => "a wrong first child",
            7 => "a wrong value",
            8 => "a wrong number of nodes",
            9 => "too deep",
            10 => "a lent buffer is too short",
            11 => "a wrong flag",
            12 => "the max flags form no solution tree",
            13 => "the min flags form no solution tree",
            14 => "the two solution trees have different values",
            16 => "a small letter",
            17 => "the node is no leaf where Max would move",
            18 => "the grafted tree is too large or too deep",
            19 => "the node is no leaf",
            20 => "the wanted value is out of range",
            21 => "no value of the leaf gives the root the wanted one",
            22 => "the width is not 1 to 40",
            23 => "the depth is more than 18",
            _ => "no question has this number",
        }
    }
}

/// The line that the program `analyse` prints, without its line feed.
impl fmt::Display for Refusal {
    fn fmt(&self, f: &mut fmt::Formatter<'_>) -> fmt::Result {
        write!(f, "refused {} {}", self.number, self.place)
    }
}

impl error::Error for Refusal {}

/// What a search finds.
#[derive(Clone, Copy, PartialEq, Eq, Debug)]
pub struct Found {
    /// The minimax value of the root, over the leaves' worths.
    pub value: i16,
    /// The first child of the root that reaches it; `None` where the root is a leaf.
    pub root_move: Option<usize>,
    /// How many leaves were evaluated; [`plain`] counts none.
    pub leaves: usize,
    /// Passes of MTD, tests of MTD(f), replacements of SSS*, and 0 for the others.
    pub steps: usize,
}

/// Where its allowance stopped a run of SSS*.
#[derive(Clone, Copy, PartialEq, Eq, Debug)]
pub struct Spent {
    /// An upper bound of the root's value; 32,001 says nothing yet.
    pub merit: i32,
    /// How many leaves were evaluated: as many as were allowed.
    pub leaves: usize,
    /// How many replacements were made.
    pub replacements: usize,
}

/// What SSS* gives within an allowance of leaves.
#[derive(Clone, Copy, PartialEq, Eq, Debug)]
pub enum Within {
    /// The run ended by itself.
    Found(Found),
    /// Its allowance stopped it.
    Spent(Spent),
}

/// What [`line()`] finds.
#[derive(Clone, Copy, PartialEq, Eq, Debug)]
pub struct LineFound {
    /// The minimax value of the root, over the leaves' worths; every node of the line has it.
    pub value: i16,
    /// The first child of the root that reaches it, which is the second node of the line; `None` where the root is a
    /// leaf.
    pub root_move: Option<usize>,
    /// How many nodes the line has.
    pub length: usize,
}

/// What [`capitals`] lays down, with its length in bytes.
#[derive(Clone, Copy, PartialEq, Eq, Debug)]
pub enum Printed {
    /// The converted file.
    File(usize),
    /// The line of the file's refusal.
    Line(Refusal, usize),
}

/// A text of at most 256 bytes, by value.
#[derive(Clone, Copy)]
pub struct Text(ffi::Text);

impl Text {
    /// The bytes of the text: ASCII.
    pub fn as_bytes(&self) -> &[u8] {
        &self.0.bytes[..self.0.length]
    }

    /// All 256 bytes: zeros follow the text.
    pub fn padded(&self) -> &[u8; 256] {
        &self.0.bytes
    }
}

impl fmt::Display for Text {
    fn fmt(&self, f: &mut fmt::Formatter<'_>) -> fmt::Result {
        f.write_str(std::str::from_utf8(self.as_bytes()).expect("a text is ASCII"))
    }
}

impl fmt::Debug for Text {
    fn fmt(&self, f: &mut fmt::Formatter<'_>) -> fmt::Result {
        fmt::Debug::fmt(&self.to_string(), f)
    }
}

fn answered(answer: ffi::Answer) -> Result<ffi::Answer, Refusal> {
    match answer.refused {
        0 => Ok(answer),
        number => Err(Refusal { number, place: answer.place }),
    }
}

fn found(a: ffi::Answer) -> Found {
    let root_move = (a.root_move != 0).then_some(a.root_move);
    Found { value: a.value as i16, root_move, leaves: a.count, steps: a.steps }
}

/// The version of the library that is linked; its major number is that of [`VERSION`].
///
/// ```
/// assert_eq!(buulset::version() / 10000, buulset::VERSION / 10000);
/// ```
pub fn version() -> u32 {
    ffi::version()
}

/// Reads a file into a table, and gives the number of nodes.
///
/// ```
/// let mut table = [7; 8];
/// assert_eq!(buulset::read(b"000000000005\n", &mut table), Ok(1));
/// assert_eq!(table, [0, 0, 0, 0, 0, 5, 7, 7]);
/// assert_eq!(buulset::read(b"00000000000\n", &mut table).unwrap_err().to_string(), "refused 3 0");
/// ```
pub fn read(file: &[u8], table: &mut [u8]) -> Result<usize, Refusal> {
    answered(ffi::read(file, table)).map(|a| a.count)
}

/// Reads the line that starts at a position of a file, in either letter case: its six bytes and the position past it.
/// It puts no questions.
pub fn read_line(file: &[u8], at: usize) -> Option<([u8; FRAME_SIZE], usize)> {
    let line = ffi::read_line(file, at);
    (line.read == 1).then_some((line.bytes, line.at))
}

/// The number of a hexadecimal digit in either letter case.
pub fn digit(byte: u8) -> Option<u8> {
    let number = ffi::digit(byte);
    (number < 16).then_some(number)
}

/// Writes a table as its file, and gives the file's length in bytes: 13 a node.
pub fn write(table: &[u8], file: &mut [u8]) -> Result<usize, Refusal> {
    answered(ffi::write(table, file)).map(|a| a.count)
}

/// Lifts the letters a to f of a file to capitals, reads it and writes it as [`write()`] does; gives its length in
/// bytes.
///
/// ```
/// let mut converted = [0; 13];
/// assert_eq!(buulset::convert(b"00000000fff0", &mut converted), Ok(13));
/// assert_eq!(&converted, b"00000000FFF0\n");
/// ```
pub fn convert(file: &[u8], converted: &mut [u8]) -> Result<usize, Refusal> {
    answered(ffi::convert(file, converted)).map(|a| a.count)
}

/// What the program `capitals` prints for a file, and its length in bytes: the converted file, or the line of the
/// refusal, which is 10 where the converted file has no room. Refused with 10 alone, where not even the line has room.
///
/// ```
/// let mut printed = [0; 12];
/// let refusal = buulset::read(b"", &mut []).unwrap_err();
/// assert_eq!(buulset::capitals(b"", &mut printed), Ok(buulset::Printed::Line(refusal, 12)));
/// assert_eq!(&printed, b"refused 1 0\n");
/// ```
pub fn capitals(file: &[u8], printed: &mut [u8]) -> Result<Printed, Refusal> {
    let a = ffi::capitals(file, printed);
    match (answered(a), a.count) {
        (Ok(_), length) => Ok(Printed::File(length)),
        (Err(refusal), 0) => Err(refusal),
        (Err(refusal), length) => Ok(Printed::Line(refusal, length)),
    }
}

/// Checks a table, and gives the number of nodes.
pub fn check(table: &[u8]) -> Result<usize, Refusal> {
    answered(ffi::check(table)).map(|a| a.count)
}

/// The frames of a node's children, as a part of the table, which need not be checked: empty on a leaf, past the last
/// frame, and where the part would reach past the table. It puts no questions.
pub fn children(table: &[u8], node: usize) -> &[u8] {
    let part = ffi::children(table, node);
    &table[FRAME_SIZE * part.first..FRAME_SIZE * (part.first + part.count)]
}

/// Alpha-beta: the marks of the evaluated leaves and a certificate of the value go to the front of their buffers, an
/// entry a node; the numbers of these leaves, in the order in which they were evaluated, to the front of `order`.
///
/// ```
/// # let mut table = [0; 42];
/// # let file = b"000102000000\n000302000000\n000502000000\n000000000001\n000000000002\n000000000003\n000000000004\n";
/// # buulset::read(file, &mut table)?;
/// let (mut evaluated, mut certificate, mut order) = ([9; 7], [9; 7], [9; 7]);
/// let found = buulset::alphabeta(&table, &mut evaluated, &mut certificate, &mut order)?;
/// assert_eq!((found.value, found.root_move, found.leaves), (3, Some(2), 4));
/// assert_eq!(evaluated, [0, 0, 0, 1, 1, 1, 1]);
/// assert_eq!(order, [3, 4, 5, 6, 9, 9, 9]);
/// # Ok::<(), buulset::Refusal>(())
/// ```
pub fn alphabeta(
    table: &[u8],
    evaluated: &mut [u8],
    certificate: &mut [u8],
    order: &mut [u16],
) -> Result<Found, Refusal> {
    answered(ffi::alphabeta(table, evaluated, certificate, order)).map(found)
}

/// Minimax without cuts: value and root move; every leaf is marked, and `leaves` is 0.
pub fn plain(table: &[u8], evaluated: &mut [u8], certificate: &mut [u8]) -> Result<Found, Refusal> {
    answered(ffi::plain(table, evaluated, certificate)).map(found)
}

/// MTD: as [`alphabeta`], and `steps` are its passes.
pub fn mtd(table: &[u8], evaluated: &mut [u8], certificate: &mut [u8], order: &mut [u16]) -> Result<Found, Refusal> {
    answered(ffi::mtd(table, evaluated, certificate, order)).map(found)
}

/// MTD(f) from the value `start`, any number: as [`alphabeta`], and `steps` are the tests put to the root. The start, a
/// guess of the value, never changes the value or the move, only how many leaves it takes.
///
/// ```
/// # let mut table = [0; 42];
/// # let file = b"000102000000\n000302000000\n000502000000\n000000000001\n000000000002\n000000000003\n000000000004\n";
/// # buulset::read(file, &mut table)?;
/// let (mut evaluated, mut certificate, mut order) = ([9; 7], [9; 7], [9; 7]);
/// let found = buulset::mtdf(&table, 3, &mut evaluated, &mut certificate, &mut order)?;
/// assert_eq!((found.value, found.leaves, found.steps), (3, 3, 1));
/// assert_eq!(order, [3, 5, 6, 9, 9, 9, 9]);
/// # Ok::<(), buulset::Refusal>(())
/// ```
pub fn mtdf(
    table: &[u8],
    start: i32,
    evaluated: &mut [u8],
    certificate: &mut [u8],
    order: &mut [u16],
) -> Result<Found, Refusal> {
    answered(ffi::mtdf(table, start, evaluated, certificate, order)).map(found)
}

/// SSS* that evaluates at most `allowance` leaves: as [`alphabeta`], and `steps` are its replacements. Where the
/// allowance is spent, the marks and the list so far are written, and the certificate's buffer keeps its contents.
///
/// ```
/// # let mut table = [0; 42];
/// # let file = b"000102000000\n000302000000\n000502000000\n000000000001\n000000000002\n000000000003\n000000000004\n";
/// # buulset::read(file, &mut table)?;
/// let (mut evaluated, mut certificate, mut order) = ([9; 7], [9; 7], [9; 7]);
/// let within = buulset::sss(&table, &mut evaluated, &mut certificate, &mut order, 2)?;
/// assert_eq!(within, buulset::Within::Spent(buulset::Spent { merit: 3, leaves: 2, replacements: 6 }));
/// assert_eq!(order, [3, 5, 9, 9, 9, 9, 9]);
/// # Ok::<(), buulset::Refusal>(())
/// ```
pub fn sss(
    table: &[u8],
    evaluated: &mut [u8],
    certificate: &mut [u8],
    order: &mut [u16],
    allowance: usize,
) -> Result<Within, Refusal> {
    let a = answered(ffi::sss(table, evaluated, certificate, order, allowance))?;
    Ok(match a.spent {
        0 => Within::Found(found(a)),
        _ => Within::Spent(Spent { merit: a.value, leaves: a.count, replacements: a.steps }),
    })
}

/// The best line, what both sides play if each plays its best: the numbers of its nodes, root to leaf, go to the
/// front of the list, which has room for all nodes of the tree.
///
/// ```
/// # let mut table = [0; 42];
/// # let file = b"000102000000\n000302000000\n000502000000\n000000000001\n000000000002\n000000000003\n000000000004\n";
/// # buulset::read(file, &mut table)?;
/// let mut line = [9; 7];
/// let found = buulset::line(&table, &mut line)?;
/// assert_eq!((found.value, found.root_move, found.length), (3, Some(2), 3));
/// assert_eq!(line, [0, 2, 5, 9, 9, 9, 9]);
/// # Ok::<(), buulset::Refusal>(())
/// ```
pub fn line(table: &[u8], line: &mut [u16]) -> Result<LineFound, Refusal> {
    let a = answered(ffi::line(table, line))?;
    let Found { value, root_move, leaves: length, .. } = found(a);
    Ok(LineFound { value, root_move, length })
}

/// Checks a certificate, and gives the value that it certifies.
pub fn verify(table: &[u8], certificate: &[u8]) -> Result<i16, Refusal> {
    answered(ffi::verify(table, certificate)).map(|a| a.value as i16)
}

/// The flags of the shorter of two certificates, one a node, as a part of its own memory: of two that are accepted the
/// one with fewer flagged leaves, the first on a tie, otherwise the one that is accepted. Refused where the table is,
/// or, if neither is accepted, as the first one is.
///
/// ```
/// let (table, first, second) = ([0; 6], [9, 9], [3, 9]);
/// assert_eq!(buulset::shorter(&table, &first, &second), Ok(&second[..1]));
/// assert_eq!(buulset::shorter(&table, &first, &first).unwrap_err().to_string(), "refused 11 0");
/// ```
pub fn shorter<'a>(table: &[u8], first: &'a [u8], second: &'a [u8]) -> Result<&'a [u8], Refusal> {
    let choice = ffi::shorter(table, first, second);
    match choice.refused {
        0 => Ok(&(if choice.chosen == 2 { second } else { first })[..choice.count]),
        number => Err(Refusal { number, place: choice.place }),
    }
}

/// Puts the second tree in place of a leaf of the first where Max would move, writes the result's table, and gives
/// its number of nodes. The first table is questioned before the second.
pub fn graft(first: &[u8], node: usize, second: &[u8], result: &mut [u8]) -> Result<usize, Refusal> {
    answered(ffi::graft(first, node, second, result)).map(|a| a.count)
}

/// The smallest value of the leaf `node`, from -32,000 to 32,000, that gives the root exactly the value `wanted`.
///
/// ```
/// assert_eq!(buulset::least_value(&[0; 6], 0, 17), Ok(17));
/// assert_eq!(buulset::least_value(&[0; 6], 0, 32001).unwrap_err().to_string(), "refused 20 0");
/// ```
pub fn least_value(table: &[u8], node: usize, wanted: i32) -> Result<i16, Refusal> {
    answered(ffi::least_value(table, node, wanted)).map(|a| a.value as i16)
}

/// Writes the worst case for alpha-beta into the leaves of the table itself, and gives their number.
pub fn fill(table: &mut [u8]) -> Result<usize, Refusal> {
    answered(ffi::fill(table)).map(|a| a.count)
}

/// The fewest leaves that decide a tree of this width and depth in which the sides alternate; 65,535 is that or more.
///
/// ```
/// assert_eq!(buulset::least_leaves(2, 2), Ok(3));
/// assert_eq!(buulset::least_leaves(41, 2).unwrap_err().meaning(), "the width is not 1 to 40");
/// ```
pub fn least_leaves(width: usize, depth: usize) -> Result<u16, Refusal> {
    answered(ffi::least_leaves(width, depth)).map(|a| a.count as u16)
}

/// What the program `analyse` prints for a file; it refuses nothing.
///
/// ```
/// assert_eq!(buulset::report(b"").to_string(), "refused 1 0\n");
/// ```
pub fn report(file: &[u8]) -> Text {
    Text(ffi::report(file))
}

/// The line that it prints for a refusal.
pub fn refused(refusal: Refusal) -> Text {
    Text(ffi::refused(refusal.number, refusal.place))
}
