//! A refusal for a person: which question, where, and what it usually is.
use crate::explain::question;
use crate::json::Object;
use crate::text::read::nest;
use crate::{files, repair};
use buulset::{Refusal, FRAME_SIZE, LINE_SIZE, MAX_DEPTH, MAX_FILE};
use std::ffi::OsStr;

/// What is said on standard error of a tree file that is refused: `shown` stands for it in a sentence.
pub fn tree(name: &OsStr, shown: &str, file: &[u8], refusal: Refusal) -> Vec<String> {
    let asks = question(refusal.number).map_or("", |q| q.asks);
    let mut lines = vec![format!("{shown}: question {}: {asks} No{}", refusal.number, place(file, refusal))];
    lines.extend(cause(name, file, refusal));
    lines
}

/// What is said of any other refusal: of what the call was asked.
pub fn other(what: &str, refusal: Refusal) -> Vec<String> {
    let Some(question) = question(refusal.number) else { return Vec::new() };
    vec![
        format!("{what}: question {}: {} No (place {}).", refusal.number, question.asks, refusal.place),
        format!("`buulset explain {}` says more", refusal.number),
    ]
}

/// A refusal as the fields of an object.
pub fn object(refusal: Refusal, hints: &[String]) -> Object {
    Object::new()
        .with("refused", usize::from(refusal.number))
        .with("place", refusal.place)
        .with("meaning", refusal.meaning())
        .with("hints", hints.to_vec())
}

fn place(file: &[u8], refusal: Refusal) -> String {
    match refusal.number {
        3 | 16 => format!(", not line {}: {}", refusal.place + 1, quoted(line(file, refusal.place))),
        4..=7 => {
            let (node, text) = (refusal.place, quoted(line(file, refusal.place)));
            format!(", not node {node}, line {}: {text}", node + 1)
        }
        9 => {
            let (node, moves) = (refusal.place, MAX_DEPTH + 1);
            format!(": node {node}, line {}, is {moves} moves from the root.", node + 1)
        }
        _ => ".".into(),
    }
}

/// The line of this number, from 0, without its line feed.
fn line(file: &[u8], number: usize) -> &[u8] {
    file.split(|&b| b == b'\n').nth(number).unwrap_or(&[])
}

/// A line as it can be shown: other bytes than visible ones by their escapes, and not all of a long one.
fn quoted(line: &[u8]) -> String {
    const SHOWN: usize = 40;
    let text: String = line.iter().take(SHOWN).map(|b| b.escape_ascii().to_string()).collect();
    let more = if line.len() > SHOWN { ".." } else { "" };
    format!("\"{text}{more}\"")
}

/// What the refusal of a file usually is.
fn cause(name: &OsStr, file: &[u8], refusal: Refusal) -> Option<String> {
    Some(match refusal.number {
        1 => empty(name),
        2 => too_long(name, file),
        3 if file.contains(&b'(') && nest(&String::from_utf8_lossy(file)).is_ok() => {
            format!("a tree as nested text: `buulset make {}` makes a tree file of it", files::for_a_shell(name))
        }
        3 => repair::hint(name, file, refusal.place).unwrap_or_else(|| not_a_line(file, refusal.place)),
        16 => {
            format!("small letters: `buulset capitals {}` writes the same tree with capitals", files::for_a_shell(name))
        }
        4..=7 => node(refusal, file)?,
        8 => total(file),
        9 => "a tree has at most 18 moves from the root to a leaf".into(),
        _ => return None,
    })
}

/// An empty file; it may be that the shell emptied it before this command began.
fn empty(name: &OsStr) -> String {
    match files::is_standard_output(name) {
        true => format!(
            "the file is empty: the shell emptied it for `> {0}` before it was read; `--in-place`, or `-o {0}`, \
             writes a file only when the result is there",
            files::for_a_shell(name)
        ),
        false => "the file is empty".into(),
    }
}

fn too_long(name: &OsStr, file: &[u8]) -> String {
    let first = line(file, 0);
    if first.strip_suffix(b"\r").is_some_and(is_line) {
        let name = files::for_a_shell(name);
        return format!("Windows line ends, which take a byte more a line: `buulset repair {name}` removes them");
    }
    let lines = MAX_FILE / LINE_SIZE;
    let other = if is_line(first) { "" } else { ", and this one does not begin with one: is it a tree file?" };
    format!("a tree has at most {lines} nodes, a line of twelve digits each{other}")
}

/// Is this a line of twelve digits, in either letter case?
pub fn is_line(line: &[u8]) -> bool {
    line.len() == 2 * FRAME_SIZE && line.iter().all(u8::is_ascii_hexdigit)
}

/// Why a line is not twelve digits, where no repair makes it so.
fn not_a_line(file: &[u8], number: usize) -> String {
    let text = line(file, number);
    let closed = file.split(|&b| b == b'\n').nth(number + 1).is_some();
    if number == 0 && (file.starts_with(b"\xFF\xFE") || file.starts_with(b"\xFE\xFF")) {
        "the file is stored as UTF-16: save it as plain text".into()
    } else if file.iter().take(512).any(|&b| b == 0 || b >= 0x80) {
        "the file has bytes that no text has: is it packed, or no tree file?".into()
    } else if text.is_empty() {
        "a blank line among the others: remove it".into()
    } else if let Some((at, &byte)) = text.iter().enumerate().find(|(_, b)| !b.is_ascii_hexdigit()) {
        let zero = if matches!(byte, b'O' | b'o') { ": a zero is meant?" } else { "" };
        format!("character {} is no digit 0 to 9 or A to F: {}{zero}", at + 1, quoted(&[byte]))
    } else if !closed && text.len() < 2 * FRAME_SIZE {
        format!("the file ends in the middle of a line ({} of 12 digits): it was cut off?", text.len())
    } else {
        format!("the line has {} digits, not 12", text.len())
    }
}

/// The frame of a line that is twelve digits.
fn frame(file: &[u8], number: usize) -> Option<[u8; FRAME_SIZE]> {
    buulset::read_line(file, LINE_SIZE * number).map(|(frame, _)| frame)
}

/// 1 plus the child counts of the nodes before.
fn next(file: &[u8], node: usize) -> usize {
    1 + (0..node).filter_map(|k| frame(file, k)).map(|f| usize::from(f[2])).sum::<usize>()
}

/// What is wrong with a node.
fn node(refusal: Refusal, file: &[u8]) -> Option<String> {
    let (k, frame) = (refusal.place, frame(file, refusal.place)?);
    let first = u16::from_be_bytes([frame[0], frame[1]]);
    let (leaf, value) = (frame[2] == 0, i16::from_be_bytes([frame[4], frame[5]]));
    Some(match refusal.number {
        4 if k == 0 => format!("byte 3 is {:02X}; at the root Max moves, and it is 00", frame[3]),
        4 if leaf => format!("byte 3 is {:02X}; on a leaf it is 00", frame[3]),
        4 => format!("byte 3 is {:02X}; it is 00, or 01 where the same side moves as at the parent", frame[3]),
        5 => format!("it has {} children", frame[2]),
        6 if leaf => format!("it has no children, and yet a first child, {first}"),
        6 if usize::from(first) == next(file, k) => format!("its first child, {first}, does not come after it"),
        6 => format!(
            "its first child is {first}, but by the child counts of the nodes before it would be {}: \
             a miscounted child, or a missing line?",
            next(file, k)
        ),
        7 if leaf => format!("the leaf holds {value}, which is not from -32,000 to 32,000"),
        _ => format!("it has children, and yet a value, {value}"),
    })
}

/// The lines do not add up.
fn total(file: &[u8]) -> String {
    let lines = file.len().div_ceil(LINE_SIZE);
    let nodes = next(file, lines);
    let guess = if lines < nodes { "the file was cut off" } else { "there are too many lines" };
    format!("the child counts make {nodes} in all, and the lines are {lines}: {guess}, or a child was miscounted?")
}
