//! `buulset make`: a tree file from nested text, its nodes laid out level by level.
use crate::arguments::Arguments;
use crate::text::read::{nest, Nest, Node};
use crate::{files, Done, Failure};
use buulset::{Refusal, Tree, FRAME_SIZE, MAX_CHILDREN, MAX_DEPTH, MAX_NODES};
use std::ffi::OsStr;
use std::os::unix::ffi::OsStrExt;
use std::path::Path;

pub fn run(mut arguments: Arguments) -> Done {
    let word = arguments.last("TEXT")?;
    let (text, shown) = source(&word)?;
    files::deliver(&arguments, None, &file(&text, &shown)?)
}

/// The text of a file, or the word itself where that is the text; and what stands for it in a sentence.
fn source(word: &OsStr) -> Result<(Vec<u8>, String), Failure> {
    let is_missing = word != "-" && !Path::new(word).exists();
    match word.to_string_lossy().contains(['(', ' ']) {
        true if is_missing => Ok((word.as_bytes().to_vec(), "TEXT, which is no file".into())),
        false if is_missing => Err(Failure::Unreadable(format!(
            "{}: there is no such file, and a text in its place has a bracket or a blank in it",
            files::shown(word)
        ))),
        _ => Ok((files::text(word)?, files::shown(word))),
    }
}

/// The tree file of a text.
fn file(text: &[u8], shown: &str) -> Result<Vec<u8>, Failure> {
    if Tree::from_file(text).is_ok() {
        return Err(Failure::Use(format!("{shown} is a tree file already: `buulset text` prints it as text")));
    }
    let nest = nest(&String::from_utf8_lossy(text))
        .map_err(|misread| Failure::Use(format!("{shown}, {}: {}", misread.at, misread.why)))?;
    let order = level_by_level(&nest.nodes);
    let tree = Tree::from_table(table(&nest.nodes, &order))
        .map_err(|refusal| Failure::Refused(refusal, vec![format!("{shown}, {}", cause(&nest, &order, refusal))]))?;
    let mut file = tree.to_file();
    if !nest.is_closed {
        file.pop();
    }
    Ok(file)
}

/// The nodes in breadth-first order.
fn level_by_level(nodes: &[Node]) -> Vec<usize> {
    let mut order = vec![0];
    for i in 0..nodes.len() {
        order.extend(&nodes[order[i]].children);
    }
    order
}

/// The frames of the nodes. A number that its bytes cannot hold becomes the nearest that they can: the questions
/// refuse both.
fn table(nodes: &[Node], order: &[usize]) -> Vec<u8> {
    let mut table = Vec::with_capacity(FRAME_SIZE * nodes.len());
    let mut next = 1;
    for node in order.iter().map(|&k| &nodes[k]) {
        let count = node.children.len();
        let first = if count == 0 { 0 } else { next };
        table.extend(u16::try_from(first).unwrap_or(u16::MAX).to_be_bytes());
        table.push(u8::try_from(count).unwrap_or(u8::MAX));
        table.push(node.is_second_capture.into());
        table.extend((node.value.clamp(i16::MIN.into(), i16::MAX.into()) as i16).to_be_bytes());
        next += count;
    }
    table
}

/// Where in the text the tree is refused, and why.
fn cause(nest: &Nest, order: &[usize], refusal: Refusal) -> String {
    // the first node too many, or the node that is refused
    let node = if refusal.number == 2 { MAX_NODES } else { order[refusal.place] };
    let Node { at, children, .. } = &nest.nodes[node];
    let why = match refusal.number {
        2 => format!("one node too many; there are {}, and a tree has at most {MAX_NODES}", nest.nodes.len()),
        5 => format!("a node with {} children, which has at most {MAX_CHILDREN}", children.len()),
        7 => "a value that is not from -32,000 to 32,000".into(),
        _ => format!("a node {} moves below the root, and a tree has at most {MAX_DEPTH}", MAX_DEPTH + 1),
    };
    format!("{at}: {why} (question {})", refusal.number)
}
