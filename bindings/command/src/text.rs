//! Trees as nested text, and `buulset text`, which writes it. docs/COMMAND.md has the grammar.
use crate::arguments::Arguments;
use crate::{files, hints, Done, Failure};
use buulset::Tree;

pub mod read;
pub mod write;

/// Stand around the children of a node.
pub const OPEN: &str = "(";
pub const CLOSE: &str = ")";
/// Stands before the children of a node where the same side moves as at its parent.
pub const SECOND_CAPTURE: &str = "x";
/// Stands before the value of a root that is a leaf.
pub const LONE_LEAF: &str = "=";
/// Stands at the end where the last line of the file has no line feed.
pub const UNCLOSED: &str = "~";
/// Begins a comment, which goes to the end of the line.
pub const COMMENT: char = '#';

pub fn run(mut arguments: Arguments) -> Done {
    let name = arguments.last_file()?;
    let file = files::tree(&name)?;
    let tree = Tree::from_file(&file)
        .map_err(|refusal| Failure::Refused(refusal, hints::tree(&name, &files::shown(&name), &file, refusal)))?;
    files::deliver(&arguments, None, write::text(&tree, file.ends_with(b"\n")).as_bytes())
}
