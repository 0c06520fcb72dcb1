//! A tree as nested text: a small node on one line, the children of a larger one below it.
use super::{CLOSE, COMMENT, LONE_LEAF, OPEN, SECOND_CAPTURE, UNCLOSED};
use buulset::Tree;

/// The widest line, and the widest tree that is one line.
const WIDTH: usize = 100;
const SMALL: usize = 40;

/// The text of a tree; `is_closed` says whether the last line of its file has a line feed.
pub fn text(tree: &Tree, is_closed: bool) -> String {
    let mut text = match tree.stored(0) {
        Some(value) => format!("{LONE_LEAF} {value}\n"),
        None => children(tree),
    };
    if !is_closed {
        text += &format!("{UNCLOSED} {COMMENT} the last line of the file has no line feed\n");
    }
    text
}

/// The children of the root.
fn children(tree: &Tree) -> String {
    let line = joined(tree, 0);
    if line.len() <= SMALL {
        return line + "\n";
    }
    let mut text = String::new();
    lines(tree, 0, 0, &mut text);
    text
}

/// The children of a node on one line.
fn joined(tree: &Tree, node: usize) -> String {
    let children: Vec<String> = tree.children(node).map(|child| on_one_line(tree, child)).collect();
    children.join(" ")
}

fn on_one_line(tree: &Tree, node: usize) -> String {
    match tree.stored(node) {
        Some(value) => value.to_string(),
        None => format!("{}{}{CLOSE}", opening(tree, node), joined(tree, node)),
    }
}

fn opening(tree: &Tree, node: usize) -> String {
    format!("{}{OPEN}", if tree.second_capture(node) { SECOND_CAPTURE } else { "" })
}

/// The children of a node on lines of their own, indented: an inner node begins one, and leaves fill them.
fn lines(tree: &Tree, node: usize, indent: usize, out: &mut String) {
    let blanks = " ".repeat(indent);
    let mut room = 0;
    for child in tree.children(node) {
        let (text, is_leaf) = (on_one_line(tree, child), tree.stored(child).is_some());
        if is_leaf && text.len() < room {
            out.insert(out.len() - 1, ' ');
            out.insert_str(out.len() - 1, &text);
            room -= text.len() + 1;
        } else if indent + text.len() <= WIDTH {
            *out += &format!("{blanks}{text}\n");
            room = if is_leaf { WIDTH - indent - text.len() } else { 0 };
        } else {
            *out += &format!("{blanks}{}\n", opening(tree, child));
            lines(tree, child, indent + 2, out);
            *out += &format!("{blanks}{CLOSE}\n");
            room = 0;
        }
    }
}
