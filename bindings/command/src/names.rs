//! A names file: the name of a move, by the node that the move leads to. A line is a node number, a blank and the name.
use crate::{files, Failure};
use std::ffi::OsStr;

/// The names of a tree's moves.
#[derive(Debug)]
pub struct Names(Vec<Option<String>>);

impl Names {
    /// Reads a names file of a tree with so many nodes; without a file no move has a name.
    pub fn read(file: Option<&OsStr>, nodes: usize) -> Result<Names, Failure> {
        let Some(file) = file else { return Ok(Names(vec![None; nodes])) };
        let bytes = files::text(file)?;
        Names::parse(&bytes, nodes)
            .map_err(|(line, why)| Failure::Use(format!("{}, line {line}: {why}", files::shown(file))))
    }

    /// The name of the move to a node.
    pub fn of(&self, node: usize) -> Option<&str> {
        self.0.get(node)?.as_deref()
    }

    /// The nodes that have a name, with their names.
    pub fn iter(&self) -> impl Iterator<Item = (usize, &str)> {
        self.0.iter().enumerate().filter_map(|(node, name)| Some((node, name.as_deref()?)))
    }

    /// The names, or the first line that is wrong, counted from 1, and why.
    fn parse(bytes: &[u8], nodes: usize) -> Result<Names, (usize, String)> {
        let bytes = bytes.strip_prefix(b"\xEF\xBB\xBF").unwrap_or(bytes);
        let mut names = vec![None; nodes];
        for (i, line) in bytes.split(|&b| b == b'\n').enumerate() {
            let wrong = |why| (i + 1, why);
            let Some((node, name)) = entry(line).map_err(wrong)? else { continue };
            match names.get_mut(node) {
                None => return Err(wrong(format!("node {node} is not in the tree, whose last node is {}", nodes - 1))),
                Some(Some(other)) => return Err(wrong(format!("node {node} has a name already, {other}"))),
                Some(empty) => *empty = Some(name.to_string()),
            }
        }
        Ok(Names(names))
    }
}

/// The node and the name of a line; `None` for a blank line and for a comment, which starts with #.
fn entry(line: &[u8]) -> Result<Option<(usize, &str)>, String> {
    let line = std::str::from_utf8(line).map_err(|_| "it is not UTF-8")?.trim();
    if line.is_empty() || line.starts_with('#') {
        return Ok(None);
    }
    if line.contains(|c: char| c.is_control() && c != '\t') {
        return Err(format!("it has a control character: \"{}\"", line.escape_debug()));
    }
    let (number, name) = line.split_once(char::is_whitespace).unwrap_or((line, ""));
    match (number.parse(), name.trim()) {
        (Ok(node), name) if !name.is_empty() => Ok(Some((node, name))),
        _ => Err(format!("expected a node number, a blank and a name, found \"{line}\"")),
    }
}
