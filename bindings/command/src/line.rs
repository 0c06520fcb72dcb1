//! `buulset line`: the principal variation, for people and for scripts.
use crate::arguments::Arguments;
use crate::json::Object;
use crate::names::Names;
use crate::{commands, Done, Failure};
use buulset::Line;
use std::ffi::{OsStr, OsString};

pub fn run(mut arguments: Arguments) -> Done {
    let file = arguments.last_file()?;
    let names = arguments.option("--names").map(OsStr::to_os_string);
    commands::once(&arguments, [Some(&file), names.as_ref()].iter().filter(|n| **n == Some(&"-".into())).count())?;
    commands::answer(&arguments, Object::new().with("file", &*file), found(&file, names.as_deref()))
}

/// A move: the node that it leads to, and its name.
type Move = (usize, Option<String>);

/// The line as text and as an object.
fn found(file: &OsString, names: Option<&OsStr>) -> Result<(String, Object), Failure> {
    let tree = commands::tree(file)?;
    let (line, of) = (tree.line(), Names::read(names, tree.nodes())?);
    let mut object = Object::new().with("value", line.value).with("line", line.nodes.clone());
    let mut text = lines(&line);
    if names.is_some() {
        let moves: Vec<Move> = line.nodes[1..].iter().map(|&node| (node, of.of(node).map(String::from))).collect();
        text += &format!("moves{}\n", moves.iter().map(named).collect::<String>());
        object = object.with("moves", moves.into_iter().map(|(_, name)| name).collect::<Vec<_>>());
    }
    Ok((text, object))
}

fn lines(line: &Line) -> String {
    let nodes: String = line.nodes.iter().map(|node| format!(" {node}")).collect();
    format!("value {}\nline{nodes}\n", line.value)
}

fn named((node, name): &Move) -> String {
    name.as_ref().map_or(format!(" ({node})"), |name| format!(" {name}"))
}
