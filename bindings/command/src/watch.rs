//! The command `watch`: one page of HTML that plays runs on a tree, with everything it needs in it.
use crate::arguments::Arguments;
use crate::commands::{known, once, searched, tree};
use crate::json::{Object, Value};
use crate::{files, names::Names, plan::Plan, run::Run, Done, Failure};
use buulset::Tree;
use std::ffi::OsStr;

/// The page, with places for its title, its style, its data and its script.
const PAGE: &str = include_str!("page/page.html");
const STYLE: &str = include_str!("page/page.css");
const SCRIPT: [&str; 4] = [
    include_str!("page/bounds.js"),
    include_str!("page/runs.js"),
    include_str!("page/drawing.js"),
    include_str!("page/playing.js"),
];

pub fn run(mut arguments: Arguments) -> Done {
    let methods = methods(&arguments)?;
    let mut files = arguments.rest();
    let moves = arguments.option("--names").map(OsStr::to_os_string);
    if files.is_empty() {
        files.push(arguments.last_file()?);
    }
    if files.len() > 1 && moves.is_some() {
        return Err(arguments.wrong("--names is for one FILE"));
    }
    once(&arguments, files.iter().chain(&moves).filter(|n| *n == "-").count())?;
    let mut trees = Vec::new();
    for file in &files {
        let (tree, shown) = (tree(file)?, files::base(file));
        let names = Names::read(moves.as_deref(), tree.nodes())?;
        let plan = Plan::new(&tree);
        let runs: Result<Vec<Run>, Failure> =
            methods.iter().map(|m| Ok(Run::new(&tree, &plan, m, searched(&arguments, m.as_ref(), &tree)?))).collect();
        trees.push(data(&tree, &plan, &shown, &names, runs?));
    }
    let title = match files.as_slice() {
        [file] => files::base(file),
        files => format!("{} trees", files.len()),
    };
    files::deliver(&arguments, None, page(&title, &in_html(&Value::from(trees))).as_bytes())
}

/// The methods to compare, separated by commas; one that a digit follows belongs to a number.
fn methods(arguments: &Arguments) -> Result<Vec<String>, Failure> {
    let given = arguments.option("--methods").map_or("ab,mtd,sss".into(), |list| list.to_string_lossy().into_owned());
    let mut methods: Vec<String> = Vec::new();
    for part in given.split(',') {
        match methods.last_mut() {
            Some(method) if part.starts_with(|c: char| c.is_ascii_digit()) => *method += &format!(",{part}"),
            _ => methods.push(part.into()),
        }
    }
    for method in &methods {
        known(arguments, method.as_ref())?;
    }
    // the page reads the number of mtdf:N, too
    let methods: Vec<String> = methods.iter().map(|method| method.replace(',', "")).collect();
    match (1..methods.len()).find(|&i| methods[..i].contains(&methods[i])) {
        Some(i) => Err(arguments.wrong(format!("{} is named twice", methods[i]))),
        None => Ok(methods),
    }
}

/// A tree and its runs, as the page's script reads them.
fn data(tree: &Tree, plan: &Plan, file: &str, names: &Names, runs: Vec<Run>) -> Object {
    let nodes = 0..tree.nodes();
    let of_run = |run: Run| {
        Object::new()
            .with("method", run.method)
            .with("title", run.title)
            .with("order", run.order)
            .with("flags", run.flags.iter().map(u8::to_string).collect::<String>())
    };
    let moves = names.iter().fold(Object::new(), |object, (node, name)| object.with(node.to_string(), name));
    Object::new()
        .with("file", file)
        .with("count", nodes.clone().map(|k| tree.children(k).len()).collect::<Vec<_>>())
        .with("again", nodes.filter(|&k| tree.second_capture(k)).collect::<Vec<_>>())
        .with("worth", plan.worth.clone())
        .with("names", moves)
        .with("runs", runs.into_iter().map(of_run).collect::<Vec<_>>())
}

/// JSON that may stand in a page: `</script>` would end the data.
fn in_html(data: &Value) -> String {
    data.text().replace('<', "\\u003c")
}

/// The template with its places filled, each once and in their order: what is filled in is not looked at again.
fn page(title: &str, data: &str) -> String {
    let title = title.replace('&', "&amp;").replace('<', "&lt;");
    let mut page = String::new();
    let mut rest = PAGE;
    for (place, text) in [
        ("{{TITLE}}", title.as_str()),
        ("{{STYLE}}", STYLE.trim_end()),
        ("{{DATA}}", data),
        ("{{SCRIPT}}", SCRIPT.concat().trim_end()),
    ] {
        let (before, after) = rest.split_once(place).expect("the template has the place");
        page.push_str(before);
        page.push_str(text);
        rest = after;
    }
    page + rest
}
