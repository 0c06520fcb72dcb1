//! The commands, one a row of the table in docs/COMMAND.md.
use crate::archive::{self, End, How, Made};
use crate::arguments::{nearest, number, Arguments};
use crate::json::Object;
use crate::{files, grafted, help, hints, plan::Plan, table, tidy, Done, Failure};
use buulset::{Refusal, Search, Stopped, Tree, MAX_FILE};
use std::ffi::{OsStr, OsString};
use std::fs;
use std::os::unix::ffi::{OsStrExt, OsStringExt};
use std::path::Path;

pub fn run(words: Vec<OsString>) -> Done {
    let mut words = words.into_iter().peekable();
    let mut before = Vec::new();
    while let Some(quiet) = words.next_if(|word| is_quiet(word)) {
        before.push(quiet);
    }
    let Some(name) = words.next() else {
        return Err(Failure::Use(help::all().trim_end().into()));
    };
    let (name, words): (_, Vec<OsString>) =
        (name.to_string_lossy().into_owned(), before.into_iter().chain(words).collect());
    let asked = words.iter().take_while(|word| *word != "--").find(|word| is_help(word) || is_version(word));
    match (table::command(&name), asked) {
        (Some(command), None) => (command.run)(Arguments::new(command, words)?),
        (_, None) if name == tidy::WORD => tidy::run(),
        (_, None) if name == "help" => {
            information(&words.iter().find(|word| !is_quiet(word)).map_or(name.into(), |word| word.to_string_lossy()))
        }
        (_, Some(word)) if is_version(word) => information("--version"),
        _ => information(&name),
    }
}

fn is_quiet(word: &OsStr) -> bool {
    word == table::QUIET.name || Some(word) == table::QUIET.short.map(OsStr::new)
}

fn is_help(word: &OsStr) -> bool {
    word == "--help" || word == "-h"
}

fn is_version(word: &OsStr) -> bool {
    word == "--version" || word == "-V"
}

/// The help of a command, or of all; the version.
fn information(what: &str) -> Done {
    if is_version(what.as_ref()) {
        return files::print(help::version().as_bytes());
    }
    if what == "help" || is_help(what.as_ref()) {
        return files::print(help::all().as_bytes());
    }
    match table::command(what) {
        Some(command) => files::print(help::of(command).as_bytes()),
        None => Err(no_command(what)),
    }
}

fn no_command(what: &str) -> Failure {
    let names: Vec<&str> = table::COMMANDS.iter().map(|command| command.name).collect();
    Failure::Use(match nearest(what, &names) {
        Some(near) => format!("there is no command {what}: did you mean {near}?\n`buulset --help` lists all commands"),
        None => format!("there is no command {what}\n{}", help::all().trim_end()),
    })
}

/// The tree of a file, or its refusal with a hint.
pub fn tree(name: &OsStr) -> Result<Tree, Failure> {
    named_tree(name, &files::shown(name))
}

/// The same with other words for the file.
pub fn named_tree(name: &OsStr, shown: &str) -> Result<Tree, Failure> {
    let file = files::tree(name)?;
    Tree::from_file(&file).map_err(|refusal| Failure::Refused(refusal, hints::tree(name, shown, &file, refusal)))
}

/// The refusal of a call; `what` says what was asked.
pub fn refused(what: String) -> impl FnOnce(Refusal) -> Failure {
    move |refusal| Failure::Refused(refusal, hints::other(&what, refusal))
}

/// Names of files, by their places or from a list; and are there several?
pub fn names(arguments: &mut Arguments) -> Result<(Vec<OsString>, bool), Failure> {
    let mut names = arguments.rest();
    let list = arguments.option("--from").map(OsStr::to_os_string);
    let several = list.is_some() || names.len() > 1;
    if let Some(list) = &list {
        names.extend(listed(&files::whole(list)?, arguments)?);
    } else if names.is_empty() {
        names.push(arguments.last_file()?);
    }
    let inputs = names.iter().chain(&list).filter(|name| *name == "-").count();
    once(arguments, inputs)?;
    if arguments.has("--in-place") && names.iter().any(|name| name == "-") {
        return Err(arguments.wrong("standard input has no place to be changed in"));
    }
    Ok((names, several))
}

/// The names of a list, one a line, which may come from Windows.
fn listed(list: &[u8], arguments: &Arguments) -> Result<Vec<OsString>, Failure> {
    if list.contains(&0) {
        return Err(arguments.wrong("the list has a zero byte: is it stored as UTF-16? Save it as plain text"));
    }
    let list = list.strip_prefix(b"\xEF\xBB\xBF").unwrap_or(list);
    let names = list.split(|&b| b == b'\n').map(|line| match line.strip_suffix(b"\r") {
        // a name may end with a carriage return, but hardly any does
        Some(short) if !Path::new(OsStr::from_bytes(line)).exists() => short,
        _ => line,
    });
    Ok(names.filter(|name| !name.is_empty()).map(|name| OsString::from_vec(name.to_vec())).collect())
}

/// Standard input can be read once.
pub fn once(arguments: &Arguments, inputs: usize) -> Done {
    match inputs {
        0 | 1 => Ok(()),
        _ => Err(arguments.wrong("standard input, -, is named more than once")),
    }
}

pub fn capitals(mut arguments: Arguments) -> Done {
    let (names, several) = names(&mut arguments)?;
    let (in_place, quiet) = (arguments.has("--in-place"), arguments.has("--quiet"));
    let how = How { named: several, in_place, summary: several || in_place, quiet, most: files::MOST };
    archive::run(&names, how, |name, file, text| {
        let file = file?;
        let mut converted = vec![0; MAX_FILE];
        match buulset::convert(file, &mut converted) {
            Err(refusal) => Ok(refused_file(name, file, refusal, text)),
            Ok(length) => {
                converted.truncate(length);
                put(&arguments, name, file, converted, text).map(|end| Made { end, said: Vec::new() })
            }
        }
    })
}

/// The refusal of one of many files: its line is printed, and the hint said.
pub fn refused_file(name: &OsStr, file: &[u8], refusal: Refusal, text: &mut Vec<u8>) -> Made {
    text.extend_from_slice(buulset::refused(refusal).as_bytes());
    Made { end: End::Refused(refusal.number), said: hints::tree(name, &files::shown(name), file, refusal) }
}

/// Puts what was made of one of many files in its place, into the file of `-o`, or among what is printed. In place, a
/// file that is as it should be is not written again.
pub fn put(
    arguments: &Arguments,
    name: &OsStr,
    file: &[u8],
    made: Vec<u8>,
    text: &mut Vec<u8>,
) -> Result<End, Failure> {
    let in_place = arguments.has("--in-place");
    if in_place && made == file {
        return Ok(End::Accepted);
    }
    if !in_place && !arguments.has("--output") {
        text.extend(made);
        return Ok(End::Accepted);
    }
    files::deliver(arguments, Some(name), &made)?;
    Ok(if in_place { End::Changed } else { End::Accepted })
}

/// A search by the name of its method.
pub fn searched(arguments: &Arguments, method: &OsStr, tree: &Tree) -> Result<Search, Failure> {
    Ok(match method.to_str() {
        Some("ab") => tree.alphabeta(),
        Some("mtd") => tree.mtd(),
        Some("sss") => tree.sss(),
        Some("plain") => tree.plain(),
        _ => tree.mtdf(start(method).ok_or_else(|| no_method(arguments, method))?),
    })
}

/// The starting value of mtdf:N.
fn start(method: &OsStr) -> Option<i32> {
    number(method.to_str()?.strip_prefix("mtdf:")?)
}

fn no_method(arguments: &Arguments, method: &OsStr) -> Failure {
    arguments.wrong(format!("METHOD is ab, mtd, mtdf:N, sss or plain, not {}", method.to_string_lossy()))
}

/// Is there such a method?
pub fn known(arguments: &Arguments, method: &OsStr) -> Done {
    match ["ab", "mtd", "sss", "plain"].iter().any(|m| method == *m) || start(method).is_some() {
        true => Ok(()),
        false => Err(no_method(arguments, method)),
    }
}

/// METHOD and FILE.
pub fn method_and_file(arguments: &mut Arguments) -> Result<(OsString, OsString), Failure> {
    let method = arguments.word("METHOD")?;
    known(arguments, &method)?;
    Ok((method, arguments.last_file()?))
}

/// Prints a result: as its text or, with `--json`, as an object that begins with what was asked. So a refusal, too.
pub fn answer(arguments: &Arguments, asked: Object, result: Result<(String, Object), Failure>) -> Done {
    if !arguments.has("--json") {
        return files::print(result?.0.as_bytes());
    }
    let (object, hints, status) = match result {
        Ok((_, found)) => return files::print(asked.and(found).line().as_bytes()),
        Err(Failure::Refused(refusal, hints)) => (asked.and(hints::object(refusal, &hints)), hints, 1),
        Err(Failure::Unreadable(text)) => (asked.with("error", text.as_str()), vec![text], 2),
        Err(other) => return Err(other),
    };
    files::print(object.line().as_bytes())?;
    if status > 1 || !arguments.has("--quiet") {
        hints.iter().for_each(|line| crate::say(line));
    }
    Err(Failure::Some(status))
}

pub fn search(mut arguments: Arguments) -> Done {
    arguments.exclude("--json", "--heading")?;
    let allowance: Option<usize> = arguments.optional("--leaves")?;
    let (method, name) = method_and_file(&mut arguments)?;
    if allowance.is_some() && method != "sss" {
        return Err(arguments.wrong("--leaves is an allowance of sss"));
    }
    let asked = Object::new().with("file", &*name).with("method", &*method);
    let found = tree(&name).and_then(|tree| match allowance.map(|n| tree.sss_within(n)) {
        None => Ok(found_line(&method, &tree, &searched(&arguments, &method, &tree)?)),
        Some(Ok(search)) => Ok(found_line(&method, &tree, &search)),
        Some(Err(stopped)) => Ok(spent_line(&stopped)),
    });
    let with_heading = found.map(|(heading, line, object)| match arguments.has("--heading") {
        true => (format!("{heading}\n{line}\n"), object),
        false => (format!("{line}\n"), object),
    });
    answer(&arguments, asked, with_heading)
}

/// A heading, the line of a search, and its object.
fn found_line(method: &OsStr, tree: &Tree, search: &Search) -> (String, String, Object) {
    let (found, name) = (search.found, method.to_string_lossy());
    let root_move = found.root_move.unwrap_or(0);
    let (mut heading, mut line) = (String::from("method value move"), format!("{name} {} {root_move}", found.value));
    let mut object = Object::new().with("value", found.value).with("move", root_move).with("line", tree.line().nodes);
    if method != "plain" {
        (heading, line) = (heading + " leaves", format!("{line} {}", found.leaves));
        object = object.with("leaves", found.leaves);
    }
    let steps = match method.to_str() {
        Some("mtd") => "passes",
        Some("sss") => "replacements",
        Some("ab" | "plain") => return (heading, line, object),
        _ => "tests",
    };
    (format!("{heading} {steps}"), format!("{line} {}", found.steps), object.with(steps, found.steps))
}

/// The same of a run that its allowance stopped.
fn spent_line(stopped: &Stopped) -> (String, String, Object) {
    let s = stopped.spent;
    let object = Object::new().with("spent", true).with("merit", s.merit).with("leaves", s.leaves);
    let line = format!("spent {} {} {}", s.merit, s.leaves, s.replacements);
    ("answer merit leaves replacements".into(), line, object.with("replacements", s.replacements))
}

pub fn order(mut arguments: Arguments) -> Done {
    let (method, name) = method_and_file(&mut arguments)?;
    if method == "plain" {
        return Err(arguments.wrong("the plain engine keeps no order: it evaluates every leaf"));
    }
    let asked = Object::new().with("file", &*name).with("method", &*method);
    let found = tree(&name).and_then(|tree| {
        let (plan, order) = (Plan::new(&tree), searched(&arguments, &method, &tree)?.order);
        let leaves: Vec<(usize, i32)> = order.iter().map(|&k| (k.into(), plan.worth[usize::from(k)])).collect();
        let lines = leaves.iter().map(|(node, worth)| format!("{node} {worth}\n")).collect();
        let list: Vec<Object> =
            leaves.iter().map(|&(node, worth)| Object::new().with("node", node).with("worth", worth)).collect();
        Ok((lines, Object::new().with("order", list)))
    });
    answer(&arguments, asked, found)
}

pub fn certify(mut arguments: Arguments) -> Done {
    let (method, name) = method_and_file(&mut arguments)?;
    let tree = tree(&name)?;
    deliver_certificate(&arguments, &searched(&arguments, &method, &tree)?.certificate)
}

fn deliver_certificate(arguments: &Arguments, flags: &[u8]) -> Done {
    let mut text: Vec<u8> = flags.iter().map(|flag| b'0' + flag).collect();
    text.push(b'\n');
    files::deliver(arguments, None, &text)
}

/// The flags of a certificate file: one line of digits, which are lent as they are.
pub fn certificate(name: &OsStr) -> Result<Vec<u8>, Failure> {
    // flags past the nodes are not asked, and no tree has more than 4,096
    const MOST: usize = 1 << 16;
    let mut text = vec![0; MOST];
    let length = files::read(name, &mut text)?;
    text.truncate(length);
    if text.last() == Some(&b'\n') {
        text.pop();
    }
    match text.iter().position(|b| !b.is_ascii_digit()) {
        None => Ok(text.iter().map(|digit| digit - b'0').collect()),
        Some(at) => {
            let why = match text[at] {
                b'\r' => "Windows line ends".into(),
                b'\n' => "a second line".into(),
                byte => format!("\"{}\" at character {}", byte.escape_ascii(), at + 1),
            };
            let name = files::shown(name);
            Err(Failure::Use(format!("{name} is no certificate, which is one line of digits: {why}")))
        }
    }
}

pub fn verify(mut arguments: Arguments) -> Done {
    let (name, proof) = (arguments.word("FILE")?, arguments.word("CERTIFICATE")?);
    arguments.end()?;
    once(&arguments, [&name, &proof].iter().filter(|n| *n == &"-").count())?;
    let asked = Object::new().with("file", &*name).with("certificate", &*proof);
    let value = tree(&name).and_then(|tree| {
        let flags = certificate(&proof)?;
        tree.verify(&flags).map_err(refused_certificate(&tree, &flags, files::shown(&proof)))
    });
    answer(&arguments, asked, value.map(|value| (format!("{value}\n"), Object::new().with("value", value))))
}

/// The refusal of a certificate; `what` stands for it in a sentence.
pub fn refused_certificate(tree: &Tree, flags: &[u8], what: String) -> impl FnOnce(Refusal) -> Failure {
    let (digits, nodes) = (flags.len(), tree.nodes());
    move |refusal| {
        let mut lines = hints::other(&what, refusal);
        if digits != nodes {
            let cut = if digits < nodes { ", or was cut off" } else { "" };
            lines.insert(1, format!("it has {digits} digits, and the tree {nodes} nodes: it is of another tree{cut}"));
        }
        Failure::Refused(refusal, lines)
    }
}

pub fn shorter(mut arguments: Arguments) -> Done {
    let (name, a, b) = (arguments.word("FILE")?, arguments.word("A")?, arguments.word("B")?);
    arguments.end()?;
    once(&arguments, [&name, &a, &b].iter().filter(|n| *n == &"-").count())?;
    let (tree, first, second) = (tree(&name)?, certificate(&a)?, certificate(&b)?);
    let chosen = tree.shorter(&first, &second).map_err(refused_certificate(
        &tree,
        &first,
        format!("neither certificate is accepted; {}", files::shown(&a)),
    ))?;
    deliver_certificate(&arguments, chosen)
}

pub fn graft(mut arguments: Arguments) -> Done {
    let one = arguments.word("FILE")?;
    let node: usize = arguments.number("NODE")?;
    let two = arguments.word("the second FILE")?;
    arguments.end()?;
    once(&arguments, [&one, &two].iter().filter(|n| *n == &"-").count())?;
    check_map(&arguments, &[&one, &two])?;
    let shown = |which: &str, name: &OsStr| format!("the {which} tree, {}", files::shown(name));
    let first = named_tree(&one, &shown("first", &one))?;
    let second = named_tree(&two, &shown("second", &two))?;
    let result = first.graft(node, &second).map_err(|refusal| {
        let what = match refusal.number {
            17 => format!("node {node} of {}", shown("first", &one)),
            _ => format!("the result of {} on {}", files::shown(&two), files::shown(&one)),
        };
        refused(what)(refusal)
    })?;
    if let Some(map) = arguments.option("--map") {
        files::write(map, grafted::map(&first, node, &second).as_bytes(), arguments.has("--force"))?;
    }
    files::deliver(&arguments, Some(&one), &result.to_file())
}

/// The map of a graft has a file of its own.
fn check_map(arguments: &Arguments, trees: &[&OsStr]) -> Done {
    let Some(map) = arguments.option("--map") else { return Ok(()) };
    let path = |name: &OsStr| fs::canonicalize(name).ok();
    if map == "-" && !arguments.has("--output") && !arguments.has("--in-place") {
        return Err(arguments.wrong("the map and the tree would both go to standard output"));
    }
    if Some(map) == arguments.option("--output") {
        return Err(arguments.wrong("the map and the tree would both go to one file"));
    }
    if path(map).is_some_and(|map| trees.iter().any(|tree| path(tree).as_ref() == Some(&map))) {
        return Err(arguments.wrong("the map would take the place of a tree"));
    }
    Ok(())
}

/// FILE, LEAF and VALUE.
fn file_leaf_and_value(arguments: &mut Arguments) -> Result<(OsString, usize, i32), Failure> {
    let name = arguments.word("FILE")?;
    let (leaf, value) = (arguments.number("LEAF")?, arguments.number("VALUE")?);
    arguments.end()?;
    Ok((name, leaf, value))
}

pub fn set(mut arguments: Arguments) -> Done {
    let (name, leaf, value) = file_leaf_and_value(&mut arguments)?;
    let asked = format!("node {leaf} with the value {value}");
    let changed = tree(&name)?.with_value(leaf, value).map_err(refused(asked))?;
    files::deliver(&arguments, Some(&name), &changed.to_file())
}

pub fn needs(mut arguments: Arguments) -> Done {
    let (name, leaf, wanted) = file_leaf_and_value(&mut arguments)?;
    let asked = format!("node {leaf} for the root value {wanted}");
    let object = Object::new().with("file", &*name).with("leaf", leaf).with("wanted", wanted);
    let value = tree(&name).and_then(|tree| tree.least_value(leaf, wanted).map_err(refused(asked)));
    answer(&arguments, object, value.map(|value| (format!("{value}\n"), Object::new().with("value", value))))
}

pub fn hardest(mut arguments: Arguments) -> Done {
    let name = arguments.last_file()?;
    files::deliver(&arguments, Some(&name), &tree(&name)?.filled().0.to_file())
}

pub fn least(mut arguments: Arguments) -> Done {
    let (width, depth): (usize, usize) = (arguments.number("WIDTH")?, arguments.number("DEPTH")?);
    arguments.end()?;
    let asked = Object::new().with("width", width).with("depth", depth);
    let count = buulset::least_leaves(width, depth).map_err(refused(format!("width {width} and depth {depth}")));
    let capped = count.as_ref().is_ok_and(|&count| count == u16::MAX);
    let object = |count: u16| Object::new().with("leaves", usize::from(count)).with("capped", capped);
    answer(&arguments, asked, count.map(|count| (format!("{count}\n"), object(count))))?;
    if capped && !arguments.has("--quiet") && !arguments.has("--json") {
        crate::say("65535 stands for that or more");
    }
    Ok(())
}
