//! The stored cases of 01 and 02, made through the linked library: those of the program `cases`, but for its list of
//! states, which is lent as structs, and those of `checks/cases`. What this module prints for them is what is stored:
//! `checks/README.md` has the form of both.
use buulset::{Found, Printed, Refusal, Spent, Within};
use buulset::{FRAME_SIZE, LINE_SIZE, MAX_CHILDREN, MAX_DEPTH, MAX_FILE, MAX_NODES};
use std::fmt::Display;

const INPUTS: [&[u8]; 2] =
    [include_bytes!("../../../crates/cases/stdin"), include_bytes!("../../../checks/cases/stdin")];
/// The call of the program that is no call of the library.
pub const STATES: &str = "states";

/// A table with one frame more than a tree may have.
const TABLE_SIZE: usize = FRAME_SIZE * (MAX_NODES + 1);
/// What lent buffers are filled with, and lent lists: no call writes either.
const FILLED: u8 = 170;
const UNLISTED: u16 = 43690;
/// How many entries the list for a best line has.
const LINE_ENTRIES: usize = 32;

/// Each case by its title, with what it gives: first the two that the program makes, then those of the inputs.
pub fn results() -> Vec<(String, String)> {
    let too_large = [b'0'; MAX_FILE + LINE_SIZE];
    let mut results = vec![
        ("4096 frames".into(), report(&regular_file(15, 273))),
        ("as many bytes as 4097 frames".into(), report(&too_large)),
    ];
    results.extend(INPUTS.iter().flat_map(|input| input.split(|&byte| byte == b'#').skip(1)).filter_map(stored));
    results
}

/// A tree that is made so takes the place of the first leaf of another.
fn made_graft(width: usize, inner: usize) -> String {
    let (first, second) = (table(&regular_file(16, 128)), table(&regular_file(width, inner)));
    line("graft", buulset::graft(&first, 128, &second, &mut [FILLED; TABLE_SIZE]))
}

/// The file of a tree whose first nodes have `width` children each; a leaf's value is its number.
fn regular_file(width: usize, inner: usize) -> Vec<u8> {
    let line = |node: usize| match node < inner {
        true => format!("{:04X}{width:02X}000000\n", 1 + width * node),
        false => format!("00000000{node:04X}\n"),
    };
    (0..=width * inner).map(line).collect::<String>().into_bytes()
}

/// A case of the input: its title, the bytes of a file, and a line with a call, without which it is the report; nothing
/// where the library has no such call.
fn stored(case: &[u8]) -> Option<(String, String)> {
    let title = case.iter().position(|&byte| byte == b'\n').unwrap_or(case.len());
    let rest = &case[(title + 1).min(case.len())..];
    let call = rest.iter().position(|&byte| byte == b'@').unwrap_or(rest.len());
    let words = String::from_utf8_lossy(&rest[call..]);
    let mut words = words.trim_start_matches('@').split_whitespace();
    let name = words.next().unwrap_or("report");
    let numbers: Vec<usize> = words.map_while(|word| word.parse().ok()).collect();
    let title = String::from_utf8_lossy(&case[..title]).trim().into();
    (name != STATES).then(|| (title, called(name, &rest[..call], &numbers)))
}

fn called(name: &str, file: &[u8], numbers: &[usize]) -> String {
    match (name, numbers) {
        ("report", []) => report(file),
        ("flags", flags) => verdict(&table(file), &as_flags(flags)),
        ("pair", [first, flags @ ..]) => choice(&table(file), &as_flags(flags), *first),
        ("buffers", &[marks, flags, entries]) => searches(&table(file), marks, flags, entries),
        ("allowance", &[allowance, marks, flags, entries]) => {
            search(Method::Sss(allowance), &table(file), marks, flags, entries)
        }
        ("start", &[plus, minus, marks, flags, entries]) => {
            search(Method::Mtdf(difference(plus, minus)), &table(file), marks, flags, entries)
        }
        ("table", &[size]) => reading(file, size),
        ("write", &[room, size]) => writing(&longer(file, size), room),
        ("output", &[room]) => output(file, room),
        ("graft", &[end, node]) => {
            let (one, two) = file.split_at(end.min(file.len()));
            line("graft", buulset::graft(&table(one), node, &table(two), &mut [FILLED; TABLE_SIZE]))
        }
        ("graft", &[lines, node, room, first, second]) => {
            let (one, two) = file.split_at((LINE_SIZE * lines).min(file.len()));
            graft(&longer(one, first), node, &longer(two, second), room)
        }
        ("least_value", &[size, node, plus, minus]) => {
            line("least_value", buulset::least_value(&longer(file, size), node, difference(plus, minus)))
        }
        ("fill", &[size]) => filling(longer(file, size)),
        ("regular", &[width, depth]) => line("least", buulset::least_leaves(width, depth)),
        ("check", &[size]) => {
            let table = longer(file, size);
            line("check", buulset::check(&table)) + &verdict(&table, b"") + &searches(&table, 0, 0, 0)
        }
        ("line", &[at]) => one_line(file, at),
        ("best", []) => best_line(&table(file)),
        ("made", &[width, inner]) => report(&regular_file(width, inner)),
        ("made_graft", &[width, inner]) => made_graft(width, inner),
        ("least_counts", []) => (1..=MAX_CHILDREN).map(least_counts).collect(),
        ("long_output", &[room]) => output(&[b'0'; MAX_FILE + 1], room),
        ("kids", &[node]) => row("children", buulset::children(&table(file), node)),
        _ => format!("no call {name} with {} numbers\n", numbers.len()),
    }
}

/// A word and what a call gives, or its refusal, as a line.
fn line(word: &str, answer: Result<impl Display, Refusal>) -> String {
    match answer {
        Ok(given) => format!("{word} {given}\n"),
        Err(refusal) => format!("{word} {refusal}\n"),
    }
}

/// A word and numbers, as a line.
fn row<T: Display>(word: &str, numbers: &[T]) -> String {
    numbers.iter().fold(word.to_string(), |text, number| format!("{text} {number}")) + "\n"
}

fn as_flags(numbers: &[usize]) -> Vec<u8> {
    numbers.iter().map(|number| (number % 256) as u8).collect()
}

fn difference(plus: usize, minus: usize) -> i32 {
    plus as i32 - minus as i32
}

/// The table of a file; empty where the file is refused.
fn table(file: &[u8]) -> Vec<u8> {
    let mut table = vec![0; TABLE_SIZE];
    let nodes = buulset::read(file, &mut table).unwrap_or(0);
    table.truncate(FRAME_SIZE * nodes);
    table
}

/// So many bytes of the table of a file: zeros follow its frames.
fn longer(file: &[u8], size: usize) -> Vec<u8> {
    let mut table = table(file);
    table.resize(size, 0);
    table
}

fn report(file: &[u8]) -> String {
    buulset::report(file).to_string()
}

fn least_counts(width: usize) -> String {
    let counts: Vec<u16> = (0..=MAX_DEPTH).map(|depth| buulset::least_leaves(width, depth).unwrap_or(0)).collect();
    row("least", &counts)
}

fn verdict(table: &[u8], flags: &[u8]) -> String {
    line("verify", buulset::verify(table, flags))
}

/// The choice between two certificates; the first has so many of the flags.
fn choice(table: &[u8], flags: &[u8], count: usize) -> String {
    let (first, second) = flags.split_at(count.min(flags.len()));
    match buulset::shorter(table, first, second) {
        Err(refusal) => format!("shorter {refusal}\nflags\n"),
        Ok(chosen) => {
            let which = if chosen.as_ptr() == first.as_ptr() { "first" } else { "second" };
            format!("shorter {which}\n") + &row("flags", chosen)
        }
    }
}

fn reading(file: &[u8], size: usize) -> String {
    let mut table = vec![FILLED; size];
    line("read", buulset::read(file, &mut table)) + &row("table", &table)
}

/// The writer with so much room; what was written is read back.
fn writing(table: &[u8], room: usize) -> String {
    let mut file = vec![FILLED; room];
    let written = buulset::write(table, &mut file);
    let said = line("write", written) + &row("file", &file);
    match written {
        Ok(length) => said + &reading(&file[..length], table.len()),
        Err(_) => said,
    }
}

fn output(file: &[u8], room: usize) -> String {
    let mut text = vec![FILLED; room];
    let printed = match buulset::capitals(file, &mut text) {
        Ok(Printed::File(length)) => length.to_string(),
        Ok(Printed::Line(refusal, length)) => format!("{length} {refusal}"),
        Err(_) => "no room".to_string(),
    };
    format!("output {printed}\n") + &row("text", &text)
}

/// A graft with so much room, and the report of the result's file.
fn graft(first: &[u8], node: usize, second: &[u8], room: usize) -> String {
    let mut result = vec![FILLED; room];
    let grafted = buulset::graft(first, node, second, &mut result);
    let said = line("graft", grafted) + &row("result", &result);
    let Ok(nodes) = grafted else { return said };
    let mut file = vec![0; LINE_SIZE * nodes];
    match buulset::write(&result[..FRAME_SIZE * nodes], &mut file) {
        Ok(_) => said + &report(&file),
        Err(refusal) => format!("{said}{refusal}\n"),
    }
}

/// The best line in a filled list, and what that holds then.
fn best_line(table: &[u8]) -> String {
    let mut line_of = [UNLISTED; LINE_ENTRIES];
    let found = buulset::line(table, &mut line_of);
    let found = found.map(|f| format!("{} {} {}", f.value, f.root_move.unwrap_or(0), f.length));
    line("best", found) + &row("line", &line_of)
}

/// The worst-case filling, and what alpha-beta finds in it.
fn filling(mut table: Vec<u8>) -> String {
    let said = line("fill", buulset::fill(&mut table)) + &row("table", &table);
    let (mut marks, mut flags, mut order) = ([0; MAX_NODES], [0; MAX_NODES], [0; MAX_NODES]);
    said + &answer(Method::AlphaBeta, &table, &mut marks, &mut flags, &mut order)
}

fn one_line(file: &[u8], at: usize) -> String {
    match buulset::read_line(file, at) {
        Some((frame, next)) => row("line", &frame).replace('\n', &format!(" {next}\n")),
        None => format!("no line {at}\n"),
    }
}

#[derive(Clone, Copy)]
enum Method {
    AlphaBeta,
    Mtd,
    Mtdf(i32),
    Sss(usize),
    Plain,
}

/// The three searches, and the plain engine, which fills no list.
fn searches(table: &[u8], marks: usize, flags: usize, entries: usize) -> String {
    let listed = [Method::AlphaBeta, Method::Mtd, Method::Sss(MAX_NODES)];
    let listed: String = listed.iter().map(|&method| search(method, table, marks, flags, entries)).collect();
    listed + &search(Method::Plain, table, marks, flags, 0)
}

/// A search with filled buffers and a filled list of these lengths: its answer, what it leaves, and the verdict on its
/// certificate.
fn search(method: Method, table: &[u8], marks: usize, flags: usize, entries: usize) -> String {
    let (mut evaluated, mut certificate) = (vec![FILLED; marks], vec![FILLED; flags]);
    let mut order = vec![UNLISTED; entries];
    let answer = answer(method, table, &mut evaluated, &mut certificate, &mut order);
    let left = row("evaluated", &evaluated) + &row("certificate", &certificate) + &row("order", &order);
    answer + &left + &verdict(table, &certificate)
}

/// The call of a search, and its answer as a line.
fn answer(method: Method, table: &[u8], marks: &mut [u8], flags: &mut [u8], order: &mut [u16]) -> String {
    let found = |f: Found| format!("{} {} {} {}", f.value, f.root_move.unwrap_or(0), f.leaves, f.steps);
    let spent = |s: Spent| format!("spent {} {} {}", s.merit, s.leaves, s.replacements);
    match method {
        Method::AlphaBeta => line("ab", buulset::alphabeta(table, marks, flags, order).map(found)),
        Method::Mtd => line("mtd", buulset::mtd(table, marks, flags, order).map(found)),
        Method::Mtdf(start) => line("mtdf", buulset::mtdf(table, start, marks, flags, order).map(found)),
        Method::Sss(allowance) => {
            let within = buulset::sss(table, marks, flags, order, allowance);
            line(
                "sss",
                within.map(|within| match within {
                    Within::Found(f) => found(f),
                    Within::Spent(stopped) => spent(stopped),
                }),
            )
        }
        Method::Plain => {
            let found = buulset::plain(table, marks, flags);
            line("plain", found.map(|f| format!("{} {}", f.value, f.root_move.unwrap_or(0))))
        }
    }
}
