//! What `--help` prints.
use crate::table::{Choice, Command, COMMANDS, QUIET};

/// The columns of a line of help.
const WIDTH: usize = 100;

/// What a paragraph begins with whose lines are not broken anew.
pub const AS_IT_IS: &str = "  ";

pub const STATUSES: [(&str, &str); 4] = [
    ("0", "a result"),
    ("1", "refused, or a self-test that failed"),
    ("2", "wrong use or a file that cannot be read"),
    ("3", "output that cannot be written"),
];

/// The list of all commands.
pub fn all() -> String {
    let call = |c: &Command| format!("{} {}", c.name, c.words);
    let column = COMMANDS.iter().map(|c| call(c).len()).max().unwrap_or(0);
    let list: String = COMMANDS.iter().map(|c| format!("  {:column$}   {}\n", call(c), c.does)).collect();
    let statuses: Vec<String> = STATUSES.iter().map(|(number, meaning)| format!("{number} {meaning}")).collect();
    format!(
        "usage: buulset COMMAND ARGUMENT..\n\n{list}\n\
         METHOD is ab, mtd, mtdf:N (MTD(f) from the value N), sss or plain. FILE is a tree file; - is standard input.\n\
         `buulset COMMAND --help` has options and examples; {}, {}: {}.\n\
         {}\n",
        QUIET.short.unwrap_or_default(),
        QUIET.name,
        QUIET.says.split(';').next().unwrap_or_default(),
        wrapped(0, &format!("Exit status: {}.", statuses.join(", ")))
    )
}

/// The versions, and of what sources and with which kit it was built (build.rs).
/// The versions, and of what sources and with which kit it was built (build.rs).
pub fn version() -> String {
    let library = buulset::version();
    let parts = (library / 10000, library / 100 % 100, library % 100);
    let versions = format!("{} (library {}.{}.{})", env!("CARGO_PKG_VERSION"), parts.0, parts.1, parts.2);
    format!("buulset {versions}\ncommit {}\nkit {}\n", env!("BUULSET_COMMIT"), env!("BUULSET_KIT"))
}

/// The usage of a command, in as many lines as it takes.
pub fn usage(command: &Command) -> String {
    let options: String = command.choices().map(|choice| format!(" [{}]", choice.usage())).collect();
    let start = format!("usage: buulset {}", command.name);
    // an option and its value stay on one line
    let words = format!("{}{}", command.words, options.replace(' ', "\0").replace("\0[", " ["));
    hanging(&start, start.len() + 1, words.trim_start()).replace('\0', " ")
}

/// The help of a command.
pub fn of(command: &Command) -> String {
    let about: String = command.about.split("\n\n").map(|paragraph| paragraph_of(paragraph) + "\n\n").collect();
    let column = 4 + command.choices().map(|choice| named(choice).len()).max().unwrap_or(0);
    let options: String =
        command.choices().map(|choice| hanging(&format!("  {}", named(choice)), column, choice.says) + "\n").collect();
    let examples: String = command.examples.iter().map(|example| format!("  {example}\n")).collect();
    format!("{}\n\n{about}{options}\n{examples}", usage(command))
}

/// A paragraph in lines; one that begins with two blanks stands as it is.
fn paragraph_of(text: &str) -> String {
    match text.starts_with(AS_IT_IS) {
        true => text.into(),
        false => wrapped(0, text),
    }
}

/// An option with its short name and its value.
fn named(choice: &Choice) -> String {
    let short = choice.short.map_or("    ".into(), |short| format!("{short}, "));
    format!("{short}{}{}", choice.name, choice.value.map_or(String::new(), |value| format!(" {value}")))
}

/// A text after a start, its lines beginning at a column.
fn hanging(start: &str, column: usize, text: &str) -> String {
    format!("{start:column$}{}", wrapped(column, text))
}

/// A text in lines that begin at a column; the first has its place already.
fn wrapped(column: usize, text: &str) -> String {
    let (mut lines, mut length) = (String::new(), column);
    for word in text.split([' ', '\n']) {
        if length + word.len() > WIDTH && length > column {
            lines += &format!("\n{:column$}", "");
            length = column;
        } else if length > column {
            lines.push(' ');
        }
        lines += word;
        length += word.len() + 1;
    }
    lines
}
