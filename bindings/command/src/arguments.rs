//! The words after a command: files and numbers by their place, and options.
use crate::table::{Choice, Command};
use crate::{help, table, Failure};
use std::ffi::{OsStr, OsString};
use std::fmt::Display;
use std::io::{self, IsTerminal};
use std::os::unix::ffi::{OsStrExt, OsStringExt};
use std::str::FromStr;

pub struct Arguments {
    command: &'static Command,
    words: std::vec::IntoIter<OsString>,
    options: Vec<(&'static str, Option<OsString>)>,
}

impl Arguments {
    /// Takes the words apart by the options of the command. An option that has a value finds it in the next word or
    /// after `=`. A word that is `-`, or a negative number, or comes after `--`, is no option.
    pub fn new(command: &'static Command, words: Vec<OsString>) -> Result<Arguments, Failure> {
        let (mut plain, mut options) = (Vec::new(), Vec::new());
        let mut rest = words.into_iter();
        while let Some(word) = rest.next() {
            let bytes = word.as_bytes();
            if bytes == b"--" {
                plain.extend(rest.by_ref());
            } else if bytes.len() < 2 || bytes[0] != b'-' || bytes[1].is_ascii_digit() {
                plain.push(word);
            } else {
                let (name, value) = option(command, &word, &mut rest)?;
                if value.is_some() && options.iter().any(|(other, _)| *other == name) {
                    return Err(wrong(command, format!("{name} is given twice")));
                }
                options.push((name, value));
            }
        }
        let arguments = Arguments { command, words: plain.into_iter(), options };
        arguments.check_output()?;
        Ok(arguments)
    }

    /// Where the result goes is said once, and `--force` only of a file.
    fn check_output(&self) -> Result<(), Failure> {
        let (output, in_place) = (self.has("--output"), self.has("--in-place"));
        self.exclude("--output", "--in-place")?;
        if self.has("--force") && !output && !in_place && !self.has("--map") {
            return Err(self.wrong("--force is about a file that is replaced: it goes with -o or --in-place"));
        }
        if in_place && self.words.as_slice().first().is_some_and(|word| word == "-") {
            return Err(self.wrong("standard input has no place to be changed in"));
        }
        Ok(())
    }

    /// Two options that cannot be had together.
    pub fn exclude(&self, one: &str, other: &str) -> Result<(), Failure> {
        match self.has(one) && self.has(other) {
            true => Err(self.wrong(format!("{one} and {other} exclude each other"))),
            false => Ok(()),
        }
    }

    pub fn wrong(&self, text: impl Display) -> Failure {
        wrong(self.command, text)
    }

    pub fn has(&self, name: &str) -> bool {
        self.options.iter().any(|(n, _)| *n == name)
    }

    /// The value of an option.
    pub fn option(&self, name: &str) -> Option<&OsStr> {
        self.options.iter().find(|(n, _)| *n == name).and_then(|(_, value)| value.as_deref())
    }

    /// The next word, which is called `what`.
    pub fn word(&mut self, what: &str) -> Result<OsString, Failure> {
        self.words.next().ok_or_else(|| self.wrong(format!("{what} is missing")))
    }

    /// The next word as the last file; where there is none, standard input, if it is a pipe or a file.
    pub fn last_file(&mut self) -> Result<OsString, Failure> {
        self.last("FILE")
    }

    /// The same where the file is called `what`.
    pub fn last(&mut self, what: &str) -> Result<OsString, Failure> {
        if self.words.len() == 0 && self.takes_input() {
            return Ok("-".into());
        }
        let name = self.word(what)?;
        self.end()?;
        Ok(name)
    }

    /// May standard input stand for a file that is not named?
    pub fn takes_input(&self) -> bool {
        !self.has("--in-place") && !io::stdin().is_terminal()
    }

    /// The next word as a number.
    pub fn number<T: FromStr>(&mut self, what: &str) -> Result<T, Failure> {
        let word = self.word(what)?;
        self.parsed(what, &word)
    }

    /// The value of an option as a number.
    pub fn optional<T: FromStr>(&self, name: &str) -> Result<Option<T>, Failure> {
        self.option(name).map(|value| self.parsed(name, value)).transpose()
    }

    fn parsed<T: FromStr>(&self, what: &str, word: &OsStr) -> Result<T, Failure> {
        let text = word.to_string_lossy();
        number(&text).ok_or_else(|| self.wrong(format!("{what} is no number that fits: {text}")))
    }

    pub fn is_empty(&self) -> bool {
        self.words.len() == 0
    }

    /// All words that are left.
    pub fn rest(&mut self) -> Vec<OsString> {
        self.words.by_ref().collect()
    }

    /// No word is left.
    pub fn end(&mut self) -> Result<(), Failure> {
        match self.words.next() {
            None => Ok(()),
            Some(word) => Err(self.wrong(format!("{} is one word too many", word.to_string_lossy()))),
        }
    }
}

/// The option that a word names, with its value.
fn option(
    command: &'static Command,
    word: &OsStr,
    rest: &mut impl Iterator<Item = OsString>,
) -> Result<(&'static str, Option<OsString>), Failure> {
    let bytes = word.as_bytes();
    let equals = bytes.iter().position(|&b| b == b'=');
    let name = String::from_utf8_lossy(&bytes[..equals.unwrap_or(bytes.len())]).into_owned();
    let after = equals.map(|at| OsString::from_vec(bytes[at + 1..].to_vec()));
    let Some(choice) = command.choices().find(|c| c.name == name || c.short == Some(&name)) else {
        let names: Vec<&str> = command.choices().map(|c: &Choice| c.name).collect();
        let meant = match (table::command(name.trim_start_matches('-')), nearest(&name, &names)) {
            (Some(other), _) => format!(": `buulset {}` is a command of its own", other.name),
            (None, near) => near.map_or(String::new(), |near| format!(": did you mean {near}?")),
        };
        return Err(wrong(command, format!("there is no option {}{meant}", word.to_string_lossy())));
    };
    match (choice.value, after) {
        (None, None) => Ok((choice.name, None)),
        (None, Some(_)) => Err(wrong(command, format!("{name} has no value"))),
        (Some(_), Some(value)) => Ok((choice.name, Some(value))),
        (Some(_), None) => match rest.next() {
            Some(value) => Ok((choice.name, Some(value))),
            None => Err(wrong(command, format!("{name} wants a value"))),
        },
    }
}

/// A number in base ten; thousands may be set off by commas, all of them: 32,000.
pub fn number<T: FromStr>(text: &str) -> Option<T> {
    let digits = text.trim_start_matches(['-', '+']);
    if digits.len() + 1 < text.len() || !digits.starts_with(|c: char| c.is_ascii_digit()) {
        return None;
    }
    let groups: Vec<&str> = digits.split(',').collect();
    let grouped = groups.len() == 1
        || (groups[0].len() <= 3 && !digits.starts_with('0') && groups[1..].iter().all(|group| group.len() == 3));
    if !grouped {
        return None;
    }
    text.replace(',', "").parse().ok()
}

/// The one of these names that a mistyped one is nearest to, if it is near.
pub fn nearest<'a>(typed: &str, names: &[&'a str]) -> Option<&'a str> {
    let most = if typed.trim_start_matches('-').len() > 4 { 2 } else { 1 };
    names.iter().map(|name| (distance(typed, name), *name)).filter(|(d, _)| *d <= most).min().map(|(_, name)| name)
}

/// How many letters must be changed, added, left out or swapped with the next to get from one word to another.
fn distance(a: &str, b: &str) -> usize {
    let (a, b): (Vec<char>, Vec<char>) = (a.chars().collect(), b.chars().collect());
    let mut rows = vec![(0..=b.len()).collect::<Vec<usize>>()];
    for i in 1..=a.len() {
        let mut row = vec![i];
        for j in 1..=b.len() {
            let changed = rows[i - 1][j - 1] + usize::from(a[i - 1] != b[j - 1]);
            let mut least = changed.min(rows[i - 1][j] + 1).min(row[j - 1] + 1);
            if i > 1 && j > 1 && a[i - 1] == b[j - 2] && a[i - 2] == b[j - 1] {
                least = least.min(rows[i - 2][j - 2] + 1);
            }
            row.push(least);
        }
        rows.push(row);
    }
    rows[a.len()][b.len()]
}

fn wrong(command: &Command, text: impl Display) -> Failure {
    Failure::Use(format!("{text}\n{}\n`buulset {} --help` says more", help::usage(command), command.name))
}
