//! The command `buulset`: it reads files and arguments, makes the proved calls, and prints what they give.
#![forbid(unsafe_code)]

mod archive;
mod arguments;
mod bounds;
mod commands;
mod completions;
mod draw;
mod explain;
mod files;
mod grafted;
mod help;
mod hints;
mod json;
mod line;
mod make;
mod manual;
mod names;
mod output;
mod picture;
mod plan;
mod repair;
mod replace;
mod reports;
mod run;
mod selftest;
mod show;
mod stored_cases;
mod table;
mod text;
mod tidy;
mod watch;

use buulset::Refusal;
use std::{env, ffi::OsString, process::ExitCode};

/// Why a command ends without its result.
pub enum Failure {
    /// The library refused: the line for standard output is the refusal's, the rest goes to standard error.
    Refused(Refusal, Vec<String>),
    /// Some of several files were refused or could not be read, which has been said: the exit status.
    Some(u8),
    /// Wrong use of the command, or a certificate file that is none.
    Use(String),
    /// A file that cannot be read.
    Unreadable(String),
    /// What cannot be written.
    Unwritable(String),
    /// Nobody reads the output any more.
    Closed,
}

pub type Done = Result<(), Failure>;

fn main() -> ExitCode {
    let arguments: Vec<OsString> = env::args_os().skip(1).collect();
    let quiet = arguments.iter().take_while(|a| *a != "--").any(|a| a == "-q" || a == "--quiet");
    let done = commands::run(arguments);
    tidy::end();
    let failure = match done {
        Ok(()) => return ExitCode::SUCCESS,
        Err(failure) => failure,
    };
    match failure {
        Failure::Refused(refusal, hint) => {
            if let Err(failure) = files::print(buulset::refused(refusal).as_bytes()) {
                return ended(failure);
            }
            if !quiet {
                hint.iter().for_each(|line| say(line));
            }
            ExitCode::from(1)
        }
        other => ended(other),
    }
}

fn ended(failure: Failure) -> ExitCode {
    match failure {
        Failure::Refused(..) => ExitCode::from(1),
        Failure::Some(status) => ExitCode::from(status),
        Failure::Use(text) | Failure::Unreadable(text) => {
            say(&text);
            ExitCode::from(2)
        }
        Failure::Unwritable(text) => {
            say(&text);
            ExitCode::from(3)
        }
        Failure::Closed => ExitCode::SUCCESS,
    }
}

/// A line on standard error; where that is closed too, nothing is left to say.
pub fn say(text: &str) {
    use std::io::Write;
    writeln!(std::io::stderr(), "buulset: {text}").ok();
}
