//! The reports of `analyse`: as the program prints them, as JSON, or as a table.
use crate::arguments::Arguments;
use crate::json::Object;
use crate::{archive, commands, files, hints, Done, Failure};
use archive::{End, How, Made, ACCEPTED};
use buulset::{Refusal, Tree};
use std::ffi::OsStr;
use std::os::unix::ffi::OsStrExt;

/// The heading of the table.
const COLUMNS: &str = "file,value,move,ab,mtd,sss,refused,place,error\n";

pub fn analyse(mut arguments: Arguments) -> Done {
    arguments.exclude("--json", "--csv")?;
    let (names, several) = commands::names(&mut arguments)?;
    let (json, csv) = (arguments.has("--json"), arguments.has("--csv"));
    let how = How {
        named: several && !json && !csv,
        in_place: false,
        summary: several,
        quiet: arguments.has("--quiet"),
        most: files::MOST,
    };
    if csv {
        files::print(COLUMNS.as_bytes())?;
    }
    archive::run(&names, how, |name, file, text| {
        let (answer, made) = match file {
            Err(failure) => (Answer::Failed(why(&failure)), Err(failure)),
            Ok(file) => analysed(name, file),
        };
        match (json, csv) {
            (true, _) => text.extend(answer.object(name).line().bytes()),
            (_, true) => answer.row(name, text),
            _ => text.extend_from_slice(answer.text().as_bytes()),
        }
        made
    })
}

/// What comes of a file.
enum Answer {
    Report(buulset::Text),
    Refused(Refusal, Vec<String>),
    Failed(String),
}

fn analysed(name: &OsStr, file: &[u8]) -> (Answer, Result<Made, Failure>) {
    let report = buulset::report(file);
    if !report.as_bytes().starts_with(b"refused") {
        return (Answer::Report(report), Ok(ACCEPTED));
    }
    // the report of a refused file is its line; the number and the place are asked for again
    let refusal = Tree::from_file(file).expect_err("the report refuses it");
    let said = hints::tree(name, &files::shown(name), file, refusal);
    (Answer::Refused(refusal, said.clone()), Ok(Made { end: End::Refused(refusal.number), said }))
}

fn why(failure: &Failure) -> String {
    match failure {
        Failure::Unreadable(text) => text.clone(),
        _ => String::new(),
    }
}

/// The numbers of a report: value, move and leaves of ab, mtd and sss.
fn numbers(report: &buulset::Text) -> Vec<(&'static str, [i32; 3])> {
    let text = report.to_string();
    let rows = text.lines().skip(1).map(|line| {
        let numbers: Vec<i32> = line.split(' ').skip(1).filter_map(|word| word.parse().ok()).collect();
        [numbers[0], numbers[1], numbers[2]]
    });
    ["ab", "mtd", "sss"].into_iter().zip(rows).collect()
}

impl Answer {
    fn text(&self) -> String {
        match self {
            Answer::Report(report) => report.to_string(),
            Answer::Refused(refusal, _) => buulset::refused(*refusal).to_string(),
            Answer::Failed(_) => String::new(),
        }
    }

    fn object(&self, name: &OsStr) -> Object {
        let object = Object::new().with("file", name);
        match self {
            Answer::Report(report) => {
                numbers(report).into_iter().fold(object, |object, (method, [value, at, leaves])| {
                    object.with(method, Object::new().with("value", value).with("move", at).with("leaves", leaves))
                })
            }
            Answer::Refused(refusal, said) => object.and(hints::object(*refusal, said)),
            Answer::Failed(why) => object.with("error", why.as_str()),
        }
    }

    /// A row of the table; value and move are the same by each method.
    fn row(&self, name: &OsStr, out: &mut Vec<u8>) {
        field(name.as_bytes(), out);
        match self {
            Answer::Report(report) => {
                let rows = numbers(report);
                let ([value, root_move, _], leaves) = (rows[0].1, rows.iter().map(|(_, row)| format!(",{}", row[2])));
                out.extend(format!(",{value},{root_move}{},,,", leaves.collect::<String>()).bytes());
            }
            Answer::Refused(refusal, _) => out.extend(format!(",,,,,,{},{},", refusal.number, refusal.place).bytes()),
            Answer::Failed(why) => {
                out.extend(b",,,,,,,,");
                field(why.as_bytes(), out);
            }
        }
        out.push(b'\n');
    }
}

/// A field of a table, between quotes where it needs them.
fn field(bytes: &[u8], out: &mut Vec<u8>) {
    if !bytes.iter().any(|b| matches!(b, b',' | b'"' | b'\n' | b'\r')) {
        return out.extend_from_slice(bytes);
    }
    out.push(b'"');
    for &byte in bytes {
        out.extend(std::iter::repeat_n(byte, if byte == b'"' { 2 } else { 1 }));
    }
    out.push(b'"');
}
