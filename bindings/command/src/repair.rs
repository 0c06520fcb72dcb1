//! A tree file freed of what editors and other systems do to it.
use crate::arguments::Arguments;
use crate::{archive, commands, files, hints, Done};
use archive::{How, Made};
use buulset::Tree;
use std::collections::BTreeSet;
use std::ffi::OsStr;

/// The most bytes of a file that is repaired; a longer one is refused with 2, as it is.
const MOST: usize = 1 << 20;

/// What was changed, in the order in which it is said.
#[derive(Clone, Copy, PartialEq, Eq, PartialOrd, Ord)]
pub enum Damage {
    ByteOrderMark,
    WindowsLineEnds,
    MacLineEnds,
    Blanks,
    BlankEndLines,
    SmallLetters,
    MissingLineFeed,
}

impl Damage {
    pub fn name(self) -> &'static str {
        match self {
            Damage::ByteOrderMark => "a byte order mark",
            Damage::WindowsLineEnds => "Windows line ends",
            Damage::MacLineEnds => "line ends that are a carriage return alone",
            Damage::Blanks => "blanks or tabs",
            Damage::BlankEndLines => "blank lines at the end",
            Damage::SmallLetters => "small letters",
            Damage::MissingLineFeed => "a missing last line feed",
        }
    }
}

/// The file without these damages, and those that it had. Lines keep their numbers.
pub fn repaired(file: &[u8]) -> (Vec<u8>, BTreeSet<Damage>) {
    let mut found = BTreeSet::new();
    let mut rest = file;
    if let Some(after) = file.strip_prefix(b"\xEF\xBB\xBF") {
        found.insert(Damage::ByteOrderMark);
        rest = after;
    }
    let mut made = Vec::with_capacity(rest.len() + 1);
    for (at, &byte) in rest.iter().enumerate() {
        match byte {
            b'\r' if rest.get(at + 1) == Some(&b'\n') => drop(found.insert(Damage::WindowsLineEnds)),
            b'\r' => {
                found.insert(Damage::MacLineEnds);
                made.push(b'\n');
            }
            b' ' | b'\t' => drop(found.insert(Damage::Blanks)),
            b'a'..=b'f' => {
                found.insert(Damage::SmallLetters);
                made.push(byte.to_ascii_uppercase());
            }
            _ => made.push(byte),
        }
    }
    close(&mut made, &mut found);
    (made, found)
}

/// Closes the last line, and takes blank lines at the end away.
fn close(made: &mut Vec<u8>, found: &mut BTreeSet<Damage>) {
    if made.last().is_some_and(|&last| last != b'\n') {
        found.insert(Damage::MissingLineFeed);
        made.push(b'\n');
    }
    while made.ends_with(b"\n\n") || made == b"\n" {
        found.insert(Damage::BlankEndLines);
        made.pop();
    }
}

/// What was found, as a part of a sentence.
pub fn listed(found: &BTreeSet<Damage>) -> String {
    let names: Vec<&str> = found.iter().map(|damage| damage.name()).collect();
    names.join(", ")
}

pub fn run(mut arguments: Arguments) -> Done {
    let (names, several) = commands::names(&mut arguments)?;
    if arguments.has("--output") && several {
        return Err(arguments.wrong("-o takes the result of one FILE"));
    }
    let (in_place, quiet) = (arguments.has("--in-place"), arguments.has("--quiet"));
    let how = How { named: several, in_place, summary: several || in_place, quiet, most: MOST + 1 };
    archive::run(&names, how, |name, file, text| {
        let file = file?;
        let (made, found) = if file.len() > MOST { (file.to_vec(), BTreeSet::new()) } else { repaired(file) };
        if let Err(refusal) = Tree::from_file(&made) {
            return Ok(commands::refused_file(name, &made, refusal, text));
        }
        let said = match found.is_empty() {
            true => Vec::new(),
            false => vec![format!("{}: mended {}", files::shown(name), listed(&found))],
        };
        commands::put(&arguments, name, file, made, text).map(|end| Made { end, said })
    })
}

/// What mends a refused file, where this does: the damages, and the command.
pub fn hint(name: &OsStr, file: &[u8], line: usize) -> Option<String> {
    let (made, mut found) = repaired(file);
    let lines: Vec<&[u8]> = made.split(|&b| b == b'\n').collect();
    let mended = lines.get(line).is_none_or(|l| l.is_empty() && line + 1 >= lines.len() || hints::is_line(l));
    found.remove(&Damage::MissingLineFeed);
    if !mended || found.is_empty() {
        return None;
    }
    let command =
        format!("`buulset repair {}{}`", files::for_a_shell(name), if name == "-" { "" } else { " --in-place" });
    Some(match Tree::from_file(&made) {
        Ok(_) => format!("{}: {command} mends it", listed(&found)),
        Err(still) => format!("{}: {command} would mend this, but the file would then be {still}", listed(&found)),
    })
}
