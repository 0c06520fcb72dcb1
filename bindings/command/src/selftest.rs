//! `buulset selftest`: the stored cases of 01 and 02 through the linked library, each with its expected result.
use crate::{arguments::Arguments, files, say, stored_cases, Done, Failure};

const EXPECTED: [&str; 2] =
    [include_str!("../../../crates/cases/stdout"), include_str!("../../../checks/cases/stdout")];

pub fn run(mut arguments: Arguments) -> Done {
    arguments.end()?;
    let wrong = differences(&stored_cases::results(), &expected());
    if !arguments.has("--quiet") {
        wrong.iter().for_each(|text| say(text));
    }
    let (all, failed) = (expected().len() + 1, wrong.len());
    files::print(format!("{} passed, {failed} failed\n", all.saturating_sub(failed)).as_bytes())?;
    match failed {
        0 => Ok(()),
        _ => Err(Failure::Some(1)),
    }
}

/// Each case that is expected: its title, and what it must give. Titles begin with the name of a call that is no call
/// of the library.
fn expected() -> Vec<(String, String)> {
    let cases = EXPECTED.iter().flat_map(|text| text.strip_prefix("# ").unwrap_or(text).split("\n# "));
    let reached = cases.filter(|text| !text.starts_with(stored_cases::STATES));
    let case = |text: &str| text.split_once('\n').map(|(title, given)| (title.into(), given.trim_end().into()));
    reached.filter_map(case).collect()
}

/// A line for each case that is missing or gives something else, and for a library of another version.
fn differences(given: &[(String, String)], wanted: &[(String, String)]) -> Vec<String> {
    let mut wrong = Vec::new();
    if buulset::version() != buulset::VERSION {
        wrong.push(format!("the library's version is {}, not {}", buulset::version(), buulset::VERSION));
    }
    for (at, (title, want)) in wanted.iter().enumerate() {
        match given.get(at) {
            Some((name, got)) if name == title && got.trim_end() == want => {}
            Some((name, got)) if name == title => wrong.push(difference(title, got, want)),
            _ => wrong.push(format!("{title}: it was not run")),
        }
    }
    wrong
}

/// The first line of a case that differs.
fn difference(title: &str, got: &str, want: &str) -> String {
    let at = got.lines().zip(want.lines()).position(|(a, b)| a != b);
    let at = at.unwrap_or(got.lines().count().min(want.lines().count()));
    let line = |text: &str| text.lines().nth(at).unwrap_or("nothing").to_string();
    format!("{title}: it gives {}, and should give {}", line(got), line(want))
}

#[cfg(test)]
mod tests {
    use super::*;

    #[test]
    fn every_case_is_expected_once_and_passes() {
        let (given, wanted) = (stored_cases::results(), expected());
        assert_eq!(given.len(), wanted.len());
        assert!(wanted.len() > 300, "{}", wanted.len());
        assert_eq!(differences(&given, &wanted), [""; 0]);
    }

    #[test]
    fn a_wrong_result_is_named() {
        let mut given = stored_cases::results();
        given[0].1 = given[0].1.replace("15 687", "15 688");
        let last = given.pop().unwrap().0;
        let said = differences(&given, &expected());
        assert_eq!(said[0], "4096 frames: it gives ab 3405 15 688, and should give ab 3405 15 687");
        assert_eq!(said[1..], [format!("{last}: it was not run")]);
    }
}
