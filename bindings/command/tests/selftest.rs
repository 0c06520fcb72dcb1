//! What a fitter runs after an installation: the self-test and the version.
use std::process::{Command, Output};
use std::time::{Duration, Instant};

fn run(arguments: &[&str]) -> Output {
    // away from the repository: neither may need a file
    Command::new(env!("CARGO_BIN_EXE_buulset")).args(arguments).current_dir("/").output().expect("the command starts")
}

fn printed(arguments: &[&str]) -> String {
    let output = run(arguments);
    assert!(output.status.success() && output.stderr.is_empty(), "{output:?}");
    String::from_utf8(output.stdout).unwrap()
}

#[test]
fn every_stored_case_passes_in_under_a_second() {
    let start = Instant::now();
    let said = printed(&["selftest"]);
    assert!(start.elapsed() < Duration::from_secs(1));
    let passed = said.strip_suffix(" passed, 0 failed\n").and_then(|number| number.parse::<usize>().ok());
    assert!(passed.is_some_and(|number| number > 300), "{said}");
    assert_eq!(printed(&["selftest", "--quiet"]), said);
}

#[test]
fn it_takes_no_file() {
    let output = run(&["selftest", "samples/seven.tree"]);
    assert_eq!((output.status.code(), output.stdout.len()), (Some(2), 0));
}

#[test]
fn the_version_names_commit_and_kit() {
    let said = printed(&["--version"]);
    let lines: Vec<&str> = said.lines().collect();
    let version = env!("CARGO_PKG_VERSION");
    assert_eq!(lines[0], format!("buulset {version} (library {version})"));
    assert!(lines[1].starts_with("commit ") && lines[2].starts_with("kit ") && lines.len() == 3, "{said}");
}
