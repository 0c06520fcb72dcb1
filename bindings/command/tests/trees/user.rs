//! The command as a user runs it, beside what all tests share.
pub use crate::common::{prints, root, Folder, Ran};
use std::fs;

pub fn with_input(arguments: &[&str], input: impl AsRef<[u8]>) -> Ran {
    crate::common::with_input(arguments, input.as_ref())
}

/// What a command prints that is given this input, gives a result and says nothing.
pub fn gives(arguments: &[&str], input: impl AsRef<[u8]>) -> String {
    let ran = with_input(arguments, input);
    assert_eq!((ran.status, ran.err.as_str()), (0, ""), "{arguments:?}");
    ran.out
}

/// A command that is refused: its line, and the words on standard error.
pub fn is_refused(ran: &Ran, line: &str, words: &str) {
    crate::common::is_refused(ran, line, &[words]);
}

/// Wrong use: nothing on standard output, and these words on standard error.
pub fn is_wrong_use(ran: &Ran, words: &str) {
    assert_eq!((ran.status, ran.out.as_str()), (2, ""), "{}", ran.err);
    assert!(ran.err.contains(words), "{words:?} is not in {:?}", ran.err);
}

/// The samples that are accepted.
pub fn accepted_samples() -> Vec<String> {
    let mut names: Vec<String> = fs::read_dir(root().join("samples"))
        .unwrap()
        .map(|entry| entry.unwrap().path())
        .filter(|path| path.extension().is_some_and(|e| e == "tree"))
        .filter(|path| fs::read_to_string(path.with_extension("expected")).unwrap().starts_with("method"))
        .map(|path| path.to_str().unwrap().into())
        .collect();
    names.sort();
    assert!(names.len() >= 4);
    names
}
