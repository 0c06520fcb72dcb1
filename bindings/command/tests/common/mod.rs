//! What the tests of the command share: running it, and folders for their files.
#![allow(dead_code)] // a test needs some of it
use std::fs;
use std::io::Write;
use std::path::{Path, PathBuf};
use std::process::{Command, Stdio};

pub const SEVEN: &str =
    "000102000000\n000302000000\n000502000000\n000000000001\n000000000002\n000000000003\n000000000004\n";

pub struct Ran {
    pub status: i32,
    pub out: String,
    pub err: String,
}

pub fn command(arguments: &[&str]) -> Command {
    let mut command = Command::new(env!("CARGO_BIN_EXE_buulset"));
    command.args(arguments).current_dir(root());
    command
}

/// The repository, where `samples` and `docs` are.
pub fn root() -> PathBuf {
    Path::new(env!("CARGO_MANIFEST_DIR")).join("../..")
}

pub fn with_input(arguments: &[&str], input: &[u8]) -> Ran {
    let mut child = command(arguments)
        .stdin(Stdio::piped())
        .stdout(Stdio::piped())
        .stderr(Stdio::piped())
        .spawn()
        .expect("the command starts");
    // a command that refuses its arguments does not read
    child.stdin.take().unwrap().write_all(input).ok();
    let output = child.wait_with_output().unwrap();
    let text = |bytes| String::from_utf8(bytes).unwrap();
    Ran { status: output.status.code().unwrap(), out: text(output.stdout), err: text(output.stderr) }
}

pub fn run(arguments: &[&str]) -> Ran {
    with_input(arguments, b"")
}

/// What a command prints that gives a result and says nothing.
pub fn prints(arguments: &[&str]) -> String {
    let ran = run(arguments);
    assert_eq!((ran.status, ran.err.as_str()), (0, ""), "{arguments:?}");
    ran.out
}

/// A command that is refused: its line, and a hint that holds each of these words.
pub fn is_refused(ran: &Ran, line: &str, hint: &[&str]) {
    assert_eq!((ran.status, ran.out.as_str()), (1, format!("{line}\n").as_str()), "{}", ran.err);
    for words in hint {
        assert!(ran.err.contains(words), "{words:?} is not in {:?}", ran.err);
    }
}

/// Wrong use: nothing on standard output, and these words on standard error.
pub fn is_wrong_use(arguments: &[&str], words: &str) {
    let ran = run(arguments);
    assert_eq!((ran.status, ran.out.as_str()), (2, ""), "{arguments:?}");
    assert!(ran.err.contains(words), "{words:?} is not in {:?}", ran.err);
}

/// A folder for one test.
pub struct Folder(pub PathBuf);

impl Folder {
    pub fn new(name: &str) -> Folder {
        let path = std::env::temp_dir().join(format!("buulset-{name}-{}", std::process::id()));
        fs::create_dir_all(&path).unwrap();
        Folder(path)
    }

    /// A file in it: its name, as an argument.
    pub fn file(&self, name: &str, bytes: impl AsRef<[u8]>) -> String {
        let path = self.0.join(name);
        fs::write(&path, bytes).unwrap();
        path.to_str().unwrap().into()
    }
}

impl Drop for Folder {
    fn drop(&mut self) {
        fs::remove_dir_all(&self.0).ok();
    }
}
