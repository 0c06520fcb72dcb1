//! A second process that removes the temporary files of a run that was interrupted.
//!
//! Safe Rust cannot catch a signal. So a run starts this process before it makes its first temporary file, and tells it
//! through a pipe each name that it is about to use and each that it has done with. The process ignores Ctrl-C, hangups
//! and SIGTERM. When the pipe closes, the run has ended, in whatever way, and what is not done with is removed.
use crate::Done;
use std::collections::BTreeSet;
use std::ffi::OsStr;
use std::fs;
use std::io::{self, BufRead, Read, Write};
use std::os::unix::ffi::OsStrExt;
use std::os::unix::process::CommandExt;
use std::path::Path;
use std::process::{self, Child, Command, Stdio};
use std::sync::{Mutex, MutexGuard};

/// The word that starts this process in place of a command.
pub const WORD: &str = "--remove-temporary-files";

/// The process, once it is asked for; it may be that it cannot be started.
static HELPER: Mutex<Option<Option<Child>>> = Mutex::new(None);

/// A temporary file of this name is about to be made.
pub fn announce(path: &Path) {
    let mut helper = helper();
    tell(helper.get_or_insert_with(start), b'+', path);
}

/// The temporary file of this name is renamed or removed.
pub fn done_with(path: &Path) {
    if let Some(child) = helper().as_mut() {
        tell(child, b'-', path);
    }
}

/// The run ends: so does the process.
pub fn end() {
    if let Some(Some(mut child)) = helper().take() {
        drop(child.stdin.take());
        child.wait().ok();
    }
}

fn helper() -> MutexGuard<'static, Option<Option<Child>>> {
    HELPER.lock().unwrap_or_else(|poisoned| poisoned.into_inner())
}

fn tell(child: &mut Option<Child>, sign: u8, path: &Path) {
    if let Some(input) = child.as_mut().and_then(|child| child.stdin.as_mut()) {
        let name = path.as_os_str().as_bytes();
        // where the process is gone, the run goes on without it
        input.write_all(&[&[sign], name, &[0]].concat()).ok();
    }
}

/// Starts the process and waits until it ignores signals: what a shell ignores, its successor ignores.
fn start() -> Option<Child> {
    let mut child = Command::new("/bin/sh")
        .args(["-c", "trap '' HUP INT QUIT TERM; exec \"$0\" \"$1\"", &format!("/proc/{}/exe", process::id()), WORD])
        .process_group(0)
        .stdin(Stdio::piped())
        .stdout(Stdio::piped())
        .stderr(Stdio::null())
        .spawn()
        .ok()?;
    let ready = child.stdout.take()?.read_exact(&mut [0]);
    ready.ok().map(|()| child)
}

/// What the process does.
pub fn run() -> Done {
    // the run waits for this byte; if it has gone, the pipe is closed too
    io::stdout().write_all(b"\n").and_then(|()| io::stdout().flush()).ok();
    let (mut input, mut left) = (io::stdin().lock(), BTreeSet::new());
    let mut message = Vec::new();
    while input.read_until(0, &mut message).is_ok_and(|length| length > 0) {
        // a message that was cut off announces nothing: its file is not made
        if message.pop() == Some(0) && message.first() == Some(&b'+') {
            left.insert(message[1..].to_vec());
        } else if message.first() == Some(&b'-') {
            left.remove(&message[1..]);
        }
        message.clear();
    }
    for name in left {
        fs::remove_file(OsStr::from_bytes(&name)).ok();
    }
    Ok(())
}
