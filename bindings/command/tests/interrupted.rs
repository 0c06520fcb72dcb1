//! A run that is interrupted or fails at any step leaves the old file or the new one, and nothing else.
mod common;
use common::*;
use std::collections::BTreeMap;
use std::fs;
use std::os::unix::process::CommandExt;
use std::path::Path;
use std::process::{Command, Stdio};
use std::thread::sleep;
use std::time::Duration;

const CHANGED: &str =
    "000102000000\n000302000000\n000502000000\n000000000001\n00000000FF88\n000000000003\n000000000004\n";

/// The names in a folder, once the run's second process has ended: it removes what is left.
fn names_after(folder: &Path, expected: usize) -> Vec<String> {
    let mut names = Vec::new();
    for _ in 0..500 {
        names = fs::read_dir(folder).unwrap().map(|e| e.unwrap().file_name().into_string().unwrap()).collect();
        if names.len() == expected {
            break;
        }
        sleep(Duration::from_millis(10));
    }
    names
}

/// A run of `set --in-place` under strace with these arguments.
fn traced(file: &str, arguments: &[&str]) -> Option<i32> {
    let mut strace = Command::new("strace");
    strace.arg("-qq").args(arguments).arg(env!("CARGO_BIN_EXE_buulset")).args(["set", file, "4", "-120", "--in-place"]);
    let status = strace.stdin(Stdio::null()).stdout(Stdio::null()).stderr(Stdio::null()).status().ok()?;
    Some(status.code().unwrap_or(-1))
}

/// How often the run makes each call of the system; nothing where strace cannot be used.
fn calls(folder: &Folder) -> BTreeMap<String, usize> {
    let (file, log) =
        (folder.file("e.tree", SEVEN), std::env::temp_dir().join(format!("calls-{}", std::process::id())));
    let mut calls = BTreeMap::new();
    if traced(&file, &["-o", log.to_str().unwrap()]) == Some(0) {
        for line in fs::read_to_string(&log).unwrap().lines() {
            let name: String = line.chars().take_while(|c| c.is_ascii_alphanumeric() || *c == '_').collect();
            *calls.entry(name).or_insert(0) += 1;
        }
        fs::remove_file(&log).ok();
    }
    calls.remove("");
    calls
}

#[test]
fn at_every_call_of_the_system() {
    let folder = Folder::new("calls");
    let calls = calls(&folder);
    if !["openat", "write", "fsync", "rename"].iter().all(|name| calls.contains_key(*name)) {
        println!("left out: strace cannot be used here");
        return;
    }
    let (mut runs, mut kept) = (0, 0);
    for (name, &count) in calls.iter().filter(|(name, _)| !name.starts_with("exec") && *name != "exit_group") {
        for k in 1..=count {
            for what in ["signal=KILL", "signal=TERM", "signal=INT", "error=ENOSPC"] {
                // a program cannot start without its memory
                if what.starts_with("error") && !FAILING.contains(&name.as_str()) {
                    continue;
                }
                let file = folder.file("e.tree", SEVEN);
                traced(&file, &["-o", "/dev/null", "-e", &format!("inject={name}:{what}:when={k}")]);
                assert_eq!(names_after(&folder.0, 1), ["e.tree"], "{name} {k} {what}");
                let now = fs::read_to_string(&file).unwrap();
                assert!(now == SEVEN || now == CHANGED, "{name} {k} {what}: {now}");
                (runs, kept) = (runs + 1, kept + usize::from(now == SEVEN));
            }
        }
    }
    assert!(kept > 0 && kept < runs, "{runs} interrupted runs, {kept} with the old file");
}

/// The calls about files: each of them fails once, too.
const FAILING: [&str; 7] = ["openat", "write", "fchown", "fchmod", "fsync", "rename", "pipe2"];

#[test]
fn an_archive_is_interrupted() {
    let folder = Folder::new("interrupted");
    let small = SEVEN.replace('\n', "\r\n");
    for (round, signal) in ["TERM", "INT", "KILL", "HUP", "TERM", "INT"].iter().enumerate() {
        let names: Vec<String> = (0..400).map(|k| folder.file(&format!("{k}.tree"), &small)).collect();
        let mut child = command(&["repair", "--in-place"])
            .args(&names)
            .process_group(0)
            .stdout(Stdio::null())
            .stderr(Stdio::null())
            .spawn()
            .unwrap();
        sleep(Duration::from_millis(3 + 4 * round as u64));
        // as a terminal does it: to every process of the group
        Command::new("kill").args([&format!("-{signal}"), "--", &format!("-{}", child.id())]).status().unwrap();
        child.wait().unwrap();
        assert_eq!(names_after(&folder.0, names.len()).len(), names.len(), "{signal}");
        for name in &names {
            let now = fs::read_to_string(name).unwrap();
            assert!(now == small || now == SEVEN, "{signal}: {name}");
        }
    }
}

/// A shell script with the command as `$0` and a file as `$1`.
fn script(text: &str, file: &str) -> Option<i32> {
    let mut shell = Command::new("sh");
    shell.args(["-c", text, env!("CARGO_BIN_EXE_buulset"), file]);
    shell.stdin(Stdio::null()).stdout(Stdio::null()).stderr(Stdio::null()).status().ok()?.code()
}

#[test]
fn on_a_full_disk() {
    let folder = Folder::new("full");
    let file = folder.file("e.tree", SEVEN);
    // a file may not grow: the first write ends the run
    script("ulimit -f 0; \"$0\" set \"$1\" 4 -120 --in-place", &file);
    assert_eq!(names_after(&folder.0, 1), ["e.tree"]);
    assert_eq!(fs::read_to_string(&file).unwrap(), SEVEN);
    // a small file system that is full, where one may be mounted
    let mounted = "d=${1%/*}/disk; mkdir \"$d\"; cp \"$1\" \"$d/e.tree\" || exit 9
        exec unshare -m sh -c '
            f=$2/e.tree; cp \"$f\" \"$2.copy\" || exit 9
            mount -t tmpfs -o size=8k none \"$2\" && cp \"$2.copy\" \"$f\" || exit 9
            cat /dev/zero >\"$2/rest\" 2>/dev/null
            \"$1\" set \"$f\" 4 -120 --in-place; [ $? = 3 ] || exit 1
            cmp -s \"$f\" \"$2.copy\" || exit 2
            [ \"$(ls -A \"$2\" | tr \"\\n\" \" \")\" = \"e.tree rest \" ] || exit 3
        ' sh \"$0\" \"$d\"";
    match script(mounted, &file) {
        Some(0) => {}
        Some(9) | None => println!("left out: no file system may be mounted here"),
        Some(status) => panic!("the full disk: {status}"),
    }
}
