//! What `buulset --version` says of its origin: the commit and the kit. A release gives both in BUULSET_COMMIT and
//! BUULSET_KIT, so that it does not depend on where it is built; otherwise git and `rt version` are asked.
use std::{env, path::Path, process::Command};

fn main() {
    println!("cargo:rerun-if-env-changed=BUULSET_COMMIT");
    println!("cargo:rerun-if-env-changed=BUULSET_KIT");
    for sources in ["src", "../rust/src"] {
        println!("cargo:rerun-if-changed={sources}");
    }
    // a new commit writes here; a file that is not there would make every build a new one
    if let Some(log) = said("git", &["rev-parse", "--git-path", "logs/HEAD"]).filter(|log| Path::new(log).exists()) {
        println!("cargo:rerun-if-changed={log}");
    }
    let unknown = || "unknown".to_string();
    let commit = env::var("BUULSET_COMMIT").ok().or_else(commit).unwrap_or_else(unknown);
    let kit = env::var("BUULSET_KIT").ok().or_else(|| said("rt", &["version"])).unwrap_or_else(unknown);
    println!("cargo:rustc-env=BUULSET_COMMIT={commit}");
    println!("cargo:rustc-env=BUULSET_KIT={kit}");
}

/// The commit, and whether the files are other than it has them.
fn commit() -> Option<String> {
    let commit = said("git", &["rev-parse", "HEAD"])?;
    let changed = said("git", &["status", "--porcelain", "--untracked-files=no"]).is_some();
    Some(if changed { format!("{commit} with changes") } else { commit })
}

/// The first line that a program prints, where it is there, succeeds and prints one.
fn said(program: &str, arguments: &[&str]) -> Option<String> {
    let output = Command::new(program).args(arguments).output().ok().filter(|output| output.status.success())?;
    let text = String::from_utf8(output.stdout).ok()?;
    text.lines().next().map(|line| line.trim().to_string()).filter(|line| !line.is_empty())
}
