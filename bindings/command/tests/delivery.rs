//! Where a result goes: `-o`, `--in-place`, `--force`; a file that is there is replaced whole or not at all.
mod common;
use common::*;
use std::fs::{self, Permissions};
use std::os::unix::fs::{symlink, MetadataExt, PermissionsExt};
use std::process::Command;

const CHANGED: &str =
    "000102000000\n000302000000\n000502000000\n000000000001\n00000000FF88\n000000000003\n000000000004\n";

/// The names in a folder, in order.
fn names(folder: &Folder) -> Vec<String> {
    let mut names: Vec<String> =
        fs::read_dir(&folder.0).unwrap().map(|e| e.unwrap().file_name().into_string().unwrap()).collect();
    names.sort();
    names
}

#[test]
fn a_result_goes_to_the_named_file() {
    let folder = Folder::new("output");
    let target = folder.0.join("made").to_str().unwrap().to_string();
    let commands: [&[&str]; 11] = [
        &["make", "(1 2) (3 4)"],
        &["text", "samples/ending.tree"],
        &["watch", "samples/ending.tree"],
        &["set", "samples/seven.tree", "4", "-120"],
        &["graft", "samples/seven.tree", "4", "samples/ending.tree"],
        &["hardest", "samples/ending.tree"],
        &["certify", "sss", "samples/ending.tree"],
        &["shorter", "samples/ending.tree", "samples/ending.certificate", "samples/ending-long.certificate"],
        &["draw", "samples/ending.tree"],
        &["manual"],
        &["completions", "bash"],
    ];
    for command in commands {
        let printed = prints(command);
        for option in [["-o", &target], ["--output", &target]] {
            assert_eq!(prints(&[command, &option].concat()), "", "{command:?}");
            assert_eq!(fs::read_to_string(&target).unwrap(), printed, "{command:?}");
        }
        assert_eq!(prints(&[command, &["-o", "-"]].concat()), printed, "{command:?}");
    }
    assert_eq!(names(&folder), ["made"]);
}

#[test]
fn a_file_is_changed_in_its_place() {
    let folder = Folder::new("in-place");
    let file = folder.file("e.tree", SEVEN);
    assert_eq!(prints(&["set", &file, "4", "-120", "--in-place"]), "");
    assert_eq!(fs::read_to_string(&file).unwrap(), CHANGED);
    let small = folder.file("small.tree", "000102000000\n000000000001\n000000000002\n");
    let grafted = prints(&["graft", &file, "4", &small]);
    assert_eq!(prints(&["graft", &file, "4", &small, "--in-place"]), "");
    assert_eq!(fs::read_to_string(&file).unwrap(), grafted);
    let hardest = prints(&["hardest", &file]);
    assert_eq!(prints(&["hardest", "--in-place", &file]), "");
    assert_eq!(fs::read_to_string(&file).unwrap(), hardest);
    assert_eq!(names(&folder), ["e.tree", "small.tree"]);
}

#[test]
fn a_refusal_leaves_every_file() {
    let folder = Folder::new("refusal");
    let file = folder.file("good.tree", SEVEN);
    is_refused(&run(&["set", "samples/seven.tree", "1", "5", "-o", &file]), "refused 19 1", &[]);
    is_refused(&run(&["set", &file, "1", "5", "--in-place"]), "refused 19 1", &[]);
    is_refused(&run(&["hardest", "samples/refused-8.tree", "-o", &file]), "refused 8 2", &[]);
    is_refused(&run(&["make", "32001 1", "-o", &file]), "refused 7 1", &[]);
    assert_eq!(run(&["make", "(1 2", "-o", &file]).status, 2);
    is_refused(&run(&["watch", &file, "samples/refused-8.tree", "-o", &file]), "refused 8 2", &[]);
    assert_eq!(fs::read_to_string(&file).unwrap(), SEVEN);
    assert_eq!(names(&folder), ["good.tree"]);
}

#[test]
fn wrong_use_of_the_options() {
    let set = ["set", "samples/seven.tree", "4", "5"];
    is_wrong_use(&[&set[..], &["-o", "x", "--in-place"]].concat(), "exclude each other");
    is_wrong_use(&[&set[..], &["--force"]].concat(), "it goes with -o or --in-place");
    is_wrong_use(&["set", "-", "4", "5", "--in-place"], "standard input has no place");
    is_wrong_use(&["hardest", "--in-place"], "FILE is missing");
    is_wrong_use(&[&set[..], &["-o"]].concat(), "-o wants a value");
    is_wrong_use(&["needs", "samples/seven.tree", "5", "4", "-o", "x"], "there is no option -o");
    is_wrong_use(&[&set[..], &["--in-place=yes"]].concat(), "--in-place has no value");
}

#[test]
fn mode_links_owner_and_group_are_kept() {
    let folder = Folder::new("kept");
    let file = folder.file("e.tree", SEVEN);
    let link = folder.0.join("link.tree");
    symlink(&file, &link).unwrap();
    let root = fs::metadata(&file).unwrap().uid() == 0;
    if root {
        std::os::unix::fs::chown(&file, Some(65534), Some(65534)).unwrap();
    }
    fs::set_permissions(&file, Permissions::from_mode(0o4640)).unwrap();
    let before = fs::metadata(&file).unwrap();
    assert_eq!(prints(&["set", link.to_str().unwrap(), "4", "-120", "--in-place"]), "");
    let after = fs::metadata(&file).unwrap();
    assert_eq!((after.mode(), after.uid(), after.gid()), (before.mode(), before.uid(), before.gid()));
    assert_ne!(after.ino(), before.ino());
    assert!(fs::symlink_metadata(&link).unwrap().is_symlink());
    assert_eq!(fs::read_to_string(&file).unwrap(), CHANGED);
}

#[test]
fn guarded_files_are_replaced_by_force_only() {
    let folder = Folder::new("guarded");
    let file = folder.file("e.tree", SEVEN);
    let arguments = ["set", &file, "4", "-120", "--in-place"];
    fs::set_permissions(&file, Permissions::from_mode(0o444)).unwrap();
    cannot_be_written(&arguments, "it is read-only; --force replaces it all the same");
    assert_eq!(fs::read_to_string(&file).unwrap(), SEVEN);
    assert_eq!(prints(&[&arguments[..], &["--force"]].concat()), "");
    assert_eq!(fs::metadata(&file).unwrap().mode() & 0o777, 0o444);
    fs::set_permissions(&file, Permissions::from_mode(0o644)).unwrap();
    let other = folder.0.join("other.tree");
    fs::hard_link(&file, &other).unwrap();
    cannot_be_written(&["set", &file, "4", "2", "-o", &file], "it has 1 other name (hard links)");
    assert_eq!(prints(&["set", &file, "4", "2", "-o", &file, "--force"]), "");
    assert_eq!(
        (fs::read_to_string(&file).unwrap(), fs::read_to_string(&other).unwrap()),
        (SEVEN.into(), CHANGED.into())
    );
    assert_eq!(names(&folder), ["e.tree", "other.tree"]);
}

/// A command whose output cannot be written: status 3, nothing on standard output, and why.
fn cannot_be_written(arguments: &[&str], why: &str) {
    let ran = run(arguments);
    assert_eq!((ran.status, ran.out.as_str()), (3, ""), "{arguments:?}");
    assert!(ran.err.contains(why), "{why:?} is not in {:?}", ran.err);
}

#[test]
fn targets_that_are_no_files() {
    let folder = Folder::new("targets");
    let path = |name: &str| folder.0.join(name).to_str().unwrap().to_string();
    let fails = |target: &str, why| {
        cannot_be_written(&["set", "samples/seven.tree", "4", "5", "-o", target], why);
    };
    fails(folder.0.to_str().unwrap(), "it is a directory");
    fails(&path("no/such"), "there is no such folder");
    fails("", "it is no name of a file");
    symlink(path("nothing"), path("dangling")).unwrap();
    fails(&path("dangling"), "a link to a file that is not there");
    if fs::metadata("/dev/full").is_ok() {
        fails("/dev/full", "No space left");
    }
    assert_eq!(prints(&["set", "samples/seven.tree", "4", "5", "-o", "/dev/null"]), "");
    assert_eq!(names(&folder), ["dangling"]);
}

/// What somebody sees who may not write here: the command as another user, where this one is root.
#[test]
fn without_permission() {
    let folder = Folder::new("permission");
    fs::copy(env!("CARGO_BIN_EXE_buulset"), folder.0.join("buulset")).unwrap();
    let file = folder.file("e.tree", SEVEN);
    let as_nobody = |arguments: &[&str]| {
        let mut other = Command::new("setpriv");
        other.args(["--reuid=65534", "--regid=65534", "--clear-groups"]).arg(folder.0.join("buulset")).args(arguments);
        other.output().ok().map(|ran| (ran.status.code(), String::from_utf8(ran.stderr).unwrap()))
    };
    if fs::metadata(&file).unwrap().uid() != 0 || !as_nobody(&["-V"]).is_some_and(|(status, _)| status == Some(0)) {
        println!("left out: the command cannot be run as another user");
        return;
    }
    let fails = |arguments: &[&str], why: &str| {
        let (status, said) = as_nobody(arguments).unwrap();
        assert!(status == Some(3) && said.contains(why), "{arguments:?}: {said}");
    };
    let set = ["set", &file, "4", "-120"];
    fails(&[&set[..], &["--in-place"]].concat(), "it is read-only");
    fails(&[&set[..], &["--in-place", "--force"]].concat(), "no permission to write a file there");
    fails(&[&set[..], &["-o", folder.0.join("new").to_str().unwrap()]].concat(), "no permission to write a file there");
    // the owner is not to be had: the rights that it lent are dropped
    fs::set_permissions(&folder.0, Permissions::from_mode(0o777)).unwrap();
    fs::set_permissions(&file, Permissions::from_mode(0o4646)).unwrap();
    assert_eq!(as_nobody(&[&set[..], &["--in-place"]].concat()).unwrap().0, Some(0));
    let after = fs::metadata(&file).unwrap();
    assert_eq!((after.mode() & 0o7777, after.uid()), (0o646, 65534));
    assert_eq!(fs::read_to_string(&file).unwrap(), CHANGED);
    assert_eq!(names(&folder), ["buulset", "e.tree"]);
}
