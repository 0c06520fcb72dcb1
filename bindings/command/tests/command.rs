//! The command as its users run it: every command, every exit status, every hint.
mod common;
use common::*;
use std::fs;
use std::path::PathBuf;
use std::process::Stdio;

fn samples() -> Vec<PathBuf> {
    let mut paths: Vec<_> = fs::read_dir(root().join("samples")).unwrap().map(|e| e.unwrap().path()).collect();
    paths.retain(|p| p.extension().is_some_and(|e| e == "tree"));
    paths.sort();
    assert!(paths.len() > 10);
    paths
}

#[test]
fn analyse_is_what_the_program_prints() {
    for path in samples() {
        let expected = fs::read_to_string(path.with_extension("expected")).unwrap();
        let ran = run(&["analyse", path.to_str().unwrap()]);
        assert_eq!(ran.out, expected, "{}", path.display());
        assert_eq!(ran.status, i32::from(expected.starts_with("refused")));
        assert_eq!(ran.err.is_empty(), ran.status == 0, "{}", ran.err);
        let piped = with_input(&["analyse", "-"], &fs::read(&path).unwrap());
        assert_eq!((piped.out, piped.status), (ran.out, ran.status));
    }
}

#[test]
fn analyse_takes_archives() {
    let folder = Folder::new("archive");
    let good = folder.file("good.tree", SEVEN);
    let bad = folder.file("bad.tree", "0001\n");
    let report = "method value move leaves\nab 3 2 4\nmtd 3 2 3\nsss 3 2 3\n";
    let ran = run(&["analyse", &good, &bad, &good]);
    assert_eq!(ran.out, format!("{good}\n{report}{bad}\nrefused 3 0\n{good}\n{report}"));
    assert_eq!(ran.status, 1);
    assert!(ran.err.contains("3 files: 2 accepted, 1 refused (1 with 3)"), "{}", ran.err);
    let ran = run(&["analyse", &good, &good]);
    assert_eq!((ran.status, ran.err.as_str()), (0, "buulset: 2 files: 2 accepted\n"));
    let ran = run(&["analyse", "--quiet", &good, &bad]);
    assert_eq!((ran.status, ran.err.as_str()), (1, ""));
    // a file that is missing among others
    let ran = run(&["analyse", &bad, "no such file", &good]);
    assert_eq!(ran.out, format!("{bad}\nrefused 3 0\n{good}\n{report}"));
    assert_eq!(ran.status, 2);
    assert!(ran.err.contains("no such file: there is no such file"), "{}", ran.err);
    assert!(ran.err.contains("1 not read or not written"), "{}", ran.err);
    // a list of names, and many files in their order
    let names: Vec<String> =
        (0..500).map(|i| folder.file(&format!("{i}.tree"), format!("00000000{i:04X}\n"))).collect();
    let ran = with_input(&["analyse", "--from", "-"], (names.join("\n") + "\n").as_bytes());
    let all: String = names.iter().enumerate().map(|(i, n)| format!("{n}\n{}", leaf_report(i))).collect();
    assert_eq!((ran.status, ran.out), (0, all));
    let list = folder.file("list", &good);
    assert_eq!(run(&["analyse", "--from", &list]).out, format!("{good}\n{report}"));
    is_wrong_use(&["analyse", "-", "-"], "more than once");
    is_wrong_use(&["analyse", "--from"], "--from wants a value");
}

fn leaf_report(value: usize) -> String {
    format!("method value move leaves\nab {value} 0 1\nmtd {value} 0 1\nsss {value} 0 1\n")
}

#[test]
fn search_gives_one_line() {
    let lines = ["ab -20 2 15\n", "mtd -20 2 11 4\n", "sss -20 2 11 25\n", "plain -20 2\n"];
    for (method, line) in ["ab", "mtd", "sss", "plain"].iter().zip(lines) {
        assert_eq!(prints(&["search", method, "samples/ending.tree"]), line);
    }
    assert_eq!(prints(&["search", "sss", "samples/seven.tree", "--leaves", "0"]), "spent 32001 0 2\n");
    assert_eq!(prints(&["search", "sss", "samples/seven.tree", "--leaves", "2"]), "spent 3 2 6\n");
    assert_eq!(prints(&["search", "sss", "samples/seven.tree", "--leaves=3"]), "sss 3 2 3 9\n");
    assert_eq!(prints(&["search", "sss", "--leaves", "4,096", "samples/seven.tree"]), "sss 3 2 3 9\n");
    is_wrong_use(&["search", "ab", "samples/seven.tree", "--leaves", "2"], "--leaves is an allowance of sss");
    is_wrong_use(&["search", "sss", "samples/seven.tree", "--leaves", "-2"], "no number that fits");
    assert_eq!(prints(&["search", "mtdf:3", "samples/seven.tree"]), "mtdf:3 3 2 3 1\n");
    assert_eq!(prints(&["search", "mtdf:-32001", "samples/seven.tree"]), "mtdf:-32001 3 2 4 2\n");
    assert_eq!(prints(&["order", "mtdf:3", "samples/seven.tree"]), prints(&["order", "sss", "samples/seven.tree"]));
    is_wrong_use(&["search", "mtdf:", "samples/seven.tree"], "METHOD is ab, mtd, mtdf:N, sss or plain, not mtdf:");
    is_wrong_use(&["search", "minimax", "samples/seven.tree"], "METHOD is ab, mtd, mtdf:N, sss or plain, not minimax");
    is_wrong_use(&["verify", "samples/seven.tree"], "CERTIFICATE is missing");
    is_refused(&run(&["search", "ab", "samples/refused-7.tree"]), "refused 7 0", &["the leaf holds 32001"]);
}

#[test]
fn order_lists_the_leaves() {
    assert_eq!(prints(&["order", "ab", "samples/seven.tree"]), "3 1\n4 2\n5 3\n6 4\n");
    assert_eq!(prints(&["order", "sss", "samples/seven.tree"]), "3 1\n5 3\n6 4\n");
    for file in ["samples/ending.tree", "samples/captures.tree", "samples/wins.tree"] {
        assert_eq!(prints(&["order", "mtd", file]), prints(&["order", "sss", file]));
    }
    // worths: wins of 31,500 at depths 3, 1 and 2
    assert_eq!(prints(&["order", "sss", "samples/wins.tree"]), "8 31497\n2 31499\n6 31498\n");
    is_wrong_use(&["order", "plain", "samples/seven.tree"], "keeps no order");
}

#[test]
fn certificates_are_made_verified_and_compared() {
    let folder = Folder::new("certificates");
    for path in samples() {
        let tree = path.to_str().unwrap();
        let report = fs::read_to_string(path.with_extension("expected")).unwrap();
        let Some(value) = report.lines().nth(1).and_then(|l| l.split(' ').nth(1)) else { continue };
        for method in ["ab", "mtd", "sss", "plain"] {
            let certificate = prints(&["certify", method, tree]);
            let file = folder.file("certificate", &certificate);
            assert_eq!(prints(&["verify", tree, &file]), format!("{value}\n"));
        }
    }
    assert_eq!(prints(&["certify", "sss", "samples/seven.tree"]), "3131032\n");
    let stored = "samples/ending.certificate";
    assert_eq!(prints(&["certify", "mtd", "samples/ending.tree"]), fs::read_to_string(root().join(stored)).unwrap());
    assert_eq!(prints(&["verify", "samples/ending.tree", stored]), "-20\n");
    // digits past the nodes are not asked, and the line feed may be missing
    let long = folder.file("long", "313103299");
    assert_eq!(prints(&["verify", "samples/seven.tree", &long]), "3\n");
    let of = |text: &str| run(&["verify", "samples/seven.tree", &folder.file("other", text)]);
    is_refused(&of("313103"), "refused 10 0", &["other: question 10: does it have an entry for each node?"]);
    is_refused(&of(""), "refused 10 0", &["buulset explain 10"]);
    is_refused(&of("3931032\n"), "refused 11 1", &["question 11"]);
    is_refused(&of("3031032\n"), "refused 12 0", &["max solution tree"]);
    is_refused(&of("3131030\n"), "refused 13 2", &["min solution tree"]);
    is_refused(&of("3131023\n"), "refused 14 0", &["do both solution trees have the same value?"]);
    for (text, why) in
        [("31310x2\n", "\"x\" at character 6"), ("3131032\r\n", "Windows line ends"), ("3131032\n\n", "a second line")]
    {
        let ran = of(text);
        assert_eq!((ran.status, ran.out.as_str()), (2, ""));
        assert!(ran.err.contains(why), "{}", ran.err);
    }
    is_refused(&run(&["verify", "samples/refused-1.tree", stored]), "refused 1 0", &["the file is empty"]);
}

#[test]
fn the_shorter_certificate_is_printed() {
    let folder = Folder::new("shorter");
    // Max takes the leaf 7, or lets Min choose between 7 and 9: the first way needs a leaf fewer
    let tree = folder.file("tree", "000102000000\n000000000007\n000302000000\n000000000007\n000000000009\n");
    let long = folder.file("long", "31332\n");
    let short = folder.file("short", "33110\n");
    assert_eq!((prints(&["verify", &tree, &long]), prints(&["verify", &tree, &short])), ("7\n".into(), "7\n".into()));
    assert_eq!(prints(&["shorter", &tree, &long, &long]), "31332\n");
    assert_eq!(prints(&["shorter", &tree, &short, &long]), "33110\n");
    assert_eq!(prints(&["shorter", &tree, &long, &short]), "33110\n");
    let of = |name: &str| format!("samples/ending{name}.certificate");
    let chosen = prints(&["shorter", "samples/ending.tree", &of("-long"), &of("")]);
    assert_eq!(chosen, fs::read_to_string(root().join(of(""))).unwrap());
    let bad = folder.file("bad", "9\n");
    let one = folder.file("one", "00000000000A\n");
    let good = folder.file("good", "3\n");
    assert_eq!(prints(&["shorter", &one, &bad, &good]), "3\n");
    assert_eq!(prints(&["shorter", &one, &good, &bad]), "3\n");
    is_refused(&run(&["shorter", &one, &bad, &bad]), "refused 11 0", &["neither certificate is accepted", "bad"]);
    is_wrong_use(&["shorter", &one, "-", "-"], "more than once");
}

#[test]
fn grafts_say_which_file_is_meant() {
    let folder = Folder::new("graft");
    let small = folder.file("small.tree", "000102000000\n000000000001\n000000000002\n");
    let leaf = folder.file("leaf.tree", "000000000005\n");
    assert_eq!(prints(&["graft", &leaf, "0", &small]), fs::read_to_string(&small).unwrap());
    let result = prints(&["graft", "samples/seven.tree", "4", &small]);
    assert_eq!(result.lines().count(), 9);
    assert_eq!(result.lines().nth(4), Some("000702000000"));
    is_refused(&run(&["graft", &small, "1", &leaf]), "refused 17 1", &["node 1 of the first tree", "small.tree"]);
    is_refused(&run(&["graft", &small, "77", &leaf]), "refused 17 77", &["where Max would move"]);
    let broken = folder.file("broken.tree", "0000\n");
    is_refused(&run(&["graft", &broken, "0", &leaf]), "refused 3 0", &["the first tree", "broken.tree"]);
    is_refused(&run(&["graft", &leaf, "0", &broken]), "refused 3 0", &["the second tree", "broken.tree"]);
    let lower = folder.file("lower.tree", "00000000000a\n");
    let capitals = format!("`buulset capitals {lower}`");
    is_refused(&run(&["graft", &leaf, "0", &lower]), "refused 16 0", &["the second tree", &capitals]);
    let chain: String = (0..18).map(|k| format!("{:04X}01000000\n", k + 1)).collect::<String>() + "000000000001\n";
    let deep = folder.file("deep.tree", chain);
    is_refused(&run(&["graft", &deep, "18", &deep]), "refused 18 0", &["the result of"]);
    is_wrong_use(&["graft", &leaf, "x", &leaf], "NODE is no number that fits: x");
    is_wrong_use(&["graft", "-", "0", "-"], "more than once");
}

#[test]
fn set_changes_a_leaf() {
    let changed = prints(&["set", "samples/seven.tree", "4", "-120"]);
    assert_eq!(changed, SEVEN.replace("000000000002", "00000000FF88"));
    assert_eq!(prints(&["set", "samples/seven.tree", "4", "2"]), SEVEN);
    assert_eq!(prints(&["set", "samples/seven.tree", "3", "32,000"]), SEVEN.replace("000000000001", "000000007D00"));
    is_refused(&run(&["set", "samples/seven.tree", "1", "5"]), "refused 19 1", &["is the named node a leaf?"]);
    is_refused(&run(&["set", "samples/seven.tree", "7", "5"]), "refused 19 7", &[]);
    for value in ["32001", "-32001", "40000", "-2000000000"] {
        is_refused(&run(&["set", "samples/seven.tree", "3", value]), "refused 7 3", &[value]);
    }
    is_wrong_use(&["set", "samples/seven.tree", "3", "many"], "VALUE is no number that fits: many");
    is_wrong_use(&["set", "samples/seven.tree", "3", "5000000000"], "VALUE is no number that fits");
    is_wrong_use(&["set", "samples/seven.tree", "3", "4", "5"], "5 is one word too many");
}

#[test]
fn capitals_converts() {
    let folder = Folder::new("capitals");
    let expected = fs::read_to_string(root().join("samples/stored.capitals")).unwrap();
    assert_eq!(prints(&["capitals", "samples/stored.tree"]), expected);
    is_refused(&run(&["capitals", "samples/refused-8.tree"]), "refused 8 2", &["there are too many lines"]);
    let small = folder.file("small.tree", fs::read(root().join("samples/stored.tree")).unwrap());
    let bad = folder.file("bad.tree", "00g000000000\n");
    let ran = run(&["capitals", &small, &bad]);
    assert_eq!(ran.out, format!("{small}\n{expected}{bad}\nrefused 3 0\n"));
    assert_eq!(ran.status, 1);
    // in place: what is converted is replaced, also behind a link, with its rights; what is refused stays
    use std::os::unix::fs::{symlink, MetadataExt, PermissionsExt};
    fs::set_permissions(&small, fs::Permissions::from_mode(0o640)).unwrap();
    let link = folder.0.join("link.tree");
    symlink(&small, &link).unwrap();
    let ran = run(&["capitals", "--in-place", link.to_str().unwrap(), &bad]);
    assert!(ran.err.ends_with("2 files: 1 changed, 0 as they should be, 1 refused (1 with 3)\n"), "{}", ran.err);
    assert_eq!(ran.out, format!("{bad}\nrefused 3 0\n"));
    assert_eq!(ran.status, 1);
    assert_eq!(fs::read_to_string(&small).unwrap(), expected);
    assert_eq!(fs::metadata(&small).unwrap().permissions().mode() & 0o777, 0o640);
    assert!(fs::symlink_metadata(&link).unwrap().is_symlink());
    assert_eq!(fs::read_to_string(&bad).unwrap(), "00g000000000\n");
    assert_eq!(fs::read_dir(&folder.0).unwrap().count(), 3, "nothing is left over");
    // a file that is as it should be is not written again
    let before = fs::metadata(&small).unwrap();
    assert_eq!(prints(&["capitals", "--in-place", "-q", &small]), "");
    assert_eq!(fs::metadata(&small).unwrap().ino(), before.ino());
    is_refused(&run(&["capitals", "--in-place", &bad]), "refused 3 0", &["\"g\""]);
    is_wrong_use(&["capitals", "--in-place", "-"], "standard input has no place");
}

#[test]
fn needs_hardest_and_least() {
    assert_eq!(prints(&["needs", "samples/seven.tree", "5", "4"]), "4\n");
    assert_eq!(prints(&["needs", "samples/seven.tree", "3", "3"]), "-32000\n");
    is_refused(&run(&["needs", "samples/seven.tree", "3", "9"]), "refused 21 3", &["node 3 for the root value 9"]);
    is_refused(&run(&["needs", "samples/seven.tree", "0", "9"]), "refused 19 0", &["is the named node a leaf?"]);
    is_refused(&run(&["needs", "samples/seven.tree", "3", "32001"]), "refused 20 0", &["-32,000 to 32,000"]);
    let hardest = prints(&["hardest", "samples/ending.tree"]);
    let ran = with_input(&["search", "ab", "-"], hardest.as_bytes());
    assert!(ran.out.ends_with(" 19\n"), "all 19 leaves: {}", ran.out);
    assert_eq!(prints(&["least", "2", "3"]), "5\n");
    assert_eq!(prints(&["least", "1", "0"]), "1\n");
    is_refused(&run(&["least", "0", "19"]), "refused 22 0", &["is the width from 1 to 40?"]);
    is_refused(&run(&["least", "3", "19"]), "refused 23 0", &["width 3 and depth 19"]);
    let ran = run(&["least", "40", "18"]);
    assert_eq!((ran.status, ran.out.as_str()), (0, "65535\n"));
    assert!(ran.err.contains("that or more"));
    assert_eq!(run(&["least", "40", "18", "-q"]).err, "");
}

#[test]
fn explain_has_every_question() {
    let all = prints(&["explain"]);
    for number in 1..=23 {
        let one = prints(&["explain", &number.to_string()]);
        assert!(one.starts_with(&format!("{number}: ")) && all.contains(&one), "{number}");
    }
    assert!(prints(&["explain", "15"]).contains("struck"));
    for number in ["0", "24", "255"] {
        is_wrong_use(&["explain", number], &format!("there is no question {number}"));
    }
    is_wrong_use(&["explain", "many"], "NUMBER is no number");
}

#[test]
fn hints_name_the_usual_causes() {
    let (crlf, cr) = (SEVEN.replace('\n', "\r\n"), SEVEN.replace('\n', "\r"));
    let long = "000000000000\r\n".repeat(4096);
    #[rustfmt::skip]
    let cases: [(&[u8], &str, &[&str]); 23] = [
        (b"", "refused 1 0", &["standard input: question 1", "empty"]),
        (long.as_bytes(), "refused 2 0", &["Windows line ends"]),
        (&b"000000000000\n".repeat(4097), "refused 2 0", &["at most 4096 nodes"]),
        (crlf.as_bytes(), "refused 3 0", &["line 1: \"000102000000\\r\"", "Windows line ends: `buulset repair -`"]),
        (cr.as_bytes(), "refused 3 0", &["a carriage return alone: `buulset repair -`"]),
        (b"\xEF\xBB\xBF000000000001\n", "refused 3 0", &["\\xef\\xbb\\xbf0000", "byte order mark"]),
        (b"\xFF\xFE0\x000\x00", "refused 3 0", &["UTF-16"]),
        (b"000000000001 \n", "refused 3 0", &["blanks or tabs: `buulset repair -`"]),
        (b"0001 0200 0000\n", "refused 3 0", &["blanks or tabs: `buulset repair -`"]),
        (b"000000000001\n\n", "refused 3 1", &["line 2: \"\"", "blank lines at the end"]),
        (b"000000000001\n\n\n\n", "refused 3 1", &["blank lines at the end"]),
        (b"000101000000\n\n000000000001\n", "refused 3 1", &["a blank line among the others"]),
        (b"000101000000\n00000000", "refused 3 1", &["(8 of 12 digits): it was cut off?"]),
        (b"00010100000\n000000000000\n", "refused 3 0", &["the line has 11 digits, not 12"]),
        (b"00000000O001\n", "refused 3 0", &["character 9", "\"O\": a zero is meant?"]),
        (b"<html><body class=\"a very long line of something else\">", "refused 3 0", &["line 1: \"<html>", "..\""]),
        (b"000000007d00\n", "refused 16 0", &["question 16", "line 1: \"000000007d00\"", "`buulset capitals -`"]),
        (b"000101000000\n000000020000\n", "refused 4 1", &["node 1, line 2", "byte 3 is 02; on a leaf"]),
        (b"000101010000\n000000000000\n", "refused 4 0", &["at the root Max moves"]),
        (b"000129000000\n", "refused 5 0", &["it has 41 children"]),
        (b"000102000000\n000401000000\n000000000000\n000000000000\n", "refused 6 1", &["is 4, but by", "would be 3"]),
        (b"000102000000\n000000000000\n", "refused 8 2", &["make 3 in all, and the lines are 2: the file was cut off"]),
        (b"000101000001\n000000000000\n", "refused 7 0", &["it has children, and yet a value, 1"]),
    ];
    for (file, line, hint) in cases {
        is_refused(&with_input(&["analyse", "-"], file), line, hint);
    }
    is_refused(&run(&["analyse", "samples/refused-6.tree"]), "refused 6 1", &["does not come after it"]);
    is_refused(&run(&["analyse", "samples/miscounted.tree"]), "refused 6 3", &["a miscounted child"]);
    is_refused(&run(&["analyse", "samples/refused-9.tree"]), "refused 9 19", &["at most 18 moves"]);
    is_refused(&with_input(&["search", "ab", "-"], b"000100000000\n"), "refused 6 0", &["and yet a first child, 1"]);
    let quiet = with_input(&["analyse", "--quiet", "-"], b"");
    assert_eq!((quiet.status, quiet.out.as_str(), quiet.err.as_str()), (1, "refused 1 0\n", ""));
}

#[test]
fn statuses_of_files() {
    let folder = Folder::new("statuses");
    is_wrong_use_of_file("no such file", "there is no such file");
    is_wrong_use_of_file(folder.0.to_str().unwrap(), "it is a directory");
    use std::os::unix::fs::PermissionsExt;
    let secret = folder.file("secret.tree", SEVEN);
    fs::set_permissions(&secret, fs::Permissions::from_mode(0o000)).unwrap();
    if fs::read(&secret).is_err() {
        is_wrong_use_of_file(&secret, "no permission to read it"); // not as root, who may read all
    }
    // what cannot be written
    if let Ok(full) = fs::OpenOptions::new().write(true).open("/dev/full") {
        let output = command(&["analyse", "samples/seven.tree"]).stdout(full).output().unwrap();
        assert_eq!(output.status.code(), Some(3));
        assert!(String::from_utf8_lossy(&output.stderr).contains("standard output cannot be written"));
    }
    // a pipe that nobody reads
    let mut child = command(&["explain"]).stdout(Stdio::piped()).stderr(Stdio::piped()).spawn().unwrap();
    drop(child.stdout.take());
    let output = child.wait_with_output().unwrap();
    assert_eq!((output.status.code(), output.stderr.as_slice()), (Some(0), &b""[..]));
}

fn is_wrong_use_of_file(name: &str, words: &str) {
    for arguments in [vec!["analyse", name], vec!["hardest", name], vec!["verify", "samples/seven.tree", name]] {
        is_wrong_use(&arguments, words);
    }
}

#[test]
fn help_and_version_are_everywhere() {
    let (all, page) = (prints(&["--help"]), prints(&["manual"]));
    let commands: Vec<&str> =
        all.lines().filter(|line| line.starts_with("  ")).filter_map(|line| line.split_whitespace().next()).collect();
    assert!(commands.len() > 15);
    for name in commands {
        let help = prints(&[name, "--help"]);
        assert!(help.starts_with(&format!("usage: buulset {name} ")), "{help}");
        let call = format!("buulset {name}");
        let is_called = |line: &str| line.split(" | ").any(|part| part.trim_start().starts_with(&call));
        assert!(help.lines().filter(|line| line.starts_with("  ")).any(is_called), "{name}");
        assert_eq!(help, prints(&["help", name]));
        assert_eq!(help, prints(&[name, "-h", "and more"]));
        assert!(all.contains(&format!("\n  {name} ")));
        assert!(page.contains(&format!("\\fB{name}\\fR")), "{name} is not in the manual page");
        assert!(prints(&[name, "--version"]).starts_with("buulset "));
        is_wrong_use(&[name, "--no-such-option"], "there is no option --no-such-option");
    }
    assert_eq!(all, prints(&["help"]));
    assert_eq!(all, prints(&["-h"]));
    assert!(prints(&["-V"]).starts_with("buulset "));
    is_wrong_use(&[], "usage: buulset COMMAND");
    is_wrong_use(&["analyze"], "there is no command analyze");
    assert!(all.lines().all(|line| line.len() <= 120));
}
