//! At the edges: numbers, lists of names, pipes, mistyped words, closed output, and what hints say.
mod common;
use common::*;
use std::fs;
use std::process::Command;

#[test]
fn numbers_have_their_commas_at_the_thousands() {
    let set = |value: &str| run(&["set", "samples/seven.tree", "3", value]);
    for (typed, stored) in
        [("1,000", "03E8"), ("-32,000", "8300"), ("32000", "7D00"), ("+7", "0007"), ("007", "0007"), ("-1", "FFFF")]
    {
        assert_eq!(set(typed).out.lines().nth(3), Some(format!("00000000{stored}").as_str()), "{typed}");
    }
    let wrong =
        ["3,2", "-1,5", "1,,0", ",5", "5,", "1,0000", "0,005", "12,34", "1,000,00", "--5", "-", "", "1 000", "1.5"];
    for typed in wrong {
        let ran = set(typed);
        assert_eq!((ran.status, ran.out.as_str()), (2, ""), "{typed}");
        if !typed.starts_with("--") {
            assert!(ran.err.contains(&format!("VALUE is no number that fits: {typed}\n")), "{}", ran.err);
        }
        is_wrong_use(&["search", &format!("mtdf:{typed}"), "samples/seven.tree"], &format!("not mtdf:{typed}\n"));
    }
    is_wrong_use(&["least", "1,0", "6"], "WIDTH is no number that fits: 1,0");
    is_wrong_use(&["search", "sss", "samples/seven.tree", "--leaves", "4,09"], "--leaves is no number that fits: 4,09");
    assert_eq!(prints(&["search", "mtdf:1,000", "samples/seven.tree"]), "mtdf:1,000 3 2 3 2\n");
    assert!(prints(&["explain", "6"]).contains("greater than the node"));
    is_wrong_use(&["explain", "300"], "there is no question 300: they are 1 to 23");
    is_wrong_use(&["explain", "-1"], "there is no question -1");
}

#[test]
fn lists_come_from_windows_too() {
    let folder = Folder::new("lists");
    let names = [folder.file("a.tree", SEVEN), folder.file("b c.tree", "000000000001\n")];
    let all = prints_with_summary(&names);
    let list = names.join("\n") + "\n";
    for list in [list.clone(), list.replace('\n', "\r\n"), format!("\u{FEFF}{}", names.join("\r\n"))] {
        let ran = with_input(&["analyse", "--from", "-"], list.as_bytes());
        assert_eq!((ran.status, &ran.out), (0, &all), "{list:?}");
    }
    // a name that ends with a carriage return, and one that is not there
    let odd = folder.file("odd\r", SEVEN);
    let ran = with_input(&["analyse", "--from", "-"], format!("{odd}\nnone\x07\r\n").as_bytes());
    assert!(ran.out.starts_with(&odd) && ran.status == 2);
    assert!(ran.err.contains("none\\u{7}: there is no such file"), "{}", ran.err);
    let wide: Vec<u8> = list.encode_utf16().flat_map(u16::to_le_bytes).collect();
    let ran = with_input(&["analyse", "--from", "-"], &wide);
    assert!(ran.status == 2 && ran.err.contains("UTF-16"), "{}", ran.err);
}

fn prints_with_summary(names: &[String]) -> String {
    let ran = run(&[&["analyse"][..], &names.iter().map(String::as_str).collect::<Vec<_>>()].concat());
    assert_eq!(ran.status, 0);
    ran.out
}

#[test]
fn a_pipe_stands_for_a_file_that_is_not_named() {
    let commands: [&[&str]; 9] = [
        &["analyse"],
        &["search", "sss"],
        &["order", "ab"],
        &["certify", "sss"],
        &["hardest"],
        &["show"],
        &["line"],
        &["text"],
        &["capitals"],
    ];
    for command in commands {
        let named = prints(&[command, &["samples/seven.tree"]].concat());
        assert_eq!(with_input(command, SEVEN.as_bytes()).out, named, "{command:?}");
    }
    // a picture has the name of its file
    let drawn = with_input(&["draw"], SEVEN.as_bytes()).out.replace("standard input", "seven.tree");
    assert!(drawn == prints(&["draw", "samples/seven.tree"]), "draw");
    is_wrong_use(&["capitals", "--in-place"], "FILE is missing");
    // a terminal does not
    let terminal = "import os, pty, sys\nsys.exit(os.waitstatus_to_exitcode(pty.spawn(sys.argv[1:])))";
    let output = Command::new("python3")
        .args(["-c", terminal, env!("CARGO_BIN_EXE_buulset"), "analyse"])
        .stdin(std::process::Stdio::null())
        .output()
        .expect("python3 starts");
    assert_eq!(output.status.code(), Some(2));
    assert!(String::from_utf8_lossy(&output.stdout).contains("FILE is missing"));
}

#[test]
fn quiet_may_come_first() {
    let folder = Folder::new("quiet");
    let bad = folder.file("bad.tree", "0001\n");
    for arguments in [["-q", "analyse", &bad], ["--quiet", "analyse", &bad], ["analyse", &bad, "-q"]] {
        let ran = run(&arguments);
        assert_eq!((ran.status, ran.out.as_str(), ran.err.as_str()), (1, "refused 3 0\n", ""));
    }
    is_wrong_use(&["-q"], "usage: buulset COMMAND");
    assert!(prints(&["-q", "--version"]).starts_with("buulset "));
    assert_eq!(prints(&["-q", "help", "set"]), prints(&["set", "--help"]));
    assert_eq!(prints(&["-q", "help"]), prints(&["--help"]));
    is_wrong_use(&["--json", "analyse", &bad], "there is no command --json");
}

#[test]
fn mistyped_words_are_guessed() {
    for (typed, meant) in [("analyze", "analyse"), ("anaylse", "analyse"), ("serach", "search"), ("st", "set")] {
        is_wrong_use(&[typed], &format!("there is no command {typed}: did you mean {meant}?"));
        is_wrong_use(&["help", typed], &format!("did you mean {meant}?"));
    }
    let ran = run(&["frobnicate"]);
    assert!(ran.status == 2 && !ran.err.contains("did you mean") && ran.err.contains("analyse FILE.."));
    is_wrong_use(&["analyse", "--form", "x"], "there is no option --form: did you mean --from?");
    is_wrong_use(&["set", "a", "1", "2", "--inplace"], "did you mean --in-place?");
    is_wrong_use(&["draw", "x", "--method", "ab", "--method", "sss"], "--method is given twice");
}

#[test]
fn options_without_effect_are_wrong_use() {
    let ending = "samples/ending.tree";
    is_wrong_use(&["draw", ending, "--all", "--rows", "9"], "--all and --rows exclude each other");
    is_wrong_use(&["draw", ending, "--order"], "there is no option --order: `buulset order` is a command of its own");
    is_wrong_use(&["draw", ending, "--watch"], "`buulset watch` is a command of its own");
    is_wrong_use(&["search", "ab", ending, "--leaves", "2"], "--leaves is an allowance of sss");
}

#[test]
fn a_closed_output_is_told() {
    let in_shell = |script: &str| {
        let output = Command::new("sh")
            .args(["-c", script, env!("CARGO_BIN_EXE_buulset")])
            .current_dir(root())
            .output()
            .unwrap();
        String::from_utf8(output.stdout).unwrap() + &String::from_utf8(output.stderr).unwrap()
    };
    let closed = in_shell("\"$0\" analyse samples/seven.tree >&-; echo $?");
    assert_eq!(closed, "3\nbuulset: standard output cannot be written: it is closed\n");
    assert_eq!(in_shell("\"$0\" analyse samples/refused-1.tree -q >&-; echo $?").lines().next(), Some("3"));
    assert_eq!(in_shell("\"$0\" analyse samples/seven.tree >/dev/null; echo $?"), "0\n");
    assert_eq!(in_shell("\"$0\" set samples/seven.tree 4 5 -o /dev/null >&-; echo $?"), "0\n");
    // what Python lends is /dev/null, too, and not closed
    let python = "import subprocess as s, sys\nprint(s.run(sys.argv[1:], stdout=s.DEVNULL).returncode)";
    let output = Command::new("python3")
        .args(["-c", python, env!("CARGO_BIN_EXE_buulset"), "analyse", "samples/seven.tree"])
        .current_dir(root())
        .output()
        .unwrap();
    assert_eq!(output.stdout, b"0\n");
}

#[test]
fn a_file_that_is_also_the_output_gets_a_hint() {
    let folder = Folder::new("itself");
    let file = folder.file("e.tree", SEVEN);
    let output = fs::File::create(&file).unwrap();
    let ran = command(&["set", &file, "4", "-120"]).stdout(output).output().unwrap();
    assert_eq!(ran.status.code(), Some(1));
    let said = String::from_utf8(ran.stderr).unwrap();
    assert!(said.contains("the shell emptied it") && said.contains("`--in-place`") && said.contains("`-o "), "{said}");
}

#[test]
fn hints_do_not_mislead() {
    let folder = Folder::new("mislead");
    let says = |file: &[u8], words: &[&str], not: &[&str]| {
        let said = with_input(&["analyse"], file).err;
        words.iter().for_each(|w| assert!(said.contains(w), "{w:?} is not in {said:?}"));
        not.iter().for_each(|w| assert!(!said.contains(w), "{w:?} is in {said:?}"));
    };
    let deep = run(&["analyse", "samples/refused-9.tree"]).err;
    assert!(
        deep.contains("is no node deeper than 18 moves? No: node 19, line 20, is 19 moves from the root"),
        "{deep}"
    );
    says(b"\x1f\x8b\x08\x00\x00 \x00\x00", &["packed, or no tree file?"], &["blank"]);
    says(b"# a comment\n000000000001\n", &["character 1 is no digit", "\"#\""], &["blank"]);
    says(b"000000000001 x\n", &["character 13 is no digit"], &["blank"]);
    let noise: Vec<u8> = (0..100_000u32).map(|k| (k.wrapping_mul(2_654_435_761) >> 13) as u8).collect();
    says(&noise, &["at most 4096 nodes", "is it a tree file?"], &["Windows"]);
    let both = format!("\u{FEFF}{}", SEVEN.replace('\n', "\r\n"));
    says(both.as_bytes(), &["a byte order mark, Windows line ends: `buulset repair -` mends it"], &[]);
    says(b"000000000001\r\n000000000001\r\n", &["Windows line ends", "but the file would then be refused 8 2"], &[]);
    let named = folder.file("a file", SEVEN.replace('\n', "\r\n"));
    assert!(run(&["analyse", &named]).err.contains(&format!("`buulset repair '{named}' --in-place` mends it")));
    let other = run(&["verify", "samples/seven.tree", "samples/ending.certificate"]);
    assert_eq!(other.status, 1);
    assert!(other.err.contains("it has 28 digits, and the tree 7 nodes: it is of another tree"), "{}", other.err);
}

#[test]
fn completions_and_the_manual_have_every_command_and_option() {
    let shells = ["bash", "zsh", "fish"].map(|shell| prints(&["completions", shell]));
    let page = prints(&["manual"]);
    let all = prints(&["--help"]);
    for line in all.lines().filter(|line| line.starts_with("  ")) {
        let name = line.split_whitespace().next().unwrap();
        let help = prints(&[name, "--help"]);
        for option in help.split_whitespace().filter(|word| word.starts_with("--") && word.len() > 2) {
            let option = option.trim_matches(|c: char| !c.is_alphanumeric() && c != '-').trim_start_matches("--");
            for text in &shells {
                assert!(text.contains(name) && text.contains(option), "{name} {option}");
            }
            assert!(page.contains(&option.replace('-', "\\-")), "{name} {option}");
        }
    }
    is_wrong_use(&["completions", "tcsh"], "SHELL is bash, zsh or fish, not tcsh");
    let complete = |words: &str| {
        let script = format!(
            "eval \"$1\"; COMP_WORDS=(buulset {words}); COMP_CWORD=$((${{#COMP_WORDS[@]}} - 1)); _buulset; \
             echo \"${{COMPREPLY[*]}}\""
        );
        let output =
            Command::new("bash").args(["-c", &script, "bash", &shells[0]]).current_dir(root()).output().unwrap();
        assert_eq!(String::from_utf8_lossy(&output.stderr), "", "{words}");
        String::from_utf8(output.stdout).unwrap().trim_end().to_string()
    };
    assert_eq!(complete("sea"), "search");
    assert_eq!(complete("search ''"), "ab mtd mtdf: sss plain");
    assert_eq!(complete("-q set --in"), "--in-place");
    assert_eq!(complete("analyse samples/seven.t"), "samples/seven.tree");
    assert_eq!(complete("draw x --method s"), "sss");
}
