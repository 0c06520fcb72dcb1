//! What the documents show of these commands is what the commands print.
use crate::user::{prints, root, Folder};
use std::path::Path;
use std::process::Command;
use std::{env, fs};

/// The commands of a document, after `$`, each with the lines below it: a block is indented by four blanks.
fn sessions(document: &str) -> Vec<(String, String)> {
    let mut sessions: Vec<(String, String)> = Vec::new();
    let mut is_inside = false;
    for line in document.lines() {
        match line.strip_prefix("    ") {
            Some(line) if line.starts_with("$ ") => {
                sessions.push((line[2..].into(), String::new()));
                is_inside = true;
            }
            Some(line) if is_inside => sessions.last_mut().unwrap().1 += &format!("{line}\n"),
            None if is_inside && line.is_empty() => sessions.last_mut().unwrap().1 += "\n",
            _ => is_inside = false,
        }
    }
    sessions
}

#[test]
fn the_page_of_the_command_shows_what_is_printed() {
    let page = fs::read_to_string(root().join("docs/COMMAND.md")).unwrap();
    let sessions = sessions(&page);
    assert!(sessions.len() >= 2, "{sessions:?}");
    for (command, shown) in sessions {
        let words: Vec<&str> = command.split(' ').collect();
        assert_eq!(words[0], "buulset", "{command}");
        assert_eq!(prints(&words[1..]).trim_end(), shown.trim_end(), "{command}");
    }
}

#[test]
fn readme_decodes_a_sample_line_by_line() {
    let readme = fs::read_to_string(root().join("README.md")).unwrap();
    let is_digits = |cell: &&str| cell.len() == 12 && cell.bytes().all(|b| b.is_ascii_hexdigit());
    let rows = readme.lines().filter_map(|line| line.strip_prefix("| `")?.split('`').next());
    let lines: String = rows.filter(is_digits).map(|digits| format!("{digits}\n")).collect();
    assert_eq!(lines, fs::read_to_string(root().join("samples/captures.tree")).unwrap());
    let text = prints(&["text", "samples/captures.tree"]);
    assert!(readme.contains(&format!("`{}`", text.trim_end())), "{text}");
}

/// Runs a line as a shell does that finds the command, in this folder; gives what it prints.
fn typed(line: &str, folder: &Path) -> String {
    let command = Path::new(env!("CARGO_BIN_EXE_buulset")).parent().unwrap().to_str().unwrap();
    let path = format!("{command}:{}", env::var("PATH").unwrap_or_default());
    let output = Command::new("sh").args(["-c", line]).env("PATH", path).current_dir(folder).output().unwrap();
    assert!(output.status.success(), "{line}: {}", String::from_utf8_lossy(&output.stderr));
    String::from_utf8(output.stdout).unwrap()
}

#[test]
fn a_newcomer_sees_what_readme_shows() {
    let readme = fs::read_to_string(root().join("README.md")).unwrap();
    let (_, section) = readme.split_once("\n## A first tree\n").expect("README has the section");
    let sessions = sessions(section.split("\n## ").next().unwrap());
    assert_eq!(sessions.len(), 4, "{sessions:?}");
    let folder = Folder::new("newcomer");
    for (line, shown) in sessions {
        assert_eq!(typed(&line, &folder.0).trim_end(), shown.trim_end(), "{line}");
    }
}
