//! What scripts read: `--json`, `--csv`, `--heading` and `graft --map`.
mod common;
use common::*;
use std::fs;
use std::io::Write;
use std::process::{Command, Stdio};

/// What Python's json makes of lines, as Python writes it again: sorted, without blanks.
fn read_by_python(lines: &str) -> Vec<String> {
    let program = "import json, sys\nfor line in sys.stdin.buffer.read().decode().split('\\n')[:-1]:\n    \
                   print(json.dumps(json.loads(line), sort_keys=True, separators=(',', ':')))";
    let mut child = Command::new("python3")
        .args(["-c", program])
        .stdin(Stdio::piped())
        .stdout(Stdio::piped())
        .spawn()
        .expect("python3 starts");
    child.stdin.take().unwrap().write_all(lines.as_bytes()).unwrap();
    let output = child.wait_with_output().unwrap();
    assert!(output.status.success(), "{lines}");
    String::from_utf8(output.stdout).unwrap().lines().map(str::to_string).collect()
}

/// A command that gives this one object.
fn gives(arguments: &[&str], object: &str) {
    let printed = prints(&[arguments, &["--json"]].concat());
    assert_eq!(read_by_python(&printed), [object], "{arguments:?}");
}

#[test]
fn results_are_objects() {
    let seven = "samples/seven.tree";
    gives(
        &["analyse", seven],
        concat!(
            r#"{"ab":{"leaves":4,"move":2,"value":3},"file":"samples/seven.tree","#,
            r#""mtd":{"leaves":3,"move":2,"value":3},"sss":{"leaves":3,"move":2,"value":3}}"#
        ),
    );
    let search = |method: &str, rest: &str| {
        let (leaves, rest) = rest.split_once(r#""method""#).unwrap();
        let object = format!(r#"{{"file":"samples/ending.tree",{leaves}"line":[0,2,9],"method"{rest},"value":-20}}"#);
        gives(&["search", method, "samples/ending.tree"], &object);
    };
    search("ab", r#""leaves":15,"method":"ab","move":2"#);
    search("mtd", r#""leaves":11,"method":"mtd","move":2,"passes":4"#);
    search("sss", r#""leaves":11,"method":"sss","move":2,"replacements":25"#);
    search("plain", r#""method":"plain","move":2"#);
    gives(
        &["search", "mtdf:3", seven],
        r#"{"file":"samples/seven.tree","leaves":3,"line":[0,2,5],"method":"mtdf:3","move":2,"tests":1,"value":3}"#,
    );
    gives(
        &["search", "sss", seven, "--leaves", "2"],
        r#"{"file":"samples/seven.tree","leaves":2,"merit":3,"method":"sss","replacements":6,"spent":true}"#,
    );
    gives(
        &["order", "sss", seven],
        concat!(
            r#"{"file":"samples/seven.tree","method":"sss","#,
            r#""order":[{"node":3,"worth":1},{"node":5,"worth":3},{"node":6,"worth":4}]}"#
        ),
    );
    gives(&["line", "samples/ending.tree"], r#"{"file":"samples/ending.tree","line":[0,2,9],"value":-20}"#);
    gives(
        &["line", "samples/ending.tree", "--names", "samples/ending.names"],
        r#"{"file":"samples/ending.tree","line":[0,2,9],"moves":["32-28","18-23"],"value":-20}"#,
    );
    gives(
        &["verify", "samples/ending.tree", "samples/ending.certificate"],
        r#"{"certificate":"samples/ending.certificate","file":"samples/ending.tree","value":-20}"#,
    );
    gives(&["needs", seven, "5", "4"], r#"{"file":"samples/seven.tree","leaf":5,"value":4,"wanted":4}"#);
    gives(&["least", "10", "6"], r#"{"capped":false,"depth":6,"leaves":1999,"width":10}"#);
    gives(&["least", "40", "18"], r#"{"capped":true,"depth":18,"leaves":65535,"width":40}"#);
}

#[test]
fn refusals_are_objects() {
    let refused = |arguments: &[&str], start: &str| {
        let ran = run(&[arguments, &["--json"]].concat());
        let objects = read_by_python(&ran.out);
        assert_eq!((ran.status, objects.len()), (1, 1), "{arguments:?}");
        for part in start.split(' ') {
            assert!(objects[0].contains(part), "{part} is not in {}", objects[0]);
        }
        assert!(objects[0].contains(r#""hints":["#) && !ran.err.is_empty(), "{}", ran.out);
        assert_eq!(run(&[arguments, &["--json", "-q"]].concat()).err, "");
    };
    refused(&["analyse", "samples/refused-7.tree"], r#""file":"samples/refused-7.tree" "place":0 "refused":7"#);
    refused(&["search", "sss", "samples/refused-3.tree"], r#""method":"sss" "place":7 "refused":3"#);
    refused(&["order", "ab", "samples/refused-1.tree"], r#""place":0 "refused":1"#);
    refused(&["line", "samples/cut-off.tree"], r#""file":"samples/cut-off.tree" "place":15 "refused":3"#);
    refused(&["verify", "samples/seven.tree", "samples/ending.certificate"], r#""refused":12"#);
    refused(&["needs", "samples/seven.tree", "3", "9"], r#""leaf":3 "place":3 "refused":21 "wanted":9"#);
    refused(&["least", "41", "2"], r#""place":0 "refused":22 "width":41"#);
    let ran = run(&["search", "sss", "no such file", "--json"]);
    let objects = read_by_python(&ran.out);
    assert_eq!(ran.status, 2);
    assert_eq!(objects, [r#"{"error":"no such file: there is no such file","file":"no such file","method":"sss"}"#]);
}

#[test]
fn an_archive_gives_an_object_or_a_row_for_each_file() {
    let folder = Folder::new("scripts");
    let odd = folder.file("a \"b\", c\n.tree", SEVEN);
    let bad = folder.file("bad.tree", "0001\n");
    let ran = run(&["analyse", "--json", &odd, &bad, "no such file"]);
    let objects = read_by_python(&ran.out);
    assert_eq!((ran.status, objects.len()), (2, 3));
    assert!(objects[0].contains("a \\\"b\\\", c\\n.tree\"") && objects[0].contains("\"value\":3"));
    assert!(objects[1].contains("\"refused\":3") && objects[2].contains("\"error\":"));
    assert!(ran.err.contains("3 files: 1 accepted, 1 refused (1 with 3), 1 not read"));
    let ran = run(&["analyse", "--csv", &odd, &bad, "no such file"]);
    let quoted = odd.replace('"', "\"\"");
    let rows = [
        "file,value,move,ab,mtd,sss,refused,place,error".to_string(),
        format!("\"{quoted}\",3,2,4,3,3,,,"),
        format!("{bad},,,,,,3,0,"),
        "no such file,,,,,,,,no such file: there is no such file".to_string(),
    ];
    assert_eq!((ran.status, ran.out), (2, rows.join("\n") + "\n"));
    assert_eq!(
        prints(&["analyse", "--csv", "samples/ending.tree"]).lines().nth(1),
        Some("samples/ending.tree,-20,2,15,11,11,,,")
    );
    is_wrong_use(&["analyse", "--csv", "--json", &odd], "--json and --csv exclude each other");
}

#[test]
fn a_search_names_its_numbers() {
    let heading =
        |method: &str, more: &[&str]| prints(&[&["search", method, "samples/seven.tree", "--heading"], more].concat());
    assert_eq!(heading("ab", &[]), "method value move leaves\nab 3 2 4\n");
    assert_eq!(heading("mtd", &[]), "method value move leaves passes\nmtd 3 2 3 2\n");
    assert_eq!(heading("mtdf:3", &[]), "method value move leaves tests\nmtdf:3 3 2 3 1\n");
    assert_eq!(heading("sss", &[]), "method value move leaves replacements\nsss 3 2 3 9\n");
    assert_eq!(heading("plain", &[]), "method value move\nplain 3 2\n");
    assert_eq!(heading("sss", &["--leaves", "2"]), "answer merit leaves replacements\nspent 3 2 6\n");
    is_wrong_use(&["search", "sss", "samples/seven.tree", "--heading", "--json"], "exclude each other");
}

#[test]
fn a_graft_tells_which_node_got_which_number() {
    let folder = Folder::new("map");
    let map = folder.0.join("map").to_str().unwrap().to_string();
    for (one, leaf, two) in [("seven", 4, "ending"), ("ending", 9, "captures"), ("seven", 3, "seven")] {
        let (one, two) = (format!("samples/{one}.tree"), format!("samples/{two}.tree"));
        let ran = run(&["graft", &one, &leaf.to_string(), &two, "--map", &map]);
        if ran.status == 1 {
            continue; // Min would move at this leaf
        }
        let lines = |text: &str| text.lines().map(str::to_string).collect::<Vec<_>>();
        let result = lines(&ran.out);
        let first = lines(&fs::read_to_string(root().join(&one)).unwrap());
        let second = lines(&fs::read_to_string(root().join(&two)).unwrap());
        let mut seen = vec![0; result.len()];
        for line in fs::read_to_string(&map).unwrap().lines() {
            let words: Vec<&str> = line.split(' ').collect();
            let (node, number): (usize, usize) = (words[1].parse().unwrap(), words[2].parse().unwrap());
            if words[0] == "first" && node == leaf {
                continue;
            }
            seen[number] += 1;
            let frame = if words[0] == "first" { &first[node] } else { &second[node] };
            // all but the first child's number stays
            assert_eq!(frame[4..], result[number][4..], "{line}");
        }
        assert!(seen.iter().all(|&n| n == 1), "{seen:?}");
    }
    assert!(fs::read_to_string(&map).unwrap().starts_with("first 0 0\n"));
    fs::remove_file(&map).unwrap();
    is_refused(&run(&["graft", "samples/seven.tree", "1", "samples/seven.tree", "--map", &map]), "refused 17 1", &[]);
    assert!(fs::metadata(&map).is_err(), "a refusal writes no map");
    is_wrong_use(&["graft", "a", "1", "b", "--map", "-"], "both go to standard output");
    is_wrong_use(&["graft", "a", "1", "b", "--map", "x", "-o", "x"], "both go to one file");
    let seven = "samples/seven.tree";
    is_wrong_use(
        &["graft", "samples/ending.tree", "9", seven, "--map", "samples/../samples/seven.tree"],
        "place of a tree",
    );
    let tree = folder.0.join("tree").to_str().unwrap().to_string();
    let printed = prints(&["graft", "samples/seven.tree", "4", "samples/seven.tree", "--map", "-", "-o", &tree]);
    assert!(printed.contains("first 4 4\n") && printed.contains("second 0 4\n"), "{printed}");
}
