//! `line`: a path of nodes worth the root's value, with the names of moves where a file gives them.
use crate::random::{self, Nodes, Random};
use crate::user::{accepted_samples, gives, is_refused, is_wrong_use, prints, with_input, Folder};

/// The value and the nodes that `line` prints.
pub fn read(printed: &str) -> (i32, Vec<usize>) {
    let lines: Vec<&str> = printed.lines().collect();
    let value = lines[0].strip_prefix("value ").unwrap().parse().unwrap();
    let nodes = lines[1].strip_prefix("line ").unwrap().split(' ').map(|k| k.parse().unwrap()).collect();
    (value, nodes)
}

#[test]
fn the_line_is_a_path_of_the_root_value() {
    let mut random = Random(52);
    for _ in 0..400 {
        let nodes = Nodes::new(&random::tree(&mut random));
        let file = nodes.file();
        let (value, line) = read(&gives(&["line", "-"], &file));
        assert_eq!((value, line[0]), (nodes.value[0], 0));
        for pair in line.windows(2) {
            assert!(nodes.children[pair[0]].contains(&pair[1]), "{line:?}: a path");
        }
        assert!(line.iter().all(|&k| nodes.value[k] == value), "{line:?}: worth {value}");
        assert!(nodes.stored[line[line.len() - 1]].is_some(), "{line:?}: to a leaf");
        let search = gives(&["search", "sss", "-"], &file);
        let root_move = line.get(1).copied().unwrap_or(0).to_string();
        assert_eq!(search.split(' ').nth(2), Some(root_move.as_str()), "the move of a search");
    }
}

#[test]
fn the_line_is_printed_with_its_value() {
    assert_eq!(prints(&["line", "samples/ending.tree"]), "value -20\nline 0 2 9\n");
    assert_eq!(prints(&["line", "samples/wins.tree"]), "value 31499\nline 0 2\n");
    assert_eq!(gives(&["line", "-"], "00000000FFFB\n"), "value -5\nline 0\n");
    for name in accepted_samples() {
        let report = prints(&["search", "ab", &name]);
        assert_eq!(read(&prints(&["line", &name])).0.to_string(), report.split(' ').nth(1).unwrap());
    }
    is_refused(&with_input(&["line", "samples/cut-off.tree"], ""), "refused 3 15", "cut off");
    assert_eq!(gives(&["line"], "00000000FFFB\n"), "value -5\nline 0\n", "a pipe stands for FILE");
    is_wrong_use(&with_input(&["line", "-", "--names", "-"], ""), "more than once");
    is_wrong_use(&with_input(&["line", "-", "--names"], ""), "--names wants a value");
}

#[test]
fn moves_have_names() {
    let names = "samples/ending.names";
    let printed = prints(&["line", "samples/ending.tree", "--names", names]);
    assert_eq!(printed, "value -20\nline 0 2 9\nmoves 32-28 18-23\n");
    let folder = Folder::new("names");
    let of = |text: &str| with_input(&["line", "samples/ending.tree", "--names", "-"], text).out;
    assert_eq!(of("9 18-23\n"), "value -20\nline 0 2 9\nmoves (2) 18-23\n");
    assert_eq!(of(""), "value -20\nline 0 2 9\nmoves (2) (9)\n");
    assert_eq!(of("\u{FEFF}# by Fabre\r\n\r\n2\t 32-28 !  \r\n"), "value -20\nline 0 2 9\nmoves 32-28 ! (9)\n");
    let name = folder.file("names", "0 a position\n");
    assert_eq!(gives(&["line", "-", "--names", &name], "000000000007\n"), "value 7\nline 0\nmoves\n");
    let cases = [
        ("2 32-28\n2 31-27\n", "standard input, line 2: node 2 has a name already, 32-28"),
        ("28 32-28\n", "standard input, line 1: node 28 is not in the tree, whose last node is 27"),
        ("\n2\n", "line 2: expected a node number, a blank and a name, found \"2\""),
        ("32-28 2\n", "line 1: expected a node number, a blank and a name, found \"32-28 2\""),
        ("2 \u{1b}[31m\n", "line 1: it has a control character: \"2 \\u{1b}[31m\""),
    ];
    for (text, words) in cases {
        is_wrong_use(&with_input(&["line", "samples/ending.tree", "--names", "-"], text), words);
    }
    let name = folder.file("latin", b"2 caf\xE9\n");
    is_wrong_use(&with_input(&["line", "samples/ending.tree", "--names", &name], ""), "latin, line 1: it is not UTF-8");
    let missing = with_input(&["line", "samples/ending.tree", "--names", "no-such-file"], "");
    is_wrong_use(&missing, "no-such-file: there is no such file");
}

#[test]
fn scripts_get_an_object() {
    let json = |more: &[&str]| prints(&[&["line", "samples/ending.tree", "--json"], more].concat());
    assert_eq!(json(&[]), "{\"file\":\"samples/ending.tree\",\"value\":-20,\"line\":[0,2,9]}\n");
    let named = json(&["--names", "samples/ending.names"]);
    assert!(named.ends_with(",\"line\":[0,2,9],\"moves\":[\"32-28\",\"18-23\"]}\n"), "{named}");
    let ran = with_input(&["line", "samples/ending.tree", "--json", "--names", "-"], "9 \"a\\b\"\n");
    assert!(ran.out.ends_with("\"moves\":[null,\"\\\"a\\\\b\\\"\"]}\n"), "{}", ran.out);
    let folder = Folder::new("objects");
    let name = folder.file("a\n\u{1b}b.tree", "000000000007\n");
    let object = prints(&["line", "--json", &name]);
    assert!(object.ends_with("/a\\n\\u001bb.tree\",\"value\":7,\"line\":[0]}\n"), "{object}");
}
