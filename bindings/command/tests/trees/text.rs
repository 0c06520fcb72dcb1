//! `make` and `text`: each is the other's inverse, and an error has its line, its column and what was expected.
use crate::random::{self, Nodes, Random};
use crate::user::{accepted_samples, gives, is_refused, is_wrong_use, prints, root, with_input, Folder};
use std::fs;

#[test]
fn make_of_text_is_the_same_file() {
    let mut random = Random(50);
    let mut largest = 0;
    for _ in 0..400 {
        let nodes = Nodes::new(&random::tree(&mut random));
        largest = largest.max(nodes.stored.len());
        let mut file = nodes.file();
        if random.one_in(4) {
            file.pop();
        }
        let text = gives(&["text", "-"], &file);
        assert_eq!(gives(&["make", "-"], &text), file, "{text}");
        assert!(text.lines().all(|line| line.len() <= 100), "{text}");
    }
    assert!(largest > 2000, "{largest} nodes");
    for name in accepted_samples() {
        assert_eq!(gives(&["make", "-"], prints(&["text", &name])), fs::read_to_string(&name).unwrap(), "{name}");
    }
}

#[test]
fn make_takes_any_white_space() {
    let mut random = Random(51);
    for _ in 0..400 {
        let tree = random::tree(&mut random);
        let text = random::text(&mut random, &tree);
        assert_eq!(gives(&["make", "-"], &text), Nodes::new(&tree).file(), "{text}");
    }
    let file = "000102000000\n000000000001\n00000000FFFE\n";
    for text in ["1 -2", "\u{FEFF}1 -2\n", "1\r-2\r", "# (\r\n1#\n-2#", "+", "001 -0002"] {
        match text {
            "+" => is_wrong_use(&with_input(&["make", "-"], text), "line 1, column 1"),
            _ => assert_eq!(gives(&["make", "-"], text), file, "{text:?}"),
        }
    }
    assert_eq!(gives(&["make", "-"], "1 -2 ~"), file.trim_end());
    assert_eq!(gives(&["make", "-"], "= 5 ~"), "000000000005");
}

#[test]
fn the_text_is_laid_out_for_people() {
    assert_eq!(prints(&["text", "samples/seven.tree"]), "(1 2) (3 4)\n");
    assert_eq!(prints(&["text", "samples/captures.tree"]), "x(-10 40 (30 60)) (50 x((45) 20))\n");
    let ending = "(-50 (20 70 -70) (-60 -70 70))\n(0 -20)\n((-20 0 10) (-60 -60 40) -70)\n(-20 90 0)\n";
    assert_eq!(prints(&["text", "samples/ending.tree"]), ending);
    assert_eq!(gives(&["text", "-"], "00000000FFFB"), "= -5\n~ # the last line of the file has no line feed\n");
    // leaves fill lines, and a node that is too wide for one has its children below it
    let leaves: String = (0..40).map(|k| format!("{} ", -32000 + k)).collect();
    let laid = gives(&["text", "-"], gives(&["make", "-"], format!("1 ({leaves}) 2 3")));
    let lines: Vec<&str> = laid.lines().collect();
    assert_eq!((lines[0], lines[1], lines.len()), ("1", "(", 7), "{laid}");
    assert_eq!((lines[5], lines[6]), (")", "2 3"), "{laid}");
    assert!(lines[2].starts_with("  -32000 -31999 ") && lines[2].len() == 99, "{laid}");
}

#[test]
fn the_text_may_be_a_word() {
    let seven = fs::read_to_string(root().join("samples/seven.tree")).unwrap();
    assert_eq!(prints(&["make", "(1 2) (3 4)"]), seven);
    assert_eq!(prints(&["make", "= 5"]), "000000000005\n");
    let folder = Folder::new("words");
    assert_eq!(prints(&["make", &folder.file("(a name).text", "(1 2) (3 4)")]), seven);
    is_wrong_use(&with_input(&["make", "no such.text"], ""), "TEXT, which is no file, line 1, column 1: expected");
    for word in ["no-such.text", "5"] {
        let words = format!("{word}: there is no such file, and a text in its place has a bracket or a blank in it");
        is_wrong_use(&with_input(&["make", word], ""), &words);
    }
    assert_eq!(gives(&["make"], "(1 2) (3 4)"), seven, "a pipe stands for TEXT");
    assert_eq!(gives(&["text"], &seven), "(1 2) (3 4)\n");
    is_wrong_use(&with_input(&["make", "1 2", "3"], ""), "3 is one word too many");
}

#[test]
fn errors_have_line_column_and_what_was_expected() {
    let cases = [
        ("", "line 1, column 1: expected a value, (, x( or =, found the end of the text"),
        (" # nothing\n\n", "line 3, column 1: expected a value, (, x( or =, found the end of the text"),
        ("~", "line 1, column 1: expected a value, (, x( or =, found \"~\""),
        ("(1 2)\n  )", "line 2, column 3: expected a value, (, x( or the end of the text, found \")\"; no ( is open"),
        ("1 ()", "line 1, column 4: expected a value, ( or x(, found \")\"; a node in brackets has at least one child"),
        (
            "1\n (2 (3 4)\n",
            "line 3, column 1: expected a value, (, x( or ), found the end of the text; \
                            the node of line 2, column 2 has no )",
        ),
        ("((1 ~", "found \"~\"; the node of line 1, column 2 has no )"),
        ("(1 2) y(3 4)", "line 1, column 7: expected a value, (, x( or the end of the text, found \"y\""),
        ("(1 2] 3", "line 1, column 4: expected a value, (, x( or ), found \"2]\""),
        ("(1, 2)", "found \"1,\"; blanks stand between values, and a value has no comma"),
        ("1,000", "found \"1,000\"; blanks stand between values, and a value has no comma"),
        ("1 x 5", "line 1, column 5: expected ( after x, the children of a second capture, found \"5\""),
        ("1 x", "line 1, column 4: expected ( after x, the children of a second capture, found the end of the text"),
        ("= x", "line 1, column 3: expected a value, found \"x\""),
        ("= 5 6", "line 1, column 5: expected the end of the text, found \"6\""),
        ("5 = 6", "line 1, column 3: expected a value, (, x( or the end of the text, found \"=\""),
        ("5 ~\n~", "line 2, column 1: expected the end of the text, found \"~\""),
        ("- 5", "line 1, column 1: expected a value, (, x( or =, found \"-\""),
        ("5 1.5", "line 1, column 3: expected a value, (, x( or the end of the text, found \"1.5\""),
        ("# é\r# é\r\n é", "line 3, column 2: expected a value, (, x( or =, found \"é\""),
        ("\u{A0}\u{2003}y", "line 1, column 3: expected a value, (, x( or =, found \"y\""),
        ("0123456789abcdefghijklmn", "found \"0123456789abcdefghij..\""),
        ("\u{1b}[31m", "found \"\\u{1b}[31m\""),
    ];
    for (text, words) in cases {
        is_wrong_use(&with_input(&["make", "-"], text), words);
    }
    let folder = Folder::new("errors");
    let name = folder.file("bad.text", b"(1 2)\n\xFF");
    is_wrong_use(&with_input(&["make", &name], ""), "bad.text, line 2, column 1: expected");
    let name = folder.file("long.text", vec![b' '; (1 << 22) + 1]);
    is_wrong_use(&with_input(&["make", &name], ""), "long.text is longer than 4 MiB");
    is_wrong_use(&with_input(&["make", "samples/seven.tree"], ""), "is a tree file already: `buulset text`");
}

#[test]
fn the_library_refuses_what_no_tree_holds() {
    let of = |text: String| with_input(&["make", "-"], text);
    let column = |text: &str, words: &str| format!("standard input, line 1, column {}: {words}", text.len() + 1);
    let chain = "(".repeat(17);
    assert_eq!(gives(&["make", "-"], format!("{chain}1{}", ")".repeat(17))).lines().count(), 19);
    let deep = "a node 19 moves below the root, and a tree has at most 18 (question 9)";
    is_refused(&of(format!("{chain}(1){}", ")".repeat(17))), "refused 9 19", &column(&format!("{chain}("), deep));
    // 256 and 296 are 0 and 40 in a byte
    for count in [41, 256, 296] {
        let wide = format!("a node with {count} children, which has at most 40 (question 5)");
        is_refused(&of(format!("1 ({})", "2 ".repeat(count))), "refused 5 2", &column("1 ", &wide));
    }
    for value in ["32001", "-32001", "99999999999999999999", "-99999999999999999999"] {
        let words = "a value that is not from -32,000 to 32,000 (question 7)";
        is_refused(&of(format!("(1 2) (3 {value})")), "refused 7 6", &column("(1 2) (3 ", words));
    }
    // a line is 41 nodes, so line 100 begins with node 4,060, and node 4,096 is its leaf number 36
    let many = format!("({})\n", "1 ".repeat(40)).repeat(2000);
    let words = "line 100, column 72: one node too many; there are 82001, and a tree has at most 4096 (question 2)";
    is_refused(&of(many), "refused 2 0", words);
    assert_eq!(with_input(&["make", "-", "--quiet"], "32001").err, "");
    is_refused(&with_input(&["text", "samples/refused-7.tree"], ""), "refused 7 0", "the leaf holds 32001");
    // a text where a tree file is wanted
    let folder = Folder::new("nested");
    let name = folder.file("ten.text", "(1 2) (3 4)\n");
    let hint = format!("a tree as nested text: `buulset make {name}` makes a tree file of it");
    is_refused(&with_input(&["line", &name], ""), "refused 3 0", &hint);
}

/// The ten lines of the grammar in the help of `make`.
fn grammar() -> String {
    let help = prints(&["make", "--help"]);
    let from = help.find("  text  =").expect("the grammar is in the help");
    help[from..].split("\n\n").next().unwrap().into()
}

#[test]
fn the_documents_have_the_grammar_of_the_help() {
    assert_eq!(grammar().lines().count(), 10);
    let read = |name: &str| fs::read_to_string(root().join(name)).unwrap();
    let bare = |text: &str| text.lines().map(str::trim_start).collect::<Vec<_>>().join("\n");
    assert!(bare(&read("docs/COMMAND.md")).contains(&bare(&grammar())), "docs/COMMAND.md");
    let page = prints(&["manual"]).replace("\\-", "-");
    assert!(bare(&page).contains(&bare(&grammar())), "the manual page");
}
