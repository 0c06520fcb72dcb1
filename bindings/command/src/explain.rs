//! What each question asks, in plain words.
use crate::{arguments::Arguments, files, Done};

pub struct Question {
    pub number: u8,
    /// Who asks it.
    asked: &'static str,
    pub asks: &'static str,
    place: &'static str,
    /// What a "no" usually is, and what to do.
    more: &'static str,
}

const TREES: &str = "of every tree";
const CERTIFICATES: &str = "of a certificate (verify, shorter, draw --certificate)";

/// The question about the solution tree of one side: its flag, the side that has all children in it, and the other.
macro_rules! solution_tree {
    ($number:literal, $flag:literal, $tree:literal, $all:literal, $one:literal) => {
        ask(
            $number,
            CERTIFICATES,
            concat!("do the flags ", $flag, " and 3 form a ", $tree, " solution tree?"),
            "the first node whose rule breaks",
            concat!(
                "The root is in it. A ",
                $all,
                " node in it has all its children there, a ",
                $one,
                " node one; a node outside none."
            ),
        )
    };
}

pub const STRUCK: u8 = 15;

const fn ask(number: u8, asked: &'static str, asks: &'static str, place: &'static str, more: &'static str) -> Question {
    Question { number, asked, asks, place, more }
}

#[rustfmt::skip]
pub const QUESTIONS: [Question; 22] = [
    ask(1, TREES, "is there at least one byte?", "0",
        "The file is empty."),
    ask(2, TREES, "has the file at most 53,248 bytes?", "0",
        "A tree has at most 4,096 nodes, each a line of 13 bytes; with Windows line ends a line has 14."),
    ask(3, TREES, "is each line twelve hexadecimal digits?",
        "the first line that is not, counted from 0",
        "Usually Windows line ends, a byte order mark, a blank, a blank line at the end, or a cut file."),
    ask(4, TREES,
        "is byte 3 (digits 7 and 8) 00, or 01 on an inner node other than the root?", "the node",
        "01 is a second capture: the side that moved at the parent moves again. A leaf and the root have 00."),
    ask(5, TREES, "has the node at most 40 children?", "the node",
        "Byte 2 (digits 5 and 6) is the count of children, in hexadecimal: 28 is 40."),
    ask(6, TREES,
        "is the first child (digits 1 to 4) 1 plus the children of all nodes before and greater than the node's own \
         number, and 0000 on a leaf?",
        "the node",
        "Usually a child was miscounted, at this node or at one before it, or a line is missing."),
    ask(7, TREES,
        "is the value (digits 9 to 12) from -32,000 to 32,000 on a leaf, and 0000 on an inner node?",
        "the node", "A negative value is stored as 65,536 less its amount: -1 is FFFF, -32,000 is 8300."),
    ask(8, TREES, "is 1 plus all child counts the number of lines?",
        "the number of lines",
        "Lines are missing at the end (the file was cut), or there are too many, or a child was miscounted."),
    ask(9, TREES, "is no node deeper than 18 moves?", "the first node that is",
        "The tables' screens show 18 moves: cut the tree there."),
    ask(10, "of every buffer that a program lends, and of a certificate",
        "does it have an entry for each node?", "0",
        "A certificate has a digit for each node: this one has too few, or belongs to another tree."),
    ask(11, CERTIFICATES, "is every flag 0 to 3?",
        "the first node whose flag is not",
        "0 stands for no solution tree, 1 for the max tree, 2 for the min tree, 3 for both."),
    solution_tree!(12, "1", "max", "Max", "Min"),
    solution_tree!(13, "2", "min", "Min", "Max"),
    ask(14, CERTIFICATES, "do both solution trees have the same value?", "0",
        "The greatest leaf of the max tree and the least of the min tree differ: no value is certified."),
    ask(16, "of every tree file, after 3 and before 4",
        "are all letters capitals?",
        "the first line that has one, counted from 0",
        "`buulset capitals FILE` writes the same tree with capitals."),
    ask(17, "of a graft", "is the named node a leaf where Max would move?",
        "the node as named",
        "The second tree begins with Max to move: it fits below a Min node, or at a root that is a leaf."),
    ask(18, "of a graft", "has the result at most 4,096 nodes, none deeper than 18 moves?",
        "0", "Graft a smaller tree, or onto a leaf that lies higher."),
    ask(19, "where a leaf is named (needs, set)", "is the named node a leaf?",
        "the node as named", "Nodes are numbered from 0, as the lines are: line 1 is node 0, the root."),
    ask(20, "of needs", "is the wanted value from -32,000 to 32,000?", "0",
        "No root has another value."),
    ask(21, "of needs", "does some value of the leaf give the root the wanted value?",
        "the leaf", "The other leaves decide the root, whatever this one holds."),
    ask(22, "of least", "is the width from 1 to 40?", "0",
        "An inner node has 1 to 40 children."),
    ask(23, "of least", "is the depth at most 18?", "0",
        "No node is deeper than 18 moves."),
];

pub fn question(number: u8) -> Option<&'static Question> {
    QUESTIONS.iter().find(|q| q.number == number)
}

impl Question {
    fn text(&self) -> String {
        let Question { number, asked, asks, place, more } = self;
        format!("{number}: {asks}\n    Asked {asked}. Its place: {place}.\n    {more}\n")
    }
}

const STRUCK_TEXT: &str = "15: struck, and not used again.\n    \
    It asked of SSS* whether a state is on its list while the root is unsolved; that there always is one is proved.\n";

pub fn run(mut arguments: Arguments) -> Done {
    if arguments.is_empty() {
        let all: String = (1..=23).map(|n| question(n).map_or(STRUCK_TEXT.into(), Question::text)).collect();
        return files::print(all.as_bytes());
    }
    let number: i64 = arguments.number("NUMBER")?;
    arguments.end()?;
    let text = match u8::try_from(number).ok().and_then(question) {
        Some(question) => question.text(),
        None if number == STRUCK.into() => STRUCK_TEXT.into(),
        None => return Err(arguments.wrong(format!("there is no question {number}: they are 1 to 23"))),
    };
    files::print(text.as_bytes())
}
