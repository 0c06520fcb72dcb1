//! Nested text, read into nodes that know where they stand in it.
use super::{CLOSE, COMMENT, LONE_LEAF, OPEN, SECOND_CAPTURE, UNCLOSED};
use std::fmt;

/// Where something stands in a text, both counted from 1; a column is a character.
#[derive(Clone, Copy, PartialEq, Eq, Debug)]
pub struct Place {
    pub line: usize,
    pub column: usize,
}

impl fmt::Display for Place {
    fn fmt(&self, f: &mut fmt::Formatter<'_>) -> fmt::Result {
        write!(f, "line {}, column {}", self.line, self.column)
    }
}

pub struct Node {
    pub at: Place,
    /// The value of a leaf, or the nearest that an `i32` holds; 0 on an inner node.
    pub value: i32,
    pub is_second_capture: bool,
    pub children: Vec<usize>,
}

/// A text that the grammar takes.
pub struct Nest {
    /// The nodes in the order of the text; the first is the root.
    pub nodes: Vec<Node>,
    /// Is the last line of the file to have its line feed?
    pub is_closed: bool,
}

/// Where the grammar does not take a text, and why.
#[derive(Debug)]
pub struct Misread {
    pub at: Place,
    pub why: String,
}

/// Reads a text.
pub fn nest(text: &str) -> Result<Nest, Misread> {
    let mut reader = Reader { words: Words::new(text), nodes: Vec::new(), open: vec![0] };
    let first = reader.words.next();
    reader.add(first.at, 0, false);
    let last = match first.text {
        LONE_LEAF => reader.lone_leaf()?,
        _ => reader.children(first)?,
    };
    let is_closed = last.text != UNCLOSED;
    let end = if is_closed { last } else { reader.words.next() };
    match end.text {
        "" => Ok(Nest { nodes: reader.nodes, is_closed }),
        _ => Err(end.misread("the end of the text")),
    }
}

struct Reader<'a> {
    words: Words<'a>,
    nodes: Vec<Node>,
    /// The nodes whose children are being read, from the root on.
    open: Vec<usize>,
}

impl<'a> Reader<'a> {
    fn add(&mut self, at: Place, value: i32, is_second_capture: bool) -> usize {
        self.nodes.push(Node { at, value, is_second_capture, children: Vec::new() });
        self.nodes.len() - 1
    }

    /// The value of a root that is a leaf; gives the word after it.
    fn lone_leaf(&mut self) -> Result<Word<'a>, Misread> {
        let word = self.words.next();
        self.nodes[0].value = value(word.text).ok_or_else(|| word.misread("a value"))?;
        Ok(self.words.next())
    }

    /// All below the root; gives the word after it.
    fn children(&mut self, first: Word<'a>) -> Result<Word<'a>, Misread> {
        let mut word = first;
        while self.child(&word)? {
            word = self.words.next();
        }
        Ok(word)
    }

    /// Takes a word among the children of the innermost open node; false where it ends the tree.
    fn child(&mut self, word: &Word<'a>) -> Result<bool, Misread> {
        let parent = self.open[self.open.len() - 1];
        let is_root = self.open.len() == 1;
        let is_empty = self.nodes[parent].children.is_empty();
        match word.text {
            "" | UNCLOSED if is_root && !is_empty => return Ok(false),
            CLOSE if !is_root && !is_empty => {
                self.open.pop();
                return Ok(true);
            }
            _ => {}
        }
        let is_second_capture = word.text == SECOND_CAPTURE;
        let bracket = if is_second_capture { self.words.next() } else { *word };
        let leaf = value(word.text);
        if is_second_capture && bracket.text != OPEN {
            return Err(bracket.misread("( after x, the children of a second capture"));
        } else if leaf.is_none() && bracket.text != OPEN {
            return Err(self.no_child(word, is_root, is_empty));
        }
        let child = self.add(word.at, leaf.unwrap_or(0), is_second_capture);
        self.nodes[parent].children.push(child);
        if leaf.is_none() {
            self.open.push(child);
        }
        Ok(true)
    }

    /// What is wrong with a word that is neither a child nor the end of a node's children.
    fn no_child(&self, word: &Word, is_root: bool, is_empty: bool) -> Misread {
        let mut misread = word.misread(match (is_root, is_empty) {
            (true, true) => "a value, (, x( or =",
            (true, false) => "a value, (, x( or the end of the text",
            (false, true) => "a value, ( or x(",
            (false, false) => "a value, (, x( or )",
        });
        misread.why += &match (word.text, self.open.last()) {
            ("" | UNCLOSED, Some(&node)) if !is_root => format!("; the node of {} has no )", self.nodes[node].at),
            (CLOSE, _) if !is_root => "; a node in brackets has at least one child".into(),
            (CLOSE, _) => "; no ( is open".into(),
            (text, _) if text.contains(',') => "; blanks stand between values, and a value has no comma".into(),
            _ => String::new(),
        };
        misread
    }
}

/// The number of a word that is one, or the nearest that an `i32` holds.
fn value(word: &str) -> Option<i32> {
    let digits = word.strip_prefix('-').unwrap_or(word);
    if digits.is_empty() || !digits.bytes().all(|b| b.is_ascii_digit()) {
        return None;
    }
    Some(word.parse().unwrap_or(if digits == word { i32::MAX } else { i32::MIN }))
}

/// A word of the grammar: a sign, or all up to a blank or a sign; empty at the end of the text.
#[derive(Clone, Copy)]
struct Word<'a> {
    at: Place,
    text: &'a str,
}

impl Word<'_> {
    fn misread(&self, expected: &str) -> Misread {
        const SHOWN: usize = 20;
        let found = match self.text.char_indices().nth(SHOWN) {
            None if self.text.is_empty() => "the end of the text".into(),
            None => format!("\"{}\"", self.text.escape_debug()),
            Some((end, _)) => format!("\"{}..\"", self.text[..end].escape_debug()),
        };
        Misread { at: self.at, why: format!("expected {expected}, found {found}") }
    }
}

/// The words of a text, one after the other.
struct Words<'a> {
    rest: &'a str,
    at: Place,
}

impl<'a> Words<'a> {
    fn new(text: &'a str) -> Words<'a> {
        // a byte order mark is no character of the text
        Words { rest: text.strip_prefix('\u{FEFF}').unwrap_or(text), at: Place { line: 1, column: 1 } }
    }

    /// The next word; at the end of the text an empty one, however often it is asked for.
    fn next(&mut self) -> Word<'a> {
        loop {
            let blanks = self.rest.find(|c: char| !c.is_whitespace()).unwrap_or(self.rest.len());
            self.take(blanks);
            if !self.rest.starts_with(COMMENT) {
                break;
            }
            self.take(self.rest.find(['\n', '\r']).unwrap_or(self.rest.len()));
        }
        let at = self.at;
        let end = self.rest.find(|c: char| c.is_whitespace() || is_sign(c) || c == COMMENT).unwrap_or(self.rest.len());
        let is_sign = self.rest.starts_with(is_sign);
        Word { at, text: self.take(if is_sign { 1 } else { end }) }
    }

    /// Goes on by so many bytes.
    fn take(&mut self, length: usize) -> &'a str {
        let (taken, rest) = self.rest.split_at(length);
        for (i, c) in taken.char_indices() {
            let is_line_end = c == '\n' || c == '\r' && !self.rest[i + 1..].starts_with('\n');
            self.at = match is_line_end {
                true => Place { line: self.at.line + 1, column: 1 },
                false => Place { column: self.at.column + 1, ..self.at },
            };
        }
        self.rest = rest;
        taken
    }
}

fn is_sign(c: char) -> bool {
    [OPEN, CLOSE, LONE_LEAF, UNCLOSED].iter().any(|sign| sign.starts_with(c))
}
