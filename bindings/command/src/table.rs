//! The table of commands. Help, usage, the parsing of options, shell completions and the manual page are made from it.
use crate::arguments::Arguments;
use crate::{
    commands, completions, draw, explain, line, make, manual, repair, reports, selftest, show, text, watch, Done,
};

pub struct Command {
    pub name: &'static str,
    /// The words after the name, as the usage line has them.
    pub words: &'static str,
    /// What it does, in the list of all commands.
    pub does: &'static str,
    /// What its help and the manual page say; an empty line separates paragraphs. One that begins with two blanks
    /// stands as it is.
    pub about: &'static str,
    /// The options that it takes besides those of every command.
    pub options: &'static [Choice],
    pub examples: &'static [&'static str],
    pub run: fn(Arguments) -> Done,
}

/// An option.
pub struct Choice {
    pub name: &'static str,
    pub short: Option<&'static str>,
    /// What its value is called; `None` where it stands alone.
    pub value: Option<&'static str>,
    pub says: &'static str,
}

const fn flag(name: &'static str, says: &'static str) -> Choice {
    Choice { name, short: None, value: None, says }
}

const fn valued(name: &'static str, value: &'static str, says: &'static str) -> Choice {
    Choice { name, short: None, value: Some(value), says }
}

/// What every command takes.
pub const QUIET: Choice = Choice {
    name: "--quiet",
    short: Some("-q"),
    value: None,
    says: "no hints, progress or summary on standard error; it may also stand before the command",
};

const OUTPUT: Choice = Choice {
    name: "--output",
    short: Some("-o"),
    value: Some("FILE"),
    says: "writes to FILE instead of standard output: only a result, and whole or not at all",
};
const IN_PLACE: Choice =
    flag("--in-place", "replaces FILE itself: only by a result, and whole or not at all; its mode is kept");
const FORCE: Choice =
    flag("--force", "with -o or --in-place: also replaces a file that is read-only or has hard links");
const FROM: Choice = valued("--from", "LIST", "takes file names from LIST too, one a line; - is standard input");

const JSON: Choice = flag("--json", "prints an object of JSON on one line, a refusal too");

const METHOD: Choice = valued("--method", "METHOD", "ab, mtd, mtdf:N, sss (if nothing is said) or plain");

const NAMES: Choice = valued(
    "--names",
    "FILE",
    "takes the names of moves from FILE, a line each: a node number, a blank, the name of the move to that node",
);

pub fn command(name: &str) -> Option<&'static Command> {
    COMMANDS.iter().find(|command| command.name == name)
}

impl Command {
    /// Its options, with those of every command.
    pub fn choices(&self) -> impl Iterator<Item = &'static Choice> {
        self.options.iter().chain([&QUIET])
    }
}

impl Choice {
    /// As a usage line has it.
    pub fn usage(&self) -> String {
        let name = self.short.filter(|_| self.value.is_some()).unwrap_or(self.name);
        self.value.map_or(name.into(), |value| format!("{name} {value}"))
    }
}

/// What stands for a method, where METHOD is wanted.
pub const METHODS: [&str; 5] = ["ab", "mtd", "mtdf:", "sss", "plain"];

pub static COMMANDS: &[Command] = &[
    Command {
        name: "analyse",
        words: "FILE..",
        does: "value, move and leaves by ab, mtd and sss",
        about: "\
Prints the minimax value of the root, the first root move that reaches it, and how many leaves were evaluated, by \
alpha-beta, MTD and SSS*; or `refused`, the number of a question and a place. With several files each report follows a \
line with the file's name, a summary comes on standard error, and the exit status is 1 if any was refused, 2 if any \
could not be read.",
        options: &[
            FROM,
            JSON,
            flag("--csv", "prints a table: a heading, and a row for each file with its numbers or its refusal"),
        ],
        examples: &[
            "buulset analyse samples/seven.tree",
            "find archive -name '*.tree' | buulset analyse --from - > reports.txt",
            "buulset analyse --csv archive/*.tree > archive.csv",
        ],
        run: reports::analyse,
    },
    Command {
        name: "search",
        words: "METHOD FILE",
        does: "one search, with its passes, tests or replacements",
        about: "\
One search, METHOD ab, mtd, mtdf:N, sss or plain, on one line: the method, the value, the root move (0 where the root \
is a leaf), the number of evaluated leaves, and the passes of mtd, the tests of mtdf or the replacements of sss; plain \
counts neither. mtdf:N starts from the value N, a guess: it never changes the value or the move, only how many leaves \
it takes.",
        options: &[
            valued(
                "--leaves",
                "N",
                "sss evaluates N leaves at most; where it needs more: `spent`, the merit (the root's value is at most \
                 this; 32001 says nothing yet), the leaves and the replacements so far",
            ),
            flag("--heading", "prints a line with the names of the numbers first"),
            JSON,
        ],
        examples: &[
            "buulset search mtd samples/ending.tree",
            "buulset search mtdf:-20 samples/ending.tree",
            "buulset search sss samples/ending.tree --leaves 10",
        ],
        run: commands::search,
    },
    Command {
        name: "order",
        words: "METHOD FILE",
        does: "the evaluated leaves in their order: node and worth",
        about: "\
The evaluated leaves in the order in which METHOD, ab, mtd, mtdf:N or sss, evaluates them: a line each, with the \
node's number and the leaf's worth.",
        options: &[JSON],
        examples: &["buulset order sss samples/seven.tree"],
        run: commands::order,
    },
    Command {
        name: "certify",
        words: "METHOD FILE",
        does: "a certificate of the value",
        about: "\
A certificate of the root's value, as METHOD, ab, mtd, mtdf:N, sss or plain, finds it: one line with a digit for each \
node, 1 in the max solution tree, 2 in the min solution tree, 3 in both, 0 in neither. `buulset verify` checks it.",
        options: &[OUTPUT, FORCE],
        examples: &["buulset certify sss samples/ending.tree -o ending.certificate"],
        run: commands::certify,
    },
    Command {
        name: "verify",
        words: "FILE CERTIFICATE",
        does: "the value that a certificate certifies",
        about: "\
Checks a certificate, one line of digits, and prints the value that it certifies: the minimax value of the root. \
Digits past the nodes of the tree are not looked at.",
        options: &[JSON],
        examples: &["buulset certify ab samples/seven.tree | buulset verify samples/seven.tree -"],
        run: commands::verify,
    },
    Command {
        name: "shorter",
        words: "FILE A B",
        does: "of two certificates the one with fewer leaves",
        about: "\
Of two certificates the one with fewer flagged leaves, the first on a tie; if only one is accepted, that one. If \
neither is, the refusal of the first stands.",
        options: &[OUTPUT, FORCE],
        examples: &["buulset shorter samples/ending.tree samples/ending-long.certificate samples/ending.certificate"],
        run: commands::shorter,
    },
    Command {
        name: "graft",
        words: "FILE NODE FILE",
        does: "the first tree with the second in place of a leaf",
        about: "\
The file of the first tree with the second in place of the leaf NODE, where Max would move. On a refusal standard \
error says which file is meant. --in-place replaces the first file.",
        options: &[
            OUTPUT,
            IN_PLACE,
            FORCE,
            valued(
                "--map",
                "FILE",
                "writes to FILE which node got which number: a line for each, with `first` or `second`, the node, and \
                 its number in the result",
            ),
        ],
        examples: &["buulset graft samples/seven.tree 4 samples/ending.tree -o deeper.tree"],
        run: commands::graft,
    },
    Command {
        name: "set",
        words: "FILE LEAF VALUE",
        does: "the tree with another value at a leaf",
        about: "\
The file with another value at a leaf, from -32,000 to 32,000. The changed table is checked before anything is \
written: a node that is no leaf is refused with 19, a value out of range with 7.",
        options: &[OUTPUT, IN_PLACE, FORCE],
        examples: &[
            "buulset set samples/seven.tree 4 -120 -o changed.tree",
            "buulset set changed.tree 4 -1,200 --in-place",
        ],
        run: commands::set,
    },
    Command {
        name: "capitals",
        words: "FILE..",
        does: "files with their letters as capitals",
        about: "\
Files with their letters a to f as capitals and every line closed; the trees do not change. With several files each \
follows a line with its name. With --in-place only refusals are printed, a refused file stays as it is, and standard \
error says how many files changed.",
        options: &[IN_PLACE, FORCE, FROM],
        examples: &["buulset capitals samples/stored.tree", "buulset capitals --in-place archive/*.tree"],
        run: commands::capitals,
    },
    Command {
        name: "repair",
        words: "FILE..",
        does: "files without what editors and other systems do to them",
        about: "\
Files without a byte order mark, Windows or old Macintosh line ends, blanks and tabs, blank lines at the end, small \
letters and a missing last line feed; standard error says what was mended. A file that is still refused gets the line \
of its refusal and stays as it is. With several files each follows a line with its name; with --in-place only refusals \
are printed, and standard error says how many files changed.",
        options: &[OUTPUT, IN_PLACE, FORCE, FROM],
        examples: &["buulset repair samples/stored.tree -o mended.tree", "buulset repair --in-place archive/*.tree"],
        run: repair::run,
    },
    Command {
        name: "needs",
        words: "FILE LEAF VALUE",
        does: "the smallest value of the leaf that gives the root VALUE",
        about: "\
The smallest value of the leaf, from -32,000 to 32,000, that makes the root's value exactly VALUE, the other leaves as \
they are. Where there is none: `refused 21` and the leaf.",
        options: &[JSON],
        examples: &["buulset needs samples/seven.tree 5 4"],
        run: commands::needs,
    },
    Command {
        name: "hardest",
        words: "FILE",
        does: "the same shape, filled so that alpha-beta evaluates every leaf",
        about: "\
The file of the hardest tree of this shape: its leaves hold 0, 1, 2 and so on, arranged so that alpha-beta evaluates \
every one of them.",
        options: &[OUTPUT, IN_PLACE, FORCE],
        examples: &["buulset hardest samples/ending.tree | buulset search ab -"],
        run: commands::hardest,
    },
    Command {
        name: "least",
        words: "WIDTH DEPTH",
        does: "the fewest leaves that decide a regular tree",
        about: "\
The fewest leaves to expect of any search where every inner node has WIDTH children, 1 to 40, all leaves lie at DEPTH, \
0 to 18, and the sides alternate; 65535 is that or more.",
        options: &[JSON],
        examples: &["buulset least 10 6"],
        run: commands::least,
    },
    Command {
        name: "show",
        words: "FILE",
        does: "the tree in the terminal, with the evaluated leaves and the best line",
        about: "\
The tree in the terminal, a node a line: its number, who moves there or the value that the leaf holds, with its worth \
where that differs. #1, #2 and so on number the evaluated leaves in their order, * marks the best line. There is colour \
on a terminal alone, and none where NO_COLOR is set.",
        options: &[
            METHOD,
            valued("--depth", "N", "shows no more than N moves; 0 is the root alone"),
            NAMES,
            flag("--ascii", "draws lines of |, - and ` for terminals without box characters"),
        ],
        examples: &[
            "buulset show samples/ending.tree",
            "buulset show docs/pictures/largest.tree --depth 3 | less",
        ],
        run: show::run,
    },
    Command {
        name: "line",
        words: "FILE",
        does: "the best line from the root, with its value",
        about: "\
The best line, what both sides play if each plays its best: `value` and the root's value, then `line` and the node \
numbers from the root to a leaf. Every node of the line has the root's value, and its first move is that of `buulset \
search`. With names of moves a third line has `moves` and the names, or the node number in brackets where a move has \
no name.",
        options: &[NAMES, JSON],
        examples: &[
            "buulset line samples/ending.tree",
            "buulset line samples/ending.tree --names samples/ending.names",
        ],
        run: line::run,
    },
    Command {
        name: "make",
        words: "TEXT",
        does: "a tree file from nested text, such as (1 2) (3 4)",
        about: "\
The tree file of nested text: (1 2) (3 4) is a root with two nodes of two leaves each. TEXT is a file, - standard \
input; a word with a bracket or a blank in it that is no file is the text itself.

  text  = tree [ \"~\" ]                   ~ where the last line of the file has no line feed
  tree  = child { child }                the children of the root, where Max moves
        | \"=\" value                      a root that is a leaf
  child = value                          a leaf
        | \"(\" child { child } \")\"        a node with children; the other side moves than at its parent
        | \"x\" \"(\" child { child } \")\"    a second capture: the same side moves as at its parent
  value = [ \"-\" ] digit { digit }        -32000 to 32000
  digit = \"0\" | \"1\" | .. | \"9\"
  White space separates values; between other words there may be any amount of it.
  # begins a comment, which goes to the end of the line.

Where the grammar does not take the text, standard error has the line, the column and what was expected, and the exit \
status is 2. A tree that is too large, too wide or too deep is refused as its file would be, with 2, 5 or 9, and a \
value out of range with 7; standard error has the line and the column.",
        options: &[OUTPUT, FORCE],
        examples: &["buulset make '(1 2) (3 4)' -o small.tree", "buulset make ending.text -o ending.tree"],
        run: make::run,
    },
    Command {
        name: "text",
        words: "FILE",
        does: "a tree file as nested text",
        about: "\
The tree as nested text: (1 2) (3 4) is a root with two nodes of two leaves each. `buulset make` makes the same file \
of it, byte for byte, and `buulset make --help` has the grammar.",
        options: &[OUTPUT, FORCE],
        examples: &["buulset text samples/ending.tree", "buulset text samples/ending.tree -o ending.text"],
        run: text::run,
    },
    Command {
        name: "draw",
        words: "FILE",
        does: "a picture of the tree that says why leaves were passed over, as SVG",
        about: "\
A picture of the tree as SVG, for any browser and for print: the root at the left, the table of leaves at the right, \
in every node its value or its bound, the best line strongest, and for what was passed over the reason.",
        options: &[
            METHOD,
            valued(
                "--certificate",
                "FILE",
                "draws the solution trees of this certificate; without --method, nothing else",
            ),
            valued(
                "--rows",
                "N",
                "folds what lies far from the best line, so that there are at most N rows (40) if that can be",
            ),
            flag("--all", "draws every node, also what was passed over"),
            NAMES,
            OUTPUT,
            FORCE,
        ],
        examples: &[
            "buulset draw samples/ending.tree -o ending.svg",
            "buulset draw samples/ending.tree --names samples/ending.names -o ending.svg",
        ],
        run: draw::run,
    },
    Command {
        name: "watch",
        words: "FILE..",
        does: "a page that plays alpha-beta, MTD and SSS* one under another, as HTML",
        about: "\
A page of HTML that plays the runs leaf by leaf, one under another: what is known of each node so far, what was cut \
off and why, and at the end what the runs have in common. It is one file and loads nothing. With several files the \
page has a choice of trees.

Space plays and pauses, the arrow keys step, Home and End go to the ends, + and - change the speed. In the page's \
address ?step=7 or ?step=end opens it there, ?play plays at once, ?loop plays for ever, ?tree=2 takes the second tree.",
        options: &[
            valued(
                "--methods",
                "METHODS",
                "ab,mtd,sss (if nothing is said), or others of ab, mtd, mtdf:N, sss and plain, with commas",
            ),
            NAMES,
            OUTPUT,
            FORCE,
        ],
        examples: &[
            "buulset watch samples/ending.tree -o run.html",
            "buulset watch samples/ending.tree --methods ab,mtd,mtdf:-20 -o guess.html",
        ],
        run: watch::run,
    },
    Command {
        name: "explain",
        words: "[NUMBER]",
        does: "what a question asks that got a \"no\"",
        about: "What a question asks, with its place, in plain words; without a number all of them.",
        options: &[],
        examples: &["buulset explain 6"],
        run: explain::run,
    },
    Command {
        name: "selftest",
        words: "",
        does: "the stored cases, each compared with its expected result",
        about: "\
Runs the stored cases through the library that this command is linked with, compares each with its expected result, \
and prints `N passed, 0 failed`; in under a second, with no file. A case that fails is named on standard error, and the \
exit status is then 1.",
        options: &[],
        examples: &["buulset selftest"],
        run: selftest::run,
    },
    Command {
        name: "completions",
        words: "SHELL",
        does: "what bash, zsh or fish needs to complete commands and options",
        about: "\
Completions for SHELL: bash, zsh or fish. `tools/install` puts them where the shells look for them; by hand, for \
bash in this session alone, as below.",
        options: &[OUTPUT, FORCE],
        examples: &["eval \"$(buulset completions bash)\"", "buulset completions fish -o buulset.fish"],
        run: completions::run,
    },
    Command {
        name: "manual",
        words: "",
        does: "the manual page, for man",
        about: "The manual page in the language of `man`, made of what `--help` says.",
        options: &[OUTPUT, FORCE],
        examples: &["buulset manual -o buulset.1"],
        run: manual::run,
    },
];
